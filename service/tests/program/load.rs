//! Senders that post while a service is killed.

use super::support::{asked, points, Service, PATIENCE};
use std::collections::BTreeMap;
use std::sync::atomic::{AtomicBool, Ordering::Relaxed};
use std::sync::{Arc, RwLock};
use std::time::{Duration, Instant};

/// Senders that repeat each post until it is answered, at whatever address the service currently has.
pub struct Load {
    pub address: Arc<RwLock<String>>,
    ends: Arc<AtomicBool>,
    threads: Vec<std::thread::JoinHandle<(String, i64)>>,
}

impl Load {
    pub fn begin(senders: usize, first: u64) -> Load {
        let (address, ends) = (Arc::new(RwLock::new(String::new())), Arc::new(AtomicBool::new(false)));
        let mut threads = Vec::new();
        for sender in 0..senders {
            let (address, ends) = (address.clone(), ends.clone());
            threads.push(std::thread::spawn(move || post_all(&format!("s{sender}"), first, &address, &ends)));
        }
        Load { address, ends, threads }
    }

    pub fn goes_to(&self, service: &Service) {
        *self.address.write().unwrap() = service.listen.clone();
    }

    /// Ends the senders. Returns, by series, what was answered as taken.
    pub fn end(self) -> BTreeMap<String, i64> {
        self.ends.store(true, Relaxed);
        self.threads.into_iter().map(|thread| thread.join().unwrap()).collect()
    }
}

fn post_all(sender: &str, first: u64, address: &RwLock<String>, ends: &AtomicBool) -> (String, i64) {
    let (mut end, mut total) = (first, 0);
    while !ends.load(Relaxed) {
        end += 10;
        let value = (end % 97) as i64;
        let body = points(&[sender], end, value);
        let begun = Instant::now();
        loop {
            let to = address.read().unwrap().clone();
            match asked(&to, "POST", "/v1/metrics", sender, &body) {
                Some((200, text)) if text == "{}" => break,
                Some((503, _)) | None => {}
                Some(other) => panic!("{sender}, {end}: {other:?}"),
            }
            assert!(begun.elapsed() < PATIENCE, "{sender}: no answer");
            std::thread::sleep(Duration::from_millis(5));
        }
        total += value;
    }
    (sender.to_string(), total)
}
