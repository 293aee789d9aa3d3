//! A proxy that passes bytes on, stops after a number of parts, cuts clients off, and delivers held parts to the server
//! late.

use std::collections::BTreeSet;
use std::io::{Read, Write};
use std::net::{Shutdown, TcpListener, TcpStream};
use std::sync::{Arc, Condvar, Mutex};
use std::thread;

pub struct Proxy {
    pub port: u16,
    gate: Arc<Gate>,
}

#[derive(Default)]
struct Gate {
    state: Mutex<State>,
    changed: Condvar,
}

#[derive(Default)]
struct State {
    /// How many parts still pass. None: all of them.
    left: Option<u64>,
    /// The connection on which the next part with this text comes goes silent.
    text: Option<&'static str>,
    /// These connections were cut or are silent. What they hold waits until the proxy goes on.
    cut: BTreeSet<usize>,
    clients: Vec<TcpStream>,
    /// The connection of each part that is held.
    held: Vec<usize>,
}

impl State {
    fn cut_off(&mut self, connections: impl IntoIterator<Item = usize>) {
        self.left = None;
        for connection in connections {
            if self.cut.insert(connection) {
                let _ = self.clients[connection].shutdown(Shutdown::Both);
            }
        }
    }
}

impl Gate {
    fn pass(&self, connection: usize, part: &[u8]) {
        let mut state = self.state.lock().unwrap();
        let has = |text: &&str| part.windows(text.len()).any(|some| some == text.as_bytes());
        if state.text.take_if(|text| has(&&**text)).is_some() {
            state.cut.insert(connection);
        }
        state.held.push(connection);
        self.changed.notify_all();
        while state.left == Some(0) || state.cut.contains(&connection) {
            state = self.changed.wait(state).unwrap();
        }
        let place = state.held.iter().position(|held| *held == connection).unwrap();
        state.held.swap_remove(place);
        state.left = state.left.map(|left| left - 1);
    }
}

impl Proxy {
    pub fn start(to: u16) -> Proxy {
        let listener = TcpListener::bind("127.0.0.1:0").unwrap();
        let port = listener.local_addr().unwrap().port();
        let gate = Arc::<Gate>::default();
        let passing = gate.clone();
        thread::spawn(move || {
            for client in listener.incoming().flatten() {
                let Ok(server) = TcpStream::connect(("127.0.0.1", to)) else {
                    continue;
                };
                let mut state = passing.state.lock().unwrap();
                let connection = state.clients.len();
                state.clients.push(client.try_clone().unwrap());
                let (up, down) =
                    ((client.try_clone().unwrap(), server.try_clone().unwrap()), (server, client));
                for (from, into) in [up, down] {
                    let gate = passing.clone();
                    thread::spawn(move || pass(from, into, &gate, connection));
                }
            }
        });
        Proxy { port, gate }
    }

    fn change(&self, change: impl FnOnce(&mut State)) {
        change(&mut self.gate.state.lock().unwrap());
        self.gate.changed.notify_all();
    }

    pub fn stop_after(&self, parts: u64) {
        self.change(|state| state.left = Some(parts));
    }

    pub fn silence_at(&self, text: &'static str) {
        self.change(|state| state.text = Some(text));
    }

    /// How many connections there were.
    pub fn connections(&self) -> usize {
        self.gate.state.lock().unwrap().clients.len()
    }

    pub fn holds(&self) -> bool {
        let state = self.gate.state.lock().unwrap();
        !state.held.is_empty() && (state.left == Some(0) || !state.cut.is_empty())
    }

    /// Cuts all clients off. New ones are served; what is held stays held.
    pub fn cut(&self) {
        self.change(|state| {
            let all = 0..state.clients.len();
            state.cut_off(all);
        });
    }

    /// The same, but only for clients with held parts.
    pub fn cut_held(&self) {
        self.change(|state| {
            let held = state.held.clone();
            state.cut_off(held);
        });
    }

    /// Sends held parts to where they were going.
    pub fn go_on(&self) {
        self.change(|state| {
            state.left = None;
            state.cut.clear();
        });
    }

    pub fn address(&self) -> String {
        format!("postgres://postgres@127.0.0.1:{}/postgres", self.port)
    }
}

fn pass(mut from: TcpStream, mut into: TcpStream, gate: &Gate, connection: usize) {
    let mut bytes = vec![0; 1 << 16];
    while let Ok(count @ 1..) = from.read(&mut bytes) {
        gate.pass(connection, &bytes[..count]);
        if into.write_all(&bytes[..count]).is_err() {
            break;
        }
    }
    let _ = into.shutdown(Shutdown::Write);
}
