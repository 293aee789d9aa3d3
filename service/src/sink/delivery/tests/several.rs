//! A sink that takes several requests in one transaction.

use super::*;

/// Refuses these requests and takes all others, each once.
#[derive(Default)]
struct Several {
    refused: Vec<u64>,
    /// While it is away, it takes requests only one by one.
    is_away: Mutex<bool>,
    taken: Mutex<Vec<u64>>,
    /// How many requests came at once.
    came: Mutex<Vec<usize>>,
    held: Keys,
}

impl Sink for Several {
    fn deliver_of<'a>(
        &'a self,
        request: &'a Forwarded,
        _tenure: Option<&'a Tenure>,
    ) -> Answer<'a, DeliveryOutcome> {
        self.came.lock().expect("came").push(1);
        let is_refused = self.refused.contains(&request.number);
        let fate = match std::mem::take(&mut *self.is_away.lock().expect("away")) {
            true => away(),
            false if is_refused => DeliveryOutcome::refused("no"),
            false => {
                self.taken.lock().expect("taken").push(request.number);
                DeliveryOutcome::Taken
            }
        };
        Box::pin(async { fate })
    }

    fn most_together(&self) -> usize {
        8
    }

    fn deliver_together<'a>(&'a self, all: &'a [Forwarded], _tenure: Option<&'a Tenure>) -> Answer<'a, bool> {
        self.came.lock().expect("came").push(all.len());
        let is_away = *self.is_away.lock().expect("away");
        let is_taken = !is_away && !all.iter().any(|one| self.refused.contains(&one.number));
        if is_taken {
            self.taken.lock().expect("taken").extend(all.iter().map(|one| one.number));
        }
        Box::pin(async move { is_taken })
    }

    fn name(&self) -> String {
        "several".into()
    }

    fn keys(&self) -> &Keys {
        &self.held
    }
}

async fn delivered(sink: Several, count: u64) -> (Arc<Several>, Memory) {
    let memory = waiting(1..=count);
    let sink = Arc::new(sink);
    let (_never, stop) = watch::channel(false);
    let run = Run { sink: sink.clone(), ..prepared(Arc::default(), &memory, stop) };
    assert!(run.until_it_ends().await.is_err(), "it ends by a fault alone");
    assert_eq!(*memory.acknowledged.lock().expect("acknowledged"), (1..=count).collect::<Vec<u64>>());
    let counted =
        ["taken", "refused"].map(|outcome| run.metrics.deliveries.with_label_values(&[outcome]).get());
    let refused = sink.refused.len() as u64;
    assert_eq!(counted, [count - refused, refused]);
    (sink, memory)
}

#[tokio::test]
async fn as_many_as_it_takes_go_in_one_go() {
    let (sink, _) = delivered(Several::default(), 20).await;
    assert_eq!(*sink.came.lock().expect("came"), [8, 8, 4]);
    let (sink, _) = delivered(Several::default(), 1).await;
    assert_eq!(*sink.came.lock().expect("came"), [1]);
}

/// A refused request takes no other with it into `dead-letters/`.
#[tokio::test]
async fn one_that_is_refused_goes_by_itself() {
    for refused in [vec![1], vec![5], vec![20], vec![3, 4, 11], (1..=20).collect()] {
        let (sink, memory) = delivered(Several { refused: refused.clone(), ..Several::default() }, 20).await;
        let taken: Vec<u64> = (1..=20).filter(|number| !refused.contains(number)).collect();
        assert_eq!(*sink.taken.lock().expect("taken"), taken);
        let dead = memory.dead.lock().expect("dead");
        let keys: Vec<String> = dead.iter().map(|(key, ..)| key.clone()).collect();
        assert_eq!(keys, refused.iter().map(|number| format!("2-e-{number}")).collect::<Vec<_>>());
    }
}

/// Otherwise it would be asked again and again without a pause.
#[tokio::test]
async fn while_it_is_away_one_is_tried_by_itself() {
    let (sink, _) = delivered(Several { is_away: Mutex::new(true), ..Several::default() }, 20).await;
    assert_eq!(sink.came.lock().expect("came")[..3], [8, 1, 1]);
    assert_eq!(*sink.taken.lock().expect("taken"), (1..=20).collect::<Vec<u64>>());
}
