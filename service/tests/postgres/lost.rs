//! Tests a schema that is taken away while the service runs.

use super::server::{sum, Server};
use super::{open, taken};
use std::fmt::Debug;
use std::sync::{Arc, Mutex};
use tracing::field::{Field, Visit};
use tracing_subscriber::layer::{Context, Layer, SubscriberExt};

/// Keeps warnings, each with its fields.
#[derive(Clone, Default)]
struct Warnings(Arc<Mutex<Vec<String>>>);

impl<S: tracing::Subscriber> Layer<S> for Warnings {
    fn on_event(&self, event: &tracing::Event<'_>, _: Context<'_, S>) {
        if *event.metadata().level() == tracing::Level::WARN {
            self.0.lock().unwrap().push(String::new());
            event.record(&mut self.clone());
        }
    }
}

impl Visit for Warnings {
    fn record_debug(&mut self, field: &Field, value: &dyn Debug) {
        if let Some(text) = self.0.lock().unwrap().last_mut() {
            *text += &format!(" {}={value:?}", field.name());
        }
    }
}

/// Otherwise a new one would be made in silence, and whoever looks at it would find everything gone.
#[tokio::test]
async fn a_schema_that_is_renamed_or_dropped_is_told_of() {
    let Some(server) = Server::start() else { return };
    let warnings = Warnings::default();
    let _told = tracing::subscriber::set_default(tracing_subscriber::registry().with(warnings.clone()));
    let told = || std::mem::take(&mut *warnings.0.lock().unwrap());
    let sink = open(&server.by_socket("postgres"));
    taken(&*sink, 1, sum("a", 100, 200, 5)).await;
    assert_eq!(told(), [""; 0]);
    server.ask("alter schema totxegun rename to before");
    let again = sink.deliver(&super::request(2, sum("a", 200, 300, 5))).await;
    if again != totxegun::sink::DeliveryOutcome::Taken {
        taken(&*sink, 2, sum("a", 200, 300, 5)).await;
    }
    let [renamed] = told().try_into().expect("one warning");
    let is_fenced = |told: &str| told.contains("the schema totxegun is lost: a fresh one is made");
    assert!(is_fenced(&renamed) && renamed.contains("is not there, and before has its tables"), "{renamed}");
    server.ask("drop schema before cascade; drop schema totxegun cascade");
    let again = sink.deliver(&super::request(3, sum("a", 300, 400, 5))).await;
    if again != totxegun::sink::DeliveryOutcome::Taken {
        taken(&*sink, 3, sum("a", 300, 400, 5)).await;
    }
    let [dropped] = told().try_into().expect("one warning");
    assert!(is_fenced(&dropped) && dropped.contains("how=\"is gone\""), "{dropped}");
}
