//! The health checks of orchestrators at the gRPC address.

use super::super::health::{HealthCheckRequest, HealthCheckResponse, NOT_SERVING, SERVING};
use super::*;

const CHECK: &str = "/grpc.health.v1.Health/Check";
const GRPC: [(&str, &str); 1] = [("content-type", "application/grpc")];

fn asked(service: &str) -> Vec<u8> {
    frame(0, &HealthCheckRequest { service: service.into() }.encode_to_vec())
}

/// As `grpc_health_probe` asks: without a sender's name, whatever is posted.
#[tokio::test]
async fn a_check_says_whether_posts_are_taken() {
    let served = Served::start().await;
    let answer = |status: i32| frame(0, &HealthCheckResponse { status }.encode_to_vec());
    for service in ["", "opentelemetry.proto.collector.metrics.v1.MetricsService"] {
        served.is_available.store(true, Relaxed);
        let said = served.call(CHECK, &GRPC, asked(service)).await;
        assert_eq!((said.status, said.code(), said.data), (200, 0, answer(SERVING)), "{service}");
        served.is_available.store(false, Relaxed);
        let said = served.call(CHECK, &GRPC, asked(service)).await;
        assert_eq!((said.code(), said.data), (0, answer(NOT_SERVING)), "{service}");
    }
    let other = served.call(CHECK, &GRPC, asked("a.B")).await;
    assert_eq!(other.code(), 5, "NOT_FOUND, as the protocol has it");
    for body in [Vec::new(), frame(1, b"x"), frame(0, b"x"), frame(0, &[10, 255, 255, 255, 15])] {
        assert_eq!(served.call(CHECK, &GRPC, body).await.code(), 3);
    }
    let watch = served.call("/grpc.health.v1.Health/Watch", &GRPC, asked("")).await;
    assert_eq!(watch.code(), 12, "UNIMPLEMENTED: a client asks by Check then");
    assert!(served.kept.posts.lock().unwrap().is_empty());
    served.nothing_is_held().await;
}

/// The bytes of the standard's own messages: field 1 is the name, or the status.
#[tokio::test]
async fn messages_are_those_of_the_standard() {
    assert_eq!(HealthCheckRequest { service: "ab".into() }.encode_to_vec(), b"\x0a\x02ab");
    assert_eq!(HealthCheckResponse { status: SERVING }.encode_to_vec(), [8, 1]);
    assert_eq!(HealthCheckResponse { status: NOT_SERVING }.encode_to_vec(), [8, 2]);
}
