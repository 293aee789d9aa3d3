//! What senders are answered, and what the answers of receivers say.

use super::json::{Document, Value};
use super::messages::{ExportMetricsPartialSuccess, ExportMetricsServiceResponse, Status};
use super::number::mapped_whole;
use super::{Encoding, Outcome, Rejection};
use prost::Message;
use serde_json::json;

/// What a receiver's answer in JSON says beside its success, by either name of a field; null is nothing.
pub fn partial_success(answer: &[u8]) -> Option<ExportMetricsPartialSuccess> {
    let document = Document::parse(answer).ok()?;
    let partial = document.root().either(["partialSuccess", "partial_success"])?;
    drop(partial.members()?);
    let rejected = partial.either(["rejectedDataPoints", "rejected_data_points"]).and_then(mapped_whole);
    let why = partial.either(["errorMessage", "error_message"]).and_then(Value::text);
    Some(ExportMetricsPartialSuccess {
        rejected_data_points: i64::try_from(rejected.unwrap_or(0)).unwrap_or(i64::MAX),
        error_message: why.unwrap_or_default().into_owned(),
    })
}

impl Outcome {
    /// The answer's body: `ExportMetricsServiceResponse`, or `google.rpc.Status`.
    pub fn body(&self, encoding: Encoding) -> Vec<u8> {
        match encoding {
            Encoding::Json => json(self).into_bytes(),
            Encoding::Protobuf => protobuf(self),
        }
    }
}

fn json(outcome: &Outcome) -> String {
    let body = match outcome {
        Outcome::Taken { rejected, .. } => match outcome.message() {
            None => json!({}),
            Some(message) => json!({ "partialSuccess": {
                "errorMessage": message,
                "rejectedDataPoints": rejected.to_string(),
            }}),
        },
        Outcome::Refused(Rejection { reason, message, .. }) => {
            json!({ "code": reason.code(), "message": message })
        }
    };
    body.to_string()
}

fn protobuf(outcome: &Outcome) -> Vec<u8> {
    match outcome {
        Outcome::Taken { rejected, .. } => {
            let partial_success = outcome.message().map(|error_message| ExportMetricsPartialSuccess {
                rejected_data_points: i64::try_from(*rejected).unwrap_or(i64::MAX),
                error_message,
            });
            ExportMetricsServiceResponse { partial_success }.encode_to_vec()
        }
        Outcome::Refused(Rejection { reason, message, .. }) => {
            Status { code: reason.code(), message: message.clone(), details: Vec::new() }.encode_to_vec()
        }
    }
}
