//! Receives the one message of a call: a byte that says whether it is compressed, its length, and its bytes.

use crate::ingest::refusal::Refusal;
use crate::ingest::{Arrival, MemoryHold, LEFT_BYTES, LEFT_TIME, MOST};
use bytes::Bytes;
use hyper::body::{Body, HttpBody};

/// The length of the prefix before a message.
const PREFIX: usize = 5;

/// The message of a call, still compressed if `is_packed`.
#[derive(Debug, PartialEq, Eq)]
pub struct Message {
    pub is_packed: bool,
    pub bytes: Bytes,
}

/// Receives the whole body of a call. If its announced length is too long, it is refused before it has arrived.
pub async fn receive(body: &mut Body, hold: &mut MemoryHold) -> Result<Message, Refusal> {
    let mut whole = Vec::new();
    let mut first: Option<Bytes> = None;
    let mut arrival = Arrival::of(hold);
    while let Some(part) = arrival.next(body.data()).await? {
        let part = part.map_err(|_| Refusal::Gone)?; // the call was cancelled, or its connection has ended
        let have = first.as_ref().map_or(whole.len(), Bytes::len) + part.len();
        arrival.has(have)?;
        match first.take() {
            None if whole.is_empty() => first = Some(part),
            before => {
                whole.extend_from_slice(&before.unwrap_or_default());
                whole.extend_from_slice(&part);
            }
        }
        let length = length(first.as_deref().unwrap_or(&whole))?;
        if length.is_some_and(|length| have > PREFIX + length) {
            return Err(Refusal::Malformed);
        }
    }
    // Most messages come in one part, which is not copied.
    let whole = first.unwrap_or_else(|| whole.into());
    match length(&whole)? {
        Some(length) if whole.len() == PREFIX + length => {
            Ok(Message { is_packed: whole[0] == 1, bytes: whole.slice(PREFIX..) })
        }
        _ => Err(Refusal::Malformed),
    }
}

/// Reads and discards the rest of a refused call, within bounds.
pub async fn throw_away(body: &mut Body) {
    let reading = async {
        let mut thrown = 0;
        while thrown <= LEFT_BYTES {
            let Some(Ok(part)) = body.data().await else { return };
            thrown += part.len();
        }
    };
    let _ = tokio::time::timeout(LEFT_TIME, reading).await; // a slower sender may see only a reset
}

/// The length of the message, once its prefix has arrived.
fn length(received: &[u8]) -> Result<Option<usize>, Refusal> {
    let Some((prefix, _)) = received.split_first_chunk::<PREFIX>() else {
        return Ok(None);
    };
    let [flag, a, b, c, d] = *prefix;
    let length = u32::from_be_bytes([a, b, c, d]) as usize;
    match flag {
        0 | 1 if length <= MOST => Ok(Some(length)),
        0 | 1 => Err(Refusal::TooLong),
        _ => Err(Refusal::Malformed),
    }
}

#[cfg(test)]
mod tests {
    use super::*;
    use crate::ingest::Budget;

    const TOO_LONG: &str =
        "body too long: over 4194304 bytes, compressed or not: post fewer points at a time";

    /// Receives a body that comes in these parts.
    async fn received(parts: Vec<Vec<u8>>) -> Result<Message, String> {
        let budget = Budget::new(64 << 20);
        let (mut sender, mut body) = Body::channel();
        tokio::spawn(async move {
            for part in parts {
                if sender.send_data(part.into()).await.is_err() {
                    return;
                }
            }
        });
        let received = receive(&mut body, &mut budget.hold()).await;
        assert_eq!(budget.used(), 0);
        received.map_err(|refusal| refusal.to_string())
    }

    fn message(is_packed: bool, bytes: &'static [u8]) -> Result<Message, String> {
        let bytes = Bytes::from_static(bytes);
        Ok(Message { is_packed, bytes })
    }

    #[tokio::test]
    async fn a_message_is_had_however_it_is_cut() {
        let framed = [&[1, 0, 0, 0, 3][..], b"abc"].concat();
        assert_eq!(received(vec![framed.clone()]).await, message(true, b"abc"));
        for cut in 1..framed.len() {
            let parts = vec![framed[..cut].to_vec(), framed[cut..].to_vec()];
            assert_eq!(received(parts).await, message(true, b"abc"), "{cut}");
        }
        let bytes = framed.iter().map(|byte| vec![*byte]).collect();
        assert_eq!(received(bytes).await, message(true, b"abc"));
        assert_eq!(received(vec![vec![0; 5]]).await, message(false, b""));
    }

    #[tokio::test]
    async fn what_is_no_message_is_refused() {
        for (body, why) in [
            (vec![], "malformed request"),
            (vec![0, 0, 0, 0], "malformed request"),
            (vec![0, 0, 0, 0, 2, 1], "malformed request"),
            (vec![0, 0, 0, 0, 1, 1, 2], "malformed request"),
            (vec![0, 0, 0, 0, 0, 0, 0, 0, 0, 0], "malformed request"),
            (vec![2, 0, 0, 0, 1, 1], "malformed request"),
            (vec![0, 0, 0x40, 0, 1], TOO_LONG),
            (vec![0, 255, 255, 255, 255, 1], TOO_LONG),
        ] {
            assert_eq!(received(vec![body.clone()]).await, Err(why.to_string()), "{body:?}");
        }
    }
}
