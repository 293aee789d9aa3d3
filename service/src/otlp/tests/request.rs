//! Requests as they came: what is copied of them is the same, and none of those who look for something in them panics.

use super::mapping::Spelling;
use super::*;
use crate::otlp::request::{Edit, Node, Request};
use crate::otlp::schema::{self, REQUEST};

/// A message with each in it written anew.
fn put_copy<'a>(message: Node<'a>, of: &'static schema::Message, out: &mut Vec<u8>) -> Option<()> {
    message.edited(of, out, &mut |field, inner, out| {
        put_copy(inner, field.message()?, out)?;
        Some(Edit::Written)
    })
}

fn copied(encoding: Encoding, body: &[u8]) -> Vec<u8> {
    let (request, mut out) = (Request::of(encoding, body).unwrap(), Vec::new());
    put_copy(request.root(), &REQUEST, &mut out).unwrap();
    out
}

#[test]
fn a_copy_is_what_came_in_both_encodings() {
    let mut random = Random(23);
    for draw in 0..400 {
        let request = random.request();
        let body = request.encode_to_vec();
        assert_eq!(copied(Encoding::Protobuf, &body), body);
        let spelling =
            Spelling { proto_names: draw & 1 != 0, numbers: draw & 2 != 0, enum_names: draw & 4 != 0 };
        let text = spelling.request(&request);
        let read = |text: &[u8]| serde_json::from_slice::<serde_json::Value>(text).unwrap();
        assert_eq!(read(&copied(Encoding::Json, text.as_bytes())), read(text.as_bytes()), "{text}");
    }
}

/// Each of them leaves what can't be read to who says why, or is refused as that one refuses it.
#[test]
fn cut_and_changed_requests_are_looked_through() {
    let (mut random, mut split) = (Random(29), 0);
    let reading = Reading {
        sender_from: Some("a".into()),
        sender_attribute: Some("b".into()),
        instance_from_sender: true,
        ..Reading::default()
    };
    let resources = Resources::new(3, Reading::default().into());
    let names = SenderNames { name: "shop-1", proved: Some("shop-1") };
    for draw in 0..60 {
        let request = random.request();
        let spelling = Spelling { proto_names: draw % 2 == 0, numbers: false, enum_names: false };
        for (encoding, body) in [
            (Encoding::Protobuf, request.encode_to_vec()),
            (Encoding::Json, spelling.request(&request).into_bytes()),
        ] {
            for _ in 0..20 {
                let (place, mut body) = (random.below(body.len() as u64 + 1) as usize, body.clone());
                match random.below(3) {
                    0 => body.truncate(place),
                    1 => {
                        body.iter_mut().skip(place).take(1).for_each(|byte| *byte ^= random.below(256) as u8)
                    }
                    _ => {}
                }
                let body = Bytes::from(body);
                let is_read = prepare(encoding, body.clone(), &Reading::default()).is_ok();
                let put = with_sender_attributes(names, encoding, body.clone(), &reading);
                assert!(put.is_ok() || !is_read, "{body:?}");
                let _named = sender(NO_NAME.into(), encoding, &body, &reading);
                split += usize::from(matches!(resources.split(encoding, &body), Split::Parts(_)));
                let points = Original { encoding, body: body.clone() }.points();
                assert!(points <= body.len() as u64);
            }
        }
    }
    assert!(split > 20, "{split}");
}
