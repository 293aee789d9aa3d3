//! JSON that the service forwards, in protobuf: each message by its table, its fields in that order.

use super::json::Value;
use super::number::{book_whole, is_whole_double};
use super::schema::{Field, Kind, Message, Wire, NUMBER_POINT};
use super::wire::{put_field, put_fixed64, put_varint};

/// Writes a message. None if a member is no value of its field, or if there are several of which a message has one.
pub fn put_message(out: &mut Vec<u8>, of: &'static Message, object: Value<'_>) -> Option<()> {
    let mut of_one = 0;
    drop(object.members()?);
    for field in of.fields {
        if let Some(value) = object.member(field.name) {
            of_one += usize::from(of.one_of.contains(&field.number));
            put_member(out, field, value)?;
        }
    }
    // A value may have nothing; a point may not.
    (of_one <= 1 && (of_one == 1 || !std::ptr::eq(of, &NUMBER_POINT))).then_some(())
}

/// Writes a field.
fn put_member(out: &mut Vec<u8>, field: &'static Field, value: Value<'_>) -> Option<()> {
    let number = u32::from(field.number);
    match field.kind {
        Kind::Messages(inner) | Kind::Parts(inner) => {
            value.elements()?.try_for_each(|element| put_inner(out, number, inner, element))?
        }
        Kind::ResourceAttributes => {
            let inner = field.message()?;
            value.elements()?.try_for_each(|element| put_inner(out, number, inner, element))?
        }
        Kind::Message(inner) | Kind::Part(inner) => put_inner(out, number, inner, value)?,
        Kind::Text | Kind::Unit => put_field(out, number, value.text()?.as_bytes()),
        Kind::Bool => put_varint(out, number, u64::from(value.truth()?)),
        Kind::Temporality | Kind::Whole(Wire::Uint32) => {
            put_varint(out, number, u64::from(u32::try_from(book_whole(value)?).ok()?))
        }
        Kind::Whole(Wire::Int64) => put_varint(out, number, i64::try_from(book_whole(value)?).ok()? as u64),
        Kind::Whole(Wire::Sfixed64) => {
            put_fixed64(out, number, i64::try_from(book_whole(value)?).ok()? as u64)
        }
        Kind::Whole(Wire::Fixed64) => put_fixed64(out, number, u64::try_from(book_whole(value)?).ok()?),
        Kind::Double => put_fixed64(out, number, double(value)?.to_bits()),
        Kind::Wholes => put_list(out, number, value, |whole| u64::try_from(book_whole(whole)?).ok())?,
        Kind::Doubles => put_list(out, number, value, |bound| Some(double(bound)?.to_bits()))?,
        // Nothing that is forwarded has these.
        Kind::Whole(Wire::Sint32) | Kind::Numbers | Kind::Fraction | Kind::Bytes => return None,
        Kind::Foreign(_) | Kind::Exemplars | Kind::Exponential => return None,
    }
    Some(())
}

fn put_inner(out: &mut Vec<u8>, number: u32, of: &'static Message, value: Value<'_>) -> Option<()> {
    let mut inner = Vec::new();
    put_message(&mut inner, of, value)?;
    put_field(out, number, &inner);
    Some(())
}

/// A list of 8 bytes each, packed.
fn put_list<'d>(
    out: &mut Vec<u8>,
    number: u32,
    list: Value<'d>,
    bits: impl Fn(Value<'d>) -> Option<u64>,
) -> Option<()> {
    let mut packed = Vec::new();
    for element in list.elements()? {
        packed.extend_from_slice(&bits(element)?.to_le_bytes());
    }
    if !packed.is_empty() {
        put_field(out, number, &packed);
    }
    Some(())
}

/// A whole number that is a double as it is.
fn double(value: Value<'_>) -> Option<f64> {
    book_whole(value).filter(is_whole_double).map(|whole| whole as f64)
}
