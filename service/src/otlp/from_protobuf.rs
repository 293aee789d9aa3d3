//! A request in protobuf, written as the book reads it: one that `numbered` does not know.
//!
//! It is never held as a tree of messages: each is checked, and then its fields are looked for and written in the order of
//! its table. So the memory is that of the JSON, however many small messages the bytes are.

use super::output::Output;
use super::schema::{exponential_histogram, Field, Kind, Message, Wire, EXEMPLAR, KEY_VALUE, REQUEST};
use super::wire::{fields, fixed64s, numbers, Fields, Payload};
use super::{Reading, Refused};

/// Messages may be nested as deep as protobuf's own readers allow.
const MAX_DEPTH: usize = 100;
/// How many times its length of a body may be copied: once for each message in another that a point taken may have.
const COPIES: usize = 4;

pub fn written<'r>(body: &[u8], reading: &'r Reading) -> Result<Output<'r>, Refused> {
    written_with(body, reading, body.len() * COPIES)
}

/// The same, but that a message which is there in parts is refused.
pub fn written_plainly<'r>(body: &[u8], reading: &'r Reading) -> Result<Output<'r>, Refused> {
    written_with(body, reading, 0)
}

/// Whether this is an exemplar of a request, whatever it says; of one that is there in parts no.
pub fn is_exemplar(bytes: &[u8], reading: &Reading) -> bool {
    const DEPTH: usize = 6; // as it is nested in a request
    let mut writer = Writer { out: Output::new(bytes.len() * 3, reading), may_copy: 0 };
    writer.message(&EXEMPLAR, bytes, DEPTH).is_ok()
}

fn written_with<'r>(body: &[u8], reading: &'r Reading, may_copy: usize) -> Result<Output<'r>, Refused> {
    let mut writer = Writer { out: Output::new(body.len() * 3 + 64, reading), may_copy };
    writer.message(&REQUEST, body, 0)?;
    Ok(writer.out)
}

fn refused(message: &Message, what: impl std::fmt::Display) -> Refused {
    Refused::Unreadable(format!("not protobuf of OTLP: {}: {what}", message.name))
}

/// Refuses a message of which a field is malformed, or of another wire type, or would be lost. The fields that are there, a bit each.
fn check(of: &Message, bytes: &[u8]) -> Result<u32, Refused> {
    let mut there = 0;
    for next in Fields::of(bytes) {
        let (number, payload) = next.map_err(|malformed| refused(of, malformed))?;
        let place = of.fields.iter().position(|field| u32::from(field.number) == number);
        match (place.map(|place| (place, &of.fields[place])), of.lost(number)) {
            (Some((_, field)), _) if !is_payload_of(field.kind, payload) => {
                return Err(refused(of, format_args!("{} of another wire type", field.name)))
            }
            (Some((place, _)), _) => there |= 1 << place,
            (None, Some(lost)) => return Err(refused(of, format_args!("{} {}", lost.names[0], lost.why))),
            (None, None) => {} // another unknown field says nothing
        }
    }
    Ok(there)
}

/// What a message has of a field, in order.
#[derive(Clone, Copy)]
struct Found<'a> {
    fields: Fields<'a>,
    number: u32,
}

impl<'a> Iterator for Found<'a> {
    type Item = Payload<'a>;

    fn next(&mut self) -> Option<Payload<'a>> {
        let number = self.number;
        self.fields.by_ref().flatten().find_map(|(found, payload)| (found == number).then_some(payload))
    }
}

impl<'a> Found<'a> {
    /// The bytes of what does not count, and what does: of fields of which a message has one that is what is behind the last other
    /// one ("Oneof Features" of protobuf's language guide).
    fn both(of: &Message, field: &Field, bytes: &'a [u8]) -> (&'a [u8], Found<'a>) {
        let number = field.number.into();
        let mut fields = Fields::of(bytes);
        let mut counted = fields;
        if of.one_of.contains(&field.number) {
            while let Some(next) = fields.next() {
                let is_one = |found| of.one_of.iter().any(|one| u32::from(*one) == found);
                if next.is_ok_and(|(found, _)| found != number && is_one(found)) {
                    counted = fields;
                }
            }
        }
        let before = &bytes[..bytes.len() - counted.rest().len()];
        (before, Found { fields: counted, number })
    }

    fn is_any(mut self) -> bool {
        self.next().is_some()
    }

    /// The last one, which counts where it is no list.
    fn bits(self) -> u64 {
        self.last().map_or(0, Payload::bits)
    }
}

struct Writer<'r> {
    out: Output<'r>,
    /// How many bytes may be copied for messages that are there in parts.
    may_copy: usize,
}

fn is_payload_of(kind: Kind, payload: Payload<'_>) -> bool {
    match kind {
        Kind::Bool | Kind::Temporality | Kind::Whole(Wire::Int64 | Wire::Uint32 | Wire::Sint32) => {
            matches!(payload, Payload::Varint(_))
        }
        Kind::Double | Kind::Fraction | Kind::Whole(Wire::Fixed64 | Wire::Sfixed64) => {
            matches!(payload, Payload::Fixed64(_))
        }
        Kind::Wholes | Kind::Doubles => match payload {
            Payload::Bytes(packed) => packed.len() % 8 == 0,
            payload => matches!(payload, Payload::Fixed64(_)),
        },
        Kind::Numbers => match payload {
            Payload::Bytes(packed) => numbers(packed).all(|number| number.is_ok()),
            payload => matches!(payload, Payload::Varint(_)),
        },
        _ => matches!(payload, Payload::Bytes(_)),
    }
}

/// The text that counts. Each one that is there has to be UTF-8 ("Updating A Message Type" and "Scalar Value Types" of protobuf's
/// language guide: the last one is kept, a text is always UTF-8).
fn text<'a>(of: &Message, field: &Field, found: Found<'a>) -> Result<&'a str, Refused> {
    let mut last = "";
    for payload in found {
        let read = std::str::from_utf8(payload.bytes());
        last = read.map_err(|_| refused(of, format_args!("{} is not UTF-8", field.name)))?;
    }
    Ok(last)
}

impl<'r> Writer<'r> {
    fn message(&mut self, of: &'static Message, bytes: &[u8], depth: usize) -> Result<(), Refused> {
        if depth >= MAX_DEPTH {
            return Err(refused(of, "nested too deep"));
        }
        let there = check(of, bytes)?;
        self.out.push("{");
        let inside = self.out.text.len();
        let there = of.fields.iter().enumerate().filter(|(place, _)| there & 1 << place != 0);
        for (_, field) in there {
            let (before, counted) = Found::both(of, field, bytes);
            let from = self.out.text.len();
            // Also what does not count is read, each by itself: the readers of C++ and Go refuse what is malformed in it.
            for (number, _, raw) in fields(before).into_iter().flatten() {
                if number == counted.number {
                    self.value(of, field, Found { fields: Fields::of(raw), number }, depth)?;
                    self.out.text.truncate(from);
                }
            }
            if counted.is_any() {
                self.out.separate(inside);
                self.out.push(field.written);
                self.value(of, field, counted, depth)?;
            }
            if let Kind::Exemplars = field.kind {
                self.out.text.truncate(from);
            }
        }
        self.out.push("}");
        Ok(())
    }

    fn value(
        &mut self,
        of: &'static Message,
        field: &Field,
        found: Found<'_>,
        depth: usize,
    ) -> Result<(), Refused> {
        match field.kind {
            Kind::Message(inner) | Kind::Part(inner) => self.single(inner, found, depth + 1)?,
            Kind::Messages(inner) | Kind::Parts(inner) => self.messages(inner, field, found, depth + 1)?,
            Kind::Exemplars => self.messages(&EXEMPLAR, field, found, depth + 1)?,
            Kind::ResourceAttributes => self.messages(&KEY_VALUE, field, found, depth + 1)?,
            Kind::Text => self.out.quoted(text(of, field, found)?),
            Kind::Unit => self.out.unit(text(of, field, found)?),
            Kind::Bool => self.out.push(if found.bits() == 0 { "false" } else { "true" }),
            // An enum has 32 bits, of which a reader keeps the lowest.
            Kind::Temporality => self.out.temporality((found.bits() as i32).into()),
            Kind::Whole(Wire::Fixed64) => self.out.whole_number(found.bits()),
            Kind::Whole(Wire::Uint32) => self.out.whole_number(found.bits() as u32),
            Kind::Whole(Wire::Sint32) => self.out.whole_number(signed(found.bits())),
            Kind::Whole(Wire::Int64 | Wire::Sfixed64) => self.out.whole_number(found.bits() as i64),
            Kind::Double | Kind::Fraction => self.out.double(f64::from_bits(found.bits())),
            Kind::Wholes => self.list(found, fixed64s, Output::whole_number),
            Kind::Numbers => self.list(found, |packed| numbers(packed).flatten(), Output::whole_number),
            Kind::Doubles => self.list(found, fixed64s, |out, bits| out.double(f64::from_bits(bits))),
            Kind::Bytes => self.out.push("\"\""),
            Kind::Exponential => {
                let inner = exponential_histogram(self.out.exponential());
                self.single(inner, found, depth + 1)?;
            }
            Kind::Foreign(inner) => {
                let from = self.out.text.len();
                self.single(inner, found, depth + 1)?;
                self.out.text.truncate(from);
                self.out.push("{}");
            }
        }
        Ok(())
    }

    /// A message that is no element of a list. To protobuf all that are there are one; to other readers each is a message by itself,
    /// so a field that is cut at its end does not go on in the next one. What is copied for that is bounded, since there may be more
    /// in parts within it.
    fn single(&mut self, of: &'static Message, mut found: Found<'_>, depth: usize) -> Result<(), Refused> {
        let all = found;
        let first = found.next().map_or(&[][..], Payload::bytes);
        if found.next().is_none() {
            return self.message(of, first, depth);
        }
        let mut whole = Vec::new();
        for part in all {
            let _there = check(of, part.bytes())?;
            whole.extend_from_slice(part.bytes());
        }
        let may_copy = self.may_copy.checked_sub(whole.len());
        self.may_copy = may_copy.ok_or_else(|| refused(of, "too much is there in parts"))?;
        self.message(of, &whole, depth)
    }

    fn messages(
        &mut self,
        of: &'static Message,
        field: &Field,
        found: Found<'_>,
        depth: usize,
    ) -> Result<(), Refused> {
        let list = self.out.text.len();
        self.out.push("[");
        let inside = self.out.text.len();
        for element in found {
            let from = self.out.text.len();
            self.out.separate(inside);
            self.message(of, element.bytes(), depth)?;
            if let Kind::ResourceAttributes = field.kind {
                self.out.drop_attribute(from);
            }
        }
        self.out.push("]");
        if std::ptr::eq(of, &KEY_VALUE) {
            self.out.bound_attributes(list);
        }
        Ok(())
    }

    /// A list of numbers: `unpacked` has those of one that is packed.
    fn list<'a, N: Iterator<Item = u64>>(
        &mut self,
        found: Found<'a>,
        unpacked: impl Fn(&'a [u8]) -> N,
        each: impl Fn(&mut Output<'r>, u64),
    ) {
        self.out.push("[");
        let inside = self.out.text.len();
        let mut put = |bits| {
            self.out.separate(inside);
            each(&mut self.out, bits);
        };
        for payload in found {
            match payload {
                Payload::Bytes(packed) => unpacked(packed).for_each(&mut put),
                one => put(one.bits()),
            }
        }
        self.out.push("]");
    }
}

/// A number of 32 bits whose lowest says whether it is below zero.
fn signed(bits: u64) -> i32 {
    let bits = bits as u32; // of more a reader keeps these
    (bits >> 1) as i32 ^ -((bits & 1) as i32)
}
