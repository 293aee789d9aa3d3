//! A request in JSON, written as the book reads it, where it is not in the form that `json_fast_path` knows.
//!
//! What the mapping allows and the book does not read is changed: `5.0`, names of enums, names of the
//! `.proto` files. What neither reads as a value of its field stays a wrong value, so that the book counts
//! the points that it makes foreign.

use super::json::{Document, Value};
use super::number::{book_whole, is_whole_double, mapped_double, mapped_whole};
use super::output::Output;
use super::schema::{exponential_histogram, Field, Kind, Message, Wire, KEY_VALUE, REQUEST};
use super::{Reading, Refused};
use std::fmt;

pub fn written<'r>(body: &[u8], reading: &'r Reading) -> Result<Output<'r>, Refused> {
    let document = Document::parse(body)?;
    let root = document.root();
    if root.members().is_none() {
        return Err(refused(&REQUEST, "the body is no object"));
    }
    let out = Output::new(root.raw().len(), reading);
    let mut writer = Writer { out, is_near_range: document.is_near_range() };
    writer.message(&REQUEST, root)?;
    Ok(writer.out)
}

struct Writer<'r> {
    out: Output<'r>,
    is_near_range: bool,
}

fn refused(of: &Message, what: impl fmt::Display) -> Refused {
    Refused::Unreadable(format!("not JSON of OTLP: {}: {what}", of.name))
}

impl Writer<'_> {
    /// A message that is an object.
    fn message(&mut self, of: &'static Message, value: Value<'_>) -> Result<(), Refused> {
        self.out.push("{");
        let inside = self.out.text.len();
        let mut found: u32 = 0;
        for (name, member) in value.members().into_iter().flatten() {
            let Some(place) = of.fields.iter().position(|field| field.is_named(&name)) else {
                match of.lost_in_json(&name, member) {
                    Some(lost) => return Err(refused(of, format_args!("{name} {}", lost.why))),
                    None => continue, // another unknown name says nothing
                }
            };
            let field = &of.fields[place];
            if found & (1 << place) != 0 {
                return Err(refused(of, format_args!("{} is there twice", field.name)));
            }
            found |= 1 << place;
            if !member.is_null() && !matches!(field.kind, Kind::Exemplars) {
                self.out.separate(inside);
                self.out.push(field.written);
                self.member(of, field, member)?;
            }
        }
        self.out.push("}");
        Ok(())
    }

    fn member(&mut self, of: &'static Message, field: &Field, value: Value<'_>) -> Result<(), Refused> {
        let container = match field.kind {
            Kind::Message(inner) => Some(inner),
            Kind::Exponential => Some(exponential_histogram(self.out.exponential())),
            _ => None,
        };
        let is_object = |value: Value<'_>| value.members().is_some();
        match (field.kind, container) {
            (_, Some(_)) if !is_object(value) => {
                return Err(refused(of, format_args!("{} is no object", field.name)))
            }
            (Kind::Messages(_), _) if !value.elements().is_some_and(|mut all| all.all(is_object)) => {
                return Err(refused(of, format_args!("{} is no array of objects", field.name)))
            }
            (_, Some(inner)) | (Kind::Part(inner), _) => self.part(inner, value)?,
            (Kind::Messages(inner) | Kind::Parts(inner), _) => self.parts(inner, field.kind, value)?,
            (Kind::ResourceAttributes, _) => self.parts(&KEY_VALUE, field.kind, value)?,
            (Kind::Wholes | Kind::Numbers | Kind::Doubles, _) => self.numbers(field.kind, value)?,
            (kind, _) => self.leaf(kind, value).unwrap_or_else(|| self.wrong(value)),
        }
        Ok(())
    }

    fn part(&mut self, of: &'static Message, value: Value<'_>) -> Result<(), Refused> {
        match value.members() {
            Some(_) => self.message(of, value)?,
            None => self.wrong(value),
        }
        Ok(())
    }

    fn parts(&mut self, of: &'static Message, kind: Kind, value: Value<'_>) -> Result<(), Refused> {
        let list = self.out.text.len();
        self.list(value, |writer, from, element| {
            writer.part(of, element)?;
            if let Kind::ResourceAttributes = kind {
                writer.out.drop_attribute(from);
            }
            Ok(())
        })?;
        if std::ptr::eq(of, &KEY_VALUE) {
            self.out.bound_attributes(list);
        }
        Ok(())
    }

    fn numbers(&mut self, kind: Kind, value: Value<'_>) -> Result<(), Refused> {
        let of_each = match kind {
            Kind::Doubles => Kind::Double,
            _ => Kind::Whole(Wire::Fixed64),
        };
        self.list(value, |writer, _, element| {
            writer.leaf(of_each, element).unwrap_or_else(|| writer.wrong(element));
            Ok(())
        })
    }

    /// Writes what `each` does of the elements; where each begins, with its comma, it is told.
    fn list(
        &mut self,
        value: Value<'_>,
        each: impl Fn(&mut Self, usize, Value<'_>) -> Result<(), Refused>,
    ) -> Result<(), Refused> {
        let Some(elements) = value.elements() else {
            self.wrong(value);
            return Ok(());
        };
        self.out.push("[");
        let inside = self.out.text.len();
        for element in elements {
            let from = self.out.text.len();
            self.out.separate(inside);
            each(self, from, element)?;
        }
        self.out.push("]");
        Ok(())
    }

    /// Writes a value that is in nothing else; none of what is no value of its field.
    fn leaf(&mut self, kind: Kind, value: Value<'_>) -> Option<()> {
        match kind {
            Kind::Text => self.out.quoted(&value.text()?),
            Kind::Unit => self.out.unit(&value.text()?),
            Kind::Bool => self.out.push(if value.truth()? { "true" } else { "false" }),
            Kind::Temporality => self.out.temporality(temporality(value)?),
            Kind::Whole(_) => self.out.whole(book_whole(value).or_else(|| mapped_whole(value))?),
            Kind::Double => match book_whole(value).filter(is_whole_double) {
                Some(whole) => self.out.whole_number(whole),
                None => self.out.double(mapped_double(value)?),
            },
            // A double whose value counts for nothing but that it is there.
            Kind::Fraction => self.out.double(mapped_double(value)?),
            Kind::Foreign(_) => self.out.push("{}"),
            _ => self.out.push("\"\""),
        }
        Some(())
    }

    /// What is no value of its field is none as it came either, and who sent it is told what it was. But a number near the range of
    /// a double may be past it for another reader, to whom the whole body is no JSON then.
    fn wrong(&mut self, value: Value<'_>) {
        self.out.push(if self.is_near_range { "false" } else { value.raw() });
    }
}

fn temporality(value: Value<'_>) -> Option<i128> {
    match value.text().as_deref() {
        Some("AGGREGATION_TEMPORALITY_UNSPECIFIED") => Some(0),
        Some("AGGREGATION_TEMPORALITY_DELTA") => Some(1),
        Some("AGGREGATION_TEMPORALITY_CUMULATIVE") => Some(2),
        Some(_) => None,
        None => mapped_whole(value),
    }
}
