//! A request where it is in its bytes, of either encoding: the messages that its tables name (`schema`), and a copy of it in which
//! some of them are others. Whoever looks for something in a request as it came, or changes it, does it through this file.

use super::json::{Document, NotJson, Value};
use super::schema::{Field, Message};
use super::wire::{bytes_of, fields, is_sound, put_field, Fields, Payload};
use super::Encoding;
use std::borrow::Cow;

/// JSON is parsed once for all that is looked for in it.
pub enum Request<'a> {
    Protobuf(&'a [u8]),
    Json(Document<'a>),
}

/// A message of a request.
#[derive(Clone, Copy)]
pub enum Node<'a> {
    Protobuf(&'a [u8]),
    Json(Value<'a>),
}

/// What becomes of a message in a copy.
pub enum Edit {
    AsItCame,
    /// What was written in its place.
    Written,
    LeftOut,
}

/// Messages of one field, in their order. No list of them is kept: a message may be of two bytes.
type Nodes<'a> = Box<dyn Iterator<Item = Node<'a>> + 'a>;

/// Says what becomes of a message that a field has.
type Each<'e, 'a> = dyn FnMut(&'static Field, Node<'a>, &mut Vec<u8>) -> Option<Edit> + 'e;

impl<'a> Request<'a> {
    pub fn of(encoding: Encoding, body: &'a [u8]) -> Result<Request<'a>, NotJson> {
        Ok(match encoding {
            Encoding::Protobuf => Request::Protobuf(body),
            Encoding::Json => Request::Json(Document::parse(body)?),
        })
    }

    pub fn root(&self) -> Node<'_> {
        match self {
            Request::Protobuf(bytes) => Node::Protobuf(bytes),
            Request::Json(document) => Node::Json(document.root()),
        }
    }
}

/// A request that has these messages alone, as their bytes are.
pub fn request_of(
    encoding: Encoding,
    field: &Field,
    messages: impl Iterator<Item = impl AsRef<[u8]>>,
) -> Vec<u8> {
    let mut out = Vec::new();
    if encoding == Encoding::Protobuf {
        messages.for_each(|message| put_field(&mut out, field.number.into(), message.as_ref()));
        return out;
    }
    out.extend_from_slice(b"{");
    out.extend_from_slice(field.written.as_bytes());
    out.push(b'[');
    let inside = out.len();
    for message in messages {
        separate(&mut out, inside);
        out.extend_from_slice(message.as_ref());
    }
    out.extend_from_slice(b"]}");
    out
}

/// Writes a comma, but for the first in a container whose inside begins there.
fn separate(out: &mut Vec<u8>, inside: usize) {
    if out.len() > inside {
        out.push(b',');
    }
}

fn put_name(out: &mut Vec<u8>, name: &str) {
    let _ = serde_json::to_writer(&mut *out, name); // into memory it never fails
    out.push(b':');
}

impl<'a> Node<'a> {
    /// Its bytes.
    pub fn raw(self) -> &'a [u8] {
        match self {
            Node::Protobuf(bytes) => bytes,
            Node::Json(value) => value.raw().as_bytes(),
        }
    }

    /// Whether it may be one: in JSON an element of a list may be anything.
    pub fn may_be_message(self) -> bool {
        match self {
            Node::Protobuf(_) => true,
            Node::Json(value) => value.members().is_some(),
        }
    }

    /// A message that has of this one a field alone.
    pub fn only(self, field: &'static Field) -> Vec<u8> {
        let parts = self.all(field).into_iter().flatten().map(Node::raw);
        match self {
            Node::Protobuf(_) => request_of(Encoding::Protobuf, field, parts),
            Node::Json(_) => {
                parts.fold(b"{}".to_vec(), |_, raw| [b"{", field.written.as_bytes(), raw, b"}"].concat())
            }
        }
    }

    /// The messages that it has of a field: of a list its elements, of another field in protobuf its parts, which are one message
    /// together ("Last One Wins" of protobuf's encoding guide). None if it or they can't be read.
    pub fn all(self, field: &'static Field) -> Option<Nodes<'a>> {
        let value = match self {
            Node::Protobuf(bytes) => {
                let number = u32::from(field.number);
                let is_sound = Fields::of(bytes).all(|found| match found {
                    Ok((found, payload)) => found != number || matches!(payload, Payload::Bytes(_)),
                    Err(_) => false,
                });
                return is_sound.then(|| Box::new(bytes_of(bytes, number).map(Node::Protobuf)) as Nodes<'a>);
            }
            Node::Json(value) => value,
        };
        let mut found = value.members()?.filter(|(name, _)| field.is_named(name)).map(|(_, value)| value);
        let (first, second) = (found.next(), found.next());
        match first.filter(|value| !value.is_null()) {
            _ if second.is_some() => None, // it is there twice
            None => Some(Box::new(std::iter::empty())),
            Some(list) if field.is_list() => Some(Box::new(list.elements()?.map(Node::Json))),
            Some(message) => {
                message.members().map(|_| Box::new(std::iter::once(Node::Json(message))) as Nodes<'a>)
            }
        }
    }

    /// What a text has, of which the last one counts: nothing if it is not there. None if the message can't be read.
    pub fn bytes(self, field: &'static Field) -> Option<Cow<'a, [u8]>> {
        Some(match self {
            Node::Protobuf(bytes) => {
                let last = is_sound(bytes).then(|| bytes_of(bytes, field.number.into()).last())?;
                Cow::Borrowed(last.unwrap_or_default())
            }
            Node::Json(value) => {
                let [one, other] = value.named([field.name, field.proto_name])?;
                match one.or(other).and_then(Value::text).unwrap_or_default() {
                    Cow::Borrowed(text) => Cow::Borrowed(text.as_bytes()),
                    Cow::Owned(text) => Cow::Owned(text.into()),
                }
            }
        })
    }

    /// What counts of fields of which a message has one: the text of `field`, if that is the last that it has of
    /// its table; `before` if it has none of them. None if it can't be read.
    pub fn last_text(
        self,
        of: &'static Message,
        field: &'static Field,
        before: Option<Cow<'a, str>>,
    ) -> Option<Option<Cow<'a, str>>> {
        let mut last = before;
        match self {
            Node::Protobuf(bytes) => {
                for (number, payload, _) in
                    fields(bytes)?.filter(|(number, ..)| of.numbered(*number).is_some())
                {
                    let text = (number == u32::from(field.number)).then(|| payload.bytes());
                    last = text.and_then(|text| std::str::from_utf8(text).ok()).map(Cow::Borrowed);
                }
            }
            Node::Json(value) => {
                let members =
                    value.members()?.filter(|(name, value)| !value.is_null() && of.named(name).is_some());
                for (name, value) in members {
                    last = value.text().filter(|_| field.is_named(&name));
                }
            }
        }
        Some(last)
    }

    /// Whether all that it has beside the fields of its table says nothing.
    pub fn loses_nothing(self, of: &'static Message) -> bool {
        match self {
            Node::Protobuf(bytes) => fields(bytes).is_some_and(|mut all| {
                all.all(|(number, payload, _)| match of.numbered(number) {
                    Some(_) => matches!(payload, Payload::Bytes(_)),
                    None => of.lost(number).is_none(),
                })
            }),
            Node::Json(value) => value.members().is_some_and(|mut all| {
                all.all(|(name, value)| of.named(&name).is_some() || of.lost_in_json(&name, value).is_none())
            }),
        }
    }

    /// Writes it, with what `each` makes of each message that it has of a field of its table; all else as it came. None if it
    /// can't be read, or `each` says so.
    pub fn edited(self, of: &'static Message, out: &mut Vec<u8>, each: &mut Each<'_, 'a>) -> Option<()> {
        match self {
            Node::Protobuf(bytes) => edited_protobuf(bytes, of, out, each),
            Node::Json(value) => edited_json(value, of, out, each),
        }
    }

    /// Writes a message in which `element` is ahead of all others of the list at the end of a path. What is missing on the way
    /// is made. None if what is there can't be read.
    pub fn with_first(
        message: Option<Node<'a>>,
        encoding: Encoding,
        path: &[&'static Field],
        element: &[u8],
        out: &mut Vec<u8>,
    ) -> Option<()> {
        let Some((field, rest)) = path.split_first() else {
            out.extend_from_slice(element);
            return Some(());
        };
        let mut found = message
            .map(|message| message.all(field))
            .unwrap_or_else(|| Some(Box::new(std::iter::empty())))?;
        if encoding == Encoding::Protobuf {
            let mut replaced = if field.is_list() { None } else { found.next() };
            let mut inner = Vec::new();
            Node::with_first(replaced, encoding, rest, element, &mut inner)?;
            put_field(out, field.number.into(), &inner);
            for (number, _, raw) in fields(message.map_or(&[], Node::raw))? {
                if number != u32::from(field.number) || replaced.take().is_none() {
                    out.extend_from_slice(raw);
                }
            }
            return Some(());
        }
        out.push(b'{');
        out.extend_from_slice(field.written.as_bytes());
        match field.is_list() {
            true => {
                out.push(b'[');
                out.extend_from_slice(element);
                found.for_each(|other| {
                    [b",", other.raw()].into_iter().for_each(|part| out.extend_from_slice(part))
                });
                out.push(b']');
            }
            false => Node::with_first(found.next(), encoding, rest, element, out)?,
        }
        if let Some(Node::Json(value)) = message {
            for (name, other) in value.members()?.filter(|(name, _)| !field.is_named(name)) {
                out.push(b',');
                put_name(out, &name);
                out.extend_from_slice(other.raw().as_bytes());
            }
        }
        out.push(b'}');
        Some(())
    }
}

fn edited_protobuf<'a>(
    message: &'a [u8],
    of: &'static Message,
    out: &mut Vec<u8>,
    each: &mut Each<'_, 'a>,
) -> Option<()> {
    for (number, payload, raw) in fields(message)? {
        let field = of.numbered(number).filter(|field| field.message().is_some());
        let (Some(field), Payload::Bytes(inner)) = (field, payload) else {
            out.extend_from_slice(raw);
            continue;
        };
        let mut written = Vec::new();
        match each(field, Node::Protobuf(inner), &mut written)? {
            Edit::AsItCame => out.extend_from_slice(raw),
            Edit::Written => put_field(out, number, &written),
            Edit::LeftOut => {}
        }
    }
    Some(())
}

fn edited_json<'a>(
    message: Value<'a>,
    of: &'static Message,
    out: &mut Vec<u8>,
    each: &mut Each<'_, 'a>,
) -> Option<()> {
    let mut put = |field, value: Value<'a>, out: &mut Vec<u8>, from| {
        match each(field, Node::Json(value), out)? {
            Edit::AsItCame => out.extend_from_slice(value.raw().as_bytes()),
            Edit::Written => {}
            Edit::LeftOut => out.truncate(from),
        }
        Some(())
    };
    out.push(b'{');
    let inside = out.len();
    for (name, value) in message.members()? {
        let from = out.len();
        separate(out, inside);
        put_name(out, &name);
        match of.named(&name).filter(|field| field.message().is_some()) {
            Some(field) if field.is_list() && value.elements().is_some() => {
                out.push(b'[');
                let inside = out.len();
                for element in value.elements()? {
                    let from = out.len();
                    separate(out, inside);
                    put(field, element, out, from)?;
                }
                out.push(b']');
            }
            Some(field) if !field.is_list() && value.members().is_some() => put(field, value, out, from)?,
            _ => out.extend_from_slice(value.raw().as_bytes()),
        }
    }
    out.push(b'}');
    Some(())
}
