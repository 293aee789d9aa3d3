//! Resource attributes that are of the sender, put into a request before anything else is read of it: so shards, numbers of series,
//! other instances and what `--forward-unsupported` hands on all have them.
//!
//! - `--sender-attribute NAME`: the name that the sender's certificate or token proves, in each resource, in place of what the body
//!   says. What can't be read is refused, since another reader might find the body's own value in it.
//! - `--instance-from-sender`: the name that it posts under as `service.instance.id` of a resource that has none, so two processes
//!   of one program that don't name themselves have series of their own.

use super::request::{Edit, Node, Request};
use super::schema::{ATTRIBUTES, KEY, REQUEST, RESOURCE, RESOURCE_METRICS, RESOURCE_OF, STRING_VALUE, VALUE};
use super::wire::field;
use super::{refusal, Encoding, Reading, Refused, NO_NAME};
use bytes::Bytes;
use serde_json::json;

pub const INSTANCE: &str = "service.instance.id";

/// Each option adds so many bytes to a request at most: a resource may be of two bytes.
const MOST_MORE: usize = 1 << 20;

/// Who posts a request.
#[derive(Clone, Copy)]
pub struct SenderNames<'a> {
    /// The name that it posts under.
    pub name: &'a str,
    /// The name that its certificate or token proves.
    pub proved: Option<&'a str>,
}

/// A request with its sender's attributes.
#[derive(Debug, PartialEq)]
pub struct Attributed {
    pub body: Bytes,
    /// How many resources have got the proved name.
    pub proved: usize,
    /// How many have got their sender's name as their instance.
    pub instances: usize,
}

/// What becomes of a resource that has the attribute already.
#[derive(Clone, Copy, PartialEq)]
enum Own {
    Kept,
    Replaced,
}

struct Attribute<'a> {
    key: &'a str,
    value: &'a str,
    own: Own,
}

/// Puts into each resource of a request what the options say of its sender.
pub fn with_sender_attributes(
    names: SenderNames<'_>,
    encoding: Encoding,
    body: Bytes,
    reading: &Reading,
) -> Result<Attributed, Refused> {
    let (mut body, mut proved, mut instances) = (body, 0, 0);
    if let Some(key) = &reading.sender_attribute {
        let nobody =
            || Refused::NoSender(format!("nothing proves who posts this, and {key} is for that name"));
        let attribute = Attribute { key, value: names.proved.ok_or_else(nobody)?, own: Own::Replaced };
        (body, proved) = attribute.put(encoding, body, reading)?;
    }
    if reading.instance_from_sender && names.name != NO_NAME {
        let attribute = Attribute { key: INSTANCE, value: names.name, own: Own::Kept };
        (body, instances) = attribute.put(encoding, body, reading)?;
    }
    Ok(Attributed { body, proved, instances })
}

impl Attribute<'_> {
    /// The request with the attribute, and how many resources have got it.
    fn put(&self, encoding: Encoding, body: Bytes, reading: &Reading) -> Result<(Bytes, usize), Refused> {
        let mut putting =
            Putting { attribute: self, encoding, written: self.written(encoding), places: 0, resources: 0 };
        let put =
            Request::of(encoding, &body).ok().and_then(|request| putting.request(request.root(), body.len()));
        match put {
            _ if putting.places > self.most() => Err(self.too_many()),
            Some(put) if putting.resources > 0 => Ok((put.into(), putting.resources)),
            None if self.own == Own::Replaced => Err(self.unreadable(encoding, &body, reading)),
            // Whoever reads it next says why it can't be read.
            _ => Ok((body, 0)),
        }
    }

    fn written(&self, encoding: Encoding) -> Vec<u8> {
        match encoding {
            Encoding::Json => {
                json!({"key": self.key, "value": {"stringValue": self.value}}).to_string().into()
            }
            Encoding::Protobuf => {
                let value = field(STRING_VALUE.number.into(), self.value.as_bytes());
                [field(KEY.number.into(), self.key.as_bytes()), field(VALUE.number.into(), &value)].concat()
            }
        }
    }

    /// In how many places it may be put. After them it is put nowhere.
    fn most(&self) -> usize {
        const AROUND: usize = 61;
        MOST_MORE / (self.key.len() + self.value.len() + AROUND)
    }

    fn too_many(&self) -> Refused {
        let (most, key) = (self.most(), self.key);
        let which = match self.own {
            Own::Kept => format!("without a {key}"),
            Own::Replaced => format!("to give the sender's {key}, or attributes of this key"),
        };
        Refused::Unreadable(format!("over {most} resources {which}: post fewer of them at a time"))
    }

    /// As whoever reads the request would refuse it.
    fn unreadable(&self, encoding: Encoding, body: &[u8], reading: &Reading) -> Refused {
        let why =
            || format!("a resource's attributes can't be read, so it can't get the sender's {}", self.key);
        refusal(encoding, body, reading).unwrap_or_else(|| Refused::Unreadable(why()))
    }
}

/// Puts an attribute into a request.
struct Putting<'p> {
    attribute: &'p Attribute<'p>,
    encoding: Encoding,
    /// The attribute, as it stands in a list.
    written: Vec<u8>,
    /// Into how many places it was put: a resource may have its key many times, in some bytes each.
    places: usize,
    resources: usize,
}

impl Putting<'_> {
    fn request(&mut self, root: Node<'_>, length: usize) -> Option<Vec<u8>> {
        let mut out = Vec::with_capacity(length + 2 * self.written.len());
        root.edited(&REQUEST, &mut out, &mut |_, element, out| match self.element(element, out) {
            None if self.attribute.own == Own::Kept => Some(Edit::AsItCame),
            edit => edit,
        })?;
        Some(out)
    }

    /// A resource with its metrics; none if it can't be read.
    fn element(&mut self, element: Node<'_>, out: &mut Vec<u8>) -> Option<Edit> {
        if self.places > self.attribute.most() {
            return Some(Edit::AsItCame);
        }
        let mut has_own = false;
        for resource in element.all(RESOURCE_OF)? {
            for attribute in resource.all(ATTRIBUTES)? {
                has_own |= self.is_own(attribute)?;
            }
        }
        match (has_own, self.attribute.own) {
            (true, Own::Kept) => return Some(Edit::AsItCame),
            (true, Own::Replaced) => {
                element.edited(&RESOURCE_METRICS, out, &mut |field, resource, out| {
                    match std::ptr::eq(field, RESOURCE_OF) {
                        true => {
                            resource.edited(&RESOURCE, out, &mut |_, own, out| self.replaced(own, out))?
                        }
                        false => return Some(Edit::AsItCame),
                    }
                    Some(Edit::Written)
                })?
            }
            (false, _) => {
                self.places += 1;
                let path = [RESOURCE_OF, ATTRIBUTES];
                Node::with_first(Some(element), self.encoding, &path, &self.written, out)?;
            }
        }
        self.resources += 1;
        Some(Edit::Written)
    }

    fn replaced(&mut self, own: Node<'_>, out: &mut Vec<u8>) -> Option<Edit> {
        if !self.is_own(own)? || self.places > self.attribute.most() {
            return Some(Edit::AsItCame);
        }
        self.places += 1;
        out.extend_from_slice(&self.written);
        Some(Edit::Written)
    }

    /// Whether this is the attribute.
    fn is_own(&self, attribute: Node<'_>) -> Option<bool> {
        Some(attribute.bytes(KEY)? == self.attribute.key.as_bytes())
    }
}
