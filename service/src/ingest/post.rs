//! Turns a request that was read whole into what each shard is asked to take. `Ingest` calls it for the posts of
//! senders, and for the parts that other instances forward.

use super::head::Head;
use super::refusal::Refusal;
use super::{body, MemoryHold, PostHandler, MOST};
use crate::book;
use crate::metrics::Metrics;
use crate::otlp::{self, Encoding, Original, Outcome, Part, Prepared, Profile, Reading, Rounded, Split};
use crate::shard::{Request, RequestRoute, Shards};
use bytes::Bytes;
use std::sync::Arc;

/// The memory that each byte of a body may need while it is parsed. For JSON that is the body itself, the names of its
/// parts, and what is rewritten. For protobuf it is up to nine bytes of JSON, twice that while the buffer grows, and
/// the names of its parts.
pub(super) const WHILE_READ_JSON: usize = 8;
const WHILE_READ_PROTOBUF: usize = 24;

/// A request that was read, for its shards.
pub(super) struct Post<T> {
    pub sender: String,
    pub asked: Asked<T>,
    /// Memory reserved until the post is answered.
    pub hold: MemoryHold,
}

/// How a request is divided among shards.
pub(super) enum Asked<T> {
    /// One shard takes all of it.
    Whole(Ask<T>),
    Parts(Vec<AskedPart<T>>),
}

/// The resources of a request that belong to one shard.
pub(super) struct AskedPart<T> {
    pub part: Original,
    /// Their indexes in the request, ascending.
    pub resources: Vec<u32>,
    /// An error if the part can't be parsed: then no shard is asked.
    pub ask: Result<Ask<T>, Refusal>,
}

/// What a shard is asked.
pub(super) enum Ask<T> {
    Here(Box<Here<T>>),
    /// The owner of the shard parses the part.
    Away {
        shard: u16,
        part: Original,
    },
}

/// What a shard of this instance is asked. Boxed, because each future on the way of a post contains it.
pub(super) struct Here<T> {
    taker: Arc<T>,
    request: Request,
    original: Option<Original>,
    rounded: Rounded,
}

impl<T: PostHandler> Ask<T> {
    /// Asks the shard and returns its outcome.
    pub async fn answered(self, sender: &str, shards: &Shards<T>, metrics: &Metrics) -> Outcome {
        match self {
            Ask::Here(here) => {
                let Here { taker, request, original, mut rounded } = *here;
                rounded.decided.stays(true); // even if nobody waits for the outcome any more
                let outcome = taker.post(sender, request, original).await;
                match outcome {
                    Outcome::Taken { .. } => metrics.rounded(&rounded),
                    _ => rounded.decided.stays(false),
                }
                outcome.with(&rounded)
            }
            Ask::Away { shard, part } => shards.elsewhere(shard, sender, part).await,
        }
    }

    /// The memory that it occupies.
    fn bytes(&self) -> usize {
        match self {
            Ask::Here(here) => {
                let came = here.original.as_ref().map_or(0, |original| original.body.len());
                here.request.bytes() + here.rounded.bytes() + came
            }
            Ask::Away { part, .. } => part.body.len(),
        }
    }
}

/// Unpacks a body and brings it into the form in which its shards take it.
pub(super) fn prepare<T: PostHandler>(
    head: Head,
    packed: Bytes,
    mut hold: MemoryHold,
    shards: &Shards<T>,
    reading: &Arc<Reading>,
    metrics: &Metrics,
) -> Result<Post<T>, Refusal> {
    let body = body::unpack(packed, head.packing, MOST, &mut hold)?;
    metrics.request_size.observe(body.len() as f64);
    let encoding = head.encoding;
    let mut reader = Reader::new(encoding, body.len(), reading, &mut hold)?;
    let (name, proved) = (head.sender.name, head.sender.proved);
    let sender = otlp::sender(name, encoding, &body, reading)?;
    // Before the split into shards: these attributes are a part of the resource, whose hash chooses the shard.
    let names = otlp::SenderNames { name: &sender, proved: proved.as_ref().map(|sender| &*sender.name) };
    let length = body.len();
    let body = otlp::with_sender_attributes(names, encoding, body, reading)?.body;
    if body.len() != length {
        reader.takes(body.len())?;
    }
    let asked = match shards.way(encoding, &body) {
        RequestRoute::Here(taker) => Asked::Whole(reader.here(taker, body)?),
        RequestRoute::Split(Split::Whole(shard)) => {
            let part = Original { encoding, body };
            Asked::Whole(Ask::Away { shard, part })
        }
        RequestRoute::Split(Split::Parts(parts)) => {
            let parts = parts.into_iter().map(|part| reader.part(part, shards));
            Asked::Parts(parts.collect::<Result<_, _>>()?)
        }
    };
    hold.set(match &asked {
        Asked::Whole(ask) => ask.bytes(),
        Asked::Parts(parts) => parts.iter().map(AskedPart::bytes).sum(),
    })?;
    Ok(Post { sender, asked, hold })
}

/// Does the same for a part that another instance forwarded to a shard of this instance.
pub(super) fn forwarded<T: PostHandler>(
    part: Original,
    taker: Arc<T>,
    hold: &mut MemoryHold,
    reading: &Arc<Reading>,
) -> Result<Ask<T>, Refusal> {
    let mut reader = Reader::new(part.encoding, part.body.len(), reading, hold)?;
    let ask = reader.here(taker, part.body)?;
    hold.set(ask.bytes())?;
    Ok(ask)
}

impl<T: PostHandler> AskedPart<T> {
    fn bytes(&self) -> usize {
        let asked = self.ask.as_ref().map_or(0, Ask::bytes);
        self.part.body.len() + asked
    }
}

/// Parses one body, and reserves memory for the body and its rewritten form while both exist.
struct Reader<'r> {
    encoding: Encoding,
    reading: &'r Arc<Reading>,
    hold: &'r mut MemoryHold,
    /// The memory that parsing may take.
    most: usize,
}

impl<'r> Reader<'r> {
    fn new(
        encoding: Encoding,
        length: usize,
        reading: &'r Arc<Reading>,
        hold: &'r mut MemoryHold,
    ) -> Result<Reader<'r>, Refusal> {
        let mut reader = Reader { encoding, reading, hold, most: 0 };
        reader.takes(length)?;
        Ok(reader)
    }

    /// Reserves memory for parsing a body of so many bytes.
    fn takes(&mut self, length: usize) -> Result<(), Refusal> {
        let grows = match self.encoding {
            Encoding::Json => WHILE_READ_JSON,
            Encoding::Protobuf => WHILE_READ_PROTOBUF,
        };
        self.hold.set(grows * length)?;
        self.most = 2 * grows * length;
        Ok(())
    }

    /// If a part can't be parsed, that part alone is refused; if memory is short, the whole request is.
    fn part<T: PostHandler>(&mut self, part: Part, shards: &Shards<T>) -> Result<AskedPart<T>, Refusal> {
        let Part { shard, body, resources } = part;
        let encoding = self.encoding;
        let part = Original { encoding, body };
        let ask = match shards.here(shard) {
            Some(taker) => match self.here(taker, part.body.clone()) {
                Err(Refusal::Unreadable(why)) => Err(Refusal::Unreadable(why)),
                read => Ok(read?),
            },
            None => Ok(Ask::Away { shard, part: part.clone() }),
        };
        Ok(AskedPart { part, resources, ask })
    }

    fn here<T: PostHandler>(&mut self, taker: Arc<T>, body: Bytes) -> Result<Ask<T>, Refusal> {
        let encoding = self.encoding;
        let original = taker.wants_originals().then(|| Original { encoding, body: body.clone() });
        let shard = taker.shard();
        let reading = shard.map_or(self.reading, |shard| shard.reading(self.reading));
        let known = match encoding {
            Encoding::Json => None,
            Encoding::Protobuf => shard.and_then(|shard| shard.numbered(&body, reading)).map(Request::from),
        };
        let (request, rounded) = match known {
            Some(mut request) => {
                let rounded = request.take_rounded();
                (request, rounded)
            }
            None => self.written(&*taker, reading, body)?,
        };
        Ok(Ask::Here(Box::new(Here { taker, request, original, rounded })))
    }

    fn written(
        &mut self,
        taker: &impl PostHandler,
        reading: &Reading,
        body: Bytes,
    ) -> Result<(Request, Rounded), Refusal> {
        let room = |more: usize| {
            let both = self.most + WHILE_READ_JSON * more;
            self.hold.set(both).map_err(Refusal::from)
        };
        let Prepared { body, rounded, is_cumulative } =
            otlp::prepare_with(self.encoding, body, reading, room)?;
        let numbered = match is_cumulative && reading.profile == Profile::AlsoCumulative {
            true => taker.numbered_text(&body).map_err(|refused| match refused {
                book::Refused::LongSeries => Refusal::LongSeries,
                _ => Refusal::NoMemory,
            })?,
            false => None,
        };
        Ok((numbered.map_or(Request::Text(body), Request::from), rounded))
    }
}

#[cfg(test)]
mod tests;
