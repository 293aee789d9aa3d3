//! Looks a request through: its fields in the order in which nearly all encoders write them, each once. Of anything else
//! it says `Slow`, and then the request is read as any other.

use super::fields::{adds_up, eights, is_recorded, is_span, number, pass_extremes, span, whole_sum, Number};
use super::identity::Learner;
use super::levels::{Level, Levels, CUMULATIVE};
use super::Numbered;
use crate::journal::Points;
use crate::otlp::finer_units::{InFiner, RoundedPoint, Scale};
use crate::otlp::from_protobuf::is_exemplar;
use crate::otlp::output::LONGEST_LIST;
use crate::otlp::schema::{
    of_histogram, of_sum, Field, Message, EXPONENTIAL_OF, GAUGE_OF, HISTOGRAM_OF, METRIC, METRICS, POINTS,
    REQUEST, RESOURCES, RESOURCE_METRICS, RESOURCE_OF, SCOPES, SCOPE_METRICS, SCOPE_OF, SUMMARY_OF, SUM_OF,
};
use crate::otlp::wire::{is_sound, Fields, Payload};
use crate::otlp::Rounded;
use std::sync::atomic::Ordering::Relaxed;
use std::sync::RwLockReadGuard;

/// The fields of a metric that have points.
const DATA: [u32; 5] = [number_of(GAUGE_OF), SUM, HISTOGRAM, EXPONENTIAL, number_of(SUMMARY_OF)];
const SUM: u32 = number_of(SUM_OF);
const HISTOGRAM: u32 = number_of(HISTOGRAM_OF);
const EXPONENTIAL: u32 = number_of(EXPONENTIAL_OF);

const fn number_of(field: &Field) -> u32 {
    field.number as u32
}

/// What most requests have more of for a word that is read of them, and for a point.
const BYTES_OF_A_WORD: usize = 16;
const BYTES_OF_A_POINT: usize = 64;

/// What is above points, where it is short. It is written once more for each metric and series below it that is not known yet.
fn short(above: &[u8]) -> Result<&[u8], Slow> {
    (above.len() <= LONGEST_LIST).then_some(above).ok_or(Slow)
}

/// A request that is to be read as any other.
#[derive(Debug)]
pub struct Slow;

/// Where in a request it is.
#[derive(Clone, Copy, Default)]
pub struct Path<'b> {
    pub resource: &'b [u8],
    pub scope: Option<&'b [u8]>,
    pub head: Option<Head<'b>>,
}

/// A metric without its points.
#[derive(Clone, Copy)]
pub struct Head<'b> {
    /// Its fields before its data.
    pub before: &'b [u8],
    /// The number of its data's field; 0 where it has none.
    pub data: u32,
    /// Of the data what follows its points.
    pub tail: &'b [u8],
}

/// Of a point what identifies its series.
#[derive(Clone, Copy)]
pub struct Own<'b> {
    /// Of a histogram.
    pub bounds: Option<&'b [u8]>,
    /// The fields of its attributes.
    pub attributes: &'b [u8],
}

pub struct Walk<'b> {
    learner: &'b Learner<'b>,
    /// What is known; none while something is learnt.
    known: Option<RwLockReadGuard<'b, Levels>>,
    path: Path<'b>,
    /// By which a metric is found.
    key: Vec<u8>,
    /// Of the last histogram's point its bounds, and their level within the metric's.
    bounds: Option<(Level, &'b [u8], Level)>,
    words: Vec<u64>,
    ends: Vec<usize>,
    /// The places of the points that are cumulative.
    cumulative: Vec<u32>,
    foreign: u64,
    rounded: Vec<RoundedPoint>,
}

/// Gives each message of a list that is in another. Whatever else is there must say nothing.
#[inline]
fn each<'b>(
    of: &'static Message,
    number: u8,
    mut fields: Fields<'b>,
    mut one: impl FnMut(&'b [u8]) -> Result<(), Slow>,
) -> Result<(), Slow> {
    loop {
        while let Some(message) = fields.bytes(number) {
            one(message)?;
        }
        if !pass(of, &mut fields)? {
            return Ok(());
        }
    }
}

/// Passes a field that says nothing, if there is one more.
fn pass(of: &'static Message, fields: &mut Fields<'_>) -> Result<bool, Slow> {
    match fields.next() {
        None => Ok(false),
        Some(Ok((number, _))) if of.says_nothing(number) => Ok(true),
        Some(_) => Err(Slow),
    }
}

/// The fields of this number that come next, all in one.
#[inline]
fn run<'b>(fields: &mut Fields<'b>, number: u8) -> &'b [u8] {
    let begin = fields.rest();
    while fields.bytes(number).is_some() {}
    fields.since(begin)
}

impl<'b> Walk<'b> {
    /// `length` is the request's.
    pub fn new(learner: &'b Learner<'b>, length: usize) -> Walk<'b> {
        Walk {
            learner,
            known: Some(learner.known()),
            path: Path::default(),
            key: Vec::new(),
            bounds: None,
            words: Vec::with_capacity(length / BYTES_OF_A_WORD),
            ends: Vec::with_capacity(length / BYTES_OF_A_POINT),
            cumulative: Vec::new(),
            foreign: 0,
            rounded: Vec::new(),
        }
    }

    pub fn request(mut self, body: &'b [u8]) -> Result<Numbered, Slow> {
        each(&REQUEST, RESOURCES.number, Fields::of(body), |resource| self.resource(resource))?;
        let points = Points::new(self.words, self.ends).ok_or(Slow)?;
        Ok(Numbered {
            points,
            foreign: self.foreign,
            rounded: Rounded::of_points(self.rounded),
            cumulative: self.cumulative,
        })
    }

    fn resource(&mut self, message: &'b [u8]) -> Result<(), Slow> {
        let mut fields = Fields::of(message);
        let resource = short(fields.bytes(RESOURCE_OF.number).unwrap_or_default())?;
        self.path = Path { resource, ..Path::default() };
        let decides = self.learner.reading.finer_units.decides();
        let top = self.known_or(|levels| levels.top(decides), |learner, _| learner.top(decides))?;
        let level = self.level(top, resource)?;
        each(&RESOURCE_METRICS, SCOPES.number, fields, |scope| self.scope(level, scope))
    }

    fn scope(&mut self, resource: Level, message: &'b [u8]) -> Result<(), Slow> {
        let mut fields = Fields::of(message);
        let scope = short(fields.bytes(SCOPE_OF.number).unwrap_or_default())?;
        (self.path.scope, self.path.head) = (Some(scope), None);
        let level = self.level(resource, scope)?;
        each(&SCOPE_METRICS, METRICS.number, fields, |metric| self.metric(level, metric))
    }

    fn metric(&mut self, scope: Level, metric: &'b [u8]) -> Result<(), Slow> {
        let mut fields = Fields::of(metric);
        let (mut before, mut number, mut data) = (metric, 0, &[][..]);
        loop {
            let here = fields.rest();
            match fields.next() {
                None => break,
                Some(Ok((found, Payload::Bytes(bytes)))) if DATA.contains(&found) => {
                    (before, number, data) = (&metric[..metric.len() - here.len()], found, bytes);
                    while pass(&METRIC, &mut fields)? {}
                    break;
                }
                Some(Ok(_)) => {} // it is looked at where the metric is not known yet
                Some(Err(_)) => return Err(Slow),
            }
        }
        if number == EXPONENTIAL && self.learner.reading.exponential.is_some() {
            return Err(Slow);
        }
        let mut behind = Fields::of(data);
        let points = run(&mut behind, POINTS.number);
        let tail = behind.rest();
        if !behind.all(|field| matches!(field, Ok((number, _)) if number != number_of(POINTS))) {
            return Err(Slow);
        }
        let head = Head { before: short(before)?, data: number, tail: short(tail)? };
        let level = self.head(scope, head)?;
        self.points(level, number, Fields::of(points))
    }

    /// The level of a metric.
    fn head(&mut self, scope: Level, head: Head<'b>) -> Result<Level, Slow> {
        let mut key = std::mem::take(&mut self.key);
        key.clear();
        // With the length no two metrics have the same key.
        key.extend_from_slice(&head.before.len().to_le_bytes());
        key.extend_from_slice(head.before);
        key.push(head.data as u8);
        key.extend_from_slice(head.tail);
        self.path.head = Some(head);
        let level = self.level(scope, &key);
        self.key = key;
        level
    }

    /// The level of these bytes, which are the last part of the path.
    #[inline]
    fn level(&mut self, within: Level, bytes: &[u8]) -> Result<Level, Slow> {
        self.known_or(|levels| levels.find(within, bytes), |learner, path| learner.level(path, within, bytes))
    }

    /// What is known, or else learnt. No lock is held while it is read or named.
    #[inline]
    fn known_or<T>(
        &mut self,
        known: impl FnOnce(&Levels) -> Option<T>,
        learnt: impl FnOnce(&Learner<'_>, &Path<'_>) -> Result<T, Slow>,
    ) -> Result<T, Slow> {
        if let Some(found) = self.known.as_deref().and_then(known) {
            return Ok(found);
        }
        if self.learner.is_full.load(Relaxed) {
            return Err(Slow);
        }
        self.known = None;
        let learnt = learnt(self.learner, &self.path)?;
        self.known = Some(self.learner.known());
        Ok(learnt)
    }

    fn points(&mut self, level: Level, data: u32, mut points: Fields<'b>) -> Result<(), Slow> {
        let scale = self.known.as_ref().and_then(|levels| levels.scale(level));
        let scale = scale.as_deref();
        while let Some(point) = points.bytes(POINTS.number) {
            match data {
                SUM => self.sum(level, scale, point)?,
                HISTOGRAM => self.histogram(level, scale, point)?,
                // Of no other kind a point is taken.
                _ if is_sound(point) => self.foreign += 1,
                _ => return Err(Slow),
            }
        }
        Ok(())
    }

    fn sum(&mut self, level: Level, scale: Option<&Scale>, point: &'b [u8]) -> Result<(), Slow> {
        let mut fields = Fields::of(point);
        let (start, end) = span(&mut fields);
        // Some encoders have it before the exemplars, some behind them, some last.
        let value = number(&mut fields);
        self.exemplars(&mut fields, of_sum::EXEMPLARS)?;
        let value = value.or_else(|| number(&mut fields));
        let attributes = run(&mut fields, of_sum::ATTRIBUTES);
        let flags = fields.number(of_sum::FLAGS);
        let value = value.or_else(|| number(&mut fields));
        let own = Own { bounds: None, attributes };
        let number = self.series(level, own, scale, &fields)?;
        let value = match (value, scale) {
            (Some(Number::Whole(bits)), None) => Some(bits),
            (None | Some(Number::Double(_)), None) | (None, Some(_)) => None,
            (Some(_), Some(_)) if !(is_recorded(number, flags) && is_span(start, end)) => return Err(Slow),
            (Some(Number::Whole(bits)), Some(scale)) => Some(self.rounded(number, scale.whole(bits))?),
            (Some(Number::Double(double)), Some(scale)) => Some(self.rounded(number, scale.double(double))?),
        };
        match value {
            Some(value) if is_recorded(number, flags) => {
                let words = [self.noted(number), start, end, value];
                self.words.extend_from_slice(&words);
                self.ends.push(self.words.len());
            }
            _ => self.foreign += 1,
        }
        Ok(())
    }

    fn histogram(&mut self, level: Level, scale: Option<&Scale>, point: &'b [u8]) -> Result<(), Slow> {
        let mut fields = Fields::of(point);
        let (start, end) = span(&mut fields);
        let count = fields.fixed64(of_histogram::COUNT).unwrap_or(0);
        let sum = fields.fixed64(of_histogram::SUM).map(f64::from_bits);
        // One kind of encoder has them here, another at the end.
        pass_extremes(&mut fields);
        let buckets = eights(fields.bytes(of_histogram::BUCKETS))?;
        let bounds = fields.bytes(of_histogram::BOUNDS).unwrap_or_default();
        let bound_count = eights(Some(bounds))?.len();
        self.exemplars(&mut fields, of_histogram::EXEMPLARS)?;
        let attributes = run(&mut fields, of_histogram::ATTRIBUTES);
        let flags = fields.number(of_histogram::FLAGS);
        pass_extremes(&mut fields);
        let level = self.level_of_bounds(level, bounds)?;
        let own = Own { bounds: Some(bounds), attributes };
        let number = self.series(level, own, scale, &fields)?;
        let whole = [count.to_le_bytes()];
        let buckets = match buckets.is_empty() && bound_count == 0 {
            true => &whole, // one bucket has all
            false => buckets,
        };
        let sum = match (sum, scale) {
            (None, _) => Some([0, 0]),
            (Some(sum), None) => whole_sum(sum),
            (Some(_), Some(_))
                if !(is_recorded(number, flags) && is_span(start, end) && adds_up(buckets, count)) =>
            {
                return Err(Slow)
            }
            (Some(sum), Some(scale)) if scale.is_finer() => Some([1, self.rounded(number, scale.sum(sum))?]),
            (Some(sum), Some(_)) => Some(whole_sum(sum).ok_or(Slow)?),
        };
        match sum {
            Some([has, sum]) if is_recorded(number, flags) && buckets.len() == bound_count + 1 => {
                let before = [self.noted(number), start, end, count, has, sum];
                self.words.extend_from_slice(&before);
                let buckets = buckets.iter().map(|bucket| u64::from_le_bytes(*bucket));
                self.words.extend(buckets);
                self.ends.push(self.words.len());
            }
            _ => self.foreign += 1,
        }
        Ok(())
    }

    /// A number in the finer unit. What it was rounded by is noted of its series; a request with one that is not taken is
    /// read as a text, which names it.
    fn rounded(&mut self, number: u32, in_finer: InFiner) -> Result<u64, Slow> {
        let (value, by) = in_finer.ok_or(Slow)?;
        if by > 0.0 {
            let of = self.known.as_ref().and_then(|levels| levels.shown(number)).ok_or(Slow)?;
            self.rounded.push(RoundedPoint { of, by });
        }
        Ok(value)
    }

    /// The number of the series of the next point, of which is noted whether it is cumulative.
    #[inline]
    fn noted(&mut self, number: u32) -> u64 {
        if number & CUMULATIVE != 0 {
            self.cumulative.push(self.ends.len() as u32);
        }
        u64::from(number & !CUMULATIVE)
    }

    /// Passes the exemplars that come next. They are new each time, and say nothing.
    fn exemplars(&self, fields: &mut Fields<'b>, number: u8) -> Result<(), Slow> {
        while let Some(exemplar) = fields.bytes(number) {
            if !is_exemplar(exemplar, self.learner.reading) {
                return Err(Slow);
            }
        }
        Ok(())
    }

    /// Most points have the bounds of the point before.
    fn level_of_bounds(&mut self, within: Level, bounds: &'b [u8]) -> Result<Level, Slow> {
        match self.bounds {
            Some((level, same, known)) if level == within && same == bounds => Ok(known),
            _ => {
                let known = |levels: &Levels| levels.find(within, bounds);
                let level = self.known_or(known, |learner, _| learner.bounds(within, bounds))?;
                self.bounds = Some((within, bounds, level));
                Ok(level)
            }
        }
    }

    /// The number of a point's series, where nothing is left of the point.
    #[inline]
    fn series(
        &mut self,
        level: Level,
        own: Own<'b>,
        scale: Option<&Scale>,
        rest: &Fields<'b>,
    ) -> Result<u32, Slow> {
        if !rest.rest().is_empty() {
            return Err(Slow);
        }
        let known = |levels: &Levels| levels.find(level, own.attributes);
        self.known_or(known, |learner, path| learner.series(path, level, own, scale))
    }
}
