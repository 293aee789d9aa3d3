//! Reads lists whose rows begin with a series key, in parallel and in parts: keys are long, and each is digested and
//! packed.

use super::texts::{Texts, PART};
use crate::otlp::series::{Digest, Digests, SeriesKey};
use crate::work::{in_order, WorkQueue};
use serde::de::{DeserializeOwned, Error, SeqAccess, Visitor};
use serde::Deserializer;
use serde_json::value::RawValue;
use std::fmt;
use std::marker::PhantomData;

/// Series keys with their digests, by id.
#[derive(Debug, Default)]
pub struct Keys {
    pub texts: Texts,
    pub digests: Vec<Digest>,
}

impl Keys {
    pub fn append(&mut self, more: Keys) {
        self.texts.append(&more.texts);
        self.digests.extend(more.digests);
    }
}

/// Passes the rows of a list to `show`, part by part: the keys, and what `of` makes of each row.
pub fn each_part<'de, R, V, D>(
    deserializer: D,
    of: fn(R) -> (SeriesKey, V),
    show: impl FnMut(Keys, Vec<V>) + Send,
) -> Result<(), D::Error>
where
    R: DeserializeOwned,
    V: Send,
    D: Deserializer<'de>,
{
    deserializer.deserialize_seq(Rows { of, show, row: PhantomData })
}

struct Rows<R, V, F> {
    of: fn(R) -> (SeriesKey, V),
    show: F,
    row: PhantomData<R>,
}

/// Some rows as they are written, and what was read of them; none if a row has another form.
struct Part<'de, V> {
    rows: Vec<&'de RawValue>,
    read: Option<(Keys, Vec<V>)>,
}

impl<'de, V> Part<'de, V> {
    fn next<A: SeqAccess<'de>>(rows: &mut A) -> Result<Part<'de, V>, A::Error> {
        let mut part = Part { rows: Vec::with_capacity(PART), read: None };
        while part.rows.len() < PART {
            let Some(row) = rows.next_element()? else {
                break;
            };
            part.rows.push(row);
        }
        Ok(part)
    }

    fn is_last(&self) -> bool {
        self.rows.len() < PART
    }

    fn push_with_all_behind<A: SeqAccess<'de>>(
        self,
        rows: &mut A,
        queue: &WorkQueue<Part<'de, V>>,
    ) -> Result<(), A::Error> {
        let mut part = self;
        loop {
            let is_last = part.is_last();
            if !queue.push(part) || is_last {
                return Ok(());
            }
            part = Part::next(rows)?;
        }
    }

    fn parse<R: DeserializeOwned>(&mut self, of: fn(R) -> (SeriesKey, V)) {
        let rows = self.rows.drain(..).map(|row| serde_json::from_str(row.get()).map(of));
        let (mut keys, mut digests) = (Keys::default(), Digests::default());
        let mut put = |(key, value)| {
            keys.digests.push(digests.of(&key));
            keys.texts.push(key);
            value
        };
        let values = rows.map(|row| row.map(&mut put)).collect::<Result<Vec<V>, _>>();
        self.read = values.ok().map(|values| (keys, values));
    }
}

impl<'de, R, V, F> Visitor<'de> for Rows<R, V, F>
where
    R: DeserializeOwned,
    V: Send,
    F: FnMut(Keys, Vec<V>) + Send,
{
    type Value = ();

    fn expecting(&self, out: &mut fmt::Formatter) -> fmt::Result {
        out.write_str("rows")
    }

    fn visit_seq<A: SeqAccess<'de>>(self, mut rows: A) -> Result<(), A::Error> {
        let Rows { of, mut show, .. } = self;
        let mut put = |part: Part<'de, V>| {
            let (keys, values) = part.read.ok_or(())?;
            show(keys, values);
            Ok(())
        };
        let mut first = Part::next(&mut rows)?;
        let mut given = Ok(());
        let read = if first.is_last() {
            first.parse(of);
            put(first)
        } else {
            let give = |queue: &WorkQueue<_>| {
                given = first.push_with_all_behind(&mut rows, queue);
                Ok(())
            };
            in_order(|part: &mut Part<'de, V>| part.parse(of), put, give)
        };
        given?;
        read.map_err(|()| A::Error::custom("a row of another form"))
    }
}

#[cfg(test)]
mod tests {
    use super::*;

    /// The keys of these rows, and their numbers.
    fn read(text: &str) -> Result<(Keys, Vec<u64>), serde_json::Error> {
        let (mut all, mut says) = (Keys::default(), Vec::new());
        let of = |row: (SeriesKey, u64)| row;
        each_part(&mut serde_json::Deserializer::from_str(text), of, |keys, values| {
            all.append(keys);
            says.extend(values);
        })?;
        Ok((all, says))
    }

    #[test]
    fn rows_are_read_in_their_order() {
        for count in [0, 1, PART - 1, PART, PART + 1, 2 * PART, 7 * PART + 5] {
            let rows: Vec<(String, u64)> =
                (0..count as u64).map(|row| (format!("[\"{row}\"]"), row)).collect();
            let (keys, says) = read(&serde_json::to_string(&rows).unwrap()).unwrap();
            let texts = keys.texts.all().map(|key| key.0.to_string());
            assert!(texts.zip(says).eq(rows), "{count}");
            assert!(keys.texts.all().map(|key| key.digest()).eq(keys.digests), "{count}");
        }
    }

    #[test]
    fn a_list_with_a_row_of_another_form_is_not_read() {
        for count in [1, PART, 5 * PART] {
            for wrong in ["[\"a\"]", "[\"a\",-1]", "[5,5]", "null", "[\"a\",5", ""] {
                for place in [0, count / 2, count] {
                    let mut rows = vec!["[\"a\",5]"; count];
                    assert!(read(&format!("[{}]", rows.join(","))).is_ok());
                    rows.insert(place, wrong);
                    assert!(read(&format!("[{}]", rows.join(","))).is_err(), "{wrong} at {place} of {count}");
                }
            }
        }
    }
}
