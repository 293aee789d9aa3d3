//! Translates the numbers of series in the journal's files into those of the book, for `recover`.

use crate::book::{Names, Read, Refused, SharedBook};
use crate::journal::{Body, ByNumber, Post};
use crate::otlp::series::Around;
use bytes::Bytes;
use std::sync::{Arc, OnceLock};

/// Takes the posts in the order of the journal, since a file defines a number only once.
pub(super) struct Numbers {
    shared_book: Arc<SharedBook>,
    pub own: Arc<Own>,
    /// By the number in the file that is being read.
    of_file: ByNumber<Option<Number>>,
}

/// The book's numbers, which series get in parallel. Series that are seeded have theirs before any file names one, so
/// that the points of the journal share the book's own identities.
#[derive(Default)]
pub(super) struct Own {
    /// None until the first series gets a number.
    names: OnceLock<Arc<Names>>,
}

/// The series of a number in a file.
pub(super) enum Number {
    /// Not resolved yet: a request with one point of the series.
    Defined(Bytes),
    Own(u64),
}

impl Numbers {
    pub fn new(shared_book: Arc<SharedBook>, own: Arc<Own>) -> Numbers {
        Numbers { shared_book, own, of_file: ByNumber::default() }
    }

    /// Defines these numbers.
    pub fn note(&mut self, named: Vec<(u64, Number)>) {
        named.into_iter().for_each(|(number, known)| *self.of_file.of(number) = Some(known));
    }

    /// Replaces the numbers of a post by the book's. If that fails the post is unchanged; `NoSuch` means that a number
    /// is not defined.
    pub fn number(&mut self, post: &mut Post) -> Result<(), Refused> {
        if let Body::Points(points) = &mut post.body {
            let own: Result<Vec<u64>, Refused> = points.numbers().map(|number| self.own_of(number)).collect();
            points.renumber(&own?);
        }
        Ok(())
    }

    /// A post with the book's numbers, to be parsed.
    pub fn unread(&self, mut post: Post) -> Result<Read, Refused> {
        let names = match &post.body {
            Body::Text(_) => {
                post.foreign = 0; // the text contains them
                None
            }
            Body::Points(_) => Some(self.own.names()?.clone()), // it has only points that the book took
        };
        Ok(self.shared_book.unread(post, names))
    }

    fn own_of(&mut self, number: u64) -> Result<u64, Refused> {
        let known = self.of_file.of(number).as_mut().ok_or(Refused::NoSuch)?;
        known.resolve(&self.own)
    }
}

impl Number {
    fn text(&self) -> Option<Bytes> {
        match self {
            Number::Defined(text) => Some(text.clone()),
            Number::Own(_) => None,
        }
    }

    /// Resolves the number in the book.
    pub fn resolve(&mut self, of: &Own) -> Result<u64, Refused> {
        let own = match self {
            Number::Own(own) => return Ok(*own),
            Number::Defined(text) => of.number(text)?,
        };
        *self = Number::Own(own);
        Ok(own)
    }
}

impl Own {
    fn names(&self) -> Result<&Arc<Names>, Refused> {
        if let Some(names) = self.names.get() {
            return Ok(names);
        }
        let new = Names::new()?;
        Ok(self.names.get_or_init(|| new))
    }

    /// Two concurrent calls for one series get the same number.
    fn number(&self, text: &[u8]) -> Result<u64, Refused> {
        self.names()?.number_of(text)
    }

    /// Resolves these numbers; neighbours that differ little are resolved together.
    pub fn find(&self, mut said: &mut [&mut Number]) {
        let texts: Vec<Bytes> = said.iter().map_while(|number| number.text()).collect();
        let mut texts = &texts[..];
        while let Some(first) = texts.first() {
            let around = Around::of(first).filter(Around::is_of_sum);
            let points = around.iter().flat_map(|around| around.points(texts)).collect::<Vec<_>>();
            let alike = points.len().max(1);
            let (those, left) = said.split_at_mut(alike);
            if let Some(around) = around.filter(|_| alike > 1) {
                self.find_alike(those, &around.with(&points));
            }
            for number in those {
                let _ = number.resolve(self); // if this fails, it is tried again later
            }
            (said, texts) = (left, &texts[alike..]);
        }
    }

    /// Resolves them by one request, if the library finds one sum for each; otherwise they are resolved one by one.
    fn find_alike(&self, said: &mut [&mut Number], request: &[u8]) {
        let found = self.names().ok().and_then(|names| names.numbers_of(request, said.len()));
        let found = found.into_iter().flatten();
        said.iter_mut().zip(found).for_each(|(number, own)| **number = Number::Own(own));
    }

    /// Gives numbers to the series of a parsed post, as far as there is memory.
    pub fn note(&self, read: &mut Read) {
        if let Ok(names) = self.names() {
            read.note(names);
        }
    }
}

#[cfg(test)]
mod tests {
    use super::*;
    use crate::journal::Names as _;
    use crate::otlp::series::only;

    /// Requests with one point each that differ only in one attribute.
    fn texts(metric: &str, data: &str, says: &str, attributes: std::ops::Range<u8>) -> Vec<Bytes> {
        let text = |attribute| {
            format!(
                r#"{{"resourceMetrics":[{{"scopeMetrics":[{{"metrics":[{{"name":"{metric}","{data}":{{"aggregationTemporality":1,"dataPoints":[{{"attributes":[{{"key":"a","value":{{"intValue":"{attribute}"}}}}],"startTimeUnixNano":"1","timeUnixNano":"2",{says}}}]}}}}]}}]}}]}}"#
            )
        };
        attributes.map(|attribute| text(attribute).into()).collect()
    }

    #[test]
    fn series_that_are_found_at_once_have_the_numbers_that_each_has_by_itself() {
        let histogram = r#""count":"3","sum":5,"bucketCounts":["1","2"],"explicitBounds":[7]"#;
        let all = [
            texts("a", "sum", r#""asInt":"0""#, 0..5),
            texts("a", "sum", r#""asInt":1.5"#, 0..3), // foreign
            texts("h", "histogram", histogram, 0..3),
            texts("b", "sum", r#""asInt":"0""#, 0..1),
            texts("a", "sum", r#""asInt":"0""#, 3..9),
        ]
        .concat();
        let own = Own::default();
        let mut found: Vec<Number> = all.iter().cloned().map(Number::Defined).collect();
        own.find(&mut found.iter_mut().collect::<Vec<_>>());
        for (number, text) in found.into_iter().zip(&all) {
            match (number, own.number(text)) {
                (Number::Own(number), Ok(alone)) => {
                    assert_eq!(number, alone);
                    let name = own.names().unwrap().text(number);
                    assert_eq!(only(&name), only(text));
                }
                (Number::Defined(_), Err(refused)) => {
                    assert_eq!((refused, only(text)), (Refused::NotOne, None));
                }
                _ => panic!("{text:?}"),
            }
        }
        assert_eq!(own.number(&texts("c", "sum", r#""asInt":"0""#, 0..1)[0]), Ok(13), "of 13 series");
    }
}
