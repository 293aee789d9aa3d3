//! `--exponential`: a view of exponential histograms in buckets of given bounds, where each of their buckets falls into one.
//!
//! `edge` says where a bound is among the edges of their buckets, exactly; `view` puts the view in the place of the points of a
//! request in the book's form, so it is the same for both encodings. A point of which a bucket with values has a bound within
//! stays foreign, by name: which of its values are below the bound nobody knows.

mod edge;
mod view;

use edge::Edge;
use std::str::FromStr;
use std::sync::Arc;
pub(super) use view::{most_more, viewed, why_not};

/// As many as a histogram may have.
const MOST: usize = 255;

/// The bounds of the view, ascending.
#[derive(Clone, Debug, PartialEq)]
pub struct Bounds(Arc<[Bound]>);

#[derive(Debug, PartialEq)]
struct Bound {
    /// The nearest double, and whether that is the bound.
    double: f64,
    is_double: bool,
    /// Where its size is; none of zero.
    edge: Option<Edge>,
}

impl FromStr for Bounds {
    type Err = String;

    /// `1,2,4,8`, also `0.5` and `-1`.
    fn from_str(text: &str) -> Result<Bounds, String> {
        let bounds: Result<Vec<Bound>, String> = text.split(',').map(str::parse).collect();
        let bounds = bounds?;
        if bounds.len() > MOST {
            return Err(format!("there are at most {MOST} bounds"));
        }
        match bounds.windows(2).find(|two| two[0].double >= two[1].double) {
            Some(two) => Err(format!("bounds ascend, and after {} comes {}", two[0].double, two[1].double)),
            None => Ok(Bounds(bounds.into())),
        }
    }
}

impl FromStr for Bound {
    type Err = String;

    fn from_str(text: &str) -> Result<Bound, String> {
        let number = edge::number(text)?;
        let edge = match number.numerator {
            0 => None,
            _ => Some(Edge::of(number).ok_or_else(|| format!("{text} is too near to an edge of a bucket"))?),
        };
        Ok(Bound { double: edge::double(number), is_double: edge::is_double(number), edge })
    }
}

impl Bounds {
    /// As they stand in a request in the book's form: a fraction is a text.
    fn written(&self) -> String {
        let written = self.0.iter().map(|Bound { double, .. }| match double.fract() == 0.0 {
            true => double.to_string(),
            false => format!("\"{double}\""),
        });
        written.collect::<Vec<String>>().join(",")
    }
}

#[cfg(test)]
mod tests;
