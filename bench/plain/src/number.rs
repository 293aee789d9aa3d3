//! Whole numbers, written as JSON numbers or as strings.

use std::fmt::{Formatter, Result as Written};

use serde::de::{Deserialize, Deserializer, Error, Unexpected, Visitor};

/// A whole number of 64 bits, with or without a sign.
#[derive(Clone, Copy, PartialEq, Eq)]
pub enum Number {
    Natural(u64),
    Negative(i64),
}

impl Number {
    pub fn natural(self) -> Option<u64> {
        match self {
            Number::Natural(number) => Some(number),
            Number::Negative(_) => None,
        }
    }

    pub fn signed(self) -> Option<i64> {
        match self {
            Number::Natural(number) => i64::try_from(number).ok(),
            Number::Negative(number) => Some(number),
        }
    }

    /// An optional `-` and one or more digits.
    pub fn read(text: &str) -> Option<Number> {
        let digits = text.strip_prefix('-').unwrap_or(text);
        if !digits.bytes().all(|byte| byte.is_ascii_digit()) {
            return None;
        }
        text.parse()
            .map(Number::Natural)
            .ok()
            .or_else(|| text.parse().map(Number::of_signed).ok())
    }

    pub fn of_signed(number: i64) -> Number {
        u64::try_from(number).map_or(Number::Negative(number), Number::Natural)
    }
}

impl<'de> Deserialize<'de> for Number {
    fn deserialize<D: Deserializer<'de>>(from: D) -> Result<Number, D::Error> {
        from.deserialize_any(Whole)
    }
}

struct Whole;

impl Visitor<'_> for Whole {
    type Value = Number;

    fn expecting(&self, to: &mut Formatter) -> Written {
        to.write_str("a whole number of 64 bits")
    }

    fn visit_u64<E: Error>(self, number: u64) -> Result<Number, E> {
        Ok(Number::Natural(number))
    }

    fn visit_i64<E: Error>(self, number: i64) -> Result<Number, E> {
        Ok(Number::of_signed(number))
    }

    fn visit_str<E: Error>(self, text: &str) -> Result<Number, E> {
        Number::read(text).ok_or_else(|| E::invalid_value(Unexpected::Str(text), &self))
    }
}
