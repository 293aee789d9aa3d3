//! Fields of JSON that may be of any type, so that a wrong one is no fault of the text.

use std::fmt::{Formatter, Result as Written};
use std::marker::PhantomData;

use plain::number::Number;
use serde::de::{Deserialize, Deserializer, Error, MapAccess, SeqAccess, Visitor};

/// A field is of another type than it must be.
pub struct Wrong;

/// A field that is not there or null, of another type, or as it must be.
#[derive(Default)]
pub enum Field<T> {
    #[default]
    Absent,
    Wrong,
    Is(T),
}

impl<T> Field<T> {
    pub fn is_absent(&self) -> bool {
        matches!(self, Field::Absent)
    }

    /// What is there, if anything is.
    pub fn optional(self) -> Result<Option<T>, Wrong> {
        match self {
            Field::Absent => Ok(None),
            Field::Wrong => Err(Wrong),
            Field::Is(it) => Ok(Some(it)),
        }
    }

    /// What has to be there.
    pub fn required(self) -> Result<T, Wrong> {
        self.optional()?.ok_or(Wrong)
    }
}

impl<T: Default> Field<T> {
    pub fn or_default(self) -> Result<T, Wrong> {
        Ok(self.optional()?.unwrap_or_default())
    }
}

impl<T> From<Option<T>> for Field<T> {
    fn from(found: Option<T>) -> Field<T> {
        found.map_or(Field::Wrong, Field::Is)
    }
}

/// What a field must be: each function gives none where that kind of JSON is not it.
pub trait Wanted: Sized {
    fn of_bool(_: bool) -> Option<Self> {
        None
    }

    fn of_number(_: Number) -> Option<Self> {
        None
    }

    fn of_text(_: &str) -> Option<Self> {
        None
    }

    fn of_list<'de, A: SeqAccess<'de>>(mut list: A) -> Result<Option<Self>, A::Error> {
        while list.next_element::<Anything>()?.is_some() {}
        Ok(None)
    }

    fn of_object<'de, A: MapAccess<'de>>(mut object: A) -> Result<Option<Self>, A::Error> {
        while object.next_entry::<Anything, Anything>()?.is_some() {}
        Ok(None)
    }
}

/// Nothing is wanted. It is read all the same: `IgnoredAny` lets pass what is no JSON, as half of a surrogate pair.
pub struct Nothing;
pub type Anything = Field<Nothing>;

impl Wanted for Nothing {}

impl Wanted for bool {
    fn of_bool(it: bool) -> Option<bool> {
        Some(it)
    }
}

impl Wanted for Number {
    fn of_number(number: Number) -> Option<Number> {
        Some(number)
    }

    fn of_text(text: &str) -> Option<Number> {
        Number::read(text)
    }
}

impl Wanted for String {
    fn of_text(text: &str) -> Option<String> {
        Some(text.to_owned())
    }
}

/// A list, each element of which is as it must be.
impl<T: Wanted> Wanted for Vec<T> {
    fn of_list<'de, A: SeqAccess<'de>>(mut list: A) -> Result<Option<Vec<T>>, A::Error> {
        let mut elements = Vec::new();
        while let Some(element) = list.next_element()? {
            match element {
                Field::Is(it) => elements.push(it),
                Field::Absent | Field::Wrong => return Nothing::of_list(list).map(|_| None),
            }
        }
        Ok(Some(elements))
    }
}

impl<'de, T: Wanted> Deserialize<'de> for Field<T> {
    fn deserialize<D: Deserializer<'de>>(from: D) -> Result<Field<T>, D::Error> {
        from.deserialize_any(Reader(PhantomData))
    }
}

struct Reader<T>(PhantomData<T>);

impl<'de, T: Wanted> Visitor<'de> for Reader<T> {
    type Value = Field<T>;

    fn expecting(&self, to: &mut Formatter) -> Written {
        to.write_str("JSON")
    }

    fn visit_unit<E: Error>(self) -> Result<Field<T>, E> {
        Ok(Field::Absent)
    }

    fn visit_bool<E: Error>(self, it: bool) -> Result<Field<T>, E> {
        Ok(T::of_bool(it).into())
    }

    fn visit_u64<E: Error>(self, number: u64) -> Result<Field<T>, E> {
        Ok(T::of_number(Number::Natural(number)).into())
    }

    fn visit_i64<E: Error>(self, number: i64) -> Result<Field<T>, E> {
        Ok(T::of_number(Number::of_signed(number)).into())
    }

    fn visit_f64<E: Error>(self, _: f64) -> Result<Field<T>, E> {
        Ok(Field::Wrong)
    }

    fn visit_str<E: Error>(self, text: &str) -> Result<Field<T>, E> {
        Ok(T::of_text(text).into())
    }

    fn visit_seq<A: SeqAccess<'de>>(self, list: A) -> Result<Field<T>, A::Error> {
        T::of_list(list).map(Field::from)
    }

    fn visit_map<A: MapAccess<'de>>(self, object: A) -> Result<Field<T>, A::Error> {
        T::of_object(object).map(Field::from)
    }
}
