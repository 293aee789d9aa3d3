//! The fields of a protobuf message, one after the other, where they are in its bytes; and how one is written.

/// Why bytes are no message.
#[derive(Clone, Copy, Debug, PartialEq, Eq, thiserror::Error)]
pub enum Malformed {
    #[error("cut within a field")]
    Cut,
    #[error("a number of more than 64 bits")]
    LongNumber,
    #[error("a field without a number")]
    NoNumber,
    #[error("a field of an unknown wire type")]
    WireType,
    #[error("groups nested too deep")]
    Deep,
}

/// Groups may be nested as deep as protobuf's own readers allow.
const MAX_GROUPS: usize = 100;

#[derive(Clone, Copy, Debug, PartialEq)]
pub enum Payload<'a> {
    Varint(u64),
    Fixed64(u64),
    Bytes(&'a [u8]),
    Fixed32(u32),
    /// What is in it is passed over: no message of OTLP has had one.
    Group,
}

impl<'a> Payload<'a> {
    /// Of a text, a message or a packed list; none of what has a number.
    pub fn bytes(self) -> &'a [u8] {
        match self {
            Payload::Bytes(bytes) => bytes,
            _ => &[],
        }
    }

    /// Of a number, whose bits are 64 or fewer.
    pub fn bits(self) -> u64 {
        match self {
            Payload::Varint(bits) | Payload::Fixed64(bits) => bits,
            _ => 0,
        }
    }
}

/// Numbers of 8 bytes each, packed.
pub fn fixed64s(packed: &[u8]) -> impl Iterator<Item = u64> + '_ {
    packed.as_chunks().0.iter().map(|bits| u64::from_le_bytes(*bits))
}

/// Numbers of any length, packed.
pub fn numbers(packed: &[u8]) -> impl Iterator<Item = Result<u64, Malformed>> + '_ {
    let mut fields = Fields::of(packed);
    std::iter::from_fn(move || {
        let number = (!fields.rest.is_empty()).then(|| fields.varint())?;
        if number.is_err() {
            fields.rest = &[];
        }
        Some(number)
    })
}

/// Whether all fields of a message can be read.
pub fn is_sound(message: &[u8]) -> bool {
    Fields::of(message).all(|field| field.is_ok())
}

/// The fields of a message, each with its bytes; none of one that can't be read. No list of them is kept: a field may be of two
/// bytes.
pub fn fields(message: &[u8]) -> Option<impl Iterator<Item = (u32, Payload<'_>, &[u8])>> {
    let mut fields = Fields::of(message);
    let next = move || {
        let here = fields.rest();
        let (number, payload) = fields.next()?.ok()?;
        Some((number, payload, fields.since(here)))
    };
    is_sound(message).then(|| std::iter::from_fn(next))
}

/// The bytes of a field, each time it is there, up to what can't be read.
pub fn bytes_of(message: &[u8], number: u32) -> impl Iterator<Item = &[u8]> {
    Fields::of(message).filter_map(move |field| match field {
        Ok((found, Payload::Bytes(bytes))) if found == number => Some(bytes),
        _ => None,
    })
}

/// A field that has a length.
pub fn field(number: u32, bytes: &[u8]) -> Vec<u8> {
    let mut out = Vec::with_capacity(bytes.len() + 6);
    put_field(&mut out, number, bytes);
    out
}

pub fn put_field(out: &mut Vec<u8>, number: u32, bytes: &[u8]) {
    prost::encoding::encode_key(number, prost::encoding::WireType::LengthDelimited, out);
    prost::encoding::encode_varint(bytes.len() as u64, out);
    out.extend_from_slice(bytes);
}

/// A field that has a number of any length.
pub fn put_varint(out: &mut Vec<u8>, number: u32, value: u64) {
    prost::encoding::encode_key(number, prost::encoding::WireType::Varint, out);
    prost::encoding::encode_varint(value, out);
}

/// A field of 8 bytes.
pub fn put_fixed64(out: &mut Vec<u8>, number: u32, bits: u64) {
    prost::encoding::encode_key(number, prost::encoding::WireType::SixtyFourBit, out);
    out.extend_from_slice(&bits.to_le_bytes());
}

#[derive(Clone, Copy)]
pub struct Fields<'a> {
    rest: &'a [u8],
}

impl<'a> Fields<'a> {
    pub fn of(message: &'a [u8]) -> Fields<'a> {
        Fields { rest: message }
    }

    /// What is not read yet.
    pub fn rest(&self) -> &'a [u8] {
        self.rest
    }

    /// What was read since so much was not read yet.
    #[inline]
    pub fn since(&self, rest: &'a [u8]) -> &'a [u8] {
        &rest[..rest.len() - self.rest.len()]
    }

    /// A field's number and wire type.
    #[inline(always)]
    fn key(&mut self) -> Result<u32, Malformed> {
        let key = u32::try_from(self.varint()?).map_err(|_| Malformed::LongNumber)?;
        match key >> 3 {
            0 => Err(Malformed::NoNumber),
            _ => Ok(key),
        }
    }

    #[inline(always)]
    fn payload(&mut self, key: u32) -> Result<Payload<'a>, Malformed> {
        Ok(match key & 7 {
            0 => Payload::Varint(self.varint()?),
            1 => Payload::Fixed64(u64::from_le_bytes(self.array()?)),
            2 => {
                let length = usize::try_from(self.varint()?).map_err(|_| Malformed::Cut)?;
                Payload::Bytes(self.take(length)?)
            }
            3 => {
                self.pass_group(key >> 3)?;
                Payload::Group
            }
            5 => Payload::Fixed32(u32::from_le_bytes(self.array()?)),
            _ => return Err(Malformed::WireType),
        })
    }

    /// Passes what is in a group of this number, and its end.
    #[inline(never)]
    fn pass_group(&mut self, number: u32) -> Result<(), Malformed> {
        let mut open = vec![number];
        while let Some(innermost) = open.last() {
            let key = self.key()?;
            match key & 7 {
                3 if open.len() == MAX_GROUPS => return Err(Malformed::Deep),
                3 => open.push(key >> 3),
                4 if key >> 3 == *innermost => drop(open.pop()),
                _ => drop(self.payload(key)?),
            }
        }
        Ok(())
    }

    /// Passes the next field, if it is this one: its bytes.
    #[inline]
    pub fn bytes(&mut self, number: u8) -> Option<&'a [u8]> {
        self.field_of(number << 3 | 2, |fields| {
            let length = usize::try_from(fields.varint()?).map_err(|_| Malformed::Cut)?;
            fields.take(length)
        })
    }

    /// Passes the next field, if it is this one and has 8 bytes: their bits.
    #[inline]
    pub fn fixed64(&mut self, number: u8) -> Option<u64> {
        self.field_of(number << 3 | 1, |fields| fields.array().map(u64::from_le_bytes))
    }

    /// Passes the next field, if it is this one and has a number of any length.
    #[inline]
    pub fn number(&mut self, number: u8) -> Option<u64> {
        self.field_of(number << 3, Fields::varint)
    }

    /// Passes a field with this key of one byte, if it is next and whole.
    #[inline]
    fn field_of<T>(
        &mut self,
        key: u8,
        payload: impl FnOnce(&mut Fields<'a>) -> Result<T, Malformed>,
    ) -> Option<T> {
        let mut ahead = Fields::of(self.rest.strip_prefix(&[key])?);
        let payload = payload(&mut ahead).ok()?;
        *self = ahead;
        Some(payload)
    }

    #[inline]
    fn take(&mut self, length: usize) -> Result<&'a [u8], Malformed> {
        if length > self.rest.len() {
            return Err(Malformed::Cut);
        }
        let (taken, rest) = self.rest.split_at(length);
        self.rest = rest;
        Ok(taken)
    }

    fn array<const N: usize>(&mut self) -> Result<[u8; N], Malformed> {
        self.take(N)?.try_into().map_err(|_| Malformed::Cut)
    }

    #[inline]
    fn varint(&mut self) -> Result<u64, Malformed> {
        // As a rule it is one byte, of a point's length two.
        let (number, rest) = match self.rest {
            [byte @ ..128, rest @ ..] => (u64::from(*byte), rest),
            [low, high @ ..128, rest @ ..] => (u64::from(low & 127) | u64::from(*high) << 7, rest),
            _ => return self.long_varint(),
        };
        self.rest = rest;
        Ok(number)
    }

    fn long_varint(&mut self) -> Result<u64, Malformed> {
        let mut number = 0;
        for (place, byte) in self.rest.iter().enumerate().take(10) {
            let bits = u64::from(byte & 127);
            if place == 9 && bits > 1 {
                return Err(Malformed::LongNumber);
            }
            number |= bits << (7 * place);
            if *byte < 128 {
                self.rest = &self.rest[place + 1..];
                return Ok(number);
            }
        }
        Err(if self.rest.len() < 10 { Malformed::Cut } else { Malformed::LongNumber })
    }
}

impl<'a> Iterator for Fields<'a> {
    type Item = Result<(u32, Payload<'a>), Malformed>;

    #[inline(always)]
    fn next(&mut self) -> Option<Self::Item> {
        if self.rest.is_empty() {
            return None;
        }
        let field = self.key().and_then(|key| Ok((key >> 3, self.payload(key)?)));
        if field.is_err() {
            self.rest = &[];
        }
        Some(field)
    }
}
