//! Reading a type: serde's calls go over the parts of a tape.
use crate::error::Error;
use crate::place::Spot;
use crate::tags::*;
use crate::tape::{Tape, message_length, read_words};
use serde::de::value::{BorrowedBytesDeserializer, BorrowedStrDeserializer, MapAccessDeserializer};
use serde::de::{self, Deserialize, DeserializeOwned, DeserializeSeed, Error as _, Unexpected, Visitor};
use serde::forward_to_deserialize_any;
use std::cell::Cell;
use std::io::Read;

type Result<T> = std::result::Result<T, Error>;

/// How many words a thread keeps from one message for the next.
const MOST_KEPT: usize = 1 << 17;
/// The bytes of the shortest head: magic, capabilities, and a length of one byte.
const SHORTEST_HEAD: usize = 8;

thread_local! {
    static WORDS: Cell<Vec<u64>> = const { Cell::new(Vec::new()) };
}

/// Reads the message at the start of the bytes as a type, of at most 128 levels. What follows it is ignored.
///
/// Texts and byte strings are borrowed from the bytes, where the type borrows. A byte string is read as bytes, and as a
/// `String` or `&str` where it is UTF-8. A template is read as a sequence of its rows, each of them as an object; null
/// and a field that a row skips are `None`. A variant without content is a text or a byte string, and another one is an
/// object of one entry. A thread keeps at most 1 MiB from one call for the next.
///
/// # Errors
/// The bytes are no message, or the type does not read it. The error tells the kind, the place and the path.
pub fn from_slice<'de, T: Deserialize<'de>>(bytes: &'de [u8]) -> Result<T> {
    // (a call within this one finds none, and keeps its own)
    let mut words = WORDS.take();
    let read = read_words(bytes, &mut words).and_then(|found| from_words(bytes, &words[..found.length]));
    if words.len() <= MOST_KEPT {
        WORDS.set(words);
    }
    read
}

/// Reads a tape over these bytes as a type.
fn from_words<'de, T: Deserialize<'de>>(bytes: &'de [u8], words: &[u64]) -> Result<T> {
    let mut deserializer = Deserializer::over(bytes, words);
    match T::deserialize(&mut deserializer) {
        Ok(value) => Ok(value),
        Err(error) => Err(error.located(bytes, deserializer.parts)),
    }
}

/// Reads the next message of a reader as a type, and takes no byte behind it. It reads the head in two or three pieces,
/// and reserves no more than what came: wrap a socket or a file in a `BufReader`.
///
/// # Errors
/// As those of `from_slice`; that the reader ended, with how many bytes of the message came; or that it failed.
pub fn from_reader<R: Read, T: DeserializeOwned>(mut reader: R) -> Result<T> {
    let mut bytes = Vec::with_capacity(256);
    take(&mut reader, SHORTEST_HEAD, &mut bytes)?;
    let more = match bytes[SHORTEST_HEAD - 2] {
        0x04 => 1,
        0x05 => 3,
        0x06 => 7,
        _ => 0,
    };
    take(&mut reader, more, &mut bytes)?;
    if let Some(length) = message_length(&bytes)? {
        let left = length.saturating_sub(bytes.len());
        take(&mut reader, left, &mut bytes)?;
    }
    from_slice(&bytes)
}

/// Takes so many bytes more from the reader.
fn take(reader: &mut impl Read, count: usize, bytes: &mut Vec<u8>) -> Result<()> {
    let wanted = bytes.len() + count;
    reader.take(count as u64).read_to_end(bytes).map_err(Error::of_io)?;
    if bytes.len() < wanted {
        return Err(Error::ended(bytes.len()));
    }
    Ok(())
}

impl Tape<'_> {
    /// Reads the message as a type, as `from_slice` does. It borrows from the tape.
    pub fn to_type<'t, T: Deserialize<'t>>(&'t self) -> Result<T> {
        from_words(self.bytes(), self.words())
    }
}

/// The parts of a tape that are still to be read, for serde. Its errors say what is wrong; those of `from_slice` and
/// `Tape::to_type` say where too.
#[derive(Debug)]
pub struct Deserializer<'t, 'de> {
    bytes: &'de [u8],
    parts: &'t [[u64; 2]],
    rest: std::slice::Iter<'t, [u64; 2]>,
}

impl<'t> Deserializer<'t, 't> {
    /// The value of a message that was read.
    pub fn new(tape: &'t Tape<'_>) -> Deserializer<'t, 't> {
        Deserializer::over(tape.bytes(), tape.words())
    }
}

impl<'t, 'de> Deserializer<'t, 'de> {
    fn over(bytes: &'de [u8], words: &'t [u64]) -> Deserializer<'t, 'de> {
        let parts = words.as_chunks().0;
        Deserializer { bytes, parts, rest: parts.iter() }
    }

    /// The number of the next part.
    #[inline]
    fn at(&self) -> usize {
        self.parts.len() - self.rest.len()
    }

    #[inline]
    fn spot(&self) -> Spot {
        Spot { at: self.at(), is_row: false, wrong: self.at() }
    }

    #[inline]
    fn tag(&self) -> u64 {
        self.rest.as_slice().first().map_or(CLOSE, |part| tag_of(part[0]))
    }

    /// The next part, which is passed.
    #[inline]
    fn take(&mut self) -> [u64; 2] {
        self.rest.next().copied().unwrap_or([CLOSE, 0])
    }

    #[inline]
    fn string(&self, [first, second]: [u64; 2]) -> &'de [u8] {
        let start = second as usize;
        &self.bytes[start..start + count_of(first)]
    }

    /// The text of the next part, which is passed.
    #[inline]
    fn text(&mut self) -> Result<&'de str> {
        let part = self.take();
        std::str::from_utf8(self.string(part)).map_err(Error::custom)
    }

    /// Passes the next value.
    #[inline]
    fn pass(&mut self) {
        let mut open = 0usize;
        for part in self.rest.by_ref() {
            match tag_of(part[0]) {
                ARRAY | OBJECT | TEMPLATE => open += 1,
                CLOSE => open -= 1,
                _ => {}
            }
            if open == 0 {
                return;
            }
        }
    }

    /// Passes the end of a container, of which so many items are left.
    #[inline]
    fn close(&mut self, left: usize) -> Result<()> {
        if left > 0 {
            return Err(Error::too_many(left));
        }
        self.take();
        Ok(())
    }

    fn array<V: Visitor<'de>>(&mut self, visitor: V) -> Result<V::Value> {
        let left = count_of(self.take()[0]);
        let mut items = Items { of: self, left };
        let value = visitor.visit_seq(&mut items)?;
        let left = items.left;
        // an item too many is wrong itself
        self.close(left).map_err(|error| error.at(self.spot(), self.at()))?;
        Ok(value)
    }

    fn object<V: Visitor<'de>>(&mut self, visitor: V) -> Result<V::Value> {
        let left = count_of(self.take()[0]);
        let mut entries = Entries { of: self, left };
        let value = visitor.visit_map(&mut entries)?;
        let left = entries.left;
        self.close(left)?;
        Ok(value)
    }

    fn template<V: Visitor<'de>>(&mut self, visitor: V) -> Result<V::Value> {
        let width = count_of(self.take()[0]);
        let keys = (0..width).map(|_| self.text()).collect::<Result<Vec<_>>>()?;
        let left = count_of(self.take()[0]);
        let mut rows = Rows { of: self, keys: &keys, left };
        let value = visitor.visit_seq(&mut rows)?;
        let left = rows.left;
        self.close(left)?;
        Ok(value)
    }

    #[inline]
    fn any<V: Visitor<'de>>(&mut self, visitor: V) -> Result<V::Value> {
        match self.tag() {
            INT => visitor.visit_i64(self.take()[1].cast_signed()),
            BYTES => {
                let part = self.take();
                visitor.visit_borrowed_bytes(self.string(part))
            }
            TEXT | KEY | BYTES_KEY => visitor.visit_borrowed_str(self.text()?),
            TRUE | FALSE => visitor.visit_bool(tag_of(self.take()[0]) == TRUE),
            REAL => visitor.visit_f64(f64::from_bits(self.take()[1])),
            ARRAY => self.array(visitor),
            OBJECT => self.object(visitor),
            TEMPLATE => self.template(visitor),
            // null, and what a row skips
            _ => {
                self.take();
                visitor.visit_unit()
            }
        }
    }

    /// The next value, for the error of a type that does not read it.
    fn unexpected(&self) -> Unexpected<'de> {
        let Some(&part) = self.rest.as_slice().first() else { return Unexpected::Other("nothing") };
        match tag_of(part[0]) {
            INT => Unexpected::Signed(part[1].cast_signed()),
            REAL => Unexpected::Float(f64::from_bits(part[1])),
            TRUE => Unexpected::Bool(true),
            FALSE => Unexpected::Bool(false),
            BYTES | TEXT => Unexpected::Bytes(self.string(part)),
            ARRAY | TEMPLATE => Unexpected::Seq,
            OBJECT => Unexpected::Map,
            _ => Unexpected::Unit,
        }
    }

    fn variant<V: Visitor<'de>>(&mut self, name: &str, visitor: V) -> Result<V::Value> {
        match self.tag() {
            BYTES | TEXT => visitor.visit_enum(Variant { of: self, is_bare: true }),
            OBJECT => {
                let count = count_of(self.take()[0]);
                if count != 1 {
                    return Err(Error::invalid_value(Unexpected::Map, &"an object of one entry"));
                }
                let value = visitor.visit_enum(Variant { of: &mut *self, is_bare: false })?;
                self.close(0)?;
                Ok(value)
            }
            _ => Err(Error::invalid_type(self.unexpected(), &format!("enum {name}").as_str())),
        }
    }
}

impl<'de> de::Deserializer<'de> for &mut Deserializer<'_, 'de> {
    type Error = Error;

    #[inline]
    fn deserialize_any<V: Visitor<'de>>(self, visitor: V) -> Result<V::Value> {
        let spot = self.spot();
        self.any(visitor).map_err(|error| error.at(spot, self.at()))
    }

    #[inline]
    fn deserialize_option<V: Visitor<'de>>(self, visitor: V) -> Result<V::Value> {
        match self.tag() {
            NULL | SKIP => {
                self.take();
                visitor.visit_none()
            }
            _ => visitor.visit_some(self),
        }
    }

    #[inline]
    fn deserialize_newtype_struct<V: Visitor<'de>>(self, _: &'static str, visitor: V) -> Result<V::Value> {
        visitor.visit_newtype_struct(self)
    }

    fn deserialize_enum<V: Visitor<'de>>(
        self,
        name: &'static str,
        _: &'static [&'static str],
        visitor: V,
    ) -> Result<V::Value> {
        let spot = self.spot();
        self.variant(name, visitor).map_err(|error| error.at(spot, self.at()))
    }

    #[inline]
    fn deserialize_ignored_any<V: Visitor<'de>>(self, visitor: V) -> Result<V::Value> {
        self.pass();
        visitor.visit_unit()
    }

    forward_to_deserialize_any! {
        bool i8 i16 i32 i64 u8 u16 u32 u64 f32 f64 char str string bytes byte_buf unit unit_struct
        seq tuple tuple_struct map struct identifier
    }
}

/// The items of an array.
struct Items<'a, 't, 'de> {
    of: &'a mut Deserializer<'t, 'de>,
    left: usize,
}

impl<'de> de::SeqAccess<'de> for Items<'_, '_, 'de> {
    type Error = Error;

    #[inline]
    fn next_element_seed<T: DeserializeSeed<'de>>(&mut self, seed: T) -> Result<Option<T::Value>> {
        if self.left == 0 {
            return Ok(None);
        }
        self.left -= 1;
        seed.deserialize(&mut *self.of).map(Some)
    }

    fn size_hint(&self) -> Option<usize> {
        Some(self.left)
    }
}

/// The entries of an object.
struct Entries<'a, 't, 'de> {
    of: &'a mut Deserializer<'t, 'de>,
    left: usize,
}

impl<'de> de::MapAccess<'de> for Entries<'_, '_, 'de> {
    type Error = Error;

    #[inline]
    fn next_key_seed<K: DeserializeSeed<'de>>(&mut self, seed: K) -> Result<Option<K::Value>> {
        if self.left == 0 {
            return Ok(None);
        }
        self.left -= 1;
        let spot = self.of.spot();
        let key = Key(self.of.text()?);
        seed.deserialize(key).map(Some).map_err(|error| error.at(spot, spot.at))
    }

    #[inline]
    fn next_value_seed<V: DeserializeSeed<'de>>(&mut self, seed: V) -> Result<V::Value> {
        seed.deserialize(&mut *self.of)
    }

    fn size_hint(&self) -> Option<usize> {
        Some(self.left)
    }
}

/// The key of an object or of a row: a text, or its bytes where the type asks for bytes.
struct Key<'de>(&'de str);

impl<'de> de::Deserializer<'de> for Key<'de> {
    type Error = Error;

    #[inline]
    fn deserialize_any<V: Visitor<'de>>(self, visitor: V) -> Result<V::Value> {
        visitor.visit_borrowed_str(self.0)
    }

    #[inline]
    fn deserialize_bytes<V: Visitor<'de>>(self, visitor: V) -> Result<V::Value> {
        BorrowedBytesDeserializer::new(self.0.as_bytes()).deserialize_bytes(visitor)
    }

    #[inline]
    fn deserialize_byte_buf<V: Visitor<'de>>(self, visitor: V) -> Result<V::Value> {
        self.deserialize_bytes(visitor)
    }

    fn deserialize_option<V: Visitor<'de>>(self, visitor: V) -> Result<V::Value> {
        visitor.visit_some(self)
    }

    fn deserialize_newtype_struct<V: Visitor<'de>>(self, _: &'static str, visitor: V) -> Result<V::Value> {
        visitor.visit_newtype_struct(self)
    }

    fn deserialize_enum<V: Visitor<'de>>(
        self,
        name: &'static str,
        variants: &'static [&'static str],
        visitor: V,
    ) -> Result<V::Value> {
        BorrowedStrDeserializer::new(self.0).deserialize_enum(name, variants, visitor)
    }

    forward_to_deserialize_any! {
        bool i8 i16 i32 i64 u8 u16 u32 u64 f32 f64 char str string unit unit_struct seq tuple
        tuple_struct map struct identifier ignored_any
    }
}

/// The rows of a template.
struct Rows<'a, 'k, 't, 'de> {
    of: &'a mut Deserializer<'t, 'de>,
    keys: &'k [&'de str],
    left: usize,
}

impl<'de> de::SeqAccess<'de> for Rows<'_, '_, '_, 'de> {
    type Error = Error;

    #[inline]
    fn next_element_seed<T: DeserializeSeed<'de>>(&mut self, seed: T) -> Result<Option<T::Value>> {
        if self.left == 0 {
            return Ok(None);
        }
        self.left -= 1;
        seed.deserialize(Row { of: &mut *self.of, keys: self.keys }).map(Some)
    }

    fn size_hint(&self) -> Option<usize> {
        Some(self.left)
    }
}

/// A row of a template: an object of its keys.
struct Row<'a, 'k, 't, 'de> {
    of: &'a mut Deserializer<'t, 'de>,
    keys: &'k [&'de str],
}

impl Row<'_, '_, '_, '_> {
    #[inline]
    fn spot(&self) -> Spot {
        Spot { at: self.of.at(), is_row: true, wrong: self.of.at() }
    }
}

impl<'de> de::Deserializer<'de> for Row<'_, '_, '_, 'de> {
    type Error = Error;

    #[inline]
    fn deserialize_any<V: Visitor<'de>>(mut self, visitor: V) -> Result<V::Value> {
        let spot = self.spot();
        let value = visitor.visit_map(&mut self).map_err(|error| error.at(spot, self.of.at()))?;
        if !self.keys.is_empty() {
            return Err(Error::too_many(self.keys.len()).at(spot, self.of.at()));
        }
        Ok(value)
    }

    fn deserialize_ignored_any<V: Visitor<'de>>(self, visitor: V) -> Result<V::Value> {
        for _ in self.keys {
            self.of.pass();
        }
        visitor.visit_unit()
    }

    fn deserialize_option<V: Visitor<'de>>(self, visitor: V) -> Result<V::Value> {
        visitor.visit_some(self)
    }

    fn deserialize_newtype_struct<V: Visitor<'de>>(self, _: &'static str, visitor: V) -> Result<V::Value> {
        visitor.visit_newtype_struct(self)
    }

    fn deserialize_enum<V: Visitor<'de>>(
        self,
        name: &'static str,
        variants: &'static [&'static str],
        visitor: V,
    ) -> Result<V::Value> {
        let spot = self.spot();
        if self.keys.len() != 1 {
            return Err(Error::invalid_value(Unexpected::Map, &"an object of one entry").at(spot, spot.at));
        }
        let row = MapAccessDeserializer::new(self);
        row.deserialize_enum(name, variants, visitor).map_err(|error| error.at(spot, spot.at))
    }

    forward_to_deserialize_any! {
        bool i8 i16 i32 i64 u8 u16 u32 u64 f32 f64 char str string bytes byte_buf unit unit_struct
        seq tuple tuple_struct map struct identifier
    }
}

impl<'de> de::MapAccess<'de> for Row<'_, '_, '_, 'de> {
    type Error = Error;

    #[inline]
    fn next_key_seed<K: DeserializeSeed<'de>>(&mut self, seed: K) -> Result<Option<K::Value>> {
        let Some((key, keys)) = self.keys.split_first() else { return Ok(None) };
        self.keys = keys;
        seed.deserialize(Key(key)).map(Some)
    }

    #[inline]
    fn next_value_seed<V: DeserializeSeed<'de>>(&mut self, seed: V) -> Result<V::Value> {
        seed.deserialize(&mut *self.of)
    }

    fn size_hint(&self) -> Option<usize> {
        Some(self.keys.len())
    }
}

/// A variant: a bare string, or the one entry of an object.
struct Variant<'a, 't, 'de> {
    of: &'a mut Deserializer<'t, 'de>,
    is_bare: bool,
}

impl Variant<'_, '_, '_> {
    /// Where the variant has content, what is read next; else the error of a bare name.
    fn content(&self, wanted: &'static str) -> Result<()> {
        if self.is_bare { Err(Error::invalid_type(Unexpected::UnitVariant, &wanted)) } else { Ok(()) }
    }
}

impl<'de> de::EnumAccess<'de> for Variant<'_, '_, 'de> {
    type Error = Error;
    type Variant = Self;

    fn variant_seed<V: DeserializeSeed<'de>>(self, seed: V) -> Result<(V::Value, Self)> {
        // a name that is a key is wrong in the object, which is the part before it
        let wrong = self.of.at();
        let spot = Spot { at: if self.is_bare { wrong } else { wrong - 1 }, is_row: false, wrong };
        let name = Key(self.of.text().map_err(|error| error.at(spot, wrong))?);
        Ok((seed.deserialize(name).map_err(|error| error.at(spot, wrong))?, self))
    }
}

impl<'de> de::VariantAccess<'de> for Variant<'_, '_, 'de> {
    type Error = Error;

    fn unit_variant(self) -> Result<()> {
        if self.is_bare { Ok(()) } else { Deserialize::deserialize(self.of) }
    }

    fn newtype_variant_seed<T: DeserializeSeed<'de>>(self, seed: T) -> Result<T::Value> {
        self.content("newtype variant")?;
        seed.deserialize(self.of)
    }

    fn tuple_variant<V: Visitor<'de>>(self, len: usize, visitor: V) -> Result<V::Value> {
        self.content("tuple variant")?;
        de::Deserializer::deserialize_tuple(self.of, len, visitor)
    }

    fn struct_variant<V: Visitor<'de>>(self, fields: &'static [&'static str], visitor: V) -> Result<V::Value> {
        self.content("struct variant")?;
        de::Deserializer::deserialize_struct(self.of, "", fields, visitor)
    }
}
