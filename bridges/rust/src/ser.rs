//! Writing a type: serde's calls make a tape, and the library writes its message.
use crate::error::{Error, ErrorKind};
use crate::ffi;
use crate::tags::*;
use crate::tape::write_to;
use serde::ser::{self, Serialize};
use std::cell::Cell;
use std::io::Write;

type Result<T> = std::result::Result<T, Error>;

/// How many bytes of each of its buffers a thread keeps from one call for the next.
const MOST_KEPT: usize = 1 << 20;

thread_local! {
    static KEPT: Cell<(Draft, Vec<u8>)> = const { Cell::new((Draft { words: Vec::new(), strings: Vec::new() }, Vec::new())) };
}

/// The message of a value. Integers have their least width, texts are texts, what serde calls bytes are byte strings,
/// structs and maps are objects in the order of their fields, and there are no templates. A sequence and a map need not
/// know their lengths. A thread keeps at most 3 MiB from one call for the next.
///
/// # Errors
/// An integer is above `i64::MAX`, a key is no text in UTF-8, the value has more than 128 levels, its own `Serialize`
/// fails, or there is no memory.
pub fn to_vec<T: Serialize + ?Sized>(value: &T) -> Result<Vec<u8>> {
    with_message(value, |message| message.to_vec())
}

/// Writes the message of a value, in one call of `write_all`, and gives the writer back.
///
/// # Errors
/// As those of `to_vec`, where nothing was written; or the writer failed.
pub fn serialize<W: Write, T: Serialize>(mut writer: W, value: T) -> Result<W> {
    with_message(&value, |message| writer.write_all(message))?.map_err(Error::of_io)?;
    Ok(writer)
}

/// Makes the message of a value, and hands it to who takes it.
fn with_message<T: Serialize + ?Sized, R>(value: &T, take: impl FnOnce(&[u8]) -> R) -> Result<R> {
    // (a call within this one finds none, and keeps its own)
    let (mut draft, mut out) = KEPT.take();
    draft.words.clear();
    draft.strings.clear();
    let made = value.serialize(&mut draft).and_then(|()| draft.message(&mut out)).map(|length| take(&out[..length]));
    let sizes = [draft.words.capacity() * size_of::<u64>(), draft.strings.capacity(), out.len()];
    if sizes.iter().all(|size| *size <= MOST_KEPT) {
        KEPT.set((draft, out));
    }
    made
}

/// The tape so far, and the bytes of its strings.
#[derive(Default)]
struct Draft {
    words: Vec<u64>,
    strings: Vec<u8>,
}

impl Draft {
    /// Writes the message of the tape, and answers how many bytes it has.
    fn message(&self, out: &mut Vec<u8>) -> Result<usize> {
        let room = self.strings.len() + 4 * self.words.len() + 16;
        let written = write_to(out, room, |out| ffi::of_tape(&self.words, &self.strings, out));
        written.map_err(Error::of_code).map_err(|error| match error.kind() {
            ErrorKind::Tape => Error::of_value("more levels than 128"),
            _ => error,
        })
    }

    #[inline]
    fn put(&mut self, tag: u64, second: u64) -> Result<()> {
        self.words.extend_from_slice(&[tag, second]);
        Ok(())
    }

    #[inline]
    fn string(&mut self, tag: u64, bytes: &[u8]) -> Result<()> {
        let start = self.strings.len() as u64;
        self.strings.extend_from_slice(bytes);
        self.put((bytes.len() as u64) << 8 | tag, start)
    }

    fn open(&mut self, tag: u64) -> Container<'_> {
        let head = self.words.len();
        self.words.extend_from_slice(&[tag, 0]);
        Container { draft: self, head, count: 0, is_variant: false }
    }

    /// An object of one entry, whose value is a container.
    fn variant(&mut self, variant: &str, tag: u64) -> Result<Container<'_>> {
        self.put(1 << 8 | OBJECT, 0)?;
        self.string(KEY, variant.as_bytes())?;
        Ok(Container { is_variant: true, ..self.open(tag) })
    }
}

/// A container that is open. Its head is told how many items it has when it ends.
struct Container<'a> {
    draft: &'a mut Draft,
    head: usize,
    count: u64,
    // whether it is the value of an object's one entry, which ends with it
    is_variant: bool,
}

impl Container<'_> {
    #[inline]
    fn item<T: Serialize + ?Sized>(&mut self, value: &T) -> Result<()> {
        self.count += 1;
        value.serialize(&mut *self.draft)
    }

    #[inline]
    fn field<T: Serialize + ?Sized>(&mut self, key: &str, value: &T) -> Result<()> {
        self.count += 1;
        self.draft.string(KEY, key.as_bytes())?;
        value.serialize(&mut *self.draft)
    }

    #[inline]
    fn finish(self) -> Result<()> {
        self.draft.words[self.head] |= self.count << 8;
        if self.is_variant {
            self.draft.put(CLOSE, 0)?;
        }
        self.draft.put(CLOSE, 0)
    }
}

impl<'a> ser::Serializer for &'a mut Draft {
    type Ok = ();
    type Error = Error;
    type SerializeSeq = Container<'a>;
    type SerializeTuple = Container<'a>;
    type SerializeTupleStruct = Container<'a>;
    type SerializeTupleVariant = Container<'a>;
    type SerializeMap = Container<'a>;
    type SerializeStruct = Container<'a>;
    type SerializeStructVariant = Container<'a>;

    #[inline]
    fn serialize_bool(self, v: bool) -> Result<()> {
        self.put(if v { TRUE } else { FALSE }, 0)
    }

    #[inline]
    fn serialize_i8(self, v: i8) -> Result<()> {
        self.serialize_i64(v.into())
    }

    #[inline]
    fn serialize_i16(self, v: i16) -> Result<()> {
        self.serialize_i64(v.into())
    }

    #[inline]
    fn serialize_i32(self, v: i32) -> Result<()> {
        self.serialize_i64(v.into())
    }

    #[inline]
    fn serialize_i64(self, v: i64) -> Result<()> {
        self.put(INT, v.cast_unsigned())
    }

    #[inline]
    fn serialize_u8(self, v: u8) -> Result<()> {
        self.serialize_i64(v.into())
    }

    #[inline]
    fn serialize_u16(self, v: u16) -> Result<()> {
        self.serialize_i64(v.into())
    }

    #[inline]
    fn serialize_u32(self, v: u32) -> Result<()> {
        self.serialize_i64(v.into())
    }

    #[inline]
    fn serialize_u64(self, v: u64) -> Result<()> {
        match i64::try_from(v) {
            Ok(v) => self.serialize_i64(v),
            Err(_) => Err(Error::of_value(format_args!("integer too big: {v}"))),
        }
    }

    #[inline]
    fn serialize_f32(self, v: f32) -> Result<()> {
        self.serialize_f64(v.into())
    }

    #[inline]
    fn serialize_f64(self, v: f64) -> Result<()> {
        self.put(REAL, v.to_bits())
    }

    fn serialize_char(self, v: char) -> Result<()> {
        self.serialize_str(v.encode_utf8(&mut [0; 4]))
    }

    #[inline]
    fn serialize_str(self, v: &str) -> Result<()> {
        self.string(TEXT, v.as_bytes())
    }

    #[inline]
    fn serialize_bytes(self, v: &[u8]) -> Result<()> {
        self.string(BYTES, v)
    }

    #[inline]
    fn serialize_none(self) -> Result<()> {
        self.serialize_unit()
    }

    #[inline]
    fn serialize_some<T: Serialize + ?Sized>(self, value: &T) -> Result<()> {
        value.serialize(self)
    }

    #[inline]
    fn serialize_unit(self) -> Result<()> {
        self.put(NULL, 0)
    }

    fn serialize_unit_struct(self, _: &'static str) -> Result<()> {
        self.serialize_unit()
    }

    fn serialize_unit_variant(self, _: &'static str, _: u32, variant: &'static str) -> Result<()> {
        self.serialize_str(variant)
    }

    #[inline]
    fn serialize_newtype_struct<T: Serialize + ?Sized>(self, _: &'static str, value: &T) -> Result<()> {
        value.serialize(self)
    }

    fn serialize_newtype_variant<T: Serialize + ?Sized>(
        self,
        _: &'static str,
        _: u32,
        variant: &'static str,
        value: &T,
    ) -> Result<()> {
        let mut object = self.open(OBJECT);
        object.field(variant, value)?;
        object.finish()
    }

    #[inline]
    fn serialize_seq(self, _: Option<usize>) -> Result<Container<'a>> {
        Ok(self.open(ARRAY))
    }

    #[inline]
    fn serialize_tuple(self, _: usize) -> Result<Container<'a>> {
        Ok(self.open(ARRAY))
    }

    fn serialize_tuple_struct(self, _: &'static str, _: usize) -> Result<Container<'a>> {
        Ok(self.open(ARRAY))
    }

    fn serialize_tuple_variant(
        self,
        _: &'static str,
        _: u32,
        variant: &'static str,
        _: usize,
    ) -> Result<Container<'a>> {
        self.variant(variant, ARRAY)
    }

    #[inline]
    fn serialize_map(self, _: Option<usize>) -> Result<Container<'a>> {
        Ok(self.open(OBJECT))
    }

    #[inline]
    fn serialize_struct(self, _: &'static str, _: usize) -> Result<Container<'a>> {
        Ok(self.open(OBJECT))
    }

    fn serialize_struct_variant(
        self,
        _: &'static str,
        _: u32,
        variant: &'static str,
        _: usize,
    ) -> Result<Container<'a>> {
        self.variant(variant, OBJECT)
    }
}

macro_rules! items {
    ($trait:ident, $name:ident) => {
        impl ser::$trait for Container<'_> {
            type Ok = ();
            type Error = Error;

            #[inline]
            fn $name<T: Serialize + ?Sized>(&mut self, value: &T) -> Result<()> {
                self.item(value)
            }

            #[inline]
            fn end(self) -> Result<()> {
                self.finish()
            }
        }
    };
}

items!(SerializeSeq, serialize_element);
items!(SerializeTuple, serialize_element);
items!(SerializeTupleStruct, serialize_field);
items!(SerializeTupleVariant, serialize_field);

macro_rules! fields {
    ($trait:ident) => {
        impl ser::$trait for Container<'_> {
            type Ok = ();
            type Error = Error;

            #[inline]
            fn serialize_field<T: Serialize + ?Sized>(&mut self, key: &'static str, value: &T) -> Result<()> {
                self.field(key, value)
            }

            #[inline]
            fn end(self) -> Result<()> {
                self.finish()
            }
        }
    };
}

fields!(SerializeStruct);
fields!(SerializeStructVariant);

impl ser::SerializeMap for Container<'_> {
    type Ok = ();
    type Error = Error;

    fn serialize_key<T: Serialize + ?Sized>(&mut self, key: &T) -> Result<()> {
        let at = self.draft.words.len();
        key.serialize(&mut *self.draft)?;
        let first = self.draft.words[at];
        let tag = match tag_of(first) {
            TEXT => KEY,
            BYTES if self.is_utf8(at) => BYTES_KEY,
            _ => return Err(Error::of_value("a key is no text in UTF-8")),
        };
        self.draft.words[at] = first & !0xff | tag;
        self.count += 1;
        Ok(())
    }

    #[inline]
    fn serialize_value<T: Serialize + ?Sized>(&mut self, value: &T) -> Result<()> {
        value.serialize(&mut *self.draft)
    }

    #[inline]
    fn end(self) -> Result<()> {
        self.finish()
    }
}

impl Container<'_> {
    /// Whether the string whose first word is there is UTF-8.
    fn is_utf8(&self, at: usize) -> bool {
        let start = self.draft.words[at + 1] as usize;
        std::str::from_utf8(&self.draft.strings[start..]).is_ok()
    }
}
