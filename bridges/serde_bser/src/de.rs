//! Reading. [`Bunser`], [`PduInfo`] and [`SliceRead`] are what a client needs to part a stream into messages.
use kuvtsada_bser::{Tape, message_length};
use serde::de::{Error as _, Visitor};
use serde::forward_to_deserialize_any;

pub use kuvtsada_bser::{Error, from_reader, from_slice};

/// What a call comes to.
pub type Result<T> = std::result::Result<T, Error>;

/// Bytes that are read, and borrowed from.
#[derive(Debug, Clone, Copy)]
pub struct SliceRead<'a>(&'a [u8]);

impl<'a> SliceRead<'a> {
    /// These bytes.
    pub fn new(slice: &'a [u8]) -> SliceRead<'a> {
        SliceRead(slice)
    }
}

/// What the head of a message says.
#[derive(Debug, Clone, Copy, PartialEq, Eq)]
pub struct PduInfo {
    /// The capabilities, one bit each.
    pub bser_capabilities: u32,
    /// How many bytes the body has.
    pub len: i64,
    /// How many bytes the head has.
    pub start: i64,
}

/// Reads the head of a message.
#[derive(Debug)]
pub struct Bunser<R>(R);

impl<'a> Bunser<SliceRead<'a>> {
    /// The message at the start of the bytes.
    pub fn new(read: SliceRead<'a>) -> Self {
        Bunser(read)
    }

    /// What the head says. It is an error where the head is malformed or not whole.
    pub fn read_pdu(&mut self) -> Result<PduInfo> {
        let SliceRead(bytes) = self.0;
        let Some(length) = message_length(bytes)? else {
            return Err(Error::custom("the head of the message is not whole"));
        };
        let start = match bytes[6] {
            0x03 => 8,
            0x04 => 9,
            0x05 => 11,
            _ => 15,
        };
        let bser_capabilities = u32::from_le_bytes([bytes[2], bytes[3], bytes[4], bytes[5]]);
        Ok(PduInfo { bser_capabilities, len: (length - start) as i64, start: start as i64 })
    }
}

/// Reads one message.
#[derive(Debug)]
pub struct Deserializer<'a> {
    tape: Tape<'a>,
}

impl<'a> Deserializer<'a> {
    /// Reads the message at the start of the bytes. It is an error where it is malformed.
    pub fn new(read: SliceRead<'a>) -> Result<Self> {
        Ok(Deserializer { tape: Tape::read(read.0)? })
    }

    /// Whether the message has the length that it announces: `new` refuses one that has not.
    pub fn end(&self) -> Result<()> {
        Ok(())
    }

    /// The capabilities of the message, one bit each.
    pub fn capabilities(&self) -> u32 {
        self.tape.capabilities()
    }
}

impl<'de> serde::Deserializer<'de> for &'de mut Deserializer<'_> {
    type Error = Error;

    fn deserialize_any<V: Visitor<'de>>(self, visitor: V) -> Result<V::Value> {
        kuvtsada_bser::Deserializer::new(&self.tape).deserialize_any(visitor)
    }

    fn deserialize_option<V: Visitor<'de>>(self, visitor: V) -> Result<V::Value> {
        kuvtsada_bser::Deserializer::new(&self.tape).deserialize_option(visitor)
    }

    fn deserialize_newtype_struct<V: Visitor<'de>>(self, _: &'static str, visitor: V) -> Result<V::Value> {
        visitor.visit_newtype_struct(self)
    }

    fn deserialize_enum<V: Visitor<'de>>(
        self,
        name: &'static str,
        variants: &'static [&'static str],
        visitor: V,
    ) -> Result<V::Value> {
        kuvtsada_bser::Deserializer::new(&self.tape).deserialize_enum(name, variants, visitor)
    }

    forward_to_deserialize_any! {
        bool i8 i16 i32 i64 u8 u16 u32 u64 f32 f64 char str string bytes byte_buf unit unit_struct
        seq tuple tuple_struct map struct identifier ignored_any
    }
}
