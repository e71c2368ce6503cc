//! Messages and their tapes.
use crate::error::Error;
use crate::ffi::{self, Outcome};
use crate::item::Item;

/// A message that was read: its tape, over the bytes that were read.
#[derive(Debug, Clone)]
pub struct Tape<'b> {
    bytes: &'b [u8],
    words: Vec<u64>,
    capabilities: u32,
    len: usize,
}

impl<'b> Tape<'b> {
    /// Reads the message at the start of the bytes, of at most 128 levels. What follows it is ignored.
    pub fn read(bytes: &'b [u8]) -> Result<Tape<'b>, Error> {
        let mut words = Vec::new();
        let found = read_words(bytes, &mut words)?;
        words.truncate(found.length);
        Ok(Tape {
            bytes,
            words,
            capabilities: found.detail,
            len: found.place,
        })
    }

    /// The value of the message.
    pub fn root(&self) -> Item<'_> {
        Item::new(self.bytes, &self.words, 0)
    }

    /// The capabilities that the message asks for, one bit each.
    pub fn capabilities(&self) -> u32 {
        self.capabilities
    }

    /// How many bytes the message has.
    pub fn message_len(&self) -> usize {
        self.len
    }

    /// The bytes that were read, which the words have places in.
    #[cfg(feature = "serde")]
    pub(crate) fn bytes(&self) -> &'b [u8] {
        self.bytes
    }

    /// The words, as `bser.h` describes them.
    pub fn words(&self) -> &[u64] {
        &self.words
    }
}

/// Writes the tape of the message at the start of the bytes into the words, which grow where they are too few, and
/// answers what the call told. Behind the tape they have what was there before.
pub(crate) fn read_words(bytes: &[u8], words: &mut Vec<u64>) -> Result<Outcome, Error> {
    assert!(ffi::abi_version() >= ffi::ABI_VERSION, "an older archive than this crate is for");
    let mut wanted = bytes.len() / 2 + 16;
    loop {
        if words.len() < wanted {
            *words = vec![0; wanted];
        }
        let found = ffi::tape(bytes, words);
        match found.code {
            ffi::OK => return Ok(found),
            ffi::TOO_SMALL => wanted = found.length,
            _ => return Err(Error::of_bytes(found, bytes)),
        }
    }
}

/// How many bytes the message has that begins with these, or `None` where more are needed to tell.
/// What follows its head is not looked at, for an error neither.
pub fn message_length(bytes: &[u8]) -> Result<Option<usize>, Error> {
    let outcome = ffi::message_length(bytes);
    match outcome.code {
        ffi::OK => Ok(Some(outcome.length)),
        ffi::NOT_WHOLE => Ok(None),
        _ => Err(Error::of_head(outcome, bytes)),
    }
}

/// The bytes that a call writes, once it has the room that it wants.
fn written(room: usize, call: impl Fn(&mut [u8]) -> Outcome) -> Result<Vec<u8>, Outcome> {
    let mut out = Vec::new();
    let length = write_to(&mut out, room, call)?;
    out.truncate(length);
    Ok(out)
}

/// Writes what a call writes into the bytes, which grow where there is no room, and answers how many they are.
pub(crate) fn write_to(
    out: &mut Vec<u8>,
    room: usize,
    call: impl Fn(&mut [u8]) -> Outcome,
) -> Result<usize, Outcome> {
    let mut wanted = room;
    loop {
        if out.len() < wanted {
            *out = vec![0; wanted];
        }
        let outcome = call(out);
        match outcome.code {
            ffi::OK => return Ok(outcome.length),
            ffi::TOO_SMALL => wanted = outcome.length,
            _ => return Err(outcome),
        }
    }
}

/// The canonical message of the value of the message at the start of the bytes.
pub fn to_canonical(bytes: &[u8]) -> Result<Vec<u8>, Error> {
    written(bytes.len() + 16, |out| ffi::canonical(bytes, out))
        .map_err(|outcome| Error::of_bytes(outcome, bytes))
}

/// The shortest message of the value of the message at the start of the bytes.
pub fn to_compact(bytes: &[u8]) -> Result<Vec<u8>, Error> {
    written(bytes.len() + 16, |out| ffi::compact(bytes, out))
        .map_err(|outcome| Error::of_bytes(outcome, bytes))
}

/// The message of a tape, as `bser.h` describes it, whose strings stand in `strings`.
pub fn message_of(words: &[u64], strings: &[u8]) -> Result<Vec<u8>, Error> {
    written(strings.len() + 4 * words.len() + 16, |out| ffi::of_tape(words, strings, out))
        .map_err(Error::of_code)
}
