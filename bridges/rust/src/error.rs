//! Why a call failed.
use crate::ffi::{self, Outcome};
use std::fmt;
use std::sync::Arc;

/// Of which kind an error is.
#[derive(Debug, Clone, Copy, PartialEq, Eq, Hash)]
#[non_exhaustive]
pub enum ErrorKind {
    /// The bytes are no message.
    Malformed,
    /// The bytes or the reader end within the message, or before it.
    Ended,
    /// The message is well-formed, and the type does not read what stands there.
    Type,
    /// The value has no message: an integer above `i64::MAX`, a key that is no text, more than 128 levels, or what
    /// its own `Serialize` refuses.
    Value,
    /// The words are no tape.
    Tape,
    /// There was no memory.
    Memory,
    /// The reader or the writer failed; `source` gives its error.
    Io,
    /// The library contradicts itself: a bug.
    Contradiction,
}

/// Why a message was not read or not written. It prints as a line for people: what is wrong, at which byte, and in
/// which part of the message.
#[derive(Clone, PartialEq, Eq)]
pub struct Error(Box<Inner>);

#[derive(Clone)]
struct Inner {
    kind: ErrorKind,
    code: u32,
    byte: u8,
    place: usize,
    path: String,
    text: String,
    cause: Option<Arc<std::io::Error>>,
    // where in the tape the error is, as long as the place and the path are not known
    #[cfg(feature = "serde")]
    spot: Option<crate::place::Spot>,
    // the field that is missing or comes twice
    #[cfg(feature = "serde")]
    field: Option<&'static str>,
    // whether it is the number of parts that is wrong, and so the part where the container stopped to be read
    #[cfg(feature = "serde")]
    is_of_parts: bool,
}

impl Error {
    /// Of which kind the error is.
    pub fn kind(&self) -> ErrorKind {
        self.0.kind
    }

    /// The number of the error, as in `bser.h`, which never changes its meaning; 0 where no call of the library
    /// refused.
    pub fn code(&self) -> u32 {
        self.0.code
    }

    /// The byte that cannot stand there, where the error is about one, and else 0.
    pub fn byte(&self) -> u8 {
        self.0.byte
    }

    /// How many bytes of the message lie before what is wrong; of a tape, how many words. 0 where the error is about
    /// a value to be written, a reader or a writer.
    pub fn place(&self) -> usize {
        self.0.place
    }

    /// The part of the message that is wrong, as `files[3].size`, or nothing where it is all of it or the head.
    pub fn path(&self) -> &str {
        &self.0.path
    }

    /// The error of these bytes.
    pub(crate) fn of_bytes(outcome: Outcome, bytes: &[u8]) -> Error {
        let mut line = vec![0; 512];
        let mut why = ffi::describe(bytes, &mut line);
        if why.code == ffi::TOO_SMALL {
            line.resize(why.length, 0);
            why = ffi::describe(bytes, &mut line);
        }
        line.truncate(if why.code == ffi::OK { why.length } else { 0 });
        match String::from_utf8(line) {
            Ok(text) if !text.is_empty() => Error::with_text(outcome, text),
            _ => Error::of_code(outcome),
        }
    }

    /// The error of `message_length`. It is told by the head alone: `describe` reads on where that
    /// announces too much.
    pub(crate) fn of_head(outcome: Outcome, bytes: &[u8]) -> Error {
        if outcome.code != ffi::COUNT_TOO_GREAT {
            return Error::of_bytes(outcome, bytes);
        }
        Error::with_text(outcome, format!("count too great, at byte {}", outcome.place))
    }

    /// The error of a code alone.
    pub(crate) fn of_code(outcome: Outcome) -> Error {
        let what = match outcome.code {
            3 => "out of memory",
            4 => "no tape",
            _ => "error",
        };
        let text = format!("{what}, code {}, at {}", outcome.code, outcome.place);
        Error::with_text(outcome, text)
    }

    fn with_text(outcome: Outcome, text: String) -> Error {
        let kind = match outcome.code {
            3 => ErrorKind::Memory,
            4 => ErrorKind::Tape,
            5 => ErrorKind::Contradiction,
            48 => ErrorKind::Ended,
            _ => ErrorKind::Malformed,
        };
        // the line ends in the path, where there is one
        let behind = format!(", at byte {}, in ", outcome.place);
        let path = text.split_once(&behind).map(|(_, path)| path.to_string()).unwrap_or_default();
        let mut error = Error::new(kind, text);
        error.0.code = outcome.code;
        error.0.byte = outcome.detail as u8;
        error.0.place = outcome.place;
        error.0.path = path;
        error
    }

    fn new(kind: ErrorKind, text: String) -> Error {
        Error(Box::new(Inner {
            kind,
            code: 0,
            byte: 0,
            place: 0,
            path: String::new(),
            text,
            cause: None,
            #[cfg(feature = "serde")]
            spot: None,
            #[cfg(feature = "serde")]
            field: None,
            #[cfg(feature = "serde")]
            is_of_parts: false,
        }))
    }
}

impl PartialEq for Inner {
    /// The cause of an error of a reader or a writer is compared by its text.
    fn eq(&self, other: &Inner) -> bool {
        let facts = |of: &Inner| (of.kind, of.code, of.byte, of.place);
        facts(self) == facts(other) && self.path == other.path && self.text == other.text
    }
}

impl Eq for Inner {}

impl fmt::Debug for Error {
    fn fmt(&self, f: &mut fmt::Formatter<'_>) -> fmt::Result {
        let inner = &self.0;
        f.debug_struct("Error")
            .field("kind", &inner.kind)
            .field("code", &inner.code)
            .field("byte", &inner.byte)
            .field("place", &inner.place)
            .field("path", &inner.path)
            .field("text", &inner.text)
            .finish()
    }
}

impl fmt::Display for Error {
    fn fmt(&self, f: &mut fmt::Formatter<'_>) -> fmt::Result {
        f.write_str(&self.0.text)
    }
}

impl std::error::Error for Error {
    fn source(&self) -> Option<&(dyn std::error::Error + 'static)> {
        self.0.cause.as_deref().map(|cause| cause as _)
    }
}

#[cfg(feature = "serde")]
mod of_types {
    use super::{Error, ErrorKind};
    use crate::place::{Spot, locate};
    use serde::de::Expected;
    use std::fmt::Display;
    use std::sync::Arc;

    impl Error {
        /// The error at this spot of a tape, where it has none: the innermost one stays. Too few or too many parts, and a
        /// field that is missing or comes twice, are wrong where the container stopped to be read.
        #[cold]
        pub(crate) fn at(mut self, spot: Spot, stopped: usize) -> Error {
            if self.0.kind == ErrorKind::Type && self.0.spot.is_none() {
                self.0.spot = Some(if self.0.is_of_parts { Spot { wrong: stopped, ..spot } } else { spot });
            }
            self
        }

        /// The error with its place and its path in the message, of which these are the bytes and the tape.
        pub(crate) fn located(mut self, bytes: &[u8], parts: &[[u64; 2]]) -> Error {
            if let Some(spot) = self.0.spot.take() {
                let (place, path) = locate(bytes, parts, spot, self.0.field);
                let within = if path.is_empty() { String::new() } else { format!(", in {path}") };
                self.0.text = format!("{}, at byte {place}{within}", self.0.text);
                (self.0.place, self.0.path) = (place, path);
            }
            self
        }

        /// A container has other parts than the type takes; of an object perhaps this field.
        fn of_parts(text: String, field: Option<&'static str>) -> Error {
            let mut error = Error::new(ErrorKind::Type, text);
            (error.0.field, error.0.is_of_parts) = (field, true);
            error
        }

        /// So many parts are left of a container.
        pub(crate) fn too_many(left: usize) -> Error {
            Error::of_parts(format!("{left} more than the type takes"), None)
        }

        /// The reader ended, after so many bytes of the message.
        pub(crate) fn ended(place: usize) -> Error {
            let mut error = Error::new(ErrorKind::Ended, format!("the reader ended, at byte {place}"));
            error.0.place = place;
            error
        }

        /// The reader or the writer failed.
        pub(crate) fn of_io(cause: std::io::Error) -> Error {
            let mut error = Error::new(ErrorKind::Io, cause.to_string());
            error.0.cause = Some(Arc::new(cause));
            error
        }

        /// The value has no message.
        pub(crate) fn of_value(text: impl Display) -> Error {
            Error::new(ErrorKind::Value, text.to_string())
        }
    }

    impl serde::de::Error for Error {
        fn custom<T: Display>(text: T) -> Error {
            Error::new(ErrorKind::Type, text.to_string())
        }

        fn missing_field(field: &'static str) -> Error {
            Error::of_parts(format!("missing field `{field}`"), Some(field))
        }

        fn duplicate_field(field: &'static str) -> Error {
            Error::of_parts(format!("duplicate field `{field}`"), Some(field))
        }

        fn invalid_length(length: usize, expected: &dyn Expected) -> Error {
            Error::of_parts(format!("invalid length {length}, expected {expected}"), None)
        }
    }

    impl serde::ser::Error for Error {
        fn custom<T: Display>(text: T) -> Error {
            Error::of_value(text)
        }
    }
}
