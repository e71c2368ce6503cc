//! Messages of BSER, read and written by a library that is proved.
//!
//! With the feature `serde`, which is on by default, any type with serde's traits is read by [`from_slice`] and
//! [`from_reader`], and written by [`to_vec`] and [`serialize`].
//!
//! ```
//! # #[cfg(feature = "serde")] {
//! #[derive(Debug, PartialEq, serde::Serialize, serde::Deserialize)]
//! struct File<'a> {
//!     name: &'a str,
//!     size: u64,
//! }
//!
//! let bytes = kuvtsada_bser::to_vec(&File { name: "a", size: 5 })?;
//! assert_eq!(kuvtsada_bser::from_slice::<File>(&bytes)?, File { name: "a", size: 5 });
//! # }
//! # Ok::<(), kuvtsada_bser::Error>(())
//! ```
//!
//! [`Tape::read`] reads a message. Its [`root`](Tape::root) is an [`Item`], which looks into the
//! message without a copy: strings are slices of the bytes that were read.
//!
//! ```
//! use kuvtsada_bser::Tape;
//!
//! let bytes = b"\x00\x02\x00\x00\x00\x00\x03\x09\x01\x03\x01\x0d\x03\x01a\x03\x05";
//! let tape = Tape::read(bytes)?;
//! assert_eq!(tape.root().get("a").and_then(|a| a.as_i64()), Some(5));
//! # Ok::<(), kuvtsada_bser::Error>(())
//! ```

#[cfg(feature = "serde")]
mod de;
mod error;
mod ffi;
mod item;
#[cfg(feature = "serde")]
mod place;
#[cfg(feature = "serde")]
mod ser;
mod tags;
mod tape;

#[cfg(feature = "serde")]
pub use de::{Deserializer, from_reader, from_slice};
pub use error::{Error, ErrorKind};
pub use item::{Entries, Item, Items, Kind};
#[cfg(feature = "serde")]
pub use ser::{serialize, to_vec};
pub use tape::{Tape, message_length, message_of, to_canonical, to_compact};
