//! The public calls of the crate serde_bser 0.4.0, over `kuvtsada-bser`, whose library is proved. A program that uses
//! serde_bser takes this one without a change, by two lines in its `Cargo.toml`:
//!
//! ```toml
//! [patch.crates-io]
//! serde_bser = { path = "../serde_bser" }
//! ```
//!
//! What differs:
//! - Each message is checked in whole before the type is called. Where the crate panics, or reserves what a malformed
//!   message announces, there is an error.
//! - A variant with fields is written as an object of one entry, whose value is an object. The crate writes an array's
//!   head there, which it does not read again.
//! - Enums and options are read in rows of a template too, and a sequence and a map are written without their lengths.
//! - Keys are texts: another key is an error when it is written.
//! - [`de::Deserializer`] and [`de::Bunser`] go over a [`de::SliceRead`], and not over a reader of one's own.
//! - An error prints what is wrong, at which byte, and in which part of the message, and has a kind and a code.
pub mod bytestring;
pub mod de;
pub mod ser;
pub mod value;

pub use crate::de::from_reader;
pub use crate::de::from_slice;
