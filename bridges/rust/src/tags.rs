//! The tags of a tape's parts, as `bser.h` has them.
pub const ARRAY: u64 = 0x00;
pub const OBJECT: u64 = 0x01;
pub const BYTES: u64 = 0x02;
pub const INT: u64 = 0x06;
pub const REAL: u64 = 0x07;
pub const TRUE: u64 = 0x08;
pub const FALSE: u64 = 0x09;
#[cfg(feature = "serde")]
pub const NULL: u64 = 0x0a;
pub const TEMPLATE: u64 = 0x0b;
#[cfg(feature = "serde")]
pub const SKIP: u64 = 0x0c;
pub const TEXT: u64 = 0x0d;
#[cfg(feature = "serde")]
pub const KEY: u64 = 0x0e;
#[cfg(feature = "serde")]
pub const BYTES_KEY: u64 = 0x0f;
#[cfg(feature = "serde")]
pub const ROWS: u64 = 0x10;
pub const CLOSE: u64 = 0x11;

/// The tag of a part's first word.
#[inline]
pub fn tag_of(first: u64) -> u64 {
    first & 0xff
}

/// The count of a part's first word.
#[inline]
pub fn count_of(first: u64) -> usize {
    (first >> 8) as usize
}
