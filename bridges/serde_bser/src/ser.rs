//! Writing.
pub use kuvtsada_bser::serialize;
