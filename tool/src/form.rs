//! The plain-text form of a map: docs/MAP-FORMAT.md.
mod number;
mod read;
mod words;
mod write;

pub use number::{decimal, scaled};
pub use read::{names, read};
pub use write::{unwritable, word, write};
