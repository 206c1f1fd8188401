//! The maintenance operation protocol in plain Rust, written from the specification
//! and DEC's documents alone, to compare the proved library with.
//!
//! Nothing but the rehearsal allocates: what is read borrows from the bytes
//! that were given, and a writer fills the buffer that was lent.

#![forbid(unsafe_code)]

mod block;
pub mod counts;
mod cursor;
pub mod dump;
pub mod entries;
pub mod frame;
pub mod image;
pub mod load;
pub mod looping;
pub mod machine;
pub mod refusal;
pub mod rehearsal;
pub mod step;
pub mod version;
