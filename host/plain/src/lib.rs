//! Decision diagrams as SAT clauses, in plain Rust tuned by hand; in `usual`,
//! three of the calls as they would usually be written.
//!
//! This crate is what the verified library is compared with: its tests hold
//! the answers of both side by side, and its benchmark times both. It shares
//! no code with the library. It takes no heap and lends nothing out: every
//! call works in the caller's buffers and a few fixed arrays on the stack.

mod diagram;
mod encode;
mod judge;
mod model;
mod text_bytes;
mod text_in;
mod text_out;
pub mod usual;

pub use diagram::{check, Diagram};
pub use encode::encode;
pub use judge::judge;
pub use model::read_model;
pub use text_in::read_text;
pub use text_out::write_text;

/// Why a call gave no result: the number of the broken rule, and its place.
#[derive(Clone, Copy, Debug, PartialEq, Eq)]
pub struct Refusal {
    pub number: u32,
    pub place: usize,
}

/// What was written: words, the clauses they make, and the highest variable.
#[derive(Clone, Copy, Debug, PartialEq, Eq)]
pub struct Tally {
    pub words: usize,
    pub clauses: u32,
    pub variables: u32,
}

/// A refusal as the failing side of an answer.
#[inline]
pub(crate) fn refuse<T>(number: u32, place: usize) -> Result<T, Refusal> {
    Err(Refusal { number, place })
}
