//! What the tests share: numbers, diagrams, word lists, guarded buffers, and the driver of the
//! generated cases.

pub mod buffers;
pub mod diagrams;
pub mod driver;
pub mod numbers;
pub mod words;
