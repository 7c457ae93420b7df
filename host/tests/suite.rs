//! The library against `plain`, the scope's samples, edge cases of clause text, what the clauses mean,
//! and real solvers.
//!
//! Each entry point has a module of its name, which says how a case is drawn and how it is called;
//! `common::driver` says once how a case is judged. `BINNACLEBOX_SEED` sets another run seed, and
//! `BINNACLEBOX_CASE` runs one case again.

mod common;

mod check;
mod encode;
mod judge;
mod read_model;
mod read_text;
mod write_text;

mod header;
mod meaning;
mod round_trip;
mod samples;
mod solvers;
mod text_cases;
