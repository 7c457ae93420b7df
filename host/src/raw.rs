//! The C interface, slice by slice: what each function lends is passed as a pointer and a length in
//! elements.
//!
//! Each function puts its answer into its last slice. Fewer than [`ANSWER`] entries there: nothing
//! is written anywhere. Otherwise its first [`ANSWER`] entries are written and later ones kept: 0
//! or the refusal's number; the refusal's place, 0 for a result; then the four results, 0 where
//! unused or refused. The functions of the crate's root wrap these, and are what a program should
//! call.
//!
//! # Safety
//!
//! All unsafe code of the crate stands here, under one argument. The library reads its shared
//! slices and writes its `mut` ones, within the lengths given, during the call alone, and asks that
//! no pointer is null and that no slice it writes overlaps another one. A Rust slice's pointer is
//! never null, also for an empty slice; it is aligned and good for its length. A `&mut` slice
//! overlaps no other borrow that is alive in the call. Every bit pattern is a value of `u8`, `u32`,
//! `i32` and `u64`. So the functions below are safe for every argument.

use crate::Diagram;

/// The entries of an answer.
pub const ANSWER: usize = 6;

extern "C" {
    fn bb_check(
        domains: *const u32,
        domain_count: usize,
        layers: *const u32,
        layer_count: usize,
        targets: *const u32,
        target_count: usize,
        answer: *mut u64,
        answer_len: usize,
    );
    fn bb_encode(
        domains: *const u32,
        domain_count: usize,
        layers: *const u32,
        layer_count: usize,
        targets: *const u32,
        target_count: usize,
        out: *mut i32,
        out_len: usize,
        answer: *mut u64,
        answer_len: usize,
    );
    fn bb_judge(
        domains: *const u32,
        domain_count: usize,
        layers: *const u32,
        layer_count: usize,
        targets: *const u32,
        target_count: usize,
        build: *const u32,
        build_len: usize,
        answer: *mut u64,
        answer_len: usize,
    );
    fn bb_model(
        domains: *const u32,
        domain_count: usize,
        layers: *const u32,
        layer_count: usize,
        targets: *const u32,
        target_count: usize,
        literals: *const i32,
        literal_count: usize,
        out: *mut u32,
        out_len: usize,
        answer: *mut u64,
        answer_len: usize,
    );
    fn bb_text_write(
        v: u32,
        words: *const i32,
        word_count: usize,
        out: *mut u8,
        out_len: usize,
        answer: *mut u64,
        answer_len: usize,
    );
    fn bb_text_read(
        text: *const u8,
        text_len: usize,
        out: *mut i32,
        out_len: usize,
        answer: *mut u64,
        answer_len: usize,
    );
}

/// Calls a function with its numbers, then its read slices, then its written ones.
macro_rules! call {
    ($symbol:ident, [$($number:expr),*], [$($read:expr),*], [$($written:expr),*]) => {
        // SAFETY: the argument at the head of this module.
        unsafe {
            $symbol(
                $($number,)*
                $($read.as_ptr(), $read.len(),)*
                $($written.as_mut_ptr(), $written.len(),)*
            )
        }
    };
}

/// `bb_check`: no results.
pub fn check(diagram: &Diagram, answer: &mut [u64]) {
    let Diagram {
        domains,
        layers,
        targets,
    } = *diagram;
    call!(bb_check, [], [domains, layers, targets], [answer])
}

/// `bb_encode`: the results are words, clauses and V.
pub fn encode(diagram: &Diagram, out: &mut [i32], answer: &mut [u64]) {
    let Diagram {
        domains,
        layers,
        targets,
    } = *diagram;
    call!(bb_encode, [], [domains, layers, targets], [out, answer])
}

/// `bb_judge`: the result is 1 for a build that is allowed, 0 for one that is not.
pub fn judge(diagram: &Diagram, build: &[u32], answer: &mut [u64]) {
    let Diagram {
        domains,
        layers,
        targets,
    } = *diagram;
    call!(bb_judge, [], [domains, layers, targets, build], [answer])
}

/// `bb_model`: the result is the number of options.
pub fn read_model(diagram: &Diagram, literals: &[i32], out: &mut [u32], answer: &mut [u64]) {
    let Diagram {
        domains,
        layers,
        targets,
    } = *diagram;
    call!(
        bb_model,
        [],
        [domains, layers, targets, literals],
        [out, answer]
    )
}

/// `bb_text_write`: the result is the number of bytes.
pub fn write_text(v: u32, words: &[i32], out: &mut [u8], answer: &mut [u64]) {
    call!(bb_text_write, [v], [words], [out, answer])
}

/// `bb_text_read`: the results are words, clauses and V.
pub fn read_text(text: &[u8], out: &mut [i32], answer: &mut [u64]) {
    call!(bb_text_read, [], [text], [out, answer])
}
