//! The text reader's first pass: is a clause text sound, and what does it hold?
//!
//! Every byte is judged by its neighbours alone. That has no branch and no
//! order, so the compiler lays it out for many bytes at once. The answer is
//! only whether all is sound; where it is not, the reader finds the place.

use std::ops::Range;

/// Bytes judged together; few enough that a byte can count them.
pub(crate) const BLOCK: usize = 240;
/// A block with the byte before it, and the seven that a number beginning in
/// it needs in order to be seen whole or too long.
const WINDOW: usize = 1 + BLOCK + 7;

/// What a stretch of sound text holds.
pub(crate) struct Count {
    pub words: usize,
    pub zeros: usize,
}

/// Counts the tokens that begin in a range of the text, if all its bytes are
/// sound. The range has a byte before it, and ends after whole blocks or with
/// the text.
pub(crate) fn survey(text: &[u8], range: Range<usize>, variables: u32) -> Option<Count> {
    match variables {
        0..=9 => survey_by::<1>(text, range, variables),
        10..=99 => survey_by::<2>(text, range, variables),
        100..=999 => survey_by::<3>(text, range, variables),
        1000..=9999 => survey_by::<4>(text, range, variables),
        10_000..=99_999 => survey_by::<5>(text, range, variables),
        100_000..=999_999 => survey_by::<6>(text, range, variables),
        _ => survey_by::<7>(text, range, variables),
    }
}

/// `survey`, for a highest variable of K digits.
fn survey_by<const K: usize>(text: &[u8], range: Range<usize>, variables: u32) -> Option<Count> {
    let limit = spell::<K>(variables);
    let mut count = Count { words: 0, zeros: 0 };
    for at in range.step_by(BLOCK) {
        let seen = &text[at - 1..];
        let (fault, words, zeros) = match seen.first_chunk() {
            Some(window) => judge_block(window, &limit),
            None => judge_block(&padded(seen), &limit),
        };
        if fault != 0 {
            return None;
        }
        count.words += usize::from(words);
        count.zeros += usize::from(zeros);
    }
    Some(count)
}

/// The K digits of a number.
fn spell<const K: usize>(number: u32) -> [u8; K] {
    let mut left = number;
    let mut digits = [0; K];
    for digit in digits.iter_mut().rev() {
        *digit = b'0' + (left % 10) as u8;
        left /= 10;
    }
    digits
}

/// The end of the text, as if spaces followed.
fn padded(rest: &[u8]) -> [u8; WINDOW] {
    let mut window = [b' '; WINDOW];
    window[..rest.len()].copy_from_slice(rest);
    window
}

/// Faults (0 for none), tokens that begin, and zeros among them. Where all
/// bytes are of the permitted kinds, those below `-` are the spaces, and
/// those from `0` up the digits.
#[inline(always)]
fn judge_block<const K: usize>(window: &[u8; WINDOW], limit: &[u8; K]) -> (u8, u8, u8) {
    let (mut fault, mut words, mut zeros) = (0, 0, 0);
    for i in 0..BLOCK {
        let (before, byte, after) = (window[i], window[i + 1], window[i + 2]);
        let opens = u8::from(before < b'-');
        let minus = u8::from(byte == b'-');
        let zero = u8::from(byte == b'0') & opens;
        fault |= 1 ^ (permitted(byte) | minus);
        fault |= minus & ((1 ^ opens) | u8::from(after <= b'0'));
        fault |= zero & u8::from(after >= b'-');
        fault |= u8::from(before < b'0') & beyond(window, i + 1, limit);
        words += opens & u8::from(byte >= b'-');
        zeros += zero;
    }
    (fault, words, zeros)
}

/// 1 for a digit or a space of any kind.
#[inline(always)]
fn permitted(byte: u8) -> u8 {
    u8::from(byte.wrapping_sub(b'0') < 10)
        | u8::from(byte == b' ')
        | u8::from(byte.wrapping_sub(b'\t') < 2)
        | u8::from(byte == b'\r')
}

/// 1 for a number at `at` above the limit: one with more digits, or with as
/// many that come later in order.
#[inline(always)]
fn beyond<const K: usize>(window: &[u8; WINDOW], at: usize, limit: &[u8; K]) -> u8 {
    let (mut later, mut least) = (0, u8::MAX);
    for j in (0..K).rev() {
        let digit = window[at + j];
        later = u8::from(digit > limit[j]) | (u8::from(digit == limit[j]) & later);
        least = least.min(digit);
    }
    u8::from(least >= b'0') & (later | u8::from(window[at + K] >= b'0'))
}
