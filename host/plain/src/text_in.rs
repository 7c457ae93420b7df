//! The text reader: narrowed DIMACS text as clause words.
//!
//! Nothing may be written before all is known to be sound, so the text is
//! gone over twice. The first pass (`survey`) judges and counts all bytes by
//! their neighbours, many at once and without a branch; only a text that it
//! faults is walked token by token to find the fault. The second pass reads
//! eight bytes at a time, in two places of the text by turns, because each
//! token's place waits for the length of the one before it.

use crate::text_bytes::{survey, BLOCK};
use crate::text_out::{MOST_CLAUSES, MOST_VARIABLES, OPENING};
use crate::{refuse, Refusal, Tally};

/// Checks 17, 16, 18 and 14, 15, 19 and 7, then writes the words.
pub fn read_text(text: &[u8], out: &mut [i32]) -> Result<Tally, Refusal> {
    let Header {
        variables,
        clauses,
        end,
    } = read_header(text)?;
    let middle = end + (text.len() - end) / (2 * BLOCK) * BLOCK;
    let (Some(first), Some(second)) = (
        survey(text, end..middle, variables),
        survey(text, middle..text.len(), variables),
    ) else {
        return find_fault(text, end, variables);
    };
    let words = first.words + second.words;
    if words > 0 && !closed(&text[end - 1..]) {
        return refuse(15, text.len());
    }
    let zeros = first.zeros + second.zeros;
    if zeros != clauses as usize {
        return refuse(19, zeros);
    }
    let Some(room) = out.get_mut(..words) else {
        return refuse(7, words);
    };
    write_tokens(
        text,
        [end, space_near(text, middle)],
        room.split_at_mut(first.words),
    );
    Ok(Tally {
        words,
        clauses,
        variables,
    })
}

/// The header line's numbers, and where the line ends.
pub(crate) struct Header {
    pub variables: u32,
    pub clauses: u32,
    pub end: usize,
}

/// Passes over comment lines; checks 17 and 16.
pub(crate) fn read_header(text: &[u8]) -> Result<Header, Refusal> {
    let mut start = 0;
    while text.get(start) == Some(&b'c') {
        let feed = text[start..].iter().position(|&b| b == b'\n');
        start = feed.map_or(text.len(), |at| start + at + 1);
    }
    let Some((variables, clauses, end)) = header_line(&text[start..]) else {
        return refuse(17, start);
    };
    if variables > MOST_VARIABLES || clauses as usize > MOST_CLAUSES {
        return refuse(16, start);
    }
    Ok(Header {
        variables,
        clauses,
        end: start + end,
    })
}

/// A line of the header's form at the front: its numbers and its length.
fn header_line(line: &[u8]) -> Option<(u32, u32, usize)> {
    let numbers = line.strip_prefix(OPENING)?;
    let (variables, rest) = decimal(numbers)?;
    let (clauses, rest) = decimal(rest.strip_prefix(b" ")?)?;
    let rest = rest.strip_prefix(b"\n")?;
    Some((variables, clauses, line.len() - rest.len()))
}

/// A decimal without leading zeros at the front, and what follows it. A
/// number beyond all limits comes out as some number beyond all limits.
fn decimal(text: &[u8]) -> Option<(u32, &[u8])> {
    let length = text.iter().take_while(|b| b.is_ascii_digit()).count();
    let (digits, rest) = text.split_at(length);
    if length == 0 || (length > 1 && digits[0] == b'0') {
        return None;
    }
    let most = digits.iter().fold(0u32, |number, &digit| {
        number
            .saturating_mul(10)
            .saturating_add(u32::from(digit - b'0'))
    });
    Some((most, rest))
}

pub(crate) fn is_space(byte: u8) -> bool {
    matches!(byte, b' ' | b'\t' | b'\r' | b'\n')
}

/// Checks 18 and 14 token by token from `at` on, in a text that fails them.
#[cold]
fn find_fault<T>(text: &[u8], mut at: usize, variables: u32) -> Result<T, Refusal> {
    for token in text[at..].split(|&b| is_space(b)) {
        let digits = token.strip_prefix(b"-").unwrap_or(token);
        match decimal(digits) {
            _ if token.is_empty() => {}
            Some((size, [])) if size > 0 || token == b"0" => {
                if size > variables {
                    return refuse(14, at);
                }
            }
            _ => return refuse(18, at),
        }
        at += token.len() + 1;
    }
    unreachable!("a text at fault has a token at fault")
}

/// Whether the last token of a sound text, which opens with a space and has
/// a token, is `0`.
fn closed(text: &[u8]) -> bool {
    let last = text.iter().rposition(|&b| !is_space(b));
    last.is_some_and(|at| text[at] == b'0' && is_space(text[at - 1]))
}

/// The first space from just before `at` on: a token that begins before `at`
/// ends there at the latest.
fn space_near(text: &[u8], at: usize) -> usize {
    let space = text[at - 1..].iter().position(|&b| is_space(b));
    space.map_or(text.len(), |found| at - 1 + found)
}

/// The sound tokens from two places of a text as words, filling two stretches.
fn write_tokens(text: &[u8], mut at: [usize; 2], (first, second): (&mut [i32], &mut [i32])) {
    let both = first.len().min(second.len());
    let (first, first_left) = first.split_at_mut(both);
    let (second, second_left) = second.split_at_mut(both);
    for (one, two) in first.iter_mut().zip(second) {
        *one = next_word(text, &mut at[0]);
        *two = next_word(text, &mut at[1]);
    }
    for word in first_left {
        *word = next_word(text, &mut at[0]);
    }
    for word in second_left {
        *word = next_word(text, &mut at[1]);
    }
}

/// Each byte's bit that among sound bytes only digits have.
const DIGIT: u64 = 0x1010_1010_1010_1010;

/// The next token's word. A token has eight bytes at most, and its first is
/// never its end.
#[inline(always)]
fn next_word(text: &[u8], at: &mut usize) -> i32 {
    let mut bytes = eight(text, *at);
    while bytes as u8 <= b' ' {
        *at += 1;
        bytes = eight(text, *at);
    }
    let lead = bytes as u8;
    if lead == b'0' {
        *at += 2;
        return 0;
    }
    let length = (!bytes & (DIGIT << 8)).trailing_zeros() & !7;
    *at += length as usize / 8 + 1;
    let negative = lead == b'-';
    let digits = if negative { bytes & !0xFF } else { bytes };
    let size = number(digits << (64 - length));
    if negative {
        -size
    } else {
        size
    }
}

/// Eight bytes of the text, the first lowest, as if spaces followed its end.
#[inline(always)]
fn eight(text: &[u8], at: usize) -> u64 {
    match text.get(at..at + 8) {
        Some(&[a, b, c, d, e, f, g, h]) => u64::from_le_bytes([a, b, c, d, e, f, g, h]),
        _ => eight_at_end(text.get(at..).unwrap_or(b"")),
    }
}

#[cold]
fn eight_at_end(rest: &[u8]) -> u64 {
    let mut bytes = [b' '; 8];
    bytes[..rest.len()].copy_from_slice(rest);
    u64::from_le_bytes(bytes)
}

/// The number that digits spell whose last is the highest byte; bytes of 0
/// may lead. Neighbours join into pairs, fours and eights.
#[inline(always)]
fn number(digits: u64) -> i32 {
    let ones = digits & 0x0F0F_0F0F_0F0F_0F0F;
    let pairs = (ones.wrapping_mul(10 << 8 | 1) >> 8) & 0x00FF_00FF_00FF_00FF;
    let fours = (pairs.wrapping_mul(100 << 16 | 1) >> 16) & 0x0000_FFFF_0000_FFFF;
    (fours.wrapping_mul(10_000 << 32 | 1) >> 32) as i32
}
