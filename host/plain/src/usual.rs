//! Three of the calls as a good engineer would usually write them: safe Rust,
//! literal by literal, word by word, token by token.
//!
//! Answers and refusals are those of the functions of the same names at the
//! crate's root, and so are the checks that come before and after. Only the
//! passes over literals, words and tokens differ: no two of these are looked
//! at together unless the compiler finds out how.
#![forbid(unsafe_code)]

use crate::diagram::{Diagram, Shape};
use crate::judge::allows;
use crate::model::{choose, note, MOST_NAMES, UNNAMED};
use crate::text_in::{is_space, read_header, Header};
use crate::text_out::{write_header, MOST_CLAUSES, MOST_VARIABLES, MOST_WORDS, OPENING};
use crate::{refuse, Refusal, Tally};
use std::slice::Iter;

/// Checks 1 to 7 and 10 to 13, then writes the build and gives its length.
pub fn read_model(d: &Diagram, literals: &[i32], out: &mut [u32]) -> Result<usize, Refusal> {
    let shape = Shape::of(d)?;
    let n = d.domains.len();
    let Some(room) = out.get_mut(..n) else {
        return refuse(7, n);
    };
    let variables = shape.values + (d.layers.len() + 2 + shape.edge_count) as u32;
    let fits = |literal: &i32| (1..=variables).contains(&literal.unsigned_abs());
    if let Some(place) = literals.iter().position(|literal| !fits(literal)) {
        return refuse(10, place);
    }
    let mut said = [UNNAMED; MOST_NAMES];
    if let Some(place) = note(literals, &mut said[..shape.values as usize]) {
        return refuse(11, place);
    }
    let build = &choose(d.domains, &said)?[..n];
    if !allows(d, &shape, build) {
        return refuse(13, 0);
    }
    room.copy_from_slice(build);
    Ok(n)
}

/// Checks 16, 14, 15 and 7, then writes the text and gives its length. At
/// nine bytes a word, all lengths fit 32 bits.
pub fn write_text(variables: u32, words: &[i32], out: &mut [u8]) -> Result<usize, Refusal> {
    if variables > MOST_VARIABLES || words.len() > MOST_WORDS {
        return refuse(16, 0);
    }
    let (mut clauses, mut beyond, mut bytes) = (0, false, 0);
    for &word in words {
        let size = word.unsigned_abs();
        clauses += u32::from(size == 0);
        beyond |= size > variables;
        bytes += u32::from(word < 0) + digits(size) + 1;
    }
    if clauses as usize > MOST_CLAUSES {
        return refuse(16, 0);
    }
    if beyond {
        let beyond = |word: &i32| word.unsigned_abs() > variables;
        return refuse(14, words.iter().position(beyond).unwrap_or(0));
    }
    if words.last().is_some_and(|&word| word != 0) {
        return refuse(15, words.len());
    }
    let header = OPENING.len() + (digits(variables) + digits(clauses)) as usize + 2;
    let length = header + bytes as usize;
    let Some(room) = out.get_mut(..length) else {
        return refuse(7, length);
    };
    let (head, body) = room.split_at_mut(header);
    write_header(head, variables, clauses);
    write_words(body, words);
    Ok(length)
}

/// The decimal digits of a number of at most seven.
#[inline]
fn digits(number: u32) -> u32 {
    let over = |limit: u32| u32::from(number >= limit);
    1 + over(10) + over(100) + over(1000) + over(10_000) + over(100_000) + over(1_000_000)
}

/// The two digits of every number below 100.
static PAIRS: [[u8; 2]; 100] = pairs();

const fn pairs() -> [[u8; 2]; 100] {
    let mut table = [[0; 2]; 100];
    let mut i = 0;
    while i < 100 {
        table[i] = [b'0' + (i / 10) as u8, b'0' + (i % 10) as u8];
        i += 1;
    }
    table
}

/// All words' text, filling `out`, which is exactly as long as that text. It
/// is written from its end, so that no number's length is needed.
fn write_words(out: &mut [u8], words: &[i32]) {
    let mut at = out.len();
    for &word in words.iter().rev() {
        if word == 0 {
            at -= 2;
            out[at..at + 2].copy_from_slice(b"0\n");
            continue;
        }
        at -= 1;
        out[at] = b' ';
        let mut left = word.unsigned_abs() as usize;
        while left >= 10 {
            at -= 2;
            out[at..at + 2].copy_from_slice(&PAIRS[left % 100]);
            left /= 100;
        }
        if left > 0 {
            at -= 1;
            out[at] = b'0' + left as u8;
        }
        if word < 0 {
            at -= 1;
            out[at] = b'-';
        }
    }
}

/// Checks 17, 16, 18 and 14, 15, 19 and 7, then writes the words.
pub fn read_text(text: &[u8], out: &mut [i32]) -> Result<Tally, Refusal> {
    let Header {
        variables,
        clauses,
        end,
    } = read_header(text)?;
    let Count { words, zeros, open } = count_tokens(text, end, variables)?;
    if open {
        return refuse(15, text.len());
    }
    if zeros != clauses as usize {
        return refuse(19, zeros);
    }
    let Some(room) = out.get_mut(..words) else {
        return refuse(7, words);
    };
    write_tokens(&text[end..], room);
    Ok(Tally {
        words,
        clauses,
        variables,
    })
}

/// What the tokens of a sound text are.
struct Count {
    words: usize,
    zeros: usize,
    /// Whether the last clause is not closed.
    open: bool,
}

/// Checks 18 and 14 token by token from `from` on, and counts the tokens.
fn count_tokens(text: &[u8], from: usize, variables: u32) -> Result<Count, Refusal> {
    let (mut words, mut zeros, mut open) = (0, 0, false);
    let mut bytes = text[from..].iter();
    while let Some(&lead) = bytes.find(|&&byte| !is_space(byte)) {
        let place = text.len() - bytes.len() - 1;
        match token(lead, &mut bytes) {
            None => return refuse(18, place),
            Some(size) if size > variables => return refuse(14, place),
            Some(size) => {
                words += 1;
                zeros += usize::from(size == 0);
                open = size != 0;
            }
        }
    }
    Ok(Count { words, zeros, open })
}

/// The size of a token after whose first byte the others follow, which are
/// taken together with the space at its end; none if it is misformed. A size
/// beyond all limits comes out as some such size.
#[inline]
fn token(lead: u8, bytes: &mut Iter<u8>) -> Option<u32> {
    let first = match lead {
        b'-' => *bytes.next().filter(|&&byte| byte != b'0')?,
        _ => lead,
    };
    if first == b'0' {
        return bytes.next().is_none_or(|&byte| is_space(byte)).then_some(0);
    }
    if !first.is_ascii_digit() {
        return None;
    }
    let (mut size, left) = (u32::from(first - b'0'), bytes.len());
    let end = loop {
        match bytes.next() {
            Some(digit @ b'0'..=b'9') => {
                size = size.wrapping_mul(10).wrapping_add(u32::from(digit - b'0'));
            }
            Some(&byte) => break byte,
            None => break b' ',
        }
    };
    let long = left - bytes.len() > 7;
    is_space(end).then_some(if long { u32::MAX } else { size })
}

/// The first tokens of a sound text as words, filling `out`.
fn write_tokens(text: &[u8], out: &mut [i32]) {
    let mut bytes = text.iter();
    for word in out {
        let first = bytes.find(|&&byte| !is_space(byte));
        let lead = first.copied().unwrap_or(b'0');
        let negative = lead == b'-';
        let mut size = if negative { 0 } else { i32::from(lead - b'0') };
        while let Some(digit @ b'0'..=b'9') = bytes.next() {
            size = 10 * size + i32::from(digit - b'0');
        }
        *word = if negative { -size } else { size };
    }
}
