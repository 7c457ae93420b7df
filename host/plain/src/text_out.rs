//! The text writer: clause words as narrowed DIMACS text.
//!
//! A first pass over the words counts clauses and bytes without a branch, so
//! that the second writes each word as one eight-byte store.

use crate::{refuse, Refusal};

pub(crate) const MOST_VARIABLES: u32 = 1_000_000;
pub(crate) const MOST_CLAUSES: usize = 4_000_000;
pub(crate) const MOST_WORDS: usize = 100_000_000;
pub(crate) const OPENING: &[u8; 6] = b"p cnf ";

/// Checks 16, 14, 15 and 7, then writes the text and gives its length.
pub fn write_text(variables: u32, words: &[i32], out: &mut [u8]) -> Result<usize, Refusal> {
    if variables > MOST_VARIABLES || words.len() > MOST_WORDS {
        return refuse(16, 0);
    }
    let survey = Survey::of(words);
    if survey.zeros > MOST_CLAUSES {
        return refuse(16, 0);
    }
    if survey.high > variables {
        let beyond = |w: &i32| w.unsigned_abs() > variables;
        return refuse(14, words.iter().position(beyond).unwrap_or(0));
    }
    if words.last().is_some_and(|&w| w != 0) {
        return refuse(15, words.len());
    }
    let clauses = survey.zeros as u32;
    let header = OPENING.len() + digits(variables) + digits(clauses) + 2;
    let length = header + survey.bytes;
    let Some(room) = out.get_mut(..length) else {
        return refuse(7, length);
    };
    let (head, body) = room.split_at_mut(header);
    write_header(head, variables, clauses);
    write_words(body, words);
    Ok(length)
}

/// What the first pass finds.
struct Survey {
    zeros: usize,
    high: u32,
    bytes: usize,
}

impl Survey {
    /// Words counted together: few enough that narrow counts hold them, which
    /// lets more words be seen at once.
    const BLOCK: usize = 8192;

    fn of(words: &[i32]) -> Survey {
        let mut all = Survey {
            zeros: 0,
            high: 0,
            bytes: 0,
        };
        for block in words.chunks(Survey::BLOCK) {
            let (mut zeros, mut high, mut bytes) = (0u16, 0u32, 0u16);
            for &word in block {
                let size = word.unsigned_abs();
                zeros += u16::from(size == 0);
                high = high.max(size);
                bytes += more_digits(size) + u16::from(((word >> 16) as i16) < 0);
            }
            all.zeros += usize::from(zeros);
            all.high = all.high.max(high);
            all.bytes += usize::from(bytes) + 2 * block.len();
        }
        all
    }
}

/// The decimal digits besides the first of a number of at most seven. Limits
/// from 10,000 up are multiples of 16, so sixteenths tell as well, and both
/// fit 16 bits.
#[inline(always)]
fn more_digits(number: u32) -> u16 {
    let units = number.min(0xFFFF) as u16;
    let sixteenths = (number >> 4).min(0xFFFF) as u16;
    let over = |limit| u16::from(units >= limit);
    let far_over = |limit| u16::from(sixteenths >= limit);
    over(10) + over(100) + over(1000) + far_over(625) + far_over(6250) + far_over(62_500)
}

fn digits(number: u32) -> usize {
    1 + usize::from(more_digits(number))
}

/// The header line.
pub(crate) fn write_header(out: &mut [u8], variables: u32, clauses: u32) {
    let (opening, numbers) = out.split_at_mut(OPENING.len());
    opening.copy_from_slice(OPENING);
    let (first, second) = numbers.split_at_mut(digits(variables) + 1);
    write_number(first, variables, b' ');
    write_number(second, clauses, b'\n');
}

/// A number and the byte after it, filling `out`.
fn write_number(out: &mut [u8], number: u32, after: u8) {
    let mut left = number;
    let mut places = out.iter_mut().rev();
    if let Some(last) = places.next() {
        *last = after;
    }
    for place in places {
        *place = b'0' + (left % 10) as u8;
        left /= 10;
    }
}

/// The three digits of a number below 1000, the highest in the lowest byte.
static TRIPLES: [u32; 1000] = triples();

const fn triples() -> [u32; 1000] {
    let mut table = [0; 1000];
    let mut i = 0;
    while i < 1000 {
        table[i] = (i / 100 + ((i / 10 % 10) << 8) + ((i % 10) << 16)) as u32;
        i += 1;
    }
    table
}

/// The digits of a size from 1 to 999,999 and a space, in the low bytes, and
/// how many bytes these are.
#[inline(always)]
fn spell(size: u32) -> (u64, usize) {
    const ASCII: u64 = 0x0020_3030_3030_3030;
    let (high, low) = (size / 1000, size % 1000);
    let six = u64::from(TRIPLES[high as usize]) | u64::from(TRIPLES[low as usize]) << 24;
    let skip = six.trailing_zeros() & !7;
    ((six | ASCII) >> skip, 7 - skip as usize / 8)
}

/// All words' text, filling `out`, which is exactly as long as that text.
fn write_words(out: &mut [u8], words: &[i32]) {
    let (body, tail) = words.split_at(words.len().saturating_sub(3));
    // SAFETY: `out` holds the text of all words, at two bytes or more each,
    // and three words follow the last of `body`.
    let mut at = unsafe { write_body(out, body) };
    for &word in tail {
        at += write_word(&mut out[at..], word);
    }
}

/// The text of words with eight-byte stores; gives its length.
///
/// # Safety
/// Besides the words' text, `out` has room for six bytes.
unsafe fn write_body(out: &mut [u8], words: &[i32]) -> usize {
    let mut at = 0;
    for &word in words {
        let next = out.as_mut_ptr().add(at);
        if word == 0 {
            next.cast::<[u8; 2]>().write(*b"0\n");
            at += 2;
            continue;
        }
        let size = word.unsigned_abs();
        if size >= MOST_VARIABLES {
            at += write_word(&mut out[at..], word);
            continue;
        }
        let (text, length) = spell(size);
        let sign = usize::from(word < 0);
        next.write(b'-');
        next.add(sign).cast::<[u8; 8]>().write(text.to_le_bytes());
        at += sign + length;
    }
    at
}

/// One word's text, whatever its length, byte by byte; gives that length.
#[cold]
fn write_word(out: &mut [u8], word: i32) -> usize {
    let sign = usize::from(word < 0);
    if sign == 1 {
        out[0] = b'-';
    }
    let size = word.unsigned_abs();
    let length = sign + digits(size) + 1;
    let after = if word == 0 { b'\n' } else { b' ' };
    write_number(&mut out[sign..length], size, after);
    length
}
