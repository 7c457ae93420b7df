//! `write_text`: encoded diagrams, random word lists, lists with faults at each rule, and lists at
//! the limits.

use crate::common::driver::{run, said, Entry, Said};
use crate::common::numbers::Rng;
use crate::common::words::{writable, CLAUSES, VARIABLES};
use binnaclebox::raw;

/// The most words of a list that may be written.
const WORDS: usize = 100_000_000;

struct WriteText;

impl Entry for WriteText {
    const NAME: &'static str = "write_text";
    const AT_ZERO: &'static [u32] = &[14, 16];
    const LATER: &'static [u32] = &[7, 14, 15];
    const FILLS: bool = true;
    type Lent = (u32, Vec<i32>);
    type Out = u8;

    fn draw(rng: &mut Rng) -> Self::Lent {
        if rng.once_in(10_000) {
            return many_clauses(rng);
        }
        let (mut v, mut words) = writable(rng);
        for _ in 0..rng.pick(&[0, 0, 1, 1, 2]) {
            spoil(rng, &mut v, &mut words);
        }
        (v, words)
    }

    fn plain((v, words): &Self::Lent, out: &mut [u8]) -> Said {
        said(plain::write_text(*v, words, out))
    }

    fn safe((v, words): &Self::Lent, out: &mut [u8]) -> Said {
        said(binnaclebox::write_text(*v, words, out))
    }

    fn raw((v, words): &Self::Lent, out: &mut [u8], answer: &mut [u64]) {
        raw::write_text(*v, words, out, answer)
    }
}

/// As many clauses as there may be, one more or one fewer; some with a literal beyond V or without
/// their last 0.
fn many_clauses(rng: &mut Rng) -> (u32, Vec<i32>) {
    let mut words = vec![0; rng.pick(&[CLAUSES - 1, CLAUSES, CLAUSES, CLAUSES + 1])];
    match rng.below(4) {
        0 => words.push(1),
        1 => words.insert(rng.place(CLAUSES - 1), 2),
        _ => (),
    }
    (1, words)
}

/// Another V, a word beyond it, another word or another end.
fn spoil(rng: &mut Rng, v: &mut u32, words: &mut Vec<i32>) {
    let any = rng.next();
    let beyond = v.wrapping_add(1) as i32;
    let odd = rng.pick(&[
        0,
        1,
        beyond,
        beyond.wrapping_neg(),
        i32::MIN,
        i32::MIN + 1,
        i32::MAX,
        any as i32,
    ]);
    let place = rng.place(words.len() + 1);
    match rng.below(6) {
        0 => {
            *v = rng.pick(&[
                VARIABLES as u32 + 1,
                VARIABLES as u32 + 2,
                1 << 31,
                u32::MAX,
                any as u32,
            ])
        }
        1 => *v = rng.pick(&[0, v.wrapping_sub(1), *v / 2, VARIABLES as u32]),
        2 => words.insert(place, odd),
        3 if place < words.len() => words[place] = odd,
        4 => drop(words.pop()),
        _ => words.push(odd),
    }
}

#[test]
fn cases() {
    run::<WriteText>();
}

/// The limit on clauses, from both sides: that many are written, one more is refused.
#[test]
fn four_million_clauses() {
    let expected = format!("p cnf 0 {CLAUSES}\n{}", "0\n".repeat(CLAUSES)).into_bytes();
    let mut words = vec![0; CLAUSES];
    let mut text = vec![b'x'; expected.len()];
    assert_eq!(
        binnaclebox::write_text(0, &words, &mut text),
        Ok(expected.len())
    );
    assert!(text == expected, "the text of {CLAUSES} empty clauses");
    words.push(0);
    assert_eq!(
        said(binnaclebox::write_text(0, &words, &mut text)),
        Err((16, 0))
    );
    assert!(text == expected, "a refusal keeps the buffer");
}

/// The limit on words, from both sides: a list of that length asks for room, a longer one is
/// refused.
#[test]
fn a_hundred_million_words() {
    let mut words = vec![1; WORDS + 1];
    words[WORDS - 1..].fill(0);
    let needed = "p cnf 1 1\n".len() + 2 * WORDS;
    let at_limit = binnaclebox::write_text(1, &words[..WORDS], &mut []);
    assert_eq!(said(at_limit), Err((7, needed)));
    let one_more = binnaclebox::write_text(1, &words, &mut []);
    assert_eq!(said(one_more), Err((16, 0)));
}
