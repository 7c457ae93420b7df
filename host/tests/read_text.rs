//! `read_text`: written texts, loosely spaced ones, ones with comments, odd headers and tokens,
//! torn and mutated ones.

use crate::common::driver::{run, said, Entry, Said};
use crate::common::numbers::Rng;
use crate::common::words::{writable, CLAUSES, VARIABLES};
use binnaclebox::raw;

struct ReadText;

impl Entry for ReadText {
    const NAME: &'static str = "read_text";
    const AT_ZERO: &'static [u32] = &[16, 17, 19];
    const LATER: &'static [u32] = &[7, 14, 15, 16, 17, 18, 19];
    const FILLS: bool = true;
    type Lent = Bytes;
    type Out = i32;

    fn draw(rng: &mut Rng) -> Bytes {
        let mut text = match rng.below(20_000) {
            0 => many_clauses(rng),
            1..=600 => soup(rng),
            _ => composed(rng),
        };
        for _ in 0..rng.pick(&[0, 0, 0, 1, 1, 3]) {
            mutate(rng, &mut text);
        }
        Bytes(text)
    }

    fn plain(text: &Bytes, out: &mut [i32]) -> Said {
        said(plain::read_text(&text.0, out))
    }

    fn safe(text: &Bytes, out: &mut [i32]) -> Said {
        said(binnaclebox::read_text(&text.0, out))
    }

    fn raw(text: &Bytes, out: &mut [i32], answer: &mut [u64]) {
        raw::read_text(&text.0, out, answer)
    }
}

/// A text that shows itself as one.
struct Bytes(Vec<u8>);

impl std::fmt::Debug for Bytes {
    fn fmt(&self, f: &mut std::fmt::Formatter) -> std::fmt::Result {
        write!(f, "b\"{}\"", self.0.escape_ascii())
    }
}

/// Comments, a header and tokens, each of which may be odd.
fn composed(rng: &mut Rng) -> Vec<u8> {
    let (v, words) = writable(rng);
    let clauses = words.iter().filter(|&&word| word == 0).count();
    let mut text = if rng.once_in(4) {
        comments(rng)
    } else {
        Vec::new()
    };
    let header = if rng.once_in(6) {
        odd_header(rng, v, clauses)
    } else {
        format!("p cnf {v} {clauses}\n")
    };
    text.extend(header.bytes());
    let mut tokens: Vec<String> = words.iter().map(i32::to_string).collect();
    match rng.below(12) {
        0 | 1 => tokens.insert(rng.place(tokens.len() + 1), odd_token(rng, v)),
        2 => drop(tokens.pop()),
        _ => (),
    }
    if rng.once_in(2) {
        join_loosely(rng, &tokens, &mut text);
    } else {
        join_as_written(&tokens, &mut text);
    }
    text
}

fn join_as_written(tokens: &[String], text: &mut Vec<u8>) {
    for token in tokens {
        text.extend(token.bytes());
        text.push(if token == "0" { b'\n' } else { b' ' });
    }
}

/// One separator or several between tokens; perhaps some that lead or end.
fn join_loosely(rng: &mut Rng, tokens: &[String], text: &mut Vec<u8>) {
    let mut separate = |text: &mut Vec<u8>, least: usize| {
        for _ in 0..rng.pick(&[least, 1, 1, 3]) {
            text.push(rng.pick(b" \t\r\n"));
        }
    };
    separate(text, 0);
    for (index, token) in tokens.iter().enumerate() {
        text.extend(token.bytes());
        separate(text, usize::from(index + 1 < tokens.len()));
    }
}

fn comments(rng: &mut Rng) -> Vec<u8> {
    const LINES: [&[u8]; 8] = [
        b"c\n",
        b"c a skid\n",
        b"cnf 3 4\n",
        b"c\r\n",
        b"ccc\0\xff\n",
        b"c p cnf 1 1\n",
        b"c no line feed",
        b" c\n",
    ];
    (0..rng.within(1, 3))
        .flat_map(|_| LINES[rng.pick(&[0, 1, 2, 3, 4, 5, 0, 1, 2, 3, 4, 5, 6, 7])].to_vec())
        .collect()
}

/// A header of another form, with numbers over their limits, or with another count than the text's.
fn odd_header(rng: &mut Rng, v: u32, clauses: usize) -> String {
    let digits = "123456789012345678901234567890";
    let (most, clause_limit) = (VARIABLES, CLAUSES);
    match rng.below(26) {
        0 => format!("p cnf 0{v} {clauses}\n"),
        1 => format!("p cnf {v} 0{clauses}\n"),
        2 => format!("p  cnf {v} {clauses}\n"),
        3 => format!("p cnf {v}  {clauses}\n"),
        4 => format!("p cnf  {v} {clauses}\n"),
        5 => format!("p cnf {v} {clauses} \n"),
        6 => format!("p cnf {v} {clauses}\r\n"),
        7 => format!("p cnf {v} {clauses}"),
        8 => format!("p cnf {v}\n"),
        9 => format!("p cnf -{v} {clauses}\n"),
        10 => format!("p cnf {v} -{clauses}\n"),
        11 => format!("p cnf +{v} {clauses}\n"),
        12 => format!("p cnf {digits} {clauses}\n"),
        13 => format!("p cnf {v} {digits}\n"),
        14 => format!("p cnf {digits} 0{digits}\n"),
        15 => format!("p cnf {} {clauses}\n", most + 1),
        16 => format!("p cnf {most} {clauses}\n"),
        17 => format!("p cnf {v} {}\n", clause_limit + 1),
        18 => format!("p cnf {v} {clause_limit}\n"),
        19 => format!("p cnf {v} {}\n", clauses + 1),
        20 => format!("p cnf {v} {}\n", clauses.saturating_sub(1)),
        21 => format!("p cnf {} {clauses}\n", v / 2),
        22 => format!("p cnf {} {clauses}\n", u64::MAX),
        23 => format!(" p cnf {v} {clauses}\n"),
        24 => format!("P CNF {v} {clauses}\np cnf {v} {clauses}\n"),
        _ => "p cnf \n".to_string(),
    }
}

/// Tokens that are misformed, and ones of numbers beyond every V.
const MISFORMED: &str = "- -0 00 01 -01 +1 --1 1- 1x x c % 1. 0- \0 \x0b \
                         0123456789012345678901234567890123456789 12345678901234567890x";
const BEYOND: &str = "2147483647 2147483648 -2147483647 -2147483648 -2147483649 4294967297 \
                      18446744073709551615 18446744073709551617 -18446744073709551616 \
                      1234567890123456789012345678901234567890 \
                      -1234567890123456789012345678901234567890";

/// A token that is misformed, or of a number beyond V.
fn odd_token(rng: &mut Rng, v: u32) -> String {
    let mut one_of = |tokens: &str| {
        let tokens: Vec<&str> = tokens.split(' ').collect();
        rng.pick(&tokens).to_string()
    };
    let (misformed, beyond) = (one_of(MISFORMED), one_of(BEYOND));
    match rng.below(8) {
        0 => format!("{}", v + 1),
        1 => format!("-{}", v + 1),
        2 | 3 => beyond,
        _ => misformed,
    }
}

/// A text of as many empty clauses as there may be, perhaps one more or one fewer than its header
/// says.
fn many_clauses(rng: &mut Rng) -> Vec<u8> {
    let mut text = format!("p cnf 1 {CLAUSES}\n").into_bytes();
    text.extend(b"0\n".repeat(rng.pick(&[CLAUSES - 1, CLAUSES, CLAUSES + 1])));
    text
}

/// Bytes that texts are made of, in no order, perhaps after a header.
fn soup(rng: &mut Rng) -> Vec<u8> {
    let mut text = rng
        .pick(&[&b""[..], b"p", b"p cnf ", b"p cnf 9 2\n", b"p cnf 12 3\n"])
        .to_vec();
    text.extend((0..rng.below(24)).map(|_| rng.pick(b"00123459-   \n\n\t\rpcnfx")));
    text
}

/// Tears the text, or changes, puts in, takes out or doubles a byte.
fn mutate(rng: &mut Rng, text: &mut Vec<u8>) {
    let any = rng.next() as u8;
    let byte = rng.pick(&[
        any, b'0', b'1', b'9', b'-', b'+', b' ', b'\t', b'\r', b'\n', b'c', b'p', 0, 11, 12, 255,
    ]);
    if text.is_empty() {
        return text.push(byte);
    }
    let place = if rng.once_in(6) {
        rng.place(text.len())
    } else {
        rng.below(text.len())
    };
    match rng.below(6) {
        0 => text[place] = byte,
        1 => text[place] ^= 1 << rng.below(8),
        2 => text.insert(place, byte),
        3 => drop(text.remove(place)),
        4 => text.insert(place, text[place]),
        _ => text.truncate(place),
    }
}

#[test]
fn cases() {
    run::<ReadText>();
}
