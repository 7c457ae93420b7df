//! Edge cases of clause text, one a line in `text_cases.txt`: what is put in, and what comes out.
//! Each line is run through the library and through `plain`, and what comes is that line again.

use crate::common::driver::{said, Said};

const CASES: &str = include_str!("text_cases.txt");

/// The bytes of a text in quotes.
fn unquoted(text: &str) -> Vec<u8> {
    let inside = text.strip_prefix('"').and_then(|t| t.strip_suffix('"'));
    let mut rest = inside.expect("a text in quotes");
    let mut bytes = Vec::new();
    while let Some(first) = rest.bytes().next() {
        let (byte, length) = match rest.get(..2) {
            Some("\\n") => (b'\n', 2),
            Some("\\r") => (b'\r', 2),
            Some("\\t") => (b'\t', 2),
            Some("\\x") => (u8::from_str_radix(&rest[2..4], 16).expect("a byte"), 4),
            _ => (first, 1),
        };
        bytes.push(byte);
        rest = &rest[length..];
    }
    bytes
}

fn quoted(bytes: &[u8]) -> String {
    let byte = |&b: &u8| match b {
        b'\n' => "\\n".to_owned(),
        b'\r' => "\\r".to_owned(),
        b'\t' => "\\t".to_owned(),
        b' '..=b'~' => char::from(b).to_string(),
        _ => format!("\\x{b:02x}"),
    };
    format!("\"{}\"", bytes.iter().map(byte).collect::<String>())
}

fn numbers(text: &str) -> Vec<i32> {
    text.split_whitespace()
        .map(|word| word.parse().expect("a number"))
        .collect()
}

fn listed(words: &[i32]) -> String {
    words.iter().map(|word| format!(" {word}")).collect()
}

/// The number after a name, where the line has that name.
fn named(line: &str, name: &str) -> usize {
    let after = line.split_once(name).map_or("0", |(_, after)| after);
    let digits: String = after.chars().take_while(char::is_ascii_digit).collect();
    digits.parse().expect("a number")
}

/// Reads the text of a line into as many sevens as the line lists.
fn read_again(line: &str, read: impl Fn(&[u8], &mut [i32]) -> Said) -> String {
    let (case, came) = line.split_once(" -> ").expect("what came");
    let text = case.strip_prefix("read ").expect("a text");
    let kept = came.rsplit_once('|').map_or("", |(_, kept)| kept);
    let mut list = vec![7; named(came, "words=") + numbers(kept).len()];
    let (answer, words) = match read(&unquoted(text), &mut list) {
        Ok([words, clauses, variables, _]) => (
            format!("words={words} clauses={clauses} variables={variables}:"),
            words as usize,
        ),
        Err((number, place)) => (format!("refused={number} place={place}"), 0),
    };
    let (first, others) = list.split_at(words);
    format!(
        "read {text} -> {answer}{} |{}",
        listed(first),
        listed(others)
    )
}

/// Writes the words of a line into as many dots as the line has bytes.
fn write_again(line: &str, write: impl Fn(u32, &[i32], &mut [u8]) -> Said) -> String {
    let (case, came) = line.split_once(" -> ").expect("what came");
    let (_, words) = case.split_once("words:").expect("words");
    let kept = came.rsplit_once(" | ").map_or("\"\"", |(_, kept)| kept);
    let variables = named(case, "variables=") as u32;
    let mut out = vec![b'.'; named(came, "bytes=") + unquoted(kept).len()];
    let answer = match write(variables, &numbers(words), &mut out) {
        Ok([n, ..]) => {
            let (text, others) = out.split_at(n as usize);
            format!("bytes={n}: {} | {}", quoted(text), quoted(others))
        }
        Err((number, place)) => format!("refused={number} place={place} | {}", quoted(&out)),
    };
    format!("write variables={variables} words:{words} -> {answer}")
}

#[test]
fn cases() {
    let lines = || CASES.lines().filter(|line| !line.starts_with("--"));
    for line in lines().filter(|line| line.starts_with("read ")) {
        let lib = read_again(line, |text, out| said(binnaclebox::read_text(text, out)));
        assert_eq!(lib, line);
        let plain = read_again(line, |text, out| said(plain::read_text(text, out)));
        assert_eq!(plain, line);
    }
    for line in lines().filter(|line| !line.starts_with("read ")) {
        let lib = write_again(line, |v, words, out| {
            said(binnaclebox::write_text(v, words, out))
        });
        assert_eq!(lib, line);
        let plain = write_again(line, |v, words, out| said(plain::write_text(v, words, out)));
        assert_eq!(plain, line);
    }
}
