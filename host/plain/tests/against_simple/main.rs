//! The tuned functions, and those written as usual, against the simplest ones
//! that could be right, on many small inputs drawn from a fixed seed, sound
//! and broken alike.

mod draw;
mod simple;

use draw::{Draw, Lists};
use plain::{check, encode, judge, read_model, read_text, usual, write_text, Tally};
use simple::Answer;
use std::fmt::Debug;

/// A function of the crate, given all but its buffer.
type Run<'a, T, W> = &'a dyn Fn(&mut [W]) -> Answer<T>;

/// Runs functions on buffers that start alike; all must end as the simple one
/// says.
fn same<T: PartialEq + Debug, W: Copy + PartialEq + Debug>(
    room: usize,
    mark: W,
    runs: &[Run<T, W>],
    simple: impl Fn(&mut [W]) -> Answer<T>,
) -> Answer<T> {
    let mut wanted = vec![mark; room];
    let answer = simple(&mut wanted);
    for run in runs {
        let mut out = vec![mark; room];
        assert_eq!(run(&mut out), answer);
        assert_eq!(out, wanted);
    }
    answer
}

/// The number of a refusal, or 0.
fn number<T>(answer: Answer<T>) -> usize {
    answer.map_or_else(|refusal| refusal.number as usize, |_| 0)
}

#[test]
fn diagrams() {
    let mut draw = Draw(0x1234_5678_9ABC_DEF1);
    let mut seen = [0; 8];
    for _ in 0..2000 {
        let mut lists = Lists::draw(&mut draw);
        lists.maim(&mut draw);
        let d = lists.lend();
        assert_eq!(check(&d), simple::check(&d), "{d:?}");
        let full = simple::encode(&d, &mut vec![0; 40_000]).map_or(100, |t| t.words);
        let room = full + draw.pick(&[0, 1, 4]) - 1;
        let got = same(room, -7, &[&|out| encode(&d, out)], |out| {
            simple::encode(&d, out)
        });
        seen[number(got)] += 1;
    }
    assert!([0, 2, 4, 5, 6, 7].iter().all(|&k| seen[k] > 20), "{seen:?}");
}

#[test]
fn builds() {
    let mut draw = Draw(0x4321_5678_9ABC_DEF1);
    for _ in 0..4000 {
        let lists = Lists::draw(&mut draw);
        let d = lists.lend();
        let sizes = lists.domains.iter();
        let mut build: Vec<u32> = sizes.map(|&v| draw.below(v as usize) as u32).collect();
        assert_eq!(
            judge(&d, &build),
            simple::judge(&d, &build),
            "{d:?} {build:?}"
        );
        build.truncate(draw.below(build.len() + 1));
        build.push(draw.pick(&[0, 1, 2, 31, u32::MAX]));
        assert_eq!(
            judge(&d, &build),
            simple::judge(&d, &build),
            "{d:?} {build:?}"
        );
    }
}

#[test]
fn models() {
    let mut draw = Draw(0xFEED_5678_9ABC_DEF1);
    let mut seen = [0; 14];
    for _ in 0..2000 {
        let lists = Lists::draw(&mut draw);
        let d = lists.lend();
        let literals = lists.model(&mut draw, simple::clauses(&d).1 as i32);
        let room = d.domains.len() + draw.below(3) - usize::from(draw.once_in(20));
        let got = same(
            room,
            99,
            &[&|out| read_model(&d, &literals, out), &|out| {
                usual::read_model(&d, &literals, out)
            }],
            |out| simple::read_model(&d, &literals, out),
        );
        seen[number(got)] += 1;
    }
    assert!(
        [0, 7, 10, 11, 12, 13].iter().all(|&k| seen[k] > 10),
        "{seen:?}"
    );
}

#[test]
fn texts_out() {
    let mut draw = Draw(0xABCD_5678_9ABC_DEF1);
    let mut seen = [0; 17];
    for _ in 0..8000 {
        let variables = draw::limit(&mut draw);
        let words = draw::words(&mut draw, variables);
        let full = simple::write_text(variables, &words, &mut [0; 1000]).unwrap_or(60);
        let room = full + draw.pick(&[0, 1, 1, 9]) - 1;
        let got = same(
            room,
            b'~',
            &[&|out| write_text(variables, &words, out), &|out| {
                usual::write_text(variables, &words, out)
            }],
            |out| simple::write_text(variables, &words, out),
        );
        seen[number(got)] += 1;
    }
    assert!([0, 7, 14, 15, 16].iter().all(|&k| seen[k] > 40), "{seen:?}");
}

#[test]
fn texts_in() {
    let mut draw = Draw(0x9999_5678_9ABC_DEF1);
    let mut seen = [0; 20];
    for _ in 0..10_000 {
        let mut text = draw::text(&mut draw);
        for _ in 0..draw.pick(&[0, 0, 1, 1, 2]) {
            draw::maim_text(&mut draw, &mut text);
        }
        let full = simple::read_text(&text, &mut [0; 1000]).map_or(30, |t| t.words);
        let room = (full + draw.pick(&[0, 1, 1, 6])).saturating_sub(1);
        let got = same(
            room,
            -7,
            &[&|out| read_text(&text, out), &|out| {
                usual::read_text(&text, out)
            }],
            |out| simple::read_text(&text, out),
        );
        seen[number(got)] += 1;
    }
    let numbers = [0, 7, 14, 15, 16, 17, 18, 19];
    assert!(numbers.iter().all(|&k| seen[k] > 40), "{seen:?}");
}

#[test]
fn long_lists_of_long_words() {
    let words: Vec<i32> = (0..20_001)
        .map(|k| match k % 3 {
            0 => -1_000_000,
            1 => -999_999 + k,
            _ => 0,
        })
        .chain([0])
        .collect();
    let mut wanted = vec![b'~'; 200_000];
    let length = simple::write_text(1_000_000, &words, &mut wanted).unwrap();
    long(&words, &wanted, length, write_text, read_text);
    long(&words, &wanted, length, usual::write_text, usual::read_text);
}

/// Writes a word list as the text wanted, and reads it back, whole and broken.
fn long(
    words: &[i32],
    wanted: &[u8],
    length: usize,
    write_text: impl Fn(u32, &[i32], &mut [u8]) -> Answer<usize>,
    read_text: impl Fn(&[u8], &mut [i32]) -> Answer<Tally>,
) {
    let mut text = vec![b'~'; wanted.len()];
    assert_eq!(write_text(1_000_000, words, &mut text), Ok(length));
    assert!(text == wanted);
    let mut back = vec![0; words.len()];
    let read = read_text(&text[..length], &mut back);
    assert_eq!(read.map(|t| t.words), Ok(words.len()));
    assert!(back == words);
    text[length - 5] = b'x';
    assert_eq!(number(read_text(&text[..length], &mut back)), 18);
}
