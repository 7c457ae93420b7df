//! Word lists for clause text: encoded diagrams and random lists, all closed and within their V.

use super::diagrams::{small, sound, OwnedDiagram};
use super::numbers::Rng;

/// The highest V of clause text.
pub const VARIABLES: usize = 1_000_000;
/// The most clauses of clause text.
pub const CLAUSES: usize = 4_000_000;

/// V and a list that may be written.
pub fn writable(rng: &mut Rng) -> (u32, Vec<i32>) {
    match rng.below(1_000) {
        0 => encoded(&sound(rng)),
        1..=200 => encoded(&small(rng)),
        201..=205 => random(rng, 20_000),
        _ => random(rng, 30),
    }
}

/// V and the words of a sound diagram.
pub fn encoded(diagram: &OwnedDiagram) -> (u32, Vec<i32>) {
    let needed = plain::encode(&diagram.plain(), &mut [])
        .expect_err("a diagram has words")
        .place;
    let mut words = vec![0; needed];
    let tally = plain::encode(&diagram.plain(), &mut words)
        .expect("a sound diagram with room for its words");
    (tally.variables, words)
}

/// V and a random list of fewer than `longest` words and a closing 0.
fn random(rng: &mut Rng, longest: usize) -> (u32, Vec<i32>) {
    let any = rng.below(VARIABLES + 1);
    let (most, one_less) = (VARIABLES, VARIABLES - 1);
    let v = rng.pick(&[0, 1, 2, 9, 10, 99, 100, 1_000, any, one_less, most]);
    let length = rng.below(longest);
    let one_zero_in = rng.pick(&[1, 2, 4, 30]);
    let mut words: Vec<i32> = (0..length)
        .map(|_| {
            if v == 0 || rng.once_in(one_zero_in) {
                0
            } else {
                literal(rng, v)
            }
        })
        .collect();
    if length > 0 {
        words.push(0);
    }
    (v as u32, words)
}

/// A literal of a variable up to `v`: often at a power of ten, where a decimal grows longer.
fn literal(rng: &mut Rng, v: usize) -> i32 {
    let power = 10_usize.pow(rng.below(7) as u32);
    let any = rng.within(1, v);
    let variable = rng.pick(&[1, v, power, power - 1, any, any]).clamp(1, v);
    variable as i32 * rng.pick(&[-1, 1])
}
