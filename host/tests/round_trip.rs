//! Diagrams through their text: encode, write and read give the same words, clauses and V.

use crate::common::diagrams::{largest, sound, OwnedDiagram};
use crate::common::driver::run_seed;
use crate::common::numbers::{seed_of, Rng};
use binnaclebox::{encode, read_text, write_text, Refusal};

const DIAGRAMS: u64 = 20_000;

#[test]
fn of_many_diagrams() {
    let run_seed = run_seed();
    for index in 0..DIAGRAMS {
        let seed = seed_of(run_seed, "round_trip", index);
        round_trip(
            &sound(&mut Rng::new(seed)),
            &format!("run seed {run_seed}, diagram {index}"),
        );
    }
}

#[test]
fn of_the_largest() {
    round_trip(
        &largest(&mut Rng::new(run_seed())),
        "a diagram of 4,096 nodes",
    );
}

/// Encodes, writes and reads one diagram with exactly the room that each step asks for.
fn round_trip(diagram: &OwnedDiagram, which: &str) {
    let (words, encoded) = with_room(0, |out| encode(&diagram.lib(), out));
    assert_eq!(words.len(), encoded.words, "{which}");
    let (text, bytes) = with_room(0, |out| write_text(encoded.variables, &words, out));
    assert_eq!(text.len(), bytes, "{which}");
    let (again, read) = with_room(0, |out| read_text(&text, out));
    assert_eq!(read, encoded, "{which}");
    assert!(
        again == words,
        "{which}: the words read differ from those written"
    );
}

/// Asks how much room a call needs, then makes it with that room.
fn with_room<T: Clone, A: std::fmt::Debug>(
    blank: T,
    mut call: impl FnMut(&mut [T]) -> Result<A, Refusal>,
) -> (Vec<T>, A) {
    let refusal = call(&mut []).expect_err("a call without room");
    assert_eq!(refusal.number, 7);
    let mut out = vec![blank; refusal.place];
    let answer = call(&mut out).expect("a call with the room it asked for");
    (out, answer)
}
