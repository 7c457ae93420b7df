//! The one driver of the generated cases: draws a case, asks `plain`, the safe wrapper and the raw
//! interface, and compares.

use super::buffers::{Element, Guarded};
use super::numbers::{seed_of, Rng};
use binnaclebox::raw::ANSWER;
use std::{collections::BTreeMap, env, fmt::Debug, io, io::Write, thread};

/// How many cases a run draws for each entry point.
const CASES: u64 = 300_000;
/// How often each outcome must come up in a run.
const FLOOR: u64 = 300;
const DEFAULT_SEED: u64 = 20_160_529;

/// What a call says: its four results, or the number and the place of its refusal.
pub type Said = Result<[u64; 4], (u32, usize)>;

/// An entry point of the library as the driver sees it.
pub trait Entry {
    /// Its name, which is also that of its test module.
    const NAME: &'static str;
    /// The names of its results in the count of outcomes.
    const RESULTS: &'static [&'static str] = &["result"];
    /// The refusals that it gives with place 0, and those that it gives with a later place.
    const AT_ZERO: &'static [u32];
    const LATER: &'static [u32];
    /// Whether it lends a result buffer, whose filled length is the first result.
    const FILLS: bool;
    /// What it is lent to read.
    type Lent: Debug;
    /// The element of its result buffer; `u8` where it has none.
    type Out: Element;

    fn draw(rng: &mut Rng) -> Self::Lent;
    fn plain(lent: &Self::Lent, out: &mut [Self::Out]) -> Said;
    fn safe(lent: &Self::Lent, out: &mut [Self::Out]) -> Said;
    fn raw(lent: &Self::Lent, out: &mut [Self::Out], answer: &mut [u64]);

    /// Which of `RESULTS` a result is.
    fn result(_results: &[u64; 4]) -> usize {
        0
    }
}

/// Runs an entry point's cases, or the one that `BINNACLEBOX_CASE` names.
pub fn run<E: Entry>() {
    if let Some(seed) = number_of("BINNACLEBOX_CASE") {
        println!("{} on {:?}", E::NAME, E::draw(&mut Rng::new(seed)));
        println!("says {:?}", case::<E>(seed));
        return;
    }
    let run_seed = run_seed();
    let mut counts: Counts = outcomes::<E>()
        .into_iter()
        .map(|outcome| (outcome, 0))
        .collect();
    for index in 0..CASES {
        let said = case::<E>(seed_of(run_seed, E::NAME, index));
        *counts.entry(outcome::<E>(&said)).or_insert(0) += 1;
    }
    println!("{}, run seed {run_seed}: {counts:?}", E::NAME);
    assert_covered::<E>(&counts);
}

/// The seed of the whole run.
pub fn run_seed() -> u64 {
    number_of("BINNACLEBOX_SEED").unwrap_or(DEFAULT_SEED)
}

/// Says something that is shown although the test passes.
pub fn say(what: &str) {
    // Where standard error is closed, nobody is told.
    let _ = writeln!(io::stderr(), "{what}");
}

fn number_of(variable: &str) -> Option<u64> {
    let value = env::var(variable).ok()?;
    Some(
        value
            .parse()
            .unwrap_or_else(|_| panic!("{variable} is not a number: {value}")),
    )
}

/// An outcome in the count: 0 and a result's name, or a refusal's number and whether its place is
/// 0.
type Outcome = (u32, &'static str);
type Counts = BTreeMap<Outcome, u64>;

const AT_ZERO: &str = "at 0";
const LATER: &str = "later";

fn outcome<E: Entry>(said: &Said) -> Outcome {
    match *said {
        Ok(results) => (0, E::RESULTS[E::result(&results)]),
        Err((number, 0)) => (number, AT_ZERO),
        Err((number, _)) => (number, LATER),
    }
}

/// All outcomes that an entry point has.
fn outcomes<E: Entry>() -> Vec<Outcome> {
    let results = E::RESULTS.iter().map(|&name| (0, name));
    let at_zero = E::AT_ZERO.iter().map(|&number| (number, AT_ZERO));
    let later = E::LATER.iter().map(|&number| (number, LATER));
    results.chain(at_zero).chain(later).collect()
}

/// Guards the generator: all outcomes of the entry point came up often, and no other one did.
fn assert_covered<E: Entry>(counts: &Counts) {
    let expected = outcomes::<E>();
    for (outcome, &count) in counts {
        assert!(
            expected.contains(outcome),
            "{}: it must not give {outcome:?}",
            E::NAME
        );
        assert!(
            count >= FLOOR,
            "{}: {outcome:?} came up {count} times, under {FLOOR}",
            E::NAME
        );
    }
}

/// Says, when a case fails, which one it was and how it is run again.
struct Replay {
    entry: &'static str,
    seed: u64,
}

impl Drop for Replay {
    fn drop(&mut self) {
        if thread::panicking() {
            let Replay { entry, seed } = self;
            eprintln!("entry point {entry}, case seed {seed} failed; to run that case again:");
            eprintln!(
                "BINNACLEBOX_CASE={seed} cargo test --release --offline --test suite \
                 {entry}::cases -- --exact --nocapture"
            );
        }
    }
}

/// Draws the case of that seed, and compares all three ways to call the entry point.
fn case<E: Entry>(seed: u64) -> Said {
    let _replay = Replay {
        entry: E::NAME,
        seed,
    };
    let mut rng = Rng::new(seed);
    let lent = E::draw(&mut rng);
    let room = if E::FILLS {
        draw_room::<E>(&lent, &mut rng)
    } else {
        0
    };
    let mut front = vec![E::Out::default(); room];
    let said = E::plain(&lent, &mut front);
    let filled = if E::FILLS {
        said.map_or(0, |results| results[0] as usize)
    } else {
        0
    };
    front.truncate(filled);

    compare_safe::<E>(&lent, room, &said, &front, &mut rng);
    compare_raw::<E>(&lent, room, &said, &front, &mut rng);
    compare_short_answer::<E>(&lent, room, &mut rng);
    said
}

/// A length for the result buffer: about the length that `plain` needs.
fn draw_room<E: Entry>(lent: &E::Lent, rng: &mut Rng) -> usize {
    let needed = match E::plain(lent, &mut []) {
        Err((7, needed)) => needed,
        _ => rng.below(20),
    };
    match rng.below(20) {
        0 => 0,
        1 | 2 => needed.saturating_sub(1),
        3 => rng.below(needed + 1),
        4..=10 => needed + rng.within(1, 20),
        _ => needed,
    }
}

fn compare_safe<E: Entry>(
    lent: &E::Lent,
    room: usize,
    said: &Said,
    front: &[E::Out],
    rng: &mut Rng,
) {
    let mut out = Guarded::new(rng, room);
    assert_eq!(
        &E::safe(lent, out.lent()),
        said,
        "{}: the wrapper (left) differs from plain (right)",
        E::NAME
    );
    out.assert_front(front, "the wrapper's buffer");
}

/// An answer of six entries or more: those six are written, and the later ones kept.
fn compare_raw<E: Entry>(
    lent: &E::Lent,
    room: usize,
    said: &Said,
    front: &[E::Out],
    rng: &mut Rng,
) {
    let longer = rng.pick(&[0, 1, 2, 10]);
    let mut out = Guarded::new(rng, room);
    let mut answer = Guarded::new(rng, ANSWER + longer);
    E::raw(lent, out.lent(), answer.lent());
    answer.assert_front(&entries(said), "the raw answer");
    out.assert_front(front, "the raw buffer");
}

/// An answer of fewer than six entries: nothing is written anywhere.
fn compare_short_answer<E: Entry>(lent: &E::Lent, room: usize, rng: &mut Rng) {
    let mut out = Guarded::new(rng, room);
    let short = rng.below(ANSWER);
    let mut answer = Guarded::new(rng, short);
    E::raw(lent, out.lent(), answer.lent());
    answer.assert_front(&[], "an answer too short");
    out.assert_front(&[], "the buffer beside an answer too short");
}

/// The entries of an answer that says this.
fn entries(said: &Said) -> [u64; ANSWER] {
    match *said {
        Ok([a, b, c, d]) => [0, 0, a, b, c, d],
        Err((number, place)) => [u64::from(number), place as u64, 0, 0, 0, 0],
    }
}

/// What the wrapper or `plain` said, in the driver's form.
pub fn said<A: Results>(answer: Result<A, impl Into<Refused>>) -> Said {
    answer
        .map(Results::results)
        .map_err(|refusal| refusal.into().0)
}

/// A refusal's number and place.
pub struct Refused((u32, usize));

impl From<binnaclebox::Refusal> for Refused {
    fn from(refusal: binnaclebox::Refusal) -> Self {
        Refused((refusal.number, refusal.place))
    }
}

impl From<plain::Refusal> for Refused {
    fn from(refusal: plain::Refusal) -> Self {
        Refused((refusal.number, refusal.place))
    }
}

/// A result as four entries.
pub trait Results {
    fn results(self) -> [u64; 4];
}

impl Results for () {
    fn results(self) -> [u64; 4] {
        [0; 4]
    }
}

impl Results for bool {
    fn results(self) -> [u64; 4] {
        [u64::from(self), 0, 0, 0]
    }
}

impl Results for usize {
    fn results(self) -> [u64; 4] {
        [self as u64, 0, 0, 0]
    }
}

impl Results for binnaclebox::Encoded {
    fn results(self) -> [u64; 4] {
        [
            self.words as u64,
            u64::from(self.clauses),
            u64::from(self.variables),
            0,
        ]
    }
}

impl Results for plain::Tally {
    fn results(self) -> [u64; 4] {
        [
            self.words as u64,
            u64::from(self.clauses),
            u64::from(self.variables),
            0,
        ]
    }
}
