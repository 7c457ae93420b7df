//! `judge`: builds that are allowed or not, of wrong length, with values outside their domains.

use crate::common::diagrams::{broken, sound, OwnedDiagram};
use crate::common::driver::{run, said, Entry, Said};
use crate::common::numbers::Rng;
use binnaclebox::raw;

struct Judge;

impl Entry for Judge {
    const NAME: &'static str = "judge";
    const RESULTS: &'static [&'static str] = &["not allowed", "allowed"];
    const AT_ZERO: &'static [u32] = &[1, 2, 3, 4, 5, 6, 8, 9];
    const LATER: &'static [u32] = &[2, 4, 6, 9];
    const FILLS: bool = false;
    type Lent = (OwnedDiagram, Vec<u32>);
    type Out = u8;

    fn draw(rng: &mut Rng) -> Self::Lent {
        if rng.once_in(3) {
            let build = (0..rng.below(6)).map(|_| rng.below(5) as u32).collect();
            return (broken(rng), build);
        }
        let diagram = sound(rng);
        let mut build = diagram.any_build(rng);
        if rng.once_in(2) {
            build = diagram.allowed_build(rng).unwrap_or(build);
        }
        for _ in 0..rng.pick(&[0, 0, 1, 1, 2]) {
            spoil(rng, &diagram, &mut build);
        }
        (diagram, build)
    }

    fn plain((diagram, build): &Self::Lent, _: &mut [u8]) -> Said {
        said(plain::judge(&diagram.plain(), build))
    }

    fn safe((diagram, build): &Self::Lent, _: &mut [u8]) -> Said {
        said(binnaclebox::judge(&diagram.lib(), build))
    }

    fn raw((diagram, build): &Self::Lent, _: &mut [u8], answer: &mut [u64]) {
        raw::judge(&diagram.lib(), build, answer)
    }

    fn result(results: &[u64; 4]) -> usize {
        results[0] as usize
    }
}

/// Another value, one outside its domain, or another length.
fn spoil(rng: &mut Rng, diagram: &OwnedDiagram, build: &mut Vec<u32>) {
    let options = diagram.domains.len();
    let place = rng.place(options);
    let domain = diagram.domains[place];
    let outside = rng.pick(&[domain, domain + 1, 1 << 31, u32::MAX]);
    match rng.below(3) {
        0 if place < build.len() => build[place] = rng.below(domain as usize) as u32,
        1 if place < build.len() => build[place] = outside,
        _ => build.resize(rng.pick(&[0, options - 1, options + 1, 2 * options]), 0),
    }
}

#[test]
fn cases() {
    run::<Judge>();
}
