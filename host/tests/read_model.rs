//! `read_model`: models as solvers print them, in part, in disorder, with faults at each rule, and
//! long nonsense.

use crate::common::diagrams::{broken, sound, OwnedDiagram};
use crate::common::driver::{run, said, Entry, Said};
use crate::common::numbers::Rng;
use binnaclebox::raw;

struct ReadModel;

impl Entry for ReadModel {
    const NAME: &'static str = "read_model";
    const AT_ZERO: &'static [u32] = &[1, 2, 3, 4, 5, 6, 10, 12, 13];
    const LATER: &'static [u32] = &[2, 4, 6, 7, 10, 11, 12];
    const FILLS: bool = true;
    type Lent = (OwnedDiagram, Vec<i32>);
    type Out = u32;

    fn draw(rng: &mut Rng) -> Self::Lent {
        if rng.once_in(4) {
            let length = rng.below(12);
            return (broken(rng), nonsense(rng, 20, length));
        }
        let diagram = sound(rng);
        let mut model = draw_model(rng, &diagram);
        for _ in 0..rng.pick(&[0, 0, 0, 1, 1, 2]) {
            spoil(rng, &diagram, &mut model);
        }
        (diagram, model)
    }

    fn plain((diagram, model): &Self::Lent, out: &mut [u32]) -> Said {
        said(plain::read_model(&diagram.plain(), model, out))
    }

    fn safe((diagram, model): &Self::Lent, out: &mut [u32]) -> Said {
        said(binnaclebox::read_model(&diagram.lib(), model, out))
    }

    fn raw((diagram, model): &Self::Lent, out: &mut [u32], answer: &mut [u64]) {
        raw::read_model(&diagram.lib(), model, out, answer)
    }
}

/// A model of a build, often an allowed one: in full, its value variables or its true ones; or
/// none, or nonsense.
fn draw_model(rng: &mut Rng, diagram: &OwnedDiagram) -> Vec<i32> {
    let mut build = diagram.any_build(rng);
    if !rng.once_in(4) {
        build = diagram.allowed_build(rng).unwrap_or(build);
    }
    match rng.below(16) {
        0 => Vec::new(),
        1 => {
            let length = rng.pick(&[1, 3, 10, 300]);
            nonsense(rng, diagram.variables(), length)
        }
        2..=4 => diagram.value_literals(&build),
        5..=7 => diagram.true_values(&build),
        _ => diagram.model(&build),
    }
}

/// Literals of variables up to `highest`, without order.
fn nonsense(rng: &mut Rng, highest: usize, length: usize) -> Vec<i32> {
    (0..length)
        .map(|_| rng.within(1, highest) as i32 * rng.pick(&[-1, 1]))
        .collect()
}

/// Changes the order, a sign, a literal or the length.
fn spoil(rng: &mut Rng, diagram: &OwnedDiagram, model: &mut Vec<i32>) {
    let beyond = diagram.variables() as i32 + 1;
    let out_of_range = rng.pick(&[
        0,
        beyond,
        -beyond,
        beyond + 1,
        i32::MIN,
        i32::MIN + 1,
        i32::MAX,
    ]);
    let place = rng.place(model.len() + 1);
    let Some(named) = model.get(rng.place(model.len().max(1))).copied() else {
        return model.push(out_of_range);
    };
    let value = rng.place(diagram.values().min(model.len()));
    match rng.below(7) {
        0 => rng.shuffle(model),
        1 => model.insert(place, named),
        2 => model.insert(place, named.wrapping_neg()),
        3 => model.insert(place, out_of_range),
        4 => model[value] = model[value].wrapping_neg(),
        5 => drop(model.remove(value)),
        _ => model.truncate(place),
    }
}

#[test]
fn cases() {
    run::<ReadModel>();
}
