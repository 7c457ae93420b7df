//! The model reader: a solver's literals as a build that the diagram allows.

use crate::diagram::{Diagram, Shape};
use crate::judge::allows;
use crate::{refuse, Refusal};

/// Literals looked at together; only blocks that name a value take more.
const BLOCK: usize = 256;
/// The most value variables that a diagram can have.
pub(crate) const MOST_NAMES: usize = Diagram::MOST_OPTIONS * Diagram::MOST_VALUES as usize;

/// What the model says of a value variable.
pub(crate) const UNNAMED: u8 = 0;
const FALSE: u8 = 1;
const TRUE: u8 = 2;

/// Checks 1 to 7 and 10 to 13, then writes the build and gives its length.
pub fn read_model(d: &Diagram, literals: &[i32], out: &mut [u32]) -> Result<usize, Refusal> {
    let shape = Shape::of(d)?;
    let n = d.domains.len();
    let Some(room) = out.get_mut(..n) else {
        return refuse(7, n);
    };
    let variables = shape.values + (d.layers.len() + 2 + shape.edge_count) as u32;
    let mut said = [UNNAMED; MOST_NAMES];
    read_values(literals, variables, &mut said[..shape.values as usize])?;
    let build = &choose(d.domains, &said)?[..n];
    if !allows(d, &shape, build) {
        return refuse(13, 0);
    }
    room.copy_from_slice(build);
    Ok(n)
}

/// Checks 10 and 11, and notes what the model says of each value variable.
/// Per block, the highest and the lowest variable tell whether all are in
/// range, and whether any is a value variable.
fn read_values(literals: &[i32], variables: u32, said: &mut [u8]) -> Result<(), Refusal> {
    let mut twice = None;
    for (number, block) in literals.chunks(BLOCK).enumerate() {
        let (mut high, mut low) = (0, u32::MAX);
        for literal in block {
            high = high.max(literal.unsigned_abs());
            low = low.min(literal.unsigned_abs());
        }
        if high > variables || low == 0 {
            let fits = |l: &i32| (1..=variables).contains(&l.unsigned_abs());
            let at = block.iter().position(|l| !fits(l)).unwrap_or(0);
            return refuse(10, number * BLOCK + at);
        }
        if low as usize <= said.len() && twice.is_none() {
            twice = note(block, said).map(|at| number * BLOCK + at);
        }
    }
    match twice {
        Some(place) => refuse(11, place),
        None => Ok(()),
    }
}

/// Notes a block's value variables; gives the first that was noted before.
pub(crate) fn note(block: &[i32], said: &mut [u8]) -> Option<usize> {
    for (at, &literal) in block.iter().enumerate() {
        let name = literal.unsigned_abs() as usize - 1;
        let Some(slot) = said.get_mut(name) else {
            continue;
        };
        if *slot != UNNAMED {
            return Some(at);
        }
        *slot = if literal > 0 { TRUE } else { FALSE };
    }
    None
}

/// Check 12, and the one true value of each option.
pub(crate) fn choose(domains: &[u32], said: &[u8; MOST_NAMES]) -> Result<[u32; 64], Refusal> {
    let mut build = [0; Diagram::MOST_OPTIONS];
    let mut first = 0;
    for (option, &size) in domains.iter().enumerate() {
        let values = &said[first..first + size as usize];
        let (mut count, mut sum) = (0u8, 0u8);
        for (value, &word) in (0u8..).zip(values) {
            count += u8::from(word == TRUE);
            sum = sum.wrapping_add(if word == TRUE { value } else { 0 });
        }
        if count != 1 {
            return refuse(12, option);
        }
        build[option] = u32::from(sum);
        first += size as usize;
    }
    Ok(build)
}
