//! `check`: sound diagrams and broken ones.

use crate::common::diagrams::{broken, sound, OwnedDiagram};
use crate::common::driver::{run, said, Entry, Said};
use crate::common::numbers::Rng;
use binnaclebox::raw;

struct Check;

impl Entry for Check {
    const NAME: &'static str = "check";
    const AT_ZERO: &'static [u32] = &[1, 2, 3, 4, 5, 6];
    const LATER: &'static [u32] = &[2, 4, 6];
    const FILLS: bool = false;
    type Lent = OwnedDiagram;
    type Out = u8;

    fn draw(rng: &mut Rng) -> OwnedDiagram {
        if rng.once_in(5) {
            sound(rng)
        } else {
            broken(rng)
        }
    }

    fn plain(diagram: &OwnedDiagram, _: &mut [u8]) -> Said {
        said(plain::check(&diagram.plain()))
    }

    fn safe(diagram: &OwnedDiagram, _: &mut [u8]) -> Said {
        said(binnaclebox::check(&diagram.lib()))
    }

    fn raw(diagram: &OwnedDiagram, _: &mut [u8], answer: &mut [u64]) {
        raw::check(&diagram.lib(), answer)
    }
}

#[test]
fn cases() {
    run::<Check>();
}
