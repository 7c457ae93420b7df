//! `encode`: sound diagrams and broken ones, with buffers of every length.

use crate::common::diagrams::{broken, sound, OwnedDiagram};
use crate::common::driver::{run, said, Entry, Said};
use crate::common::numbers::Rng;
use binnaclebox::raw;

struct Encode;

impl Entry for Encode {
    const NAME: &'static str = "encode";
    const AT_ZERO: &'static [u32] = &[1, 2, 3, 4, 5, 6];
    const LATER: &'static [u32] = &[2, 4, 6, 7];
    const FILLS: bool = true;
    type Lent = OwnedDiagram;
    type Out = i32;

    fn draw(rng: &mut Rng) -> OwnedDiagram {
        if rng.once_in(3) {
            broken(rng)
        } else {
            sound(rng)
        }
    }

    fn plain(diagram: &OwnedDiagram, out: &mut [i32]) -> Said {
        said(plain::encode(&diagram.plain(), out))
    }

    fn safe(diagram: &OwnedDiagram, out: &mut [i32]) -> Said {
        said(binnaclebox::encode(&diagram.lib(), out))
    }

    fn raw(diagram: &OwnedDiagram, out: &mut [i32], answer: &mut [u64]) {
        raw::encode(&diagram.lib(), out, answer)
    }
}

#[test]
fn cases() {
    run::<Encode>();
}
