//! A lent buffer that stands inside a larger one: random former content, canaries on both sides.

use super::numbers::Rng;
use std::fmt::Debug;

/// How many elements stand on each side of the lent part.
const CANARIES: usize = 8;

/// An element of a lent buffer.
pub trait Element: Copy + PartialEq + Debug + Default {
    fn from_bits(bits: u64) -> Self;
}

macro_rules! elements {
    ($($kind:ty),*) => {
        $(impl Element for $kind {
            fn from_bits(bits: u64) -> Self {
                bits as $kind
            }
        })*
    };
}
elements!(u8, i32, u32, u64);

pub struct Guarded<T> {
    former: Vec<T>,
    now: Vec<T>,
}

impl<T: Element> Guarded<T> {
    /// A buffer of which `room` elements will be lent.
    pub fn new(rng: &mut Rng, room: usize) -> Self {
        let former: Vec<T> = (0..room + 2 * CANARIES)
            .map(|_| T::from_bits(rng.next()))
            .collect();
        Guarded {
            now: former.clone(),
            former,
        }
    }

    pub fn lent(&mut self) -> &mut [T] {
        let end = self.now.len() - CANARIES;
        &mut self.now[CANARIES..end]
    }

    /// Asserts that the lent part begins with `front`, and that nothing else has changed.
    pub fn assert_front(&self, front: &[T], whose: &str) {
        let rest = CANARIES + front.len();
        same(
            &self.now[..CANARIES],
            &self.former[..CANARIES],
            whose,
            "elements before the buffer",
        );
        same(
            &self.now[CANARIES..rest],
            front,
            whose,
            "elements of the result",
        );
        same(
            &self.now[rest..],
            &self.former[rest..],
            whose,
            "elements after the result",
        );
    }
}

/// Asserts that two lists are equal, and says where they differ first.
fn same<T: Element>(now: &[T], expected: &[T], whose: &str, which: &str) {
    if let Some(at) = (0..expected.len()).find(|&at| now[at] != expected[at]) {
        panic!(
            "{whose}: {which}: at {at} stands {:?}, expected {:?}",
            now[at], expected[at]
        );
    }
}
