//! The judge: whether a diagram allows a build.

use crate::diagram::{Diagram, Shape};
use crate::{refuse, Refusal};

/// Checks 1 to 6, 8 and 9, then follows the build from the root.
pub fn judge(d: &Diagram, build: &[u32]) -> Result<bool, Refusal> {
    let shape = Shape::of(d)?;
    if build.len() != d.domains.len() {
        return refuse(8, 0);
    }
    let mut pairs = build.iter().zip(d.domains);
    if let Some(place) = pairs.position(|(value, size)| value >= size) {
        return refuse(9, place);
    }
    Ok(allows(d, &shape, build))
}

/// Whether the root of a sound diagram allows a build within the domains.
pub(crate) fn allows(d: &Diagram, shape: &Shape, build: &[u32]) -> bool {
    let mut node = 0;
    for (i, (&value, &size)) in build.iter().zip(d.domains).enumerate() {
        let edge = shape.edges[i] + (node - shape.nodes[i]) * size + value;
        let target = d.targets[edge as usize];
        if target < 2 {
            return target == 1;
        }
        node = target - 2;
    }
    false
}
