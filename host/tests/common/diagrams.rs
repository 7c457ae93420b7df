//! Diagrams: sound ones of many shapes, ones broken at each rule, and what a sound one says,
//! straight from its definition.

use super::numbers::Rng;

const OPTIONS: usize = 64;
const DOMAIN: usize = 32;
const NODES: usize = 4_096;

#[derive(Clone, Debug, Default)]
pub struct OwnedDiagram {
    pub domains: Vec<u32>,
    pub layers: Vec<u32>,
    pub targets: Vec<u32>,
}

impl OwnedDiagram {
    pub fn lib(&self) -> binnaclebox::Diagram<'_> {
        binnaclebox::Diagram {
            domains: &self.domains,
            layers: &self.layers,
            targets: &self.targets,
        }
    }

    pub fn plain(&self) -> plain::Diagram<'_> {
        plain::Diagram {
            domains: &self.domains,
            layers: &self.layers,
            targets: &self.targets,
        }
    }
}

/// A sound diagram: mostly small, now and then near the limits.
pub fn sound(rng: &mut Rng) -> OwnedDiagram {
    match rng.below(4_000) {
        0 => largest(rng),
        1..=80 => middling(rng),
        _ => small(rng),
    }
}

pub fn small(rng: &mut Rng) -> OwnedDiagram {
    let options = rng.within(1, 5);
    let widest = rng.pick(&[1, 2, 2, 3, 4]);
    let domain = rng.pick(&[2, 2, 3, 4, 6]);
    of_shape(rng, options, domain, |rng| {
        if rng.once_in(20) {
            0
        } else {
            rng.within(1, widest)
        }
    })
}

fn middling(rng: &mut Rng) -> OwnedDiagram {
    let many = rng.within(6, OPTIONS);
    let options = rng.pick(&[many, OPTIONS - 1, OPTIONS]);
    let widest = rng.within(1, 4);
    let domain = rng.pick(&[1, 2, 8, DOMAIN]);
    of_shape(rng, options, domain, |rng| rng.within(1, widest))
}

/// 4,096 nodes; with the widest domains also the most edges, 131,072.
pub fn largest(rng: &mut Rng) -> OwnedDiagram {
    let options = rng.pick(&[2, 3, 40, OPTIONS, OPTIONS]);
    let domains = (0..options).map(|_| DOMAIN as u32).collect();
    let mut widths = vec![1; options];
    for _ in options..NODES {
        widths[rng.within(1, options - 1)] += 1;
    }
    filled(rng, domains, &widths, 8)
}

/// A diagram whose domains go up to `domain`, with `width` nodes in each layer but the root's.
fn of_shape(
    rng: &mut Rng,
    options: usize,
    domain: usize,
    width: impl Fn(&mut Rng) -> usize,
) -> OwnedDiagram {
    let domains = (0..options).map(|_| rng.within(1, domain) as u32).collect();
    let mut widths = vec![1];
    widths.extend((1..options).map(|_| width(rng)));
    let one_false_in = rng.pick(&[1, 2, 3, 4, 8, 1_000]);
    filled(rng, domains, &widths, one_false_in)
}

/// A diagram of these widths with random edges, of which one in `one_false_in` leads to F of its
/// own accord.
fn filled(rng: &mut Rng, domains: Vec<u32>, widths: &[usize], one_false_in: usize) -> OwnedDiagram {
    let mut diagram = OwnedDiagram {
        domains,
        ..Default::default()
    };
    let mut next_layer = 2;
    for (option, &width) in widths.iter().enumerate() {
        next_layer += width;
        diagram.layers.extend(vec![option as u32 + 1; width]);
        let permitted = match widths.get(option + 1) {
            Some(&following) => next_layer..next_layer + following,
            None => 1..2,
        };
        for _ in 0..width * diagram.domains[option] as usize {
            let to_false = permitted.is_empty() || rng.once_in(one_false_in);
            let target = if to_false {
                0
            } else {
                rng.within(permitted.start, permitted.end - 1)
            };
            diagram.targets.push(target as u32);
        }
    }
    diagram
}

/// A diagram with one to three faults, each at one of the six rules.
pub fn broken(rng: &mut Rng) -> OwnedDiagram {
    const FAULTS: [fn(&mut Rng, &mut OwnedDiagram); 6] = [
        break_options,
        break_domain,
        break_nodes,
        break_layer,
        break_target_count,
        break_target,
    ];
    let mut diagram = sound(rng);
    for _ in 0..rng.pick(&[1, 1, 1, 2, 3]) {
        let fault = rng.pick(&FAULTS);
        fault(rng, &mut diagram);
    }
    diagram
}

fn break_options(rng: &mut Rng, diagram: &mut OwnedDiagram) {
    let many = rng.within(OPTIONS + 1, OPTIONS + 200);
    let options = diagram.domains.len();
    let count = rng.pick(&[
        0,
        options.saturating_sub(1),
        options + 1,
        OPTIONS + 1,
        OPTIONS + 1,
        many,
    ]);
    diagram.domains.resize(count, 2);
}

fn break_domain(rng: &mut Rng, diagram: &mut OwnedDiagram) {
    if diagram.domains.is_empty() {
        return;
    }
    let place = rng.place(diagram.domains.len());
    let permitted = rng.within(1, DOMAIN) as u32;
    let any = rng.next() as u32;
    diagram.domains[place] = rng.pick(&[0, 0, 33, 34, 1 << 31, u32::MAX, any, permitted]);
}

fn break_nodes(rng: &mut Rng, diagram: &mut OwnedDiagram) {
    let last = diagram.layers.last().copied().unwrap_or(1);
    let nodes = diagram.layers.len();
    let count = rng.pick(&[
        0,
        0,
        nodes.saturating_sub(1),
        nodes + 1,
        NODES + 1,
        NODES + 2,
    ]);
    diagram.layers.resize(count, last);
}

fn break_layer(rng: &mut Rng, diagram: &mut OwnedDiagram) {
    if diagram.layers.is_empty() {
        return;
    }
    let place = rng.place(diagram.layers.len());
    let other = rng.place(diagram.layers.len());
    let options = diagram.domains.len() as u32;
    let lower = diagram.layers[other].wrapping_sub(1);
    let any = rng.next() as u32;
    match rng.below(4) {
        0 => diagram.layers.swap(place, other),
        _ => {
            diagram.layers[place] = rng.pick(&[0, 1, 2, options, options + 1, lower, u32::MAX, any])
        }
    }
}

fn break_target_count(rng: &mut Rng, diagram: &mut OwnedDiagram) {
    let count = diagram.targets.len();
    let fewer = rng.below(count + 1);
    let length = rng.pick(&[0, fewer, count.saturating_sub(1), count + 1, 2 * count + 1]);
    diagram.targets.resize(length, 0);
}

fn break_target(rng: &mut Rng, diagram: &mut OwnedDiagram) {
    if diagram.targets.is_empty() {
        return;
    }
    let place = rng.place(diagram.targets.len());
    let end = diagram.layers.len() as u32 + 2;
    let near = rng.below(end as usize + 2) as u32;
    let any = rng.next() as u32;
    diagram.targets[place] = rng.pick(&[
        0,
        1,
        2,
        near,
        near,
        near,
        end - 1,
        end,
        end + 1,
        u32::MAX,
        any,
    ]);
}

/// What follows holds of sound diagrams alone.
impl OwnedDiagram {
    /// For each node, where its targets begin; then E.
    fn starts(&self) -> Vec<usize> {
        let mut starts = vec![0];
        for &layer in &self.layers {
            starts.push(starts[starts.len() - 1] + self.domains[layer as usize - 1] as usize);
        }
        starts
    }

    /// The number of value variables, D.
    pub fn values(&self) -> usize {
        self.domains.iter().map(|&domain| domain as usize).sum()
    }

    /// V.
    pub fn variables(&self) -> usize {
        self.values() + self.layers.len() + 2 + self.targets.len()
    }

    /// The variable of each option's value 0.
    fn first_values(&self) -> Vec<i32> {
        let firsts = self.domains.iter().scan(1, |next, &domain| {
            *next += domain as i32;
            Some(*next - domain as i32)
        });
        firsts.collect()
    }

    /// A build as the value variables it makes true.
    pub fn true_values(&self, build: &[u32]) -> Vec<i32> {
        self.first_values()
            .iter()
            .zip(build)
            .map(|(first, &value)| first + value as i32)
            .collect()
    }

    /// A build as the literals of all value variables, in order.
    pub fn value_literals(&self, build: &[u32]) -> Vec<i32> {
        let true_values = self.true_values(build);
        (1..=self.values() as i32)
            .map(|x| if true_values.contains(&x) { x } else { -x })
            .collect()
    }

    /// Whether the diagram allows a build: from the root, the edge of each option's value leads to
    /// T in the end.
    pub fn allows(&self, build: &[u32]) -> bool {
        let starts = self.starts();
        let mut reference = 2;
        while reference >= 2 {
            let node = reference - 2;
            let value = build[self.layers[node] as usize - 1] as usize;
            reference = self.targets[starts[node] + value] as usize;
        }
        reference == 1
    }

    /// For each reference, whether `node_holds` says so of its targets' flags; F is false and T is
    /// true.
    fn flags(&self, node_holds: impl Fn(usize, &[bool]) -> bool) -> Vec<bool> {
        let starts = self.starts();
        let mut flags = vec![false; self.layers.len() + 2];
        flags[1] = true;
        for node in (0..self.layers.len()).rev() {
            let targets = &self.targets[starts[node]..starts[node + 1]];
            let reached: Vec<bool> = targets
                .iter()
                .map(|&target| flags[target as usize])
                .collect();
            flags[node + 2] = node_holds(node, &reached);
        }
        flags
    }

    /// A solver's model for a build: all variables in order, signed as the clauses beyond the
    /// root's ask.
    pub fn model(&self, build: &[u32]) -> Vec<i32> {
        let value = |node: usize| build[self.layers[node] as usize - 1] as usize;
        let flags = self.flags(|node, reached| reached[value(node)]);
        let mut model = self.value_literals(build);
        let edges = (0..self.layers.len()).flat_map(|node| {
            let domain = self.domains[self.layers[node] as usize - 1] as usize;
            (0..domain).map(move |edge| edge == value(node))
        });
        let edges = edges
            .zip(&self.targets)
            .map(|(chosen, &target)| chosen && flags[target as usize]);
        for holds in flags.iter().copied().chain(edges) {
            let variable = model.len() as i32 + 1;
            model.push(if holds { variable } else { -variable });
        }
        model
    }

    /// Some build that is allowed, where there is one.
    pub fn allowed_build(&self, rng: &mut Rng) -> Option<Vec<u32>> {
        let alive = self.flags(|_, reached| reached.contains(&true));
        let starts = self.starts();
        let mut build = Vec::new();
        let mut reference = 2;
        while reference >= 2 && alive[reference] {
            let targets = &self.targets[starts[reference - 2]..starts[reference - 1]];
            let open: Vec<usize> = (0..targets.len())
                .filter(|&value| alive[targets[value] as usize])
                .collect();
            let value = rng.pick(&open);
            build.push(value as u32);
            reference = targets[value] as usize;
        }
        (reference == 1).then_some(build)
    }

    /// Some build, allowed or not.
    pub fn any_build(&self, rng: &mut Rng) -> Vec<u32> {
        self.domains
            .iter()
            .map(|&domain| rng.below(domain as usize) as u32)
            .collect()
    }

    /// All builds, in the order of their values.
    pub fn builds(&self) -> Vec<Vec<u32>> {
        self.domains.iter().fold(vec![vec![]], |builds, &domain| {
            let longer =
                |build: Vec<u32>| (0..domain).map(move |value| [&build[..], &[value]].concat());
            builds.into_iter().flat_map(longer).collect()
        })
    }

    /// All builds that are allowed, in the order of their values.
    pub fn allowed_builds(&self) -> Vec<Vec<u32>> {
        self.builds()
            .into_iter()
            .filter(|build| self.allows(build))
            .collect()
    }
}
