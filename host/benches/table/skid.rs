//! The benchmark's inputs: skids of three sizes, shaped alike, each with an
//! allowed build and the model that a solver would print for it.

/// Values of every option, and so edges of every node.
pub const VALUES: u32 = 32;

/// A diagram and all that the calls are given besides it.
pub struct Skid {
    pub domains: Vec<u32>,
    pub layers: Vec<u32>,
    pub targets: Vec<u32>,
    /// A build that the diagram allows.
    pub build: Vec<u32>,
}

/// Numbers that only look random, the same in every run.
struct Draw(u64);

impl Draw {
    fn below(&mut self, end: u32) -> u32 {
        self.0 ^= self.0 << 13;
        self.0 ^= self.0 >> 7;
        self.0 ^= self.0 << 17;
        ((self.0.wrapping_mul(0x2545_F491_4F6C_DD1D) >> 32) % u64::from(end)) as u32
    }
}

impl Skid {
    /// A root and, for each further option, a layer of about equal size. Half
    /// of the edges end in F, the others in a node of the next layer (or T).
    pub fn draw(options: u32, nodes: u32) -> Skid {
        let mut draw = Draw(0x9E37_79B9_7F4A_7C15);
        let starts = layer_starts(options, nodes);
        let mut skid = Skid {
            domains: vec![VALUES; options as usize],
            layers: Vec::new(),
            targets: Vec::new(),
            build: Vec::new(),
        };
        for layer in 0..options as usize {
            for _ in starts[layer]..starts[layer + 1] {
                skid.layers.push(layer as u32 + 1);
                for _ in 0..VALUES {
                    let ends = draw.below(2) == 0;
                    let on = next(&starts, layer, &mut draw);
                    skid.targets.push(if ends { 0 } else { on });
                }
            }
        }
        skid.steer(&starts, &mut draw);
        skid
    }

    /// Draws a build, and turns the edges on its path so that it is allowed.
    fn steer(&mut self, starts: &[u32], draw: &mut Draw) {
        let mut node = 0;
        for layer in 0..self.domains.len() {
            let value = draw.below(VALUES);
            let target = next(starts, layer, draw);
            self.targets[(node * VALUES + value) as usize] = target;
            self.build.push(value);
            node = target.saturating_sub(2);
        }
    }

    /// One literal a variable, in order: the only setting of the clauses'
    /// variables that has this build.
    pub fn model(&self) -> Vec<i32> {
        let chosen = |option: usize, value: usize| self.build[option] as usize == value;
        let mut references = vec![false; self.layers.len() + 2];
        references[1] = true;
        let mut edges = vec![false; self.targets.len()];
        for node in (0..self.layers.len()).rev() {
            for value in 0..VALUES as usize {
                let edge = node * VALUES as usize + value;
                let holds = references[self.targets[edge] as usize];
                edges[edge] = holds && chosen(self.layers[node] as usize - 1, value);
                references[node + 2] |= edges[edge];
            }
        }
        let options = 0..self.domains.len();
        let values = options.flat_map(|i| (0..VALUES as usize).map(move |j| chosen(i, j)));
        let settings = values.chain(references).chain(edges);
        (1..)
            .zip(settings)
            .map(|(variable, holds)| if holds { variable } else { -variable })
            .collect()
    }
}

/// The first node of each layer, and the end of the last.
fn layer_starts(options: u32, nodes: u32) -> Vec<u32> {
    let further = options - 1;
    let later = (0..=further).map(|layer| 1 + (nodes - 1) * layer / further);
    [0].into_iter().chain(later).collect()
}

/// A permitted target besides F, for an edge of the layer counted from 0.
fn next(starts: &[u32], layer: usize, draw: &mut Draw) -> u32 {
    if layer + 2 == starts.len() {
        return 1;
    }
    let (from, end) = (starts[layer + 1], starts[layer + 2]);
    2 + from + draw.below(end - from)
}

/// Whether a model in order of the variables satisfies a word list.
pub fn satisfies(model: &[i32], words: &[i32]) -> bool {
    let holds = |&word: &i32| model[word.unsigned_abs() as usize - 1] == word;
    words
        .split(|&word| word == 0)
        .rev()
        .skip(1)
        .all(|clause| clause.iter().any(holds))
}
