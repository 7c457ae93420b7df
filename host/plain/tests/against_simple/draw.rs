//! Inputs drawn from a fixed seed: sound ones, and ways to break them.

use plain::Diagram;

/// A small generator of numbers that only look random.
pub struct Draw(pub u64);

impl Draw {
    fn next(&mut self) -> u64 {
        self.0 ^= self.0 << 13;
        self.0 ^= self.0 >> 7;
        self.0 ^= self.0 << 17;
        self.0.wrapping_mul(0x2545_F491_4F6C_DD1D) >> 32
    }

    pub fn below(&mut self, end: usize) -> usize {
        (self.next() % end as u64) as usize
    }

    /// True once in so many times.
    pub fn once_in(&mut self, times: usize) -> bool {
        self.below(times) == 0
    }

    pub fn pick<T: Copy>(&mut self, from: &[T]) -> T {
        from[self.below(from.len())]
    }
}

/// A diagram's three lists, sound as drawn.
pub struct Lists {
    pub domains: Vec<u32>,
    layers: Vec<u32>,
    targets: Vec<u32>,
}

impl Lists {
    pub fn draw(draw: &mut Draw) -> Lists {
        let n = 1 + draw.below(6);
        let most = draw.pick(&[2, 5, 32]);
        let mut lists = Lists {
            domains: (0..n).map(|_| 1 + draw.below(most) as u32).collect(),
            layers: vec![1],
            targets: Vec::new(),
        };
        for layer in 2..=n as u32 {
            let count = draw.pick(&[0, 1, 1, 2, 3, 9]);
            lists.layers.extend(std::iter::repeat_n(layer, count));
        }
        for &layer in &lists.layers {
            let all = (2..).zip(&lists.layers);
            let mut on: Vec<u32> = all
                .filter(|(_, l)| **l == layer + 1)
                .map(|(r, _)| r)
                .collect();
            if layer as usize == n {
                on.push(1);
            }
            for _ in 0..lists.domains[layer as usize - 1] {
                let stops = draw.once_in(4) || on.is_empty();
                let target = if stops { 0 } else { draw.pick(&on) };
                lists.targets.push(target);
            }
        }
        lists
    }

    /// Breaks one entry or one length, or (often) nothing.
    pub fn maim(&mut self, draw: &mut Draw) {
        let odd = [0, 1, 2, 3, 7, 32, 33, u32::MAX, 1 << 31];
        let list = match draw.below(8) {
            0 => &mut self.domains,
            1 => &mut self.layers,
            2 | 3 => &mut self.targets,
            _ => return,
        };
        if draw.once_in(5) {
            list.truncate(draw.below(list.len() + 1));
        } else if !list.is_empty() {
            let at = draw.below(list.len());
            list[at] = draw.pick(&odd);
        }
    }

    pub fn lend(&self) -> Diagram<'_> {
        Diagram {
            domains: &self.domains,
            layers: &self.layers,
            targets: &self.targets,
        }
    }

    /// A model that names every variable and one true value an option, or one
    /// that goes wrong in up to two places.
    pub fn model(&self, draw: &mut Draw, variables: i32) -> Vec<i32> {
        let mut literals: Vec<i32> = (1..=variables).map(|v| -v).collect();
        let mut first = 0;
        for &size in &self.domains {
            let at = first + draw.below(size as usize);
            literals[at] = -literals[at];
            first += size as usize;
        }
        let v = variables;
        let odd = [0, 1, -1, 2, v, v + 1, -v - 1, i32::MIN, i32::MAX];
        for _ in 0..draw.below(3) {
            let at = draw.below(literals.len());
            match draw.below(4) {
                0 => literals[at] = draw.pick(&odd),
                1 => literals.swap(0, at),
                2 => literals[at] = -(draw.below(first) as i32 + 1),
                _ => literals.truncate(at + 1),
            }
        }
        literals
    }
}

/// A limit on variables, often at an edge of its digits, at times too high.
pub fn limit(draw: &mut Draw) -> u32 {
    let power = 10u32.pow(draw.below(7) as u32);
    match draw.below(20) {
        0 => draw.pick(&[1_000_001, u32::MAX]),
        1..=5 => power,
        6..=9 => power - 1,
        _ => draw.below(1_000_001) as u32,
    }
}

/// A literal at most `most` either way, of any number of digits; never 0.
fn literal(draw: &mut Draw, most: u32) -> i32 {
    let most = most.clamp(1, 1_000_000) as usize;
    let scale = 10usize.pow(draw.below(7) as u32);
    let size = 1 + draw.below(most.min(scale));
    let size = if draw.once_in(5) { most } else { size } as i32;
    if draw.once_in(2) {
        size
    } else {
        -size
    }
}

/// A clause list, mostly closed, at times with a literal out of range.
pub fn words(draw: &mut Draw, variables: u32) -> Vec<i32> {
    let count = draw.below(40);
    let mut words: Vec<i32> = (0..count)
        .map(|_| match variables == 0 || draw.once_in(3) {
            true => 0,
            false => literal(draw, variables),
        })
        .collect();
    if !draw.once_in(10) && !words.is_empty() {
        words.push(0);
    }
    if draw.once_in(8) && !words.is_empty() {
        let at = draw.below(words.len());
        let odd = [1_000_001, -1_000_001, i32::MIN, i32::MAX, 11];
        words[at] = draw.pick(&odd);
    }
    words
}

const NARROW: &[&[u8]] = &[b" "];
const LOOSE: &[&[u8]] = &[b" ", b"\n", b"\r\n", b"\t", b"   ", b"\n \n\n\t        \n"];

/// A text of tokens, in the writer's spacing or looser.
pub fn text(draw: &mut Draw) -> Vec<u8> {
    let variables = limit(draw);
    let comment: &[u8] = draw.pick(&[b"", b"", b"", b"c\n", b"c p cnf 1 1\ncc\n", b"c end"]);
    let (mut body, mut zeros) = (Vec::new(), 0);
    let gaps = draw.pick(&[NARROW, LOOSE]);
    for _ in 0..draw.pick(&[0, 1, 3, 10, 60, 60, 300]) {
        let zero = variables == 0 || draw.once_in(3);
        let word = if zero { 0 } else { literal(draw, variables) };
        zeros += usize::from(zero);
        body.extend(word.to_string().bytes());
        body.extend(draw.pick(gaps));
    }
    if !draw.once_in(4) {
        body.extend(b"0");
        zeros += 1;
    }
    body.extend(draw.pick(&[&b""[..], b"\n", b"\n", b"\n", b"      \n"]));
    let header = format!(
        "p cnf {variables} {}\n",
        zeros + usize::from(draw.once_in(12))
    );
    [comment, header.as_bytes(), &body].concat()
}

/// Bytes and tokens of all kinds, for a text to be broken with.
const BYTES: &[u8] =
    b"00123456789--  \t\r\n\n+xc:/.,\0\x1f\x10\x0b\x0c\x7f\x80\xb0\xb9\xad\xa0\xff p";
const TOKENS: [&[u8]; 12] = [
    b"-",
    b"-0",
    b"00",
    b" 01 ",
    b"1000000",
    b"-1000001 ",
    b"99999999",
    b"123456789012345678",
    b"18446744073709551617",
    b"4294967297",
    b"                    ",
    b"--",
];

/// Puts a byte or a token in, changes or drops a byte, or cuts the end off.
pub fn maim_text(draw: &mut Draw, text: &mut Vec<u8>) {
    let at = draw.below(text.len() + 1);
    match draw.below(6) {
        0 => text.insert(at, draw.pick(BYTES)),
        1 => drop(text.splice(at..at, draw.pick(&TOKENS).iter().copied())),
        2 if at < text.len() => text[at] = draw.pick(BYTES),
        3 => text.truncate(at),
        4 if at < text.len() => drop(text.remove(at)),
        _ => {}
    }
}
