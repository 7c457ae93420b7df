//! The simplest functions that could be right: one loop a rule, heap where it
//! is handy, no care for speed.

use plain::{Diagram, Refusal, Tally};

pub type Answer<T> = Result<T, Refusal>;

fn refused<T>(number: u32, place: usize) -> Answer<T> {
    Err(Refusal { number, place })
}

fn layer_breaks(d: &Diagram, k: usize) -> bool {
    let (layer, n) = (d.layers[k] as usize, d.domains.len());
    if k == 0 {
        return layer != 1;
    }
    layer < 2 || layer > n || d.layers[k] < d.layers[k - 1]
}

fn domain_of(d: &Diagram, k: usize) -> usize {
    d.domains[d.layers[k] as usize - 1] as usize
}

pub fn check(d: &Diagram) -> Answer<()> {
    let (n, s) = (d.domains.len(), d.layers.len());
    if !(1..=64).contains(&n) {
        return refused(1, 0);
    }
    if let Some(k) = (0..n).find(|&k| !(1..=32).contains(&d.domains[k])) {
        return refused(2, k);
    }
    if !(1..=4096).contains(&s) {
        return refused(3, 0);
    }
    if let Some(k) = (0..s).find(|&k| layer_breaks(d, k)) {
        return refused(4, k);
    }
    let owners: Vec<usize> = (0..s).flat_map(|k| vec![k; domain_of(d, k)]).collect();
    if owners.len() != d.targets.len() {
        return refused(5, 0);
    }
    for (e, &owner) in owners.iter().enumerate() {
        let (t, layer) = (d.targets[e] as usize, d.layers[owner]);
        let goes_on = t >= 2 && t < s + 2 && d.layers[t - 2] == layer + 1;
        let last = layer as usize == n;
        if t != 0 && !(if last { t == 1 } else { goes_on }) {
            return refused(6, e);
        }
    }
    Ok(())
}

/// The clauses of a sound diagram in their order, and V.
pub fn clauses(d: &Diagram) -> (Vec<Vec<i32>>, u32) {
    let values: u32 = d.domains.iter().sum();
    let s = d.layers.len() as u32;
    let value = |i: usize, j: u32| (1 + d.domains[..i].iter().sum::<u32>() + j) as i32;
    let reference = |r: u32| (values + 1 + r) as i32;
    let mut all = Vec::new();
    for (i, &size) in d.domains.iter().enumerate() {
        all.push((0..size).map(|j| value(i, j)).collect());
        for a in 0..size {
            for b in a + 1..size {
                all.push(vec![-value(i, a), -value(i, b)]);
            }
        }
    }
    all.extend([vec![reference(1)], vec![-reference(0)], vec![reference(2)]]);
    let mut e = 0;
    for (k, &layer) in d.layers.iter().enumerate() {
        let (i, v) = (layer as usize - 1, reference(k as u32 + 2));
        let size = d.domains[i];
        let edge = |j: u32| (values + s + 3 + e + j) as i32;
        all.push([-v].into_iter().chain((0..size).map(edge)).collect());
        for j in 0..size {
            let (m, x) = (reference(d.targets[(e + j) as usize]), value(i, j));
            let f = edge(j);
            all.extend([vec![-f, v], vec![-f, m], vec![-f, x], vec![-m, -x, f]]);
        }
        e += size;
    }
    (all, values + s + 2 + e)
}

pub fn encode(d: &Diagram, out: &mut [i32]) -> Answer<Tally> {
    check(d)?;
    let (clauses, variables) = clauses(d);
    let words: Vec<i32> = clauses
        .iter()
        .flat_map(|c| [&c[..], &[0]].concat())
        .collect();
    if words.len() > out.len() {
        return refused(7, words.len());
    }
    out[..words.len()].copy_from_slice(&words);
    Ok(Tally {
        words: words.len(),
        clauses: clauses.len() as u32,
        variables,
    })
}

fn allows(d: &Diagram, node: usize, build: &[u32]) -> bool {
    let from: usize = (0..node).map(|k| domain_of(d, k)).sum();
    match d.targets[from + build[d.layers[node] as usize - 1] as usize] {
        0 => false,
        1 => true,
        next => allows(d, next as usize - 2, build),
    }
}

pub fn judge(d: &Diagram, build: &[u32]) -> Answer<bool> {
    check(d)?;
    if build.len() != d.domains.len() {
        return refused(8, 0);
    }
    match (0..build.len()).find(|&i| build[i] >= d.domains[i]) {
        Some(i) => refused(9, i),
        None => Ok(allows(d, 0, build)),
    }
}

pub fn read_model(d: &Diagram, literals: &[i32], out: &mut [u32]) -> Answer<usize> {
    check(d)?;
    let n = d.domains.len();
    if out.len() < n {
        return refused(7, n);
    }
    let most = i64::from(clauses(d).1);
    let size = |k: usize| i64::from(literals[k]).abs();
    let mut places = 0..literals.len();
    if let Some(k) = places.find(|&k| size(k) == 0 || size(k) > most) {
        return refused(10, k);
    }
    let values = i64::from(d.domains.iter().sum::<u32>());
    let again = |k: usize| size(k) <= values && (0..k).any(|j| size(j) == size(k));
    if let Some(k) = (0..literals.len()).find(|&k| again(k)) {
        return refused(11, k);
    }
    let (mut build, mut first) = (Vec::new(), 1);
    for (i, &domain) in d.domains.iter().enumerate() {
        let holds = |value: &u32| literals.contains(&(first + *value as i32));
        let chosen: Vec<u32> = (0..domain).filter(holds).collect();
        if chosen.len() != 1 {
            return refused(12, i);
        }
        build.push(chosen[0]);
        first += domain as i32;
    }
    if !allows(d, 0, &build) {
        return refused(13, 0);
    }
    out[..n].copy_from_slice(&build);
    Ok(n)
}

pub fn write_text(variables: u32, words: &[i32], out: &mut [u8]) -> Answer<usize> {
    let zeros = words.iter().filter(|&&w| w == 0).count();
    if variables > 1_000_000 || zeros > 4_000_000 || words.len() > 100_000_000 {
        return refused(16, 0);
    }
    let beyond = |w: &i32| i64::from(*w).abs() > i64::from(variables);
    if let Some(k) = words.iter().position(beyond) {
        return refused(14, k);
    }
    if words.last().is_some_and(|&w| w != 0) {
        return refused(15, words.len());
    }
    let mut text = format!("p cnf {variables} {zeros}\n");
    for word in words {
        text += &format!("{word}{}", if *word == 0 { "\n" } else { " " });
    }
    if text.len() > out.len() {
        return refused(7, text.len());
    }
    out[..text.len()].copy_from_slice(text.as_bytes());
    Ok(text.len())
}

fn number(digits: &[u8]) -> Option<u128> {
    let text = std::str::from_utf8(digits).ok()?;
    let leads = text.len() > 1 && text.starts_with('0');
    let digits_only = !text.is_empty() && text.bytes().all(|b| b.is_ascii_digit());
    (digits_only && !leads).then(|| text.parse().unwrap_or(u128::MAX))
}

fn header(line: &[u8]) -> Option<(u128, u128)> {
    let parts: Vec<&[u8]> = line.strip_suffix(b"\n")?.split(|&b| b == b' ').collect();
    match parts[..] {
        [b"p", b"cnf", v, c] => Some((number(v)?, number(c)?)),
        _ => None,
    }
}

fn token(bytes: &[u8]) -> Option<i128> {
    if bytes == b"0" {
        return Some(0);
    }
    let size = number(bytes.strip_prefix(b"-").unwrap_or(bytes)).filter(|&v| v != 0)?;
    let size = size.min(u128::MAX / 4) as i128;
    Some(if bytes[0] == b'-' { -size } else { size })
}

fn tokens(text: &[u8], mut at: usize, variables: u128) -> Answer<Vec<i32>> {
    let mut words = Vec::new();
    for part in text[at..].split(|b| b" \t\r\n".contains(b)) {
        if !part.is_empty() {
            match token(part) {
                None => return refused(18, at),
                Some(w) if w.unsigned_abs() > variables => return refused(14, at),
                Some(w) => words.push(w as i32),
            }
        }
        at += part.len() + 1;
    }
    Ok(words)
}

pub fn read_text(text: &[u8], out: &mut [i32]) -> Answer<Tally> {
    let mut start = 0;
    let mut lines = text.split_inclusive(|&b| b == b'\n');
    let mut line = lines.next().unwrap_or(b"");
    while line.first() == Some(&b'c') {
        start += line.len();
        line = lines.next().unwrap_or(b"");
    }
    let Some((variables, clauses)) = header(line) else {
        return refused(17, start);
    };
    if variables > 1_000_000 || clauses > 4_000_000 {
        return refused(16, start);
    }
    let words = tokens(text, start + line.len(), variables)?;
    let zeros = words.iter().filter(|&&w| w == 0).count();
    if words.last().is_some_and(|&w| w != 0) {
        return refused(15, text.len());
    }
    if zeros as u128 != clauses {
        return refused(19, zeros);
    }
    if words.len() > out.len() {
        return refused(7, words.len());
    }
    out[..words.len()].copy_from_slice(&words);
    Ok(Tally {
        words: words.len(),
        clauses: clauses as u32,
        variables: variables as u32,
    })
}
