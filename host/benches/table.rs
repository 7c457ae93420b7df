//! One table of times: every call of the library at three sizes, beside the
//! same call in plain Rust, tuned and as usually written, and a bare copy of
//! its result; for reading clause text also the solvers' own readers. Run by
//! `cargo bench`.

#[path = "table/calls.rs"]
mod calls;
#[path = "table/skid.rs"]
mod skid;
#[path = "table/solvers.rs"]
mod solvers;
#[path = "table/timing.rs"]
mod timing;

use calls::{Case, Cell};

/// Options and nodes of each size; nodes, and so edges, grow 8 times.
const SIZES: [(u32, u32); 3] = [(8, 64), (23, 512), (64, 4096)];

/// A row's name, and how it is timed.
type Call = (&'static str, fn(&Case) -> Cell);

const CALLS: [Call; 6] = [
    ("check", Case::check),
    ("encode", Case::encode),
    ("judge", Case::judge),
    ("model", Case::model),
    ("text out", Case::text_out),
    ("text in", Case::text_in),
];

const HEADS: [&str; 10] = [
    "call",
    "nodes",
    "ours",
    "plain",
    "ours/plain",
    "usual",
    "ours/usual",
    "copy",
    "CaDiCaL",
    "MiniSat",
];
const WIDTHS: [usize; 10] = [8, 5, 9, 9, 10, 9, 10, 9, 14, 14];

const NOTES: &str = "
Medians of rounds in which ours, plain, usual and the copy take turns. Plain: the
same work as fast as plain Rust was found to do it, many words or bytes at once.
Usual: the same work as a good engineer would usually write it: safe Rust,
literal by literal, word by word, token by token. The buffer of a result is lent
once, exactly as long as the result, warm, shared by all of them and not cleared
between runs. Copy: a copy of the result between two buffers. CaDiCaL, MiniSat:
their own parse time on the same text, best of five runs, told by them in
hundredths of a second, and where that suffices how many times ours it is. A dash
where there is none. Every option has 32 values; half of the edges go to F at
random. Ours, plain and usual gave equal results before they were timed.";

fn main() {
    let cases = SIZES.map(|(options, nodes)| Case::new(options, nodes));
    cases.iter().for_each(Case::compare);
    print_line(HEADS.map(String::from));
    print_line(WIDTHS.map(|width| "-".repeat(width)));
    let mut growth = Vec::new();
    for (call, time_it) in CALLS {
        let mut line = format!("  {call:<8}");
        for (case, (_, nodes)) in cases.iter().zip(SIZES) {
            let cell = time_it(case);
            print_row(call, nodes, &cell);
            line += &format!(" {:>7.3}", cell.ours / cell.input as f64);
        }
        growth.push(line);
    }
    println!("\nGrowth: ns of ours per entry of the lent lists that a call reads, which are");
    println!("words (of text in: bytes), from size to size; steady where time keeps step:\n");
    println!("{}\n{NOTES}", growth.join("\n"));
}

fn print_row(call: &str, nodes: u32, cell: &Cell) {
    let [cadical, minisat] = cell.solvers.map(|seconds| solver(seconds, cell.ours));
    print_line([
        call.into(),
        nodes.to_string(),
        time(cell.ours),
        time(cell.plain),
        ratio(cell.ours, cell.plain),
        cell.usual.map_or("-".into(), time),
        cell.usual
            .map_or("-".into(), |usual| ratio(cell.ours, usual)),
        cell.copy.map_or("-".into(), time),
        cadical,
        minisat,
    ]);
}

/// One line of the table: the name to the left, numbers to the right.
fn print_line(entries: [String; 10]) {
    let mut line = format!("| {:<1$} |", entries[0], WIDTHS[0]);
    for (entry, width) in entries.iter().zip(WIDTHS).skip(1) {
        line += &format!(" {entry:>width$} |");
    }
    println!("{line}");
}

/// A time in a unit that suits it.
fn time(nanoseconds: f64) -> String {
    match nanoseconds {
        t if t < 1e3 => format!("{t:.0} ns"),
        t if t < 1e6 => format!("{:.1} us", t / 1e3),
        t => format!("{:.2} ms", t / 1e6),
    }
}

/// How many times another time ours is.
fn ratio(ours: f64, other: f64) -> String {
    format!("{:.2}", ours / other)
}

/// A solver's parse time and how many times ours it is, unless it is so short
/// that hundredths of a second are too coarse to divide.
fn solver(seconds: Option<f64>, ours: f64) -> String {
    match seconds {
        None => "-".into(),
        Some(s) if s < 0.05 => format!("{s:.2} s"),
        Some(s) => format!("{s:.2} s, {:.1} x", s * 1e9 / ours),
    }
}
