//! Decision diagrams of a skid's options as SAT clauses.
//!
//! A safe face of Binnaclebox, a verified library without a heap: it checks a diagram, encodes it
//! as clauses, judges a build, reads a solver's model back as a build, and writes and reads DIMACS
//! clause text. All buffers are lent by the caller. Each function gives its result or a
//! [`Refusal`], and a refusal leaves every lent buffer as it was.
//!
//! One option of two values, of which only value 1 is allowed, as clauses, as their text and back
//! from a solver's model:
//!
//! ```
//! use binnaclebox::{encode, read_model, write_text, Diagram};
//!
//! let diagram = Diagram { domains: &[2], layers: &[1], targets: &[0, 1] };
//! let mut words = [0; 42];
//! let encoded = encode(&diagram, &mut words)?;
//! assert_eq!((encoded.words, encoded.clauses, encoded.variables), (42, 14, 7));
//! assert_eq!(words[..6], [1, 2, 0, -1, -2, 0]);
//!
//! let mut text = [0; 200];
//! let bytes = write_text(encoded.variables, &words[..encoded.words], &mut text)?;
//! assert!(text[..bytes].starts_with(b"p cnf 7 14\n1 2 0\n-1 -2 0\n4 0\n"));
//!
//! let model = [-1, 2, -3, 4, 5, -6, 7]; // as a solver prints it
//! let mut build = [0; 1];
//! assert_eq!(read_model(&diagram, &model, &mut build)?, 1);
//! assert_eq!(build, [1]);
//! # Ok::<(), binnaclebox::Refusal>(())
//! ```

#![deny(missing_docs, unsafe_code)]

use std::{error, fmt};

#[allow(unsafe_code)]
pub mod raw;

/// A layered decision diagram as it is lent: three lists.
///
/// Reference 0 is the false end, 1 the true end; the nodes are 2, 3 and so on in list order, and
/// node 2 is the root.
#[derive(Clone, Copy, Debug)]
pub struct Diagram<'a> {
    /// One entry an option: how many values it takes.
    pub domains: &'a [u32],
    /// One entry a node: the option it asks about, counted from 1.
    pub layers: &'a [u32],
    /// For each node in order, one reference for each value of its option, from value 0 up.
    pub targets: &'a [u32],
}

/// What was wrong with a call, and where.
#[derive(Clone, Copy, Debug, PartialEq, Eq)]
pub struct Refusal {
    /// The refusal's number, 1 to 19.
    pub number: u32,
    /// An index from 0, a length or a count, as the number says.
    pub place: usize,
}

/// A clause list's measures.
#[derive(Clone, Copy, Debug, PartialEq, Eq)]
pub struct Encoded {
    /// How many words were written: each clause's literals, then 0.
    pub words: usize,
    /// How many clauses they hold.
    pub clauses: u32,
    /// V, the highest variable's number.
    pub variables: u32,
}

/// For each refusal from number 1 on: when it is given, and what its place is, where that is not
/// always 0.
const REFUSALS: [(&str, &str); 19] = [
    ("options not 1 to 64", ""),
    ("a domain not 1 to 32", "first index"),
    ("nodes not 1 to 4,096", ""),
    ("a layer breaks its rule", "first index"),
    ("target count is not the sum of the nodes' domains", ""),
    ("a target is not permitted", "first index"),
    ("lent result buffer too short", "length needed"),
    ("build length is not the number of options", ""),
    ("build value outside its domain", "first index"),
    ("model literal is 0 or beyond V either way", "first index"),
    (
        "a value variable is named a second time",
        "first such index",
    ),
    (
        "an option has not exactly one true value",
        "first option, from 0,",
    ),
    ("the diagram does not allow the model's build", ""),
    ("clause literal beyond V", "place"),
    ("last clause not closed by 0", "length"),
    (
        "V above 1,000,000, clauses above 4,000,000 or words above 100,000,000",
        "place",
    ),
    ("header line absent or misformed", "its line's start"),
    ("misformed token", "its start"),
    ("clauses found differ from the header", "number found"),
];

impl fmt::Display for Refusal {
    fn fmt(&self, f: &mut fmt::Formatter) -> fmt::Result {
        let row = (self.number as usize).wrapping_sub(1);
        let (when, place) = REFUSALS
            .get(row)
            .unwrap_or(&("not a refusal of the library", "place"));
        write!(f, "refusal {}: {when}", self.number)?;
        if place.is_empty() {
            return Ok(());
        }
        write!(f, "; {place} {}", self.place)
    }
}

impl error::Error for Refusal {}

/// Checks that a diagram is sound. Refusals: 1 to 6.
pub fn check(diagram: &Diagram) -> Result<(), Refusal> {
    ask(|answer| raw::check(diagram, answer)).map(|_| ())
}

/// Encodes a diagram as clauses at the front of `out`; words beyond the last are kept. Refusals: 1
/// to 7.
pub fn encode(diagram: &Diagram, out: &mut [i32]) -> Result<Encoded, Refusal> {
    ask(|answer| raw::encode(diagram, out, answer)).map(encoded)
}

/// Tells whether the diagram allows the build, one value an option. Refusals: 1 to 6, 8, 9.
pub fn judge(diagram: &Diagram, build: &[u32]) -> Result<bool, Refusal> {
    ask(|answer| raw::judge(diagram, build, answer)).map(|results| results[0] == 1)
}

/// Reads a solver's model back as a build at the front of `out`, and gives its length, the number
/// of options. Value variables that the model does not name count as false. Refusals: 1 to 7, 10 to
/// 13.
pub fn read_model(diagram: &Diagram, literals: &[i32], out: &mut [u32]) -> Result<usize, Refusal> {
    ask(|answer| raw::read_model(diagram, literals, out, answer)).map(|results| results[0] as usize)
}

/// Writes clause text for `v` variables and a word list at the front of `out`, and gives its length
/// in bytes. Refusals: 16, 14, 15, 7.
pub fn write_text(v: u32, words: &[i32], out: &mut [u8]) -> Result<usize, Refusal> {
    ask(|answer| raw::write_text(v, words, out, answer)).map(|results| results[0] as usize)
}

/// Reads clause text into words at the front of `out`. Refusals: 17, 16, 18, 14, 15, 19, 7.
///
/// A text that was torn is refused by what is missing, with the place in bytes:
///
/// ```
/// use binnaclebox::read_text;
///
/// let mut words = [0; 42];
/// let mut said = |text: &[u8]| read_text(text, &mut words).unwrap_err().to_string();
/// assert_eq!(said(b"p cnf 7"), "refusal 17: header line absent or misformed; its line's start 0");
/// assert_eq!(said(b"p cnf 7 14\n1 2 0\n-1 -"), "refusal 18: misformed token; its start 20");
/// assert_eq!(said(b"p cnf 7 14\n1 2 0\n-1 -2"), "refusal 15: last clause not closed by 0; length 22");
/// assert_eq!(said(b"p cnf 7 14\n1 2 0\n"), "refusal 19: clauses found differ from the header; number found 1");
/// ```
pub fn read_text(text: &[u8], out: &mut [i32]) -> Result<Encoded, Refusal> {
    ask(|answer| raw::read_text(text, out, answer)).map(encoded)
}

/// Makes one call and turns its answer's entries into the four results or the refusal.
fn ask(call: impl FnOnce(&mut [u64])) -> Result<[u64; 4], Refusal> {
    let mut answer = [0; raw::ANSWER];
    call(&mut answer);
    let [number, place, results @ ..] = answer;
    if number == 0 {
        Ok(results)
    } else {
        Err(Refusal {
            number: number as u32,
            place: place as usize,
        })
    }
}

/// The results of a function that gives a clause list.
fn encoded(results: [u64; 4]) -> Encoded {
    Encoded {
        words: results[0] as usize,
        clauses: results[1] as u32,
        variables: results[2] as u32,
    }
}
