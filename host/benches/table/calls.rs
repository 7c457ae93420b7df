//! Every call of the library, timed beside the same call in plain Rust, tuned
//! and (three of them) as usually written, and a bare copy of its result, all
//! by turns in the same buffer.

use crate::skid::{satisfies, Skid};
use crate::solvers::{CADICAL, MINISAT};
use crate::timing::by_turns;
use std::hint::black_box;
use std::path::Path;

/// The variants of a call; the one between plain and usual is the copy.
const OURS: usize = 0;
const PLAIN: usize = 1;
const USUAL: usize = 3;

/// The times of one call at one size, in nanoseconds.
pub struct Cell {
    /// Entries of the lent lists that the call reads: words, or bytes of text.
    pub input: usize,
    pub ours: f64,
    pub plain: f64,
    pub usual: Option<f64>,
    pub copy: Option<f64>,
    /// CaDiCaL's and MiniSat's own time for the same, in seconds.
    pub solvers: [Option<f64>; 2],
}

impl Cell {
    /// A call without a result to copy.
    fn bare(input: usize, run: impl FnMut(usize)) -> Cell {
        let [ours, plain] = by_turns(run);
        Cell {
            input,
            ours,
            plain,
            usual: None,
            copy: None,
            solvers: [None; 2],
        }
    }

    /// A call with a result; the third variant copies it.
    fn with_copy(input: usize, run: impl FnMut(usize)) -> Cell {
        let [ours, plain, copy] = by_turns(run);
        Cell {
            input,
            ours,
            plain,
            usual: None,
            copy: Some(copy),
            solvers: [None; 2],
        }
    }

    /// A call with a result that is written as usual, too.
    fn with_usual(input: usize, run: impl FnMut(usize)) -> Cell {
        let [ours, plain, copy, usual] = by_turns(run);
        Cell {
            input,
            ours,
            plain,
            usual: Some(usual),
            copy: Some(copy),
            solvers: [None; 2],
        }
    }
}

/// One size's inputs, and the results that all sides must give.
pub struct Case {
    skid: Skid,
    model: Vec<i32>,
    variables: u32,
    words: Vec<i32>,
    text: Vec<u8>,
}

impl Case {
    /// Draws a skid and computes all results by plain Rust.
    pub fn new(options: u32, nodes: u32) -> Case {
        let skid = Skid::draw(options, nodes);
        let d = plain_diagram(&skid);
        let mut words = vec![0; plain::encode(&d, &mut []).unwrap_err().place];
        let variables = plain::encode(&d, &mut words).unwrap().variables;
        let length = plain::write_text(variables, &words, &mut []).unwrap_err();
        let mut text = vec![0; length.place];
        plain::write_text(variables, &words, &mut text).unwrap();
        let model = skid.model();
        assert!(satisfies(&model, &words));
        Case {
            skid,
            model,
            variables,
            words,
            text,
        }
    }

    /// Entries of the diagram's three lists.
    fn diagram_words(&self) -> usize {
        self.skid.domains.len() + self.skid.layers.len() + self.skid.targets.len()
    }

    /// Holds the answers and results of all sides against each other.
    pub fn compare(&self) {
        let (ours, plain) = (our_diagram(&self.skid), plain_diagram(&self.skid));
        assert_eq!(binnaclebox::check(&ours), Ok(()));
        assert_eq!(plain::check(&plain), Ok(()));
        assert_eq!(binnaclebox::judge(&ours, &self.skid.build), Ok(true));
        assert_eq!(plain::judge(&plain, &self.skid.build), Ok(true));
        let mut builds = [(); 3].map(|_| vec![0; self.skid.build.len()]);
        binnaclebox::read_model(&ours, &self.model, &mut builds[OURS]).unwrap();
        plain::read_model(&plain, &self.model, &mut builds[PLAIN]).unwrap();
        plain::usual::read_model(&plain, &self.model, &mut builds[2]).unwrap();
        assert!(builds.iter().all(|build| *build == self.skid.build));
        let mut words = vec![0; self.words.len()];
        let counts = binnaclebox::encode(&ours, &mut words).unwrap();
        assert!(words == self.words && counts.variables == self.variables);
        let mut text = vec![0; self.text.len()];
        let written = binnaclebox::write_text(self.variables, &words, &mut text);
        assert!(text == self.text && written == Ok(text.len()));
        text.fill(0);
        let written = plain::usual::write_text(self.variables, &words, &mut text);
        assert!(text == self.text && written == Ok(text.len()));
        words.fill(0);
        let read = binnaclebox::read_text(&text, &mut words).unwrap();
        assert!(words == self.words && read == counts);
        for read_text in [plain::read_text, plain::usual::read_text] {
            words.fill(0);
            let read = read_text(&text, &mut words).unwrap();
            assert!(words == self.words && read.clauses == counts.clauses);
        }
    }

    pub fn check(&self) -> Cell {
        let (ours, plain) = (our_diagram(&self.skid), plain_diagram(&self.skid));
        Cell::bare(self.diagram_words(), |which| {
            if which == OURS {
                let _ = black_box(binnaclebox::check(black_box(&ours)));
            } else {
                let _ = black_box(plain::check(black_box(&plain)));
            }
        })
    }

    pub fn encode(&self) -> Cell {
        let (ours, plain) = (our_diagram(&self.skid), plain_diagram(&self.skid));
        let mut lent = vec![0; self.words.len()];
        Cell::with_copy(self.diagram_words(), |which| {
            let out = black_box(&mut lent[..]);
            match which {
                OURS => drop(black_box(binnaclebox::encode(black_box(&ours), out))),
                PLAIN => drop(black_box(plain::encode(black_box(&plain), out))),
                _ => out.copy_from_slice(black_box(&self.words)),
            }
        })
    }

    pub fn judge(&self) -> Cell {
        let (ours, plain) = (our_diagram(&self.skid), plain_diagram(&self.skid));
        Cell::bare(self.diagram_words() + self.skid.build.len(), |which| {
            let build = black_box(&self.skid.build);
            if which == OURS {
                let _ = black_box(binnaclebox::judge(black_box(&ours), build));
            } else {
                let _ = black_box(plain::judge(black_box(&plain), build));
            }
        })
    }

    pub fn model(&self) -> Cell {
        let (ours, plain) = (our_diagram(&self.skid), plain_diagram(&self.skid));
        let mut lent = vec![0; self.skid.build.len()];
        Cell::with_usual(self.diagram_words() + self.model.len(), |which| {
            let (model, out) = black_box((&self.model, &mut lent[..]));
            match which {
                OURS => drop(black_box(binnaclebox::read_model(&ours, model, out))),
                PLAIN => drop(black_box(plain::read_model(&plain, model, out))),
                USUAL => drop(black_box(plain::usual::read_model(&plain, model, out))),
                _ => out.copy_from_slice(black_box(&self.skid.build)),
            }
        })
    }

    pub fn text_out(&self) -> Cell {
        let mut lent = vec![0; self.text.len()];
        Cell::with_usual(self.words.len(), |which| {
            let (v, words) = black_box((self.variables, &self.words));
            let out = black_box(&mut lent[..]);
            match which {
                OURS => drop(black_box(binnaclebox::write_text(v, words, out))),
                PLAIN => drop(black_box(plain::write_text(v, words, out))),
                USUAL => drop(black_box(plain::usual::write_text(v, words, out))),
                _ => out.copy_from_slice(black_box(&self.text)),
            }
        })
    }

    pub fn text_in(&self) -> Cell {
        let mut lent = vec![0; self.words.len()];
        let mut cell = Cell::with_usual(self.text.len(), |which| {
            let (text, out) = black_box((&self.text, &mut lent[..]));
            match which {
                OURS => drop(black_box(binnaclebox::read_text(text, out))),
                PLAIN => drop(black_box(plain::read_text(text, out))),
                USUAL => drop(black_box(plain::usual::read_text(text, out))),
                _ => out.copy_from_slice(black_box(&self.words)),
            }
        });
        cell.solvers = self.solver_times();
        cell
    }

    /// The parse times of both solvers on this text, in seconds.
    fn solver_times(&self) -> [Option<f64>; 2] {
        let name = format!("table-{}.cnf", std::process::id());
        let file = Path::new(env!("CARGO_TARGET_TMPDIR")).join(name);
        if std::fs::write(&file, &self.text).is_err() {
            return [None; 2];
        }
        let times = [CADICAL, MINISAT].map(|solver| solver.parse_seconds(&file));
        let _ = std::fs::remove_file(&file);
        times
    }
}

fn our_diagram(skid: &Skid) -> binnaclebox::Diagram<'_> {
    binnaclebox::Diagram {
        domains: &skid.domains,
        layers: &skid.layers,
        targets: &skid.targets,
    }
}

fn plain_diagram(skid: &Skid) -> plain::Diagram<'_> {
    plain::Diagram {
        domains: &skid.domains,
        layers: &skid.layers,
        targets: &skid.targets,
    }
}
