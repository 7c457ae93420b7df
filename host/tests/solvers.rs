//! Real solvers on the library's text: their models read back as allowed builds, and blocking each
//! build in turn counts exactly the allowed ones. A solver that is not on the path is skipped.

use crate::common::diagrams::{largest, small, OwnedDiagram};
use crate::common::driver::{run_seed, say};
use crate::common::numbers::{seed_of, Rng};
use std::path::PathBuf;
use std::process::Command;
use std::sync::atomic::{AtomicUsize, Ordering};
use std::{env, fs, process};

/// How many diagrams have their builds counted by each solver, and the most allowed builds of
/// those.
const COUNTED: usize = 30;
const MOST_BUILDS: usize = 30;

struct Solver {
    name: &'static str,
    options: &'static [&'static str],
    /// Whether the model goes to a second file instead of `v` lines.
    has_result_file: bool,
}

const MINISAT: Solver = Solver {
    name: "minisat",
    options: &["-verb=0"],
    has_result_file: true,
};
const CADICAL: Solver = Solver {
    name: "cadical",
    options: &["-q"],
    has_result_file: false,
};
const PICOSAT: Solver = Solver {
    name: "picosat",
    options: &[],
    has_result_file: false,
};

#[test]
fn minisat() {
    try_solver(&MINISAT);
}

#[test]
fn cadical() {
    try_solver(&CADICAL);
}

#[test]
fn picosat() {
    try_solver(&PICOSAT);
}

fn try_solver(solver: &Solver) {
    if !solver.is_installed() {
        say(&format!("{} is not on the path: skipped", solver.name));
        return;
    }
    let run = run_seed();
    let drawn = (0..).map(|index| small(&mut Rng::new(seed_of(run, solver.name, index))));
    let mut most = 0;
    for diagram in drawn
        .filter(|diagram| (1..=MOST_BUILDS).contains(&diagram.allowed_builds().len()))
        .take(COUNTED)
    {
        most = most.max(count_builds(solver, &diagram));
    }
    assert!(
        most > 5,
        "{}: every diagram had few builds, {most} at most",
        solver.name
    );
    assert_eq!(count_builds(solver, &without_builds()), 0);
    read_back_the_largest(solver);
}

/// Blocks each build that the solver finds until there is none; they are the allowed ones. Gives
/// how many.
fn count_builds(solver: &Solver, diagram: &OwnedDiagram) -> usize {
    let mut query = Query::new(diagram);
    let mut found = Vec::new();
    while let Some(model) = solver.solve(&query.text()) {
        let build = read_back(diagram, &model);
        query.block(&diagram.true_values(&build));
        assert!(
            !found.contains(&build),
            "{}: {build:?} came twice, of {diagram:?}",
            solver.name
        );
        found.push(build);
    }
    found.sort();
    assert_eq!(
        found,
        diagram.allowed_builds(),
        "{}: the builds of {diagram:?}",
        solver.name
    );
    found.len()
}

/// A model as the build it says, which is allowed.
fn read_back(diagram: &OwnedDiagram, model: &[i32]) -> Vec<u32> {
    let mut build = vec![0; diagram.domains.len()];
    assert_eq!(
        binnaclebox::read_model(&diagram.lib(), model, &mut build),
        Ok(build.len()),
        "{diagram:?}"
    );
    assert_eq!(
        binnaclebox::judge(&diagram.lib(), &build),
        Ok(true),
        "{diagram:?}"
    );
    assert!(diagram.allows(&build), "{build:?} of {diagram:?}");
    build
}

/// Two options, each with a node, but no edge from the one to the other.
fn without_builds() -> OwnedDiagram {
    OwnedDiagram {
        domains: vec![2, 3],
        layers: vec![1, 2],
        targets: vec![0, 0, 1, 1, 1],
    }
}

/// A diagram of 4,096 nodes is accepted, and its model reads back.
fn read_back_the_largest(solver: &Solver) {
    let diagram = largest(&mut Rng::new(run_seed()));
    let model = solver
        .solve(&Query::new(&diagram).text())
        .expect("a diagram with few edges to F allows builds");
    assert_eq!(
        model.len(),
        diagram.variables(),
        "{}: the solver names every variable",
        solver.name
    );
    read_back(&diagram, &model);
}

/// The words that a solver is asked about.
struct Query {
    variables: u32,
    words: Vec<i32>,
}

impl Query {
    fn new(diagram: &OwnedDiagram) -> Self {
        let mut words = vec![0; 1_940_550];
        let encoded = binnaclebox::encode(&diagram.lib(), &mut words).expect("a sound diagram");
        words.truncate(encoded.words);
        Query {
            variables: encoded.variables,
            words,
        }
    }

    /// Rules out the settings in which all these variables are true.
    fn block(&mut self, variables: &[i32]) {
        self.words
            .extend(variables.iter().map(|variable| -variable));
        self.words.push(0);
    }

    fn text(&self) -> Vec<u8> {
        let mut text = vec![0; 40 + 8 * self.words.len()];
        let bytes = binnaclebox::write_text(self.variables, &self.words, &mut text)
            .expect("a list within its limits");
        text.truncate(bytes);
        text
    }
}

impl Solver {
    fn is_installed(&self) -> bool {
        let path = env::var_os("PATH").unwrap_or_default();
        let found = env::split_paths(&path).any(|folder| folder.join(self.name).is_file());
        found
    }

    /// A model of the text, all its variables, or none where it cannot be satisfied.
    fn solve(&self, text: &[u8]) -> Option<Vec<i32>> {
        let question = TempFile::new(self.name);
        let result = TempFile::new(self.name);
        fs::write(&question.0, text).expect("a file of clause text");
        let mut command = Command::new(self.name);
        command.args(self.options).arg(&question.0);
        if self.has_result_file {
            command.arg(&result.0);
        }
        let output = command.output().expect("an installed solver runs");
        let errors = String::from_utf8_lossy(&output.stderr);
        assert!(
            !errors.contains("WARNING! DIMACS"),
            "{}: {errors}",
            self.name
        );
        match output.status.code() {
            Some(10) if self.has_result_file => Some(model_of(&result.read(), "")),
            Some(10) => Some(model_of(&String::from_utf8_lossy(&output.stdout), "v")),
            Some(20) => None,
            code => panic!(
                "{} did not accept the text: exit code {code:?}, {errors}",
                self.name
            ),
        }
    }
}

/// The literals of the lines that begin so, without the closing 0.
fn model_of(printed: &str, mark: &str) -> Vec<i32> {
    let lines = printed.lines().filter_map(|line| line.strip_prefix(mark));
    let numbers = lines
        .flat_map(str::split_whitespace)
        .filter_map(|token| token.parse().ok());
    numbers.filter(|&literal| literal != 0).collect()
}

/// A file of an unused name, which goes when it is dropped.
struct TempFile(PathBuf);

impl TempFile {
    fn new(name: &str) -> Self {
        static NEXT: AtomicUsize = AtomicUsize::new(0);
        let next = NEXT.fetch_add(1, Ordering::Relaxed);
        TempFile(env::temp_dir().join(format!("binnaclebox-{}-{name}-{next}", process::id())))
    }

    fn read(&self) -> String {
        fs::read_to_string(&self.0).expect("a file that the solver has written")
    }
}

impl Drop for TempFile {
    fn drop(&mut self) {
        // Not every solver makes its file.
        let _ = fs::remove_file(&self.0);
    }
}
