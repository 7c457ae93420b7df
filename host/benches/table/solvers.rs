//! How long solvers take to read a clause file, by their own account.

use std::path::Path;
use std::process::Command;

/// A solver, the words before its parse time, and options that keep it brief.
pub struct Solver {
    program: &'static str,
    before: [&'static str; 2],
    options: &'static [&'static str],
}

pub const CADICAL: Solver = Solver {
    program: "cadical",
    before: ["c parsed ", " in "],
    options: &["-n", "-t", "30"],
};
pub const MINISAT: Solver = Solver {
    program: "minisat",
    before: ["Parse time:", ""],
    options: &["-cpu-lim=30"],
};

/// Runs of a solver, of which the best counts.
const RUNS: usize = 5;

impl Solver {
    /// The seconds it takes to parse a file; none where it is not installed.
    pub fn parse_seconds(&self, file: &Path) -> Option<f64> {
        let runs = (0..RUNS).map(|_| self.run(file));
        runs.collect::<Option<Vec<f64>>>()?
            .into_iter()
            .reduce(f64::min)
    }

    fn run(&self, file: &Path) -> Option<f64> {
        let ran = Command::new(self.program)
            .args(self.options)
            .arg(file)
            .output()
            .ok()?;
        let said = String::from_utf8_lossy(&ran.stdout);
        let (_, after) = said.split_once(self.before[0])?;
        let (_, after) = after.split_once(self.before[1])?;
        after.split_whitespace().next()?.parse().ok()
    }
}
