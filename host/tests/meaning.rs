//! What the encoded words mean, on small diagrams: their satisfying settings are the allowed
//! builds, one each, and unit propagation from a build alone tells whether it is allowed. "Allowed"
//! is a walk of the diagram by its definition.

use crate::common::diagrams::{small, OwnedDiagram};
use crate::common::driver::run_seed;
use crate::common::numbers::{seed_of, Rng};

/// How many diagrams have all their settings tried, and the highest V of those.
const ENUMERATED: usize = 1_000;
const MOST_VARIABLES: usize = 22;
/// How many diagrams have all their builds propagated, and the most builds of those.
const PROPAGATED: usize = 5_000;
const MOST_BUILDS: usize = 100;

/// The first diagrams of the run that `fits` takes, each with a name to find it by.
fn drawn(
    name: &'static str,
    count: usize,
    fits: fn(&OwnedDiagram) -> bool,
) -> impl Iterator<Item = (OwnedDiagram, String)> {
    let run = run_seed();
    let all = (0..).map(move |index| {
        let diagram = small(&mut Rng::new(seed_of(run, name, index)));
        (diagram, format!("{name}, run seed {run}, diagram {index}"))
    });
    all.filter(move |(diagram, _)| fits(diagram)).take(count)
}

/// The clauses that the library gives for a diagram.
fn clauses(diagram: &OwnedDiagram) -> Vec<Vec<i32>> {
    let mut words = vec![0; 20_000];
    let encoded = binnaclebox::encode(&diagram.lib(), &mut words).expect("a sound diagram");
    assert_eq!(encoded.variables as usize, diagram.variables());
    let mut clauses: Vec<Vec<i32>> = words[..encoded.words]
        .split(|&word| word == 0)
        .map(<[i32]>::to_vec)
        .collect();
    assert_eq!(clauses.pop(), Some(vec![]), "the last clause is closed");
    assert_eq!(clauses.len(), encoded.clauses as usize);
    clauses
}

/// Of all settings, those that satisfy the words are the allowed builds, each once.
#[test]
fn settings_are_allowed_builds() {
    let mut found = 0;
    for (diagram, which) in drawn("settings", ENUMERATED, |diagram| {
        diagram.variables() <= MOST_VARIABLES
    }) {
        let settings = satisfying(&clauses(&diagram), diagram.variables());
        let mut builds: Vec<_> = settings
            .iter()
            .map(|&setting| build_of(&diagram, setting, &which))
            .collect();
        builds.sort();
        assert_eq!(builds, diagram.allowed_builds(), "{which}: {diagram:?}");
        found += builds.len();
    }
    assert!(found >= ENUMERATED, "only {found} allowed builds came up");
}

/// All settings that satisfy the clauses; bit x - 1 is variable x.
fn satisfying(clauses: &[Vec<i32>], variables: usize) -> Vec<u32> {
    let mask = |clause: &[i32], sign: i32| {
        clause
            .iter()
            .filter(|&&literal| literal * sign > 0)
            .fold(0u32, |mask, literal| mask | 1 << (literal.abs() - 1))
    };
    let masks: Vec<(u32, u32)> = clauses
        .iter()
        .map(|clause| (mask(clause, 1), mask(clause, -1)))
        .collect();
    let satisfies = |&setting: &u32| {
        masks
            .iter()
            .all(|&(yes, no)| setting & yes | !setting & no != 0)
    };
    (0..1 << variables).filter(satisfies).collect()
}

/// The build of a setting's value variables, of which each option has exactly one true.
fn build_of(diagram: &OwnedDiagram, setting: u32, which: &str) -> Vec<u32> {
    let mut rest = setting;
    let mut build = Vec::new();
    for &domain in &diagram.domains {
        let values = rest & ((1 << domain) - 1);
        assert_eq!(
            values.count_ones(),
            1,
            "{which}: setting {setting:#b} of {diagram:?}"
        );
        build.push(values.trailing_zeros());
        rest >>= domain;
    }
    build
}

/// A build's literals alone decide: they conflict where it is not allowed; where it is, they reach
/// every variable without a conflict, so that its setting is the only one.
#[test]
fn propagation_tells_allowed_builds() {
    let (mut allowed, mut not_allowed) = (0, 0);
    let few_builds =
        |diagram: &OwnedDiagram| diagram.domains.iter().product::<u32>() as usize <= MOST_BUILDS;
    for (diagram, which) in drawn("propagation", PROPAGATED, few_builds) {
        let clauses = clauses(&diagram);
        for build in diagram.builds() {
            let reached = propagate(
                &clauses,
                diagram.variables(),
                &diagram.value_literals(&build),
            );
            if diagram.allows(&build) {
                assert_eq!(
                    reached,
                    Some(diagram.model(&build)),
                    "{which}: allowed build {build:?} of {diagram:?}"
                );
                allowed += 1;
            } else {
                assert_eq!(
                    reached, None,
                    "{which}: build {build:?}, not allowed, of {diagram:?}"
                );
                not_allowed += 1;
            }
        }
    }
    assert!(
        allowed >= PROPAGATED && not_allowed >= PROPAGATED,
        "{allowed} allowed builds, {not_allowed} others"
    );
}

/// The literals that unit propagation reaches from the given ones, in the order of their variables;
/// none for a conflict.
fn propagate(clauses: &[Vec<i32>], variables: usize, given: &[i32]) -> Option<Vec<i32>> {
    let mut reached = vec![0; variables + 1];
    let mut fresh = given.to_vec();
    while !fresh.is_empty() {
        for literal in fresh.drain(..) {
            let variable = literal.unsigned_abs() as usize;
            if reached[variable] == -literal {
                return None;
            }
            reached[variable] = literal;
        }
        for clause in clauses {
            fresh.extend(unit(clause, &reached)?);
        }
    }
    Some(
        reached
            .into_iter()
            .filter(|&literal| literal != 0)
            .collect(),
    )
}

/// The literal that a clause makes reached anew, if there is one; none at all for a conflict.
fn unit(clause: &[i32], reached: &[i32]) -> Option<Option<i32>> {
    let of = |literal: i32| reached[literal.unsigned_abs() as usize];
    let mut open = clause
        .iter()
        .copied()
        .filter(|&literal| of(literal) != -literal);
    let literal = open.next()?;
    let is_new = open.next().is_none() && of(literal) != literal;
    Some(is_new.then_some(literal))
}
