//! The proved engine, the model and the ordinary engine on cases from a seed: number, length, whole table, whole output
//! and whole second buffer must agree, and everything that can occur must have occurred. `JUNCTIONMOTH_CASES` and
//! `JUNCTIONMOTH_SEED` set how many cases and where they start: a failing case is run alone by its own seed and one case.
//! Where the archive is linked, the first of them are run on the program too.

mod support;

use junctionmoth::Engine;
use std::time::Instant;
use support::coverage::Coverage;
use support::rng::Rng;
use support::{all_engines, engines, undo, Case};

/// How many cases are run on the program where the archive is linked.
const PROGRAM_TOO: u64 = 10_000;

fn main() {
    let cases = setting("JUNCTIONMOTH_CASES", 120_000);
    let seed = setting("JUNCTIONMOTH_SEED", 1);
    let (few, all) = (engines(), all_engines());
    println!("{cases} cases from seed {seed} on: {}", names(&few));
    if few.len() < all.len() {
        println!("the first {} of them: {}", cases.min(PROGRAM_TOO), names(&all));
    }
    let start = Instant::now();
    let mut coverage = Coverage::default();
    for number in 0..cases {
        let seed = seed + number;
        let engines = if number < PROGRAM_TOO { &all } else { &few };
        run(&mut Rng::new(seed), engines, &format!("JUNCTIONMOTH_SEED={seed}"), &mut coverage);
    }
    let seconds = start.elapsed().as_secs_f64();
    println!("{seconds:.1} s, {:.0} cases a second", cases as f64 / seconds);
    let missing = coverage.report_with_above();
    if cases >= 100_000 {
        assert!(missing.is_empty(), "{}", missing.join("\n"));
    }
}

/// A case from a seed; where it is undone, a second one on the table that it left, which may issue the same serial.
fn run(rng: &mut Rng, engines: &[(&str, Engine)], name: &str, coverage: &mut Coverage) {
    let case = Case::any(rng);
    let effect = case.run_all(engines, name);
    coverage.count(&case, &effect);
    if effect.served.is_ok_and(|length| undo::is_undone(&case.request, &effect.out[..length])) {
        let next = case.after(rng, &effect);
        let effect = next.run_all(engines, &format!("{name}, and then"));
        coverage.count(&next, &effect);
    }
}

fn names(engines: &[(&'static str, Engine)]) -> String {
    engines.iter().map(|&(name, _)| name).collect::<Vec<_>>().join(", ")
}

fn setting(name: &str, default: u64) -> u64 {
    match std::env::var(name) {
        Ok(text) => text.parse().unwrap_or_else(|_| panic!("{name} is a number")),
        Err(_) => default,
    }
}
