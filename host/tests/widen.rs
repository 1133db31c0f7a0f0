//! The program `widen`, which turns older tables into those of today, 8,208 bytes: of 4,624 bytes, from before dates, with
//! dates not set and latest clock 0; of 5,648 bytes, from before names, with dates and clock kept; no key has a name then.
//! `tools/run` starts it. What is no sound table of an old size is declined, and nothing is written then.

mod support;

use junctionmoth::message::{item, request, target};
use junctionmoth::model::operations::identifier;
use junctionmoth::model::soundness;
use junctionmoth::model::table::{Name, Table};
use junctionmoth::{blank_table, Refusal, LARGE_COUNT, SMALL_COUNT};
use std::io::Write;
use std::process::{Command, Stdio};
use support::coverage::results;
use support::rng::Rng;
use support::{engines, tables, Case};

const RUN: &str = concat!(env!("CARGO_MANIFEST_DIR"), "/../tools/run");

/// Bytes in front of the bodies: the lead and 64 lines.
const BODIES: usize = 16 + 64 * 16;
/// Bytes of a body: before dates, before names, today.
const UNDATED: usize = 56;
const UNNAMED: usize = 72;
const BODY: usize = 112;

/// A blank table of today, as wide as older ones get.
fn blank() -> Vec<u8> {
    blank_table(SMALL_COUNT)
}

/// What the program writes on standard output and on standard error.
fn widen(input: &[u8]) -> (Vec<u8>, String) {
    let mut command = Command::new(RUN);
    command.arg("widen").stdin(Stdio::piped()).stdout(Stdio::piped()).stderr(Stdio::piped());
    let mut child = command.spawn().unwrap_or_else(|error| panic!("tools/run cannot be started: {error}"));
    // a program that has read enough may have closed the pipe
    let _ = child.stdin.take().expect("a pipe was asked for").write_all(input);
    let output = child.wait_with_output().expect("a program is waited for");
    (output.stdout, String::from_utf8_lossy(&output.stderr).into_owned())
}

/// The older table that says the same: the fronts of the bodies.
fn narrowed(table: &[u8], body: usize) -> Vec<u8> {
    let (front, bodies) = table.split_at(BODIES);
    let bodies = bodies.chunks(BODY).flat_map(|stored| &stored[..body]);
    front.iter().chain(bodies).copied().collect()
}

/// A sound table without names.
fn unnamed(rng: &mut Rng) -> Table {
    let mut table = tables::sound_of(rng, SMALL_COUNT);
    table.places.iter_mut().for_each(|record| record.name = Name::default());
    table
}

/// The same without dates and without a clock.
fn undated(rng: &mut Rng) -> Table {
    let mut table = unnamed(rng);
    table.latest = 0;
    for record in &mut table.places {
        (record.activation, record.deactivation) = (0, 0);
    }
    table
}

/// An old table is refused; the program makes this one of it, which is answered.
fn check(table: &[u8], body: usize) {
    assert!(soundness::broken(table).is_empty());
    let old = narrowed(table, body);
    assert_eq!(old.len(), if body == UNDATED { 4624 } else { 5648 });
    let serials: Vec<u32> = Table::decode(table).standing().map(|record| record.serial).take(16).collect();
    let asked = serials.iter().map(|&serial| item(0x0B, None, target(Some(&identifier(serial)))));
    let asked = request(None, asked.collect()).encode();
    let refused = Case::new(asked.clone(), old.clone()).run_all(&engines(), "an old table");
    assert_eq!(refused.served, Err(Refusal::Table));
    let (new, said) = widen(&old);
    assert!(new == table && said.is_empty(), "the new table, and nothing said: {said}");
    if !serials.is_empty() {
        let effect = Case::new(asked, new).run_all(&engines(), "a widened table");
        let length = effect.served.expect("answered");
        assert!(results(&effect.out[..length]).iter().all(|(_, reason)| reason.is_none()));
    }
}

#[test]
fn a_sound_table_from_before_dates_is_widened() {
    let mut rng = Rng::new(1);
    check(&blank(), UNDATED);
    for _ in 0..40 {
        check(&undated(&mut rng).encode(), UNDATED);
    }
}

#[test]
fn a_sound_table_from_before_names_keeps_its_dates_and_its_clock() {
    let mut rng = Rng::new(2);
    check(&blank(), UNNAMED);
    let (mut dates, mut clocks) = (0, 0);
    for _ in 0..60 {
        let table = unnamed(&mut rng);
        dates += table.standing().filter(|record| record.activation != 0 || record.deactivation != 0).count();
        clocks += usize::from(table.latest != 0);
        check(&table.encode(), UNNAMED);
    }
    assert!(dates > 100 && clocks > 10, "{dates} keys with dates and {clocks} tables with a clock");
}

/// A table with bytes laid over it.
fn with(table: &[u8], at: usize, bytes: &[u8]) -> Vec<u8> {
    let mut table = table.to_vec();
    table[at..at + bytes.len()].copy_from_slice(bytes);
    table
}

/// The program says so, and writes nothing.
fn declined(what: &str, input: &[u8]) {
    let (written, said) = widen(input);
    assert!(written.is_empty(), "{what}: {} bytes written", written.len());
    assert!(said.starts_with("widen: not a sound table"), "{what}: {said}");
    assert!(said.ends_with('\n') && said.lines().count() == 1, "{what}: {said}");
}

#[test]
fn what_is_no_sound_table_of_an_old_size_is_declined() {
    declined("nothing", &[]);
    declined("a table of today", &blank());
    declined("a large table of today", &blank_table(LARGE_COUNT));
    declined("a table of today without its last byte", &blank()[..8207]);
    declined("a table of today and a byte more", &[&blank()[..], &[0]].concat());
    for body in [UNDATED, UNNAMED] {
        let old = narrowed(&blank(), body);
        let size = old.len();
        declined("a byte less", &old[..size - 1]);
        declined("a byte more", &[&old[..], &[0]].concat());
        for (what, at, bytes) in [
            ("place count 63", 7, &[63][..]),
            ("place count 256", 6, &[1, 0]),
            ("a free line that is not zero", 16 + 4, &[1]),
            ("a free body that is not zero", size - 1, &[1]),
            ("a serial that was not issued", 16 + 3, &[1]),
        ] {
            declined(what, &with(&old, at, bytes));
        }
    }
}

/// The zeros of the lead of old are the latest clock of later: 0 there, and any that is not negative here.
#[test]
fn a_clock_is_taken_from_a_table_with_dates_alone() {
    let undated = narrowed(&blank(), UNDATED);
    let unnamed = narrowed(&blank(), UNNAMED);
    for at in 8..16 {
        declined("a byte in the zeros of the lead", &with(&undated, at, &[1]));
        let (new, said) = widen(&with(&unnamed, at, &[1]));
        assert!(new == with(&blank(), at, &[1]) && said.is_empty());
    }
    declined("a negative clock", &with(&unnamed, 8, &[0x80]));
}

/// Faults in the dates, which a table from before names can have.
#[test]
fn wrong_dates_are_declined() {
    let mut rng = Rng::new(3);
    let rules = ["dates not negative", "latest clock not negative", "dates in order", "Active has begun"];
    let mut met = [0; 4];
    while met.iter().any(|&times| times < 3) {
        let mut table = Table::decode(&tables::broken(&mut rng));
        if table.places.len() != SMALL_COUNT {
            continue;
        }
        table.places.iter_mut().for_each(|record| record.name = Name::default());
        let table = table.encode();
        let broken = soundness::broken(&table);
        if let Some(rule) = rules.iter().position(|&rule| broken == [rule]) {
            met[rule] += 1;
            declined(rules[rule], &narrowed(&table, UNNAMED));
        }
    }
}
