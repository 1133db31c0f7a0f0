//! Dates that act: the clock that counts, and what it does to keys before the first item of a request.
//! A date of 0 is not set.

use super::table::{Record, Table};

/// A clock earlier than the latest seen counts as the latest.
pub fn clock_that_counts(given: i64, latest: i64) -> i64 {
    if given < latest {
        latest
    } else {
        given
    }
}

/// Whether a date is set, and at or before the clock.
pub fn has_come(date: i64, clock: i64) -> bool {
    date != 0 && date <= clock
}

/// The changes due by the table's latest clock: every Pre-Active key whose activation date has come becomes Active, and
/// then every Active key whose deactivation date has come becomes Deactivated.
pub fn make_due_changes(table: &mut Table) {
    let clock = table.latest;
    for record in &mut table.places {
        start_if_due(record, clock);
    }
    for record in &mut table.places {
        stop_if_due(record, clock);
    }
}

/// A Pre-Active key whose activation date has come becomes Active.
fn start_if_due(record: &mut Record, clock: i64) {
    if record.state == 1 && has_come(record.activation, clock) {
        record.state = 2;
    }
}

/// An Active key whose deactivation date has come becomes Deactivated.
fn stop_if_due(record: &mut Record, clock: i64) {
    if record.state == 2 && has_come(record.deactivation, clock) {
        record.state = 3;
    }
}

/// The state of a key that begins with the dates of this one: they act on it as on a Pre-Active key.
pub fn first_state(record: &Record, clock: i64) -> u8 {
    let mut key = Record { state: 1, ..record.clone() };
    start_if_due(&mut key, clock);
    stop_if_due(&mut key, clock);
    key.state
}

/// The dates of a replacement: those of the old key, if there is no Offset. With one, activation is the clock plus
/// Offset, and deactivation, where it is set, moves by the same difference. None if there is an Offset and a deactivation
/// date without an activation date, or if a sum is past the largest Date-Time.
pub fn of_replacement(old: &Record, offset: Option<u32>, clock: i64) -> Option<(i64, i64)> {
    let Some(seconds) = offset else {
        return Some((old.activation, old.deactivation));
    };
    let activation = i128::from(clock) + i128::from(seconds);
    if old.deactivation == 0 {
        return Some((i64::try_from(activation).ok()?, 0));
    }
    if old.activation == 0 {
        return None;
    }
    let difference = activation - i128::from(old.activation);
    let deactivation = i128::from(old.deactivation) + difference;
    Some((i64::try_from(activation).ok()?, i64::try_from(deactivation).ok()?))
}
