//! Dates around the clock: every state, dates before, at and after it, clocks that go back, stay and go on or are below
//! 1, and every operation on such a key, Re-key with Offsets; and Offsets that bring a date up to the largest one and past
//! it. The engines must agree, and the coverage's checks of clocks, dates and replacements must hold.

mod support;

use junctionmoth::message::{allocation, create_dated, item, location, replacement, request, revocation, target, Node};
use junctionmoth::model::soundness;
use junctionmoth::model::table::{Name, Record, Table};
use junctionmoth::{Refusal, SMALL_COUNT};
use support::coverage::results;
use support::coverage::Coverage;
use support::{engines, Case};

/// The clock that counts, where one is accepted.
const NOW: i64 = 1_000;
/// Dates: not set, before, at and after the clock, negative.
const DATES: [i64; 5] = [0, NOW - 1, NOW, NOW + 1, -1];
/// Clocks: the one given and the latest seen.
const CLOCKS: [(i64, i64); 6] = [(NOW, 0), (NOW, NOW), (NOW - 5, NOW), (1, NOW), (0, NOW), (NOW, -1)];

/// A table with one key, called pump.
fn table_of(state: u8, activation: i64, deactivation: i64, latest: i64) -> Vec<u8> {
    let mut table = Table::blank(SMALL_COUNT);
    (table.last, table.latest) = (1, latest);
    let material = [if state < 5 { 7 } else { 0 }; 32];
    let (unit, total, count) = (1, 100, 50);
    table.places[0] = Record {
        serial: 1,
        state,
        unit,
        length: 256,
        total,
        count,
        material,
        activation,
        deactivation,
        name: Name::of(b"pump"),
        ..Record::default()
    };
    table.encode()
}

/// One item of each operation on the key, and a Create with its dates.
fn items(activation: i64, deactivation: i64) -> Vec<Node> {
    let name = Some("00000001");
    let set = |date: i64| (date != 0).then_some(date);
    let mut items: Vec<Node> =
        [0x04, 0x0A, 0x0B, 0x12, 0x14].into_iter().map(|operation| item(operation, None, target(name))).collect();
    items.extend([0, 1, u32::MAX].map(|offset| item(0x04, None, replacement(name, offset))));
    items.push(item(0x11, None, allocation(name, 50)));
    items.extend([1, 2].map(|code| item(0x13, None, revocation(name, code))));
    items.push(item(0x08, None, location("pump")));
    items.push(item(0x01, None, create_dated(128, 4, None, (set(activation), set(deactivation)))));
    items
}

/// The refusal that is due: an unsound table before a clock below 1.
fn refusal(table: &[u8], clock: i64) -> Option<Refusal> {
    if !soundness::broken(table).is_empty() {
        return Some(Refusal::Table);
    }
    (clock < 1).then_some(Refusal::Clock)
}

#[test]
fn every_state_with_dates_around_the_clock() {
    let (engines, mut coverage) = (engines(), Coverage::default());
    for state in 1..=6 {
        for (activation, deactivation) in DATES.into_iter().flat_map(|one| DATES.map(|two| (one, two))) {
            for (given, latest) in CLOCKS {
                let table = table_of(state, activation, deactivation, latest);
                for item in items(activation, deactivation) {
                    let mut case = Case::new(request(None, vec![item]).encode(), table.clone());
                    case.clock = given;
                    let effect = case.run_all(&engines, "dates");
                    assert_eq!(effect.served.err(), refusal(&table, given));
                    coverage.count(&case, &effect);
                }
            }
        }
    }
}

/// Clocks before the largest Date-Time, by so many seconds.
const LEFT: [i64; 5] = [0, 1, 1_000, 0xFFFF_FFFF, 0x1_0000_0000];
/// How long a key of these dates is Active; activation date 5.
const SPANS: [i64; 5] = [0, 1, 1_000, 0xFFFF_FFFE, i64::MAX - 5];

/// Whether a Re-key with this Offset succeeds, so long before the largest Date-Time.
fn fits(left: i64, span: i64, offset: u32) -> bool {
    i128::from(offset) + i128::from(span) <= i128::from(left)
}

#[test]
fn offsets_up_to_the_largest_date_and_past_it() {
    let (engines, mut coverage) = (engines(), Coverage::default());
    let (mut done, mut failed) = (0, 0);
    for (left, span) in LEFT.into_iter().flat_map(|left| SPANS.map(|span| (left, span))) {
        let table = table_of(3, 5, 5 + span, 5);
        let edge = left.saturating_sub(span);
        for offset in [0, 1, edge - 1, edge, edge + 1, 0xFFFF_FFFF].map(u32::try_from).into_iter().flatten() {
            let rekey = item(0x04, None, replacement(Some("00000001"), offset));
            let mut case = Case::new(request(None, vec![rekey]).encode(), table.clone());
            case.clock = i64::MAX - left;
            let effect = case.run_all(&engines, "largest date");
            coverage.count(&case, &effect);
            let length = effect.served.expect("answered");
            let expected = (!fits(left, span, offset)).then_some(0x07);
            assert_eq!(results(&effect.out[..length]), [(0x04, expected)], "{left} {span} {offset}");
            if expected.is_none() {
                done += 1;
            } else {
                failed += 1;
            }
        }
    }
    assert!(done > 20 && failed > 20, "{done} and {failed}");
}
