//! Undo, in plain cases: if an item fails, the table is the one that the first item met, what had succeeded is answered with
//! status 3 and nothing more, and output past the response stays. The second buffer holds the table before the first item,
//! after an accepted request under Undo and no other.

mod support;

use junctionmoth::message::*;
use junctionmoth::model::frame;
use junctionmoth::model::operations::identifier;
use junctionmoth::model::table::{Name, Record, Table};
use junctionmoth::model::ttlv;
use junctionmoth::{Refusal, LARGE_COUNT, SMALL_COUNT};
use support::coverage::results;
use support::rng::Rng;
use support::undo::statuses;
use support::{engines, pattern, requests, tables, unhex, Case, Effect};

const OBJECT_NOT_FOUND: u32 = 0x37;
const WRONG_STATE: u32 = 0x43;

/// By a clock of 5, key 8 of `keys` is to start.
const CLOCK: i64 = 5;

/// Keys 1 to 6 in states 1 to 6, key 7 with a limit and a name, Active, and key 8, which is to start at 3.
fn keys(count: usize) -> Table {
    let mut table = Table::blank(count);
    (table.last, table.latest) = (8, 2);
    for (serial, record) in (1..=8).zip(&mut table.places) {
        let material = if matches!(serial, 5 | 6) { [0; 32] } else { [serial as u8; 32] };
        *record = Record { serial, state: serial as u8, length: 256, mask: 4, material, ..Record::default() };
    }
    let named = &mut table.places[6];
    (named.state, named.unit, named.total, named.count) = (2, 1, 100, 100);
    named.name = Name::of(b"pump");
    (table.places[7].state, table.places[7].activation) = (1, 3);
    table
}

/// The table that the first item meets at `CLOCK`.
fn begun(count: usize) -> Table {
    let mut table = keys(count);
    table.latest = CLOCK;
    table.places[7].state = 2;
    table
}

fn on(operation: u32, serial: u32) -> Node {
    item(operation, None, target(Some(&identifier(serial))))
}

/// An item that fails with Object Not Found.
fn failing() -> Node {
    item(0x12, None, target(Some("00000000")))
}

/// One item of each operation that succeeds, whatever the others did.
fn successes() -> Vec<(u32, Node)> {
    vec![
        (0x01, item(0x01, None, create(192, 4, Some((7, 2))))),
        (0x04, on(0x04, 2)),
        (0x08, item(0x08, None, location("pump"))),
        (0x08, item(0x08, None, location("none"))),
        (0x0A, on(0x0A, 7)),
        (0x0B, on(0x0B, 7)),
        (0x11, item(0x11, None, allocation(Some("00000007"), 40))),
        (0x12, on(0x12, 1)),
        (0x13, item(0x13, None, revocation(Some("00000002"), 1))),
        (0x13, item(0x13, None, revocation(Some("00000005"), 2))),
        (0x14, on(0x14, 3)),
        (0x14, on(0x14, 4)),
    ]
}

fn call(option: u32, items: Vec<Node>, table: &Table) -> Effect {
    let mut case = Case::new(request(Some(option), items).encode(), table.encode());
    case.clock = CLOCK;
    case.run_all(&engines(), "undo")
}

fn response(effect: &Effect) -> &[u8] {
    &effect.out[..effect.served.expect("answered")]
}

/// The table is as the first item met it, and so is the second buffer; output past the response is as it was.
fn assert_undone(effect: &Effect, count: usize) {
    assert!(effect.table == begun(count).encode(), "the table after an undone batch");
    assert!(effect.undo == begun(count).encode(), "the second buffer");
    let length = response(effect).len();
    assert!(effect.out[length..] == pattern(effect.out.len())[length..], "output past the response");
}

#[test]
fn each_operation_is_undone() {
    for count in [SMALL_COUNT, LARGE_COUNT] {
        for (operation, success) in successes() {
            let effect = call(3, vec![success.clone()], &keys(count));
            assert_eq!(statuses(response(&effect)), [0], "{operation:X} alone");
            let effect = call(3, vec![success, failing()], &keys(count));
            assert_eq!(results(response(&effect)), [(operation, None), (0x12, Some(OBJECT_NOT_FOUND))]);
            assert_eq!(statuses(response(&effect)), [3, 1]);
            assert_eq!(response(&effect).len(), 88 + 40 + 56);
            assert_undone(&effect, count);
        }
    }
}

#[test]
fn items_up_to_the_first_failure_are_answered() {
    let all: Vec<Node> = successes().into_iter().map(|(_, item)| item).collect();
    for at in 0..=all.len() {
        let mut items = all.clone();
        items.insert(at, failing());
        items.push(failing());
        let effect = call(3, items, &keys(SMALL_COUNT));
        let mut expected = vec![3; at];
        expected.push(1);
        assert_eq!(statuses(response(&effect)), expected, "failure at {at}");
        assert_undone(&effect, SMALL_COUNT);
    }
}

/// Without a failure Undo is Stop, but for the second buffer.
#[test]
fn a_batch_that_passes_is_as_under_stop() {
    for count in [SMALL_COUNT, LARGE_COUNT] {
        let items: Vec<Node> =
            successes().into_iter().filter(|&(code, _)| code != 0x13).map(|(_, item)| item).collect();
        let (stopped, passed) = (call(2, items.clone(), &keys(count)), call(3, items, &keys(count)));
        assert_eq!(statuses(response(&passed)), [0; 10]);
        assert!(passed.table == stopped.table && passed.out == stopped.out && passed.served == stopped.served);
        assert!(passed.undo == begun(count).encode() && stopped.undo != passed.undo);
    }
}

/// The placeholder works while the batch is tried: Create, Activate and use without identifier.
#[test]
fn the_placeholder_works_inside_the_batch() {
    let new = item(0x01, None, create(128, 4, Some((10, 1))));
    let bare = |operation: u32| item(operation, None, target(None));
    let mut items = vec![new, bare(0x12), item(0x11, None, allocation(None, 10)), bare(0x0A), bare(0x0B)];
    let effect = call(3, items.clone(), &keys(SMALL_COUNT));
    assert_eq!(statuses(response(&effect)), [0; 5]);
    assert_eq!(Table::decode(&effect.table).places[8].count, 0);
    items.push(item(0x11, None, allocation(None, 1)));
    let effect = call(3, items, &keys(SMALL_COUNT));
    assert_eq!(statuses(response(&effect)), [3, 3, 3, 3, 3, 1]);
    assert_undone(&effect, SMALL_COUNT);
}

/// A serial that an undone item had issued is issued by the next request, with other material.
#[test]
fn a_serial_is_issued_again() {
    let new = || item(0x01, None, create(256, 4, None));
    let undone = call(3, vec![new(), item(0x04, None, target(None)), failing()], &keys(SMALL_COUNT));
    assert_undone(&undone, SMALL_COUNT);
    let mut case = Case::new(request(None, vec![new()]).encode(), undone.table.clone());
    case.fresh.fill(0xAB);
    case.clock = CLOCK;
    let effect = case.run_all(&engines(), "undo");
    let after = Table::decode(&effect.table);
    assert_eq!((after.last, after.places[8].serial, after.places[8].material), (9, 9, [0xAB; 32]));
    assert!(effect.undo == case.second, "the second buffer without Undo");
}

/// Two items on one key: what the first did is what the second meets, and neither stays.
#[test]
fn items_meet_what_was_done_before_them() {
    let effect = call(3, vec![on(0x12, 1), on(0x12, 1)], &keys(SMALL_COUNT));
    assert_eq!(results(response(&effect)), [(0x12, None), (0x12, Some(WRONG_STATE))]);
    assert_undone(&effect, SMALL_COUNT);
    let effect = call(3, vec![on(0x12, 8)], &keys(SMALL_COUNT));
    assert_eq!(results(response(&effect)), [(0x12, Some(WRONG_STATE))], "started by its date before");
    assert_undone(&effect, SMALL_COUNT);
}

#[test]
fn sixteen_items_of_which_none_the_first_or_the_last_fails() {
    let shows = |serial: u32| item(0x0B, Some(&[serial as u8; 16]), target(Some(&identifier(serial))));
    let sixteen: Vec<Node> = (0..16).map(|index| shows(index % 8 + 1)).collect();
    let passed = call(3, sixteen.clone(), &keys(SMALL_COUNT));
    assert_eq!(statuses(response(&passed)), [0; 16]);
    assert!(passed.undo == begun(SMALL_COUNT).encode());
    for (at, answered) in [(0, 1), (15, 16)] {
        let mut items = sixteen.clone();
        items[at] = failing();
        let effect = call(3, items, &keys(SMALL_COUNT));
        assert_eq!(statuses(response(&effect)).len(), answered);
        assert_eq!(
            response(&effect).len(),
            88 + 64 * (answered - 1) + 56,
            "an undone item with an ID of 16 bytes has 64"
        );
        assert_undone(&effect, SMALL_COUNT);
    }
}

/// The undone Activate without ID, as it is printed, in a whole response.
#[test]
fn an_undone_item_has_forty_bytes() {
    let effect = call(3, vec![on(0x12, 1), item(0x14, Some(b"A1"), target(Some("00000001"))), failing()], &keys(64));
    let printed = "42007B01 000000C0 42007A01 00000048 42006901 00000020 42006A02 00000004 00000002 00000000 42006B02 \
        00000004 00000001 00000000 42009209 00000008 00000000 00000005 42000D02 00000004 00000002 00000000 42000F01 \
        00000020 42005C05 00000004 00000012 00000000 42007F05 00000004 00000003 00000000 42000F01 00000040 42005C05 \
        00000004 00000014 00000000 42009308 00000002 41310000 00000000 42007F05 00000004 00000001 00000000 42007E05 \
        00000004 00000043 00000000";
    assert_eq!(response(&effect), unhex(printed));
    assert_undone(&effect, SMALL_COUNT);
}

/// Only an accepted request under Undo touches the second buffer, and what it held plays no part.
#[test]
fn the_second_buffer_is_written_under_undo_alone() {
    for option in [None, Some(1), Some(2), Some(3)] {
        for items in [vec![on(0x12, 1)], vec![on(0x12, 1), failing()], vec![failing()]] {
            let mut case = Case::new(request(option, items).encode(), keys(SMALL_COUNT).encode());
            case.clock = CLOCK;
            let effect = case.run_all(&engines(), "undo");
            assert!(effect.served.is_ok());
            let expected = if option == Some(3) { begun(SMALL_COUNT).encode() } else { case.second.clone() };
            assert!(effect.undo == expected, "{option:?}");
            case.second.fill(0);
            let again = case.run_all(&engines(), "undo");
            assert!(again.table == effect.table && again.out == effect.out, "what the second buffer held");
            case.clock = 0;
            assert_eq!(case.run_all(&engines(), "undo").served, Err(Refusal::Clock));
        }
    }
}

#[test]
fn options_other_than_1_2_and_3_are_refused() {
    for option in [0, 4, 5, 0x103, 0x8000_0003, u32::MAX] {
        let effect = call(option, vec![on(0x12, 1)], &keys(SMALL_COUNT));
        assert_eq!(effect.served, Err(Refusal::Continuation), "option {option:X}");
    }
}

/// The same request with this option; one that has none stays as it is.
fn with_option(bytes: &[u8], option: u8) -> Vec<u8> {
    let mut bytes = bytes.to_vec();
    if bytes[58..60] == [0x0E, 0x05] {
        bytes[67] = option;
    }
    bytes
}

/// On any tables: Undo answers as many items as Stop does, with the same reason; where none fails they are the same, and
/// where one fails the table is the second buffer, which is the table that a request about no key leaves.
#[test]
fn undo_against_stop_on_any_tables() {
    let engines = engines();
    let mut undone = 0;
    for seed in 0..3_000 {
        let mut rng = Rng::new(seed);
        let table = tables::sound(&mut rng);
        let bytes = requests::all_or_none(&mut rng, &table).encode();
        if frame::read(&ttlv::read(&bytes).expect("read")).is_none() {
            continue;
        }
        let mut case = Case::new(with_option(&bytes, 2), table.encode());
        case.clock = table.latest.max(1);
        let stopped = case.run_all(&engines, "stop");
        case.request = with_option(&bytes, 3);
        let effect = case.run_all(&engines, "undo");
        case.request = request(None, vec![failing()]).encode();
        let nothing = case.run_all(&engines, "nothing");
        assert!(effect.undo == nothing.table, "seed {seed}: the second buffer");
        assert_eq!(results(response(&effect)), results(response(&stopped)), "seed {seed}");
        if statuses(response(&stopped)).contains(&1) {
            assert!(effect.table == effect.undo, "seed {seed}: the table");
            undone += 1;
        } else {
            assert!(effect.table == stopped.table && effect.out == stopped.out, "seed {seed}: all succeed");
        }
    }
    assert!((500..2_900).contains(&undone), "{undone} were undone");
}
