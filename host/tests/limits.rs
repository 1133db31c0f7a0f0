//! Usage limits are for keys that can apply protection: a Create with one needs Sign (1), Encrypt (4) or MAC Generate
//! (80 hex) in its mask. Keys with limits and other masks that a table already holds are as good as any.

mod support;

use junctionmoth::message::*;
use junctionmoth::model::soundness;
use junctionmoth::model::table::{Name, Record, Table};
use junctionmoth::{ordinary, LARGE_COUNT, SMALL_COUNT};
use support::coverage::results;
use support::limits::{OTHERS, PROTECTING};
use support::{engines, unhex, Case, Effect};

const CREATE: u32 = 0x01;
const REKEY: u32 = 0x04;
const GET: u32 = 0x0A;
const ATTRIBUTES: u32 = 0x0B;
const ALLOCATE: u32 = 0x11;
const ACTIVATE: u32 = 0x12;
const REVOKE: u32 = 0x13;
const DESTROY: u32 = 0x14;

const INVALID_FIELD: Option<u32> = Some(0x07);
const USAGE_LIMIT_EXCEEDED: Option<u32> = Some(0x1A);
const NON_UNIQUE_NAME: Option<u32> = Some(0x35);
const OBJECT_NOT_FOUND: Option<u32> = Some(0x37);
const SERVER_LIMIT_EXCEEDED: Option<u32> = Some(0x3A);
const WRONG_STATE: Option<u32> = Some(0x43);

const LIMIT: Option<(i64, u32)> = Some((100, 2));

/// A call on every engine.
fn call(option: Option<u32>, items: Vec<Node>, table: &Table) -> Effect {
    Case::new(request(option, items).encode(), table.encode()).run_all(&engines(), "limits")
}

/// The reasons of the answers, in order; none for success.
fn reasons(effect: &Effect) -> Vec<Option<u32>> {
    results(response(effect)).into_iter().map(|(_, reason)| reason).collect()
}

fn response(effect: &Effect) -> &[u8] {
    &effect.out[..effect.served.expect("answered")]
}

/// The record in a place after a call.
fn record(effect: &Effect, place: usize) -> Record {
    Table::decode(&effect.table).places[place].clone()
}

fn new_key(mask: i32, limit: Option<(i64, u32)>) -> Node {
    item(CREATE, None, create(128, mask, limit))
}

fn on(operation: u32, name: Option<&str>) -> Node {
    item(operation, None, target(name))
}

fn take(name: Option<&str>, count: i64) -> Node {
    item(ALLOCATE, None, allocation(name, count))
}

/// The reason of a Create alone on a blank table; a key with this limit and mask stands there if it has none.
fn created(mask: i32, limit: Option<(i64, u32)>) -> Option<u32> {
    let blank = Table::blank(SMALL_COUNT);
    let effect = call(None, vec![new_key(mask, limit)], &blank);
    let key = record(&effect, 0);
    let reason = reasons(&effect)[0];
    if reason.is_some() {
        assert_eq!(Table::decode(&effect.table), Table { latest: 1, ..blank }, "a Create that failed");
    } else {
        let (total, unit) = limit.map_or((0, 0), |(total, unit)| (total as u64, unit as u8));
        let right = (1, 1, mask as u32, total, total, unit);
        assert_eq!((key.serial, key.state, key.mask, key.total, key.count, key.unit), right);
    }
    reason
}

/// An Active key with a limit of 100 of which 60 are left, and with any mask, as an older table may hold it.
fn older(serial: u32, mask: i32) -> Record {
    let material = [7; 32];
    let (unit, length, total, count) = (2, 256, 100, 60);
    Record { serial, state: 2, unit, length, total, count, mask: mask as u32, material, ..Record::default() }
}

/// A table with one key.
fn table_with(key: Record) -> Table {
    let mut table = Table::blank(SMALL_COUNT);
    table.last = key.serial;
    table.places[0] = key;
    table
}

/// A table of live keys with serials from 1 on, in all its places; the fourth has the name "valve".
fn full_table(count: usize) -> Table {
    let mut table = Table::blank(count);
    table.last = count as u32;
    for (serial, place) in (1..).zip(&mut table.places) {
        *place = Record { serial, state: 2, length: 128, mask: 4, ..Record::default() };
    }
    table.places[3].name = Name::of(b"valve");
    table
}

#[test]
fn each_of_the_three_uses_alone_is_enough_and_no_other() {
    for bit in 0..24 {
        let expected = if [0, 2, 7].contains(&bit) { None } else { INVALID_FIELD };
        for limit in [LIMIT, Some((1, 1)), Some((1_000_000_000_000, 2))] {
            assert_eq!(created(1 << bit, limit), expected, "bit {bit}");
        }
    }
}

#[test]
fn every_use_but_the_three_is_not_enough() {
    assert_eq!(created(0x00FF_FF7A, LIMIT), INVALID_FIELD);
    for use_of_three in [0x01, 0x04, 0x80] {
        assert_eq!(created(0x00FF_FF7A | use_of_three, LIMIT), None);
        assert_eq!(created(0x00FF_FFFF ^ use_of_three, LIMIT), None, "the other two are left");
    }
    assert_eq!((created(0x85, LIMIT), created(0x00FF_FFFF, LIMIT)), (None, None));
}

#[test]
fn a_limit_with_no_use_at_all_is_invalid() {
    assert_eq!(created(0, LIMIT), INVALID_FIELD);
}

/// All masks of the ten lowest bits, with a limit and without.
#[test]
fn the_ten_lowest_bits_in_every_combination() {
    for mask in 0..1 << 10 {
        let expected = if mask % 2 == 1 || mask / 4 % 2 == 1 || mask / 128 % 2 == 1 { None } else { INVALID_FIELD };
        assert_eq!((created(mask, LIMIT), created(mask, None)), (expected, None), "mask {mask:X}");
    }
}

#[test]
fn without_a_limit_any_mask_is_taken() {
    for mask in PROTECTING.into_iter().chain(OTHERS) {
        assert_eq!(created(mask, None), None, "mask {mask:X}");
    }
}

/// A mask above 00FFFFFF, or below 0, stays invalid with the three uses in it.
#[test]
fn a_mask_that_is_not_allowed_is_so_with_any_use() {
    for mask in [0x0100_0000, 0x0100_0085, -1, i32::MIN | 0x85, i32::MIN, i32::MAX] {
        assert_eq!((created(mask, LIMIT), created(mask, None)), (INVALID_FIELD, INVALID_FIELD), "mask {mask:X}");
    }
}

/// Neither dates nor a name make up for it.
#[test]
fn what_stands_behind_the_limit_does_not_matter() {
    let blank = Table::blank(SMALL_COUNT);
    for mask in PROTECTING.into_iter().chain(OTHERS) {
        let expected = if PROTECTING.contains(&mask) { None } else { INVALID_FIELD };
        for dates in [(None, None), (Some(8), None), (None, Some(9)), (Some(8), Some(9))] {
            for limit in [LIMIT, None] {
                let payload = create_with(create_dated(128, mask, limit, dates), name("pump"));
                let effect = call(None, vec![item(CREATE, None, payload)], &blank);
                assert_eq!(reasons(&effect), [expected.filter(|_| limit.is_some())], "mask {mask:X}");
            }
        }
    }
}

/// Invalid Field comes before Non Unique Name Attribute and before Server Limit Exceeded.
#[test]
fn the_mask_is_tested_with_the_other_values() {
    let mut last = Table::blank(SMALL_COUNT);
    last.last = u32::MAX;
    for table in [full_table(SMALL_COUNT), full_table(LARGE_COUNT), last] {
        let taken = table.places[3].name.text().map(|_| NON_UNIQUE_NAME).unwrap_or(SERVER_LIMIT_EXCEEDED);
        for mask in PROTECTING.into_iter().chain(OTHERS) {
            let protects = PROTECTING.contains(&mask);
            let due = |reason| if protects { reason } else { INVALID_FIELD };
            let named = |text| item(CREATE, None, create_with(create(128, mask, LIMIT), name(text)));
            let effect = call(Some(1), vec![new_key(mask, LIMIT), named("valve"), named("tap")], &table);
            assert_eq!(reasons(&effect), [due(SERVER_LIMIT_EXCEEDED), due(taken), due(SERVER_LIMIT_EXCEEDED)]);
            let free = call(Some(1), vec![new_key(mask, None)], &table);
            assert_eq!(reasons(&free), [SERVER_LIMIT_EXCEEDED]);
        }
    }
    let mut table = full_table(SMALL_COUNT);
    table.places[9] = Record::default();
    let named = |mask| item(CREATE, None, create_with(create(128, mask, LIMIT), name("valve")));
    assert_eq!(reasons(&call(Some(1), vec![named(8), named(4)], &table)), [INVALID_FIELD, NON_UNIQUE_NAME]);
}

/// It fails as any other item: it stops the batch, empties the placeholder or undoes what was done.
#[test]
fn a_create_that_fails_so_counts_as_a_failure() {
    let blank = Table::blank(SMALL_COUNT);
    let items = || vec![new_key(4, LIMIT), new_key(8, LIMIT), on(ACTIVATE, None), new_key(1, LIMIT)];
    assert_eq!(reasons(&call(None, items(), &blank)), [None, INVALID_FIELD]);
    let effect = call(Some(1), items(), &blank);
    assert_eq!(reasons(&effect), [None, INVALID_FIELD, OBJECT_NOT_FOUND, None]);
    assert_eq!(
        (record(&effect, 1).serial, record(&effect, 1).mask),
        (2, 1),
        "the strip's part, and no serial, is lost"
    );
    assert_eq!(record(&effect, 1).material[..16], (96..112).collect::<Vec<u8>>());
    let undone = call(Some(3), items(), &blank);
    assert_eq!(reasons(&undone), [None, INVALID_FIELD]);
    assert_eq!(Table::decode(&undone.table), Table { latest: 1, ..blank });
}

/// The response to one Create with a limit and Decrypt alone, worked out by hand.
#[test]
fn the_answer_is_that_of_any_invalid_field() {
    let effect = call(None, vec![new_key(8, LIMIT)], &Table::blank(SMALL_COUNT));
    let printed = "42007B01 00000088 42007A01 00000048 42006901 00000020 42006A02 00000004 00000002 00000000 42006B02 \
        00000004 00000001 00000000 42009209 00000008 00000000 00000001 42000D02 00000004 00000001 00000000 42000F01 \
        00000030 42005C05 00000004 00000001 00000000 42007F05 00000004 00000001 00000000 42007E05 00000004 00000007 \
        00000000";
    assert_eq!(response(&effect), unhex(printed));
}

#[test]
fn tables_that_hold_a_limit_with_another_mask_are_sound() {
    for mask in OTHERS {
        for state in 1..=6 {
            let mut key = Record { state, ..older(1, mask) };
            if state >= 5 {
                key.material = [0; 32];
            }
            let bytes = table_with(key).encode();
            assert!(soundness::broken(&bytes).is_empty() && ordinary::sound(&bytes), "mask {mask:X}, state {state}");
        }
    }
}

#[test]
fn units_of_such_a_key_are_granted() {
    for mask in OTHERS {
        let table = table_with(older(1, mask));
        let one = Some("00000001");
        let effect = call(None, vec![take(one, 20), take(one, 40), take(one, 1)], &table);
        assert_eq!(reasons(&effect), [None, None, USAGE_LIMIT_EXCEEDED]);
        assert_eq!(
            (record(&effect, 0).total, record(&effect, 0).count, record(&effect, 0).mask),
            (100, 0, mask as u32)
        );
    }
}

/// The replacement begins with the whole limit and the same mask, with Offset and without, and so does the next one.
#[test]
fn rekey_copies_limit_and_mask_of_such_a_key() {
    for mask in OTHERS {
        for first in [target(Some("00000001")), replacement(Some("00000001"), 0), replacement(Some("00000001"), 9)] {
            let table = table_with(older(1, mask));
            let effect = call(None, vec![item(REKEY, None, first), on(REKEY, None)], &table);
            assert_eq!(reasons(&effect), [None; 2]);
            for place in [1, 2] {
                let new = record(&effect, place);
                assert_eq!((new.mask, new.unit, new.total, new.count), (mask as u32, 2, 100, 100), "mask {mask:X}");
            }
            assert_eq!(record(&effect, 0).count, 60);
        }
    }
}

/// The replacement of such a key is activated and granted from; a Create of what it is would be invalid.
#[test]
fn the_replacement_is_of_use() {
    let table = table_with(older(1, 8));
    let items =
        vec![on(REKEY, Some("00000001")), on(ACTIVATE, None), take(None, 100), take(None, 1), new_key(8, LIMIT)];
    let effect = call(Some(1), items, &table);
    assert_eq!(reasons(&effect), [None, None, None, USAGE_LIMIT_EXCEEDED, INVALID_FIELD]);
    assert_eq!((record(&effect, 1).mask, record(&effect, 1).count), (8, 0));
}

/// Get Attributes shows mask and limit; Get, Revoke and Destroy take such a key for any other, and so do dates.
#[test]
fn such_a_key_is_shown_and_goes_through_its_states() {
    let one = Some("00000001");
    let table = table_with(older(1, 8));
    let shown = call(None, vec![on(ATTRIBUTES, one)], &table);
    let mask = "42002C02 00000004 00000008 00000000";
    let limit = "42009501 00000030 42009703 00000008 00000000 00000064 42009603 00000008 00000000 0000003C 42009805 \
        00000004 00000002 00000000";
    for printed in [unhex(mask), unhex(limit)] {
        assert!(response(&shown).windows(printed.len()).any(|bytes| bytes == printed));
    }
    let revoke = item(REVOKE, None, revocation(one, 1));
    let items = vec![on(GET, one), revoke, take(one, 1), on(DESTROY, one), on(ATTRIBUTES, one)];
    let effect = call(Some(1), items, &table);
    assert_eq!(reasons(&effect), [None, None, WRONG_STATE, None, None]);
    let mut waiting = table_with(Record { state: 1, activation: 1, deactivation: 9, ..older(1, 8) });
    waiting.places[0].name = Name::of(b"pump");
    let effect = call(None, vec![take(one, 60)], &waiting);
    assert_eq!((reasons(&effect), record(&effect, 0).state, record(&effect, 0).count), (vec![None], 2, 0));
}

/// In every place of a full table, small or large: the table is taken, and the key is granted from.
#[test]
fn such_keys_may_stand_anywhere() {
    for count in [SMALL_COUNT, LARGE_COUNT] {
        let mut table = full_table(count);
        for (place, key) in table.places.iter_mut().enumerate() {
            *key = older(key.serial, OTHERS[place % OTHERS.len()]);
        }
        for place in [0, 1, 31, 62, 63, 64, 65, 128, 254, 255].into_iter().filter(|&place| place < count) {
            let text = format!("{:08X}", place + 1);
            let effect = call(None, vec![take(Some(&text), 60), on(ATTRIBUTES, Some(&text))], &table);
            assert_eq!((reasons(&effect), record(&effect, place).count), (vec![None, None], 0), "place {place}");
        }
    }
}
