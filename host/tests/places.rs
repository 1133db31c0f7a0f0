//! Place counts, from L7: "The lead's place count may be 64 or 256; the table's size follows from it, and any other count is
//! refusal 3"; what is sound, where a new key goes and what stays is the same for both. Wrong counts and sizes, and every
//! place of a large table, on every engine.

mod support;

use junctionmoth::message::*;
use junctionmoth::model::operations::identifier;
use junctionmoth::model::soundness;
use junctionmoth::model::table::{Name, Record, Table};
use junctionmoth::{blank_table, ordinary, Refusal, LARGE_COUNT, LARGE_SIZE, SMALL_COUNT, SMALL_SIZE};
use support::coverage::results;
use support::{engines, Case, Effect};

/// A Create of a key with a limit of 100.
fn create_request() -> Vec<u8> {
    request(None, vec![item(0x01, None, create(128, 4, Some((100, 2))))]).encode()
}

/// A call with room and strip right; `run_all` sees to it that a refusal leaves table and output untouched.
fn call(request: &[u8], table: &[u8]) -> Effect {
    Case::new(request.to_vec(), table.to_vec()).run_all(&engines(), "places")
}

/// What a table is refused with, if it is; the ordinary check by itself says the same.
fn refusal(table: &[u8]) -> Option<Refusal> {
    let refusal = call(&create_request(), table).served.err();
    assert_eq!(ordinary::sound(table), refusal.is_none());
    refusal
}

/// Operation and reason of each answer.
fn answers(effect: &Effect) -> Vec<(u32, Option<u32>)> {
    results(&effect.out[..effect.served.expect("answered")])
}

/// A table that is all zero but for this place count, of this size.
fn zeros_with(count: u32, size: usize) -> Vec<u8> {
    let mut table = vec![0; size];
    table.iter_mut().skip(4).zip(count.to_be_bytes()).for_each(|(byte, said)| *byte = said);
    table
}

#[test]
fn counts_other_than_64_and_256_are_refused_with_3() {
    for count in [0, 1, 2, 63, 65, 127, 128, 192, 255, 257, 320, 512, 0x4000, 0x1_0040, 0x1_0100, 0x4000_0000, u32::MAX]
    {
        for size in [SMALL_SIZE, LARGE_SIZE] {
            assert_eq!(refusal(&zeros_with(count, size)), Some(Refusal::Table), "count {count}, {size} bytes");
        }
    }
    for count in [1, 63, 65, 128, 255] {
        let size = 16 + 128 * count as usize;
        assert_eq!(refusal(&zeros_with(count, size)), Some(Refusal::Table), "count {count} and its own {size} bytes");
    }
    assert_eq!(refusal(&zeros_with(0, 16)), Some(Refusal::Table), "a lead alone that says none");
}

#[test]
fn each_count_has_its_size_and_no_other() {
    for (count, size) in [(64, 8208), (256, 32784)] {
        assert_eq!(refusal(&zeros_with(count, size)), None, "count {count}, {size} bytes");
        for wrong in [size - 1, size + 1, size - 8, size + 8, size - 128, size + 128, 41_000 - size, 16, 17] {
            let table = zeros_with(count, wrong.min(33_792));
            assert_eq!(refusal(&table), Some(Refusal::Table), "count {count}, {} bytes", table.len());
        }
    }
    assert_eq!(refusal(&zeros_with(256, SMALL_SIZE)), Some(Refusal::Table), "256 places, the size of 64");
    assert_eq!(refusal(&zeros_with(64, LARGE_SIZE)), Some(Refusal::Table), "64 places, the size of 256");
}

/// As far as there is a count in such a table, it says 64 or 256.
#[test]
fn tables_without_a_whole_lead_are_refused_with_3() {
    for size in 0..=15 {
        for count in [0, 64, 256] {
            assert_eq!(refusal(&zeros_with(count, size)), Some(Refusal::Table), "{size} bytes");
        }
    }
}

/// A key like others, at a place: its serial is the place and one more.
fn key(place: usize) -> Record {
    let name = Name::of(format!("step {place}").as_bytes());
    let (total, count, material) = (100, 50, [place as u8 | 1; 32]);
    let serial = place as u32 + 1;
    Record { serial, state: 2, unit: 2, length: 256, total, count, mask: 4, material, name, ..Record::default() }
}

/// A key with a name at every place.
fn full(count: usize) -> Table {
    let mut table = Table::blank(count);
    table.last = count as u32;
    table.places = (0..count).map(key).collect();
    table
}

/// The records of a call that differ from those before it, by place.
fn changed(before: &Table, effect: &Effect) -> Vec<usize> {
    let after = Table::decode(&effect.table);
    assert_eq!((after.place_count, after.places.len()), (before.place_count, before.places.len()), "the count stays");
    (0..after.places.len()).filter(|&place| after.places[place] != before.places[place]).collect()
}

/// The one free place of a full table, wherever it is, goes to the new key; then a destroyed one; else there is none.
#[test]
fn a_new_key_goes_to_the_one_place_that_is_left() {
    for count in [SMALL_COUNT, LARGE_COUNT] {
        for place in 0..count {
            let mut table = full(count);
            table.places[place] = Record::default();
            let effect = call(&create_request(), &table.encode());
            assert_eq!((answers(&effect), changed(&table, &effect)), (vec![(0x01, None)], vec![place]), "free");
            table.places[place] = Record { state: 5, material: [0; 32], ..key(place) };
            let effect = call(&create_request(), &table.encode());
            assert_eq!((answers(&effect), changed(&table, &effect)), (vec![(0x01, None)], vec![place]), "destroyed");
            table.places[place] = Record { state: 4, ..key(place) };
            let effect = call(&create_request(), &table.encode());
            assert_eq!((answers(&effect), changed(&table, &effect)), (vec![(0x01, Some(0x3A))], vec![]), "live");
        }
    }
}

/// Of two places that are left the lower one is taken; a free one before a destroyed one.
#[test]
fn the_lowest_place_is_taken() {
    let destroyed = |place| Record { state: 6, material: [0; 32], ..key(place) };
    for (low, high) in [(0, 1), (62, 63), (63, 64), (64, 65), (127, 128), (0, 255), (63, 255), (254, 255)] {
        for (first, second, due) in [
            (Record::default(), Record::default(), low),
            (Record::default(), destroyed(high), low),
            (destroyed(low), Record::default(), high),
            (destroyed(low), destroyed(high), low),
        ] {
            let mut table = full(LARGE_COUNT);
            (table.places[low], table.places[high]) = (first, second);
            assert_eq!(changed(&table, &call(&create_request(), &table.encode())), [due], "{low} and {high}");
        }
    }
}

/// Places on both sides of every border that a count, a byte or half of either makes.
const BORDERS: [usize; 12] = [0, 1, 31, 62, 63, 64, 65, 127, 128, 192, 254, 255];

/// Every operation on the key of a place changes this key alone, and Re-key its replacement's place.
#[test]
fn every_operation_finds_its_key() {
    for place in BORDERS {
        let name = identifier(place as u32 + 1);
        let name = Some(&*name);
        let mut waiting = full(LARGE_COUNT);
        waiting.places[place].state = 1;
        for (operation, payload, alters) in [
            (0x0A, target(name), false),
            (0x0B, target(name), false),
            (0x11, allocation(name, 50), true),
            (0x12, target(name), true),
            (0x13, revocation(name, 5), true),
            (0x13, revocation(name, 2), true),
            (0x14, target(name), true),
            (0x08, location(&format!("step {place}")), false),
        ] {
            let table = if [0x12, 0x14].contains(&operation) { &waiting } else { &full(LARGE_COUNT) };
            let effect = call(&request(None, vec![item(operation, None, payload)]).encode(), &table.encode());
            assert_eq!(answers(&effect), [(operation, None)], "operation {operation:X} at {place}");
            assert_eq!(changed(table, &effect), if alters { vec![place] } else { vec![] });
        }
        let other = (place + 100) % LARGE_COUNT;
        let mut table = full(LARGE_COUNT);
        table.places[other] = Record::default();
        let effect = call(&request(None, vec![item(0x04, None, target(name))]).encode(), &table.encode());
        assert_eq!(answers(&effect), [(0x04, None)]);
        assert_eq!(changed(&table, &effect), [place.min(other), place.max(other)], "the key and its replacement");
    }
}

/// What an undone batch did is taken back at every place: a change of state, a grant, and a new key in the place that is left.
#[test]
fn an_undone_batch_leaves_no_place_changed() {
    for place in BORDERS {
        let other = (place + 100) % LARGE_COUNT;
        let name = identifier(place as u32 + 1);
        let mut table = full(LARGE_COUNT);
        table.places[other] = Record::default();
        let items = vec![
            item(0x11, None, allocation(Some(&name), 50)),
            item(0x04, None, target(Some(&name))),
            item(0x13, None, revocation(Some(&name), 2)),
            item(0x14, None, target(Some(&name))),
            item(0x0A, None, target(Some(&name))),
        ];
        let done = call(&request(Some(2), items.clone()).encode(), &table.encode());
        assert_eq!(changed(&table, &done), [place.min(other), place.max(other)], "under Stop");
        let undone = call(&request(Some(3), items).encode(), &table.encode());
        assert_eq!(answers(&undone), answers(&done), "the last fails under both");
        assert_eq!(changed(&table, &undone), [], "undone at {place} and {other}");
        assert!(undone.undo == undone.table, "the second buffer");
    }
}

/// Dates are looked at in every place, and nothing else is changed.
#[test]
fn changes_are_made_at_every_place_where_they_are_due() {
    for due in BORDERS.into_iter().map(|place| vec![place]).chain([(0..LARGE_COUNT).collect()]) {
        let mut table = full(LARGE_COUNT);
        for &place in &due {
            (table.places[place].state, table.places[place].activation) = (1, 7);
        }
        let mut case =
            Case::new(request(None, vec![item(0x0B, None, target(Some("00000000")))]).encode(), table.encode());
        case.clock = 6;
        assert_eq!(changed(&table, &case.run_all(&engines(), "places")), []);
        case.clock = 7;
        let effect = case.run_all(&engines(), "places");
        assert_eq!(changed(&table, &effect), due);
        assert!(Table::decode(&effect.table).places.iter().all(|record| record.state == 2));
    }
}

/// A rule, and a way to break it at a record.
type Fault = (&'static str, fn(&mut Record));

/// In what ways a record alone is not sound, among records that are.
fn faults() -> Vec<Fault> {
    vec![
        ("free line", |record| *record = Record { replacement: 1, ..Record::default() }),
        ("free body", |record| *record = Record { activation: 1, ..Record::default() }),
        ("body zeros", |record| record.zeros = 1),
        ("serials distinct", |record| record.serial = 33),
        ("serial issued", |record| record.serial = 257),
        ("state", |record| record.state = 7),
        ("length", |record| record.length = 257),
        ("mask", |record| record.mask = 0x0100_0000),
        ("unit", |record| record.unit = 3),
        ("no limit", |record| record.unit = 0),
        ("total", |record| record.total = 1_000_000_000_001),
        ("count", |record| record.count = 101),
        ("material past length", |record| record.length = 128),
        ("material destroyed", |record| record.state = 5),
        ("replaced", |record| record.replaced = 300),
        ("replacement", |record| record.replacement = 300),
        ("replaced names back", |record| record.replaced = record.serial - 1),
        ("replacement names back", |record| record.replacement = record.serial + 1),
        ("dates not negative", |record| record.deactivation = -1),
        ("dates in order", |record| (record.state, record.activation, record.deactivation) = (3, 9, 8)),
        ("Active has begun", |record| record.activation = 1),
        ("name length", |record| (record.name.length, record.name.room) = (33, [b'x'; 32])),
        ("name zeros", |record| record.name.zeros[6] = 1),
        ("name past length", |record| record.name.room[31] = b'x'),
        ("name is text", |record| record.name = Name::of(b"\xFF")),
        ("names differ", |record| record.name = Name::of(b"step 32")),
    ]
}

/// Each fault at each of these places, of a table that is sound but for it. Place 32 has the key that others are made like;
/// a first key replaces none, and a last key is not replaced.
#[test]
fn a_fault_is_found_at_every_place() {
    let mut met = std::collections::BTreeSet::new();
    for place in BORDERS {
        for (rule, fault) in faults() {
            let mut table = full(LARGE_COUNT);
            fault(&mut table.places[place]);
            let bytes = table.encode();
            if (place, rule) != (0, "replaced names back") && (place, rule) != (255, "replacement names back") {
                assert_eq!(refusal(&bytes), Some(Refusal::Table), "{rule} at {place}");
                assert_eq!(soundness::broken(&bytes), [rule], "at {place}");
                met.insert(rule);
            }
        }
    }
    let whole = ["size", "place count", "size of the place count", "latest clock not negative"];
    assert!(soundness::names().into_iter().all(|rule| whole.contains(&rule) || met.contains(rule)), "{met:?}");
}

/// Where a small table ends, a large one goes on: a table of 64 places inside one of 256 is not read as such.
#[test]
fn lines_and_bodies_stand_where_the_count_puts_them() {
    for (count, line, body) in [(SMALL_COUNT, 16 + 63 * 16, 8208 - 112), (LARGE_COUNT, 16 + 255 * 16, 32784 - 112)] {
        let mut table = Table::blank(count);
        table.last = 256;
        table.places[count - 1] = key(count - 1);
        let bytes = table.encode();
        assert_eq!(bytes[line..line + 4], (count as u32).to_be_bytes());
        assert_eq!(bytes[body..body + 8], 100_u64.to_be_bytes());
        let taken = request(None, vec![item(0x11, None, allocation(Some(&identifier(count as u32)), 50))]).encode();
        let effect = call(&taken, &bytes);
        assert_eq!(answers(&effect), [(0x11, None)]);
        let differing: Vec<usize> = (0..bytes.len()).filter(|&at| bytes[at] != effect.table[at]).collect();
        assert_eq!(differing, [15, body + 15], "the clock and the count");
    }
    let mut inside = blank_table(LARGE_COUNT);
    let mut small = full(SMALL_COUNT);
    small.place_count = LARGE_COUNT as u32;
    inside[..SMALL_SIZE].copy_from_slice(&small.encode());
    assert_eq!(refusal(&inside), Some(Refusal::Table));
}
