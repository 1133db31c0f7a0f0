//! Names, from L6: "an optional Name of 1 to 32 bytes of text"; "a name that any record in the table has, destroyed ones
//! included, fails"; "Sound names are RFC 3629 text and differ"; Locate "answers the one identifier or an empty payload".
//! Every length, every place, every byte of a stored name, and names that differ in one byte, on every engine.

mod support;

use junctionmoth::message::*;
use junctionmoth::model::operations::{identifier, Reason};
use junctionmoth::model::table::{Name, Record, Table};
use junctionmoth::model::{payload, tags, ttlv};
use junctionmoth::{blank_table, Refusal, LARGE_COUNT, SMALL_COUNT};
use std::collections::BTreeSet;
use std::str::from_utf8;
use support::names::{fault, wrong_location, wrong_name, Fault};
use support::rng::Rng;
use support::texts::{BAD, GOOD};
use support::{engines, hex, Case, Effect};

const INVALID_FIELD: Answer = Err(Reason::InvalidField as u32);
const NON_UNIQUE_NAME: Answer = Err(Reason::NonUniqueNameAttribute as u32);
const OBJECT_DESTROYED: Answer = Err(Reason::ObjectDestroyed as u32);
const OBJECT_NOT_FOUND: Answer = Err(Reason::ObjectNotFound as u32);
const PERMISSION_DENIED: Answer = Err(Reason::PermissionDenied as u32);
const SERVER_LIMIT_EXCEEDED: Answer = Err(Reason::ServerLimitExceeded as u32);

/// What an item was answered: the serial of the identifier in its payload, 0 if there is none, or its reason.
type Answer = Result<u32, u32>;

/// A call under Continue on every engine.
fn call(items: Vec<Node>, table: &[u8]) -> Effect {
    Case::new(request(Some(1), items).encode(), table.to_vec()).run_all(&engines(), "names")
}

fn answers(effect: &Effect) -> Vec<Answer> {
    let message = ttlv::read(&effect.out[..effect.served.expect("answered")]).expect("well-formed");
    let items = &message.structure(tags::RESPONSE_MESSAGE).expect("a Response Message")[1..];
    items.iter().map(|item| answer(item.structure(tags::BATCH_ITEM).expect("a Batch Item"))).collect()
}

fn answer(fields: &[ttlv::Item]) -> Answer {
    let last = fields.last().expect("a field");
    let Some(payload) = last.structure(tags::RESPONSE_PAYLOAD) else {
        return Err(last.enumeration(tags::RESULT_REASON).expect("a Result Reason"));
    };
    let name = payload.iter().find_map(|field| field.text(tags::UNIQUE_IDENTIFIER));
    Ok(name.map_or(0, |name| u32::from_str_radix(name, 16).expect("hex digits")))
}

/// A Name of any bytes.
fn raw_name(bytes: &[u8]) -> Node {
    structure(0x420053, vec![raw_text(0x420055, bytes), enumeration(0x420054, 1)])
}

fn create_named(bytes: &[u8]) -> Node {
    item(0x01, None, create_with(create(128, 4, None), raw_name(bytes)))
}

fn locate(bytes: &[u8]) -> Node {
    item(0x08, None, vec![structure(0x420125, vec![raw_name(bytes)])])
}

fn on(operation: u32, serial: u32) -> Node {
    item(operation, None, target(Some(&identifier(serial))))
}

/// An item about the placeholder.
fn then(operation: u32) -> Node {
    item(operation, None, target(None))
}

/// A key in this state, with this name.
fn key(serial: u32, state: u8, name: &[u8]) -> Record {
    Record { serial, state, length: 128, mask: 4, name: Name::of(name), ..Record::default() }
}

/// A table with a key of each of these names, with serials from 1 on; the empty one is none.
fn table_of(names: &[&[u8]]) -> Table {
    let mut table = Table::blank(SMALL_COUNT);
    table.last = names.len() as u32;
    for (place, name) in names.iter().enumerate() {
        table.places[place] = key(place as u32 + 1, 2, name);
    }
    table
}

/// The name at a place after a call.
fn name_at(effect: &Effect, place: usize) -> Option<Vec<u8>> {
    Table::decode(&effect.table).places[place].name.text().map(<[u8]>::to_vec)
}

/// Text of so many bytes: this letter over and over, with some x before it.
fn text_of(length: usize, letter: &str) -> String {
    "x".repeat(length % letter.len()) + &letter.repeat(length / letter.len())
}

#[test]
fn names_have_1_to_32_bytes() {
    for length in (0..=40).chain([63, 64, 65, 255, 256, 257, 264, 288]) {
        for text in ["x", "\0", "é", "€", "🔑"].map(|letter| text_of(length, letter).into_bytes()) {
            let effect = call(vec![create_named(&text), locate(&text), then(0x0B)], &blank_table(SMALL_COUNT));
            if (1..=32).contains(&length) {
                assert_eq!(answers(&effect), [Ok(1); 3], "{}", hex(&text));
                assert_eq!(Table::decode(&effect.table).places[0].name, Name::of(&text));
            } else {
                assert_eq!(answers(&effect), [INVALID_FIELD, INVALID_FIELD, OBJECT_NOT_FOUND], "{}", hex(&text));
            }
        }
    }
}

/// Names that differ from this one in one byte, are a byte longer, or are its front.
fn alike(name: &[u8]) -> BTreeSet<Vec<u8>> {
    let mut alike = BTreeSet::new();
    for at in 0..name.len() {
        for bit in [0x01, 0x20, 0x40] {
            let mut other = name.to_vec();
            other[at] ^= bit;
            alike.insert(other);
        }
        alike.insert(name[..at].to_vec());
    }
    for byte in [0, b' ', b'x'] {
        alike.insert([name, &[byte]].concat());
    }
    alike.into_iter().filter(|other| (1..=32).contains(&other.len())).collect()
}

/// With zero bytes at the end, in the middle and nowhere.
#[test]
fn a_name_that_differs_in_one_byte_or_in_its_length_is_another() {
    let letters: Vec<u8> = (b'A'..=b'Z').chain(b'a'..=b'f').collect();
    for length in 1..=32 {
        let mut ending = letters[..length].to_vec();
        ending[length - 1] = 0;
        let mut inside = letters[..length].to_vec();
        inside[length / 2] = 0;
        for name in [letters[..length].to_vec(), ending, inside, vec![0; length]] {
            let table = table_of(&[b"another", &name, b""]).encode();
            assert_eq!(answers(&call(vec![locate(&name), create_named(&name)], &table)), [Ok(2), NON_UNIQUE_NAME]);
            for others in alike(&name).into_iter().collect::<Vec<_>>().chunks(16) {
                let effect = call(others.iter().map(|other| locate(other)).collect(), &table);
                assert_eq!(answers(&effect), vec![Ok(0); others.len()], "like {}", hex(&name));
                let effect = call(others.iter().map(|other| create_named(other)).collect(), &table);
                let issued: Vec<Answer> = (4..).map(Ok).take(others.len()).collect();
                assert_eq!(answers(&effect), issued, "like {}", hex(&name));
            }
        }
    }
}

/// The same to the eye, or by some rule of Unicode, is not the same.
#[test]
fn names_are_compared_byte_for_byte() {
    let names = ["é", "e\u{301}", "É", "E", "e", "ａ", "a", "A", "А", "ß", "ss", "SS", " a", "a ", "ﬀ", "ff"];
    let effect = call(names.iter().map(|name| create_named(name.as_bytes())).collect(), &blank_table(SMALL_COUNT));
    let issued: Vec<Answer> = (1..=16).map(Ok).collect();
    assert_eq!(answers(&effect), issued);
    let effect = call(names.iter().map(|name| locate(name.as_bytes())).collect(), &effect.table);
    assert_eq!(answers(&effect), issued);
}

/// Whether a table with this name field is answered, by the words of L6.
fn is_sound(field: &[u8; 40]) -> bool {
    let length = usize::from(field[0]);
    let text = field[8..].get(..length);
    field[1..8] == [0; 7]
        && text.is_some_and(|text| from_utf8(text).is_ok() && field[8 + length..] == [0; 32][length..])
}

/// Every engine says the same of a table with this name field at a place, of a large table from 64 on, and what is due.
fn check_field(field: [u8; 40], state: u8, place: usize) -> bool {
    let count = if place < SMALL_COUNT { SMALL_COUNT } else { LARGE_COUNT };
    let mut table = Table::blank(count);
    table.last = 64;
    table.places[place] = key(9, state, b"");
    let mut table = table.encode();
    let at = 16 + count * 16 + 112 * place + 72;
    table[at..at + 40].copy_from_slice(&field);
    let served = call(vec![on(0x0B, 9)], &table).served;
    let sound = is_sound(&field);
    assert_eq!(served.err(), (!sound).then_some(Refusal::Table), "{} in state {state}", hex(&field));
    sound
}

#[test]
fn every_byte_of_a_name_field_is_looked_at() {
    let (mut sound, mut unsound) = (0, 0);
    for (state, place) in [(1, 0), (5, 63), (3, 255)] {
        for length in [0, 1, 8, 31, 32] {
            let mut field = [0; 40];
            field[0] = length as u8;
            field[8..8 + length].fill(b'x');
            for at in 0..40 {
                let few = [0, 1, b'y', 0x7F, 0x80, 0xC3, 0xFF];
                let bytes = if at == 0 { (0..=255).collect() } else { few.to_vec() };
                for byte in bytes {
                    let mut changed = field;
                    changed[at] = byte;
                    if check_field(changed, state, place) {
                        sound += 1;
                    } else {
                        unsound += 1;
                    }
                }
            }
        }
    }
    println!("{sound} sound and {unsound} not");
    assert!(sound > 750 && unsound > 3000);
}

/// Each edge at each place of a stored name where it fits, with x before it, and x behind it or its end there.
#[test]
fn a_stored_name_is_text() {
    for edge in GOOD.into_iter().chain(BAD.map(|(edge, _)| edge)) {
        for before in 0..=32 - edge.len() {
            for behind in [0, 1, 32 - edge.len() - before] {
                let name = [&vec![b'x'; before], edge, &vec![b'x'; behind]].concat();
                if name.len() <= 32 {
                    let mut field = [0; 40];
                    field[0] = name.len() as u8;
                    field[8..8 + name.len()].copy_from_slice(&name);
                    assert_eq!(check_field(field, 3, 40), from_utf8(&name).is_ok());
                }
            }
        }
    }
}

/// A character that the length of the name, or the end of its room, cuts is none.
#[test]
fn a_stored_name_is_not_cut_inside_a_character() {
    for edge in &GOOD[2..] {
        for cut in 1..edge.len() {
            for before in [0, 5, 32 - cut] {
                let mut field = [0; 40];
                field[0] = (before + cut) as u8;
                field[8..8 + before].fill(b'x');
                field[8 + before..8 + before + cut].copy_from_slice(&edge[..cut]);
                assert!(!check_field(field, 2, 7), "{} after {before}", hex(&edge[..cut]));
            }
        }
    }
}

/// In a request the same bytes are a name or make it malformed.
#[test]
fn a_name_that_is_asked_for_is_text() {
    for edge in GOOD {
        let effect = call(vec![create_named(edge), locate(edge), then(0x0B)], &blank_table(SMALL_COUNT));
        assert_eq!(answers(&effect), [Ok(1); 3], "{}", hex(edge));
        assert_eq!(name_at(&effect, 0), Some(edge.to_vec()));
    }
    for (edge, _) in BAD {
        for asked in [create_named(edge), locate(edge)] {
            assert_eq!(call(vec![asked], &blank_table(SMALL_COUNT)).served, Err(Refusal::Malformed), "{}", hex(edge));
        }
    }
}

/// The name of the key at a place of the full table: 32 bytes, of which the last differ.
fn name_of(place: usize) -> Vec<u8> {
    format!("station 12, row 3, step no. {place:04}").into_bytes()
}

/// Keys with names in all places, in all states.
fn full_table(count: usize) -> Table {
    let mut table = Table::blank(count);
    table.last = count as u32;
    for (place, record) in table.places.iter_mut().enumerate() {
        *record = key(place as u32 + 1, (place % 6) as u8 + 1, &name_of(place));
    }
    table
}

#[test]
fn every_key_is_located_by_its_name() {
    for count in [SMALL_COUNT, LARGE_COUNT] {
        let table = full_table(count);
        for places in (0..count).collect::<Vec<_>>().chunks(8) {
            let asked = places.iter().flat_map(|&place| [locate(&name_of(place)), then(0x0B)]);
            let effect = call(asked.collect(), &table.encode());
            let serials: Vec<Answer> = places.iter().flat_map(|&place| [Ok(place as u32 + 1); 2]).collect();
            assert_eq!(answers(&effect), serials);
            let asked = places.iter().map(|&place| create_named(&name_of(place)));
            assert_eq!(answers(&call(asked.collect(), &table.encode())), [NON_UNIQUE_NAME; 8]);
        }
        let absent = call(vec![locate(&name_of(count)), then(0x0B)], &table.encode());
        assert_eq!(answers(&absent), [Ok(0), OBJECT_NOT_FOUND]);
    }
}

/// Every two places of a small table, and every place of a large one with some others.
fn pairs_of_places() -> Vec<(usize, usize, usize)> {
    let small = (0..SMALL_COUNT).flat_map(|two| (0..two).map(move |one| (SMALL_COUNT, one, two)));
    let large = (0..LARGE_COUNT).flat_map(|two| [0, 63, 64, 254, 255].map(|one| (LARGE_COUNT, one, two)));
    small.chain(large).filter(|(_, one, two)| one != two).collect()
}

#[test]
fn no_two_places_have_the_same_name() {
    let [small, large] = [SMALL_COUNT, LARGE_COUNT].map(full_table);
    for full in [&small, &large] {
        assert!(call(vec![locate(b"x")], &full.encode()).served.is_ok(), "the table without a fault");
    }
    for (count, one, two) in pairs_of_places() {
        let mut table = if count == SMALL_COUNT { small.clone() } else { large.clone() };
        let (from, to) = if (one + two) % 2 == 0 { (one, two) } else { (two, one) };
        table.places[to].name = table.places[from].name.clone();
        let served = call(vec![locate(b"x")], &table.encode()).served;
        assert_eq!(served, Err(Refusal::Table), "{from} and {to} of {count}");
    }
    for (one, two) in [(&b"a"[..], &b"a\0"[..]), (b"a\0\0", b"a\0"), (b"\0", b"\0\0")] {
        assert_eq!(answers(&call(vec![locate(one), locate(two)], &table_of(&[two, one]).encode())), [Ok(2), Ok(1)]);
    }
}

/// What a Re-key of the one named key does, by its state; the key with serial 2 has no name.
#[test]
fn re_key_moves_the_name_if_it_succeeds() {
    for state in 1..=6 {
        let mut table = table_of(&[b"pump", b""]);
        table.places[0].state = state;
        let asked = vec![on(0x04, 1), locate(b"pump"), on(0x0B, 1), create_named(b"pump")];
        let effect = call(asked, &table.encode());
        let moved = state < 5;
        let (first, holder) = if moved { (Ok(3), 3) } else { (OBJECT_DESTROYED, 1) };
        assert_eq!(answers(&effect), [first, Ok(holder), Ok(1), NON_UNIQUE_NAME], "state {state}");
        let pump = Some(b"pump".to_vec());
        let names = [name_at(&effect, 0), name_at(&effect, 1), name_at(&effect, 2)];
        assert_eq!(names, if moved { [None, None, pump] } else { [pump, None, None] }, "state {state}");
        let before = Table::decode(&table.encode()).places[0].clone();
        let after = Table::decode(&effect.table).places[0].clone();
        let (replacement, name) = if moved { (3, Name::default()) } else { (0, Name::of(b"pump")) };
        assert_eq!(after, Record { replacement, name, ..before }, "of the old key nothing else is changed");
    }
    let unnamed = call(vec![on(0x04, 2), then(0x0B), locate(b"pump")], &table_of(&[b"pump", b""]).encode());
    assert_eq!(answers(&unnamed), [Ok(3), Ok(3), Ok(1)]);
    assert_eq!((name_at(&unnamed, 0), name_at(&unnamed, 2)), (Some(b"pump".to_vec()), None));
}

/// A Re-key that fails moves nothing; one may be made again on the replacement, and the name goes on with it.
#[test]
fn re_key_again_moves_the_name_again() {
    let asked = vec![on(0x04, 1), then(0x04), then(0x04), on(0x04, 1), locate(b"pump"), then(0x04), on(0x0B, 4)];
    let effect = call(asked, &table_of(&[b"pump"]).encode());
    assert_eq!(answers(&effect), [Ok(2), Ok(3), Ok(4), PERMISSION_DENIED, Ok(4), Ok(5), Ok(4)]);
    let names: Vec<_> = (0..5).map(|place| name_at(&effect, place)).collect();
    assert_eq!(names, [None, None, None, None, Some(b"pump".to_vec())]);
    let mut table = full_table(SMALL_COUNT);
    table.places.iter_mut().for_each(|record| record.state = 2);
    let effect = call(vec![on(0x04, 1), locate(&name_of(0))], &table.encode());
    assert_eq!(answers(&effect), [SERVER_LIMIT_EXCEEDED, Ok(1)]);
    assert_eq!(name_at(&effect, 0), Some(name_of(0)));
}

/// A new key in the place of a destroyed one: the old name is free from then on, in the same batch already.
#[test]
fn a_place_that_is_taken_over_frees_its_name() {
    let mut table = full_table(SMALL_COUNT);
    table.places.iter_mut().for_each(|record| record.state = 2);
    for place in [9, 12] {
        table.places[place].state = 5;
    }
    let (nine, twelve) = (name_of(9), name_of(12));
    let plain = || item(0x01, None, create(128, 4, None));
    let effect = call(vec![create_named(&nine), plain(), locate(&nine), create_named(&nine)], &table.encode());
    assert_eq!(answers(&effect), [NON_UNIQUE_NAME, Ok(65), Ok(0), Ok(66)]);
    assert_eq!((name_at(&effect, 9), name_at(&effect, 12)), (None, Some(nine.clone())));
    let effect = call(vec![create_named(&twelve), create_named(b"new"), create_named(&nine)], &table.encode());
    assert_eq!(answers(&effect), [NON_UNIQUE_NAME, Ok(65), Ok(66)]);
    let effect = call(vec![on(0x04, 1), locate(&name_of(0)), locate(&nine)], &table.encode());
    assert_eq!(answers(&effect), [Ok(65), Ok(65), Ok(0)]);
    assert_eq!((name_at(&effect, 0), name_at(&effect, 9)), (None, Some(name_of(0))));
}

/// Invalid Field, then Non Unique Name Attribute, then Server Limit Exceeded, whichever of them apply.
#[test]
fn the_first_reason_of_create_is_given() {
    for bits in 0..8 {
        let [invalid, taken, limited] = [bits & 1 == 1, bits & 2 == 2, bits & 4 == 4];
        let mut table = table_of(&[b"pump"]);
        table.last = if limited { u32::MAX } else { 1 };
        let payload = create(if invalid { 129 } else { 128 }, 4, None);
        let payload = create_with(payload, name(if taken { "pump" } else { "valve" }));
        let due = match (invalid, taken, limited) {
            (true, _, _) => INVALID_FIELD,
            (_, true, _) => NON_UNIQUE_NAME,
            (_, _, true) => SERVER_LIMIT_EXCEEDED,
            _ => Ok(2),
        };
        assert_eq!(answers(&call(vec![item(0x01, None, payload)], &table.encode())), [due], "{bits:03b}");
    }
}

/// All that is no name, and all that is no Locate: Invalid Field, and nothing is changed.
#[test]
fn whatever_is_no_name_is_an_invalid_field() {
    let rng = &mut Rng::new(1);
    let mut table = table_of(&[b"pump"]);
    table.latest = 1;
    let table = table.encode();
    let mut seen = BTreeSet::new();
    for _ in 0..500 {
        let wrong = wrong_name(rng, "valve");
        let creation = wrong.iter().cloned().fold(create(128, 4, Some((9, 1))), create_with);
        let locations = [vec![structure(0x420125, wrong)], wrong_location(rng, "pump")];
        for (operation, payload) in [(0x01, creation)].into_iter().chain(locations.map(|payload| (0x08, payload))) {
            seen.extend(fault_of(operation, &payload).map(|fault| (operation, fault)));
            let effect = call(vec![item(operation, None, payload)], &table);
            assert_eq!(answers(&effect), [INVALID_FIELD]);
            assert!(effect.table == table, "nothing is changed");
        }
    }
    let all = [0x01, 0x08].map(|operation| Fault::all_of(operation).into_iter().map(move |fault| (operation, fault)));
    assert_eq!(seen, all.into_iter().flatten().collect());
}

/// The fault of a payload, read back from its bytes.
fn fault_of(operation: u32, nodes: &[Node]) -> Option<Fault> {
    let fields: Vec<ttlv::Item> = nodes.iter().map(|node| ttlv::read(&node.encode()).expect("well-formed")).collect();
    assert!(payload::read(operation, &fields).is_err());
    fault(operation, &fields)
}

/// Tables from before names, and from before dates, are no tables any more.
#[test]
fn tables_of_older_sizes_are_refused() {
    for size in [4624, 5648, 8207, 8209] {
        let mut table = vec![0; size];
        table[7] = 64;
        assert_eq!(call(vec![locate(b"pump")], &table).served, Err(Refusal::Table), "{size} bytes");
    }
}
