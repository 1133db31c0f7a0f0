//! The bench cards of the plan, and the encodings printed for it, on every engine that is there.
//! Bytes stand as they are printed; they were not made by any of the engines.

mod support;

use junctionmoth::message::*;
use junctionmoth::model::table::{Name, Record, Table};
use junctionmoth::model::ttlv::{self, Item, Value};
use junctionmoth::{blank_table, Refusal, Served, LARGE_COUNT, SMALL_COUNT};
use support::coverage::results;
use support::{engines, unhex, Case, Effect};

const CREATE: u32 = 0x01;
const REKEY: u32 = 0x04;
const LOCATE: u32 = 0x08;
const ALLOCATE: u32 = 0x11;
const ACTIVATE: u32 = 0x12;
const REVOKE: u32 = 0x13;
const DESTROY: u32 = 0x14;
const ATTRIBUTES: u32 = 0x0B;

const INVALID_FIELD: Option<u32> = Some(0x07);
const PERMISSION_DENIED: Option<u32> = Some(0x0C);
const USAGE_LIMIT_EXCEEDED: Option<u32> = Some(0x1A);
const NON_UNIQUE_NAME: Option<u32> = Some(0x35);
const OBJECT_DESTROYED: Option<u32> = Some(0x36);
const OBJECT_NOT_FOUND: Option<u32> = Some(0x37);
const SERVER_LIMIT_EXCEEDED: Option<u32> = Some(0x3A);
const WRONG_STATE: Option<u32> = Some(0x43);

/// A blank table as the bench program has it.
fn blank() -> Vec<u8> {
    blank_table(SMALL_COUNT)
}

/// A call on every engine.
fn call(request: Vec<u8>, table: &[u8]) -> Effect {
    Case::new(request, table.to_vec()).run_all(&engines(), "card")
}

/// The reasons of the answers, in order; none for success.
fn reasons(effect: &Effect) -> Vec<Option<u32>> {
    let length = effect.served.expect("answered");
    results(&effect.out[..length]).into_iter().map(|(_, reason)| reason).collect()
}

fn response(effect: &Effect) -> &[u8] {
    &effect.out[..effect.served.expect("answered")]
}

fn refusal(bytes: &str) -> Served {
    call(unhex(bytes), &blank()).served
}

fn new_key(limit: Option<(i64, u32)>) -> Node {
    item(CREATE, None, create(128, 4, limit))
}

fn new_key_named(text: &str) -> Node {
    item(CREATE, None, create_with(create(128, 4, None), name(text)))
}

fn locate(text: &str) -> Node {
    item(LOCATE, None, location(text))
}

fn on(operation: u32, name: Option<&str>) -> Node {
    item(operation, None, target(name))
}

fn take(name: Option<&str>, count: i64) -> Node {
    item(ALLOCATE, None, allocation(name, count))
}

fn revoke(name: Option<&str>, code: u32) -> Node {
    item(REVOKE, None, revocation(name, code))
}

fn batch(option: Option<u32>, items: Vec<Node>) -> Vec<u8> {
    request(option, items).encode()
}

/// The record in a place after a call.
fn record(effect: &Effect, place: usize) -> Record {
    Table::decode(&effect.table).places[place].clone()
}

#[test]
fn integer_8_is_read_and_its_padding_must_be_zero() {
    let integer = Item { tag: 0x420020, value: Value::Integer(8) };
    assert_eq!(ttlv::read(&unhex("42002002 00000004 00000008 00000000")), Some(integer));
    assert_eq!(ttlv::read(&unhex("42002002 00000004 00000008 00000001")), None);
    assert_eq!(refusal("42002002 00000004 00000008 00000000"), Err(Refusal::Frame));
    assert_eq!(refusal("42002002 00000004 00000008 00000001"), Err(Refusal::Malformed));
}

#[test]
fn boolean_2_is_malformed() {
    assert_eq!(refusal("42002006 00000008 00000000 00000001"), Err(Refusal::Frame));
    assert_eq!(refusal("42002006 00000008 00000000 00000000"), Err(Refusal::Frame));
    assert_eq!(refusal("42002006 00000008 00000000 00000002"), Err(Refusal::Malformed));
    assert_eq!(refusal("42002006 00000008 01000000 00000001"), Err(Refusal::Malformed));
}

#[test]
fn text_of_8_takes_16_and_of_9_takes_24() {
    let text = |text: &str| Item { tag: 0x420020, value: Value::Text(text.into()) };
    assert_eq!(ttlv::write(&text("ABCDEFGH")), unhex("42002007 00000008 41424344 45464748"));
    assert_eq!(ttlv::write(&text("ABCDEFGHI")), unhex("42002007 00000009 41424344 45464748 49000000 00000000"));
    assert_eq!(refusal("42002007 00000008 41424344 45464748"), Err(Refusal::Frame));
    assert_eq!(refusal("42002007 00000009 41424344 45464748 49000000 00000000"), Err(Refusal::Frame));
    assert_eq!(refusal("42002007 00000009 41424344 45464748"), Err(Refusal::Malformed));
}

#[test]
fn depth_8_is_read_and_depth_9_refused() {
    let nested =
        |depth: usize| (1..depth).fold(structure(0x420001, vec![]), |inner, _| structure(0x420001, vec![inner]));
    assert_eq!(call(nested(8).encode(), &blank()).served, Err(Refusal::Frame));
    assert_eq!(call(nested(9).encode(), &blank()).served, Err(Refusal::Malformed));
}

/// The examples of KMIP 1.x, section 9.1.2, and one of a Date-Time Extended: meaning and bytes.
fn examples() -> Vec<(Value, &'static str)> {
    let inner = vec![
        Item { tag: 0x420004, value: Value::Enumeration(254) },
        Item { tag: 0x420005, value: Value::Integer(255) },
    ];
    let big = 1_234_567_890_000_000_000_000_000_000_i128;
    vec![
        (Value::Integer(8), "42002002 00000004 00000008 00000000"),
        (Value::LongInteger(123_456_789_000_000_000), "42002003 00000008 01B69B4B A5749200"),
        (Value::BigInteger(big.to_be_bytes().to_vec()), "42002004 00000010 00000000 03FD35EB 6BC2DF46 18080000"),
        (Value::Enumeration(255), "42002005 00000004 000000FF 00000000"),
        (Value::Boolean(true), "42002006 00000008 00000000 00000001"),
        (Value::Text("Hello World".into()), "42002007 0000000B 48656C6C 6F20576F 726C6400 00000000"),
        (Value::Bytes(vec![1, 2, 3]), "42002008 00000003 01020300 00000000"),
        (Value::DateTime(1_205_495_800), "42002009 00000008 00000000 47DA67F8"),
        (Value::Interval(864_000), "4200200A 00000004 000D2F00 00000000"),
        (Value::DateTimeExtended(1_205_495_800_000_000), "4200200B 00000008 00044864 5CEFEE00"),
        (
            Value::Structure(inner),
            "42002001 00000020 42000405 00000004 000000FE 00000000 42000502 00000004 000000FF 00000000",
        ),
    ]
}

#[test]
fn examples_are_read_and_written_and_are_no_requests() {
    for (value, bytes) in examples() {
        let item = Item { tag: 0x420020, value };
        assert_eq!(ttlv::read(&unhex(bytes)), Some(item.clone()));
        assert_eq!(ttlv::write(&item), unhex(bytes));
        assert_eq!(refusal(bytes), Err(Refusal::Frame));
    }
}

#[test]
fn malformed_variants_are_refused() {
    for bytes in [
        "42002000 00000004 00000008 00000000",
        "4200200C 00000004 00000008 00000000",
        "42002081 00000004 00000008 00000000",
        "54002002 00000004 00000008 00000000",
        "00002002 00000004 00000008 00000000",
        "42002002 00000008 00000008 00000000",
        "42002004 00000000",
        "42002004 00000004 00000000 00000000",
        "42002004 0000000C 00000000 00000000 00000000 00000000",
        "42002007 00000001 80000000 00000000",
        "42002007 00000002 C0800000 00000000",
        "42002007 00000003 EDA08000 00000000",
        "42002007 00000004 F4908080 00000000",
        "42002007 00000001 C2000000 00000000",
        "42002007 00000001 C2800000 00000000",
        "42002008 00000003 01020301 00000000",
        "42002001 00000021 42000405 00000004 000000FE 00000000 42000502 00000004 000000FF 00000000",
        "42002001 00000018 42000405 00000004 000000FE 00000000 42000502 00000004 000000FF 00000000",
        "42002001 00000028 42000405 00000004 000000FE 00000000 42000502 00000004 000000FF 00000000",
        "42002002 00000004 00000008 00000000 00000000 00000000",
        "42002008 FFFFFFFF 00000000 00000000",
        "42002008 FFFFFFF9 00000000 00000000",
        "42",
        "42002002 000000",
    ] {
        assert_eq!(refusal(bytes), Err(Refusal::Malformed), "{bytes}");
    }
}

#[test]
fn text_of_other_letters_is_read_and_written() {
    for (text, bytes) in [
        ("\0", "42002007 00000001 00000000 00000000"),
        ("\u{1F}", "42002007 00000001 1F000000 00000000"),
        ("\u{7F}", "42002007 00000001 7F000000 00000000"),
        ("ключ", "42002007 00000008 D0BAD0BB D18ED187"),
        ("clé", "42002007 00000004 636CC3A9 00000000"),
        ("€", "42002007 00000003 E282AC00 00000000"),
        ("🔑", "42002007 00000004 F09F9491 00000000"),
    ] {
        let item = Item { tag: 0x420020, value: Value::Text(text.into()) };
        assert_eq!(ttlv::read(&unhex(bytes)), Some(item.clone()));
        assert_eq!(ttlv::write(&item), unhex(bytes));
        assert_eq!(refusal(bytes), Err(Refusal::Frame));
    }
}

#[test]
fn empty_strings_and_structures_are_well_formed() {
    for bytes in ["42002001 00000000", "42002007 00000000", "42002008 00000000"] {
        assert_eq!(refusal(bytes), Err(Refusal::Frame), "{bytes}");
    }
}

#[test]
fn grants_of_60_and_40_use_up_100() {
    let items = vec![new_key(Some((100, 2))), on(ACTIVATE, None), take(None, 60), take(None, 40), take(None, 1)];
    let effect = call(batch(None, items), &blank());
    assert_eq!(reasons(&effect), [None, None, None, None, USAGE_LIMIT_EXCEEDED]);
    assert_eq!(record(&effect, 0).count, 0);
}

#[test]
fn a_grant_of_101_on_100_changes_nothing() {
    let effect = call(batch(None, vec![new_key(Some((100, 2))), on(ACTIVATE, None), take(None, 101)]), &blank());
    assert_eq!(reasons(&effect), [None, None, USAGE_LIMIT_EXCEEDED]);
    assert_eq!(record(&effect, 0).count, 100);
}

#[test]
fn an_active_key_is_revoked_before_it_is_destroyed() {
    let one = Some("00000001");
    let items = vec![new_key(None), on(ACTIVATE, None), on(DESTROY, None), revoke(one, 5), on(DESTROY, one)];
    let effect = call(batch(Some(1), items), &blank());
    assert_eq!(reasons(&effect), [None, None, WRONG_STATE, None, None]);
    assert_eq!((record(&effect, 0).state, record(&effect, 0).material), (5, [0; 32]));
    let later = call(batch(None, vec![revoke(one, 2)]), &effect.table);
    assert_eq!((reasons(&later), record(&later, 0).state), (vec![None], 6));
    let again = call(batch(Some(1), vec![on(DESTROY, one), on(REKEY, one), revoke(one, 2)]), &later.table);
    assert_eq!(reasons(&again), [OBJECT_DESTROYED, OBJECT_DESTROYED, WRONG_STATE]);
}

#[test]
fn a_key_is_rekeyed_once() {
    let items = vec![new_key(Some((9, 1))), on(REKEY, None), on(REKEY, Some("00000001"))];
    let effect = call(batch(None, items), &blank());
    assert_eq!(reasons(&effect), [None, None, PERMISSION_DENIED]);
    let (old, new) = (record(&effect, 0), record(&effect, 1));
    assert_eq!((old.replaced, old.replacement, new.replaced, new.replacement), (0, 2, 1, 0));
    assert_eq!((new.state, new.total, new.count, new.material[0]), (1, 9, 9, 32));
}

#[test]
fn a_replacement_begins_in_the_state_that_its_dates_give() {
    let one = Some("00000001");
    let setup = vec![new_key(None), on(ACTIVATE, None)];
    let active = call(batch(None, setup), &blank()).table;
    let rekeyed = |table: &[u8]| record(&call(batch(None, vec![on(REKEY, one)]), table), 1);
    assert_eq!((rekeyed(&active).state, rekeyed(&active).activation), (2, 1));
    let stopped = call(batch(None, vec![revoke(one, 1)]), &active).table;
    assert_eq!((rekeyed(&stopped).state, rekeyed(&stopped).deactivation), (3, 1));
}

#[test]
fn the_printed_offset_of_ten_days_moves_both_dates() {
    let asked = "42007801 00000080 42007701 00000038 42006901 00000020 42006A02 00000004 00000002 00000000 42006B02 \
        00000004 00000001 00000000 42000D02 00000004 00000001 00000000 42000F01 00000038 42005C05 00000004 00000004 \
        00000000 42007901 00000020 42009407 00000008 30303030 30303031 4200580A 00000004 000D2F00 00000000";
    assert_eq!(batch(None, vec![item(REKEY, None, replacement(Some("00000001"), 864_000))]), unhex(asked));
    let dated = item(CREATE, None, create_dated(128, 4, None, (Some(5), Some(9))));
    let table = call(batch(None, vec![dated]), &blank()).table;
    let effect = call(unhex(asked), &table);
    assert_eq!(reasons(&effect), [None]);
    let new = record(&effect, 1);
    assert_eq!((new.state, new.activation, new.deactivation), (1, 864_001, 864_005));
}

#[test]
fn a_bad_create_stops_the_batch_or_empties_the_placeholder() {
    let items = || vec![item(CREATE, None, create(129, 4, None)), on(ACTIVATE, None)];
    assert_eq!(reasons(&call(batch(None, items()), &blank())), [INVALID_FIELD]);
    let effect = call(batch(Some(1), items()), &blank());
    assert_eq!(reasons(&effect), [INVALID_FIELD, OBJECT_NOT_FOUND]);
    let printed = "42007B01 000000C0 42007A01 00000048 42006901 00000020 42006A02 00000004 00000002 00000000 42006B02 \
        00000004 00000001 00000000 42009209 00000008 00000000 00000001 42000D02 00000004 00000002 00000000 42000F01 \
        00000030 42005C05 00000004 00000001 00000000 42007F05 00000004 00000001 00000000 42007E05 00000004 00000007 \
        00000000 42000F01 00000030 42005C05 00000004 00000012 00000000 42007F05 00000004 00000001 00000000 42007E05 \
        00000004 00000037 00000000";
    assert_eq!(response(&effect), unhex(printed));
}

/// Activate undone, without ID: the item as it is printed. A bad Create then takes a good one back.
#[test]
fn an_undone_item_is_printed_so() {
    let printed = "42000F01 00000020 42005C05 00000004 00000012 00000000 42007F05 00000004 00000003 00000000";
    let items = vec![new_key(None), on(ACTIVATE, None), item(CREATE, None, create(129, 4, None))];
    let effect = call(batch(Some(3), items), &blank());
    assert_eq!(reasons(&effect), [None, None, INVALID_FIELD]);
    assert_eq!(response(&effect)[128..168], unhex(printed));
    assert_eq!(response(&effect).len(), 88 + 40 + 40 + 56);
    assert!(effect.undo == effect.table && record(&effect, 0).is_free());
}

#[test]
fn output_of_6359_is_too_small() {
    let mut case = Case::new(batch(None, vec![new_key(None)]), blank());
    case.room = 6359;
    assert_eq!(case.run_all(&engines(), "card").served, Err(Refusal::Room));
    case.room = 6360;
    assert_eq!(case.run_all(&engines(), "card").served, Ok(168));
}

#[test]
fn a_batch_of_16_runs_and_17_is_refused() {
    let creates = |number: usize| batch(None, (0..number).map(|_| new_key(None)).collect());
    assert_eq!(reasons(&call(creates(16), &blank())), [None; 16]);
    assert_eq!(call(creates(17), &blank()).served, Err(Refusal::Count));
}

/// A table of so many live keys with serials from 1 on, in all its places.
fn full_table(count: usize) -> Table {
    let mut table = Table::blank(count);
    table.last = count as u32;
    for (serial, record) in (1..).zip(&mut table.places) {
        *record = Record { serial, state: 2, length: 128, mask: 4, material: [0; 32], ..Record::default() };
    }
    table
}

#[test]
fn a_full_table_gives_up_destroyed_places_only() {
    let create = || batch(None, vec![new_key(None)]);
    for (count, place, old) in
        [(SMALL_COUNT, 9, "0000000A"), (LARGE_COUNT, 9, "0000000A"), (LARGE_COUNT, 200, "000000C9")]
    {
        let mut table = full_table(count);
        assert_eq!(reasons(&call(create(), &table.encode())), [SERVER_LIMIT_EXCEEDED]);
        table.places[place].state = 5;
        let effect = call(create(), &table.encode());
        assert_eq!((reasons(&effect), record(&effect, place).serial), (vec![None], count as u32 + 1));
        let old = call(batch(None, vec![on(ATTRIBUTES, Some(old))]), &effect.table);
        assert_eq!(reasons(&old), [OBJECT_NOT_FOUND]);
    }
}

#[test]
fn a_free_place_comes_before_a_destroyed_one() {
    for (count, free) in [(SMALL_COUNT, 40), (LARGE_COUNT, 40), (LARGE_COUNT, 255)] {
        let mut table = full_table(count);
        table.places[9].state = 5;
        table.places[free] = Record::default();
        let effect = call(batch(None, vec![new_key(None)]), &table.encode());
        assert_eq!((record(&effect, 9).serial, record(&effect, free).serial), (10, count as u32 + 1));
    }
}

/// Sixteen times sixteen Creates from blank on.
#[test]
fn the_257th_create_fails_with_server_limit_exceeded() {
    let sixteen = || batch(None, (0..16).map(|_| new_key(None)).collect());
    let mut table = blank_table(LARGE_COUNT);
    for number in 1..=16 {
        let effect = call(sixteen(), &table);
        assert_eq!(reasons(&effect), [None; 16]);
        assert_eq!(record(&effect, 16 * number - 1).serial, 16 * number as u32);
        table = effect.table;
    }
    assert_eq!((table.len(), &table[..8]), (32784, &[0, 0, 1, 0, 0, 0, 1, 0][..]), "256 issued, 256 places");
    let effect = call(batch(None, vec![new_key(None)]), &table);
    assert_eq!(reasons(&effect), [SERVER_LIMIT_EXCEEDED]);
    assert_eq!(effect.table[..8], table[..8], "nothing was issued, and the count stays");
}

/// Its line is bytes 4,096 to 4,111 of the table and its body the last 112.
#[test]
fn the_key_at_place_255_is_activated_granted_and_shown() {
    let mut table = full_table(LARGE_COUNT);
    table.places[255] = Record::default();
    let items = vec![new_key(Some((100, 2))), on(ACTIVATE, None), take(None, 60), take(None, 40), take(None, 1)];
    let effect = call(batch(None, items), &table.encode());
    assert_eq!(reasons(&effect), [None, None, None, None, USAGE_LIMIT_EXCEEDED]);
    assert_eq!(effect.table[4096..4112], unhex("00000101 02 02 0080 00000000 00000000"));
    let body = "0000000000000064 0000000000000000 00000004 00000000 000102030405060708090A0B0C0D0E0F";
    let rest = "00000000000000000000000000000000 0000000000000001 0000000000000000";
    let nothing = "00".repeat(40);
    assert_eq!(effect.table[32672..], unhex(&format!("{body}{rest}{nothing}")));
    let shown = call(batch(None, vec![on(ATTRIBUTES, Some("00000101"))]), &effect.table);
    assert_eq!(reasons(&shown), [None]);
}

#[test]
fn the_last_serial_is_issued_once() {
    let mut table = Table::blank(SMALL_COUNT);
    table.last = 0xFFFF_FFFE;
    let effect = call(batch(None, vec![new_key(None), new_key(None)]), &table.encode());
    assert_eq!(reasons(&effect), [None, SERVER_LIMIT_EXCEEDED]);
    assert!(response(&effect).windows(8).any(|text| text == b"FFFFFFFF"));
}

#[test]
fn eight_zeros_name_no_free_place() {
    let effect = call(batch(None, vec![on(ACTIVATE, Some("00000000"))]), &blank());
    assert_eq!(reasons(&effect), [OBJECT_NOT_FOUND]);
}

#[test]
fn activate_is_answered_with_the_printed_152_bytes() {
    let table = call(batch(None, vec![new_key(None)]), &blank()).table;
    let effect = call(batch(None, vec![on(ACTIVATE, Some("00000001"))]), &table);
    let printed = "42007B01 00000090 42007A01 00000048 42006901 00000020 42006A02 00000004 00000002 00000000 42006B02 \
        00000004 00000001 00000000 42009209 00000008 00000000 00000001 42000D02 00000004 00000001 00000000 42000F01 \
        00000038 42005C05 00000004 00000012 00000000 42007F05 00000004 00000000 00000000 42007C01 00000010 42009407 \
        00000008 30303030 30303031";
    assert_eq!(response(&effect), unhex(printed));
}

#[test]
fn create_is_written_and_answered_with_the_printed_bytes() {
    let asked = "42007801 000000A8 42007701 00000038 42006901 00000020 42006A02 00000004 00000002 00000000 42006B02 \
        00000004 00000001 00000000 42000D02 00000004 00000001 00000000 42000F01 00000060 42005C05 00000004 00000001 \
        00000000 42007901 00000048 42005705 00000004 00000002 00000000 42012501 00000030 42002805 00000004 00000003 \
        00000000 42002A02 00000004 00000080 00000000 42002C02 00000004 00000004 00000000";
    let answered =
        "42007B01 000000A0 42007A01 00000048 42006901 00000020 42006A02 00000004 00000002 00000000 42006B02 \
        00000004 00000001 00000000 42009209 00000008 00000000 00000001 42000D02 00000004 00000001 00000000 42000F01 \
        00000048 42005C05 00000004 00000001 00000000 42007F05 00000004 00000000 00000000 42007C01 00000020 42005705 \
        00000004 00000002 00000000 42009407 00000008 30303030 30303031";
    assert_eq!(batch(None, vec![new_key(None)]), unhex(asked));
    let effect = call(unhex(asked), &blank());
    assert_eq!(response(&effect), unhex(answered));
    let key = record(&effect, 0);
    assert_eq!(key.material[..16], (0..16).collect::<Vec<u8>>());
    assert_eq!((key.state, key.length, key.mask, key.material[16..].to_vec()), (1, 128, 4, vec![0; 16]));
}

/// The name "pump" as the papers have it, written and shown; behind everything else that is optional.
#[test]
fn the_printed_name_is_written_and_shown_last() {
    let printed = "42005301 00000020 42005507 00000004 70756D70 00000000 42005405 00000004 00000001 00000000";
    assert_eq!(name("pump").encode(), unhex(printed));
    let full = create_with(create_dated(128, 4, Some((5, 1)), (Some(8), Some(9))), name("pump"));
    let setup = vec![item(CREATE, None, full), on(REKEY, None), on(ATTRIBUTES, None)];
    let effect = call(batch(None, setup), &blank());
    assert_eq!(reasons(&effect), [None; 3]);
    assert!(response(&effect).ends_with(&unhex(printed)), "behind the link");
    assert_eq!((record(&effect, 0).name.text(), record(&effect, 1).name.text()), (None, Some(&b"pump"[..])));
    let body = 16 + 64 * 16 + 112 + 72;
    assert_eq!(effect.table[body..body + 40], unhex(&format!("04 00000000000000 70756D70 {}", "00".repeat(28))));
}

#[test]
fn a_name_is_given_once() {
    let one = Some("00000001");
    let items = vec![new_key_named("pump"), new_key_named("pump"), on(ACTIVATE, None), new_key_named("pump 2")];
    let effect = call(batch(Some(1), items), &blank());
    assert_eq!(reasons(&effect), [None, NON_UNIQUE_NAME, OBJECT_NOT_FOUND, None]);
    let destroyed = call(batch(None, vec![on(DESTROY, one), new_key_named("pump")]), &effect.table);
    assert_eq!(reasons(&destroyed), [None, NON_UNIQUE_NAME]);
    assert_eq!(record(&destroyed, 0).name.text(), Some(&b"pump"[..]));
}

/// Locate answers one identifier, 16 bytes, or an empty payload.
#[test]
fn locate_sets_the_placeholder_or_empties_it() {
    let table = call(batch(None, vec![new_key_named("pump"), new_key(None)]), &blank()).table;
    let found = call(batch(None, vec![locate("pump"), on(ATTRIBUTES, None)]), &table);
    assert_eq!(reasons(&found), [None; 2]);
    let head = "42000F01 00000038 42005C05 00000004 00000008 00000000 42007F05 00000004 00000000 00000000 42007C01 \
        00000010 42009407 00000008 30303030 30303031";
    assert_eq!(response(&found)[88..152], unhex(head));
    let lost = call(batch(None, vec![new_key(None), locate("Pump"), on(ATTRIBUTES, None)]), &table);
    assert_eq!(reasons(&lost), [None, None, OBJECT_NOT_FOUND]);
    let head = "42000F01 00000028 42005C05 00000004 00000008 00000000 42007F05 00000004 00000000 00000000 42007C01 \
        00000000 42000F01";
    assert_eq!(response(&lost)[168..220], unhex(head));
}

/// A name counts until the place of its destroyed key is taken over; the name is tested before the place is chosen.
#[test]
fn a_taken_place_frees_its_name() {
    let mut table = full_table(SMALL_COUNT);
    table.places[9].state = 5;
    table.places[9].name = Name::of(b"pump");
    let items = vec![new_key_named("pump"), locate("pump"), new_key(None), locate("pump"), new_key_named("pump")];
    let effect = call(batch(Some(1), items), &table.encode());
    assert_eq!(reasons(&effect), [NON_UNIQUE_NAME, None, None, None, SERVER_LIMIT_EXCEEDED]);
    assert_eq!((record(&effect, 9).serial, record(&effect, 9).name), (65, Name::default()));
    table.places[3].name = Name::of(b"valve");
    table.places[9].state = 4;
    let full = call(batch(Some(1), vec![new_key_named("valve"), new_key_named("tap")]), &table.encode());
    assert_eq!(reasons(&full), [NON_UNIQUE_NAME, SERVER_LIMIT_EXCEEDED]);
}

/// Sizes of answers: Get Attributes at its fullest, with both dates and a name of 32 bytes, sixteen times makes 6,360 bytes.
#[test]
fn the_longest_response_has_6360_bytes() {
    let first = create_with(create_dated(128, 4, Some((5, 1)), (Some(8), Some(9))), name(&"é".repeat(16)));
    let setup = vec![item(CREATE, None, first), on(REKEY, None), on(REKEY, None)];
    let mut table = Table::decode(&call(batch(None, setup), &blank()).table);
    let items = || (0..16).map(|_| item(ATTRIBUTES, Some(&[7; 16]), target(Some("00000002")))).collect();
    assert_eq!(call(batch(Some(2), items()), &table.encode()).served, Ok(5336), "the name has been moved on");
    table.places[1].name = Name::of(&[b'x'; 32]);
    assert_eq!(call(batch(Some(2), items()), &table.encode()).served, Ok(6360));
}

/// Fifteen Creates with everything and IDs of 16 bytes fit into a request, sixteen do not.
#[test]
fn fifteen_full_creates_are_a_request() {
    let full =
        |at: usize| create_with(create_dated(256, 4, Some((5, 1)), (Some(8), Some(9))), name(&format!("{at:032}")));
    let creates = |number| batch(Some(1), (0..number).map(|at| item(CREATE, Some(&[7; 16]), full(at))).collect());
    assert_eq!((creates(15).len(), creates(16).len()), (4048, 4312));
    assert_eq!(reasons(&call(creates(15), &blank())), [None; 15]);
    assert_eq!(call(creates(16), &blank()).served, Err(Refusal::Size));
}

#[test]
fn the_model_loses_no_byte_of_a_table() {
    let mut rng = support::rng::Rng::new(1);
    for size in [8208, 32784] {
        let bytes = rng.bytes(size);
        assert_eq!(Table::decode(&bytes).encode(), bytes);
    }
}
