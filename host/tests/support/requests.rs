//! Requests: such as the box accepts, aimed at a table, and such as it turns away.

use super::limits;
use super::names::{any_name, name_around, near, wrong_location, wrong_name, FEW};
use super::rng::Rng;
use super::texts::{any_text, no_text};
use junctionmoth::message::*;
use junctionmoth::model::operations::identifier;
use junctionmoth::model::table::{Record, Table};

const SUPPORTED: [u32; 9] = [0x01, 0x04, 0x08, 0x0A, 0x0B, 0x11, 0x12, 0x13, 0x14];

/// A request with a right frame and right numbers; once in a long while an ID is too short or too long.
pub fn accepted(rng: &mut Rng, table: &Table) -> Node {
    let number = rng.between(1, 16);
    let number = rng.pick(&[1, 1, 1, 1, 2, 3, 5, 16, number]);
    let items = (0..number).map(|_| batch_item(rng, table)).collect();
    request(rng.pick(&[None, Some(1), Some(1), Some(1), Some(2), Some(3)]), items)
}

pub fn batch_item(rng: &mut Rng, table: &Table) -> Node {
    let operation = if rng.one_in(30) { unsupported(rng) } else { rng.pick(&SUPPORTED) };
    let mut payload = structure(0x420079, payload(rng, table, operation));
    if rng.one_in(10) {
        edit_inside(rng, &mut payload);
    }
    let Body::Nodes(fields) = payload.body else {
        return item(operation, None, Vec::new());
    };
    item(operation, id(rng).as_deref(), fields)
}

fn unsupported(rng: &mut Rng) -> u32 {
    let any = rng.next() as u32;
    rng.pick(&[0, 2, 3, 5, 7, 9, 0x0C, 0x10, 0x15, 0x3B, 0x101, 0x8000_0001, u32::MAX, any])
}

fn id(rng: &mut Rng) -> Option<Vec<u8>> {
    if rng.one_in(400) {
        return Some(vec![7; rng.pick(&[0, 17, 24])]);
    }
    let any = rng.between(1, 16);
    let length = rng.pick(&[0, 0, 1, 7, 8, 9, 15, 16, any]);
    (length > 0).then(|| rng.bytes(length as usize))
}

fn payload(rng: &mut Rng, table: &Table, operation: u32) -> Vec<Node> {
    let name = match fitting(rng, table, operation) {
        Some(serial) if !rng.one_in(3) => Some(identifier(serial)),
        _ => target_text(rng, table),
    };
    let name = name.as_deref();
    match operation {
        0x01 => creation(rng, table),
        0x04 => rekeying(rng, table, name),
        0x08 => locating(rng, table),
        0x11 => allocation(name, amount(rng, table, name)),
        0x13 => {
            let code = rng.between(1, 7) as u32;
            revocation(name, rng.pick(&[code, code, code, code, code, 2, 3, 0, 8, u32::MAX]))
        }
        _ => target(name),
    }
}

/// The serial of a record on which the operation can succeed; for units, of one that may have no limit.
fn fitting(rng: &mut Rng, table: &Table, operation: u32) -> Option<u32> {
    let fits = |record: &&Record| match operation {
        0x04 => record.state < 5 && record.replacement == 0,
        0x0A => record.state < 5,
        0x11 => record.state == 2,
        0x12 => record.state == 1,
        0x13 => record.state < 4 || record.state == 5,
        0x14 => [1, 3, 4].contains(&record.state),
        _ => false,
    };
    let serials: Vec<u32> = table.standing().filter(fits).map(|record| record.serial).collect();
    (!serials.is_empty()).then(|| rng.pick(&serials))
}

/// A Create without a name, with one, or with something in its place that is none.
fn creation(rng: &mut Rng, table: &Table) -> Vec<Node> {
    let payload = unnamed(rng, table);
    let around = name_around(rng, table);
    match rng.below(16) {
        0..=5 => payload,
        6 => wrong_name(rng, &around).into_iter().fold(payload, create_with),
        7..=9 => create_with(payload, name(rng.pick(&FEW))),
        _ => create_with(payload, name(&around)),
    }
}

/// A Locate, or what is none.
fn locating(rng: &mut Rng, table: &Table) -> Vec<Node> {
    let around = name_around(rng, table);
    match rng.below(16) {
        0 => wrong_location(rng, &around),
        1..=2 => vec![structure(0x420125, wrong_name(rng, &around))],
        3..=4 => location(rng.pick(&FEW)),
        _ => location(&around),
    }
}

/// A mask that is allowed, mostly with a use that a limit can count.
fn any_mask(rng: &mut Rng) -> i32 {
    match rng.below(12) {
        0..=3 => 4,
        4..=8 => rng.pick(&limits::PROTECTING),
        9..=10 => rng.next() as i32 & 0x00FF_FFFF,
        _ => rng.pick(&limits::OTHERS),
    }
}

fn unnamed(rng: &mut Rng, table: &Table) -> Vec<Node> {
    let any = rng.next() as i32;
    let length = rng.pick(&[128, 192, 256]);
    let mask = any_mask(rng);
    let total = rng.between(1, 1_000_000_000_000) as i64;
    let total = rng.pick(&[1, 100, 1_000_000_000_000, total]);
    let limit = if rng.one_in(4) { None } else { Some((total, rng.pick(&[1, 2]))) };
    match rng.below(30) {
        0 => create(rng.pick(&[0, -128, 127, 129, 64, 320, 0x1_0080, any]), mask, limit),
        1 => create(length, rng.pick(&[0x0100_0000, -1, i32::MIN, i32::MAX]), limit),
        2 => create(length, mask, Some((rng.pick(&[0, -1, 1_000_000_000_001, i64::MIN, i64::MAX]), 1))),
        3 => create(length, mask, Some((total, rng.pick(&[0, 3, 257, u32::MAX])))),
        4 => create_dated(length, mask, limit, wrong_dates(rng, table.latest)),
        5..=14 => create(length, mask, limit),
        _ => create_dated(length, mask, limit, right_dates(rng, table.latest)),
    }
}

/// A Re-key without Offset, with one, or with something in its place that is none.
fn rekeying(rng: &mut Rng, table: &Table, name: Option<&str>) -> Vec<Node> {
    let seconds = offset(rng, table, name);
    match rng.below(24) {
        0..=8 => target(name),
        9..=21 => replacement(name, seconds),
        _ => wrong_offset(rng, name, seconds),
    }
}

/// An Offset: at the edges, a few seconds, or about as many as bring a date of the replacement to the largest one.
fn offset(rng: &mut Rng, table: &Table, name: Option<&str>) -> u32 {
    let named = table.standing().find(|record| name == Some(&identifier(record.serial)));
    let span = named.map_or(0, |record| (record.deactivation - record.activation).max(0));
    let room = i64::MAX - table.latest;
    for room in [room - span, room] {
        if let (Ok(most), true) = (u32::try_from(room), !rng.one_in(4)) {
            return rng.pick(&[most, most, most, most.saturating_sub(1), most.saturating_add(1)]);
        }
    }
    let few = rng.between(1, 30) as u32;
    let any = rng.next() as u32;
    rng.pick(&[0, 0, 0, 1, few, few, 864_000, 0x8000_0000, u32::MAX, any])
}

/// A Re-key with an Offset of another type, twice, before the identifier or under another tag, of a key or of none.
fn wrong_offset(rng: &mut Rng, name: Option<&str>, seconds: u32) -> Vec<Node> {
    let name = rng.pick(&[name, name, Some("00000000")]);
    let number = seconds as i32;
    let mut payload = target(name);
    match rng.below(8) {
        0 => payload.push(integer(0x420058, number)),
        1 => payload.push(enumeration(0x420058, seconds)),
        2 => payload.push(long_integer(0x420058, i64::from(seconds))),
        3 => payload.push(date_time(0x420058, i64::from(seconds))),
        4 => payload.insert(0, interval(0x420058, seconds)),
        5 => payload.extend([interval(0x420058, seconds), interval(0x420058, seconds)]),
        6 => payload.push(structure(0x420058, vec![interval(0x420058, seconds)])),
        _ => payload.push(interval(rng.pick(&[0x420057, 0x420059, 0x4200D4, 0x42016C]), seconds)),
    }
    payload
}

/// A date around a clock, or at the edges.
pub fn date_around(rng: &mut Rng, clock: i64) -> i64 {
    let step = rng.between(1, 30) as i64;
    let any = rng.next() as i64 & i64::MAX;
    let near = [clock, clock - 1, clock - step, clock.saturating_add(1), clock.saturating_add(step)];
    let near = rng.pick(&near);
    rng.pick(&[near, near, near, near, step, 1, i64::MAX, any]).max(1)
}

/// Dates that a Create may have: one or both, in order, the same now and then.
fn right_dates(rng: &mut Rng, clock: i64) -> (Option<i64>, Option<i64>) {
    let (one, two) = (date_around(rng, clock), date_around(rng, clock));
    let (first, last) = (one.min(two), one.max(two));
    rng.pick(&[
        (Some(first), None),
        (None, Some(last)),
        (Some(first), Some(last)),
        (Some(first), Some(last)),
        (Some(last), Some(last)),
    ])
}

/// Dates that it may not have: below 1, or deactivation before activation.
fn wrong_dates(rng: &mut Rng, clock: i64) -> (Option<i64>, Option<i64>) {
    let date = date_around(rng, clock);
    let low = rng.pick(&[0, -1, -date, i64::MIN]);
    rng.pick(&[
        (Some(low), None),
        (None, Some(low)),
        (Some(low), Some(date)),
        (Some(date), Some(low)),
        (Some(date), Some(date - 1)),
        (Some(i64::MAX), Some(date.min(i64::MAX - 1))),
    ])
}

fn amount(rng: &mut Rng, table: &Table, name: Option<&str>) -> i64 {
    let named = table.standing().find(|record| name == Some(&identifier(record.serial)));
    let count = named.map_or(100, |record| record.count as i64);
    let part = rng.below(count as u64 + 1) as i64;
    let bad = rng.pick(&[0, -1, i64::MIN]);
    rng.pick(&[1, 1, 2, part, part, count, count, count + 1, i64::MAX, bad])
}

/// The identifier of a record mostly; else none, or a text that names none or one only later.
fn target_text(rng: &mut Rng, table: &Table) -> Option<String> {
    let serials: Vec<u32> = table.standing().map(|record| record.serial).collect();
    let some = if serials.is_empty() { rng.next() as u32 } else { rng.pick(&serials) };
    match rng.below(12) {
        0..=1 => None,
        2..=8 => Some(identifier(some)),
        9..=10 => Some(identifier(table.last.wrapping_add(rng.between(1, 4) as u32))),
        _ => Some(wrong_text(rng, table, some)),
    }
}

fn wrong_text(rng: &mut Rng, table: &Table, serial: u32) -> String {
    let right = identifier(serial);
    let links = table.standing().flat_map(|record| [record.replaced, record.replacement]);
    let dangling = links.filter(|&named| named != 0 && table.find(named).is_none()).last();
    match rng.below(16) {
        0 => right.to_lowercase(),
        1 => "00000000".into(),
        2 => right[1..].into(),
        3 => format!("0{right}"),
        4 => format!("{right}0"),
        5 => format!(" {}", &right[1..]),
        6 => String::new(),
        7 => format!("{}{}", &right[..7], rng.pick(&[':', '@', 'G', 'g', '/', '`', ' ', '~'])),
        8 => format!("{serial}"),
        9 => identifier(rng.next() as u32),
        10 => right.repeat(2),
        11 => other_letters(rng),
        12 => any_text(rng, 8),
        13 => in_full_width(rng, &right),
        14 => right + &"\0".repeat(rng.pick(&[1, 8, 8])),
        _ => identifier(dangling.unwrap_or(0)),
    }
}

/// Text of 1 to 12 bytes, in any letters.
fn other_letters(rng: &mut Rng) -> String {
    let length = rng.between(1, 12) as usize;
    any_text(rng, length)
}

/// Eight digits, some or all of them in full width, which are other characters.
fn in_full_width(rng: &mut Rng, digits: &str) -> String {
    let wide = |digit: char| char::from_u32(u32::from(digit) + 0xFEE0).expect("a digit in full width");
    let (narrow, rest) = digits.split_at(rng.index(8));
    narrow.chars().chain(rest.chars().map(wide)).collect()
}

/// A batch of Creates.
pub fn creations(rng: &mut Rng, table: &Table) -> Node {
    let number = rng.between(1, 16);
    request(Some(1), (0..number).map(|_| item(0x01, None, creation(rng, table))).collect())
}

/// A batch under Undo, mostly of items that succeed, with one that fails at its front, inside or at its end, or with none.
pub fn all_or_none(rng: &mut Rng, table: &Table) -> Node {
    let number = rng.between(1, 16) as usize;
    let number = rng.pick(&[1, 2, 3, 4, 16, 16, number]);
    let mut items: Vec<Node> = (0..number).map(|_| likely(rng, table)).collect();
    let inside = rng.index(number);
    if let Some(at) = rng.pick(&[None, Some(0), Some(inside), Some(number - 1), Some(number - 1)]) {
        items[at] = failing(rng);
    }
    request(rng.pick(&[Some(3), Some(3), Some(3), Some(2)]), items)
}

/// An item that mostly succeeds, whatever was done before it.
fn likely(rng: &mut Rng, table: &Table) -> Node {
    let full = table.standing().count() == table.places.len();
    let new = if full { 0x08 } else { 0x01 };
    let other = rng.pick(&SUPPORTED);
    let operation = rng.pick(&[new, new, 0x08, 0x0A, 0x0B, 0x0B, other, other]);
    let serial = fitting(rng, table, operation).or_else(|| table.standing().next().map(|record| record.serial));
    let name = serial.map(identifier).filter(|_| !rng.one_in(40));
    let name = name.as_deref();
    let payload = match operation {
        0x01 => create(128, 4, Some((100, 1))),
        0x08 => location(&name_around(rng, table)),
        0x11 => allocation(name, 1),
        0x13 => revocation(name, rng.pick(&[2, 2, 1])),
        _ => target(name),
    };
    item(operation, id(rng).as_deref(), payload)
}

/// An item that fails on every table.
fn failing(rng: &mut Rng) -> Node {
    let operation = rng.pick(&[0x04, 0x0A, 0x0B, 0x12, 0x14, 0x3B]);
    item(operation, id(rng).as_deref(), target(Some("00000000")))
}

/// A Create that takes its serial, alone or behind another item.
pub fn new_key(rng: &mut Rng, table: &Table) -> Node {
    let mut items = vec![item(0x01, None, create(256, 4, None))];
    if rng.one_in(3) {
        items.insert(0, batch_item(rng, table));
    }
    request(rng.pick(&[None, Some(1), Some(1), Some(3)]), items)
}

/// A request with a text in other letters in one of its payloads, or with something that is no text.
pub fn with_text(rng: &mut Rng, table: &Table) -> Node {
    let tag = rng.pick(&[0x420094, 0x420094, 0x420020, 0x420080]);
    let text = if rng.one_in(4) { text(tag, &other_letters(rng)) } else { raw_text(tag, &no_text(rng)) };
    let operation = rng.pick(&[0x12, 0x0B, 0x3B]);
    let mut items: Vec<Node> = (0..rng.below(3)).map(|_| batch_item(rng, table)).collect();
    items.insert(rng.index(items.len() + 1), item(operation, None, vec![text]));
    request(rng.pick(&[None, Some(1), Some(3)]), items)
}

/// A Re-key alone.
pub fn rekey(rng: &mut Rng, table: &Table) -> Node {
    request(None, vec![item(0x04, None, payload(rng, table, 0x04))])
}

/// A batch that creates keys and replaces each at once, and then uses the replacement.
pub fn renewals(rng: &mut Rng, table: &Table) -> Node {
    let mut items = Vec::new();
    for _ in 0..rng.between(1, 4) {
        items.push(item(0x01, None, creation(rng, table)));
        items.push(item(0x04, None, rekeying(rng, table, None)));
        let used = rng.pick(&[0x04, 0x0A, 0x0B, 0x11, 0x12, 0x14]);
        let use_of_it = if used == 0x04 { rekeying(rng, table, None) } else { payload(rng, table, used) };
        items.push(item(used, None, use_of_it));
    }
    request(rng.pick(&[Some(1), Some(2), Some(3)]), items)
}

/// A batch about one name: of the key whose place the next new one takes, if that has a name, or of any; or one that no
/// key has.
pub fn about_a_name(rng: &mut Rng, table: &Table) -> Node {
    let destroyed = table.places.iter().find(|record| record.state >= 5);
    let full = table.standing().count() == table.places.len();
    let next = destroyed.filter(|_| full).and_then(|record| record.name.text());
    let next = next.and_then(|name| String::from_utf8(name.to_vec()).ok());
    let about = match next {
        Some(name) if !rng.one_in(4) => name,
        _ => name_around(rng, table),
    };
    let holder = table.find_name(about.as_bytes()).map(|record| identifier(record.serial));
    let items = (0..rng.between(2, 8)).map(|_| item_about(rng, table, &about, holder.as_deref())).collect();
    request(rng.pick(&[None, Some(1), Some(1), Some(1), Some(3)]), items)
}

/// An item about a name, about the key that has it or about the placeholder.
fn item_about(rng: &mut Rng, table: &Table, about: &str, holder: Option<&str>) -> Node {
    let target_operation = rng.pick(&[0x04, 0x04, 0x0A, 0x0B, 0x0B, 0x12, 0x14]);
    let plain = create(128, 4, None);
    match rng.below(12) {
        0..=1 => item(0x01, None, create_with(plain, name(about))),
        2 => item(0x01, None, create_with(plain, name(&near(rng, about)))),
        3 => item(0x01, None, create_with(unnamed(rng, table), name(about))),
        4 => item(0x01, None, plain),
        5..=6 => item(0x08, None, location(about)),
        7 => item(0x08, None, location(&near(rng, about))),
        8 => item(0x08, None, location(&any_name(rng))),
        9 => item(target_operation, None, target(holder)),
        _ => item(target_operation, None, target(None)),
    }
}

/// The request with the longest answer that the table allows: sixteen times all attributes, with IDs of 16 bytes.
pub fn widest(rng: &mut Rng, table: &Table) -> Node {
    let width = |record: &&Record| {
        let links = [record.replaced, record.replacement].into_iter().filter(|&link| link > 0).count();
        let dates = [record.activation, record.deactivation].into_iter().filter(|&date| date > 0).count();
        let name = record.name.text().map_or(0, |name| 24 + name.len());
        56 * usize::from(record.unit > 0) + 40 * links + 16 * dates + name
    };
    let widest = table.standing().max_by_key(width);
    let name = identifier(widest.map_or(1, |record| record.serial));
    let items = (0..16).map(|_| item(0x0B, Some(&rng.bytes(16)), target(Some(&name)))).collect();
    request(Some(rng.pick(&[1, 2, 3])), items)
}

/// A request that is spoilt in one item of its tree.
pub fn edited(rng: &mut Rng, table: &Table) -> Node {
    let mut message = accepted(rng, table);
    edit_inside(rng, &mut message);
    if rng.one_in(4) {
        edit_inside(rng, &mut message);
    }
    message
}

/// Spoils one item of a tree.
fn edit_inside(rng: &mut Rng, root: &mut Node) {
    let mut chosen = rng.index(size(root));
    if let Some(node) = nth(root, &mut chosen) {
        edit(rng, node);
    }
}

fn size(node: &Node) -> usize {
    match &node.body {
        Body::Nodes(nodes) => 1 + nodes.iter().map(size).sum::<usize>(),
        Body::Bytes(_) => 1,
    }
}

/// The item at this index, counted from the root downwards.
fn nth<'a>(node: &'a mut Node, index: &mut usize) -> Option<&'a mut Node> {
    if *index == 0 {
        return Some(node);
    }
    *index -= 1;
    match &mut node.body {
        Body::Nodes(nodes) => nodes.iter_mut().find_map(|node| nth(node, index)),
        Body::Bytes(_) => None,
    }
}

fn edit(rng: &mut Rng, node: &mut Node) {
    match rng.below(8) {
        0 => node.tag = other_tag(rng, node.tag),
        1 => node.kind = rng.below(14) as u8,
        2 => *node = well_formed(rng, node.tag),
        3 => *node = ill_formed(rng, node.tag),
        _ => match &mut node.body {
            Body::Nodes(nodes) => edit_fields(rng, nodes),
            Body::Bytes(bytes) => edit_value(rng, bytes),
        },
    }
}

fn other_tag(rng: &mut Rng, tag: u32) -> u32 {
    let known = 0x420000 | rng.below(0x160) as u32;
    rng.pick(&[known, known, tag ^ 1, tag ^ 0x100, 0x540000 | tag & 0xFFFF, tag & 0xFFFF, 0x42FFFF, 0x420000])
}

/// A well-formed item of some type under this tag.
fn well_formed(rng: &mut Rng, tag: u32) -> Node {
    let kind = rng.between(1, 0x0B) as u8;
    let any = rng.index(20);
    let bytes = match kind {
        0x01 => return structure(tag, Vec::new()),
        0x02 | 0x05 | 0x0A => (rng.below(5) as u32).to_be_bytes().to_vec(),
        0x06 => rng.below(2).to_be_bytes().to_vec(),
        0x07 => {
            let other = other_letters(rng);
            rng.pick(&["", "00000001", "a text of some length", "2", &other, &other]).as_bytes().to_vec()
        }
        0x08 => rng.bytes(any),
        0x04 => rng.bytes(8 * (1 + any / 8)),
        _ => rng.below(5).to_be_bytes().to_vec(),
    };
    Node { tag, kind, body: Body::Bytes(bytes) }
}

/// An item of some type whose length or value is just not allowed.
fn ill_formed(rng: &mut Rng, tag: u32) -> Node {
    if rng.one_in(4) {
        return raw_text(tag, &no_text(rng));
    }
    let (kind, bytes): (u8, &[u8]) = rng.pick(&[
        (0x01, b"\x42\x00\x20\x08"),
        (0x02, b""),
        (0x02, b"\0\0\0\0\0\0\0\x01"),
        (0x05, b"\0\0\x01"),
        (0x0A, b"\0\0\0\0\x01"),
        (0x03, b"\0\0\0\x01"),
        (0x09, b"\0\0\0\0\0\0\0\x01\0"),
        (0x0B, b"\0\0\0\0\0\0\x01"),
        (0x04, b""),
        (0x04, b"\0\0\0\x01"),
        (0x04, b"\0\0\0\0\0\0\0\0\0\0\0\x01"),
        (0x06, b"\0\0\0\x01"),
        (0x06, b"\0\0\0\0\0\0\0\x02"),
        (0x06, b"\x01\0\0\0\0\0\0\x01"),
    ]);
    Node { tag, kind, body: Body::Bytes(bytes.to_vec()) }
}

fn edit_value(rng: &mut Rng, bytes: &mut Vec<u8>) {
    let any = rng.bytes(bytes.len());
    match rng.below(5) {
        0 => *bytes = any,
        1 => bytes.resize(rng.index(20), 0),
        2 => bytes.push(rng.pick(&[0x00, 0x1F, 0x20, 0x7E, 0x7F, 0x80, 0xC2, 0xFF])),
        3 => bytes.clear(),
        _ => {
            if let Some(last) = bytes.last_mut() {
                *last = rng.pick(&[0, 1, 2, 3, 0x7F, 0xFF, 0x1F]);
            }
        }
    }
}

fn edit_fields(rng: &mut Rng, nodes: &mut Vec<Node>) {
    let at = rng.index(nodes.len() + 1);
    let extra_tag = rng.pick(&[
        0x420092, 0x420050, 0x420154, 0x420051, 0x420010, 0x42000E, 0x420093, 0x420094, 0x420096, 0x420080, 0x420095,
        0x42002C, 0x42000F, 0x42000D, 0x42FFFF, 0x420001, 0x42002F, 0x420058, 0x420053, 0x420054, 0x420055, 0x42008E,
        0x42004F,
    ]);
    match rng.below(5) {
        0 => nodes.insert(at, well_formed(rng, extra_tag)),
        1 => nodes.clear(),
        _ if at == nodes.len() => nodes.push(well_formed(rng, extra_tag)),
        2 => drop(nodes.remove(at)),
        3 => nodes.insert(at, nodes[at].clone()),
        _ => {
            let other = rng.index(nodes.len());
            nodes.swap(at, other);
        }
    }
}

/// A request with a right frame and at least one wrong number in its header.
pub fn wrong_numbers(rng: &mut Rng, table: &Table) -> Node {
    let number = rng.between(1, 16) as i32;
    let items: Vec<Node> = (0..number).map(|_| batch_item(rng, table)).collect();
    let mut header = Header { version: (2, 1), option: rng.pick(&[None, Some(1), Some(2), Some(3)]), count: number };
    let faults = rng.pick(&[1, 2, 4, 1, 2, 4, 3, 5, 6, 7]);
    let any = rng.next() as i32;
    if faults & 1 != 0 {
        header.version = rng.pick(&[(2, 0), (2, 2), (1, 4), (3, 1), (1, 2), (0, 1), (-2, 1), (2, 257), (2, any)]);
    }
    if faults & 2 != 0 {
        header.count = rng.pick(&[0, -1, number - 1, number + 1, 17, 16, 256 + number, i32::MIN, i32::MAX]);
    }
    if faults & 4 != 0 {
        header.option = Some(rng.pick(&[0, 4, 5, 257, 259, 0x8000_0001, 0x8000_0003, u32::MAX]));
    }
    request_with(header, items)
}

/// A request of 17 items or more, as many as fit, with the right count or a wrong one, perhaps spoilt at its end.
pub fn many_items(rng: &mut Rng) -> Node {
    let number = rng.between(17, 125);
    let number = rng.pick(&[17, 18, 125, number]);
    let operation = rng.pick(&[0x12, 0x0B, 0]);
    let mut items: Vec<Node> = (0..number).map(|_| item(operation, None, Vec::new())).collect();
    if rng.one_in(4) {
        let late = rng.between(16, number - 1) as usize;
        edit_inside(rng, &mut items[late]);
    }
    let version = rng.pick(&[(2, 1), (2, 1), (2, 1), (2, 0)]);
    let count = rng.pick(&[number as i32, 16, 1, 0, 17]);
    request_with(Header { version, option: None, count }, items)
}

/// A request with structures in structures inside a payload, down to depth 7, 8 or 9.
pub fn deep(rng: &mut Rng) -> Node {
    let depth = rng.between(7, 9);
    let tag = rng.pick(&[0x420001, 0x420125, 0x420094]);
    let leaf = rng.pick(&[structure(tag, Vec::new()), integer(tag, 1), text(tag, "x"), text(tag, "é")]);
    let chain = (4..depth).fold(leaf, |inner, _| structure(tag, vec![inner]));
    let operation = rng.pick(&[0x01, 0x12, 0x13, 0x3B]);
    request(Some(1), vec![item(operation, None, vec![chain]), item(0x01, None, create(128, 4, None))])
}

/// A well-formed request near the greatest size: of 4,088, 4,096 or 4,104 bytes.
pub fn large(rng: &mut Rng) -> Node {
    let sized = |length: usize, operation: u32| {
        let filler = byte_string(0x420043, &vec![0xA5; length]);
        request(Some(1), vec![item(operation, None, vec![filler]), item(0x01, None, create(192, 4, None))])
    };
    let operation = rng.pick(&[0x02, 0x12]);
    let frame = sized(0, operation).encode().len();
    sized(rng.pick(&[4088, 4096, 4096, 4104]) - frame - rng.index(8), operation)
}

/// Spoils the bytes of a request.
pub fn damage(rng: &mut Rng, bytes: &mut Vec<u8>) {
    let junk = rng.between(1, 20) as usize;
    match rng.below(8) {
        0 | 1 => flip_bits(rng, bytes),
        2 => bytes.truncate(rng.index(bytes.len())),
        3 => bytes.extend(rng.bytes(junk)),
        4 => bytes.extend([0; 8]),
        5 | 6 => alter_length(rng, bytes),
        _ => {
            let at = rng.index(bytes.len());
            bytes[at] = rng.next() as u8;
        }
    }
}

fn flip_bits(rng: &mut Rng, bytes: &mut [u8]) {
    for _ in 0..rng.between(1, 3) {
        let at = rng.index(bytes.len());
        bytes[at] ^= 1 << rng.below(8);
    }
}

/// Alters a length field: one that stands behind a tag, if there is any.
fn alter_length(rng: &mut Rng, bytes: &mut [u8]) {
    let headers: Vec<usize> = (0..bytes.len() - 7).step_by(8).filter(|&at| bytes[at] == 0x42).collect();
    if headers.is_empty() {
        return;
    }
    let at = rng.pick(&headers) + 4;
    let length = u32::from_be_bytes([bytes[at], bytes[at + 1], bytes[at + 2], bytes[at + 3]]);
    let any = rng.next() as u32;
    let length = rng.pick(&[
        length.wrapping_add(1),
        length.wrapping_sub(1),
        length.wrapping_add(8),
        length.wrapping_sub(8),
        length.wrapping_add(16),
        0,
        4,
        8,
        u32::MAX,
        u32::MAX - 6,
        u32::MAX - 7,
        0x8000_0000 | length,
        any,
    ]);
    bytes[at..at + 4].copy_from_slice(&length.to_be_bytes());
}
