//! Names such as records and requests have: any, alike ones, and such that are not allowed.

use super::rng::Rng;
use super::texts::any_text;
use junctionmoth::message::*;
use junctionmoth::model::payload;
use junctionmoth::model::table::{Record, Table};
use junctionmoth::model::tags::*;
use junctionmoth::model::ttlv::{Item, Value};

/// Names that many records and requests have.
pub const FEW: [&str; 8] =
    ["pump", "pump 1", "pump 2", "a", "a\0", "Förderband 7", "ポンプ", "station 12, row 3, step 04711"];

/// A name: one of a few, or text of any length that is allowed.
pub fn any_name(rng: &mut Rng) -> String {
    let any = rng.between(1, 32) as usize;
    let length = rng.pick(&[1, 7, 8, 9, 16, 31, 31, 32, 32, any, any]);
    if rng.one_in(3) {
        rng.pick(&FEW).to_string()
    } else {
        any_text(rng, length)
    }
}

/// Another name that is nearly this one, where there is room for it.
pub fn near(rng: &mut Rng, name: &str) -> String {
    let letters = name.chars().count();
    let other = match rng.below(10) {
        0..=1 => format!("{name}\0"),
        2 => name.trim_end_matches('\0').to_string(),
        3 => format!("{name}{}", any_text(rng, 1)),
        4 => name.chars().take(letters - 1).collect(),
        5 => with_other_letter(name, letters - 1),
        6 => with_other_letter(name, rng.index(letters)),
        7..=8 => with_same_front(rng, name),
        _ => rng.pick(&[name.to_uppercase(), name.replace('ö', "o\u{308}"), name.trim().to_string()]),
    };
    if (1..=32).contains(&other.len()) && other != name {
        other
    } else {
        any_name(rng)
    }
}

/// The name with the lowest bit of one letter changed, which leaves it as long as it was.
fn with_other_letter(name: &str, at: usize) -> String {
    let other = |letter: char| char::from_u32(u32::from(letter) ^ 1).expect("a letter of as many bytes");
    name.chars().enumerate().map(|(index, letter)| if index == at { other(letter) } else { letter }).collect()
}

/// The first eight bytes of the name, and other letters behind them; nothing if there is no such front.
fn with_same_front(rng: &mut Rng, name: &str) -> String {
    let rest = rng.between(1, 24) as usize;
    name.get(..8).map_or(String::new(), |front| front.to_string() + &any_text(rng, rest))
}

/// The name of a record that has one, in a sound table.
fn text_of(record: &Record) -> String {
    let name = record.name.text().expect("a name");
    String::from_utf8(name.to_vec()).expect("a sound table has names that are text")
}

/// A name that a record of the table has, or nearly has, or any.
pub fn name_around(rng: &mut Rng, table: &Table) -> String {
    let known: Vec<&Record> = table.standing().filter(|record| record.name.length > 0).collect();
    if known.is_empty() {
        return any_name(rng);
    }
    let name = text_of(rng.pick(&known));
    match rng.below(8) {
        0..=2 => name,
        3..=4 => near(rng, &name),
        _ => any_name(rng),
    }
}

/// In what way a name, or what stands around it, is not allowed.
#[derive(Clone, Copy, Debug, PartialEq, Eq, PartialOrd, Ord)]
pub enum Fault {
    NoBytes,
    Of33Bytes,
    OfMoreBytes,
    OfType2,
    OfOtherType,
    NoType,
    NoValue,
    Exchanged,
    ValueNoText,
    TypeNoEnumeration,
    AnotherField,
    NoStructure,
    Twice,
    SomethingBehind,
    /// The others are those of Locate alone, around a name that is allowed or where one is missing.
    EmptyPayload,
    EmptyAttributes,
    NameAlone,
    SomethingBefore,
    AnIdentifier,
    SomethingBehindAttributes,
}

impl Fault {
    /// Those that a name can have in Create and in Locate.
    pub const OF_NAMES: [Fault; 14] = [
        Fault::NoBytes,
        Fault::Of33Bytes,
        Fault::OfMoreBytes,
        Fault::OfType2,
        Fault::OfOtherType,
        Fault::NoType,
        Fault::NoValue,
        Fault::Exchanged,
        Fault::ValueNoText,
        Fault::TypeNoEnumeration,
        Fault::AnotherField,
        Fault::NoStructure,
        Fault::Twice,
        Fault::SomethingBehind,
    ];

    pub const OF_LOCATE: [Fault; 6] = [
        Fault::EmptyPayload,
        Fault::EmptyAttributes,
        Fault::NameAlone,
        Fault::SomethingBefore,
        Fault::AnIdentifier,
        Fault::SomethingBehindAttributes,
    ];

    /// All that the payload of this operation can have.
    pub fn all_of(operation: u32) -> Vec<Fault> {
        match operation {
            CREATE => Fault::OF_NAMES.to_vec(),
            LOCATE => [&Fault::OF_NAMES[..], &Fault::OF_LOCATE].concat(),
            _ => Vec::new(),
        }
    }
}

/// Attributes that stand where a name should, with one of the faults that a name can have.
pub fn wrong_name(rng: &mut Rng, good: &str) -> Vec<Node> {
    let (value, kind) = (text(NAME_VALUE, good), enumeration(NAME_TYPE, 1));
    let fields = match rng.pick(&Fault::OF_NAMES) {
        Fault::NoBytes => vec![text(NAME_VALUE, ""), kind],
        Fault::Of33Bytes => vec![text(NAME_VALUE, &any_text(rng, 33)), kind],
        Fault::OfMoreBytes => {
            let more = rng.between(34, 70) as usize;
            let more = rng.pick(&[34, 40, 64, 256, 257, 288, more]);
            vec![text(NAME_VALUE, &any_text(rng, more)), kind]
        }
        Fault::OfType2 => vec![value, enumeration(NAME_TYPE, 2)],
        Fault::OfOtherType => vec![value, enumeration(NAME_TYPE, rng.pick(&[0, 3, 257, 0x8000_0001, u32::MAX]))],
        Fault::NoType => vec![value],
        Fault::NoValue => rng.pick(&[vec![kind], vec![]]),
        Fault::Exchanged => vec![kind, value],
        Fault::ValueNoText => vec![byte_string(NAME_VALUE, good.as_bytes()), kind],
        Fault::TypeNoEnumeration => vec![value, integer(NAME_TYPE, 1)],
        Fault::AnotherField => vec![value, kind, rng.pick(&[text(NAME_VALUE, good), enumeration(NAME_TYPE, 1)])],
        Fault::NoStructure => return vec![text(NAME, good)],
        Fault::Twice => return vec![name(good), name(&any_name(rng))],
        _ => {
            let behind = [date_time(DEACTIVATION_DATE, i64::MAX), integer(0x420020, 1), enumeration(STATE, 1)];
            return vec![name(good), rng.pick(&behind)];
        }
    };
    vec![structure(NAME, fields)]
}

/// The payload of a Locate with one of its faults around a name that is allowed.
pub fn wrong_location(rng: &mut Rng, good: &str) -> Vec<Node> {
    let attributes = |nodes: Vec<Node>| structure(ATTRIBUTES, nodes);
    let identifier = text(UNIQUE_IDENTIFIER, "00000001");
    let more = rng.pick(&[integer(0x42008E, 1), integer(0x42004F, 1), enumeration(OBJECT_TYPE, 2)]);
    match rng.pick(&Fault::OF_LOCATE) {
        Fault::EmptyPayload => Vec::new(),
        Fault::EmptyAttributes => vec![attributes(Vec::new())],
        Fault::NameAlone => vec![name(good)],
        Fault::SomethingBefore => {
            rng.pick(&[vec![attributes(vec![more.clone(), name(good)])], vec![more, attributes(vec![name(good)])]])
        }
        Fault::AnIdentifier => rng.pick(&[vec![identifier.clone()], vec![identifier, attributes(vec![name(good)])]]),
        _ => vec![attributes(vec![name(good)]), rng.pick(&[more, identifier, attributes(vec![name(good)])])],
    }
}

/// What alone makes the payload of a Create or a Locate invalid, as far as it is about the name.
pub fn fault(operation: u32, fields: &[Item]) -> Option<Fault> {
    match operation {
        CREATE => fault_of_create(fields),
        LOCATE => fault_of_locate(fields),
        _ => None,
    }
}

/// The attributes from the name on are at fault, if the payload without them is right.
fn fault_of_create(fields: &[Item]) -> Option<Fault> {
    let [object_type, attributes] = fields else { return None };
    let attributes = attributes.structure(ATTRIBUTES)?;
    let at = attributes.iter().position(|attribute| attribute.tag == NAME)?;
    let front = Item { tag: ATTRIBUTES, value: Value::Structure(attributes[..at].to_vec()) };
    payload::read(CREATE, &[object_type.clone(), front]).ok()?;
    fault_from(&attributes[at..])
}

fn fault_of_locate(fields: &[Item]) -> Option<Fault> {
    let is_right = |item: &Item| item.structure(ATTRIBUTES).is_some_and(is_name);
    match fields {
        [] => Some(Fault::EmptyPayload),
        [first, ..] if first.tag == UNIQUE_IDENTIFIER => Some(Fault::AnIdentifier),
        [only] if is_name(std::slice::from_ref(only)) => Some(Fault::NameAlone),
        [only] => match only.structure(ATTRIBUTES)? {
            [] => Some(Fault::EmptyAttributes),
            [first, rest @ ..] if first.tag != NAME => is_name(rest).then_some(Fault::SomethingBefore),
            attributes => fault_from(attributes),
        },
        [_, last] if is_right(last) && !is_right(&fields[0]) => Some(Fault::SomethingBefore),
        [first, _] if is_right(first) => Some(Fault::SomethingBehindAttributes),
        _ => None,
    }
}

/// Whether these are one name that is allowed.
fn is_name(attributes: &[Item]) -> bool {
    let attributes = Item { tag: ATTRIBUTES, value: Value::Structure(attributes.to_vec()) };
    payload::read(LOCATE, &[attributes]).is_ok()
}

/// What is wrong with attributes that begin with a name, if it is one thing.
fn fault_from(attributes: &[Item]) -> Option<Fault> {
    match attributes {
        [only] => fault_of_one(only),
        [first, second] if is_name(std::slice::from_ref(first)) => match second.tag {
            NAME => is_name(std::slice::from_ref(second)).then_some(Fault::Twice),
            _ => Some(Fault::SomethingBehind),
        },
        _ => None,
    }
}

fn fault_of_one(name: &Item) -> Option<Fault> {
    let Value::Structure(fields) = &name.value else { return Some(Fault::NoStructure) };
    let tags: Vec<u32> = fields.iter().map(|field| field.tag).collect();
    match (&tags[..], &fields[..]) {
        ([] | [NAME_TYPE], _) => Some(Fault::NoValue),
        ([NAME_VALUE], _) => Some(Fault::NoType),
        ([NAME_TYPE, NAME_VALUE], _) => Some(Fault::Exchanged),
        ([NAME_VALUE, NAME_TYPE], [value, kind]) => fault_of_fields(&value.value, &kind.value),
        ([NAME_VALUE, NAME_TYPE, _], _) => Some(Fault::AnotherField),
        _ => None,
    }
}

fn fault_of_fields(value: &Value, kind: &Value) -> Option<Fault> {
    match (value, kind) {
        (Value::Text(text), Value::Enumeration(1)) => match text.len() {
            0 => Some(Fault::NoBytes),
            1..=32 => None,
            33 => Some(Fault::Of33Bytes),
            _ => Some(Fault::OfMoreBytes),
        },
        (Value::Text(_), Value::Enumeration(2)) => Some(Fault::OfType2),
        (Value::Text(_), Value::Enumeration(_)) => Some(Fault::OfOtherType),
        (Value::Text(_), _) => Some(Fault::TypeNoEnumeration),
        _ => Some(Fault::ValueNoText),
    }
}
