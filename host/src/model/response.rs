//! The response as a tree.
//! Assumes nothing.

use super::operations::{identifier, Answer, Outcome, Success};
use super::table::Record;
use super::tags::*;
use super::ttlv::{Item, Value};

/// Response Message { Response Header, items }
pub fn message(clock: i64, answers: &[Answer]) -> Item {
    let mut fields = vec![header(clock, answers.len())];
    fields.extend(answers.iter().map(batch_item));
    structure(RESPONSE_MESSAGE, fields)
}

/// Response Header { Protocol Version 2.1, Time Stamp, Batch Count }
fn header(clock: i64, answered: usize) -> Item {
    let version = vec![integer(PROTOCOL_VERSION_MAJOR, 2), integer(PROTOCOL_VERSION_MINOR, 1)];
    let fields = vec![
        structure(PROTOCOL_VERSION, version),
        Item { tag: TIME_STAMP, value: Value::DateTime(clock) },
        integer(BATCH_COUNT, answered as i32),
    ];
    structure(RESPONSE_HEADER, fields)
}

/// Operation as given, the ID if given, Result Status, Result Reason on failure, Response Payload on success; nothing more
/// if undone
fn batch_item(answer: &Answer) -> Item {
    let mut fields = vec![enumeration(OPERATION, answer.operation)];
    if let Some(id) = &answer.id {
        fields.push(Item { tag: UNIQUE_BATCH_ITEM_ID, value: Value::Bytes(id.clone()) });
    }
    match &answer.result {
        Outcome::Succeeded(success) => {
            fields.push(enumeration(RESULT_STATUS, 0));
            fields.push(structure(RESPONSE_PAYLOAD, payload(success)));
        }
        Outcome::Failed(reason) => {
            fields.push(enumeration(RESULT_STATUS, 1));
            fields.push(enumeration(RESULT_REASON, *reason as u32));
        }
        Outcome::Undone => fields.push(enumeration(RESULT_STATUS, 3)),
    }
    structure(BATCH_ITEM, fields)
}

fn payload(success: &Success) -> Vec<Item> {
    match success {
        Success::Created(serial) => vec![enumeration(OBJECT_TYPE, 2), text(UNIQUE_IDENTIFIER, *serial)],
        Success::Rekeyed(serial) | Success::Done(serial) => vec![text(UNIQUE_IDENTIFIER, *serial)],
        Success::Located(found) => found.iter().map(|&serial| text(UNIQUE_IDENTIFIER, serial)).collect(),
        Success::Attributes(record) => {
            vec![text(UNIQUE_IDENTIFIER, record.serial), structure(ATTRIBUTES, attributes(record))]
        }
        Success::Key(record) => {
            let block = structure(KEY_BLOCK, key_block(record));
            vec![
                enumeration(OBJECT_TYPE, 2),
                text(UNIQUE_IDENTIFIER, record.serial),
                structure(SYMMETRIC_KEY, vec![block]),
            ]
        }
    }
}

/// Algorithm, length, mask, State, the dates that are set, Usage Limits if any, Links: replaced, then replacement; Name if
/// any
fn attributes(record: &Record) -> Vec<Item> {
    let mut fields = vec![
        enumeration(CRYPTOGRAPHIC_ALGORITHM, 3),
        integer(CRYPTOGRAPHIC_LENGTH, i32::from(record.length)),
        integer(CRYPTOGRAPHIC_USAGE_MASK, record.mask as i32),
        enumeration(STATE, u32::from(record.state)),
    ];
    for (tag, date) in [(ACTIVATION_DATE, record.activation), (DEACTIVATION_DATE, record.deactivation)] {
        if date != 0 {
            fields.push(Item { tag, value: Value::DateTime(date) });
        }
    }
    if record.unit != 0 {
        let limits = vec![
            long_integer(USAGE_LIMITS_TOTAL, record.total as i64),
            long_integer(USAGE_LIMITS_COUNT, record.count as i64),
            enumeration(USAGE_LIMITS_UNIT, u32::from(record.unit)),
        ];
        fields.push(structure(USAGE_LIMITS, limits));
    }
    for (link_type, serial) in [(0x107, record.replaced), (0x106, record.replacement)] {
        if serial != 0 {
            let link = vec![enumeration(LINK_TYPE, link_type), text(LINKED_OBJECT_IDENTIFIER, serial)];
            fields.push(structure(LINK, link));
        }
    }
    if let Some(name) = record.name.text() {
        // of what is text nothing is lost
        let value = Value::Text(String::from_utf8_lossy(name).into_owned());
        let name = vec![Item { tag: NAME_VALUE, value }, enumeration(NAME_TYPE, 1)];
        fields.push(structure(NAME, name));
    }
    fields
}

/// Key Format Type Raw, Key Value { Key Material }, algorithm, length
fn key_block(record: &Record) -> Vec<Item> {
    let material = record.material[..usize::from(record.length / 8)].to_vec();
    let value = vec![Item { tag: KEY_MATERIAL, value: Value::Bytes(material) }];
    vec![
        enumeration(KEY_FORMAT_TYPE, 1),
        structure(KEY_VALUE, value),
        enumeration(CRYPTOGRAPHIC_ALGORITHM, 3),
        integer(CRYPTOGRAPHIC_LENGTH, i32::from(record.length)),
    ]
}

fn structure(tag: u32, items: Vec<Item>) -> Item {
    Item { tag, value: Value::Structure(items) }
}

fn integer(tag: u32, number: i32) -> Item {
    Item { tag, value: Value::Integer(number) }
}

fn long_integer(tag: u32, number: i64) -> Item {
    Item { tag, value: Value::LongInteger(number) }
}

fn enumeration(tag: u32, number: u32) -> Item {
    Item { tag, value: Value::Enumeration(number) }
}

fn text(tag: u32, serial: u32) -> Item {
    Item { tag, value: Value::Text(identifier(serial)) }
}
