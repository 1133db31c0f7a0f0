//! Usage limits and masks: a Create with a limit needs a mask with Sign, Encrypt or MAC Generate, and nothing else does.
//! Keys of older tables have limits with other masks: they are granted from, replaced and shown like any other.

use junctionmoth::model::frame::BatchItem;
use junctionmoth::model::operations::identifier;
use junctionmoth::model::operations::Reason::*;
use junctionmoth::model::payload::{self, Action, Order, Target};
use junctionmoth::model::table::{Record, Table};
use junctionmoth::model::tags::*;
use junctionmoth::model::ttlv::{self, Item, Value};

/// Masks with a use that applies protection; the first three have that use alone.
pub const PROTECTING: [i32; 7] = [0x01, 0x04, 0x80, 0x85, 0x00FF_FFFF, 0x0C, 0x0180];

/// Masks without one: none, those beside the three, and all but the three.
pub const OTHERS: [i32; 6] = [0, 0x02, 0x08, 0x40, 0x0100, 0x00FF_FF7A];

/// What comes before which: told by who follows the names and the places, see `fails_for_its_mask`.
pub const TAKEN: &str = "Create with a limit and no protecting use, a name that is taken: Invalid Field";
pub const NO_PLACE: &str = "Create with a limit and no protecting use, no place left: Invalid Field";
const LAST_SERIAL: &str = "Create with a limit and no protecting use, last serial FFFFFFFF: Invalid Field";

/// Things that must occur.
pub const EVENTS: [&str; 20] = [
    "Create with a limit and Sign alone",
    "Create with a limit and Encrypt alone",
    "Create with a limit and MAC Generate alone",
    "Create with a limit and all three",
    "Create with a limit and every use",
    "Create with a limit and no use: Invalid Field",
    "Create with a limit and Verify alone: Invalid Field",
    "Create with a limit and Decrypt alone: Invalid Field",
    "Create with a limit and 40 hex alone: Invalid Field",
    "Create with a limit and MAC Verify alone: Invalid Field",
    "Create with a limit and every use but the three: Invalid Field",
    TAKEN,
    NO_PLACE,
    LAST_SERIAL,
    "Create without a limit, no use",
    "Create without a limit, every use but the three",
    "Re-key of a key with a limit and no protecting use",
    "grant from a key with a limit and no protecting use",
    "no grant from a key with a limit and no protecting use: Usage Limit Exceeded",
    "Get Attributes of a key with a limit and no protecting use",
];

/// Whether a mask has one of the three uses, by its digits in base 2.
pub fn protects(mask: u32) -> bool {
    let digits: Vec<char> = format!("{mask:032b}").chars().rev().collect();
    digits[0] == '1' || digits[2] == '1' || digits[7] == '1'
}

/// Whether a record is as an older table may hold it: with a limit, and with a mask that a Create with it may not have.
pub fn is_older(record: &Record) -> bool {
    record.unit != 0 && !protects(record.mask)
}

/// What the items of an answered call show, between the table that the first of them met and the one that was left.
pub fn of_answer(start: &Table, after: &Table, asked: &[BatchItem], response: &[u8]) -> Vec<&'static str> {
    let message = ttlv::read(response).expect("a response is one well-formed item");
    let answers = &message.structure(RESPONSE_MESSAGE).expect("a Response Message")[1..];
    let mut events = Vec::new();
    for (item, answer) in asked.iter().zip(answers) {
        let fields = answer.structure(BATCH_ITEM).expect("a Batch Item");
        let reason = fields.iter().find_map(|field| field.enumeration(RESULT_REASON));
        let payload = fields.last().and_then(|last| last.structure(RESPONSE_PAYLOAD));
        if let (CREATE, Some((mask, limited))) = (item.operation, right_but_for_mask(&item.payload)) {
            assert_eq!(reason == Some(InvalidField as u32), limited && !protects(mask), "a Create with mask {mask:X}");
            if reason.is_some() || payload.is_some() {
                events.extend(of_create(mask, limited, reason));
            }
            let last = limited && !protects(mask) && start.last == u32::MAX;
            events.extend(last.then_some(LAST_SERIAL));
        }
        events.extend(of_target(start, after, item, reason, payload));
    }
    events
}

/// The mask of a Create, and whether it has a limit, if nothing but the one with the other can make it invalid.
fn right_but_for_mask(fields: &[Item]) -> Option<(u32, bool)> {
    let [object_type, attributes] = fields else { return None };
    let mut attributes = attributes.structure(ATTRIBUTES)?.to_vec();
    let mask = attributes.get(2)?.integer(CRYPTOGRAPHIC_USAGE_MASK).filter(|mask| (0..1 << 24).contains(mask))?;
    let limited = attributes.get(3).is_some_and(|field| field.tag == USAGE_LIMITS);
    attributes[2].value = Value::Integer(0x85);
    let attributes = Item { tag: ATTRIBUTES, value: Value::Structure(attributes) };
    payload::read(CREATE, &[object_type.clone(), attributes]).ok()?;
    Some((mask as u32, limited))
}

fn of_create(mask: u32, limited: bool, reason: Option<u32>) -> Option<&'static str> {
    let event = match (limited, mask) {
        (true, 0x01) => "Create with a limit and Sign alone",
        (true, 0x04) => "Create with a limit and Encrypt alone",
        (true, 0x80) => "Create with a limit and MAC Generate alone",
        (true, 0x85) => "Create with a limit and all three",
        (true, 0x00FF_FFFF) => "Create with a limit and every use",
        (true, 0) => "Create with a limit and no use: Invalid Field",
        (true, 0x02) => "Create with a limit and Verify alone: Invalid Field",
        (true, 0x08) => "Create with a limit and Decrypt alone: Invalid Field",
        (true, 0x40) => "Create with a limit and 40 hex alone: Invalid Field",
        (true, 0x0100) => "Create with a limit and MAC Verify alone: Invalid Field",
        (true, 0x00FF_FF7A) => "Create with a limit and every use but the three: Invalid Field",
        (false, 0) => "Create without a limit, no use",
        (false, 0x00FF_FF7A) => "Create without a limit, every use but the three",
        _ => return None,
    };
    let invalid = event.ends_with("Invalid Field");
    (reason == invalid.then_some(InvalidField as u32)).then_some(event)
}

/// Whether the payload of a Create is invalid for nothing but its mask, beside its limit.
pub fn fails_for_its_mask(fields: &[Item]) -> bool {
    right_but_for_mask(fields).is_some_and(|(mask, limited)| limited && !protects(mask))
}

/// An item that names a key of an older table, and is not undone. Limit and mask of a key never change, so it does not
/// matter what stood before it in the batch.
fn of_target(
    start: &Table,
    after: &Table,
    item: &BatchItem,
    reason: Option<u32>,
    shown: Option<&[Item]>,
) -> Option<&'static str> {
    let order = payload::read(item.operation, &item.payload);
    let Ok(Order::Target(Target::Identifier(text), action)) = order else { return None };
    let key = start.standing().find(|record| identifier(record.serial) == text).filter(|key| is_older(key))?;
    match (action, reason) {
        (Action::Rekey(_), None) => {
            let new = shown?.iter().find_map(|field| field.text(UNIQUE_IDENTIFIER)).expect("an identifier");
            compare_limits(key, after.standing().find(|record| identifier(record.serial) == new)?);
            Some("Re-key of a key with a limit and no protecting use")
        }
        (Action::GetAttributes, None) => {
            assert!(shows_limit(shown?, key), "the limit and the mask of {text} are not shown");
            Some("Get Attributes of a key with a limit and no protecting use")
        }
        (Action::GetUsageAllocation(_), None) => shown.map(|_| "grant from a key with a limit and no protecting use"),
        (Action::GetUsageAllocation(_), Some(reason)) => {
            assert_ne!(reason, InvalidField as u32, "units of {text}, which has a limit");
            let what = "no grant from a key with a limit and no protecting use: Usage Limit Exceeded";
            (reason == UsageLimitExceeded as u32).then_some(what)
        }
        _ => None,
    }
}

/// Whether the payload of a Get Attributes shows the mask of a key, and its limit.
fn shows_limit(shown: &[Item], key: &Record) -> bool {
    let attributes = shown.last().and_then(|last| last.structure(ATTRIBUTES)).expect("Attributes");
    let mask = attributes.iter().find_map(|field| field.integer(CRYPTOGRAPHIC_USAGE_MASK));
    let limit = attributes.iter().find_map(|field| field.structure(USAGE_LIMITS));
    let total = limit.and_then(|fields| fields.iter().find_map(|field| field.long_integer(USAGE_LIMITS_TOTAL)));
    mask == Some(key.mask as i32) && total == Some(key.total as i64)
}

/// That a replacement has the limit of its key, and the mask, whatever it is.
pub fn compare_limits(old: &Record, new: &Record) {
    let copied = (old.unit, old.total, old.mask, old.length);
    assert_eq!((new.unit, new.total, new.mask, new.length), copied, "limit and mask of a replacement");
}
