//! What a batch item asks for, read from its operation and payload.
//! Looks at nothing but the item.

use super::operations::Reason;
use super::soundness::GREATEST_TOTAL;
use super::tags::*;
use super::ttlv::{Item, Value};

/// What an item asks for.
#[derive(Debug)]
pub enum Order {
    Create(Wanted),
    /// The record with this name.
    Locate(String),
    Target(Target, Action),
}

/// The key to be created.
#[derive(Debug)]
pub struct Wanted {
    pub length: u16,
    pub mask: u32,
    pub limit: Option<Limit>,
    pub activation: Option<i64>,
    pub deactivation: Option<i64>,
    pub name: Option<String>,
}

/// A usage limit.
#[derive(Debug)]
pub struct Limit {
    pub total: u64,
    pub unit: u8,
}

/// The record that an item is about.
#[derive(Debug)]
pub enum Target {
    Placeholder,
    Identifier(String),
}

/// What is to be done with it; Re-key may have an Offset, in seconds.
#[derive(Debug)]
pub enum Action {
    Rekey(Option<u32>),
    GetUsageAllocation(u64),
    Activate,
    Revoke(u32),
    Destroy,
    Get,
    GetAttributes,
}

/// The order, or the reason that is due whatever the table holds.
pub fn read(operation: u32, payload: &[Item]) -> Result<Order, Reason> {
    match operation {
        CREATE => read_create(payload).map(Order::Create).ok_or(Reason::InvalidField),
        LOCATE => read_locate(payload).map(Order::Locate).ok_or(Reason::InvalidField),
        REKEY | GET | GET_ATTRIBUTES | GET_USAGE_ALLOCATION | ACTIVATE | REVOKE | DESTROY => {
            let (target, rest) = read_target(payload).ok_or(Reason::InvalidField)?;
            let action = read_action(operation, rest).ok_or(Reason::InvalidField)?;
            Ok(Order::Target(target, action))
        }
        _ => Err(Reason::OperationNotSupported),
    }
}

/// [Unique Identifier], and what follows it
fn read_target(payload: &[Item]) -> Option<(Target, &[Item])> {
    match payload {
        [first, rest @ ..] if first.tag == UNIQUE_IDENTIFIER => match &first.value {
            Value::Text(text) => Some((Target::Identifier(text.clone()), rest)),
            _ => None,
        },
        _ => Some((Target::Placeholder, payload)),
    }
}

fn read_action(operation: u32, rest: &[Item]) -> Option<Action> {
    match (operation, rest) {
        (REKEY, []) => Some(Action::Rekey(None)),
        (REKEY, [offset]) => offset.interval(OFFSET).map(|seconds| Action::Rekey(Some(seconds))),
        (GET, []) => Some(Action::Get),
        (GET_ATTRIBUTES, []) => Some(Action::GetAttributes),
        (ACTIVATE, []) => Some(Action::Activate),
        (DESTROY, []) => Some(Action::Destroy),
        (GET_USAGE_ALLOCATION, [count]) => {
            let count = count.long_integer(USAGE_LIMITS_COUNT)?;
            (count > 0).then_some(Action::GetUsageAllocation(count as u64))
        }
        (REVOKE, [reason]) => {
            let [code] = reason.structure(REVOCATION_REASON)? else {
                return None;
            };
            let code = code.enumeration(REVOCATION_REASON_CODE)?;
            (1..=7).contains(&code).then_some(Action::Revoke(code))
        }
        _ => None,
    }
}

/// Object Type = 2, Attributes
fn read_create(payload: &[Item]) -> Option<Wanted> {
    let [object_type, attributes] = payload else {
        return None;
    };
    if object_type.enumeration(OBJECT_TYPE)? != 2 {
        return None;
    }
    read_wanted(attributes.structure(ATTRIBUTES)?)
}

/// Cryptographic Algorithm = 3, Cryptographic Length, Cryptographic Usage Mask, [Usage Limits], [Activation Date],
/// [Deactivation Date], [Name]; deactivation is not before activation, and limits are for keys that can apply protection
fn read_wanted(attributes: &[Item]) -> Option<Wanted> {
    let [algorithm, length, mask, rest @ ..] = attributes else {
        return None;
    };
    let algorithm = algorithm.enumeration(CRYPTOGRAPHIC_ALGORITHM)?;
    let length = length.integer(CRYPTOGRAPHIC_LENGTH)?;
    let mask = mask.integer(CRYPTOGRAPHIC_USAGE_MASK)?;
    let allowed = algorithm == 3 && [128, 192, 256].contains(&length) && (0..=0x00FF_FFFF).contains(&mask);
    let (limit, rest) = read_optional(USAGE_LIMITS, rest, read_limits)?;
    let (activation, rest) = read_optional(ACTIVATION_DATE, rest, |date| read_date(date, ACTIVATION_DATE))?;
    let (deactivation, rest) = read_optional(DEACTIVATION_DATE, rest, |date| read_date(date, DEACTIVATION_DATE))?;
    let (name, rest) = read_optional(NAME, rest, read_name)?;
    let in_order = match (activation, deactivation) {
        (Some(activation), Some(deactivation)) => activation <= deactivation,
        _ => true,
    };
    let limit_allowed = limit.is_none() || can_protect(mask);
    let wanted = Wanted { length: length as u16, mask: mask as u32, limit, activation, deactivation, name };
    (allowed && limit_allowed && in_order && rest.is_empty()).then_some(wanted)
}

/// Whether a key with this mask can apply protection: whether Sign, Encrypt or MAC Generate is among its uses.
fn can_protect(mask: i32) -> bool {
    const SIGN: i32 = 0x01;
    const ENCRYPT: i32 = 0x04;
    const MAC_GENERATE: i32 = 0x80;
    [SIGN, ENCRYPT, MAC_GENERATE].into_iter().any(|usage| mask & usage == usage)
}

/// Attributes { Name }
fn read_locate(payload: &[Item]) -> Option<String> {
    let [attributes] = payload else {
        return None;
    };
    let [name] = attributes.structure(ATTRIBUTES)? else {
        return None;
    };
    read_name(name)
}

/// Name { Name Value, Name Type = 1, which is uninterpreted text }; 1 to 32 bytes
fn read_name(name: &Item) -> Option<String> {
    let [value, kind] = name.structure(NAME)? else {
        return None;
    };
    let (value, kind) = (value.text(NAME_VALUE)?, kind.enumeration(NAME_TYPE)?);
    ((1..=32).contains(&value.len()) && kind == 1).then(|| value.to_string())
}

/// What an item that may be missing holds, and what follows it; nothing if it is there and holds something else.
fn read_optional<T>(tag: u32, items: &[Item], read: impl Fn(&Item) -> Option<T>) -> Option<(Option<T>, &[Item])> {
    match items {
        [first, rest @ ..] if first.tag == tag => Some((Some(read(first)?), rest)),
        _ => Some((None, items)),
    }
}

/// A date to be set: from 1 up
fn read_date(date: &Item, tag: u32) -> Option<i64> {
    let date = date.date_time(tag)?;
    (date >= 1).then_some(date)
}

/// Usage Limits { Total, Unit }
fn read_limits(limits: &Item) -> Option<Limit> {
    let [total, unit] = limits.structure(USAGE_LIMITS)? else {
        return None;
    };
    let total = total.long_integer(USAGE_LIMITS_TOTAL)?;
    let unit = unit.enumeration(USAGE_LIMITS_UNIT)?;
    let allowed = total >= 1 && total as u64 <= GREATEST_TOTAL && [1, 2].contains(&unit);
    allowed.then_some(Limit { total: total as u64, unit: unit as u8 })
}
