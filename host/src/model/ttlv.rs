//! TTLV as a tree: reading bytes into items, and writing items as bytes.
//! Knows nothing of keys.

/// One item.
#[derive(Clone, Debug, PartialEq)]
pub struct Item {
    pub tag: u32,
    pub value: Value,
}

/// What an item holds, by its type.
#[derive(Clone, Debug, PartialEq)]
pub enum Value {
    Structure(Vec<Item>),
    Integer(i32),
    LongInteger(i64),
    BigInteger(Vec<u8>),
    Enumeration(u32),
    Boolean(bool),
    Text(String),
    Bytes(Vec<u8>),
    DateTime(i64),
    Interval(u32),
    DateTimeExtended(i64),
}

/// The one item that these bytes are; none if they are malformed.
pub fn read(bytes: &[u8]) -> Option<Item> {
    match read_item(bytes, 1)? {
        (item, []) => Some(item),
        _ => None,
    }
}

/// The item at the front, which has this depth, and what follows it.
fn read_item(bytes: &[u8], depth: u32) -> Option<(Item, &[u8])> {
    let (header, rest) = bytes.split_at_checked(8)?;
    if depth > 8 || header[0] != 0x42 {
        return None;
    }
    let tag = u32::from_be_bytes([0, header[0], header[1], header[2]]);
    let length = u32::from_be_bytes([header[4], header[5], header[6], header[7]]) as u64;
    let padded = length.div_ceil(8) * 8;
    let (padded, rest) = rest.split_at_checked(padded as usize)?;
    let (value, padding) = padded.split_at(length as usize);
    if padding.iter().any(|&byte| byte != 0) {
        return None;
    }
    let value = read_value(header[3], value, depth)?;
    Some((Item { tag, value }, rest))
}

/// All items that stand here one after the other.
fn read_items(mut bytes: &[u8], depth: u32) -> Option<Vec<Item>> {
    let mut items = Vec::new();
    while !bytes.is_empty() {
        let (item, rest) = read_item(bytes, depth)?;
        items.push(item);
        bytes = rest;
    }
    Some(items)
}

fn read_value(kind: u8, bytes: &[u8], depth: u32) -> Option<Value> {
    let value = match kind {
        0x01 => Value::Structure(read_items(bytes, depth + 1)?),
        0x02 => Value::Integer(i32::from_be_bytes(bytes.try_into().ok()?)),
        0x03 => Value::LongInteger(i64::from_be_bytes(bytes.try_into().ok()?)),
        0x04 if !bytes.is_empty() && bytes.len().is_multiple_of(8) => Value::BigInteger(bytes.to_vec()),
        0x05 => Value::Enumeration(u32::from_be_bytes(bytes.try_into().ok()?)),
        0x06 if bytes == [0, 0, 0, 0, 0, 0, 0, 0] => Value::Boolean(false),
        0x06 if bytes == [0, 0, 0, 0, 0, 0, 0, 1] => Value::Boolean(true),
        // of what is text nothing is lost
        0x07 if is_text(bytes) => Value::Text(String::from_utf8_lossy(bytes).into_owned()),
        0x08 => Value::Bytes(bytes.to_vec()),
        0x09 => Value::DateTime(i64::from_be_bytes(bytes.try_into().ok()?)),
        0x0A => Value::Interval(u32::from_be_bytes(bytes.try_into().ok()?)),
        0x0B => Value::DateTimeExtended(i64::from_be_bytes(bytes.try_into().ok()?)),
        _ => return None,
    };
    Some(value)
}

/// Whether bytes are text. RFC 3629, section 4: `UTF8-octets = *( UTF8-char )`.
pub fn is_text(mut bytes: &[u8]) -> bool {
    while !bytes.is_empty() {
        let Some(rest) = after_character(bytes) else { return false };
        bytes = rest;
    }
    true
}

/// What follows the character at the front; none if no character stands there.
/// The lines are those of the RFC: `UTF8-char = UTF8-1 / UTF8-2 / UTF8-3 / UTF8-4`, `UTF8-tail = %x80-BF`.
fn after_character(bytes: &[u8]) -> Option<&[u8]> {
    match bytes {
        [0x00..=0x7F, rest @ ..] => Some(rest),

        [0xC2..=0xDF, 0x80..=0xBF, rest @ ..] => Some(rest),

        [0xE0, 0xA0..=0xBF, 0x80..=0xBF, rest @ ..] => Some(rest),
        [0xE1..=0xEC, 0x80..=0xBF, 0x80..=0xBF, rest @ ..] => Some(rest),
        [0xED, 0x80..=0x9F, 0x80..=0xBF, rest @ ..] => Some(rest),
        [0xEE..=0xEF, 0x80..=0xBF, 0x80..=0xBF, rest @ ..] => Some(rest),

        [0xF0, 0x90..=0xBF, 0x80..=0xBF, 0x80..=0xBF, rest @ ..] => Some(rest),
        [0xF1..=0xF3, 0x80..=0xBF, 0x80..=0xBF, 0x80..=0xBF, rest @ ..] => Some(rest),
        [0xF4, 0x80..=0x8F, 0x80..=0xBF, 0x80..=0xBF, rest @ ..] => Some(rest),

        _ => None,
    }
}

/// The bytes of an item: header, value, padding.
pub fn write(item: &Item) -> Vec<u8> {
    let (kind, value) = write_value(&item.value);
    let mut bytes = item.tag.to_be_bytes()[1..].to_vec();
    bytes.push(kind);
    bytes.extend((value.len() as u32).to_be_bytes());
    bytes.extend(value);
    while !bytes.len().is_multiple_of(8) {
        bytes.push(0);
    }
    bytes
}

fn write_value(value: &Value) -> (u8, Vec<u8>) {
    match value {
        Value::Structure(items) => (0x01, items.iter().flat_map(write).collect()),
        Value::Integer(number) => (0x02, number.to_be_bytes().to_vec()),
        Value::LongInteger(number) => (0x03, number.to_be_bytes().to_vec()),
        Value::BigInteger(bytes) => (0x04, bytes.clone()),
        Value::Enumeration(number) => (0x05, number.to_be_bytes().to_vec()),
        Value::Boolean(truth) => (0x06, u64::from(*truth).to_be_bytes().to_vec()),
        Value::Text(text) => (0x07, text.as_bytes().to_vec()),
        Value::Bytes(bytes) => (0x08, bytes.clone()),
        Value::DateTime(number) => (0x09, number.to_be_bytes().to_vec()),
        Value::Interval(number) => (0x0A, number.to_be_bytes().to_vec()),
        Value::DateTimeExtended(number) => (0x0B, number.to_be_bytes().to_vec()),
    }
}

/// Taking an item apart: each gives what it holds if tag and type are those asked for.
impl Item {
    pub fn structure(&self, tag: u32) -> Option<&[Item]> {
        match &self.value {
            Value::Structure(items) if self.tag == tag => Some(items),
            _ => None,
        }
    }

    pub fn integer(&self, tag: u32) -> Option<i32> {
        match self.value {
            Value::Integer(number) if self.tag == tag => Some(number),
            _ => None,
        }
    }

    pub fn long_integer(&self, tag: u32) -> Option<i64> {
        match self.value {
            Value::LongInteger(number) if self.tag == tag => Some(number),
            _ => None,
        }
    }

    pub fn enumeration(&self, tag: u32) -> Option<u32> {
        match self.value {
            Value::Enumeration(number) if self.tag == tag => Some(number),
            _ => None,
        }
    }

    pub fn date_time(&self, tag: u32) -> Option<i64> {
        match self.value {
            Value::DateTime(number) if self.tag == tag => Some(number),
            _ => None,
        }
    }

    pub fn interval(&self, tag: u32) -> Option<u32> {
        match self.value {
            Value::Interval(seconds) if self.tag == tag => Some(seconds),
            _ => None,
        }
    }

    pub fn bytes(&self, tag: u32) -> Option<&[u8]> {
        match &self.value {
            Value::Bytes(bytes) if self.tag == tag => Some(bytes),
            _ => None,
        }
    }

    pub fn text(&self, tag: u32) -> Option<&str> {
        match &self.value {
            Value::Text(text) if self.tag == tag => Some(text),
            _ => None,
        }
    }
}
