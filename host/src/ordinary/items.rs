//! Reading TTLV in place.
//! A field is named by its tag and type together, as the first four bytes of its header.

/// The fields that stand in these bytes one after the other.
#[derive(Clone, Copy)]
pub struct Fields<'a> {
    bytes: &'a [u8],
}

/// One field: its name and its value without padding.
#[derive(Clone, Copy)]
struct Field<'a> {
    name: u32,
    value: &'a [u8],
}

/// Whether the bytes are exactly one well-formed item.
pub fn well_formed_message(bytes: &[u8]) -> bool {
    match split(bytes) {
        Some((field, [])) => well_formed_value(field, 1),
        _ => false,
    }
}

/// Whether the bytes are well-formed items of this depth and nothing more.
fn well_formed(mut bytes: &[u8], depth: u32) -> bool {
    while !bytes.is_empty() {
        let Some((field, rest)) = split(bytes) else {
            return false;
        };
        if !well_formed_value(field, depth) {
            return false;
        }
        bytes = rest;
    }
    true
}

fn well_formed_value(field: Field, depth: u32) -> bool {
    let value = field.value;
    if field.name >> 24 != 0x42 || depth > 8 {
        return false;
    }
    match field.name & 0xFF {
        0x01 => well_formed(value, depth + 1),
        0x02 | 0x05 | 0x0A => value.len() == 4,
        0x03 | 0x09 | 0x0B => value.len() == 8,
        0x04 => !value.is_empty() && value.len().is_multiple_of(8),
        0x06 => matches!(value, [0, 0, 0, 0, 0, 0, 0, 0 | 1]),
        0x07 => std::str::from_utf8(value).is_ok(),
        0x08 => true,
        _ => false,
    }
}

/// The first field, if its value and its zero padding are there, and what follows.
fn split(bytes: &[u8]) -> Option<(Field<'_>, &[u8])> {
    let (name, rest) = bytes.split_first_chunk::<4>()?;
    let (length, rest) = rest.split_first_chunk::<4>()?;
    let length = u32::from_be_bytes(*length) as usize;
    let (value, rest) = rest.split_at_checked(length)?;
    let (padding, rest) = rest.split_at_checked(length.wrapping_neg() % 8)?;
    if padding.iter().any(|&byte| byte != 0) {
        return None;
    }
    let name = u32::from_be_bytes(*name);
    Some((Field { name, value }, rest))
}

impl<'a> Fields<'a> {
    pub fn new(bytes: &'a [u8]) -> Self {
        Fields { bytes }
    }

    pub fn is_empty(&self) -> bool {
        self.bytes.is_empty()
    }

    /// Takes the next field if it has this name.
    pub fn take(&mut self, name: u32) -> Option<&'a [u8]> {
        let (field, rest) = split(self.bytes)?;
        if field.name != name {
            return None;
        }
        self.bytes = rest;
        Some(field.value)
    }

    /// Takes the next field if it is a structure of this name.
    pub fn structure(&mut self, name: u32) -> Option<Fields<'a>> {
        self.take(name).map(Fields::new)
    }

    /// Takes the next field if it has this name and four bytes.
    pub fn word(&mut self, name: u32) -> Option<u32> {
        let value = self.take(name)?;
        value.try_into().ok().map(u32::from_be_bytes)
    }

    /// Takes the next field if it has this name and eight bytes.
    pub fn long(&mut self, name: u32) -> Option<i64> {
        let value = self.take(name)?;
        value.try_into().ok().map(i64::from_be_bytes)
    }

    /// Whether the next field has this tag, whatever its type.
    pub fn next_has_tag(&self, tag: u32) -> bool {
        match self.bytes.first_chunk() {
            Some(name) => u32::from_be_bytes(*name) >> 8 == tag,
            None => false,
        }
    }
}
