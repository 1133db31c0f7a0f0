//! The stored table as records, and back to bytes.
//! Every byte of a table of a size that there is, is kept by some field, so that decoding and encoding lose nothing.

/// The place counts that a lead may say.
pub const COUNTS: [usize; 2] = [64, 256];
/// Bytes of a body.
const BODY: usize = 112;

/// Bytes of a table: lead, contents and bodies, of so many places.
pub fn size_of(count: usize) -> usize {
    16 + count * 16 + count * BODY
}

/// How many places a table of this size has, if a table may have this size.
pub fn places_in(size: usize) -> Option<usize> {
    COUNTS.into_iter().find(|&count| size_of(count) == size)
}

/// Lead with the latest clock seen, and the record of each place. What the lead says need not be how many there are.
#[derive(Clone, Debug, PartialEq)]
pub struct Table {
    pub last: u32,
    pub place_count: u32,
    pub latest: i64,
    pub places: Vec<Record>,
}

/// Line and body of one place; serial 0 means free, a date of 0 is not set, and a name of length 0 is none.
#[derive(Clone, Debug, Default, PartialEq)]
pub struct Record {
    pub serial: u32,
    pub state: u8,
    pub unit: u8,
    pub length: u16,
    pub replaced: u32,
    pub replacement: u32,
    pub total: u64,
    pub count: u64,
    pub mask: u32,
    pub zeros: u32,
    pub material: [u8; 32],
    pub activation: i64,
    pub deactivation: i64,
    pub name: Name,
}

impl Record {
    pub fn is_free(&self) -> bool {
        self.serial == 0
    }
}

/// A name as a body has it: a length byte, seven bytes, and 32 of which the name takes the first.
#[derive(Clone, Debug, Default, PartialEq)]
pub struct Name {
    pub length: u8,
    pub zeros: [u8; 7],
    pub room: [u8; 32],
}

impl Name {
    /// A name of at most 32 bytes, stored as it has to be.
    pub fn of(text: &[u8]) -> Name {
        let mut room = [0; 32];
        room[..text.len()].copy_from_slice(text);
        Name { length: text.len() as u8, zeros: [0; 7], room }
    }

    /// The bytes of the name; nothing if there is no name. One that says it is longer than its room has all of that.
    pub fn text(&self) -> Option<&[u8]> {
        match usize::from(self.length) {
            0 => None,
            length => Some(&self.room[..length.min(32)]),
        }
    }
}

impl Table {
    /// A table of so many places with nothing issued and no clock seen.
    pub fn blank(count: usize) -> Table {
        Table { last: 0, place_count: count as u32, latest: 0, places: vec![Record::default(); count] }
    }

    /// The records that stand: those of the places that are not free.
    pub fn standing(&self) -> impl Iterator<Item = &Record> {
        self.places.iter().filter(|record| !record.is_free())
    }

    /// The record with this serial.
    pub fn find(&self, serial: u32) -> Option<&Record> {
        self.standing().find(|record| record.serial == serial)
    }

    /// The record that has this name.
    pub fn find_name(&self, name: &[u8]) -> Option<&Record> {
        self.standing().find(|record| record.name.text() == Some(name))
    }

    /// The records of a table of a size that there is.
    pub fn decode(bytes: &[u8]) -> Table {
        let count = places_in(bytes.len()).expect("the size of a table");
        let (lead, rest) = bytes.split_at(16);
        let (lines, bodies) = rest.split_at(count * 16);
        Table {
            last: number(lead, 0, 4) as u32,
            place_count: number(lead, 4, 4) as u32,
            latest: number(lead, 8, 8) as i64,
            places: lines.chunks(16).zip(bodies.chunks(BODY)).map(|(line, body)| decode_record(line, body)).collect(),
        }
    }

    /// The bytes: lead, contents, bodies.
    pub fn encode(&self) -> Vec<u8> {
        let mut bytes = Vec::new();
        bytes.extend(self.last.to_be_bytes());
        bytes.extend(self.place_count.to_be_bytes());
        bytes.extend(self.latest.to_be_bytes());
        self.places.iter().for_each(|record| encode_line(record, &mut bytes));
        self.places.iter().for_each(|record| encode_body(record, &mut bytes));
        bytes
    }
}

/// The big-endian number in `width` bytes from `at`.
fn number(bytes: &[u8], at: usize, width: usize) -> u64 {
    bytes[at..at + width].iter().fold(0, |sum, &byte| sum * 256 + u64::from(byte))
}

fn decode_record(line: &[u8], body: &[u8]) -> Record {
    Record {
        serial: number(line, 0, 4) as u32,
        state: line[4],
        unit: line[5],
        length: number(line, 6, 2) as u16,
        replaced: number(line, 8, 4) as u32,
        replacement: number(line, 12, 4) as u32,
        total: number(body, 0, 8),
        count: number(body, 8, 8),
        mask: number(body, 16, 4) as u32,
        zeros: number(body, 20, 4) as u32,
        material: body[24..56].try_into().expect("a body has 112 bytes"),
        activation: number(body, 56, 8) as i64,
        deactivation: number(body, 64, 8) as i64,
        name: Name {
            length: body[72],
            zeros: body[73..80].try_into().expect("a body has 112 bytes"),
            room: body[80..112].try_into().expect("a body has 112 bytes"),
        },
    }
}

fn encode_line(record: &Record, bytes: &mut Vec<u8>) {
    bytes.extend(record.serial.to_be_bytes());
    bytes.push(record.state);
    bytes.push(record.unit);
    bytes.extend(record.length.to_be_bytes());
    bytes.extend(record.replaced.to_be_bytes());
    bytes.extend(record.replacement.to_be_bytes());
}

fn encode_body(record: &Record, bytes: &mut Vec<u8>) {
    bytes.extend(record.total.to_be_bytes());
    bytes.extend(record.count.to_be_bytes());
    bytes.extend(record.mask.to_be_bytes());
    bytes.extend(record.zeros.to_be_bytes());
    bytes.extend(record.material);
    bytes.extend(record.activation.to_be_bytes());
    bytes.extend(record.deactivation.to_be_bytes());
    bytes.push(record.name.length);
    bytes.extend(record.name.zeros);
    bytes.extend(record.name.room);
}
