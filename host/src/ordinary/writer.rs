//! Writing the response into the output.
//! The room of 6,360 bytes is enough for every response, so no write falls outside of it.

use super::act::Outcome;
use super::request::BatchItem;
use super::stored::{Key, Line, Name};

/// The output with what has been written so far.
pub struct Writer<'a> {
    out: &'a mut [u8; crate::ROOM],
    at: usize,
}

impl<'a> Writer<'a> {
    pub fn new(out: &'a mut [u8; crate::ROOM]) -> Self {
        Writer { out, at: 0 }
    }

    pub fn length(&self) -> usize {
        self.at
    }

    fn put(&mut self, bytes: &[u8]) {
        let end = self.at + bytes.len();
        if let Some(room) = self.out.get_mut(self.at..end) {
            room.copy_from_slice(bytes);
            self.at = end;
        }
    }

    fn put_at(&mut self, at: usize, number: u32) {
        if let Some(room) = self.out.get_mut(at..at + 4) {
            room.copy_from_slice(&number.to_be_bytes());
        }
    }

    /// Begins a structure; the mark is for closing it.
    pub fn open(&mut self, name: u32) -> usize {
        self.put(&(u64::from(name) << 32).to_be_bytes());
        self.at
    }

    /// Ends a structure by writing its length.
    pub fn close(&mut self, mark: usize) {
        self.put_at(mark - 4, (self.at - mark) as u32);
    }

    fn word(&mut self, name: u32, number: u32) {
        self.put(&(u128::from(name) << 96 | 4 << 64 | u128::from(number) << 32).to_be_bytes());
    }

    fn long(&mut self, name: u32, number: u64) {
        self.put(&(u128::from(name) << 96 | 8 << 64 | u128::from(number)).to_be_bytes());
    }

    /// A Text String of eight upper-case hex digits.
    fn serial(&mut self, name: u32, serial: u32) {
        let mut digits = [0; 8];
        for (digit, shift) in digits.iter_mut().zip((0..32).step_by(4).rev()) {
            let value = (serial >> shift & 15) as u8;
            *digit = if value < 10 { b'0' + value } else { b'A' + value - 10 };
        }
        self.long(name, u64::from_be_bytes(digits));
    }

    /// A Byte String, or a Text String of bytes that are text.
    fn string(&mut self, name: u32, bytes: &[u8]) {
        self.put(&(u64::from(name) << 32 | bytes.len() as u64).to_be_bytes());
        self.put(bytes);
        let padding = bytes.len().wrapping_neg() % 8;
        self.put(&[0; 8][..padding]);
    }

    /// The response header; gives the mark for setting its count.
    pub fn response_header(&mut self, now: u64) -> usize {
        let header = self.open(0x42007A01);
        let version = self.open(0x42006901);
        self.word(0x42006A02, 2);
        self.word(0x42006B02, 1);
        self.close(version);
        self.long(0x42009209, now);
        self.word(0x42000D02, 0);
        self.close(header);
        self.at - 8
    }

    pub fn set_count(&mut self, mark: usize, answered: u32) {
        self.put_at(mark, answered);
    }

    /// The answer to one item.
    pub fn batch_item(&mut self, item: &BatchItem, outcome: &Outcome) {
        let answer = self.open(0x42000F01);
        self.word(0x42005C05, item.operation);
        if let Some(id) = item.id {
            self.string(0x42009308, id);
        }
        match outcome {
            Outcome::Undone => self.word(0x42007F05, 3),
            Outcome::Failed(reason) => {
                self.word(0x42007F05, 1);
                self.word(0x42007E05, *reason as u32);
            }
            _ => {
                self.word(0x42007F05, 0);
                self.payload(outcome);
            }
        }
        self.close(answer);
    }

    fn payload(&mut self, outcome: &Outcome) {
        let payload = self.open(0x42007C01);
        match outcome {
            Outcome::Created(serial) => {
                self.word(0x42005705, 2);
                self.serial(0x42009407, *serial);
            }
            Outcome::Named(serial) => self.serial(0x42009407, *serial),
            Outcome::Described(key) => {
                self.serial(0x42009407, key.line.serial);
                self.attributes(key);
            }
            Outcome::HandedOut(line, material) => {
                self.word(0x42005705, 2);
                self.serial(0x42009407, line.serial);
                self.key(line, material);
            }
            Outcome::NoneNamed | Outcome::Failed(_) | Outcome::Undone => {}
        }
        self.close(payload);
    }

    fn attributes(&mut self, key: &Key) {
        let Key { line, usage, dates, name } = key;
        let attributes = self.open(0x42012501);
        self.word(0x42002805, 3);
        self.word(0x42002A02, u32::from(line.length));
        self.word(0x42002C02, usage.mask);
        self.word(0x42008D05, u32::from(line.state));
        self.date(0x42000109, dates.activation);
        self.date(0x42002F09, dates.deactivation);
        if line.unit != 0 {
            let limits = self.open(0x42009501);
            self.long(0x42009703, usage.total);
            self.long(0x42009603, usage.count);
            self.word(0x42009805, u32::from(line.unit));
            self.close(limits);
        }
        self.link(0x107, line.replaced);
        self.link(0x106, line.replacement);
        self.name(name);
        self.close(attributes);
    }

    /// A name, if there is one.
    fn name(&mut self, name: &Name) {
        let value = name.text();
        if !value.is_empty() {
            let name = self.open(0x42005301);
            self.string(0x42005507, value);
            self.word(0x42005405, 1);
            self.close(name);
        }
    }

    /// A date, if it is set.
    fn date(&mut self, name: u32, date: u64) {
        if date != 0 {
            self.long(name, date);
        }
    }

    /// A Symmetric Key with its Key Block, in the format Raw.
    fn key(&mut self, line: &Line, material: &[u8; 32]) {
        let key = self.open(0x42008F01);
        let block = self.open(0x42004001);
        self.word(0x42004205, 1);
        let value = self.open(0x42004501);
        self.string(0x42004308, material.get(..usize::from(line.length / 8)).unwrap_or(material));
        self.close(value);
        self.word(0x42002805, 3);
        self.word(0x42002A02, u32::from(line.length));
        self.close(block);
        self.close(key);
    }

    fn link(&mut self, link_type: u32, serial: u32) {
        if serial != 0 {
            let link = self.open(0x42004A01);
            self.word(0x42004B05, link_type);
            self.serial(0x42004C07, serial);
            self.close(link);
        }
    }
}
