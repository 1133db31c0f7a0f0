//! The nine operations on the stored table.
//! Starts from a sound table and writes only when an item succeeds.

use super::request::{BatchItem, Order, Target, Unusable, Wanted};
use super::stored::{Dates, Key, Line, Name, Table, Usage};

/// Why an item failed, with the number of the Result Reason.
#[derive(Clone, Copy)]
pub enum Reason {
    OperationNotSupported = 0x05,
    InvalidField = 0x07,
    PermissionDenied = 0x0C,
    UsageLimitExceeded = 0x1A,
    NonUniqueNameAttribute = 0x35,
    ObjectDestroyed = 0x36,
    ObjectNotFound = 0x37,
    ServerLimitExceeded = 0x3A,
    WrongKeyLifecycleState = 0x43,
}

/// What came of an item.
pub enum Outcome {
    Created(u32),
    Named(u32),
    /// Locate found no record.
    NoneNamed,
    Described(Key),
    HandedOut(Line, [u8; 32]),
    Failed(Reason),
    /// It had succeeded, and is taken back since a later one failed.
    Undone,
}

/// What an operation that sets no date makes of states 1 to 6, in this order.
type Moves = [Result<u8, Reason>; 6];

const STUCK: Result<u8, Reason> = Err(Reason::WrongKeyLifecycleState);
const GONE: Result<u8, Reason> = Err(Reason::ObjectDestroyed);

/// Revoke with codes 2 and 3.
const COMPROMISE: Moves = [Ok(4), Ok(4), Ok(4), STUCK, Ok(6), STUCK];
const DESTROY: Moves = [Ok(5), STUCK, Ok(5), Ok(6), GONE, GONE];

/// One request at work: the table, the fresh strip in parts, the clock, and the placeholder (0 if empty).
pub struct Session<'a, const N: usize> {
    table: Table<'a, N>,
    fresh: &'a [[u8; 32]],
    now: u64,
    placeholder: u32,
}

impl<'a, const N: usize> Session<'a, N> {
    pub fn new(table: Table<'a, N>, fresh: &'a [[u8; 32]], now: u64) -> Self {
        Session { table, fresh, now, placeholder: 0 }
    }

    /// Carries out the item that stands at this index of the batch.
    pub fn carry_out(&mut self, index: usize, item: &BatchItem) -> Outcome {
        let fresh = self.fresh.get(index).copied().unwrap_or_default();
        self.attempt(item, &fresh).unwrap_or_else(|reason| {
            self.placeholder = 0;
            Outcome::Failed(reason)
        })
    }

    /// Makes the table what it was when it was kept.
    pub fn put_back(&mut self, kept: &Table<N>) {
        self.table.copy_from(kept);
    }

    fn attempt(&mut self, item: &BatchItem, fresh: &[u8; 32]) -> Result<Outcome, Reason> {
        let order = item.order().map_err(|unusable| match unusable {
            Unusable::Operation => Reason::OperationNotSupported,
            Unusable::Payload => Reason::InvalidField,
        })?;
        match order {
            Order::Create(wanted) => self.create(wanted, fresh),
            Order::Locate(name) => Ok(self.locate(&name)),
            Order::Rekey(target, offset) => self.rekey(target, offset, fresh),
            Order::Allocate(target, amount) => self.allocate(target, amount),
            Order::Activate(target) => self.activate(target),
            Order::Revoke(target, 2 | 3) => self.change_state(target, &COMPROMISE),
            Order::Revoke(target, _) => self.deactivate(target),
            Order::Destroy(target) => self.change_state(target, &DESTROY),
            Order::Key(target) => {
                let (place, line) = self.find(target)?;
                if matches!(line.state, 5 | 6) {
                    return Err(Reason::ObjectDestroyed);
                }
                Ok(Outcome::HandedOut(line, self.table.material(place)))
            }
            Order::Attributes(target) => {
                let (place, line) = self.find(target)?;
                Ok(Outcome::Described(self.table.key(place, line)))
            }
        }
    }

    /// Place and line of the record that is meant.
    fn find(&self, target: Target) -> Result<(usize, Line), Reason> {
        let serial = target.map_or(self.placeholder, |text| serial_of(text).unwrap_or(0));
        if serial == 0 {
            return Err(Reason::ObjectNotFound);
        }
        let place = self.table.find(serial).ok_or(Reason::ObjectNotFound)?;
        Ok((place, self.table.line(place)))
    }

    fn create(&mut self, wanted: Wanted, fresh: &[u8; 32]) -> Result<Outcome, Reason> {
        let Wanted { length, mask, unit, total, dates, name } = wanted;
        if self.table.find_name(&name).is_some() {
            return Err(Reason::NonUniqueNameAttribute);
        }
        let line = Line { serial: 0, state: 1, unit, length, replaced: 0, replacement: 0 };
        let usage = Usage { total, count: total, mask };
        let serial = self.issue(Key { line, usage, dates, name }, fresh)?;
        Ok(Outcome::Created(serial))
    }

    /// The record that has the name becomes the placeholder; if none has, there is none.
    fn locate(&mut self, name: &Name) -> Outcome {
        let Some(place) = self.table.find_name(name) else {
            self.placeholder = 0;
            return Outcome::NoneNamed;
        };
        self.placeholder = self.table.line(place).serial;
        Outcome::Named(self.placeholder)
    }

    /// A replacement stands where its dates put it: they are due at once, and may be moved by an Offset. The name goes over
    /// to it.
    fn rekey(&mut self, target: Target, offset: Option<u32>, fresh: &[u8; 32]) -> Result<Outcome, Reason> {
        let (place, line) = self.find(target)?;
        if matches!(line.state, 5 | 6) {
            return Err(Reason::ObjectDestroyed);
        }
        if line.replacement != 0 {
            return Err(Reason::PermissionDenied);
        }
        let Key { usage, mut dates, name, .. } = self.table.key(place, line);
        if let Some(seconds) = offset {
            dates = dates.moved_to(self.now + u64::from(seconds)).ok_or(Reason::InvalidField)?;
        }
        let new = Line { state: dates.state_at(self.now, 1), replaced: line.serial, ..line };
        let usage = Usage { count: usage.total, ..usage };
        let serial = self.issue(Key { line: new, usage, dates, name }, fresh)?;
        self.table.set_line(place, Line { replacement: serial, ..line });
        self.table.clear_name(place);
        Ok(Outcome::Named(serial))
    }

    /// Gives the new record the next serial and the place due to it, and sets the placeholder.
    fn issue(&mut self, key: Key, fresh: &[u8; 32]) -> Result<u32, Reason> {
        let serial = self.table.last().checked_add(1).ok_or(Reason::ServerLimitExceeded)?;
        let place = self.table.place_for_new().ok_or(Reason::ServerLimitExceeded)?;
        let line = Line { serial, ..key.line };
        self.table.put(place, &Key { line, ..key }, fresh);
        self.placeholder = serial;
        Ok(serial)
    }

    fn allocate(&mut self, target: Target, amount: u64) -> Result<Outcome, Reason> {
        let (place, line) = self.find(target)?;
        if line.state != 2 {
            return Err(Reason::WrongKeyLifecycleState);
        }
        if line.unit == 0 {
            return Err(Reason::InvalidField);
        }
        let count = self.table.usage(place).count.checked_sub(amount).ok_or(Reason::UsageLimitExceeded)?;
        self.table.set_count(place, count);
        Ok(Outcome::Named(line.serial))
    }

    /// Pre-Active to Active, as of now, unless the deactivation date has been reached.
    fn activate(&mut self, target: Target) -> Result<Outcome, Reason> {
        let (place, line) = self.find(target)?;
        let dates = self.table.dates(place);
        if line.state != 1 || dates.ended_by(self.now) {
            return Err(Reason::WrongKeyLifecycleState);
        }
        self.table.set_line(place, Line { state: 2, ..line });
        self.table.set_dates(place, Dates { activation: self.now, ..dates });
        Ok(Outcome::Named(line.serial))
    }

    /// Active to Deactivated, as of now: Revoke with codes other than 2 and 3.
    fn deactivate(&mut self, target: Target) -> Result<Outcome, Reason> {
        let (place, line) = self.find(target)?;
        if line.state != 2 {
            return Err(Reason::WrongKeyLifecycleState);
        }
        let dates = self.table.dates(place);
        self.table.set_line(place, Line { state: 3, ..line });
        self.table.set_dates(place, Dates { deactivation: self.now, ..dates });
        Ok(Outcome::Named(line.serial))
    }

    /// Moves a record to the state that stands for its own in `moves`; a destroyed one loses its material.
    fn change_state(&mut self, target: Target, moves: &Moves) -> Result<Outcome, Reason> {
        let (place, line) = self.find(target)?;
        let state = moves[usize::from(line.state - 1)]?;
        self.table.set_line(place, Line { state, ..line });
        if matches!(state, 5 | 6) {
            self.table.clear_material(place);
        }
        Ok(Outcome::Named(line.serial))
    }
}

/// The serial that eight upper-case hex digits write.
fn serial_of(text: &[u8]) -> Option<u32> {
    let digits: &[u8; 8] = text.try_into().ok()?;
    digits.iter().try_fold(0, |serial, digit| {
        let value = match digit {
            b'0'..=b'9' => digit - b'0',
            b'A'..=b'F' => digit - b'A' + 10,
            _ => return None,
        };
        Some(serial << 4 | u32::from(value))
    })
}
