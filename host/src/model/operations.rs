//! The nine operations on records.
//! Starts from a sound table, whose latest clock is the one that counts; a failed item leaves it as it was.

use super::dates::{self, has_come};
use super::frame::BatchItem;
use super::payload::{self, Action, Order, Target, Wanted};
use super::table::{Name, Record, Table};

/// Why an item failed, with the number of the Result Reason.
#[derive(Clone, Copy, Debug, PartialEq, Eq, PartialOrd, Ord, Hash)]
pub enum Reason {
    OperationNotSupported = 0x05,
    InvalidField = 0x07,
    PermissionDenied = 0x0C,
    UsageLimitExceeded = 0x1A,
    NonUniqueNameAttribute = 0x35,
    ObjectDestroyed = 0x36,
    ObjectNotFound = 0x37,
    ServerLimitExceeded = 0x3A,
    WrongKeyLifecycleState = 0x43,
}

/// What a successful item has to tell.
#[derive(Debug)]
pub enum Success {
    Created(u32),
    Rekeyed(u32),
    Done(u32),
    Attributes(Record),
    Key(Record),
    /// The record that has the name, if there is one.
    Located(Option<u32>),
}

/// What is told of an item.
#[derive(Debug)]
pub enum Outcome {
    Succeeded(Success),
    Failed(Reason),
    /// It had succeeded, and a later item of its batch failed.
    Undone,
}

impl From<Result<Success, Reason>> for Outcome {
    fn from(result: Result<Success, Reason>) -> Outcome {
        result.map_or_else(Outcome::Failed, Outcome::Succeeded)
    }
}

/// The answer to an item.
#[derive(Debug)]
pub struct Answer {
    pub operation: u32,
    pub id: Option<Vec<u8>>,
    pub result: Outcome,
}

impl Answer {
    pub fn is_failed(&self) -> bool {
        matches!(self.result, Outcome::Failed(_))
    }

    /// The answer when the batch is undone: one that succeeded says so and no more, one that failed keeps its reason.
    pub fn undone(self) -> Answer {
        let result = match self.result {
            Outcome::Succeeded(_) => Outcome::Undone,
            other => other,
        };
        Answer { result, ..self }
    }
}

/// The box while it carries out one request: its table, the request's fresh strip and the placeholder.
pub struct KeyBox<'a> {
    pub table: Table,
    fresh: &'a [u8],
    placeholder: Option<u32>,
}

impl<'a> KeyBox<'a> {
    /// The placeholder is empty when a request begins.
    pub fn open(table: Table, fresh: &'a [u8]) -> Self {
        KeyBox { table, fresh, placeholder: None }
    }

    /// Carries out an item. Failing puts the table back and empties the placeholder.
    pub fn attempt(&mut self, index: usize, item: &BatchItem) -> Result<Success, Reason> {
        let before = self.table.clone();
        let fresh = &self.fresh[32 * index..32 * index + 32];
        let result = self.carry_out(item, fresh);
        match &result {
            Ok(Success::Created(serial) | Success::Rekeyed(serial)) => self.placeholder = Some(*serial),
            Ok(Success::Located(found)) => self.placeholder = *found,
            Ok(Success::Done(_) | Success::Attributes(_) | Success::Key(_)) => {}
            Err(_) => {
                self.table = before;
                self.placeholder = None;
            }
        }
        result
    }

    fn carry_out(&mut self, item: &BatchItem, fresh: &[u8]) -> Result<Success, Reason> {
        match payload::read(item.operation, &item.payload)? {
            Order::Create(wanted) => self.create(wanted, fresh),
            Order::Locate(name) => {
                let found = self.table.find_name(name.as_bytes());
                Ok(Success::Located(found.map(|record| record.serial)))
            }
            Order::Target(target, action) => {
                let serial = self.resolve(target).ok_or(Reason::ObjectNotFound)?;
                self.act(serial, action, fresh)
            }
        }
    }

    /// The serial of the record that is meant: the one whose serial is written so, or that of the placeholder.
    fn resolve(&self, target: Target) -> Option<u32> {
        match target {
            Target::Placeholder => self.placeholder,
            Target::Identifier(text) => {
                self.table.standing().map(|record| record.serial).find(|&serial| identifier(serial) == text)
            }
        }
    }

    fn act(&mut self, serial: u32, action: Action, fresh: &[u8]) -> Result<Success, Reason> {
        let clock = self.table.latest;
        let record = self.record(serial);
        match action {
            Action::Rekey(offset) => return self.rekey(serial, offset, fresh),
            Action::Get if [5, 6].contains(&record.state) => return Err(Reason::ObjectDestroyed),
            Action::Get => return Ok(Success::Key(record.clone())),
            Action::GetAttributes => return Ok(Success::Attributes(record.clone())),
            Action::GetUsageAllocation(amount) => allocate(record, amount)?,
            Action::Activate => activate(record, clock)?,
            Action::Revoke(code) => revoke(record, code, clock)?,
            Action::Destroy => {
                record.state = destroyed(record.state)?;
                record.material = [0; 32];
            }
        }
        Ok(Success::Done(serial))
    }

    fn create(&mut self, wanted: Wanted, fresh: &[u8]) -> Result<Success, Reason> {
        let (total, unit) = wanted.limit.map_or((0, 0), |limit| (limit.total, limit.unit));
        let (activation, deactivation) = (wanted.activation.unwrap_or(0), wanted.deactivation.unwrap_or(0));
        if wanted.name.as_ref().is_some_and(|name| self.table.find_name(name.as_bytes()).is_some()) {
            return Err(Reason::NonUniqueNameAttribute);
        }
        let name = wanted.name.as_ref().map_or(Name::default(), |name| Name::of(name.as_bytes()));
        let Wanted { length, mask, .. } = wanted;
        let key = Record { state: 1, length, mask, total, unit, activation, deactivation, name, ..Record::default() };
        self.issue(key, fresh).map(Success::Created)
    }

    fn rekey(&mut self, old: u32, offset: Option<u32>, fresh: &[u8]) -> Result<Success, Reason> {
        let clock = self.table.latest;
        let record = self.record(old).clone();
        if [5, 6].contains(&record.state) {
            return Err(Reason::ObjectDestroyed);
        }
        if record.replacement != 0 {
            return Err(Reason::PermissionDenied);
        }
        let dates = dates::of_replacement(&record, offset, clock).ok_or(Reason::InvalidField)?;
        let (activation, deactivation) = dates;
        let mut key = Record { replaced: old, replacement: 0, activation, deactivation, ..record };
        key.state = dates::first_state(&key, clock);
        let new = self.issue(key, fresh)?;
        let old = self.record(old);
        old.replacement = new;
        old.name = Name::default();
        Ok(Success::Rekeyed(new))
    }

    /// Puts a new key with this state and these attributes, dates, links and name into its place, and gives its serial.
    fn issue(&mut self, key: Record, fresh: &[u8]) -> Result<u32, Reason> {
        let place = self.place_for_new().ok_or(Reason::ServerLimitExceeded)?;
        let serial = self.table.last.checked_add(1).ok_or(Reason::ServerLimitExceeded)?;
        let bytes = usize::from(key.length / 8);
        let mut material = [0; 32];
        material[..bytes].copy_from_slice(&fresh[..bytes]);
        self.table.last = serial;
        self.table.places[place] = Record { serial, count: key.total, material, ..key };
        Ok(serial)
    }

    /// The lowest free place, or if none is free the lowest in state 5 or 6.
    fn place_for_new(&self) -> Option<usize> {
        let places = &self.table.places;
        let free = places.iter().position(Record::is_free);
        free.or_else(|| places.iter().position(|record| [5, 6].contains(&record.state)))
    }

    fn record(&mut self, serial: u32) -> &mut Record {
        let mut places = self.table.places.iter_mut();
        places.find(|record| record.serial == serial).expect("the serial is that of a record")
    }
}

/// Identifier text: the serial as 8 upper-case hex digits.
pub fn identifier(serial: u32) -> String {
    format!("{serial:08X}")
}

fn allocate(record: &mut Record, amount: u64) -> Result<(), Reason> {
    if record.state != 2 {
        return Err(Reason::WrongKeyLifecycleState);
    }
    if record.unit == 0 {
        return Err(Reason::InvalidField);
    }
    if amount > record.count {
        return Err(Reason::UsageLimitExceeded);
    }
    record.count -= amount;
    Ok(())
}

/// Pre-Active to Active, from now on; not a key whose deactivation date has come.
fn activate(record: &mut Record, clock: i64) -> Result<(), Reason> {
    if record.state != 1 || has_come(record.deactivation, clock) {
        return Err(Reason::WrongKeyLifecycleState);
    }
    record.state = 2;
    record.activation = clock;
    Ok(())
}

/// Only a Revoke that is no compromise sets the deactivation date.
fn revoke(record: &mut Record, code: u32, clock: i64) -> Result<(), Reason> {
    record.state = revoked(record.state, code)?;
    if !is_compromise(code) {
        record.deactivation = clock;
    }
    Ok(())
}

fn is_compromise(code: u32) -> bool {
    [2, 3].contains(&code)
}

fn revoked(state: u8, code: u32) -> Result<u8, Reason> {
    match (is_compromise(code), state) {
        (true, 1..=3) => Ok(4),
        (true, 5) => Ok(6),
        (false, 2) => Ok(3),
        _ => Err(Reason::WrongKeyLifecycleState),
    }
}

fn destroyed(state: u8) -> Result<u8, Reason> {
    match state {
        1 | 3 => Ok(5),
        4 => Ok(6),
        2 => Err(Reason::WrongKeyLifecycleState),
        _ => Err(Reason::ObjectDestroyed),
    }
}
