//! What occurred at places above 63, which large tables alone have: each rule of soundness broken there, each operation
//! on a key there with success and with each reason, each change of state. Read off the inputs and effects of calls.

use junctionmoth::model::frame::BatchItem;
use junctionmoth::model::operations::identifier;
use junctionmoth::model::operations::Reason::{self, *};
use junctionmoth::model::payload::{self, Order, Target};
use junctionmoth::model::soundness;
use junctionmoth::model::table::{Record, Table};
use junctionmoth::model::tags::*;
use junctionmoth::SMALL_COUNT;
use std::collections::BTreeMap;

/// The rules that are not about places.
const OF_THE_WHOLE: [&str; 4] = ["size", "place count", "size of the place count", "latest clock not negative"];

/// The reasons that an operation can have for a record that it names, or whose name it names: these must occur.
const REASONS: [(&str, u32, &[Option<Reason>]); 9] = [
    ("Create with the name of a key", CREATE, &[Some(NonUniqueNameAttribute)]),
    (
        "Re-key",
        REKEY,
        &[None, Some(InvalidField), Some(ObjectDestroyed), Some(PermissionDenied), Some(ServerLimitExceeded)],
    ),
    ("Locate", LOCATE, &[None]),
    ("Get", GET, &[None, Some(ObjectDestroyed)]),
    ("Get Attributes", GET_ATTRIBUTES, &[None]),
    (
        "Get Usage Allocation",
        GET_USAGE_ALLOCATION,
        &[None, Some(InvalidField), Some(WrongKeyLifecycleState), Some(UsageLimitExceeded)],
    ),
    ("Activate", ACTIVATE, &[None, Some(WrongKeyLifecycleState)]),
    ("Revoke", REVOKE, &[None, Some(WrongKeyLifecycleState)]),
    ("Destroy", DESTROY, &[None, Some(WrongKeyLifecycleState), Some(ObjectDestroyed)]),
];

/// Where a new record can stand, by the number of places, on both sides of the border: these must occur.
const BORDERS: [(usize, usize); 2] = [(63, 64), (64, 256)];

/// The links that a Re-key can make between a place up to 63 and one above: these must occur.
const LINKS: [(bool, bool); 4] = [(false, false), (false, true), (true, false), (true, true)];

#[derive(Default)]
pub struct Above {
    rules: BTreeMap<&'static str, u64>,
    results: BTreeMap<(u32, Option<u32>), u64>,
    changes: BTreeMap<(u8, u8), u64>,
    due: BTreeMap<(u8, u8), u64>,
    links: BTreeMap<(bool, bool), u64>,
    new: BTreeMap<(usize, usize), u64>,
    taken_over: Option<u64>,
}

/// The records at places above 63.
fn behind(table: &Table) -> &[Record] {
    table.places.get(SMALL_COUNT..).unwrap_or_default()
}

/// Whether a place is above 63.
fn is_above(place: usize) -> bool {
    place >= SMALL_COUNT
}

impl Above {
    /// Counts a table that was refused for this one rule: broken above place 63 if the first 64 places keep all rules.
    pub fn count_rule(&mut self, table: &[u8], rule: &'static str) {
        if OF_THE_WHOLE.contains(&rule) || Table::decode(table).places.len() == SMALL_COUNT {
            return;
        }
        let mut front = Table::decode(table);
        front.places.truncate(SMALL_COUNT);
        front.place_count = SMALL_COUNT as u32;
        if soundness::broken(&front.encode()).is_empty() {
            *self.rules.entry(rule).or_default() += 1;
        }
    }

    /// Counts the changes of state before the first item.
    pub fn count_due(&mut self, before: &Table, start: &Table) {
        count_changes(&mut self.due, before, start);
    }

    /// Counts the first item of a batch by the place of the record that it names, or whose name it has.
    pub fn count_first(&mut self, start: &Table, first: &BatchItem, (operation, reason): (u32, Option<u32>)) {
        let has_name = |record: &Record, name: &String| record.name.text() == Some(name.as_bytes());
        let place = match payload::read(operation, &first.payload) {
            Ok(Order::Target(Target::Identifier(text), _)) => {
                start.places.iter().position(|record| identifier(record.serial) == text && !record.is_free())
            }
            Ok(Order::Locate(name)) => start.places.iter().position(|record| has_name(record, &name)),
            Ok(Order::Create(wanted)) => {
                wanted.name.and_then(|name| start.places.iter().position(|record| has_name(record, &name)))
            }
            _ => None,
        };
        if place.is_some_and(is_above) {
            *self.results.entry((operation, reason)).or_default() += 1;
        }
    }

    /// Counts what the one item of a request did: changes of state, the place of a new record, and the link to the one that
    /// it replaces.
    pub fn count_single(&mut self, before: &Table, after: &Table) {
        count_changes(&mut self.changes, before, after);
        let Some(new) = after.places.iter().position(|record| record.serial > before.last) else { return };
        *self.new.entry((new, after.places.len())).or_default() += 1;
        if is_above(new) && !before.places[new].is_free() {
            *self.taken_over.get_or_insert_default() += 1;
        }
        let replaced = after.places[new].replaced;
        let old = before.places.iter().position(|record| record.serial == replaced && !record.is_free());
        if let (Some(old), false) = (old, behind(before).is_empty()) {
            *self.links.entry((is_above(old), is_above(new))).or_default() += 1;
        }
    }

    /// What occurred, and how often; none for what should have and did not.
    pub fn lines(&self, changes: &[(u8, u8)], due: &[(u8, u8)]) -> Vec<(String, Option<u64>)> {
        let mut lines = Vec::new();
        for rule in soundness::names().into_iter().filter(|rule| !OF_THE_WHOLE.contains(rule)) {
            lines.push((format!("unsound above place 63 by this rule alone: {rule}"), self.rules.get(rule).copied()));
        }
        for (name, operation, reasons) in REASONS {
            for &reason in reasons {
                let result = reason.map_or("success".to_string(), |reason| format!("{reason:?}"));
                let count = self.results.get(&(operation, reason.map(|reason| reason as u32))).copied();
                lines.push((format!("{name} above place 63: {result}"), count));
            }
        }
        for change in changes {
            lines.push((
                format!("state {} to {} above place 63", change.0, change.1),
                self.changes.get(change).copied(),
            ));
        }
        for change in due {
            let what = format!("state {} to {} by date above place 63", change.0, change.1);
            lines.push((what, self.due.get(change).copied()));
        }
        for border in BORDERS {
            lines.push((format!("new record in place {} of {}", border.0, border.1), self.new.get(&border).copied()));
        }
        lines.push(("new record in a destroyed place above 63".to_string(), self.taken_over));
        for link in LINKS {
            let [old, new] = [link.0, link.1].map(|above| if above { "above place 63" } else { "up to place 63" });
            lines.push((format!("Re-key of a key {old}, the new one {new}"), self.links.get(&link).copied()));
        }
        lines
    }
}

/// Counts the changes of state of the records above place 63 that stay in their places.
fn count_changes(counts: &mut BTreeMap<(u8, u8), u64>, before: &Table, after: &Table) {
    for (old, new) in behind(before).iter().zip(behind(after)) {
        if old.serial == new.serial && old.state != new.state {
            *counts.entry((old.state, new.state)).or_default() += 1;
        }
    }
}
