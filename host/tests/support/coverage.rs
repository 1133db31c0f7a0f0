//! What occurred in a run: refusals, operation by result, rules of soundness broken alone, changes of state, dates.
//! Everything is read off the calls' inputs and effects, not told by an engine.

use super::above::Above;
use super::holders::{self, Holders};
use super::limits;
use super::names;
use super::texts::{self, Fault};
use super::undo::{self, Watch};
use super::{Case, Effect};
use junctionmoth::model::frame::{self, BatchItem};
use junctionmoth::model::operations::identifier;
use junctionmoth::model::operations::Reason::{self, *};
use junctionmoth::model::payload::{self, Action, Order, Target};
use junctionmoth::model::soundness;
use junctionmoth::model::table::{Record, Table};
use junctionmoth::model::tags::*;
use junctionmoth::model::ttlv::{self, Item, Value};
use junctionmoth::{ordinary, Refusal, LARGE_COUNT, SMALL_COUNT};
use std::collections::BTreeMap;

/// The reasons that can be given to each operation: these must occur, and no others.
const REASONS: [(&str, Option<u32>, &[Reason]); 10] = [
    ("Create", Some(CREATE), &[InvalidField, NonUniqueNameAttribute, ServerLimitExceeded]),
    ("Re-key", Some(REKEY), &[InvalidField, ObjectNotFound, ObjectDestroyed, PermissionDenied, ServerLimitExceeded]),
    ("Locate", Some(LOCATE), &[InvalidField]),
    ("Get", Some(GET), &[InvalidField, ObjectNotFound, ObjectDestroyed]),
    ("Get Attributes", Some(GET_ATTRIBUTES), &[InvalidField, ObjectNotFound]),
    (
        "Get Usage Allocation",
        Some(GET_USAGE_ALLOCATION),
        &[InvalidField, ObjectNotFound, WrongKeyLifecycleState, UsageLimitExceeded],
    ),
    ("Activate", Some(ACTIVATE), &[InvalidField, ObjectNotFound, WrongKeyLifecycleState]),
    ("Revoke", Some(REVOKE), &[InvalidField, ObjectNotFound, WrongKeyLifecycleState]),
    ("Destroy", Some(DESTROY), &[InvalidField, ObjectNotFound, WrongKeyLifecycleState, ObjectDestroyed]),
    ("any other", None, &[OperationNotSupported]),
];

/// The changes of state that one item can bring about: these must occur, and no others.
const CHANGES: [(u8, u8); 9] = [(1, 2), (1, 4), (1, 5), (2, 3), (2, 4), (3, 4), (3, 5), (4, 6), (5, 6)];

/// The changes of state that dates can bring about before the first item: these must occur, and no others.
const DUE: [(u8, u8); 3] = [(1, 2), (2, 3), (1, 3)];

/// Things that must occur beside those lists, and beside those about names, Undo and limits.
const EVENTS: [&str; 63] = [
    "answered with fewer items than asked",
    "batch of 16 answered whole",
    "response of 6,360 bytes",
    "request of 4,096 bytes answered",
    "new record in a free place",
    "new record in a destroyed place",
    "new record in place 255 of 256",
    "new record in a free place above 63",
    "no place left of 64: Server Limit Exceeded",
    "no place left of 256: Server Limit Exceeded",
    "state changed by date above place 63",
    "serial FFFFFFFF issued",
    "last serial FFFFFFFF with a free place: Server Limit Exceeded",
    "no usage limit: Invalid Field",
    "identifier of a record in lower case: Object Not Found",
    "identifier of eight zeros: Object Not Found",
    "identifier that is not ASCII: Object Not Found",
    "identifier of eight bytes that is not ASCII: Object Not Found",
    "identifier with a control character: Object Not Found",
    "identifier of a record with zero bytes behind it: Object Not Found",
    "text that is not ASCII: Operation Not Supported",
    "clock of 1 answered",
    "clock of 2^63 - 1 answered",
    "clock earlier than the latest answered",
    "clock equal to the latest answered",
    "clock later than the latest answered",
    "every item failed: clock stored",
    "every item failed: due changes made",
    "Create with an activation date alone",
    "Create with a deactivation date alone",
    "Create with both dates",
    "Create with a date that has come: Pre-Active",
    "Re-key of a key with dates",
    "Re-key without Offset: Pre-Active",
    "Re-key without Offset: Active",
    "Re-key without Offset: Deactivated",
    "Re-key without Offset, a deactivation date alone that has come: Pre-Active",
    "Re-key with Offset: Pre-Active",
    "Re-key with Offset: Active",
    "Re-key with Offset: Deactivated",
    "Re-key with Offset 0",
    "Re-key with Offset 2^32 - 1",
    "Re-key with Offset, no dates: activation set",
    "Re-key with Offset: activation at 2^63 - 1",
    "Re-key with Offset: deactivation at 2^63 - 1",
    "Re-key with Offset: both dates earlier than before",
    "Re-key with Offset, clock earlier than the latest",
    "Re-key with Offset, a deactivation date alone: Invalid Field",
    "Re-key with Offset, activation past 2^63 - 1: Invalid Field",
    "Re-key with Offset, deactivation alone past 2^63 - 1: Invalid Field",
    "Re-key with an Offset that does not fit, nothing left to issue: Invalid Field",
    "Re-key with an Offset that does not fit, of a replaced key: Permission Denied",
    "Re-key with an Offset that does not fit, of a destroyed key: Object Destroyed",
    "Re-key with an Offset that fits, nothing left to issue: Server Limit Exceeded",
    "Re-key with Offset, of no key: Object Not Found",
    "Re-key with an Offset of wrong shape, of no key: Invalid Field",
    "Re-key in the batch of its Create: Active at once, the old key not yet",
    "Activate over a date that was set",
    "Activate past the deactivation date: Wrong Key Lifecycle State",
    "Revoke over a deactivation date to come",
    "Get Attributes with no date",
    "Get Attributes with one date",
    "Get Attributes with both dates",
];

#[derive(Default)]
pub struct Coverage {
    answered: u64,
    refused: BTreeMap<Refusal, u64>,
    refused_below_1: BTreeMap<Refusal, u64>,
    refused_with_second: BTreeMap<Refusal, u64>,
    results: BTreeMap<(Option<u32>, Option<u32>), u64>,
    rules: BTreeMap<&'static str, u64>,
    changes: BTreeMap<(u8, u8), u64>,
    due: BTreeMap<(u8, u8), u64>,
    events: BTreeMap<&'static str, u64>,
    text_faults: BTreeMap<Fault, u64>,
    name_faults: BTreeMap<(u32, names::Fault), u64>,
    above: Above,
    watch: Watch,
    missing: Vec<String>,
}

impl Coverage {
    /// Counts a call.
    pub fn count(&mut self, case: &Case, effect: &Effect) {
        match effect.served {
            Ok(length) => self.count_answer(case, effect, length),
            Err(refusal) => self.count_refusal(case, refusal),
        }
    }

    fn count_refusal(&mut self, case: &Case, refusal: Refusal) {
        *self.refused.entry(refusal).or_default() += 1;
        if refusal == Refusal::Table {
            self.count_unsound(&case.table);
        }
        if case.clock < 1 {
            *self.refused_below_1.entry(refusal).or_default() += 1;
        } else {
            assert_ne!(refusal, Refusal::Clock, "a clock from 1 up was refused");
        }
        if case.second.len() != case.table.len() {
            *self.refused_with_second.entry(refusal).or_default() += 1;
        }
        for event in undo::of_refusal(case, refusal) {
            self.note_if(event, true);
        }
        let fault = (refusal == Refusal::Malformed).then(|| fault_of_text_alone(&case.request));
        if let Some(fault) = fault.flatten() {
            *self.text_faults.entry(fault).or_default() += 1;
        }
    }

    /// Counts a table that was refused: it breaks a rule, and here one alone is counted.
    fn count_unsound(&mut self, table: &[u8]) {
        let broken = soundness::broken(table);
        assert!(!broken.is_empty() && !ordinary::sound(table), "a sound table was refused");
        if let [rule] = broken[..] {
            *self.rules.entry(rule).or_default() += 1;
            self.above.count_rule(table, rule);
        }
    }

    fn count_answer(&mut self, case: &Case, effect: &Effect, length: usize) {
        self.answered += 1;
        assert!(soundness::broken(&effect.table).is_empty(), "an answered call left an unsound table");
        assert!([&case.table, &effect.table].into_iter().all(|table| ordinary::sound(table)), "the check by itself");
        let response = &effect.out[..length];
        let results = results(response);
        let statuses = undo::statuses(response);
        for (&(operation, reason), _) in results.iter().zip(&statuses).filter(|(_, status)| **status != 3) {
            let known = REASONS.iter().any(|&(_, listed, _)| listed == Some(operation));
            *self.results.entry((known.then_some(operation), reason)).or_default() += 1;
        }
        let asked = items_asked(&case.request);
        let (before, after) = (Table::decode(&case.table), Table::decode(&effect.table));
        let start = begun(&before, case.clock);
        self.count_clock(case.clock, &before, &after, response);
        self.count_due(&before, &start);
        for event in self.watch.of_answer(case, effect, response, &start) {
            self.note_if(event, true);
        }
        if results.iter().all(|(_, reason)| reason.is_some()) {
            assert!(after == start, "items that failed changed something");
            self.note_if("every item failed: clock stored", after.latest > before.latest);
            self.note_if("every item failed: due changes made", after.places != before.places);
        }
        self.count_names(&start, &after, &case.request, response);
        self.count_targets(&start, &asked, &results);
        for event in limits::of_answer(&start, &after, &asked, response) {
            self.note_if(event, true);
        }
        if statuses[0] != 3 {
            self.above.count_first(&start, &asked[0], results[0]);
        }
        self.count_activate(&start, &asked[0], results[0]);
        self.count_rekey(&start, &asked[0], results[0], case.clock < before.latest);
        self.count_renewals(&before, &after);
        if let ([result], [item]) = (&results[..], &asked[..]) {
            self.count_single(&start, &after, item, *result);
        }
        let asked = asked.len();
        self.note_if("answered with fewer items than asked", results.len() < asked);
        self.note_if("batch of 16 answered whole", asked == 16 && results.len() == 16);
        self.note_if("response of 6,360 bytes", length == 6360);
        self.note_if("request of 4,096 bytes answered", case.request.len() == 4096);
    }

    /// Counts the clock of an answered call; the one that counts is stored, and is the Time Stamp.
    fn count_clock(&mut self, given: i64, before: &Table, after: &Table, response: &[u8]) {
        assert!(given >= 1, "a clock below 1 was answered");
        let counts = given.max(before.latest);
        assert_eq!((time_stamp(response), after.latest), (counts, counts), "another clock counted");
        self.note_if("clock of 1 answered", given == 1);
        self.note_if("clock of 2^63 - 1 answered", given == i64::MAX);
        self.note_if("clock earlier than the latest answered", given < before.latest);
        self.note_if("clock equal to the latest answered", given == before.latest);
        self.note_if("clock later than the latest answered", given > before.latest);
        for dates in dates_shown(response) {
            self.note_if("Get Attributes with no date", dates == 0);
            self.note_if("Get Attributes with one date", dates == 1);
            self.note_if("Get Attributes with both dates", dates == 2);
        }
    }

    /// Counts the changes of state before the first item.
    fn count_due(&mut self, before: &Table, start: &Table) {
        for (place, (old, new)) in before.places.iter().zip(&start.places).enumerate() {
            if old.state != new.state {
                *self.due.entry((old.state, new.state)).or_default() += 1;
                self.note_if("state changed by date above place 63", place >= SMALL_COUNT);
            }
        }
        self.above.count_due(before, start);
    }

    /// Counts what happened to names and to the placeholder; the names of the table are those that were followed.
    fn count_names(&mut self, start: &Table, after: &Table, request: &[u8], response: &[u8]) {
        let mut holders = Holders::of(start);
        let seen = holders.follow(request, response);
        assert!(holders == Holders::of(after), "names, or who is destroyed, are not what the answers say");
        for event in seen.events {
            self.note_if(event, true);
        }
        for fault in seen.faults {
            *self.name_faults.entry(fault).or_default() += 1;
        }
    }

    /// Counts how the items named their records. The table is the one that the first item meets.
    fn count_targets(&mut self, table: &Table, asked: &[BatchItem], results: &[(u32, Option<u32>)]) {
        for (item, &(operation, reason)) in asked.iter().zip(results) {
            let not_found = reason == Some(ObjectNotFound as u32);
            let invalid = reason == Some(InvalidField as u32);
            match payload::read(operation, &item.payload) {
                Ok(Order::Target(Target::Identifier(text), action)) => {
                    let allocates = matches!(action, Action::GetUsageAllocation(_));
                    let lower = text.bytes().any(|byte| byte.is_ascii_lowercase())
                        && table.standing().any(|record| identifier(record.serial) == text.to_ascii_uppercase());
                    self.note_if("identifier of a record in lower case: Object Not Found", not_found && lower);
                    self.note_if("identifier of eight zeros: Object Not Found", not_found && text == "00000000");
                    self.note_if("no usage limit: Invalid Field", invalid && allocates);
                    self.count_other_letters(table, &text, not_found);
                }
                Err(OperationNotSupported) => {
                    let foreign = item.payload.iter().any(has_foreign_text);
                    self.note_if("text that is not ASCII: Operation Not Supported", foreign);
                }
                _ => {}
            }
        }
    }

    /// Counts an identifier that is not ASCII, or holds bytes that are not seen: it names no record.
    fn count_other_letters(&mut self, table: &Table, text: &str, not_found: bool) {
        let control = text.bytes().any(|byte| byte.is_ascii_control());
        assert!(not_found || text.is_ascii() && !control, "{text:?} named a record");
        self.note_if("identifier that is not ASCII: Object Not Found", !text.is_ascii());
        let eight = !text.is_ascii() && text.len() == 8;
        self.note_if("identifier of eight bytes that is not ASCII: Object Not Found", eight);
        self.note_if("identifier with a control character: Object Not Found", control);
        let digits = text.trim_end_matches('\0');
        let padded = digits != text && table.standing().any(|record| identifier(record.serial) == digits);
        self.note_if("identifier of a record with zero bytes behind it: Object Not Found", padded);
    }

    /// Counts an Activate, first in its batch, of a Pre-Active key: it fails if the deactivation date has come, and
    /// only then.
    fn count_activate(&mut self, start: &Table, first: &BatchItem, (operation, reason): (u32, Option<u32>)) {
        let order = payload::read(operation, &first.payload);
        let Ok(Order::Target(Target::Identifier(text), Action::Activate)) = order else { return };
        let named = start.standing().find(|record| identifier(record.serial) == text);
        let Some(key) = named.filter(|record| record.state == 1) else { return };
        let late = is_due(key.deactivation, start.latest);
        assert_eq!(reason, late.then_some(WrongKeyLifecycleState as u32), "Activate of a Pre-Active key");
        self.note_if("Activate past the deactivation date: Wrong Key Lifecycle State", late);
    }

    /// Counts a Re-key, first in its batch, that names its key: the first of its tests that fails gives the reason.
    fn count_rekey(&mut self, start: &Table, first: &BatchItem, (operation, reason): (u32, Option<u32>), back: bool) {
        if operation != REKEY {
            return;
        }
        let text = first.payload.iter().find_map(|field| field.text(UNIQUE_IDENTIFIER));
        let named = start.standing().find(|record| Some(&*identifier(record.serial)) == text);
        let Ok(Order::Target(Target::Identifier(_), Action::Rekey(offset))) = payload::read(REKEY, &first.payload)
        else {
            let no_key = text.is_some() && named.is_none() && reason == Some(InvalidField as u32);
            let shape = no_key && first.payload.iter().any(|field| field.tag == OFFSET);
            return self.note_if("Re-key with an Offset of wrong shape, of no key: Invalid Field", shape);
        };
        let Some(key) = named else {
            assert_eq!(reason, Some(ObjectNotFound as u32), "Re-key of no key");
            return self.note_if("Re-key with Offset, of no key: Object Not Found", offset.is_some());
        };
        let misfit = misfit(key, offset, start.latest);
        let taken = |record: &Record| !record.is_free() && record.state < 5;
        let full = start.last == u32::MAX || start.places.iter().all(taken);
        let tests = [
            (key.state >= 5, ObjectDestroyed),
            (key.replacement != 0, PermissionDenied),
            (misfit.is_some(), InvalidField),
            (full, ServerLimitExceeded),
        ];
        let due = tests.into_iter().find(|(fails, _)| *fails).map(|(_, reason)| reason);
        assert_eq!(reason, due.map(|due| due as u32), "the reason of a Re-key");
        self.note_if("Re-key with Offset, clock earlier than the latest", back && offset.is_some() && due.is_none());
        self.count_misfit(misfit, offset.is_some(), full, due);
    }

    fn count_misfit(&mut self, misfit: Option<&'static str>, offset: bool, full: bool, due: Option<Reason>) {
        let limited = offset && due == Some(ServerLimitExceeded);
        self.note_if("Re-key with an Offset that fits, nothing left to issue: Server Limit Exceeded", limited);
        let Some(misfit) = misfit else { return };
        let invalid = due == Some(InvalidField);
        self.note_if(misfit, invalid);
        let what = "Re-key with an Offset that does not fit, nothing left to issue: Invalid Field";
        self.note_if(what, invalid && full);
        let what = "Re-key with an Offset that does not fit, of a replaced key: Permission Denied";
        self.note_if(what, due == Some(PermissionDenied));
        let what = "Re-key with an Offset that does not fit, of a destroyed key: Object Destroyed";
        self.note_if(what, due == Some(ObjectDestroyed));
    }

    /// Counts keys that were created and replaced in this call, of which the old one waits for the next to begin.
    fn count_renewals(&mut self, before: &Table, after: &Table) {
        let ahead = |new: &Record| {
            let old = after.find(new.replaced).filter(|old| old.serial > before.last);
            let waits = |old: &Record| old.state == 1 && is_due(old.activation, after.latest);
            old.is_some_and(|old| new.state == 2 && waits(old) && new.activation == old.activation)
        };
        let occurred = after.standing().any(ahead);
        self.note_if("Re-key in the batch of its Create: Active at once, the old key not yet", occurred);
    }

    /// Counts what the one item of a request did to the table that it met.
    fn count_single(&mut self, before: &Table, after: &Table, item: &BatchItem, result: (u32, Option<u32>)) {
        self.above.count_single(before, after);
        for (place, (old, new)) in before.places.iter().zip(&after.places).enumerate() {
            if old.serial == new.serial {
                self.count_change(old, new, after.latest);
                continue;
            }
            self.note_if("new record in a free place", old.is_free());
            self.note_if("new record in a destroyed place", !old.is_free());
            self.note_if("new record in a free place above 63", old.is_free() && place >= SMALL_COUNT);
            self.note_if("new record in place 255 of 256", place == 255);
            match before.find(new.replaced) {
                None => self.count_new_dates(new, after.latest),
                Some(replaced) => {
                    let order = payload::read(result.0, &item.payload);
                    let Ok(Order::Target(_, Action::Rekey(offset))) = order else { panic!("only Re-key links keys") };
                    self.count_replacement(replaced, new, offset, after.latest);
                }
            }
        }
        self.note_if("serial FFFFFFFF issued", before.last != u32::MAX && after.last == u32::MAX);
        let free = before.places.iter().any(|record| record.is_free());
        let limited = result.1 == Some(ServerLimitExceeded as u32);
        self.note_if("last serial FFFFFFFF with a free place: Server Limit Exceeded", limited && free);
        let left = before.last < u32::MAX;
        let count = before.places.len();
        self.note_if("no place left of 64: Server Limit Exceeded", limited && left && count == SMALL_COUNT);
        self.note_if("no place left of 256: Server Limit Exceeded", limited && left && count == LARGE_COUNT);
    }

    /// Counts a replacement: its dates are copied or moved, and its state is what they make of a Pre-Active key.
    fn count_replacement(&mut self, old: &Record, new: &Record, offset: Option<u32>, clock: i64) {
        assert_eq!(dates(new), moved_dates(old, offset, clock), "the dates of a replacement");
        limits::compare_limits(old, new);
        assert_eq!(new.count, new.total, "nothing of a replacement is granted");
        let begun = is_due(new.activation, clock);
        let ended = is_due(new.deactivation, clock);
        let [first, second, third] = match offset {
            None => [
                "Re-key without Offset: Pre-Active",
                "Re-key without Offset: Active",
                "Re-key without Offset: Deactivated",
            ],
            Some(_) => {
                ["Re-key with Offset: Pre-Active", "Re-key with Offset: Active", "Re-key with Offset: Deactivated"]
            }
        };
        let (state, event) = match (begun, ended) {
            (true, true) => (3, third),
            (true, false) => (2, second),
            (false, _) => (1, first),
        };
        assert_eq!(new.state, state, "the first state of a replacement");
        self.note_if(event, true);
        self.note_if("Re-key of a key with dates", dates(old) != (0, 0));
        let what = "Re-key without Offset, a deactivation date alone that has come: Pre-Active";
        self.note_if(what, offset.is_none() && !begun && ended);
        if offset.is_some() {
            self.note_if("Re-key with Offset 0", offset == Some(0));
            self.note_if("Re-key with Offset 2^32 - 1", offset == Some(u32::MAX));
            self.note_if("Re-key with Offset, no dates: activation set", dates(old) == (0, 0));
            self.note_if("Re-key with Offset: activation at 2^63 - 1", new.activation == i64::MAX);
            let at_most = new.deactivation == i64::MAX && new.activation < i64::MAX;
            self.note_if("Re-key with Offset: deactivation at 2^63 - 1", at_most);
            let earlier = new.deactivation != 0 && new.deactivation < old.deactivation;
            self.note_if("Re-key with Offset: both dates earlier than before", earlier);
        }
    }

    /// Counts what an item did to a record. Activate and a Revoke that is no compromise set their date, and nothing
    /// else does.
    fn count_change(&mut self, old: &Record, new: &Record, clock: i64) {
        let change = (old.state, new.state);
        if old.state != new.state {
            *self.changes.entry(change).or_default() += 1;
        }
        let expected = match change {
            (1, 2) => (clock, old.deactivation),
            (2, 3) => (old.activation, clock),
            _ => dates(old),
        };
        assert_eq!(dates(new), expected, "the dates after a change of state {change:?}");
        self.note_if("Activate over a date that was set", change == (1, 2) && old.activation != 0);
        self.note_if("Revoke over a deactivation date to come", change == (2, 3) && old.deactivation > clock);
    }

    /// Counts the dates of a key that was created.
    fn count_new_dates(&mut self, key: &Record, clock: i64) {
        let (activation, deactivation) = dates(key);
        self.note_if("Create with an activation date alone", activation != 0 && deactivation == 0);
        self.note_if("Create with a deactivation date alone", activation == 0 && deactivation != 0);
        self.note_if("Create with both dates", activation != 0 && deactivation != 0);
        let due = is_due(activation, clock) || is_due(deactivation, clock);
        self.note_if("Create with a date that has come: Pre-Active", due && key.state == 1);
    }

    pub fn note_if(&mut self, event: &'static str, occurred: bool) {
        if occurred {
            *self.events.entry(event).or_default() += 1;
        }
    }

    /// Prints all counts and gives what should have occurred and did not, or the other way round.
    pub fn report(mut self) -> Vec<String> {
        println!("answered {}", self.answered);
        for refusal in Refusal::ALL {
            let count = self.refused.get(&refusal).copied();
            self.line(refusal.to_string(), count);
            let count = self.refused_below_1.get(&refusal).copied();
            if refusal != Refusal::Undo {
                self.line(format!("{refusal}, the clock being below 1"), count);
            }
            let count = self.refused_with_second.get(&refusal).copied();
            self.line(format!("{refusal}, the second buffer being of another size"), count);
        }
        self.report_results();
        for rule in soundness::names() {
            let count = self.rules.get(rule).copied();
            self.line(format!("unsound by this rule alone: {rule}"), count);
        }
        self.report_changes();
        for fault in Fault::ALL {
            let count = self.text_faults.get(&fault).copied();
            self.line(format!("refusal 5 for one text alone: {fault:?}"), count);
        }
        for (name, operation) in [("Create", CREATE), ("Locate", LOCATE)] {
            for fault in names::Fault::all_of(operation) {
                let count = self.name_faults.get(&(operation, fault)).copied();
                self.line(format!("{name}: Invalid Field for its name alone: {fault:?}"), count);
            }
        }
        for event in EVENTS.into_iter().chain(holders::EVENTS).chain(undo::EVENTS).chain(limits::EVENTS) {
            let count = self.events.remove(event);
            self.line(event.to_string(), count);
        }
        let others: Vec<_> = self.events.keys().map(|event| format!("event is not listed: {event}")).collect();
        self.missing.extend(others);
        self.missing
    }

    /// The same, and for all that must have occurred above place 63 too.
    pub fn report_with_above(mut self) -> Vec<String> {
        for (what, count) in std::mem::take(&mut self.above).lines(&CHANGES, &DUE) {
            self.line(what, count);
        }
        self.report()
    }

    fn report_changes(&mut self) {
        for (old, new) in CHANGES {
            let count = self.changes.remove(&(old, new));
            self.line(format!("state {old} to {new}"), count);
        }
        for (old, new) in DUE {
            let count = self.due.remove(&(old, new));
            self.line(format!("state {old} to {new} by date"), count);
        }
        let others: Vec<_> =
            self.changes.keys().map(|change| format!("state change {change:?} is not listed")).collect();
        self.missing.extend(others);
        let others: Vec<_> =
            self.due.keys().map(|change| format!("state change {change:?} by date is not listed")).collect();
        self.missing.extend(others);
    }

    fn report_results(&mut self) {
        for (name, operation, reasons) in REASONS {
            let success = operation.map(|_| None);
            let expected = success.into_iter().chain(reasons.iter().map(|reason| Some(*reason)));
            for reason in expected {
                let count = self.results.remove(&(operation, reason.map(|reason| reason as u32)));
                let result = reason.map_or("success".to_string(), |reason| format!("{reason:?}"));
                self.line(format!("{name}: {result}"), count);
            }
        }
        let others: Vec<_> =
            self.results.keys().map(|result| format!("operation and reason {result:X?} is not listed")).collect();
        self.missing.extend(others);
    }

    fn line(&mut self, what: String, count: Option<u64>) {
        println!("{:>10}  {what}", count.unwrap_or(0));
        if count.is_none() {
            self.missing.push(format!("did not occur: {what}"));
        }
    }
}

/// Operation and reason (none for success, undone or not) of each item in a response, read back from its bytes.
pub fn results(response: &[u8]) -> Vec<(u32, Option<u32>)> {
    let message = ttlv::read(response).expect("a response is one well-formed item");
    let items = &message.structure(RESPONSE_MESSAGE).expect("a Response Message")[1..];
    items.iter().map(result).collect()
}

fn result(item: &Item) -> (u32, Option<u32>) {
    let fields = item.structure(BATCH_ITEM).expect("a Batch Item");
    let operation = fields[0].enumeration(OPERATION).expect("an Operation");
    (operation, fields.iter().find_map(|field| field.enumeration(RESULT_REASON)))
}

fn items_asked(request: &[u8]) -> Vec<BatchItem> {
    let message = ttlv::read(request).expect("an answered request is one well-formed item");
    frame::read(&message).expect("an answered request has a frame").items
}

/// What is wrong with the one Text String of a request that is no text; none if nothing or more than that is malformed.
fn fault_of_text_alone(request: &[u8]) -> Option<Fault> {
    let mut mended = request.to_vec();
    let mut faults = Vec::new();
    mend_texts(&mut mended, &mut faults);
    match faults[..] {
        [fault] if ttlv::read(&mended).is_some() => Some(fault),
        _ => None,
    }
}

/// Puts blanks in the place of each Text String that is no text, and says what was wrong with it.
fn mend_texts(mut items: &mut [u8], faults: &mut Vec<Fault>) {
    while let Some((header, rest)) = items.split_at_mut_checked(8) {
        let length = u32::from_be_bytes(header[4..].try_into().expect("4 bytes")) as usize;
        let Some((value, rest)) = rest.split_at_mut_checked(length.next_multiple_of(8)) else { return };
        let value = &mut value[..length];
        match header[3] {
            0x01 => mend_texts(value, faults),
            0x07 if texts::fault(value).is_some() => {
                faults.extend(texts::fault(value));
                value.fill(b' ');
            }
            _ => {}
        }
        items = rest;
    }
}

/// Whether an item is a text that is not ASCII, or has one in it.
fn has_foreign_text(item: &Item) -> bool {
    match &item.value {
        Value::Text(text) => !text.is_ascii(),
        Value::Structure(items) => items.iter().any(has_foreign_text),
        _ => false,
    }
}

/// Activation and deactivation date of a record.
fn dates(record: &Record) -> (i64, i64) {
    (record.activation, record.deactivation)
}

/// Whether a date is set, and at or before a clock.
fn is_due(date: i64, clock: i64) -> bool {
    (1..=clock).contains(&date)
}

/// In what way an Offset, if there is one, does not fit the dates of a key; none if it does.
fn misfit(key: &Record, offset: Option<u32>, clock: i64) -> Option<&'static str> {
    let seconds = i64::from(offset?);
    if key.activation == 0 && key.deactivation != 0 {
        return Some("Re-key with Offset, a deactivation date alone: Invalid Field");
    }
    let Some(start) = clock.checked_add(seconds) else {
        return Some("Re-key with Offset, activation past 2^63 - 1: Invalid Field");
    };
    let past = key.deactivation != 0 && start.checked_add(key.deactivation - key.activation).is_none();
    past.then_some("Re-key with Offset, deactivation alone past 2^63 - 1: Invalid Field")
}

/// The dates of a replacement; the Offset fits.
fn moved_dates(old: &Record, offset: Option<u32>, clock: i64) -> (i64, i64) {
    let Some(seconds) = offset else { return dates(old) };
    let start = clock + i64::from(seconds);
    if old.deactivation == 0 {
        return (start, 0);
    }
    (start, old.deactivation - old.activation + start)
}

/// The table that the first item meets: the clock that counts is stored, and what is due by it is done.
fn begun(table: &Table, given: i64) -> Table {
    let mut start = table.clone();
    start.latest = given.max(table.latest);
    for record in &mut start.places {
        let begins = is_due(record.activation, start.latest);
        let ends = is_due(record.deactivation, start.latest);
        record.state = match (record.state, begins, ends) {
            (1, true, true) | (2, _, true) => 3,
            (1, true, false) => 2,
            (state, _, _) => state,
        };
    }
    start
}

/// The Time Stamp of a response.
fn time_stamp(response: &[u8]) -> i64 {
    let message = ttlv::read(response).expect("a response is one well-formed item");
    let header = &message.structure(RESPONSE_MESSAGE).expect("a Response Message")[0];
    let fields = header.structure(RESPONSE_HEADER).expect("a Response Header");
    fields.iter().find_map(|field| field.date_time(TIME_STAMP)).expect("a Time Stamp")
}

/// How many dates each successful Get Attributes of a response shows.
fn dates_shown(response: &[u8]) -> Vec<usize> {
    let message = ttlv::read(response).expect("a response is one well-formed item");
    let items = &message.structure(RESPONSE_MESSAGE).expect("a Response Message")[1..];
    let payloads = items.iter().filter_map(|item| item.structure(BATCH_ITEM)?.last()?.structure(RESPONSE_PAYLOAD));
    let attributes = payloads.filter_map(|payload| payload.last()?.structure(ATTRIBUTES));
    let is_date = |field: &&Item| field.date_time(field.tag).is_some();
    attributes.map(|fields| fields.iter().filter(is_date).count()).collect()
}
