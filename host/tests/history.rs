//! Runs of requests on one table from blank on: the third demand, the clock, and names, kept by a ledger beside the box.
//! The ledger reads requests and responses only; the table is looked at to compare. What an undone batch did counts as
//! never made, and a serial that it had issued may be issued again.

mod support;

use junctionmoth::message::{item, location, request, target, Node};
use junctionmoth::model::frame::{self, BatchItem};
use junctionmoth::model::operations::identifier;
use junctionmoth::model::payload::{self, Action, Order, Target};
use junctionmoth::model::soundness;
use junctionmoth::model::table::{Record, Table};
use junctionmoth::model::tags::*;
use junctionmoth::model::ttlv::{self, Item};
use junctionmoth::{LARGE_COUNT, SMALL_COUNT};
use std::collections::{BTreeMap, BTreeSet};
use support::holders::Holders;
use support::limits::is_older;
use support::names::near;
use support::rng::Rng;
use support::{engines, requests, undo, Case, Effect};

/// What the ledger knows of an identifier; a date of 0 is not set.
#[derive(Clone, Copy)]
struct Issued {
    total: u64,
    granted: u64,
    activation: i64,
    deactivation: i64,
    /// Whether it was issued by Re-key.
    replaces: bool,
}

impl Issued {
    /// Whether its activation date is set and has come, and its deactivation date.
    fn come_by(&self, now: i64) -> (bool, bool) {
        ((1..=now).contains(&self.activation), (1..=now).contains(&self.deactivation))
    }
}

/// Everything issued so far, by serial.
#[derive(Default)]
struct Ledger {
    issued: BTreeMap<u32, Issued>,
    destroyed: BTreeSet<u32>,
    /// Those that have been seen Deactivated.
    stopped: BTreeSet<u32>,
    /// The largest clock of an answered request.
    largest_clock: i64,
    grants: u64,
    handed_out: u64,
    /// Answered requests with a clock earlier than the latest.
    went_back: u64,
    /// Items that asked for the key of a destroyed identifier; each failed.
    asked_dead: u64,
    /// Who has which name.
    holders: Holders,
    /// Every name that a record ever had.
    names: BTreeSet<String>,
    /// What occurred with names, and how often.
    events: BTreeMap<&'static str, u64>,
    /// Replacements by Re-key with an Offset, those that had begun at once, and those that had ended at once.
    moved: u64,
    begun: u64,
    ended: u64,
    /// Items by their operation that succeeded and were undone.
    undone: BTreeMap<u32, u64>,
    /// Serials that an undone item had issued, and how many of them were issued again.
    taken_back: BTreeSet<u32>,
    again: u64,
}

impl Ledger {
    /// Enters the clock and the successful items of an answered request; of an undone one the clock alone.
    fn enter(&mut self, clock: i64, request: &[u8], response: &[u8]) {
        self.largest_clock = self.largest_clock.max(clock);
        if undo::is_undone(request, response) {
            return self.enter_undone(request, response);
        }
        for event in self.holders.follow(request, response).events {
            *self.events.entry(event).or_default() += 1;
        }
        let asked = frame::read(&ttlv::read(request).expect("read")).expect("framed");
        let message = ttlv::read(response).expect("one well-formed item");
        let answers = &message.structure(RESPONSE_MESSAGE).expect("a Response Message")[1..];
        let mut placeholder = None;
        for (item, answer) in asked.items.iter().zip(answers) {
            let fields = answer.structure(BATCH_ITEM).expect("a Batch Item");
            let Some(payload) = fields.last().and_then(|last| last.structure(RESPONSE_PAYLOAD)) else {
                self.enter_failure(item, placeholder);
                placeholder = None;
                continue;
            };
            let order = payload::read(item.operation, &item.payload).expect("a successful item has an order");
            if let Order::Locate(_) = order {
                placeholder = named(payload);
                continue;
            }
            self.enter_success(&order, named(payload).expect("an identifier"), &mut placeholder);
        }
    }

    /// Counts the items of an undone batch that had succeeded. Each new key had the serial behind the last that stands.
    fn enter_undone(&mut self, request: &[u8], response: &[u8]) {
        let asked = frame::read(&ttlv::read(request).expect("read")).expect("framed");
        let mut last = self.issued.last_key_value().map_or(0, |(&serial, _)| serial);
        for (item, status) in asked.items.iter().zip(undo::statuses(response)) {
            if status == 3 {
                *self.undone.entry(item.operation).or_default() += 1;
            }
            if status == 3 && [CREATE, REKEY].contains(&item.operation) {
                last += 1;
                self.taken_back.insert(last);
            }
        }
    }

    /// Counts a Get that failed on an identifier that was destroyed.
    fn enter_failure(&mut self, item: &BatchItem, placeholder: Option<u32>) {
        let named = match payload::read(item.operation, &item.payload) {
            Ok(Order::Target(Target::Placeholder, Action::Get)) => placeholder,
            Ok(Order::Target(Target::Identifier(text), Action::Get)) => u32::from_str_radix(&text, 16).ok(),
            _ => None,
        };
        self.asked_dead += u64::from(named.is_some_and(|serial| self.destroyed.contains(&serial)));
    }

    fn enter_success(&mut self, order: &Order, answered: u32, placeholder: &mut Option<u32>) {
        let (target, action) = match order {
            Order::Create(wanted) => {
                *placeholder = Some(answered);
                let total = wanted.limit.as_ref().map_or(0, |limit| limit.total);
                let (activation, deactivation) = (wanted.activation.unwrap_or(0), wanted.deactivation.unwrap_or(0));
                let new = Issued { total, granted: 0, activation, deactivation, replaces: false };
                return self.issue(answered, new);
            }
            Order::Locate(_) => return,
            Order::Target(Target::Placeholder, action) => (placeholder.expect("the placeholder is set"), action),
            Order::Target(Target::Identifier(text), action) => (serial(text), action),
        };
        if let Action::Rekey(offset) = action {
            *placeholder = Some(answered);
            let new = self.replacement(target, *offset);
            return self.issue(answered, new);
        }
        self.enter_action(action, target);
        assert_eq!(answered, target);
    }

    /// What a replacement begins with: nothing granted, and the dates of the old key, or the clock plus Offset and an end
    /// as far from it as before.
    fn replacement(&mut self, old: u32, offset: Option<u32>) -> Issued {
        let now = self.largest_clock;
        let mut new = Issued { granted: 0, replaces: true, ..self.issued[&old] };
        if let Some(seconds) = offset {
            assert!(new.activation != 0 || new.deactivation == 0, "a deactivation date alone was moved");
            let start = now.checked_add(i64::from(seconds)).expect("a Date-Time");
            if new.deactivation != 0 {
                let span = new.deactivation - new.activation;
                new.deactivation = start.checked_add(span).expect("a Date-Time");
            }
            new.activation = start;
            self.moved += 1;
        }
        let (begun, ended) = new.come_by(now);
        self.begun += u64::from(begun && !ended);
        self.ended += u64::from(begun && ended);
        new
    }

    fn enter_action(&mut self, action: &Action, target: u32) {
        let now = self.largest_clock;
        let known = self.issued.get_mut(&target).expect("only issued identifiers are known");
        match action {
            Action::GetUsageAllocation(amount) => {
                let (_, ended) = known.come_by(now);
                assert!(!ended, "units were granted past the deactivation date");
                known.granted += amount;
                self.grants += 1;
            }
            Action::Activate => known.activation = now,
            Action::Revoke(1 | 4..=7) => known.deactivation = now,
            Action::Destroy => {
                self.destroyed.insert(target);
            }
            Action::Get => {
                assert!(!self.destroyed.contains(&target), "the key of a destroyed identifier was handed out");
                self.handed_out += 1;
            }
            _ => {}
        }
    }

    fn issue(&mut self, serial: u32, new: Issued) {
        assert!(self.issued.insert(serial, new).is_none(), "issued twice");
        self.again += u64::from(self.taken_back.remove(&serial));
    }

    /// For every record that stands, granted and left make the total, which only a key that can apply protection has, and
    /// the dates are those that were set; one that was Deactivated is neither Pre-Active nor Active again. The stored clock
    /// is the largest that was accepted. An Active key has begun and a Deactivated one has ended; a replacement is never
    /// behind its dates. Names stand where they were given or moved to, and no two are the same.
    fn compare(&mut self, table: &Table) {
        assert_eq!(table.latest, self.largest_clock);
        assert!(self.holders == Holders::of(table), "names are not where the ledger has them");
        let names: Vec<&[u8]> = table.standing().filter_map(|record| record.name.text()).collect();
        assert_eq!(names.iter().collect::<BTreeSet<_>>().len(), names.len(), "two records have the same name");
        self.names.extend(names.into_iter().map(|name| String::from_utf8(name.to_vec()).expect("text")));
        for record in table.standing() {
            let issued = self.issued.get(&record.serial).expect("every record was issued");
            assert_eq!(issued.granted + record.count, issued.total, "serial {}", record.serial);
            assert_eq!(record.total, issued.total);
            assert!(!is_older(record), "serial {} has a limit, and mask {:X}", record.serial, record.mask);
            assert_eq!((record.activation, record.deactivation), (issued.activation, issued.deactivation));
            let (begun, ended) = issued.come_by(table.latest);
            assert!(record.state != 2 || begun, "serial {} is Active too early", record.serial);
            assert!(record.state != 3 || ended, "serial {} is Deactivated too early", record.serial);
            let behind = begun && record.state < if ended { 3 } else { 2 };
            assert!(!(issued.replaces && behind), "serial {}, a replacement, is behind its dates", record.serial);
            if record.state == 3 {
                self.stopped.insert(record.serial);
            }
            let back = record.state < 3 && self.stopped.contains(&record.serial);
            assert!(!back, "serial {} was Deactivated, and is in state {} again", record.serial, record.state);
        }
    }
}

/// The serial that an answer names, if it names one.
fn named(payload: &[Item]) -> Option<u32> {
    payload.iter().find_map(|field| field.text(UNIQUE_IDENTIFIER)).map(serial)
}

fn serial(text: &str) -> u32 {
    u32::from_str_radix(text, 16).expect("hex digits")
}

/// A record changes state only along the listed steps, and a destroyed one holds no key byte.
fn compare_states(before: &Table, after: &Table) {
    for old in before.standing() {
        let reachable: &[u8] = match old.state {
            1 => &[1, 2, 3, 4, 5, 6],
            2 => &[2, 3, 4, 5, 6],
            3 => &[3, 4, 5, 6],
            4 => &[4, 6],
            5 => &[5, 6],
            _ => &[6],
        };
        if let Some(new) = after.find(old.serial) {
            assert!(reachable.contains(&new.state), "state {} became {}", old.state, new.state);
        } else {
            assert!(before.places.iter().all(|record| !record.is_free()) || after.last > before.last);
        }
    }
    assert!(after.standing().all(|record| record.state < 5 || record.material == [0; 32]));
}

/// Gets of keys that are destroyed, as many as a batch holds.
fn gets_of_destroyed(table: &Table) -> Node {
    let destroyed = table.standing().filter(|record| record.state >= 5).map(|record| record.serial);
    let mut serials: Vec<u32> = destroyed.take(16).collect();
    if serials.is_empty() {
        serials.push(1);
    }
    let gets = serials.into_iter().map(|serial| item(GET, None, target(Some(&identifier(serial)))));
    request(Some(1), gets.collect())
}

/// Locates by names that records have or had, or nearly such, each followed by a Get Attributes without identifier.
fn locates(rng: &mut Rng, names: &BTreeSet<String>) -> Node {
    let names: Vec<&String> = names.iter().collect();
    let mut items = Vec::new();
    for _ in 0..8 {
        let Some(&name) = (!names.is_empty()).then(|| rng.pick(&names)).as_ref() else { break };
        let name = if rng.one_in(4) { near(rng, name) } else { name.clone() };
        items.extend([item(LOCATE, None, location(&name)), item(GET_ATTRIBUTES, None, target(None))]);
    }
    if items.is_empty() {
        items.push(item(LOCATE, None, location("pump")));
    }
    request(Some(1), items)
}

/// A request on the table of now: spoilt sometimes, accepted mostly.
fn next_request(rng: &mut Rng, table: &Table, names: &BTreeSet<String>) -> Vec<u8> {
    let mut bytes = match rng.below(24) {
        0..=1 => requests::edited(rng, table).encode(),
        2..=3 => requests::wrong_numbers(rng, table).encode(),
        4..=5 => requests::creations(rng, table).encode(),
        6 => requests::renewals(rng, table).encode(),
        7 => gets_of_destroyed(table).encode(),
        8..=9 => locates(rng, names).encode(),
        10..=11 => requests::about_a_name(rng, table).encode(),
        12 => requests::all_or_none(rng, table).encode(),
        _ => requests::accepted(rng, table).encode(),
    };
    if rng.one_in(20) {
        requests::damage(rng, &mut bytes);
    }
    bytes
}

/// A clock that mostly goes on a little, and goes back or is refused now and then.
fn next_clock(rng: &mut Rng, latest: i64) -> i64 {
    let step = rng.below(8) as i64;
    match rng.below(16) {
        0 => rng.pick(&[0, -1, -step, i64::MIN]),
        1..=4 => (latest - step).max(1),
        _ => (latest + step).max(1),
    }
}

/// A request on the table of now; on a large one that has never been full, every second is a batch of Creates.
fn any_request(rng: &mut Rng, table: &Table, names: &BTreeSet<String>) -> Vec<u8> {
    let fills = table.places.len() == LARGE_COUNT && (table.last as usize) < LARGE_COUNT;
    if fills && rng.one_in(2) {
        return requests::creations(rng, table).encode();
    }
    next_request(rng, table, names)
}

fn step(rng: &mut Rng, table: &Table, ledger: &mut Ledger) -> Effect {
    let mut case = Case::new(any_request(rng, table, &ledger.names), table.encode());
    case.fresh = rng.bytes(512);
    case.clock = next_clock(rng, table.latest);
    let effect = case.run_all(&engines(), "history");
    let after = Table::decode(&effect.table);
    if let Ok(length) = effect.served {
        ledger.went_back += u64::from(case.clock < table.latest);
        ledger.enter(case.clock, &case.request, &effect.out[..length]);
    }
    assert!(soundness::broken(&effect.table).is_empty());
    assert!(after.latest >= table.latest, "the stored clock fell");
    ledger.compare(&after);
    compare_states(table, &after);
    effect
}

/// What must have occurred with names, and how often over all runs.
const NAMES: [(&str, u64); 12] = [
    ("Create with a name that a key has: Non Unique Name Attribute", 100),
    ("Create with a name that a destroyed key has: Non Unique Name Attribute", 100),
    ("Create with a name that a key of the same batch has: Non Unique Name Attribute", 100),
    ("Create with the name of the key whose place it would take: Non Unique Name Attribute", 5),
    ("Create in the place of a key with a name", 100),
    ("Re-key of a key with a name", 100),
    ("Re-key of a key that got its name by Re-key in the same batch", 5),
    ("Re-key that fails, of a key with a name", 100),
    ("Locate of a key", 100),
    ("Locate of a destroyed key", 100),
    ("Locate of none", 100),
    ("placeholder of a Locate that found a destroyed record used", 100),
];

/// Runs on large tables.
const LARGE_RUNS: u64 = 16;

/// One run of so many requests, on a table that has so many places, from blank on: the ledger, and the table at the end.
fn run(seed: u64, count: usize, requests: usize) -> (Ledger, Table) {
    let mut rng = Rng::new(seed);
    let mut table = Table::blank(count);
    let mut ledger = Ledger { holders: Holders::of(&table), ..Ledger::default() };
    for _ in 0..requests {
        let effect = step(&mut rng, &table, &mut ledger);
        table = Table::decode(&effect.table);
    }
    (ledger, table)
}

#[test]
fn grants_are_counted_destroyed_keys_stay_so_and_names_stand_once() {
    let (mut grants, mut full, mut taken_over) = (0, 0, 0);
    let (mut handed_out, mut asked_dead) = (0, 0);
    let (mut went_back, mut stopped) = (0, 0);
    let (mut moved, mut begun, mut ended) = (0, 0, 0);
    let mut events: BTreeMap<&str, u64> = BTreeMap::new();
    let (mut given, mut gone) = (0, 0);
    let mut undone: BTreeMap<u32, u64> = BTreeMap::new();
    let mut again = 0;
    for seed in 0..200 {
        let (ledger, table) = run(seed, SMALL_COUNT, 100);
        grants += ledger.grants;
        handed_out += ledger.handed_out;
        asked_dead += ledger.asked_dead;
        went_back += ledger.went_back;
        stopped += ledger.stopped.len();
        (moved, begun, ended) = (moved + ledger.moved, begun + ledger.begun, ended + ledger.ended);
        for (event, times) in ledger.events {
            *events.entry(event).or_default() += times;
        }
        for (operation, times) in ledger.undone {
            *undone.entry(operation).or_default() += times;
        }
        again += ledger.again;
        given += ledger.names.len();
        gone += ledger.names.iter().filter(|name| ledger.holders.holder(name.as_bytes()).is_none()).count();
        full += u32::from(table.standing().count() == SMALL_COUNT);
        taken_over += u32::from(ledger.issued.len() > SMALL_COUNT);
    }
    println!("{grants} grants; {full} of 200 runs ended with a full table, {taken_over} took over destroyed places");
    println!("{handed_out} keys handed out, and {asked_dead} that were asked for after their Destroy were not");
    assert!(grants > 100 && full > 10 && taken_over > 10);
    println!("{went_back} requests answered with a clock that went back, {stopped} keys seen Deactivated");
    println!("{moved} replacements with Offset; {begun} with and without were Active at once, {ended} Deactivated");
    assert!(handed_out > 100 && asked_dead > 100);
    assert!(went_back > 100 && stopped > 100);
    assert!(moved > 100 && begun > 100 && ended > 100);
    println!("{given} names were given, of which {gone} were free again at the end");
    assert!(given > 100 && gone > 100);
    println!("items undone, by operation: {undone:?}; {again} serials of undone items were issued again");
    assert!(undone.len() == 9 && undone.values().all(|&times| times > 20) && again > 100);
    for (event, least) in NAMES {
        let times = events.get(event).copied().unwrap_or(0);
        println!("{times:>10}  {event}");
        assert!(times >= least, "too seldom: {event}");
    }
}

/// The same on large tables: the ledger holds, they fill up, and destroyed places above 63 go to new keys.
#[test]
fn the_same_holds_on_large_tables() {
    let (mut grants, mut full, mut taken_over, mut asked_dead, mut gone) = (0, 0, 0, 0, 0);
    for seed in 0..LARGE_RUNS {
        let (ledger, table) = run(1_000 + seed, LARGE_COUNT, 250);
        grants += ledger.grants;
        asked_dead += ledger.asked_dead;
        gone += ledger.names.iter().filter(|name| ledger.holders.holder(name.as_bytes()).is_none()).count();
        full += u32::from(table.standing().count() == LARGE_COUNT);
        let later = |record: &Record| record.serial as usize > LARGE_COUNT;
        taken_over += table.places[SMALL_COUNT..].iter().filter(|record| later(record)).count();
    }
    println!("{full} of {LARGE_RUNS} large tables full at the end, {taken_over} keys in places above 63 taken over");
    println!("{grants} grants, {asked_dead} keys asked for after their Destroy, {gone} names free again");
    assert!(full > 5 && taken_over > 50);
    assert!(grants > 50 && asked_dead > 50 && gone > 50);
}
