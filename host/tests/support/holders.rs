//! Who has which name, and which record the placeholder is, followed through requests and responses alone: no two records
//! have the same name, Locate answers the one that has it, Get Attributes shows it, and Re-key moves it.
//! Each call's events are those that the coverage asks for.

use super::limits;
use super::names::{fault, Fault};
use super::undo;
use junctionmoth::model::frame::{self, BatchItem};
use junctionmoth::model::operations::Reason::*;
use junctionmoth::model::payload::{self, Action, Order, Target, Wanted};
use junctionmoth::model::table::Table;
use junctionmoth::model::tags::*;
use junctionmoth::model::ttlv::{self, Item};

/// Things about names and about the placeholder that must occur.
pub const EVENTS: [&str; 58] = [
    "placeholder of a new key used",
    "placeholder of Locate used",
    "placeholder of a Locate that found a destroyed record used",
    "placeholder set anew by Locate, and used",
    "placeholder emptied by a failure: Object Not Found",
    "placeholder emptied by a Locate that found none: Object Not Found",
    "Create with a name of 1 byte",
    "Create with a name of 31 bytes",
    "Create with a name of 32 bytes",
    "Create with a name that is not ASCII",
    "Create with a name of 32 bytes that is not ASCII",
    "Create with a name that has a zero byte inside",
    "Create with a name that ends with a zero byte",
    "Create with a name alone of what is optional",
    "Create with a name, a limit and both dates",
    "Create with a name that begins another",
    "Create with a name that another begins",
    "Create with a name that is another with a zero byte behind it",
    "Create with a name that is another without the zero byte behind it",
    "Create with a name that is another in its first 8 bytes alone",
    "Create with a name that is another but for its last byte",
    "Create with a name that a key has: Non Unique Name Attribute",
    "Create with a name that a destroyed key has: Non Unique Name Attribute",
    "Create with a name that a key of the same batch has: Non Unique Name Attribute",
    "Create with a name that was moved in the same batch: Non Unique Name Attribute",
    "Create with the name of the key whose place it would take: Non Unique Name Attribute",
    "Create with a name that is taken, no place left: Non Unique Name Attribute",
    "Create with a name that is not taken, no place left: Server Limit Exceeded",
    "Create with a name that is taken, something else invalid: Invalid Field",
    "Create with a name that was freed in the same batch",
    "Create in the place of a key with a name",
    "Re-key in the place of a key with a name",
    "Re-key of a key with a name",
    "Re-key of a key without a name",
    "Re-key of a key that got its name by Re-key in the same batch",
    "Re-key that fails, of a key with a name",
    "Destroy of a key with a name",
    "Get Attributes of a key with a name",
    "Get Attributes of a key without a name",
    "Get Attributes of a destroyed key with a name",
    "Get Attributes of a key whose name was moved in the same batch",
    "Locate of a key",
    "Locate of a destroyed key",
    "Locate of a key of the same batch",
    "Locate of a key that got its name by Re-key in the same batch",
    "Locate by a name of 1 byte",
    "Locate by a name of 31 bytes",
    "Locate by a name of 32 bytes",
    "Locate by a name that is not ASCII",
    "Locate by a name that has a zero byte inside",
    "Locate of none",
    "Locate of none, the name having been freed in the same batch",
    "Locate of none, by a name that begins another",
    "Locate of none, by a name that another begins",
    "Locate of none, by a name with a zero byte behind it",
    "Locate of none, by a name without the zero byte behind it",
    "Locate of none, by a name that is another in its first 8 bytes alone",
    "Locate of none, by a name that is another but for its last byte",
];

/// What is known of the record at a place.
#[derive(Clone, Debug, PartialEq)]
pub struct Held {
    pub serial: u32,
    pub destroyed: bool,
    pub name: Option<Vec<u8>>,
}

/// The records by their places.
#[derive(Clone, Debug, Default, PartialEq)]
pub struct Holders {
    pub places: Vec<Option<Held>>,
}

/// What a call showed.
#[derive(Default)]
pub struct Seen {
    pub events: Vec<&'static str>,
    /// Operation and fault of each item that failed for its name alone.
    pub faults: Vec<(u32, Fault)>,
}

/// Why the placeholder is what it is.
#[derive(Clone, Copy, PartialEq)]
enum Since {
    Start,
    Issued,
    Located { anew: bool },
    Failed,
    LocatedNone,
}

/// One call: the placeholder, what was issued, moved and freed so far, and what was seen.
struct Batch {
    placeholder: Option<u32>,
    since: Since,
    issued: Vec<u32>,
    moved: Vec<Vec<u8>>,
    bereft: Vec<u32>,
    freed: Vec<Vec<u8>>,
    seen: Seen,
}

/// What an item was answered: the fields of its payload, or its reason.
type Answer<'a> = Result<&'a [Item], u32>;

impl Holders {
    /// Those of a table.
    pub fn of(table: &Table) -> Holders {
        let held = |record: &junctionmoth::model::table::Record| Held {
            serial: record.serial,
            destroyed: [5, 6].contains(&record.state),
            name: record.name.text().map(<[u8]>::to_vec),
        };
        Holders { places: table.places.iter().map(|record| (!record.is_free()).then(|| held(record))).collect() }
    }

    /// The record that has a name.
    pub fn holder(&self, name: &[u8]) -> Option<&Held> {
        self.standing().find(|held| held.name.as_deref() == Some(name))
    }

    fn standing(&self) -> impl Iterator<Item = &Held> {
        self.places.iter().flatten()
    }

    fn find(&mut self, serial: u32) -> Option<&mut Held> {
        self.places.iter_mut().flatten().find(|held| held.serial == serial)
    }

    /// The place of the next new key: the lowest free one, or else the lowest of a destroyed key.
    fn place_for_new(&self) -> Option<usize> {
        let destroyed = |held: &Option<Held>| held.as_ref().is_some_and(|held| held.destroyed);
        self.places.iter().position(Option::is_none).or_else(|| self.places.iter().position(destroyed))
    }

    /// Follows an answered request. One that is undone leaves no trace.
    pub fn follow(&mut self, request: &[u8], response: &[u8]) -> Seen {
        if undo::is_undone(request, response) {
            return Seen::default();
        }
        let asked = frame::read(&ttlv::read(request).expect("read")).expect("framed");
        let message = ttlv::read(response).expect("a response is one well-formed item");
        let answers = &message.structure(RESPONSE_MESSAGE).expect("a Response Message")[1..];
        let mut batch = Batch {
            placeholder: None,
            since: Since::Start,
            issued: Vec::new(),
            moved: Vec::new(),
            bereft: Vec::new(),
            freed: Vec::new(),
            seen: Seen::default(),
        };
        for (item, answer) in asked.items.iter().zip(answers) {
            let answer = answer_of(answer);
            self.item(&mut batch, item, answer);
            if answer.is_err() {
                (batch.placeholder, batch.since) = (None, Since::Failed);
            }
        }
        batch.seen
    }

    fn item(&mut self, batch: &mut Batch, item: &BatchItem, answer: Answer) {
        match payload::read(item.operation, &item.payload) {
            Ok(Order::Create(wanted)) => self.create(batch, &wanted, answer),
            Ok(Order::Locate(name)) => self.locate(batch, name.as_bytes(), answer),
            Ok(Order::Target(target, action)) => self.target(batch, target, &action, answer),
            Err(reason) => {
                assert_eq!(answer, Err(reason as u32), "an item without an order");
                self.invalid(batch, item);
            }
        }
    }

    /// An item that has no order: for its name alone, or with a name that is taken.
    fn invalid(&self, batch: &mut Batch, item: &BatchItem) {
        if let Some(fault) = fault(item.operation, &item.payload) {
            batch.seen.faults.push((item.operation, fault));
        }
        let attributes = item.payload.last().and_then(|last| last.structure(ATTRIBUTES)).unwrap_or_default();
        let names = attributes.iter().filter_map(|attribute| attribute.structure(NAME)?.first()?.text(NAME_VALUE));
        let taken = names.into_iter().any(|name| self.holder(name.as_bytes()).is_some());
        batch.see(
            "Create with a name that is taken, something else invalid: Invalid Field",
            taken && item.operation == CREATE,
        );
        let mask = item.operation == CREATE && limits::fails_for_its_mask(&item.payload);
        batch.see(limits::TAKEN, mask && taken);
        batch.see(limits::NO_PLACE, mask && self.place_for_new().is_none());
    }

    fn create(&mut self, batch: &mut Batch, wanted: &Wanted, answer: Answer) {
        let name = wanted.name.as_ref().map(|name| name.as_bytes().to_vec());
        if let Some(holder) = name.as_ref().and_then(|name| self.holder(name)).cloned() {
            assert_eq!(answer, Err(NonUniqueNameAttribute as u32), "Create with a name that is taken");
            return self.taken(batch, &holder);
        }
        let full = self.place_for_new().is_none();
        let payload = match answer {
            Ok(payload) => payload,
            Err(reason) => {
                assert_eq!(reason, ServerLimitExceeded as u32, "Create with a name that is not taken");
                let what = "Create with a name that is not taken, no place left: Server Limit Exceeded";
                return batch.see(what, full && name.is_some());
            }
        };
        assert!(!full, "Create with no place left");
        if let Some(name) = &name {
            self.see_new(batch, wanted, name);
        }
        let displaced = self.issue(batch, serial_of(payload).expect("an identifier"), name);
        batch.see("Create in the place of a key with a name", displaced);
    }

    /// A Create with a name that this record has.
    fn taken(&self, batch: &mut Batch, holder: &Held) {
        let place = self.place_for_new();
        let its_own = place.and_then(|place| self.places[place].as_ref()) == Some(holder);
        let what = "Create with a name that a key has: Non Unique Name Attribute";
        batch.see(what, !holder.destroyed);
        let what = "Create with a name that a destroyed key has: Non Unique Name Attribute";
        batch.see(what, holder.destroyed);
        let what = "Create with a name that a key of the same batch has: Non Unique Name Attribute";
        batch.see(what, batch.issued.contains(&holder.serial));
        let what = "Create with a name that was moved in the same batch: Non Unique Name Attribute";
        batch.see(what, batch.moved.iter().any(|name| Some(name) == holder.name.as_ref()));
        let what = "Create with the name of the key whose place it would take: Non Unique Name Attribute";
        batch.see(what, its_own);
        let what = "Create with a name that is taken, no place left: Non Unique Name Attribute";
        batch.see(what, place.is_none());
    }

    /// A Create with a name that is new.
    fn see_new(&self, batch: &mut Batch, wanted: &Wanted, name: &[u8]) {
        let dates = [wanted.activation, wanted.deactivation].into_iter().flatten().count();
        let inside = name.split_last().is_some_and(|(_, front)| front.contains(&0));
        batch.see("Create with a name of 1 byte", name.len() == 1);
        batch.see("Create with a name of 31 bytes", name.len() == 31);
        batch.see("Create with a name of 32 bytes", name.len() == 32);
        batch.see("Create with a name that is not ASCII", !name.is_ascii());
        batch.see("Create with a name of 32 bytes that is not ASCII", !name.is_ascii() && name.len() == 32);
        batch.see("Create with a name that has a zero byte inside", inside);
        batch.see("Create with a name that ends with a zero byte", name.ends_with(&[0]));
        batch.see("Create with a name alone of what is optional", dates == 0 && wanted.limit.is_none());
        batch.see("Create with a name, a limit and both dates", dates == 2 && wanted.limit.is_some());
        batch.see("Create with a name that was freed in the same batch", batch.freed.iter().any(|freed| freed == name));
        let alike = [
            "Create with a name that begins another",
            "Create with a name that another begins",
            "Create with a name that is another with a zero byte behind it",
            "Create with a name that is another without the zero byte behind it",
            "Create with a name that is another in its first 8 bytes alone",
            "Create with a name that is another but for its last byte",
        ];
        self.see_alike(batch, name, alike);
    }

    /// In what ways a name that no record has is like one that some record has.
    fn see_alike(&self, batch: &mut Batch, name: &[u8], events: [&'static str; 6]) {
        for other in self.standing().filter_map(|held| held.name.as_deref()) {
            let same = name.iter().zip(other).take_while(|(one, two)| one == two).count();
            let longer = name.len() > same && other.len() > same;
            let alike = [
                name.len() == same,
                other.len() == same,
                other.len() == same && name.len() == same + 1 && name[same] == 0,
                name.len() == same && other.len() == same + 1 && other[same] == 0,
                longer && same == 8,
                longer && name.len() == same + 1 && other.len() == same + 1,
            ];
            for (event, occurred) in events.into_iter().zip(alike) {
                batch.see(event, occurred);
            }
        }
    }

    /// Puts a new record into its place, which may be that of a destroyed one; says whether that had a name.
    fn issue(&mut self, batch: &mut Batch, serial: u32, name: Option<Vec<u8>>) -> bool {
        let place = self.place_for_new().expect("a new key has a place");
        let before = self.places[place].replace(Held { serial, destroyed: false, name });
        batch.issued.push(serial);
        (batch.placeholder, batch.since) = (Some(serial), Since::Issued);
        let freed = before.and_then(|held| held.name);
        batch.freed.extend(freed.clone());
        freed.is_some()
    }

    fn locate(&mut self, batch: &mut Batch, name: &[u8], answer: Answer) {
        let payload = answer.expect("a Locate with a name that is allowed succeeds");
        let holder = self.holder(name).cloned();
        let found = holder.as_ref().map(|held| held.serial);
        assert_eq!(serial_of(payload), found, "the record that has a name");
        assert_eq!(payload.len(), usize::from(found.is_some()), "an identifier alone, or nothing");
        match &holder {
            Some(held) => self.see_found(batch, held, name),
            None => self.see_none(batch, name),
        }
        let anew = batch.placeholder.is_some() && batch.placeholder != found;
        batch.since = if found.is_some() { Since::Located { anew } } else { Since::LocatedNone };
        batch.placeholder = found;
    }

    fn see_found(&self, batch: &mut Batch, held: &Held, name: &[u8]) {
        let inside = name.split_last().is_some_and(|(_, front)| front.contains(&0));
        batch.see("Locate of a key", !held.destroyed);
        batch.see("Locate of a destroyed key", held.destroyed);
        batch.see("Locate of a key of the same batch", batch.issued.contains(&held.serial));
        let what = "Locate of a key that got its name by Re-key in the same batch";
        batch.see(what, batch.moved.iter().any(|moved| moved == name));
        batch.see("Locate by a name of 1 byte", name.len() == 1);
        batch.see("Locate by a name of 31 bytes", name.len() == 31);
        batch.see("Locate by a name of 32 bytes", name.len() == 32);
        batch.see("Locate by a name that is not ASCII", !name.is_ascii());
        batch.see("Locate by a name that has a zero byte inside", inside);
    }

    fn see_none(&self, batch: &mut Batch, name: &[u8]) {
        batch.see("Locate of none", true);
        let freed = batch.freed.iter().any(|freed| freed == name);
        batch.see("Locate of none, the name having been freed in the same batch", freed);
        let alike = [
            "Locate of none, by a name that begins another",
            "Locate of none, by a name that another begins",
            "Locate of none, by a name with a zero byte behind it",
            "Locate of none, by a name without the zero byte behind it",
            "Locate of none, by a name that is another in its first 8 bytes alone",
            "Locate of none, by a name that is another but for its last byte",
        ];
        self.see_alike(batch, name, alike);
    }

    /// An item on one record.
    fn target(&mut self, batch: &mut Batch, target: Target, action: &Action, answer: Answer) {
        let serial = match &target {
            Target::Placeholder => batch.placeholder,
            Target::Identifier(text) => self
                .standing()
                .map(|held| held.serial)
                .find(|&serial| junctionmoth::model::operations::identifier(serial) == *text),
        };
        let not_found = answer == Err(ObjectNotFound as u32);
        assert_eq!(serial.is_none(), not_found, "a record that is named and not found, or the other way round");
        if let Target::Placeholder = target {
            self.see_placeholder(batch, answer);
        }
        let Some(held) = serial.and_then(|serial| self.find(serial)) else { return };
        let (serial, name) = (held.serial, held.name.clone());
        let payload = match answer {
            Ok(payload) => payload,
            Err(_) => {
                let moves = matches!(action, Action::Rekey(_)) && name.is_some();
                return batch.see("Re-key that fails, of a key with a name", moves);
            }
        };
        match action {
            Action::Rekey(_) => {
                held.name = None;
                self.rekey(batch, serial, name, payload);
            }
            Action::Destroy => {
                held.destroyed = true;
                batch.see("Destroy of a key with a name", name.is_some());
            }
            Action::GetAttributes => {
                let (destroyed, bereft) = (held.destroyed, batch.bereft.contains(&serial));
                assert_eq!(name_shown(payload), name.as_deref(), "the name of {serial:08X}");
                batch.see("Get Attributes of a key with a name", name.is_some());
                batch.see("Get Attributes of a key without a name", name.is_none());
                batch.see("Get Attributes of a destroyed key with a name", destroyed && name.is_some());
                batch.see("Get Attributes of a key whose name was moved in the same batch", bereft);
            }
            _ => {}
        }
    }

    fn rekey(&mut self, batch: &mut Batch, old: u32, name: Option<Vec<u8>>, payload: &[Item]) {
        let again = batch.moved.iter().any(|moved| Some(moved) == name.as_ref());
        batch.see("Re-key of a key with a name", name.is_some());
        batch.see("Re-key of a key without a name", name.is_none());
        batch.see("Re-key of a key that got its name by Re-key in the same batch", again);
        if let Some(name) = &name {
            batch.moved.push(name.clone());
            batch.bereft.push(old);
        }
        let displaced = self.issue(batch, serial_of(payload).expect("an identifier"), name);
        batch.see("Re-key in the place of a key with a name", displaced);
    }

    /// An item that is about the placeholder.
    fn see_placeholder(&self, batch: &mut Batch, answer: Answer) {
        let destroyed = self.standing().any(|held| Some(held.serial) == batch.placeholder && held.destroyed);
        let (since, done) = (batch.since, answer.is_ok());
        let located = matches!(since, Since::Located { .. });
        batch.see("placeholder of a new key used", done && since == Since::Issued);
        batch.see("placeholder of Locate used", done && located);
        batch.see("placeholder of a Locate that found a destroyed record used", done && located && destroyed);
        batch.see("placeholder set anew by Locate, and used", done && since == Since::Located { anew: true });
        batch.see("placeholder emptied by a failure: Object Not Found", since == Since::Failed);
        let what = "placeholder emptied by a Locate that found none: Object Not Found";
        batch.see(what, since == Since::LocatedNone);
    }
}

impl Batch {
    fn see(&mut self, event: &'static str, occurred: bool) {
        if occurred {
            self.seen.events.push(event);
        }
    }
}

fn answer_of(item: &Item) -> Answer<'_> {
    let fields = item.structure(BATCH_ITEM).expect("a Batch Item");
    match fields.iter().find_map(|field| field.enumeration(RESULT_REASON)) {
        Some(reason) => Err(reason),
        None => Ok(fields.last().and_then(|last| last.structure(RESPONSE_PAYLOAD)).expect("a Response Payload")),
    }
}

/// The serial that an answer names.
fn serial_of(payload: &[Item]) -> Option<u32> {
    let text = payload.iter().find_map(|field| field.text(UNIQUE_IDENTIFIER))?;
    Some(u32::from_str_radix(text, 16).expect("hex digits"))
}

/// The name that Get Attributes shows: the last attribute.
fn name_shown(payload: &[Item]) -> Option<&[u8]> {
    let [_, attributes] = payload else { panic!("an identifier and attributes") };
    let attributes = attributes.structure(ATTRIBUTES).expect("Attributes");
    let (last, front) = attributes.split_last().expect("attributes");
    assert!(front.iter().all(|attribute| attribute.tag != NAME), "a name that is not the last attribute");
    let [value, kind] = last.structure(NAME)? else { panic!("a Name has two fields") };
    assert_eq!(kind.enumeration(NAME_TYPE), Some(1), "uninterpreted text");
    Some(value.text(NAME_VALUE).expect("a Name Value").as_bytes())
}
