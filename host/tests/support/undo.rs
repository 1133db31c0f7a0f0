//! Undo: what occurred under option 3 and with second buffers, read off the inputs and effects of calls. A batch of which
//! an item fails leaves the table that its first item met; the second buffer holds that table, whether one fails or not.

use super::{Case, Effect};
use junctionmoth::model::frame::{self, BatchItem, Request};
use junctionmoth::model::payload::{self, Order, Target};
use junctionmoth::model::table::Table;
use junctionmoth::model::tags::*;
use junctionmoth::model::ttlv::{self, Item};
use junctionmoth::{Refusal, LARGE_SIZE, SMALL_SIZE};

/// The value of the option.
const UNDO: Option<u32> = Some(3);

/// Things that must occur.
pub const EVENTS: [&str; 40] = [
    "refusal 9 for option 0",
    "refusal 9 for option 4",
    "refusal 9 for an option above 4",
    "refusal 11 without option",
    "refusal 11 under option 1",
    "refusal 11 under option 2",
    "refusal 11 under option 3",
    "refusal 11 for an empty second buffer",
    "refusal 11 for a byte less than the table",
    "refusal 11 for a byte more than the table",
    "refusal 11 for a large second buffer beside a small table",
    "refusal 11 for a small second buffer beside a large table",
    "Undo: the only item fails",
    "Undo: the first of several items fails",
    "Undo: an item in the middle fails",
    "Undo: the last of several items fails",
    "Undo: the first of sixteen items fails",
    "Undo: the last of sixteen items fails",
    "Undo: no item fails",
    "Undo: none of sixteen items fails",
    "Undo: a response of 6,360 bytes",
    "Undo: no item fails, and due changes were made",
    "undone: the clock is stored",
    "undone: due changes are kept",
    "undone: a clock earlier than the latest",
    "undone: an item without identifier",
    "undone: an item with an ID",
    "undone: a large table",
    "undone: nothing but items that change no table",
    "undone: Create",
    "undone: Re-key",
    "undone: Locate",
    "undone: Get",
    "undone: Get Attributes",
    "undone: Get Usage Allocation",
    "undone: Activate",
    "undone: Revoke",
    "undone: Destroy",
    "the serial of an undone Create issued again",
    "the serial of an undone Re-key issued again",
];

/// The operations, and what is noted where one is undone.
const OPERATIONS: [(u32, &str); 9] = [
    (CREATE, "undone: Create"),
    (REKEY, "undone: Re-key"),
    (LOCATE, "undone: Locate"),
    (GET, "undone: Get"),
    (GET_ATTRIBUTES, "undone: Get Attributes"),
    (GET_USAGE_ALLOCATION, "undone: Get Usage Allocation"),
    (ACTIVATE, "undone: Activate"),
    (REVOKE, "undone: Revoke"),
    (DESTROY, "undone: Destroy"),
];

/// The operations that change no table.
const LOOKING: [u32; 3] = [LOCATE, GET, GET_ATTRIBUTES];

/// What an undone batch left: the table, and the operation whose serial may be issued again.
#[derive(Default)]
pub struct Watch {
    left: Option<(Vec<u8>, u32)>,
}

/// The request of a call that was not refused for its frame.
fn asked(request: &[u8]) -> Request {
    frame::read(&ttlv::read(request).expect("read")).expect("framed")
}

/// The fields of each answer of a response.
fn answers(response: &[u8]) -> Vec<Vec<Item>> {
    let message = ttlv::read(response).expect("a response is one well-formed item");
    let items = &message.structure(RESPONSE_MESSAGE).expect("a Response Message")[1..];
    items.iter().map(|item| item.structure(BATCH_ITEM).expect("a Batch Item").to_vec()).collect()
}

/// The Result Status of each item of a response, and that each has what its status allows and nothing more.
pub fn statuses(response: &[u8]) -> Vec<u32> {
    answers(response).iter().map(|fields| status(fields)).collect()
}

fn status(fields: &[Item]) -> u32 {
    let at = fields.iter().position(|field| field.tag == RESULT_STATUS).expect("a Result Status");
    let status = fields[at].enumeration(RESULT_STATUS).expect("an Enumeration");
    let behind: Vec<u32> = fields[at + 1..].iter().map(|field| field.tag).collect();
    let right: &[u32] = match status {
        0 => &[RESPONSE_PAYLOAD],
        1 => &[RESULT_REASON],
        3 => &[],
        _ => panic!("Result Status {status}"),
    };
    assert_eq!(behind, right, "what stands behind Result Status {status}");
    status
}

/// Whether a request asks for Undo, and an item of its response failed.
pub fn is_undone(request: &[u8], response: &[u8]) -> bool {
    asked(request).option == UNDO && statuses(response).contains(&1)
}

/// What a refusal showed of options and second buffers.
pub fn of_refusal(case: &Case, refusal: Refusal) -> Vec<&'static str> {
    match refusal {
        Refusal::Continuation => vec![match asked(&case.request).option {
            Some(0) => "refusal 9 for option 0",
            Some(4) => "refusal 9 for option 4",
            Some(5..) => "refusal 9 for an option above 4",
            option => panic!("option {option:?} was refused"),
        }],
        Refusal::Undo => of_second_buffer(case),
        _ => Vec::new(),
    }
}

fn of_second_buffer(case: &Case) -> Vec<&'static str> {
    let (second, size) = (case.second.len(), case.table.len());
    assert_ne!(second, size, "a second buffer of the right size was refused");
    let mut events = vec![match asked(&case.request).option {
        None => "refusal 11 without option",
        Some(1) => "refusal 11 under option 1",
        Some(2) => "refusal 11 under option 2",
        _ => "refusal 11 under option 3",
    }];
    let sizes = [
        (second == 0, "refusal 11 for an empty second buffer"),
        (second + 1 == size, "refusal 11 for a byte less than the table"),
        (second == size + 1, "refusal 11 for a byte more than the table"),
        (second == LARGE_SIZE, "refusal 11 for a large second buffer beside a small table"),
        (second == SMALL_SIZE, "refusal 11 for a small second buffer beside a large table"),
    ];
    events.extend(sizes.into_iter().filter(|(is, _)| *is).map(|(_, event)| event));
    events
}

impl Watch {
    /// What an answered call showed, and that it did with table and second buffer what its option says. `start` is the table
    /// that the first item met.
    pub fn of_answer(&mut self, case: &Case, effect: &Effect, response: &[u8], start: &Table) -> Vec<&'static str> {
        assert_eq!(case.second.len(), case.table.len(), "a second buffer of another size was taken");
        let mut events = self.issued_again(case, response);
        let request = asked(&case.request);
        let statuses = statuses(response);
        if request.option != UNDO {
            assert!(effect.undo == case.second, "the second buffer was touched, and Undo was not asked for");
            assert!(!statuses.contains(&3), "an item undone, and Undo was not asked for");
            return events;
        }
        assert!(effect.undo == start.encode(), "the second buffer does not hold the table before the first item");
        if statuses.contains(&1) {
            events.extend(of_undone(case, effect, &request, &statuses, start));
            self.left = first_new(&request.items, &statuses).map(|operation| (effect.table.clone(), operation));
        } else {
            assert_eq!(statuses, vec![0; request.items.len()], "no item failed, and not all succeeded");
            events.push("Undo: no item fails");
            note(&mut events, "Undo: none of sixteen items fails", statuses.len() == 16);
            note(&mut events, "Undo: a response of 6,360 bytes", response.len() == 6360);
            let due = Table::decode(&case.table).places != start.places;
            note(&mut events, "Undo: no item fails, and due changes were made", due);
        }
        events
    }

    /// Whether the serial that an undone batch had issued first is issued again, on the table that the batch left.
    fn issued_again(&mut self, case: &Case, response: &[u8]) -> Vec<&'static str> {
        let Some((_, operation)) = self.left.take().filter(|(table, _)| *table == case.table) else {
            return Vec::new();
        };
        let next = Table::decode(&case.table).last.wrapping_add(1);
        let issues = |fields: &Vec<Item>| {
            let new = [CREATE, REKEY].map(Some).contains(&fields[0].enumeration(OPERATION));
            let payload = fields.last().and_then(|last| last.structure(RESPONSE_PAYLOAD)).unwrap_or_default();
            let text = payload.iter().find_map(|field| field.text(UNIQUE_IDENTIFIER));
            new && text == Some(&format!("{next:08X}"))
        };
        match (answers(response).iter().any(issues), operation) {
            (false, _) => Vec::new(),
            (true, CREATE) => vec!["the serial of an undone Create issued again"],
            (true, _) => vec!["the serial of an undone Re-key issued again"],
        }
    }
}

/// The operation of the first undone item that had issued a serial.
fn first_new(items: &[BatchItem], statuses: &[u32]) -> Option<u32> {
    let undone = items.iter().zip(statuses).filter(|(_, status)| **status == 3);
    undone.map(|(item, _)| item.operation).find(|operation| [CREATE, REKEY].contains(operation))
}

/// What a batch of which an item failed showed, and that nothing is left of it.
fn of_undone(case: &Case, effect: &Effect, request: &Request, statuses: &[u32], start: &Table) -> Vec<&'static str> {
    let (number, answered) = (request.items.len(), statuses.len());
    let mut expected = vec![3; answered];
    expected[answered - 1] = 1;
    assert_eq!(statuses, expected, "undone items, and then the one that failed");
    assert!(effect.table == start.encode(), "an undone batch left something");
    let before = Table::decode(&case.table);
    let mut events = vec![match (answered, number) {
        (1, 1) => "Undo: the only item fails",
        (1, _) => "Undo: the first of several items fails",
        _ if answered == number => "Undo: the last of several items fails",
        _ => "Undo: an item in the middle fails",
    }];
    note(&mut events, "Undo: the first of sixteen items fails", (answered, number) == (1, 16));
    note(&mut events, "Undo: the last of sixteen items fails", answered == 16);
    if answered > 1 {
        note(&mut events, "undone: the clock is stored", case.clock > before.latest);
        note(&mut events, "undone: due changes are kept", before.places != start.places);
        note(&mut events, "undone: a clock earlier than the latest", case.clock < before.latest);
        note(&mut events, "undone: a large table", case.table.len() == LARGE_SIZE);
        events.extend(of_items(&request.items[..answered - 1]));
    }
    events
}

/// What the undone items of a batch showed.
fn of_items(undone: &[BatchItem]) -> Vec<&'static str> {
    let mut events = Vec::new();
    for item in undone {
        let noted = OPERATIONS.into_iter().find(|(operation, _)| *operation == item.operation);
        events.push(noted.expect("an item of no operation was undone").1);
        let order = payload::read(item.operation, &item.payload).expect("an undone item has an order");
        let bare = matches!(order, Order::Target(Target::Placeholder, _));
        note(&mut events, "undone: an item without identifier", bare);
        note(&mut events, "undone: an item with an ID", item.id.is_some());
    }
    let looks = undone.iter().all(|item| LOOKING.contains(&item.operation));
    note(&mut events, "undone: nothing but items that change no table", looks);
    events
}

fn note(events: &mut Vec<&'static str>, event: &'static str, occurred: bool) {
    if occurred {
        events.push(event);
    }
}
