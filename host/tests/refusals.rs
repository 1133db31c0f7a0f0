//! Every combination of the eleven faults, on tables of both place counts and under each option: the lowest number is given,
//! and nothing is touched. A fault is put in so that the others stand beside it.

mod support;

use junctionmoth::message::{create, integer, item, request_with, Body, Header, Node};
use junctionmoth::{blank_table, table_size, Refusal, LARGE_COUNT, SMALL_COUNT};
use support::{engines, Case, SECOND_MOST};

/// The faults of a case: bit n - 1 stands for refusal n.
#[derive(Clone, Copy)]
struct Faults(u32);

impl Faults {
    fn has(self, refusal: Refusal) -> bool {
        self.0 >> (refusal.number() - 1) & 1 == 1
    }

    fn lowest(self) -> Option<Refusal> {
        Refusal::ALL.into_iter().find(|&refusal| self.has(refusal))
    }

    fn message(self, option: Option<u32>) -> Node {
        let items: Vec<Node> = (0..17).map(|_| item(0x01, None, create(128, 4, None))).collect();
        let number = if self.has(Refusal::Count) { 17 } else { 16 };
        let header = Header {
            version: if self.has(Refusal::Version) { (2, 0) } else { (2, 1) },
            option: if self.has(Refusal::Continuation) { Some(4) } else { option },
            count: number,
        };
        let mut message = request_with(header, items.into_iter().take(number as usize).collect());
        if let (true, Body::Nodes(parts)) = (self.has(Refusal::Frame), &mut message.body) {
            parts.push(integer(0x42000D, 1));
        }
        message
    }

    fn case(self, variant: &Variant) -> Case {
        let Variant { empty, count, option, second } = *variant;
        let mut request = self.message(option).encode();
        if self.has(Refusal::Malformed) {
            request[0] = 0x54;
        }
        if self.has(Refusal::Size) {
            request.resize(if empty { 0 } else { 4097 }, 0);
        }
        let mut case = Case::new(request, blank_table(count));
        case.table[7] |= u8::from(self.has(Refusal::Table));
        case.fresh.truncate(if self.has(Refusal::Strip) { 511 } else { 512 });
        case.room = if self.has(Refusal::Room) { 6359 } else { 6360 };
        case.clock = if self.has(Refusal::Clock) { 0 } else { 1 };
        if self.has(Refusal::Undo) {
            case.second.resize(second, 0x77);
        }
        case
    }
}

/// How a case is made beside its faults: whether a request of the wrong size is empty, the places of the table, the option,
/// and the wrong size of the second buffer.
struct Variant {
    empty: bool,
    count: usize,
    option: Option<u32>,
    second: usize,
}

#[test]
fn the_lowest_refusal_is_given() {
    let engines = engines();
    let (small, large) = (table_size(SMALL_COUNT), table_size(LARGE_COUNT));
    let variants = [
        Variant { empty: false, count: SMALL_COUNT, option: Some(1), second: small - 1 },
        Variant { empty: true, count: SMALL_COUNT, option: Some(3), second: large },
        Variant { empty: false, count: LARGE_COUNT, option: Some(2), second: large + 1 },
        Variant { empty: true, count: LARGE_COUNT, option: None, second: 0 },
    ];
    for bits in 0..2048 {
        for variant in &variants {
            let faults = Faults(bits);
            let effect = faults.case(variant).run_all(&engines, "refusals");
            assert_eq!(effect.served.err(), faults.lowest(), "faults {bits:011b}, {} places", variant.count);
        }
    }
}

/// A second buffer of any wrong size is refused under each option, and one of the table's size under none.
#[test]
fn a_second_buffer_has_the_size_of_the_table() {
    let engines = engines();
    for count in [SMALL_COUNT, LARGE_COUNT] {
        let size = table_size(count);
        for option in [None, Some(1), Some(2), Some(3)] {
            for second in [0, 1, 16, size / 2, size - 1, size, size + 1, 2 * size, 8208, 32784] {
                let mut case = Faults(0).case(&Variant { empty: false, count, option, second });
                case.second.resize(second.min(SECOND_MOST), 0x77);
                let refused = case.run_all(&engines, "second buffers").served.err();
                assert_eq!(refused, (case.second.len() != size).then_some(Refusal::Undo), "{second}, {option:?}");
            }
        }
    }
}
