//! Text, from L5: "Text Strings now take every UTF-8 sequence of that standard, and overlong forms, surrogates and values
//! above 10FFFF hex are malformed"; "an identifier in other letters is still Object Not Found".
//! First the model's table, against the standard library and against the numbers of characters; then every engine.

mod support;

use junctionmoth::message::{allocation, item, raw_text, request, revocation, structure, target, Node};
use junctionmoth::model::operations::Reason::{InvalidField, ObjectNotFound, OperationNotSupported};
use junctionmoth::model::table::{Record, Table};
use junctionmoth::model::ttlv::is_text;
use junctionmoth::{Refusal, SMALL_COUNT};
use std::str::from_utf8;
use support::coverage::results;
use support::rng::Rng;
use support::texts::{any_text, fault, no_text, Fault, BAD, GOOD};
use support::{engines, hex, Case, Effect};

/// Whether bytes are text by the model, which must be what the standard library says.
fn agreed(bytes: &[u8]) -> bool {
    let text = is_text(bytes);
    assert_eq!(text, from_utf8(bytes).is_ok(), "{}", hex(bytes));
    text
}

#[test]
fn the_model_agrees_on_all_strings_of_up_to_three_bytes() {
    assert!(agreed(&[]), "no bytes are text");
    let mut texts = [0; 3];
    for one in 0..=255 {
        texts[0] += u32::from(agreed(&[one]));
        for two in 0..=255 {
            texts[1] += u32::from(agreed(&[one, two]));
            for three in 0..=255 {
                texts[2] += u32::from(agreed(&[one, two, three]));
            }
        }
    }
    // characters of one byte: 0 to 7F; of two: up to 7FF; of three: up to FFFF without the surrogates
    let (single, double, triple) = (0x80, 0x800 - 0x80, 0x10000 - 0x800 - 0x800);
    let of_three = single * single * single + 2 * single * double + triple;
    assert_eq!(texts, [single, single * single + double, of_three]);
}

/// A number spelled in so many bytes, 2 to 4, by the table of RFC 3629, section 3, whether it may be or not.
fn spelled(number: u32, length: usize) -> Vec<u8> {
    let mut bytes: Vec<u8> = (0..length).rev().map(|at| 0x80 | (number >> (6 * at)) as u8 & 0x3F).collect();
    bytes[0] = [0xC0, 0xE0, 0xF0][length - 2] | (number >> (6 * (length - 1))) as u8;
    bytes
}

/// Every number below 200000 hex in every number of bytes that has room for it: text is what is spelled shortest, is no
/// surrogate, and is not above 10FFFF.
#[test]
fn the_model_takes_each_character_in_its_shortest_form_alone() {
    for (length, numbers) in [(2, 0..0x800), (3, 0..0x1_0000), (4, 0..0x20_0000)] {
        let shortest = [0x80, 0x800, 0x1_0000][length - 2];
        for number in numbers {
            let bytes = spelled(number, length);
            let character = number >= shortest && !(0xD800..=0xDFFF).contains(&number) && number <= 0x10_FFFF;
            assert_eq!(agreed(&bytes), character, "{number:X} in {length} bytes");
            for cut in 1..length {
                assert!(!agreed(&bytes[..cut]), "{number:X} in {length} bytes, cut");
            }
        }
    }
}

/// Bytes at both ends of what RFC 3629 names, and ASCII.
const EDGES: [u8; 26] = [
    0x00, 0x41, 0x7F, 0x80, 0x8F, 0x90, 0x9F, 0xA0, 0xBF, 0xC0, 0xC1, 0xC2, 0xDF, 0xE0, 0xE1, 0xEC, 0xED, 0xEE, 0xEF,
    0xF0, 0xF1, 0xF3, 0xF4, 0xF5, 0xFE, 0xFF,
];

/// 4 to 12 bytes: edges; or text, perhaps with an edge in the place of one byte.
fn longer(rng: &mut Rng) -> Vec<u8> {
    let length = rng.between(4, 12) as usize;
    if rng.one_in(4) {
        return (0..length).map(|_| rng.pick(&EDGES)).collect();
    }
    let mut bytes = any_text(rng, length).into_bytes();
    if rng.one_in(2) {
        bytes[rng.index(length)] = rng.pick(&EDGES);
    }
    bytes
}

#[test]
fn the_model_agrees_on_longer_strings() {
    let rng = &mut Rng::new(5);
    let strings = 1_000_000;
    let texts: u32 = (0..strings).map(|_| u32::from(agreed(&longer(rng)))).sum();
    println!("{texts} of {strings} strings are text");
    assert!((strings / 4..strings * 3 / 4).contains(&texts));
}

#[test]
fn the_edges_are_what_they_are_said_to_be() {
    for edge in GOOD {
        assert!(agreed(edge) && fault(edge).is_none());
        assert_eq!(from_utf8(edge).expect("text").chars().count(), 1);
    }
    for (edge, named) in BAD {
        assert!(!agreed(edge), "{}", hex(edge));
        assert_eq!(fault(edge), Some(named), "{}", hex(edge));
    }
    assert!(Fault::ALL.iter().all(|fault| BAD.iter().any(|(_, named)| named == fault)));
    let rng = &mut Rng::new(6);
    assert!((0..10_000).all(|_| fault(&no_text(rng)).is_some()));
}

/// A table with the Pre-Active key 00000001.
fn table() -> Vec<u8> {
    let mut table = Table::blank(SMALL_COUNT);
    table.last = 1;
    table.places[0] = Record { serial: 1, state: 1, length: 128, mask: 4, ..Record::default() };
    table.encode()
}

/// Activate with these bytes as identifier text.
fn activate(bytes: &[u8]) -> Node {
    item(0x12, None, vec![raw_text(0x420094, bytes)])
}

/// An operation that is not supported, with these items in its payload.
fn ping(payload: Vec<Node>) -> Node {
    item(0x3B, None, payload)
}

/// The reasons of a batch under Continue, none for success, or the refusal; on every engine.
fn asked(items: Vec<Node>) -> Result<Vec<Option<u32>>, Refusal> {
    answered(Case::new(request(Some(1), items).encode(), table()).run_all(&engines(), "text"))
}

fn answered(effect: Effect) -> Result<Vec<Option<u32>>, Refusal> {
    let length = effect.served?;
    Ok(results(&effect.out[..length]).into_iter().map(|(_, reason)| reason).collect())
}

const NOT_FOUND: Option<u32> = Some(ObjectNotFound as u32);
const NOT_SUPPORTED: Option<u32> = Some(OperationNotSupported as u32);

/// Bytes alone; before, behind and between digits; and with digits before or behind that make it eight bytes.
fn among_digits(bytes: &[u8]) -> Vec<Vec<u8>> {
    let digits = |number: usize| b"0".repeat(number);
    let rest = 8_usize.saturating_sub(bytes.len());
    [(0, 0), (3, 0), (0, 3), (2, 2), (rest, 0), (0, rest), (8, 0), (0, 8)]
        .map(|(before, behind)| [&digits(before), bytes, &digits(behind)].concat())
        .to_vec()
}

#[test]
fn an_identifier_of_each_edge_is_not_found_or_malformed() {
    for edge in GOOD {
        for text in among_digits(edge) {
            assert_eq!(asked(vec![activate(&text)]), Ok(vec![NOT_FOUND]), "{}", hex(&text));
        }
    }
    for (edge, _) in BAD {
        for text in among_digits(edge) {
            assert_eq!(asked(vec![activate(&text)]), Err(Refusal::Malformed), "{}", hex(&text));
        }
    }
}

/// The padding of an item, zeros or not, and what follows an item do not finish a character.
#[test]
fn a_character_cut_by_the_length_of_its_item_is_malformed() {
    for edge in &GOOD[2..] {
        for cut in 1..edge.len() {
            for before in 0..=16 {
                let text = [&b"0".repeat(before), &edge[..cut]].concat();
                assert_eq!(asked(vec![activate(&text)]), Err(Refusal::Malformed), "{}", hex(&text));
            }
            let mut message = request(None, vec![activate(edge)]).encode();
            let length = message.len() - 9;
            assert_eq!(usize::from(message[length]), edge.len(), "the length of the last item");
            message[length] = cut as u8;
            let effect = Case::new(message, table()).run_all(&engines(), "text");
            assert_eq!(effect.served, Err(Refusal::Malformed), "{}, its end in the padding", hex(edge));
        }
    }
}

#[test]
fn all_strings_of_up_to_three_edges_are_read_as_the_standard_library_reads_them() {
    let engines = engines();
    let table = table();
    let longer = |strings: &[Vec<u8>]| -> Vec<Vec<u8>> {
        strings.iter().flat_map(|string| EDGES.map(|edge| [&string[..], &[edge]].concat())).collect()
    };
    let one = longer(&[vec![]]);
    let two = longer(&one);
    let three = longer(&two);
    for string in [one, two, three].concat() {
        let effect =
            Case::new(request(None, vec![activate(&string)]).encode(), table.clone()).run_all(&engines, "text");
        let expected = if from_utf8(&string).is_ok() { Ok(vec![NOT_FOUND]) } else { Err(Refusal::Malformed) };
        assert_eq!(answered(effect), expected, "{}", hex(&string));
    }
}

/// At every place of a text, so that no engine that takes several bytes at once may pass over it.
#[test]
fn each_edge_is_seen_wherever_it_stands() {
    for place in 0..=40 {
        let text = |edge: &[u8]| raw_text(0x420020, &[&b"x".repeat(place), edge, &b"x".repeat(40 - place)].concat());
        let good = ping(GOOD.map(text).to_vec());
        assert_eq!(asked(vec![good]), Ok(vec![NOT_SUPPORTED]), "after {place}");
        for (edge, _) in BAD {
            assert_eq!(asked(vec![ping(vec![text(edge)])]), Err(Refusal::Malformed), "{} after {place}", hex(edge));
        }
    }
}

/// Texts about as long as a request allows, with each edge that is no text before and behind them.
#[test]
fn long_texts_are_read_to_their_end() {
    for letters in ["x", "é", "€", "🔑", "aé€🔑"] {
        let whole = letters.repeat(3960 / letters.len()).into_bytes();
        let long = |bytes: &[u8]| asked(vec![ping(vec![raw_text(0x420020, bytes)])]);
        assert_eq!(long(&whole), Ok(vec![NOT_SUPPORTED]), "{letters}");
        for (edge, _) in BAD {
            assert_eq!(long(&[edge, &whole].concat()), Err(Refusal::Malformed), "{} before {letters}", hex(edge));
            assert_eq!(long(&[&whole, edge].concat()), Err(Refusal::Malformed), "{} behind {letters}", hex(edge));
        }
    }
}

/// In a payload down to depth 8, of an operation that is supported and of one that is not; and in the last item, too.
#[test]
fn what_is_no_text_is_malformed_wherever_it_stands() {
    for (text, well_formed) in [(&b"\xC3\xA9"[..], true), (b"\xC1\xBF", false), (b"\xC3", false)] {
        let nested =
            |depth: usize| (4..depth).fold(raw_text(0x420020, text), |inner, _| structure(0x420020, vec![inner]));
        for depth in 4..=8 {
            for (operation, reason) in [(0x3B, OperationNotSupported), (0x12, InvalidField)] {
                let items =
                    vec![item(0x12, None, target(Some("00000001"))), item(operation, None, vec![nested(depth)])];
                let expected = if well_formed { Ok(vec![None, Some(reason as u32)]) } else { Err(Refusal::Malformed) };
                assert_eq!(asked(items), expected, "{} at depth {depth}", hex(text));
            }
        }
    }
}

/// An item of each operation that takes an identifier, with this one.
fn every_operation_on(name: &str) -> Vec<Node> {
    let alone = [0x04, 0x0A, 0x0B, 0x12, 0x14].map(|operation| item(operation, None, target(Some(name))));
    let others = [item(0x11, None, allocation(Some(name), 1)), item(0x13, None, revocation(Some(name), 1))];
    alone.into_iter().chain(others).collect()
}

/// Nothing but the reason: Stop ends the batch there, and Continue goes on.
#[test]
fn identifiers_in_other_letters_are_not_found_and_the_batch_goes_on() {
    let names =
        ["ключ", "κλειδί", "clé", "鍵", "🔑🔑", "０００００００１", "\u{FEFF}00000001", "00000001\0", "\n", "é\u{301}"];
    for name in names {
        for lost in every_operation_on(name) {
            let items = vec![lost, item(0x12, None, target(Some("00000001")))];
            let under = |option| {
                let request = request(option, items.clone()).encode();
                answered(Case::new(request, table()).run_all(&engines(), "text"))
            };
            assert_eq!(under(Some(1)), Ok(vec![NOT_FOUND, None]), "{name}");
            assert_eq!(under(Some(2)), Ok(vec![NOT_FOUND]), "{name}");
            assert_eq!(under(None), Ok(vec![NOT_FOUND]), "{name}");
        }
    }
}
