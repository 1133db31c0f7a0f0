//! Identifier text, from 01: "the serial as 8 upper-case hex digits; any other text, and eight zeros, names no record".
//! Every byte at every position, eight bytes in other letters, and texts of other lengths, on tables that hold whatever a
//! wrong reading would find.

mod support;

use junctionmoth::message::{item, location, raw_text, request};
use junctionmoth::model::operations::{identifier, Reason};
use junctionmoth::model::table::{Name, Record, Table};
use junctionmoth::{Refusal, SMALL_COUNT};
use std::collections::BTreeSet;
use support::coverage::results;
use support::rng::Rng;
use support::texts::any_text;
use support::{engines, Case, Effect};

/// A table with a key for each of these serials.
fn table_of(serials: &BTreeSet<u32>) -> Vec<u8> {
    let mut table = Table::blank(SMALL_COUNT);
    table.last = *serials.last().expect("a serial");
    for (place, &serial) in serials.iter().enumerate() {
        table.places[place] = Record { serial, state: 2, length: 128, mask: 4, ..Record::default() };
    }
    table.encode()
}

/// Get Attributes with each of these texts as identifier, under Continue.
fn asked<T: AsRef<[u8]>>(texts: &[T], table: &[u8]) -> Case {
    let items = texts.iter().map(|text| item(0x0B, None, vec![raw_text(0x420094, text.as_ref())]));
    Case::new(request(Some(1), items.collect()).encode(), table.to_vec())
}

/// The identifier that a response shows, if it shows one.
fn shown(effect: &Effect) -> Option<Vec<u8>> {
    let response = &effect.out[..effect.served.ok()?];
    let head = [0x42, 0x00, 0x94, 0x07, 0, 0, 0, 8];
    let at = response.windows(8).position(|window| window == head)?;
    Some(response[at + 8..at + 16].to_vec())
}

/// Whether every item of a call was answered Object Not Found.
fn not_found(effect: &Effect) -> bool {
    let length = effect.served.expect("identifiers that are text are answered");
    results(&effect.out[..length]).into_iter().all(|(_, reason)| reason == Some(Reason::ObjectNotFound as u32))
}

/// The serials that differ from this one in one digit, and itself; 0 is none.
fn with_any_digit(serial: u32, position: usize) -> BTreeSet<u32> {
    let shift = 28 - 4 * position;
    (0..16).map(|digit| serial & !(15 << shift) | digit << shift).filter(|&serial| serial != 0).collect()
}

#[test]
fn every_byte_at_every_position() {
    let engines = engines();
    for serial in [0, 0x01234567, 0x89ABCDEF, 0xFFFFFFFF] {
        for position in 0..8 {
            let serials = with_any_digit(serial, position);
            let table = table_of(&serials);
            let mut found = BTreeSet::new();
            for byte in 0..=255 {
                let mut text = identifier(serial).into_bytes();
                text[position] = byte;
                let effect = asked(&[&text], &table).run_all(&engines, "identifiers");
                if byte >= 0x80 {
                    assert_eq!(effect.served, Err(Refusal::Malformed), "{byte:02X} alone is no text");
                } else if let Some(name) = shown(&effect) {
                    assert_eq!(name, text, "the key that is shown is the one that is named");
                    found.insert(text);
                } else {
                    assert!(not_found(&effect), "{byte:02X} is text");
                }
            }
            let named: BTreeSet<Vec<u8>> = serials.iter().map(|&serial| identifier(serial).into_bytes()).collect();
            assert_eq!(found, named, "every key is found by its text, and by no other");
        }
    }
}

/// Serials that differ from this one in two digits: the first of them one of four, and the second any.
fn with_two_digits(serial: u32, position: usize, four: u32) -> BTreeSet<u32> {
    let shift = 24 - 4 * position;
    (0..64).map(|digits| serial & !(0xFF << shift) | (64 * four + digits) << shift).collect()
}

/// Every text of eight bytes that is six digits and one letter of two bytes, on tables that together hold every key with
/// two digits in place of the letter.
#[test]
fn a_letter_of_two_bytes_is_no_two_digits() {
    let engines = engines();
    let serial = 0x1A2B3C4D;
    let digits = identifier(serial);
    for position in 0..7 {
        let around = |letter: char| format!("{}{letter}{}", &digits[..position], &digits[position + 2..]);
        let texts: Vec<String> = ('\u{80}'..='\u{7FF}').map(around).collect();
        assert!(texts.iter().all(|text| text.len() == 8));
        for table in (0..4).map(|four| table_of(&with_two_digits(serial, position, four))) {
            for texts in texts.chunks(16) {
                let effect = asked(texts, &table).run_all(&engines, "identifiers");
                assert!(not_found(&effect), "one of {texts:?} named a key");
            }
        }
    }
}

/// The serials that a careless reading could make of eight bytes.
fn careless_readings(text: &[u8]) -> BTreeSet<u32> {
    let readings: [fn(u8) -> Option<u32>; 4] = [
        // the lower half of a byte
        |byte| Some(u32::from(byte % 16)),
        // that and nine more, for a letter
        |byte| Some(u32::from(byte.wrapping_add(9) % 16)),
        // the same by the bit that tells letters from 0 to 9
        |byte| Some(u32::from(byte + 9 * (byte / 64 % 2)) % 16),
        // what is left without the highest bit, in either case
        |byte| char::from(byte % 128).to_digit(16),
    ];
    let serial = |reading: &fn(u8) -> Option<u32>| -> Option<u32> {
        text.iter().try_fold(0, |serial, &byte| Some(serial << 4 | reading(byte)?))
    };
    readings.iter().filter_map(serial).filter(|&serial| serial != 0).collect()
}

/// Four letters of two bytes that would be eight digits without their highest bits.
fn digits_with_highest_bit(rng: &mut Rng) -> String {
    let lead_and_tail = |rng: &mut Rng| (rng.between(0x02, 0x06) << 6 | rng.between(0x30, 0x39)) as u32;
    (0..4).map(|_| char::from_u32(lead_and_tail(rng)).expect("a letter")).collect()
}

#[test]
fn eight_bytes_in_other_letters_name_nothing() {
    let engines = engines();
    let rng = &mut Rng::new(8);
    for _ in 0..2000 {
        let text = if rng.one_in(2) { any_text(rng, 8) } else { digits_with_highest_bit(rng) };
        assert_eq!(text.len(), 8);
        let mut serials = careless_readings(text.as_bytes());
        serials.insert(1);
        let effect = asked(&[&text], &table_of(&serials)).run_all(&engines, "identifiers");
        assert!(not_found(&effect), "{text:?} named a key");
    }
}

#[test]
fn other_lengths_name_nothing() {
    let engines = engines();
    for serial in [0x89ABCDEF_u32, 0x00000001, 0x10000000, 0xFFFFFFFF] {
        let digits = identifier(serial);
        // as a text of other length could be read: its digits as a number, or with zeros behind it
        let cut =
            (0..8).flat_map(|drop| [serial >> (4 * drop), serial << (4 * drop), serial << (4 * drop) >> (4 * drop)]);
        let serials: BTreeSet<u32> = cut.filter(|&serial| serial != 0).collect();
        let table = table_of(&serials);
        let whole = asked(&[&digits], &table).run_all(&engines, "identifiers");
        assert_eq!(shown(&whole), Some(digits.clone().into_bytes()), "eight digits name the key");
        for length in (0..=7).chain(9..=32).chain([63, 64, 65, 255, 256, 257, 264, 1032]) {
            for text in texts_of(&digits, length) {
                let effect = asked(&[text], &table).run_all(&engines, "identifiers");
                assert!(not_found(&effect), "a text of {length} bytes names nothing");
            }
        }
    }
}

/// Texts of this length, which is not eight: the front or the end of eight digits; or those with zeros, blanks or zero
/// bytes before or behind them, or over and over.
fn texts_of(digits: &str, length: usize) -> Vec<Vec<u8>> {
    let mut texts = vec![digits.bytes().cycle().take(length).collect()];
    if length < 8 {
        texts.push(digits.as_bytes()[8 - length..].to_vec());
    }
    for filler in ["0", " ", "\0"] {
        let rest = filler.repeat(length.saturating_sub(8));
        if !rest.is_empty() {
            texts.push(format!("{digits}{rest}").into_bytes());
            texts.push(format!("{rest}{digits}").into_bytes());
        }
    }
    texts
}

/// Names that are the texts of serials, of a key or of none, and identifiers that are names.
#[test]
fn a_name_is_no_identifier_and_an_identifier_no_name() {
    let engines = engines();
    let mut table = Table::decode(&table_of(&BTreeSet::from([1, 2, 3, 5])));
    for (place, name) in ["", "00000001", "00000004", "pump"].into_iter().enumerate() {
        table.places[place].name = Name::of(name.as_bytes());
    }
    let table = table.encode();
    for (text, serial, named) in [
        ("00000001", Some(1), Some(2)),
        ("00000002", Some(2), None),
        ("00000004", None, Some(3)),
        ("pump", None, Some(5)),
    ] {
        let digits = |serial: Option<u32>| serial.map(|serial| identifier(serial).into_bytes());
        let effect = asked(&[text], &table).run_all(&engines, "identifiers");
        assert_eq!(shown(&effect), digits(serial), "{text} as an identifier");
        let locate = request(None, vec![item(0x08, None, location(text))]).encode();
        let effect = Case::new(locate, table.clone()).run_all(&engines, "identifiers");
        assert_eq!(shown(&effect), digits(named), "{text} as a name");
    }
}
