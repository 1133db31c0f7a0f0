//! Text in other letters, and bytes that are no text: the edges of RFC 3629, and any others.

use super::rng::Rng;
use Fault::*;

/// The first and the last character of each form that RFC 3629, section 4, lists.
pub const GOOD: [&[u8]; 18] = [
    b"\x00",
    b"\x7F",
    b"\xC2\x80",
    b"\xDF\xBF",
    b"\xE0\xA0\x80",
    b"\xE0\xBF\xBF",
    b"\xE1\x80\x80",
    b"\xEC\xBF\xBF",
    b"\xED\x80\x80",
    b"\xED\x9F\xBF",
    b"\xEE\x80\x80",
    b"\xEF\xBF\xBF",
    b"\xF0\x90\x80\x80",
    b"\xF0\xBF\xBF\xBF",
    b"\xF1\x80\x80\x80",
    b"\xF3\xBF\xBF\xBF",
    b"\xF4\x80\x80\x80",
    b"\xF4\x8F\xBF\xBF",
];

/// In what way bytes are no text.
#[derive(Clone, Copy, Debug, PartialEq, Eq, PartialOrd, Ord)]
pub enum Fault {
    LoneTail,
    OverlongOfTwo,
    OverlongOfThree,
    OverlongOfFour,
    Surrogate,
    Above10FFFF,
    F5ToFF,
    /// Cut by the item's length, with zeros behind it that pad the item.
    CutBeforePadding,
    /// Cut by the item's length, with no padding behind it.
    CutAtMultipleOf8,
    MissingTail,
}

impl Fault {
    pub const ALL: [Fault; 10] = [
        LoneTail,
        OverlongOfTwo,
        OverlongOfThree,
        OverlongOfFour,
        Surrogate,
        Above10FFFF,
        F5ToFF,
        CutBeforePadding,
        CutAtMultipleOf8,
        MissingTail,
    ];
}

/// Just what no character is: the edges, each with its fault if nothing stands before it or behind it.
pub const BAD: [(&[u8], Fault); 32] = [
    (b"\x80", LoneTail),
    (b"\xBF", LoneTail),
    (b"\xC0\x80", OverlongOfTwo),
    (b"\xC1\xBF", OverlongOfTwo),
    (b"\xE0\x80\x80", OverlongOfThree),
    (b"\xE0\x9F\xBF", OverlongOfThree),
    (b"\xF0\x80\x80\x80", OverlongOfFour),
    (b"\xF0\x8F\xBF\xBF", OverlongOfFour),
    (b"\xED\xA0\x80", Surrogate),
    (b"\xED\xBF\xBF", Surrogate),
    (b"\xF4\x90\x80\x80", Above10FFFF),
    (b"\xF4\xBF\xBF\xBF", Above10FFFF),
    (b"\xF5\x80\x80\x80", F5ToFF),
    (b"\xF7\xBF\xBF\xBF", F5ToFF),
    (b"\xF8\x88\x80\x80\x80", F5ToFF),
    (b"\xFE", F5ToFF),
    (b"\xFF", F5ToFF),
    (b"\xC2", CutBeforePadding),
    (b"\xDF", CutBeforePadding),
    (b"\xE2\x82", CutBeforePadding),
    (b"\xF0\x9F\x98", CutBeforePadding),
    (b"0000000\xC2", CutAtMultipleOf8),
    (b"000000\xE2\x82", CutAtMultipleOf8),
    (b"00000\xF0\x9F\x98", CutAtMultipleOf8),
    (b"\xC2\x41", MissingTail),
    (b"\xC2\x7F", MissingTail),
    (b"\xC2\xC0", MissingTail),
    (b"\xC2\x00", MissingTail),
    (b"\xE2\x82\x7F", MissingTail),
    (b"\xE2\x82\xC0", MissingTail),
    (b"\xF0\x9F\x98\x7F", MissingTail),
    (b"\xF0\x9F\x98\xC0", MissingTail),
];

/// In what way bytes are no text, by what stands where the standard library stops reading them; none if they are text.
pub fn fault(bytes: &[u8]) -> Option<Fault> {
    let stop = std::str::from_utf8(bytes).err()?;
    let fault = match bytes[stop.valid_up_to()..] {
        [0x80..=0xBF, ..] => LoneTail,
        [0xC0..=0xC1, ..] => OverlongOfTwo,
        [0xE0, 0x80..=0x9F, ..] => OverlongOfThree,
        [0xF0, 0x80..=0x8F, ..] => OverlongOfFour,
        [0xED, 0xA0..=0xBF, ..] => Surrogate,
        [0xF4, 0x90..=0xBF, ..] => Above10FFFF,
        [0xF5..=0xFF, ..] => F5ToFF,
        _ if stop.error_len().is_some() => MissingTail,
        _ if bytes.len().is_multiple_of(8) => CutAtMultipleOf8,
        _ => CutBeforePadding,
    };
    Some(fault)
}

/// Letters of one to four bytes, with some that look like digits, and some that are not seen.
const LETTERS: [&str; 18] =
    ["0", "1", "A", "F", "a", " ", "\n", "\u{1B}", "ñ", "é", "λ", "ж", "А", "鍵", "０", "ﬀ", "\u{FEFF}", "🔑"];

/// Text of so many bytes, in any letters; many are edges.
pub fn any_text(rng: &mut Rng, length: usize) -> String {
    let mut text = Vec::new();
    while text.len() < length {
        let letter = if rng.one_in(2) { rng.pick(&GOOD) } else { rng.pick(&LETTERS).as_bytes() };
        if text.len() + letter.len() <= length {
            text.extend(letter);
        }
    }
    String::from_utf8(text).expect("letters are text")
}

/// Bytes that are no text, in any of the ways, alone or with text before and behind.
pub fn no_text(rng: &mut Rng) -> Vec<u8> {
    let fault = rng.pick(&Fault::ALL);
    let wrong = no_character(rng, fault);
    let before = match fault {
        CutAtMultipleOf8 => 8 - wrong.len(),
        _ => rng.index(8 - wrong.len()),
    };
    let behind = match fault {
        CutBeforePadding | CutAtMultipleOf8 => 0,
        MissingTail => rng.between(1, 6),
        _ => rng.below(6),
    };
    [any_text(rng, before).as_bytes(), &wrong, any_text(rng, behind as usize).as_bytes()].concat()
}

/// What no character is, where nothing, or no tail, follows it.
fn no_character(rng: &mut Rng, fault: Fault) -> Vec<u8> {
    let [second, third, fourth] = [(); 3].map(|_| byte(rng, 0x80, 0xBF));
    match fault {
        LoneTail => vec![second],
        OverlongOfTwo => vec![byte(rng, 0xC0, 0xC1), second],
        OverlongOfThree => vec![0xE0, byte(rng, 0x80, 0x9F), third],
        OverlongOfFour => vec![0xF0, byte(rng, 0x80, 0x8F), third, fourth],
        Surrogate => vec![0xED, byte(rng, 0xA0, 0xBF), third],
        Above10FFFF => vec![0xF4, byte(rng, 0x90, 0xBF), third, fourth],
        F5ToFF => vec![byte(rng, 0xF5, 0xFF), second, third, fourth],
        CutBeforePadding | CutAtMultipleOf8 | MissingTail => {
            let mut bytes = rng.pick(&GOOD[2..]).to_vec();
            bytes.truncate(rng.between(1, bytes.len() as u64 - 1) as usize);
            bytes
        }
    }
}

/// A byte from `low` to `high`: one of these two mostly.
fn byte(rng: &mut Rng, low: u8, high: u8) -> u8 {
    let any = rng.between(low.into(), high.into()) as u8;
    rng.pick(&[low, high, any])
}
