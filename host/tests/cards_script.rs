//! The script of the program `cards` on every engine that is there: its stored answers were worked out from the
//! papers, and each engine has to give them. And that of the program `cards_ttlv` on the model's TTLV.
//! The commands are those of the crate `cardslib`, written down here once more.

mod support;

use junctionmoth::model::ttlv;
use junctionmoth::{blank_table, table_size, Engine, LARGE_COUNT, LARGE_SIZE, ROOM, SMALL_COUNT, STRIP};
use support::coverage::Coverage;
use support::{engines, hex, Case, Effect, SECOND_MOST};

const SCRIPT: &str = include_str!("../../crates/cards/stdin");
const ANSWERS: &str = include_str!("../../crates/cards/stdout");
const TTLV_SCRIPT: &str = include_str!("../../crates/cards_ttlv/stdin");
const TTLV_ANSWERS: &str = include_str!("../../crates/cards_ttlv/stdout");

/// Bytes of output that there are to lend.
const ROOM_MOST: usize = 8192;
/// Bytes of strip that there are to lend.
const STRIP_MOST: usize = 1024;
/// Bytes of the longest request that a line has.
const REQUEST_MOST: usize = 8192;

/// How a request is served: the clock, and how many bytes of output, strip, table and second buffer are lent, of all that
/// there are.
struct Setting {
    clock: i64,
    room: usize,
    strip: usize,
    size: usize,
    undo: usize,
}

/// The bench: an engine, the table, the output, the second buffer, the setting, and what occurred so far.
struct Bench {
    engine: Engine,
    table: Vec<u8>,
    out: Vec<u8>,
    second: Vec<u8>,
    setting: Setting,
    coverage: Coverage,
}

fn usual(count: usize) -> Setting {
    let size = table_size(count);
    Setting { clock: 1, room: ROOM, strip: STRIP, size, undo: size }
}

impl Bench {
    fn new(engine: Engine) -> Bench {
        let (table, out, second) = (Vec::new(), vec![0xFF; ROOM_MOST], vec![0xEE; SECOND_MOST]);
        let (setting, coverage) = (usual(SMALL_COUNT), Coverage::default());
        let mut bench = Bench { engine, table, out, second, setting, coverage };
        bench.blank(SMALL_COUNT);
        bench
    }

    /// What a line prints: one line or nothing.
    fn line(&mut self, line: &str) -> String {
        if line.is_empty() || line.starts_with('#') {
            return String::new();
        }
        self.carry_out(line).unwrap_or_else(|| format!("bad line: {line}\n"))
    }

    /// What a command prints; nothing at all if it is no command.
    fn carry_out(&mut self, line: &str) -> Option<String> {
        let (verb, rest) = line.split_once(' ').unwrap_or((line, ""));
        match verb {
            "blank" if rest.is_empty() => self.blank(SMALL_COUNT),
            "blank" => self.blank(number(rest).filter(|count| [SMALL_COUNT, LARGE_COUNT].contains(count))?),
            "put" => self.put(rest)?,
            "clock" => self.setting.clock = clock(rest)?,
            "room" => self.setting.room = number(rest)?,
            "strip" => self.setting.strip = number(rest)?,
            "size" => self.setting.size = number(rest)?,
            "undo" => self.setting.undo = number(rest)?,
            "request" => return self.request(rest),
            "table" => return show(rest, &self.table),
            "output" => return show(rest, &self.out),
            "second" => return show(rest, &self.second),
            _ => return None,
        }
        Some(String::new())
    }

    /// A blank table of so many places, at the front of the bytes that there are, and zeros behind it.
    fn blank(&mut self, count: usize) {
        self.table = blank_table(count);
        self.table.resize(LARGE_SIZE, 0);
        self.out.fill(0xFF);
        self.second.fill(0xEE);
        self.setting = usual(count);
    }

    fn put(&mut self, rest: &str) -> Option<()> {
        let (at, digits) = rest.split_once(' ')?;
        let (at, bytes) = (number(at)?, bytes(digits, LARGE_SIZE)?);
        let end = at.checked_add(bytes.len())?;
        self.table.get_mut(at..end).filter(|_| !bytes.is_empty())?.copy_from_slice(&bytes);
        Some(())
    }

    fn request(&mut self, rest: &str) -> Option<String> {
        let (name, digits) = rest.split_once(": ")?;
        let request = bytes(digits, REQUEST_MOST)?;
        Some(format!("{name}: {}\n", self.serve(request)))
    }

    /// Serves a request by the setting: the response, or the refusal, or what there is too little of.
    fn serve(&mut self, request: Vec<u8>) -> String {
        let Setting { clock, room, strip, size, undo } = self.setting;
        for (name, lent, most) in [
            ("size", size, LARGE_SIZE),
            ("strip", strip, STRIP_MOST),
            ("room", room, ROOM_MOST),
            ("undo", undo, SECOND_MOST),
        ] {
            if lent > most {
                return format!("no such {name}");
            }
        }
        let fresh: Vec<u8> = (0..strip).map(|at| at as u8).collect();
        let second = self.second[..undo].to_vec();
        let case = Case { request, table: self.table[..size].to_vec(), fresh, clock, room, second };
        let (table, out, second) = (&mut self.table[..size], &mut self.out[..room], &mut self.second[..undo]);
        let served = (self.engine)(&case.request, table, &case.fresh, clock, out, second);
        let effect = Effect { served, table: table.to_vec(), out: out.to_vec(), undo: second.to_vec() };
        self.coverage.count(&case, &effect);
        match served {
            Ok(length) => hex(&effect.out[..length]),
            Err(refusal) => refusal.to_string(),
        }
    }
}

/// A decimal number: digits alone.
fn number(digits: &str) -> Option<usize> {
    digits.bytes().all(|digit| digit.is_ascii_digit()).then(|| digits.parse().ok())?
}

/// A decimal number that may be negative; there is no -0.
fn clock(digits: &str) -> Option<i64> {
    let bare = digits.strip_prefix('-').unwrap_or(digits);
    (number(bare).is_some() && digits != "-0").then(|| digits.parse().ok())?
}

/// Pairs of upper-case hex digits, with blanks between them where one likes; at most so many.
fn bytes(digits: &str, most: usize) -> Option<Vec<u8>> {
    let is_digit = |digit: u8| digit.is_ascii_digit() || (b'A'..=b'F').contains(&digit);
    let words = digits.split(' ');
    if !words.clone().all(|word| word.len() % 2 == 0 && word.bytes().all(is_digit)) {
        return None;
    }
    Some(support::unhex(digits)).filter(|bytes| bytes.len() <= most)
}

/// `NAME: OFFSET LENGTH`: these bytes as a line.
fn show(rest: &str, bytes: &[u8]) -> Option<String> {
    let (name, span) = rest.split_once(": ")?;
    let (at, length) = span.split_once(' ')?;
    let at = number(at)?;
    let end = at.checked_add(number(length)?)?;
    Some(format!("{name}: {}\n", hex(bytes.get(at..end)?)))
}

#[test]
fn every_engine_gives_the_stored_answers() {
    for (name, engine) in engines() {
        let mut bench = Bench::new(engine);
        let printed: String = SCRIPT.lines().map(|line| bench.line(line)).collect();
        for (ours, stored) in printed.lines().zip(ANSWERS.lines()) {
            assert_eq!(ours, stored, "{name}");
        }
        assert_eq!(printed.lines().count(), ANSWERS.lines().count(), "{name}");
    }
}

/// Each refusal, each operation with success and each reason, each rule of soundness, each change of state.
#[test]
fn the_script_leaves_nothing_out() {
    let (_, engine) = engines()[0];
    let mut bench = Bench::new(engine);
    for line in SCRIPT.lines() {
        bench.line(line);
    }
    let missing = bench.coverage.report();
    assert!(missing.is_empty(), "{missing:#?}");
}

/// What a line of the TTLV script prints: whether its bytes are an item, which is written as the same bytes again.
fn ttlv_line(line: &str) -> String {
    let card = line.split_once(": ").and_then(|(name, digits)| Some((name, bytes(digits, REQUEST_MOST)?)));
    match card.map(|(name, bytes)| (name, ttlv::read(&bytes).map(|item| ttlv::write(&item) == bytes))) {
        Some((name, Some(true))) => format!("{name}: read, same"),
        Some((name, Some(false))) => format!("{name}: read, not same"),
        Some((name, None)) => format!("{name}: malformed"),
        None => format!("bad line: {line}"),
    }
}

#[test]
fn the_model_gives_the_stored_answers_on_ttlv() {
    let printed = TTLV_SCRIPT.lines().filter(|line| !line.starts_with('#')).map(ttlv_line);
    assert_eq!(printed.collect::<Vec<_>>(), TTLV_ANSWERS.lines().collect::<Vec<_>>());
}
