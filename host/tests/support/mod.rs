//! What the tests share: the engines, cases from a seed, and calls whose every effect can be compared.

#![allow(dead_code)]

pub mod above;
pub mod coverage;
pub mod holders;
pub mod limits;
pub mod names;
pub mod requests;
pub mod rng;
pub mod tables;
pub mod texts;
pub mod undo;

use junctionmoth::model::table::Table;
use junctionmoth::{model, ordinary, program, Engine, Served, LARGE_SIZE, LINKED, ROOM, SMALL_SIZE, STRIP};
use rng::Rng;

/// The engines that every case is run on: the model first; the proved one as the archive, or as the program where no
/// archive is linked.
pub fn engines() -> Vec<(&'static str, Engine)> {
    all_engines().into_iter().take(3).collect()
}

/// The same with the program in any case, which is slower than a call.
pub fn all_engines() -> Vec<(&'static str, Engine)> {
    let mut engines: Vec<(&str, Engine)> = vec![("model", model::serve), ("ordinary", ordinary::serve)];
    engines.extend(LINKED.map(|archive| ("proved archive", archive)));
    engines.push(("proved program", program::serve));
    engines
}

/// The inputs of a call.
#[derive(Clone)]
pub struct Case {
    pub request: Vec<u8>,
    pub table: Vec<u8>,
    pub fresh: Vec<u8>,
    pub clock: i64,
    pub room: usize,
    /// What the second buffer holds before the call.
    pub second: Vec<u8>,
}

/// All that a call gives or changes.
#[derive(Clone, PartialEq)]
pub struct Effect {
    pub served: Served,
    pub table: Vec<u8>,
    pub out: Vec<u8>,
    /// What the second buffer holds.
    pub undo: Vec<u8>,
}

impl Case {
    /// A call as the bench program makes it: a strip of the bytes 0 to 255 twice, clock 1, 6,360 bytes of room, and a second
    /// buffer of the table's size.
    pub fn new(request: Vec<u8>, table: Vec<u8>) -> Case {
        let fresh = (0..STRIP).map(|at| at as u8).collect();
        let second = (0..table.len()).map(|at| (at as u8).wrapping_mul(29) ^ 0xEE).collect();
        Case { request, table, fresh, clock: 1, room: ROOM, second }
    }

    /// A call on the table that this one left, as large, with another strip.
    pub fn after(&self, rng: &mut Rng, effect: &Effect) -> Case {
        let left = Table::decode(&effect.table);
        let request = requests::new_key(rng, &left).encode();
        let (fresh, second) = (rng.bytes(STRIP), any_bytes(rng, effect.table.len()));
        Case { request, table: effect.table.clone(), fresh, clock: any_clock(rng, left.latest), room: ROOM, second }
    }

    /// Any case at all.
    pub fn any(rng: &mut Rng) -> Case {
        let table = tables::sound(rng);
        let request = any_request(rng, &table);
        let fresh = if rng.one_in(60) { rng.pick(&[0, 1, 256, 511, 513, 1024]) } else { STRIP };
        let clock = any_clock(rng, table.latest);
        let table = any_table(rng, &table);
        let second = any_second(rng, table.len());
        Case {
            request,
            table,
            second,
            fresh: rng.bytes(fresh),
            clock,
            room: if rng.one_in(60) {
                rng.pick(&[0, 1, 152, ROOM - 1])
            } else {
                rng.pick(&[ROOM, ROOM, ROOM + 1, 8192])
            },
        }
    }

    /// Makes the call on copies; the output is filled with a pattern before.
    pub fn run(&self, engine: Engine) -> Effect {
        let mut table = self.table.clone();
        let mut out = pattern(self.room);
        let mut undo = self.second.clone();
        let served = engine(&self.request, &mut table, &self.fresh, self.clock, &mut out, &mut undo);
        Effect { served, table, out, undo }
    }

    /// Makes the call on every engine; all must have the same effect, and a refusal none but its number.
    pub fn run_all(&self, engines: &[(&str, Engine)], name: &str) -> Effect {
        let (first, model) = engines[0];
        let expected = self.run(model);
        if expected.served.is_err() {
            let (table, out) = (&expected.table == &self.table, expected.out == pattern(self.room));
            assert!(table && out && expected.undo == self.second, "{name}: a refusal left a trace");
        }
        for &(other, engine) in &engines[1..] {
            let effect = self.run(engine);
            if effect != expected {
                self.report(name, &[(first, &expected), (other, &effect)]);
            }
        }
        expected
    }

    fn report(&self, name: &str, effects: &[(&str, &Effect)]) -> ! {
        println!("{name}: engines differ; clock {}, room {}", self.clock, self.room);
        println!("request {}\ntable {}\nfresh {}", hex(&self.request), hex(&self.table), hex(&self.fresh));
        println!("second buffer {}", hex(&self.second));
        for (engine, effect) in effects {
            let length = effect.served.unwrap_or(0).min(effect.out.len());
            println!("{engine}: {:?}, response {}", effect.served, hex(&effect.out[..length]));
            println!("{engine}: table changed at {:?}", changes(&self.table, &effect.table));
            println!("{engine}: second buffer other than its table at {:?}", changes(&effect.table, &effect.undo));
            println!(
                "{engine}: output changed past the response at {:?}",
                changes(&pattern(self.room)[length..], &effect.out[length..])
            );
        }
        panic!("{name}: engines differ");
    }
}

/// A clock: around the latest seen, at the edges, or any; below 1 now and then.
pub fn any_clock(rng: &mut Rng, latest: i64) -> i64 {
    let any = rng.next() as i64;
    if rng.one_in(12) {
        return rng.pick(&[0, 0, -1, -latest, i64::MIN, any | i64::MIN]);
    }
    let step = rng.between(1, 30) as i64;
    let clock = match rng.below(10) {
        0 => 1,
        1 => step,
        2 => latest,
        3 => latest - 1,
        4 => latest - step,
        5 => latest.saturating_add(1),
        6 | 7 => latest.saturating_add(step),
        8 => rng.pick(&[i64::MAX, i64::MAX - step]),
        _ => any & i64::MAX,
    };
    clock.max(1)
}

fn any_request(rng: &mut Rng, table: &Table) -> Vec<u8> {
    let mut bytes = match rng.below(100) {
        0..=45 => requests::accepted(rng, table).encode(),
        46..=51 => requests::all_or_none(rng, table).encode(),
        52..=56 => requests::about_a_name(rng, table).encode(),
        57..=59 => requests::with_text(rng, table).encode(),
        60..=62 => requests::rekey(rng, table).encode(),
        63..=64 => requests::renewals(rng, table).encode(),
        65..=66 => requests::widest(rng, table).encode(),
        67..=80 => requests::edited(rng, table).encode(),
        81..=85 => requests::wrong_numbers(rng, table).encode(),
        86..=89 => requests::many_items(rng).encode(),
        90..=92 => requests::deep(rng).encode(),
        93..=96 => requests::large(rng).encode(),
        97 => return Vec::new(),
        98 => return odd_sized(rng),
        _ => {
            let length = rng.index(200);
            return rng.bytes(length);
        }
    };
    if rng.one_in(8) {
        requests::damage(rng, &mut bytes);
    }
    bytes
}

/// Bytes that are no request, of an edge's size.
fn odd_sized(rng: &mut Rng) -> Vec<u8> {
    let length = rng.pick(&[1, 7, 8, 4095, 4096, 4097, 4098, 8192]);
    let mut bytes = rng.bytes(length);
    bytes[0] = 0x42;
    bytes
}

/// Sizes of tables: of none and of both counts, of some in between, of older tables, and a byte or eight off.
const SIZES: [usize; 20] =
    [0, 1, 8, 15, 16, 1040, 4112, 4624, 5648, 8192, 8207, 8208, 8209, 8216, 16400, 32783, 32784, 32785, 32792, 33792];

fn any_table(rng: &mut Rng, table: &Table) -> Vec<u8> {
    let mut bytes = table.encode();
    match rng.below(100) {
        0..=83 => {}
        84..=93 => return tables::broken(rng),
        94 => return tables::self_linked(rng),
        95..=97 => {
            let at = rng.index(bytes.len());
            bytes[at] ^= 1 << rng.below(8);
        }
        98 => bytes.resize(rng.pick(&SIZES), 0),
        _ => {
            let any = rng.bytes(bytes.len());
            bytes = rng.pick(&[any, vec![0; bytes.len()], vec![0xFF; bytes.len()]]);
        }
    }
    bytes
}

/// The most bytes of a second buffer: as many as the program holds.
pub const SECOND_MOST: usize = 33792;

/// A second buffer of any bytes, of the table's size, or of another now and then: of none, a byte off, or of either count.
fn any_second(rng: &mut Rng, size: usize) -> Vec<u8> {
    let wrong = [0, size.saturating_sub(1), (size + 1).min(SECOND_MOST), SMALL_SIZE, LARGE_SIZE];
    let length = if rng.one_in(16) { rng.pick(&wrong) } else { size };
    any_bytes(rng, length)
}

/// So many bytes, eight at a time.
fn any_bytes(rng: &mut Rng, length: usize) -> Vec<u8> {
    let mut bytes: Vec<u8> = (0..length.div_ceil(8)).flat_map(|_| rng.next().to_be_bytes()).collect();
    bytes.truncate(length);
    bytes
}

/// What the output holds before a call.
pub fn pattern(length: usize) -> Vec<u8> {
    (0..length).map(|at| (at as u8).wrapping_mul(13) ^ 0xA5).collect()
}

fn changes(before: &[u8], after: &[u8]) -> Vec<usize> {
    (0..before.len().min(after.len())).filter(|&at| before[at] != after[at]).collect()
}

pub fn hex(bytes: &[u8]) -> String {
    bytes.iter().map(|byte| format!("{byte:02X}")).collect()
}

/// The bytes that hex digits write; blanks are passed over.
pub fn unhex(digits: &str) -> Vec<u8> {
    let digits: Vec<char> = digits.chars().filter(|digit| !digit.is_whitespace()).collect();
    let value = |digit: char| digit.to_digit(16).expect("a hex digit") as u8;
    digits.chunks(2).map(|pair| value(pair[0]) << 4 | value(pair[1])).collect()
}
