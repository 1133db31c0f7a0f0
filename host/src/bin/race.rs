//! The race: the proved engine, linked, against the ordinary one, in one run on one machine, which is an x86-64.
//! Prints nanoseconds a call and their ratio. What is timed, and how buffers are restored, is said in its first lines.

use junctionmoth::message::{
    allocation, byte_string, create, create_with, item, location, name, raw_text, request, target, Node,
};
use junctionmoth::model::operations::identifier;
use junctionmoth::model::table::{Name, Record, Table};
use junctionmoth::{ordinary, Engine, Served, LARGE_COUNT, LINKED, ROOM, SMALL_COUNT, SMALL_SIZE, STRIP};
use std::hint::black_box;
use std::time::Instant;

const ROUNDS: usize = 301;
const CALLS: u32 = 50;

/// A call to be timed: a request on a table at a clock.
struct Scene {
    name: String,
    request: Vec<u8>,
    table: Vec<u8>,
    clock: i64,
}

/// The buffers of a call.
struct Buffers {
    table: Vec<u8>,
    fresh: Vec<u8>,
    out: Vec<u8>,
    undo: Vec<u8>,
}

/// The proved engine, and nanoseconds for restoring a small table and a large one.
struct Course {
    proved: Engine,
    small: f64,
    large: f64,
}

const METHOD: &str = "\
Before each call the table is restored by copying its 8,208 bytes, or 32,784 of a large one, from a kept one; the time of
that copy, measured in rounds of its own, is taken off. Output and second buffer are not restored: no engine reads what
they hold before, and a call writes its response whole. A table has 64 places where it is not called large.
";

const UNDO: &str = "\
Undo: 16 items under Stop and the same under Undo, on half full tables: all of them succeed (passes), or the last one does
not (fails). Under Undo the table is copied into the second buffer, and no answer is written before it is known whether an
item fails. The last column counts the items that succeed and stay done.";

const SOUNDNESS: &str = "\
Soundness check: an empty request is refused with 4 once the check has passed and before anything else is looked at, so
the time of that refusal is the time of the check. Of the ordinary engine the check is also called by itself.";

const DATES: &str = "\
Dates: 64 Pre-Active keys, each with an activation date that is ahead (nothing is due) or has come (64 become Active
before the first item). The difference is what making the changes costs; looking for them is in both.";

const NAMES: &str = "\
Names: 64 keys, of which the last 16 are destroyed, with names of 32 bytes that differ in their last two. The check of
such a table is in each line, and with it the comparison of every two names.";

const LARGE: &str = "\
Large tables, of 256 places: one Create, which goes to the lowest place that is left, and Get Attributes of the 16 keys at
the end (on the empty table of none), among keys without names and with names. The check of the table is in each line.";

const IDENTIFIER: &str = "\
Identifier text: nanoseconds for turning one text into a serial, read off whole calls. A call is 16 Activate items under
Continue on the blank table, each with a text of its own; all of them answer Object Not Found. A text of seven digits is
not read, eight zeros are read and not searched for, 00000001 is searched for. So reading is the difference to seven
digits, divided by 16; the search is the difference of 00000001 to eight zeros, and it is taken off where a text names a
serial. All texts are made anew for each round, so that no engine meets one for the second time.";

const TEXT: &str = "\
Text: nanoseconds for seeing that one Text String is UTF-8, read off whole calls. A call is one item of an operation that
is not supported, with as many Text Strings of one length in its payload as a request holds. The same bytes as Byte
Strings are not looked at: the difference of the two calls, divided by the number of texts, is the reading. All texts are
made anew for each round. The last column is the standard library's from_utf8 on the same texts by itself: it says how
well the differences tell it, since the ordinary engine has nothing else for them.";

const CONTROL: &str = "\
Control: the ordinary engine in both columns, to show how far a ratio strays by chance.";

fn main() {
    let Some(proved) = LINKED else {
        eprintln!("There is no race here: it needs the proved engine linked, and the archive links on x86-64 alone.");
        eprintln!("A program behind pipes would be timed with its pipes, which says nothing of the engine.");
        std::process::exit(2);
    };
    if cfg!(debug_assertions) {
        println!("This is no release build: its times say nothing. Use cargo run --release --bin race");
    }
    println!("Nanoseconds a call, as in the fastest of {ROUNDS} rounds of {CALLS} calls, the engines taking turns.");
    println!("{METHOD}");
    println!("{:44} {:>9} {:>9} {:>6}  items that succeed", "", "proved", "ordinary", "ratio");
    let restore = |count| fastest((0..ROUNDS).map(|_| restoring(&full(count))).collect());
    let course = Course { proved, small: restore(SMALL_COUNT), large: restore(LARGE_COUNT) };
    for scene in scenes() {
        course.run(&scene);
    }
    dates(&course);
    names(&course);
    large(&course);
    undo(&course);
    soundness(&course);
    identifiers(proved);
    texts(proved);
    control(course.small);
}

/// The blank table of 64 places.
fn blank() -> Vec<u8> {
    Table::blank(SMALL_COUNT).encode()
}

/// The tables of so many places by how full they are.
fn tables(count: usize) -> [(&'static str, Vec<u8>); 3] {
    [("empty", Table::blank(count).encode()), ("half full", half(count)), ("full", full(count))]
}

/// Every typical request, alone and in a batch of 16, on each table.
fn scenes() -> Vec<Scene> {
    let mut scenes = Vec::new();
    for (fill, table) in &tables(SMALL_COUNT) {
        for size in [1, 16] {
            for (operation, items) in operations(size) {
                let name = format!("{operation} x {size}, {fill} table");
                let request = request(Some(1), items).encode();
                scenes.push(Scene { name, request, table: table.clone(), clock: 1 });
            }
        }
    }
    scenes
}

/// Batches of this size. Record 2n + 1 is Pre-Active and record 2n + 2 is Active with a limit, see `filled`.
fn operations(size: u32) -> Vec<(&'static str, Vec<Node>)> {
    let batch = |make: &dyn Fn(u32) -> Node| (0..size).map(make).collect::<Vec<_>>();
    let pre_active = |index: u32| identifier(2 * index + 1);
    let active = |index: u32| identifier(2 * index + 2);
    vec![
        ("Create", batch(&|_| item(0x01, Some(b"A1"), create(256, 4, Some((1000, 2)))))),
        ("Activate", batch(&|index| item(0x12, Some(b"A1"), target(Some(&pre_active(index)))))),
        ("Get Usage Allocation", batch(&|index| item(0x11, Some(b"A1"), allocation(Some(&active(index)), 5)))),
        ("Get", batch(&|index| item(0x0A, Some(b"A1"), target(Some(&active(index)))))),
        ("Get Attributes", batch(&|index| item(0x0B, Some(b"A1"), target(Some(&active(index)))))),
    ]
}

fn half(count: usize) -> Vec<u8> {
    filled(count, count / 2, 0)
}

fn full(count: usize) -> Vec<u8> {
    filled(count, count, 16)
}

/// The full table with its serials in no order of places.
fn unordered(count: usize) -> Vec<u8> {
    let mut table = Table::decode(&full(count));
    let places = table.places.clone();
    for (place, record) in places.into_iter().enumerate() {
        table.places[place * 37 % count] = record;
    }
    table.encode()
}

/// A table with this many records, the last of them destroyed; every fourth record replaces the one two before it.
fn filled(count: usize, number: usize, destroyed: usize) -> Vec<u8> {
    let mut table = Table::blank(count);
    table.last = number as u32;
    for (place, record) in table.places.iter_mut().enumerate().take(number) {
        *record = live_record(place as u32 + 1);
        if place >= number - destroyed {
            record.state = 5;
            record.material = [0; 32];
        }
        if place % 4 == 3 {
            record.replaced = place as u32 - 1;
        }
        if place % 4 == 1 {
            record.replacement = place as u32 + 3;
        }
    }
    table.encode()
}

fn live_record(serial: u32) -> Record {
    let state = if serial % 2 == 1 { 1 } else { 2 };
    let (total, count) = (1_000_000, 999_000);
    Record { serial, state, unit: 2, length: 256, total, count, mask: 4, material: [7; 32], ..Record::default() }
}

impl Course {
    /// Times both engines on a scene and prints a line.
    fn run(&self, scene: &Scene) {
        let restore = if scene.table.len() == SMALL_SIZE { self.small } else { self.large };
        let successes = compare(self.proved, scene);
        let (proved, plain) = race(self.proved, ordinary::serve, scene);
        print_line(&scene.name, proved - restore, plain - restore, &successes);
    }
}

/// Times two engines on a scene, by turns.
fn race(first: Engine, second: Engine, scene: &Scene) -> (f64, f64) {
    let rounds = (0..ROUNDS).map(|_| (round(first, scene), round(second, scene)));
    let (first, second) = rounds.unzip();
    (fastest(first), fastest(second))
}

/// The changes that are due before the first item: none, and one at each place.
fn dates(course: &Course) {
    println!("\n{DATES}");
    let request = request(Some(1), vec![item(0x0B, Some(b"A1"), target(Some(&identifier(64))))]).encode();
    for (name, clock) in [("64 keys, nothing due", START - 1), ("64 keys, 64 due", START)] {
        let name = format!("Get Attributes x 1, {name}");
        course.run(&Scene { name, request: request.clone(), table: waiting(), clock });
    }
}

/// The activation date of the keys that wait for one.
const START: i64 = 1_000_000;

/// A table of 64 Pre-Active keys with both dates set.
fn waiting() -> Vec<u8> {
    let mut table = Table::blank(SMALL_COUNT);
    table.last = 64;
    for (serial, record) in (1..).zip(&mut table.places) {
        *record = Record { state: 1, activation: START, deactivation: 2 * START, ..live_record(serial) };
    }
    table.encode()
}

/// Items that look for a name or show one: alone and sixteen of them.
fn names(course: &Course) {
    println!("\n{NAMES}");
    for size in [1, 16] {
        let batch = |make: &dyn Fn(u32) -> Node| (0..size).map(make).collect::<Vec<_>>();
        let key = |number| create_with(create(256, 4, None), name(&name_of(number)));
        let operations = [
            ("Create with a new name", batch(&|index| item(0x01, Some(b"A1"), key(64 + index)))),
            ("Create with a name that is taken", batch(&|_| item(0x01, Some(b"A1"), key(63)))),
            ("Locate, found last", batch(&|index| item(0x08, Some(b"A1"), location(&name_of(63 - index))))),
            ("Locate, not found", batch(&|index| item(0x08, Some(b"A1"), location(&name_of(64 + index))))),
            ("Get Attributes", batch(&|index| item(0x0B, Some(b"A1"), target(Some(&identifier(index + 1)))))),
        ];
        for (operation, items) in operations {
            let name = format!("{operation} x {size}");
            let request = request(Some(1), items).encode();
            course.run(&Scene { name, request, table: named(SMALL_COUNT), clock: 1 });
        }
    }
}

/// A name of 32 bytes that differs from others in its end; from the place count on no key in `named` has it.
fn name_of(number: u32) -> String {
    format!("station 12, row 3, step, no. {number:03}")
}

/// The full table with a name for each key.
fn named(count: usize) -> Vec<u8> {
    let mut table = Table::decode(&full(count));
    for (number, record) in (0..).zip(&mut table.places) {
        record.name = Name::of(name_of(number).as_bytes());
    }
    table.encode()
}

/// Few requests on large tables, by how full they are.
fn large(course: &Course) {
    println!("\n{LARGE}");
    let mut tables = tables(LARGE_COUNT).to_vec();
    tables.push(("full named", named(LARGE_COUNT)));
    for (fill, table) in tables {
        let keys = Table::decode(&table).last.max(16);
        let last = |index: u32| target(Some(&identifier(keys - index)));
        for (operation, items) in [
            ("Create x 1", vec![item(0x01, Some(b"A1"), create(256, 4, Some((1000, 2))))]),
            ("Get Attributes x 16", (0..16).map(|index| item(0x0B, Some(b"A1"), last(index))).collect()),
        ] {
            let name = format!("{operation}, {fill} large table");
            let request = request(Some(1), items).encode();
            course.run(&Scene { name, request, table: table.clone(), clock: 1 });
        }
    }
}

/// Batches of 16 under Stop and under Undo, of which no item fails or the last one.
fn undo(course: &Course) {
    println!("\n{UNDO}");
    for (count, size) in [(SMALL_COUNT, ""), (LARGE_COUNT, ", large")] {
        for (operation, items) in operations(16) {
            for (end, items) in [("passes", items.clone()), ("fails", last_failing(items))] {
                for (option, number) in [("Stop", 2), ("Undo", 3)] {
                    let name = format!("{operation}, {end}{size}, {option}");
                    let request = request(Some(number), items.clone()).encode();
                    course.run(&Scene { name, request, table: half(count), clock: 1 });
                }
            }
        }
    }
}

/// The same items with one in place of the last that finds no key.
fn last_failing(mut items: Vec<Node>) -> Vec<Node> {
    items.pop();
    items.push(item(0x12, Some(b"A1"), target(Some(&identifier(0)))));
    items
}

/// The soundness check, seen through refusal 4, and that of the ordinary engine by itself.
fn soundness(course: &Course) {
    println!("\n{SOUNDNESS}");
    for (count, size) in [(SMALL_COUNT, ""), (LARGE_COUNT, "large ")] {
        let mut tables = tables(count).to_vec();
        tables.extend([("full unordered", unordered(count)), ("full named", named(count))]);
        for (fill, table) in tables {
            let name = format!("refusal 4, {fill} {size}table");
            let alone = fastest((0..ROUNDS).map(|_| checking(&table)).collect());
            course.run(&Scene { name, request: Vec::new(), table, clock: 1 });
            println!("{:44} {:>9} {alone:>9.0}", "  the check by itself", "");
        }
    }
}

/// A kind of identifier text: how one is made from a random number, and whether it names a serial, which is searched for.
struct Texts {
    name: &'static str,
    searched: bool,
    text: fn(u32) -> String,
}

/// The first three are what the others are measured against.
const TEXTS: [Texts; 9] = [
    Texts { name: "seven digits", searched: false, text: |_| "0000000".to_string() },
    Texts { name: "eight zeros", searched: false, text: |_| identifier(0) },
    Texts { name: "00000001", searched: true, text: |_| identifier(1) },
    Texts { name: "small serials, 1 to 64", searched: true, text: |any| identifier(any % 64 + 1) },
    Texts { name: "any serials", searched: true, text: |any| identifier(any.max(1)) },
    Texts {
        name: "any, the last character no digit",
        searched: false,
        text: |any| identifier(any)[..7].to_string() + "G",
    },
    Texts { name: "any, one character no digit", searched: false, text: one_wrong },
    Texts { name: "any, in lower case", searched: false, text: |any| format!("{:08x}", any | 0xA) },
    Texts {
        name: "any, the first character no digit",
        searched: false,
        text: |any| format!("G{}", &identifier(any)[1..]),
    },
];

/// The requests of a round, with 16 texts each.
const REQUESTS: usize = 64;

/// A text of a serial with one of its characters, any of them, made to be no digit.
fn one_wrong(any: u32) -> String {
    let mut text = identifier(any);
    let at = (any % 8) as usize;
    text.replace_range(at..=at, "G");
    text
}

/// The reading of the identifier text, for both engines, a line for each kind of texts.
fn identifiers(proved: Engine) {
    println!("\n{IDENTIFIER}");
    println!("{:44} {:>9} {:>9}", "", "proved", "ordinary");
    let engines = [proved, ordinary::serve];
    let mut seed = 1;
    let mut times = [[f64::INFINITY; 2]; TEXTS.len()];
    for round in 0..ROUNDS {
        for (texts, times) in TEXTS.iter().zip(&mut times) {
            let requests: Vec<Vec<u8>> = (0..REQUESTS).map(|_| activations(texts, &mut seed)).collect();
            if round == 0 {
                let (name, request) = (texts.name.to_string(), requests[0].clone());
                let scene = Scene { name, request, table: blank(), clock: 1 };
                assert_eq!(compare(proved, &scene), "0 of 16");
            }
            for (engine, time) in engines.into_iter().zip(times) {
                *time = time.min(answering(engine, &requests));
            }
        }
    }
    let text = |kind: usize, engine: usize| times[kind][engine] / 16.0;
    let search = |engine: usize| text(2, engine) - text(1, engine);
    for (kind, texts) in TEXTS.iter().enumerate().filter(|(kind, _)| ![0, 2].contains(kind)) {
        let [proved, plain] = [0, 1].map(|engine| {
            let other = if texts.searched { search(engine) } else { 0.0 };
            text(kind, engine) - text(0, engine) - other
        });
        println!("{:44} {proved:>9.1} {plain:>9.1}", texts.name);
    }
    println!("{:44} {:>9.1} {:>9.1}", "the search, 64 free places", search(0), search(1));
}

/// A request of 16 Activate items with texts of this kind.
fn activations(texts: &Texts, seed: &mut u64) -> Vec<u8> {
    let items = (0..16).map(|_| item(0x12, Some(b"A1"), target(Some(&(texts.text)(random(seed))))));
    request(Some(1), items.collect()).encode()
}

/// The next number of a generator (xorshift).
fn random(seed: &mut u64) -> u32 {
    *seed ^= *seed << 13;
    *seed ^= *seed >> 7;
    *seed ^= *seed << 17;
    (*seed >> 32) as u32
}

/// Nanoseconds a call of these requests, each served once on the blank table, of which they change the clock alone.
fn answering(engine: Engine, requests: &[Vec<u8>]) -> f64 {
    let mut lent = buffers(&blank());
    let start = Instant::now();
    for request in requests {
        let _ = black_box(lent.serve(engine, black_box(request), black_box(1)));
        black_box(&mut lent.out);
    }
    start.elapsed().as_nanos() as f64 / requests.len() as f64
}

/// The bytes that the payload of a request's only item has room for.
const PAYLOAD: usize = 3992;

/// The lengths of Text Strings, in bytes; the last is the longest that a request holds.
const LENGTHS: [usize; 4] = [8, 32, 256, PAYLOAD - 8];

/// Their letters, by how many bytes one may have.
const LETTERS: [(&str, &[usize]); 3] = [("ASCII", &[1]), ("two bytes a letter", &[2]), ("mixed", &[1, 2, 3, 4])];

/// The requests of a round with Text Strings: few, so that they stay near the processor.
const TEXT_REQUESTS: usize = 8;

/// The reading of text, for both engines, a line for each length and kind of letters.
fn texts(proved: Engine) {
    println!("\n{TEXT}");
    println!("{:44} {:>9} {:>9} {:>9}", "", "proved", "ordinary", "from_utf8");
    let mut seed = 1;
    for length in LENGTHS {
        for (letters, sizes) in LETTERS {
            let [proved, plain, alone] = reading(proved, length, sizes, &mut seed);
            println!("{:44} {proved:>9.1} {plain:>9.1} {alone:>9.1}", format!("{length} bytes, {letters}"));
        }
    }
}

/// Nanoseconds for one such text: of the proved engine, of the ordinary one, and of from_utf8 by itself.
fn reading(proved: Engine, length: usize, sizes: &[usize], seed: &mut u64) -> [f64; 3] {
    let number = PAYLOAD / (8 + length);
    let mut times = [[f64::INFINITY; 2]; 2];
    let mut alone = f64::INFINITY;
    for round in 0..ROUNDS {
        let mut batch = || (0..number).map(|_| any_text(length, sizes, seed)).collect();
        let texts: Vec<Vec<String>> = (0..TEXT_REQUESTS).map(|_| batch()).collect();
        let kinds: [fn(u32, &[u8]) -> Node; 2] = [raw_text, byte_string];
        for (kind, node) in kinds.into_iter().enumerate() {
            let requests: Vec<Vec<u8>> = texts.iter().map(|texts| unsupported(node, texts)).collect();
            if round == 0 {
                let (name, request) = (format!("{length} bytes"), requests[0].clone());
                let scene = Scene { name, request, table: blank(), clock: 1 };
                assert_eq!(compare(proved, &scene), "0 of 1");
            }
            for (engine, times) in [proved, ordinary::serve].into_iter().zip(&mut times) {
                times[kind] = times[kind].min(answering(engine, &requests));
            }
        }
        alone = alone.min(checking_texts(&texts.concat()));
    }
    let [proved, plain] = times.map(|[text, bytes]| (text - bytes) / number as f64);
    [proved, plain, alone]
}

/// A request of one item, whose operation is not supported, with these texts in its payload.
fn unsupported(node: fn(u32, &[u8]) -> Node, texts: &[String]) -> Vec<u8> {
    let payload = texts.iter().map(|text| node(0x420020, text.as_bytes())).collect();
    request(None, vec![item(0x3B, None, payload)]).encode()
}

/// A text of this length, each letter of one of these sizes as far as there is room.
fn any_text(length: usize, sizes: &[usize], seed: &mut u64) -> String {
    let mut text = String::new();
    while text.len() < length {
        let size = sizes[random(seed) as usize % sizes.len()].min(length - text.len());
        let (first, number) = [(0x20, 0x5F), (0x80, 0x780), (0x1000, 0xC000), (0x10000, 0x100000)][size - 1];
        text.push(char::from_u32(first + random(seed) % number).expect("a letter"));
    }
    text
}

/// Nanoseconds for from_utf8 on one of these texts.
fn checking_texts(texts: &[String]) -> f64 {
    let start = Instant::now();
    for text in texts {
        let _ = black_box(std::str::from_utf8(black_box(text.as_bytes())));
    }
    start.elapsed().as_nanos() as f64 / texts.len() as f64
}

/// How far a ratio strays by chance: the ordinary engine against itself.
fn control(restore: f64) {
    println!("\n{CONTROL}");
    for scene in scenes().iter().filter(|scene| scene.name.starts_with("Create")) {
        let (first, second) = race(ordinary::serve, ordinary::serve, scene);
        print_line(&scene.name, first - restore, second - restore, "");
    }
}

fn print_line(name: &str, proved: f64, plain: f64, note: &str) {
    println!("{name:44} {proved:>9.0} {plain:>9.0} {:>6.2}  {note}", proved / plain);
}

fn buffers(table: &[u8]) -> Buffers {
    let fresh = (0..STRIP).map(|at| at as u8).collect();
    Buffers { table: table.to_vec(), fresh, out: vec![0; ROOM], undo: vec![0; table.len()] }
}

impl Buffers {
    fn serve(&mut self, engine: Engine, request: &[u8], clock: i64) -> Served {
        engine(request, &mut self.table, &self.fresh, clock, &mut self.out, &mut self.undo)
    }
}

/// Both engines must do the same. Says how many items succeed, or which refusal is given.
fn compare(proved: Engine, scene: &Scene) -> String {
    let (mut one, mut two) = (buffers(&scene.table), buffers(&scene.table));
    let first = one.serve(proved, &scene.request, scene.clock);
    let second = two.serve(ordinary::serve, &scene.request, scene.clock);
    let same = first == second && one.table == two.table && one.out == two.out && one.undo == two.undo;
    assert!(same, "{}: the engines differ", scene.name);
    match first {
        Ok(length) => {
            let count = |status: u8| {
                let name = [0x42, 0x00, 0x7F, 0x05, 0, 0, 0, 4, 0, 0, 0, status];
                one.out[..length].windows(12).filter(|window| *window == name).count()
            };
            format!("{} of {}", count(0), count(0) + count(1) + count(3))
        }
        Err(refusal) => refusal.to_string(),
    }
}

/// Nanoseconds a call, with the restoring of the table.
fn round(engine: Engine, scene: &Scene) -> f64 {
    let mut lent = buffers(&scene.table);
    let start = Instant::now();
    for _ in 0..CALLS {
        lent.table.copy_from_slice(black_box(&scene.table));
        let clock = black_box(scene.clock);
        let served = lent.serve(engine, black_box(&scene.request), clock);
        let _ = black_box(served);
        black_box(&mut lent.table);
        black_box(&mut lent.out);
        black_box(&mut lent.undo);
    }
    start.elapsed().as_nanos() as f64 / f64::from(CALLS)
}

/// Nanoseconds for restoring a table.
fn restoring(table: &[u8]) -> f64 {
    let mut copy = table.to_vec();
    let start = Instant::now();
    for _ in 0..CALLS {
        copy.copy_from_slice(black_box(table));
        black_box(&mut copy);
    }
    start.elapsed().as_nanos() as f64 / f64::from(CALLS)
}

/// Nanoseconds for the ordinary soundness check.
fn checking(table: &[u8]) -> f64 {
    let start = Instant::now();
    for _ in 0..CALLS {
        black_box(ordinary::sound(black_box(table)));
    }
    start.elapsed().as_nanos() as f64 / f64::from(CALLS)
}

/// The fastest round: what other programs on the machine take away is least in it.
fn fastest(times: Vec<f64>) -> f64 {
    times.into_iter().fold(f64::INFINITY, f64::min)
}
