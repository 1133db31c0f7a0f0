//! The programs as they were proved and compiled, run on what their stored inputs leave out: `bench` on every size and
//! refusal, `tree` on malformed messages, `cards` and `cards_ttlv` on lines that are none of a script.
//! `tools/run` starts them. A program that is not there, or that does not end, fails the test.

mod support;

use junctionmoth::message::*;
use junctionmoth::{blank_table, model, REQUEST, SMALL_COUNT};
use std::fs::{self, File};
use std::io::{Seek, Write};
use std::path::{Path, PathBuf};
use std::process::{Child, Command, ExitStatus};
use std::thread;
use std::time::{Duration, Instant};
use support::{hex, unhex, Case};

const TOP: &str = concat!(env!("CARGO_MANIFEST_DIR"), "/..");

/// How long a program may take. The longest takes less than a second.
const PATIENCE: Duration = Duration::from_secs(60);

/// What a program did: the lines that it printed, and how many bytes of its input it took.
#[derive(Debug, PartialEq)]
struct Ran {
    printed: String,
    taken: u64,
}

/// Runs a program on these bytes as its standard input. `case` names the files that the run leaves behind.
fn run(program: &str, case: &str, input: &[u8]) -> Ran {
    let [stdin, stdout, stderr] = ["in", "out", "err"].map(|end| scratch(program, case, end));
    let mut source = File::options().read(true).write(true).create(true).truncate(true).open(&stdin).expect("a file");
    source.write_all(input).expect("a file is written");
    source.rewind().expect("a file is read from its start");
    let started = Command::new(Path::new(TOP).join("tools/run"))
        .arg(program)
        .stdin(source.try_clone().expect("the file once more"))
        .stdout(File::create(&stdout).expect("a file"))
        .stderr(File::create(&stderr).expect("a file"))
        .spawn();
    let mut child = started.unwrap_or_else(|error| panic!("tools/run cannot be started: {error}"));
    let status = ended(&mut child);
    let said = fs::read_to_string(&stderr).expect("what was said");
    assert!(status.is_some_and(|status| status.success()), "{program}, {case}: {status:?}: {said}");
    Ran {
        printed: fs::read_to_string(&stdout).expect("what was printed"),
        taken: source.stream_position().expect("how far the file was read"),
    }
}

/// A file of one run, among what cargo built.
fn scratch(program: &str, case: &str, end: &str) -> PathBuf {
    let name = case.replace(|c: char| !c.is_ascii_alphanumeric(), "_");
    Path::new(env!("CARGO_TARGET_TMPDIR")).join(format!("{program}-{name}.{end}"))
}

/// How a program ended; none if it had to be ended.
fn ended(child: &mut Child) -> Option<ExitStatus> {
    let since = Instant::now();
    while since.elapsed() < PATIENCE {
        if let Some(status) = child.try_wait().expect("a program is waited for") {
            return Some(status);
        }
        thread::sleep(Duration::from_millis(5));
    }
    // one that ended just now is as good
    let _ = child.kill();
    let _ = child.wait();
    None
}

/// The stored input and output of a program.
fn stored(program: &str) -> (Vec<u8>, String) {
    let part = |name: &str| fs::read(Path::new(TOP).join("crates").join(program).join(name)).expect("a stored file");
    (part("stdin"), String::from_utf8(part("stdout")).expect("printed lines"))
}

#[test]
#[should_panic(expected = "target/bin/no_such_program is not there")]
fn a_program_that_is_missing_is_noticed() {
    run("no_such_program", "missing", &[]);
}

#[test]
fn programs_print_what_is_stored() {
    for program in ["bench", "tree", "cards_ttlv", "cards"] {
        let (input, output) = stored(program);
        let ran = run(program, "stored", &input);
        assert_eq!(ran, Ran { printed: output, taken: input.len() as u64 }, "{program}");
    }
}

/// A message that is no request: one Byte String that makes it this long.
fn filler(length: usize) -> Vec<u8> {
    structure(0x420078, vec![byte_string(0x420020, &vec![0x55; length - 16])]).encode()
}

/// A Create, of which a request may have many.
fn create_item() -> Node {
    item(0x01, None, create(128, 4, None))
}

/// A request with one item and these numbers in its header.
fn header_of(version: (i32, i32), option: Option<u32>, count: i32) -> Vec<u8> {
    request_with(Header { version, option, count }, vec![create_item()]).encode()
}

/// The accepted request with one byte changed.
fn changed(at: usize, byte: u8) -> Vec<u8> {
    let (mut bytes, _) = stored("bench");
    bytes[at] = byte;
    bytes
}

#[test]
fn bench_prints_every_refusal_that_a_request_can_have() {
    let frame = structure(0x420078, vec![integer(0x42000D, 1)]).encode();
    let cases = [
        ("no input", 4, vec![]),
        ("one byte", 5, vec![0x42]),
        ("4,095 bytes of junk", 5, vec![0x42; 4095]),
        ("4,096 bytes of junk", 5, vec![0x42; 4096]),
        ("4,097 bytes of junk", 4, vec![0x42; 4097]),
        ("5,000 bytes of junk", 4, vec![0x42; 5000]),
        ("100,000 bytes of junk", 4, vec![0x42; 100_000]),
        ("4,096 bytes that are no request", 6, filler(4096)),
        ("4,104 bytes that are no request", 4, filler(4104)),
        ("a tag that starts with 54", 5, changed(0, 0x54)),
        ("a byte after the request", 5, [stored("bench").0, vec![0]].concat()),
        ("padding that is not zero", 5, changed(0x27, 1)),
        ("no header", 6, frame),
        ("version 2.0", 7, header_of((2, 0), None, 1)),
        ("version 3.1", 7, header_of((3, 1), None, 1)),
        ("count 2 for one item", 8, header_of((2, 1), None, 2)),
        ("17 items", 8, request(None, vec![create_item(); 17]).encode()),
        ("option 0", 9, header_of((2, 1), Some(0), 1)),
        ("option 4", 9, header_of((2, 1), Some(4), 1)),
    ];
    for (case, refusal, input) in cases {
        let taken = input.len().min(REQUEST + 1) as u64;
        let expected = Ran { printed: format!("refusal {refusal}\n"), taken };
        assert_eq!(run("bench", case, &input), expected, "{case}");
    }
}

#[test]
fn bench_prints_responses_in_hex() {
    let longest = request(Some(1), vec![create_item(); 16]);
    let failed = request(Some(1), vec![item(0x12, Some(&[7; 16]), vec![]); 16]);
    let foreign = request(None, vec![item(0x12, None, target(Some("ключ")))]);
    let named = || item(0x01, None, create_with(create(128, 4, None), name("Förderband")));
    let named =
        request(Some(1), vec![named(), named(), item(0x08, None, location("Förderband")), item(0x0B, None, vec![])]);
    let undone = request(Some(3), vec![create_item(), item(0x12, None, vec![]), item(0x14, None, target(Some("")))]);
    for (case, message) in [
        ("16 items", longest),
        ("16 items that fail", failed),
        ("other letters", foreign),
        ("a name", named),
        ("an undone batch", undone),
    ] {
        let input = message.encode();
        let effect = Case::new(input.clone(), blank_table(SMALL_COUNT)).run(model::serve);
        let response = hex(&effect.out[..effect.served.expect("an answer")]);
        let expected = Ran { printed: format!("{response}\n").to_uppercase(), taken: input.len() as u64 };
        assert_eq!(run("bench", case, &input), expected, "{case}");
    }
}

/// A structure in a structure, and so on, this deep, around an Integer.
fn nested(depth: usize) -> Vec<u8> {
    let innermost = integer(0x420020, 8);
    (1..depth).fold(innermost, |inner, _| structure(0x420020, vec![inner])).encode()
}

#[test]
fn tree_prints_where_a_message_is_malformed() {
    let two = "42002002 00000004 00000008 00000000 42002002 00000004 00000008 00000000";
    let cases = [
        ("no bytes", 0, vec![]),
        ("one byte", 0, unhex("42")),
        ("a tag that starts with 54", 0, unhex("54002002 00000004 00000008 00000000")),
        ("type 0C", 0, unhex("4200200C 00000004 00000008 00000000")),
        ("a length that goes on", 0, unhex("42002008 FFFFFFFF 00000000 00000000")),
        ("an item that is cut", 0, unhex("42002002 00000004 00000008")),
        ("bytes after the item", 16, unhex("42002002 00000004 00000008 00000000 00")),
        ("two items", 16, unhex(two)),
        ("two structures", 8, unhex("42002001 00000000 42002001 00000000")),
        ("a structure that ends inside an item", 24, unhex(&format!("42002001 00000018 {two}"))),
        ("a structure that goes on", 0, unhex(&format!("42002001 00000028 {two}"))),
        ("depth 9", 64, nested(9)),
        ("depth 12", 64, nested(12)),
        ("padding in the version", 0x18, changed(0x27, 1)),
        ("type 0C in the attributes", 0xA0, changed(0xA3, 0x0C)),
        ("a surrogate", 0, unhex("42002007 00000003 EDA08000 00000000")),
        ("a character that is cut", 8, unhex("42002001 00000010 42002007 00000001 C2000000 00000000")),
        ("the number 128 as text", 0x90, changed(0x93, 0x07)),
    ];
    for (case, at, input) in cases {
        let expected = Ran { printed: format!("malformed at byte {at}\n"), taken: input.len() as u64 };
        assert_eq!(run("tree", case, &input), expected, "{case}");
    }
}

#[test]
fn tree_prints_depth_8() {
    let ran = run("tree", "depth 8", &nested(8));
    let heads = (0..7).map(|level| format!("{}420020 Structure {}\n", "  ".repeat(level), 64 - 8 * level));
    let expected: String = heads.chain([format!("{}420020 Integer 4: 8\n", "  ".repeat(7))]).collect();
    assert_eq!(ran.printed, expected);
}

#[test]
fn lines_that_are_none_of_a_script_are_printed() {
    let bad = ["x: 4200200", "x: 4200200G", "x: 42002002 00000004 0000008 00000000", "x: 4200af", "x 42002002"];
    for line in bad {
        let ran = run("cards_ttlv", line, format!("{line}\n").as_bytes());
        assert_eq!(ran.printed, format!("bad line: {line}\n"));
        let script = format!("request {line}\n");
        assert_eq!(run("cards", line, script.as_bytes()).printed, format!("bad line: {script}"));
    }
    assert_eq!(run("cards", "too long", &vec![b'\n'; 1_048_576]).printed, "script too long\n");
    assert_eq!(run("cards_ttlv", "too long", &vec![b'\n'; 65_536]).printed, "script too long\n");
}
