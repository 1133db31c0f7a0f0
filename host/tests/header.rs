//! include/junctionmoth.h for C and C++: it compiles without a warning, its numbers are those of this package, and on
//! x86-64 a C program over it is linked with the archive and run. Needs the C compiler that cargo links with; C++ is
//! tried where there is a compiler for it.

use junctionmoth::{
    blank_table, table_size, Refusal, LARGE_COUNT, LARGE_SIZE, REQUEST, ROOM, SMALL_COUNT, SMALL_SIZE, STRIP,
};
use std::path::{Path, PathBuf};
use std::process::{Command, Output};

const HERE: &str = env!("CARGO_MANIFEST_DIR");
const WARNINGS: [&str; 6] = ["-Wall", "-Wextra", "-Wshadow", "-Wconversion", "-pedantic", "-Werror"];

fn compiler(name: &str) -> Command {
    let mut command = Command::new(name);
    command.args(WARNINGS).arg("-I").arg(Path::new(HERE).join("../include"));
    command
}

fn boundary() -> PathBuf {
    Path::new(HERE).join("tests/c/boundary.c")
}

fn expect_success(output: &Output, what: &str) {
    let said = [&output.stdout[..], &output.stderr[..]].concat();
    assert!(output.status.success(), "{what}: {}\n{}", output.status, String::from_utf8_lossy(&said));
}

#[test]
fn it_compiles_as_c99() {
    let output = compiler("cc").args(["-std=c99", "-fsyntax-only"]).arg(boundary()).output();
    expect_success(&output.expect("cargo links with cc, so it is there"), "C99");
}

#[test]
fn it_compiles_as_cpp() {
    match compiler("c++").args(["-std=c++11", "-fsyntax-only", "-x", "c++"]).arg(boundary()).output() {
        Ok(output) => expect_success(&output, "C++"),
        Err(error) => println!("no C++ compiler here ({error}): not tried"),
    }
}

/// What the header calls a refusal.
fn name(refusal: Refusal) -> &'static str {
    match refusal {
        Refusal::Room => "JUNCTIONMOTH_REFUSED_ROOM",
        Refusal::Strip => "JUNCTIONMOTH_REFUSED_STRIP",
        Refusal::Table => "JUNCTIONMOTH_REFUSED_TABLE",
        Refusal::Size => "JUNCTIONMOTH_REFUSED_SIZE",
        Refusal::Malformed => "JUNCTIONMOTH_REFUSED_MALFORMED",
        Refusal::Frame => "JUNCTIONMOTH_REFUSED_FRAME",
        Refusal::Version => "JUNCTIONMOTH_REFUSED_VERSION",
        Refusal::Count => "JUNCTIONMOTH_REFUSED_COUNT",
        Refusal::Continuation => "JUNCTIONMOTH_REFUSED_OPTION",
        Refusal::Clock => "JUNCTIONMOTH_REFUSED_CLOCK",
        Refusal::Undo => "JUNCTIONMOTH_REFUSED_UNDO",
    }
}

/// Each number is the size of an array in C, so that the compiler tells one that differs.
#[test]
fn its_numbers_are_those_of_this_package() {
    let mut numbers = vec![
        ("JUNCTIONMOTH_SMALL_COUNT", SMALL_COUNT),
        ("JUNCTIONMOTH_LARGE_COUNT", LARGE_COUNT),
        ("JUNCTIONMOTH_SMALL_SIZE", SMALL_SIZE),
        ("JUNCTIONMOTH_LARGE_SIZE", LARGE_SIZE),
        ("JUNCTIONMOTH_ROOM_LEAST", ROOM),
        ("JUNCTIONMOTH_STRIP_SIZE", STRIP),
        ("JUNCTIONMOTH_REQUEST_MOST", REQUEST),
        ("JUNCTIONMOTH_ANSWERED", 0),
    ];
    numbers.extend(Refusal::ALL.map(|refusal| (name(refusal), refusal.number() as usize)));
    let checks = numbers.iter().map(|(name, number)| format!("extern char is_{name}[{name} == {number} ? 1 : -1];\n"));
    let sizes = [SMALL_COUNT, LARGE_COUNT, 1].map(|count| (count, table_size(count)));
    let sizes = sizes.map(|(count, size)| {
        format!("extern char size_{count}[JUNCTIONMOTH_TABLE_SIZE({count}) == {size} ? 1 : -1];\n")
    });
    let checks = checks.chain(sizes);
    let source = Path::new(env!("CARGO_TARGET_TMPDIR")).join("numbers.c");
    std::fs::write(&source, format!("#include \"junctionmoth.h\"\n{}", checks.collect::<String>())).expect("writable");
    let output = compiler("cc").args(["-std=c99", "-fsyntax-only"]).arg(&source).output();
    expect_success(&output.expect("cargo links with cc, so it is there"), "the numbers");
}

/// A C program that writes one byte after the other of a blank table of so many places.
fn blank_writer(count: usize) -> String {
    format!(
        "#include \"junctionmoth.h\"\n#include <stdio.h>\n#define SIZE JUNCTIONMOTH_TABLE_SIZE({count})\n\
         static uint8_t table[SIZE];\nint main(void)\n{{\n    size_t i;\n\
         for (i = 0; i < SIZE; i++) {{ table[i] = 0xEE; }}\n    junctionmoth_blank(table, {count});\n\
         return fwrite(table, 1, SIZE, stdout) == SIZE ? 0 : 1;\n}}\n"
    )
}

/// This needs no archive.
#[test]
fn its_blank_tables_are_those_of_this_package() {
    for count in [SMALL_COUNT, LARGE_COUNT] {
        let [source, program] =
            ["c", "out"].map(|end| Path::new(env!("CARGO_TARGET_TMPDIR")).join(format!("blank{count}.{end}")));
        std::fs::write(&source, blank_writer(count)).expect("writable");
        let output = compiler("cc").args(["-std=c99", "-o"]).arg(&program).arg(&source).output();
        expect_success(&output.expect("cargo links with cc, so it is there"), "a blank table");
        let output = Command::new(&program).output().expect("it was just linked");
        expect_success(&output, "a blank table");
        assert!(output.stdout == blank_table(count), "{count} places");
    }
}

#[cfg(all(feature = "archive", target_arch = "x86_64"))]
#[test]
fn a_c_host_sees_what_the_header_says() {
    let program = Path::new(env!("CARGO_TARGET_TMPDIR")).join("boundary");
    let archive = Path::new(HERE).join("../target/staticlib/libjunctionmoth.a");
    let output = compiler("cc").args(["-std=c99", "-O1", "-o"]).arg(&program).arg(boundary()).arg(archive).output();
    expect_success(&output.expect("cargo links with cc, so it is there"), "linking");
    expect_success(&Command::new(&program).output().expect("it was just linked"), "the C host");
}
