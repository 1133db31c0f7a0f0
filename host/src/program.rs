//! The proved engine as the program `feed`, which is spoken to over pipes: docs/CONTRACTS.md has the form.
//! One process serves a whole run, one call at a time, so that neither side waits for the other. Assumed: it is the proved one.
//! A program that does not answer is ended, so that a test on it fails and does not wait.

use crate::Served;
use std::io::{self, Read, Write};
use std::process::{Child, ChildStdin, ChildStdout, Command, Stdio};
use std::sync::{LazyLock, Mutex, MutexGuard, PoisonError};
use std::thread;
use std::time::{Duration, Instant};

const RUN: &str = concat!(env!("CARGO_MANIFEST_DIR"), "/../tools/run");

/// How long one call may take. The longest takes some milliseconds.
const PATIENCE: Duration = Duration::from_secs(60);

/// The pipes to the program. Whoever holds them makes the one call that is under way.
static PIPES: LazyLock<Mutex<(ChildStdin, ChildStdout)>> = LazyLock::new(|| {
    let feed = Command::new(RUN).arg("feed").stdin(Stdio::piped()).stdout(Stdio::piped()).spawn();
    let mut feed = feed.unwrap_or_else(|error| panic!("tools/run cannot be started: {error}"));
    let pipes = (feed.stdin.take().expect("a pipe was asked for"), feed.stdout.take().expect("a pipe was asked for"));
    held(&WATCHED).program = Some(feed);
    thread::spawn(watch);
    Mutex::new(pipes)
});

/// The program, and since when a call is under way.
struct Watched {
    program: Option<Child>,
    since: Option<Instant>,
}

static WATCHED: Mutex<Watched> = Mutex::new(Watched { program: None, since: None });

/// What a lock holds, also where a test failed while it had it.
fn held<T>(lock: &Mutex<T>) -> MutexGuard<'_, T> {
    lock.lock().unwrap_or_else(PoisonError::into_inner)
}

/// Ends the program when a call takes too long; the call then finds its pipe closed.
fn watch() {
    loop {
        thread::sleep(PATIENCE / 60);
        let mut watched = held(&WATCHED);
        let late = watched.since.is_some_and(|since| PATIENCE < since.elapsed());
        if let (true, Some(program)) = (late, &mut watched.program) {
            // one that has ended already is as good
            let _ = program.kill();
        }
    }
}

/// Serves one request, as the engine does, on buffers that the program can hold: docs/CONTRACTS.md says how large.
pub fn serve(request: &[u8], table: &mut [u8], fresh: &[u8], clock: i64, out: &mut [u8], undo: &mut [u8]) -> Served {
    let mut pipes = PIPES.lock().expect("no call of the program failed before");
    let case = case(request, table, fresh, clock, out, undo);
    let mut left = vec![0; 12 + table.len() + out.len() + undo.len()];
    held(&WATCHED).since = Some(Instant::now());
    let exchanged = exchange(&mut pipes, &case, &mut left);
    held(&WATCHED).since = None;
    if let Err(error) = exchanged {
        panic!("the program feed ended ({error}; {}): what it or tools/run said stands on standard error", status());
    }
    let (front, rest) = left.split_at(12);
    let (after, rest) = rest.split_at(table.len());
    let (written, kept) = rest.split_at(out.len());
    table.copy_from_slice(after);
    out.copy_from_slice(written);
    undo.copy_from_slice(kept);
    let number = u32::from_be_bytes(front[..4].try_into().expect("4 bytes"));
    let length = u64::from_be_bytes(front[4..].try_into().expect("8 bytes"));
    crate::served(number, length, out.len())
}

/// A call as the program reads it.
fn case(request: &[u8], table: &[u8], fresh: &[u8], clock: i64, out: &[u8], undo: &[u8]) -> Vec<u8> {
    let mut bytes = Vec::new();
    for part in [request, table, fresh, out] {
        bytes.extend(length_of(part));
    }
    bytes.extend(clock.to_be_bytes());
    bytes.extend(length_of(undo));
    for part in [request, table, fresh, out, undo] {
        bytes.extend_from_slice(part);
    }
    bytes
}

/// The length of a part, as it stands in the head of a call.
fn length_of(part: &[u8]) -> [u8; 4] {
    u32::try_from(part.len()).expect("a length of 32 bits").to_be_bytes()
}

/// Writes a call whole, then reads all that it left.
fn exchange((input, output): &mut (ChildStdin, ChildStdout), case: &[u8], left: &mut [u8]) -> io::Result<()> {
    input.write_all(case)?;
    output.read_exact(left)
}

/// How the program ended. One that has only closed a pipe has a second to end by itself.
fn status() -> String {
    let mut watched = held(&WATCHED);
    let Some(program) = &mut watched.program else {
        return "never started".to_string();
    };
    for _ in 0..20 {
        if let Ok(Some(status)) = program.try_wait() {
            return status.to_string();
        }
        thread::sleep(Duration::from_millis(50));
    }
    let _ = program.kill();
    "not ended by itself".to_string()
}
