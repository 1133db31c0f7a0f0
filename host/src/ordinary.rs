//! An ordinary engine for the same box, written for use: in place on the lent bytes, without allocation.
//! It is what the proved engine is raced against; its trust rests on tests alone.

use crate::{Refusal, Served, LARGE_COUNT, ROOM, SMALL_COUNT, STRIP};

mod act;
mod items;
mod request;
mod stored;
mod writer;

use act::{Outcome, Session};
use items::Fields;
use request::Frame;
use stored::Table;
use writer::Writer;

pub use stored::sound;

/// The Batch Error Continuation Options.
const CONTINUE: u32 = 1;
const STOP: u32 = 2;
const UNDO: u32 = 3;

/// Serves one request, as the engine does.
pub fn serve(request: &[u8], table: &mut [u8], fresh: &[u8], clock: i64, out: &mut [u8], undo: &mut [u8]) -> Served {
    let out = out.first_chunk_mut().ok_or(Refusal::Room)?;
    let fresh = fresh.try_into().map_err(|_| Refusal::Strip)?;
    match stored::places_said(table) {
        Some(SMALL_COUNT) => serve_places::<SMALL_COUNT>(request, table, fresh, clock, out, undo),
        Some(LARGE_COUNT) => serve_places::<LARGE_COUNT>(request, table, fresh, clock, out, undo),
        _ => Err(Refusal::Table),
    }
}

/// Serves one request on a table whose lead says N.
fn serve_places<const N: usize>(
    request: &[u8],
    table: &mut [u8],
    fresh: &[u8; STRIP],
    clock: i64,
    out: &mut [u8; ROOM],
    undo: &mut [u8],
) -> Served {
    if !stored::sound_for::<N>(table) {
        return Err(Refusal::Table);
    }
    let mut table = Table::<N>::new(table).ok_or(Refusal::Table)?;
    let frame = accept(request)?;
    if clock < 1 {
        return Err(Refusal::Clock);
    }
    let mut kept = Table::<N>::new(undo).ok_or(Refusal::Undo)?;
    let now = table.advance(clock as u64);
    let undoes = frame.option == Some(UNDO);
    if undoes {
        kept.copy_from(&table);
    }
    let mut session = Session::new(table, fresh.as_chunks::<32>().0, now);
    let writer = Writer::new(out);
    Ok(match undoes {
        false => answer(&frame, &mut session, now, writer),
        true => answer_all_or_none(&frame, &mut session, &kept, now, writer),
    })
}

/// The frame of the request, or the lowest refusal from 4 to 9.
fn accept(request: &[u8]) -> Result<Frame<'_>, Refusal> {
    if request.is_empty() || request.len() > crate::REQUEST {
        return Err(Refusal::Size);
    }
    if !items::well_formed_message(request) {
        return Err(Refusal::Malformed);
    }
    let frame = Frame::read(Fields::new(request)).ok_or(Refusal::Frame)?;
    if frame.version != (2, 1) {
        return Err(Refusal::Version);
    }
    if frame.number_of_items > 16 || frame.count != frame.number_of_items {
        return Err(Refusal::Count);
    }
    match frame.option {
        None | Some(CONTINUE | STOP | UNDO) => Ok(frame),
        Some(_) => Err(Refusal::Continuation),
    }
}

/// Carries the items out and writes their answers; gives the length of the response.
fn answer<const N: usize>(frame: &Frame, session: &mut Session<N>, now: u64, mut writer: Writer) -> usize {
    let stops = frame.option != Some(CONTINUE);
    let message = writer.open(0x42007B01);
    let count = writer.response_header(now);
    let mut answered = 0;
    for (index, item) in frame.items().enumerate() {
        let outcome = session.carry_out(index, &item);
        writer.batch_item(&item, &outcome);
        answered += 1;
        if stops && matches!(outcome, Outcome::Failed(_)) {
            break;
        }
    }
    writer.set_count(count, answered);
    writer.close(message);
    writer.length()
}

/// Carries the items out up to the first that fails, and then writes the answers: nothing is written before it is known
/// what is left of them. If one fails, the table is put back as it was kept.
fn answer_all_or_none<const N: usize>(
    frame: &Frame,
    session: &mut Session<N>,
    kept: &Table<N>,
    now: u64,
    mut writer: Writer,
) -> usize {
    let mut outcomes = [const { Outcome::Undone }; 16];
    let mut answered = 0;
    let mut fails = false;
    for ((index, item), outcome) in frame.items().enumerate().zip(&mut outcomes) {
        *outcome = session.carry_out(index, &item);
        answered += 1;
        fails = matches!(outcome, Outcome::Failed(_));
        if fails {
            break;
        }
    }
    if fails {
        session.put_back(kept);
        outcomes[..answered - 1].fill_with(|| Outcome::Undone);
    }
    let message = writer.open(0x42007B01);
    let count = writer.response_header(now);
    for (item, outcome) in frame.items().zip(&outcomes[..answered]) {
        writer.batch_item(&item, outcome);
    }
    writer.set_count(count, answered as u32);
    writer.close(message);
    writer.length()
}
