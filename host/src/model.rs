//! The model: the rules of the box, written from the papers as plainly as possible, to be compared with.
//! Shares with the engines nothing but the names of the refusals. It allocates freely and looks at everything.

use crate::{Refusal, Served};

pub mod dates;
pub mod frame;
pub mod operations;
pub mod payload;
pub mod response;
pub mod soundness;
pub mod table;
pub mod tags;
pub mod ttlv;

use frame::Request;
use operations::{Answer, KeyBox};
use table::Table;

/// Serves one request, as the engine does.
pub fn serve(request: &[u8], table: &mut [u8], fresh: &[u8], clock: i64, out: &mut [u8], undo: &mut [u8]) -> Served {
    let accepted = accept(request, table, fresh, clock, out.len(), undo.len())?;
    let mut records = Table::decode(table);
    records.latest = dates::clock_that_counts(clock, records.latest);
    dates::make_due_changes(&mut records);
    let before = records.clone();
    let mut keys = KeyBox::open(records, fresh);
    let mut answers = carry_out(&accepted, &mut keys);
    if accepted.option == Some(3) {
        undo.copy_from_slice(&before.encode());
        if answers.iter().any(Answer::is_failed) {
            keys.table = before;
            answers = answers.into_iter().map(Answer::undone).collect();
        }
    }
    let bytes = ttlv::write(&response::message(keys.table.latest, &answers));
    out[..bytes.len()].copy_from_slice(&bytes);
    table.copy_from_slice(&keys.table.encode());
    Ok(bytes.len())
}

/// The request as it is read, or the lowest refusal that applies.
fn accept(
    request: &[u8],
    table: &[u8],
    fresh: &[u8],
    clock: i64,
    room: usize,
    second: usize,
) -> Result<Request, Refusal> {
    refuse_if(room < 6360, Refusal::Room)?;
    refuse_if(fresh.len() != 512, Refusal::Strip)?;
    refuse_if(!soundness::broken(table).is_empty(), Refusal::Table)?;
    refuse_if(request.is_empty() || request.len() > 4096, Refusal::Size)?;
    let message = ttlv::read(request).ok_or(Refusal::Malformed)?;
    let request = frame::read(&message).ok_or(Refusal::Frame)?;
    refuse_if(request.version != (2, 1), Refusal::Version)?;
    refuse_if(!(1..=16).contains(&request.count), Refusal::Count)?;
    refuse_if(request.count as usize != request.items.len(), Refusal::Count)?;
    refuse_if(!matches!(request.option, None | Some(1..=3)), Refusal::Continuation)?;
    refuse_if(clock < 1, Refusal::Clock)?;
    refuse_if(second != table.len(), Refusal::Undo)?;
    Ok(request)
}

fn refuse_if(applies: bool, refusal: Refusal) -> Result<(), Refusal> {
    if applies {
        Err(refusal)
    } else {
        Ok(())
    }
}

/// The answers due: all of them under Continue (option 1), else those up to the first failure.
fn carry_out(request: &Request, keys: &mut KeyBox) -> Vec<Answer> {
    let stops = request.option != Some(1);
    let mut answers = Vec::new();
    for (index, item) in request.items.iter().enumerate() {
        let result = keys.attempt(index, item).into();
        let answer = Answer { operation: item.operation, id: item.id.clone(), result };
        let ends = stops && answer.is_failed();
        answers.push(answer);
        if ends {
            break;
        }
    }
    answers
}
