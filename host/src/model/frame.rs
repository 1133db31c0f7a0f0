//! The message frame of a request.
//! Assumes nothing.

use super::tags::*;
use super::ttlv::Item;

/// A request whose frame is right. Its numbers have not been looked at.
#[derive(Debug)]
pub struct Request {
    pub version: (i32, i32),
    pub option: Option<u32>,
    pub count: i32,
    pub items: Vec<BatchItem>,
}

/// One batch item: any operation, the Unique Batch Item ID if given, the fields of the payload.
#[derive(Debug)]
pub struct BatchItem {
    pub operation: u32,
    pub id: Option<Vec<u8>>,
    pub payload: Vec<Item>,
}

/// Request Message { Request Header, one or more Batch Item }
pub fn read(message: &Item) -> Option<Request> {
    let [header, first, more @ ..] = message.structure(REQUEST_MESSAGE)? else {
        return None;
    };
    let (version, option, count) = read_header(header)?;
    let mut items = vec![read_batch_item(first)?];
    for item in more {
        items.push(read_batch_item(item)?);
    }
    Some(Request { version, option, count, items })
}

/// Request Header { Protocol Version, [Batch Error Continuation Option], Batch Count }
fn read_header(header: &Item) -> Option<((i32, i32), Option<u32>, i32)> {
    match header.structure(REQUEST_HEADER)? {
        [version, count] => Some((read_version(version)?, None, count.integer(BATCH_COUNT)?)),
        [version, option, count] => {
            let option = option.enumeration(BATCH_ERROR_CONTINUATION_OPTION)?;
            Some((read_version(version)?, Some(option), count.integer(BATCH_COUNT)?))
        }
        _ => None,
    }
}

/// Protocol Version { Major, Minor }
fn read_version(version: &Item) -> Option<(i32, i32)> {
    let [major, minor] = version.structure(PROTOCOL_VERSION)? else {
        return None;
    };
    Some((major.integer(PROTOCOL_VERSION_MAJOR)?, minor.integer(PROTOCOL_VERSION_MINOR)?))
}

/// Batch Item { Operation, [Unique Batch Item ID], Request Payload }
fn read_batch_item(item: &Item) -> Option<BatchItem> {
    let (operation, id, payload) = match item.structure(BATCH_ITEM)? {
        [operation, payload] => (operation, None, payload),
        [operation, id, payload] => (operation, Some(read_id(id)?), payload),
        _ => return None,
    };
    let operation = operation.enumeration(OPERATION)?;
    let payload = payload.structure(REQUEST_PAYLOAD)?.to_vec();
    Some(BatchItem { operation, id, payload })
}

/// A Unique Batch Item ID has 1 to 16 bytes.
fn read_id(id: &Item) -> Option<Vec<u8>> {
    let id = id.bytes(UNIQUE_BATCH_ITEM_ID)?;
    (1..=16).contains(&id.len()).then(|| id.to_vec())
}
