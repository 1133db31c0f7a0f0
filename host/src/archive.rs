//! The proved engine, called through its C function.
//! Assumes that the linked archive has that function with the signature below and keeps its contract.

use crate::Served;

extern "C" {
    fn junctionmoth_serve(
        request: *const u8,
        request_len: usize,
        table: *mut u8,
        table_len: usize,
        fresh: *const u8,
        fresh_len: usize,
        clock: i64,
        out: *mut u8,
        out_len: usize,
        len: *mut u64,
        undo: *mut u8,
        undo_len: usize,
    ) -> u32;
}

/// Serves one request: the table is changed, the response stands at the front of `out`, its length is given back.
/// `undo` is the second buffer: after an accepted request under Undo it holds the table before the first item.
/// Any bytes and any sizes may be passed; a refused call changes nothing.
pub fn serve(request: &[u8], table: &mut [u8], fresh: &[u8], clock: i64, out: &mut [u8], undo: &mut [u8]) -> Served {
    let mut length = 0u64;
    // SAFETY: each pointer comes with the length of the slice it is taken from, the slices live through the call, and
    // the three that are written are borrowed exclusively, so no two of the buffers overlap.
    let number = unsafe {
        junctionmoth_serve(
            request.as_ptr(),
            request.len(),
            table.as_mut_ptr(),
            table.len(),
            fresh.as_ptr(),
            fresh.len(),
            clock,
            out.as_mut_ptr(),
            out.len(),
            &mut length,
            undo.as_mut_ptr(),
            undo.len(),
        )
    };
    crate::served(number, length, out.len())
}
