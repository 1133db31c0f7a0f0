//! Junctionmoth for Rust hosts: the proved engine behind a safe call, and what it is tested and raced against.
//! On x86-64, with the feature `archive` (the default), the proved engine is linked; that it keeps its contract is assumed here.

use std::fmt;

#[cfg(all(feature = "archive", target_arch = "x86_64"))]
mod archive;
pub mod message;
pub mod model;
pub mod ordinary;
pub mod program;

#[cfg(all(feature = "archive", target_arch = "x86_64"))]
pub use archive::serve;

/// Bytes of output room that no response exceeds; a call with less is refused.
pub const ROOM: usize = 6360;
/// Bytes of the fresh strip.
pub const STRIP: usize = 512;
/// Bytes of the longest request that is read.
pub const REQUEST: usize = 4096;

/// Places of a small table: the keys that it holds at one time. Its lead says how many places a table has.
pub const SMALL_COUNT: usize = 64;
/// Places of a large table.
pub const LARGE_COUNT: usize = 256;
/// Bytes of a small table.
pub const SMALL_SIZE: usize = table_size(SMALL_COUNT);
/// Bytes of a large table.
pub const LARGE_SIZE: usize = table_size(LARGE_COUNT);

/// Bytes of a table with so many places: the size follows from the count.
pub const fn table_size(count: usize) -> usize {
    16 + 128 * count
}

/// What a call gives: the length of the response at the front of the output, or why the request was turned away.
/// A refused call leaves table, output and second buffer byte for byte.
pub type Served = Result<usize, Refusal>;

/// An engine: request, table, fresh strip, clock (seconds, as a Date-Time, from 1 up), output, and a second buffer of the
/// table's size, which an accepted request under Undo leaves with the table before its first item, and no other touches.
pub type Engine = fn(&[u8], &mut [u8], &[u8], i64, &mut [u8], &mut [u8]) -> Served;

/// The proved engine as it is linked: the archive on x86-64, and none on any other machine.
#[cfg(all(feature = "archive", target_arch = "x86_64"))]
pub const LINKED: Option<Engine> = Some(serve);
/// The proved engine as it is linked: the archive on x86-64, and none on any other machine.
#[cfg(not(all(feature = "archive", target_arch = "x86_64")))]
pub const LINKED: Option<Engine> = None;

/// Why a request was turned away. Where several apply the lowest number is given.
#[derive(Clone, Copy, Debug, PartialEq, Eq, PartialOrd, Ord, Hash)]
#[repr(u32)]
pub enum Refusal {
    /// Output room below [`ROOM`].
    Room = 1,
    /// Fresh strip not of [`STRIP`] bytes.
    Strip = 2,
    /// Table with a place count other than [`SMALL_COUNT`] and [`LARGE_COUNT`], of another size than its count's, or
    /// unsound.
    Table = 3,
    /// Request empty or above [`REQUEST`] bytes.
    Size = 4,
    /// TTLV malformed.
    Malformed = 5,
    /// Message frame wrong.
    Frame = 6,
    /// Protocol version not 2.1.
    Version = 7,
    /// Batch Count not 1 to 16, or not the number of items.
    Count = 8,
    /// Batch Error Continuation Option none of 1, 2 and 3.
    Continuation = 9,
    /// Clock below 1.
    Clock = 10,
    /// Second buffer not of the table's size, whatever the option.
    Undo = 11,
}

impl Refusal {
    /// All of them, in the order of their numbers.
    pub const ALL: [Refusal; 11] = [
        Refusal::Room,
        Refusal::Strip,
        Refusal::Table,
        Refusal::Size,
        Refusal::Malformed,
        Refusal::Frame,
        Refusal::Version,
        Refusal::Count,
        Refusal::Continuation,
        Refusal::Clock,
        Refusal::Undo,
    ];

    /// The number of this refusal, 1 to 11.
    pub fn number(self) -> u32 {
        self as u32
    }

    /// The refusal of this number.
    pub fn from_number(number: u32) -> Option<Refusal> {
        Refusal::ALL.into_iter().find(|refusal| refusal.number() == number)
    }
}

impl fmt::Display for Refusal {
    fn fmt(&self, f: &mut fmt::Formatter<'_>) -> fmt::Result {
        write!(f, "refusal {}", self.number())
    }
}

impl std::error::Error for Refusal {}

/// What the proved engine answered, from its two numbers.
fn served(number: u32, length: u64, room: usize) -> Served {
    if number == 0 {
        let length = usize::try_from(length).expect("a response is no longer than the room");
        assert!(length <= room, "a response is no longer than the room");
        return Ok(length);
    }
    assert_eq!(length, 0, "a refusal has length 0");
    Err(Refusal::from_number(number).expect("a refusal has a number from 1 to 11"))
}

/// A blank table of so many places: all zero but the place count. Only [`SMALL_COUNT`] and [`LARGE_COUNT`] are served.
pub fn blank_table(count: usize) -> Vec<u8> {
    let mut table = vec![0; table_size(count)];
    table[4..8].copy_from_slice(&(count as u32).to_be_bytes());
    table
}
