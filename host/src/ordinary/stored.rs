//! The stored table, read and written in place, and its soundness. `N` is its number of places.
//! Assumes nothing.

use crate::{LARGE_COUNT, SMALL_COUNT};

pub const GREATEST_TOTAL: u64 = 1_000_000_000_000;

/// The largest Date-Time.
const LAST_DATE: u64 = i64::MAX as u64;

const LEAD: usize = 16;
const LINE: usize = 16;
const BODY: usize = 112;

/// Where a body has its material, its dates and its name.
const MATERIAL: std::ops::Range<usize> = 24..56;
const DATES: std::ops::Range<usize> = 56..72;
const NAME: std::ops::Range<usize> = 72..BODY;
/// Where a name has its text: behind its length and seven zeros.
const TEXT: usize = 8;
/// Where the lead has the latest clock seen.
const LATEST: std::ops::Range<usize> = 8..LEAD;

/// The parts of a table, lent for writing.
pub struct Table<'a, const N: usize> {
    lead: &'a mut [u8; LEAD],
    lines: &'a mut [[u8; LINE]; N],
    bodies: &'a mut [[u8; BODY]; N],
}

/// A line of the contents.
#[derive(Clone, Copy, Default)]
pub struct Line {
    pub serial: u32,
    pub state: u8,
    pub unit: u8,
    pub length: u16,
    pub replaced: u32,
    pub replacement: u32,
}

/// What a body says of the usage of its key.
#[derive(Clone, Copy)]
pub struct Usage {
    pub total: u64,
    pub count: u64,
    pub mask: u32,
}

/// The dates of a body; 0 is not set. In a sound table, and of a request, none has its highest bit set.
#[derive(Clone, Copy)]
pub struct Dates {
    pub activation: u64,
    pub deactivation: u64,
}

/// A name as it is stored: its length, 0 for no name, seven zeros, and its text with zeros behind it. So names are the same
/// if all their bytes are.
#[derive(Clone, Copy, PartialEq, Eq, PartialOrd, Ord)]
pub struct Name([u8; NAME.end - NAME.start]);

/// All that is known of a key but its material.
#[derive(Clone, Copy)]
pub struct Key {
    pub line: Line,
    pub usage: Usage,
    pub dates: Dates,
    pub name: Name,
}

/// No name.
impl Default for Name {
    fn default() -> Self {
        Name([0; NAME.end - NAME.start])
    }
}

impl Name {
    /// The name of this text, if it has 1 to 32 bytes.
    pub fn new(text: &[u8]) -> Option<Self> {
        let mut name = Name::default();
        if text.is_empty() {
            return None;
        }
        name.0.get_mut(TEXT..TEXT + text.len())?.copy_from_slice(text);
        name.0[0] = text.len() as u8;
        Some(name)
    }

    fn read(body: &[u8; BODY]) -> Self {
        body.last_chunk().map_or_else(Name::default, |name| Name(*name))
    }

    fn is_none(&self) -> bool {
        self.0[0] == 0
    }

    /// The text; of a name that is not sound, what there is of it.
    pub fn text(&self) -> &[u8] {
        let text = &self.0[TEXT..];
        text.get(..usize::from(self.0[0])).unwrap_or(text)
    }

    fn is_sound(&self) -> bool {
        if self.is_none() {
            return *self == Name::default();
        }
        let text = self.text();
        text.len() == usize::from(self.0[0])
            && self.0[1..TEXT] == [0; TEXT - 1]
            && self.0[TEXT + text.len()..].iter().all(|&byte| byte == 0)
            && std::str::from_utf8(text).is_ok()
    }
}

impl Dates {
    fn read(body: &[u8; BODY]) -> Self {
        let [.., activation, deactivation, _, _, _, _, _] = words(body);
        Dates { activation, deactivation }
    }

    /// Whether deactivation is not before activation, where both are set.
    pub fn in_order(self) -> bool {
        self.deactivation == 0 || self.activation <= self.deactivation
    }

    /// The same span from this start on; one without an end stays so. None if it has an end and no start, or runs past
    /// the last Date-Time.
    pub fn moved_to(self, start: u64) -> Option<Dates> {
        let end = match (self.activation, self.deactivation) {
            (_, 0) => 0,
            (0, _) => return None,
            (first, last) => start.checked_add(last.checked_sub(first)?)?,
        };
        (start.max(end) <= LAST_DATE).then_some(Dates { activation: start, deactivation: end })
    }

    fn begun_by(self, now: u64) -> bool {
        (1..=now).contains(&self.activation)
    }

    pub fn ended_by(self, now: u64) -> bool {
        (1..=now).contains(&self.deactivation)
    }

    /// The state that a key of this state has when the clock is `now`.
    pub fn state_at(self, now: u64, state: u8) -> u8 {
        match state {
            1 if self.begun_by(now) => self.state_at(now, 2),
            2 if self.ended_by(now) => 3,
            _ => state,
        }
    }
}

impl Line {
    fn read(bytes: &[u8; LINE]) -> Self {
        let bits = u128::from_be_bytes(*bytes);
        Line {
            serial: (bits >> 96) as u32,
            state: (bits >> 88) as u8,
            unit: (bits >> 80) as u8,
            length: (bits >> 64) as u16,
            replaced: (bits >> 32) as u32,
            replacement: bits as u32,
        }
    }

    fn bytes(self) -> [u8; LINE] {
        let high = u64::from(self.serial) << 32
            | u64::from(self.state) << 24
            | u64::from(self.unit) << 16
            | u64::from(self.length);
        let low = u64::from(self.replaced) << 32 | u64::from(self.replacement);
        (u128::from(high) << 64 | u128::from(low)).to_be_bytes()
    }
}

/// The eight-byte words of a body: total, count, mask with the zeros, four of material, the two dates, and five of the name.
fn words(body: &[u8; BODY]) -> [u64; BODY / 8] {
    let mut words = [0; BODY / 8];
    for (word, bytes) in words.iter_mut().zip(body.as_chunks::<8>().0) {
        *word = u64::from_be_bytes(*bytes);
    }
    words
}

impl<'a, const N: usize> Table<'a, N> {
    /// The parts of a table of the right size.
    pub fn new(bytes: &'a mut [u8]) -> Option<Self> {
        let (lead, rest) = bytes.split_first_chunk_mut()?;
        let (lines, bodies) = rest.split_at_mut_checked(N * LINE)?;
        match (lines.as_chunks_mut(), bodies.as_chunks_mut()) {
            ((lines, []), (bodies, [])) => {
                Some(Table { lead, lines: lines.try_into().ok()?, bodies: bodies.try_into().ok()? })
            }
            _ => None,
        }
    }

    /// Takes over all bytes of another table.
    pub fn copy_from(&mut self, other: &Table<N>) {
        self.lead.copy_from_slice(other.lead);
        self.lines.copy_from_slice(other.lines);
        self.bodies.copy_from_slice(other.bodies);
    }

    pub fn last(&self) -> u32 {
        (u128::from_be_bytes(*self.lead) >> 96) as u32
    }

    /// Moves the stored clock on to this one, unless it is later already, and makes the changes of state that are due
    /// by it. Gives the clock that is stored then.
    pub fn advance(&mut self, clock: u64) -> u64 {
        let latest = u128::from_be_bytes(*self.lead) as u64;
        let now = clock.max(latest);
        self.lead[LATEST].copy_from_slice(&now.to_be_bytes());
        for (line, body) in self.lines.iter_mut().zip(self.bodies.iter()) {
            let state = line[4];
            if matches!(state, 1 | 2) {
                line[4] = Dates::read(body).state_at(now, state);
            }
        }
        now
    }

    pub fn line(&self, place: usize) -> Line {
        Line::read(&self.lines[place % N])
    }

    pub fn usage(&self, place: usize) -> Usage {
        let [total, count, mask, ..] = words(&self.bodies[place % N]);
        Usage { total, count, mask: (mask >> 32) as u32 }
    }

    pub fn material(&self, place: usize) -> [u8; 32] {
        let mut material = [0; 32];
        material.copy_from_slice(&self.bodies[place % N][MATERIAL]);
        material
    }

    pub fn dates(&self, place: usize) -> Dates {
        Dates::read(&self.bodies[place % N])
    }

    /// The key of this place, which has this line.
    pub fn key(&self, place: usize, line: Line) -> Key {
        let name = Name::read(&self.bodies[place % N]);
        Key { line, usage: self.usage(place), dates: self.dates(place), name }
    }

    pub fn set_line(&mut self, place: usize, line: Line) {
        self.lines[place % N] = line.bytes();
    }

    pub fn set_count(&mut self, place: usize, count: u64) {
        self.bodies[place % N][8..16].copy_from_slice(&count.to_be_bytes());
    }

    pub fn clear_material(&mut self, place: usize) {
        self.bodies[place % N][MATERIAL].fill(0);
    }

    pub fn clear_name(&mut self, place: usize) {
        self.bodies[place % N][NAME].fill(0);
    }

    pub fn set_dates(&mut self, place: usize, dates: Dates) {
        let both = u128::from(dates.activation) << 64 | u128::from(dates.deactivation);
        self.bodies[place % N][DATES].copy_from_slice(&both.to_be_bytes());
    }

    /// Writes a whole new record, which becomes the last issued. Of `fresh` the first `length / 8` bytes are taken.
    pub fn put(&mut self, place: usize, key: &Key, fresh: &[u8; 32]) {
        let Key { line, usage, dates, name } = key;
        self.lead[..4].copy_from_slice(&line.serial.to_be_bytes());
        self.set_line(place, *line);
        self.set_dates(place, *dates);
        let body = &mut self.bodies[place % N];
        body[NAME].copy_from_slice(&name.0);
        body[..8].copy_from_slice(&usage.total.to_be_bytes());
        body[8..16].copy_from_slice(&usage.count.to_be_bytes());
        body[16..24].copy_from_slice(&(u64::from(usage.mask) << 32).to_be_bytes());
        let bytes = usize::from(line.length / 8);
        for (index, (byte, fresh)) in body[MATERIAL].iter_mut().zip(fresh).enumerate() {
            *byte = if index < bytes { *fresh } else { 0 };
        }
    }

    /// The place of the record with this serial, which is not 0.
    pub fn find(&self, serial: u32) -> Option<usize> {
        let serial = serial.to_be_bytes();
        self.lines.iter().position(|line| line.starts_with(&serial))
    }

    /// The place of the record with this name, destroyed or not; no record has the empty one.
    pub fn find_name(&self, name: &Name) -> Option<usize> {
        if name.is_none() {
            return None;
        }
        self.bodies.iter().position(|body| body[NAME] == name.0)
    }

    /// The lowest free place, or if none is free the lowest that is destroyed.
    pub fn place_for_new(&self) -> Option<usize> {
        let free = self.lines.iter().position(|line| line.starts_with(&[0; 4]));
        free.or_else(|| self.lines.iter().position(|line| matches!(line[4], 5 | 6)))
    }
}

/// How many places the lead of a table says it has.
pub fn places_said(table: &[u8]) -> Option<usize> {
    let lead: &[u8; LEAD] = table.first_chunk()?;
    Some((u128::from_be_bytes(*lead) >> 64) as u32 as usize)
}

/// Whether a stored table has a number of places that there is, and is sound.
pub fn sound(table: &[u8]) -> bool {
    match places_said(table) {
        Some(SMALL_COUNT) => sound_for::<SMALL_COUNT>(table),
        Some(LARGE_COUNT) => sound_for::<LARGE_COUNT>(table),
        _ => false,
    }
}

/// Whether a table whose lead says N is sound: size and clock, every place by itself, then serials and links, then names.
pub fn sound_for<const N: usize>(table: &[u8]) -> bool {
    let Some((lead, lines, bodies)) = parts::<N>(table) else {
        return false;
    };
    let lead = u128::from_be_bytes(*lead);
    let last = (lead >> 96) as u32;
    let latest = lead as u64;
    latest >> 63 == 0
        && lines.iter().zip(bodies).all(|(line, body)| sound_place(line, body, last, latest))
        && sound_links(lines)
        && names_differ(bodies)
}

type Parts<'a, const N: usize> = (&'a [u8; LEAD], &'a [[u8; LINE]; N], &'a [[u8; BODY]; N]);

/// The parts of a table of the right size.
fn parts<const N: usize>(table: &[u8]) -> Option<Parts<'_, N>> {
    let (lead, rest) = table.split_first_chunk()?;
    let (lines, bodies) = rest.split_at_checked(N * LINE)?;
    match (lines.as_chunks(), bodies.as_chunks()) {
        ((lines, []), (bodies, [])) => Some((lead, lines.try_into().ok()?, bodies.try_into().ok()?)),
        _ => None,
    }
}

#[inline(always)]
fn sound_place(line: &[u8; LINE], body: &[u8; BODY], last: u32, latest: u64) -> bool {
    let line_bytes = line;
    let line = Line::read(line);
    let words = words(body);
    if line.serial == 0 {
        return u128::from_be_bytes(*line_bytes) == 0 && any_bit(&words) == 0;
    }
    let [total, count, mask, material @ .., activation, deactivation, _, _, _, _, _] = words;
    line.serial <= last
        && matches!(line.state, 1..=6)
        && mask & 0xFF00_0000_FFFF_FFFF == 0
        && sound_limit(line.unit, total, count)
        && sound_material(line.state, line.length, &material)
        && sound_dates(line.state, Dates { activation, deactivation }, latest)
        && Name::read(body).is_sound()
        && line.replaced < line.serial
        && (line.replacement == 0 || (line.serial < line.replacement && line.replacement <= last))
}

fn sound_limit(unit: u8, total: u64, count: u64) -> bool {
    match unit {
        0 => total | count == 0,
        1 | 2 => (1..=GREATEST_TOTAL).contains(&total) && count <= total,
        _ => false,
    }
}

fn sound_material(state: u8, length: u16, material: &[u64; 4]) -> bool {
    let used = match length {
        128 => 2,
        192 => 3,
        256 => 4,
        _ => return false,
    };
    let kept = if state < 5 { used } else { 0 };
    any_bit(&material[kept..]) == 0
}

fn sound_dates(state: u8, dates: Dates, latest: u64) -> bool {
    (dates.activation | dates.deactivation) >> 63 == 0 && dates.in_order() && (state != 2 || dates.activation <= latest)
}

fn any_bit(words: &[u64]) -> u64 {
    words.iter().fold(0, |bits, word| bits | word)
}

/// Serials distinct, and each link whose ends both stand named by both.
fn sound_links<const N: usize>(lines: &[[u8; LINE]; N]) -> bool {
    let mut room = [Line::default(); N];
    let mut number = 0;
    for (slot, line) in room.iter_mut().zip(lines.iter().map(Line::read).filter(|line| line.serial != 0)) {
        *slot = line;
        number += 1;
    }
    let Some(standing) = room.get_mut(..number) else { return false };
    standing.sort_unstable_by_key(|line| line.serial);
    standing.windows(2).all(|pair| pair[0].serial != pair[1].serial)
        && standing.iter().all(|line| links_mutual(line, standing))
}

/// Whether all names are different. Every one of them is sound by itself, and free places have none.
fn names_differ<const N: usize>(bodies: &[[u8; BODY]; N]) -> bool {
    let mut room = [Name::default(); N];
    let mut number = 0;
    for (slot, name) in room.iter_mut().zip(bodies.iter().map(Name::read).filter(|name| !name.is_none())) {
        *slot = name;
        number += 1;
    }
    let Some(names) = room.get_mut(..number) else { return false };
    names.sort_unstable();
    names.windows(2).all(|pair| pair[0] != pair[1])
}

/// Whether the records that a line names name it back, as far as they stand. The lines are in the order of serials.
fn links_mutual(line: &Line, standing: &[Line]) -> bool {
    let named = |serial: u32| {
        let at = standing.binary_search_by_key(&serial, |line| line.serial).ok()?;
        standing.get(at)
    };
    (line.replaced == 0 || named(line.replaced).is_none_or(|other| other.replacement == line.serial))
        && (line.replacement == 0 || named(line.replacement).is_none_or(|other| other.replaced == line.serial))
}
