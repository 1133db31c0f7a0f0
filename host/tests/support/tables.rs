//! Tables of both place counts: sound ones of many kinds, and such that break one rule of soundness.

use super::limits;
use super::names::name_around;
use super::requests::date_around;
use super::rng::Rng;
use super::texts::{any_text, no_text};
use junctionmoth::model::soundness::{self, GREATEST_TOTAL};
use junctionmoth::model::table::{Name, Record, Table};
use junctionmoth::{LARGE_COUNT, SMALL_COUNT};

/// Which states the records of a table are in.
#[derive(Clone, Copy)]
enum Mix {
    Any,
    Live,
    PreActive,
    Active,
    Destroyed,
}

/// A sound table; one in four is large.
pub fn sound(rng: &mut Rng) -> Table {
    let count = if rng.one_in(4) { LARGE_COUNT } else { SMALL_COUNT };
    sound_of(rng, count)
}

/// A sound table of so many places.
pub fn sound_of(rng: &mut Rng, count: usize) -> Table {
    let mut table = Table::blank(count);
    table.last = last_serial(rng, count);
    table.latest = latest_clock(rng);
    let mix = rng.pick(&[Mix::Any, Mix::Any, Mix::Live, Mix::Live, Mix::PreActive, Mix::Active, Mix::Destroyed]);
    for (place, serial) in placed_serials(rng, count, table.last) {
        table.places[place] = record(rng, serial, mix);
    }
    set_dates(rng, &mut table);
    set_names(rng, &mut table);
    if rng.one_in(3) {
        destroy_one(rng, &mut table);
    }
    link_both_ends(rng, &mut table);
    link_dangling(rng, &mut table);
    table
}

fn last_serial(rng: &mut Rng, count: usize) -> u32 {
    let count = count as u32;
    let near_the_end = u32::MAX - rng.below(70) as u32;
    let any = rng.next() as u32;
    let small = rng.below(3 * u64::from(count)) as u32;
    let edges = [0, 1, 2, 40, count, count + 1, 2 * count, 0xFFFF, 0x7FFF_FFFF, 0x8000_0000, u32::MAX - 1, u32::MAX];
    let edge = rng.pick(&edges);
    rng.pick(&[near_the_end, any, small, edge, edge])
}

fn latest_clock(rng: &mut Rng) -> i64 {
    let small = rng.below(100) as i64;
    let today = 1_700_000_000 + rng.below(100_000_000) as i64;
    let any = rng.next() as i64 & i64::MAX;
    rng.pick(&[0, 0, 1, small, small, today, today, any, i64::MAX - small, i64::MAX])
}

/// Dates for some records, for none or for all: around the latest clock, as a sound table allows.
fn set_dates(rng: &mut Rng, table: &mut Table) {
    let latest = table.latest;
    let share = rng.pick(&[0, 1, 2, 2, 4, 4]);
    for record in table.places.iter_mut().filter(|record| !record.is_free()) {
        if rng.below(4) < share {
            let (one, two) = (date_around(rng, latest), date_around(rng, latest));
            let (first, last) = (one.min(two), one.max(two));
            (record.activation, record.deactivation) =
                rng.pick(&[(first, 0), (0, last), (first, last), (first, last), (last, last), (last, i64::MAX)]);
        }
        if record.state == 2 {
            record.activation = record.activation.min(latest);
        }
    }
}

/// Names for some records, for none or for nearly all; many are alike, and no two are the same.
fn set_names(rng: &mut Rng, table: &mut Table) {
    let share = rng.pick(&[0, 1, 2, 2, 4, 4]);
    for place in 0..table.places.len() {
        if table.places[place].is_free() || rng.below(4) >= share {
            continue;
        }
        let name = name_around(rng, table).into_bytes();
        if table.find_name(&name).is_none() {
            table.places[place].name = Name::of(&name);
        }
    }
}

/// Places and the serials to stand there: distinct, issued, with or without gaps, in order or not.
fn placed_serials(rng: &mut Rng, count: usize, last: u32) -> Vec<(usize, u32)> {
    let any = rng.index(count + 1);
    let fill = rng.pick(&[0, 1, 3, count / 2, count - 1, count, count, SMALL_COUNT, any, any]);
    let window = (fill + rng.pick(&[0, 1, 10, 50])).min(last as usize) as u32;
    let low = if rng.one_in(4) { 1 } else { (last - window).saturating_add(1) };
    let mut serials: Vec<u32> = (0..window).map(|step| low + step).collect();
    rng.shuffle(&mut serials);
    serials.truncate(fill);
    let mut places: Vec<usize> = (0..count).collect();
    if rng.one_in(2) {
        rng.shuffle(&mut places);
    } else {
        serials.sort();
    }
    places.into_iter().zip(serials).collect()
}

fn record(rng: &mut Rng, serial: u32, mix: Mix) -> Record {
    let state = match mix {
        Mix::Any => rng.between(1, 6) as u8,
        Mix::Live => rng.between(1, 4) as u8,
        Mix::PreActive => 1,
        Mix::Active => 2,
        Mix::Destroyed => rng.pick(&[5, 6, 5, 6, 1]),
    };
    let length = rng.pick(&[128, 192, 256]);
    let any = rng.next() as u32 & 0x00FF_FFFF;
    let (protecting, other) = (rng.pick(&limits::PROTECTING) as u32, rng.pick(&limits::OTHERS) as u32);
    let mask = rng.pick(&[4, protecting, 0x00FF_FFFF, any, 0, other]);
    let unit = rng.below(3) as u8;
    let (total, count) = if unit == 0 { (0, 0) } else { limit(rng) };
    let mut material = [0; 32];
    if state < 5 {
        let bytes = usize::from(length) / 8;
        material[..bytes].copy_from_slice(&rng.bytes(bytes));
    }
    Record { serial, state, unit, length, total, count, mask, material, ..Record::default() }
}

fn limit(rng: &mut Rng) -> (u64, u64) {
    let any = rng.between(1, GREATEST_TOTAL);
    let total = rng.pick(&[1, 2, 100, GREATEST_TOTAL - 1, GREATEST_TOTAL, any]);
    let count = rng.below(total + 1);
    (total, rng.pick(&[0, 1, total - 1, total, total, count]))
}

fn destroy_one(rng: &mut Rng, table: &mut Table) {
    if let Some(place) = standing(rng, table) {
        table.places[place].state = rng.pick(&[5, 6]);
        table.places[place].material = [0; 32];
    }
}

/// A place that is not free.
fn standing(rng: &mut Rng, table: &Table) -> Option<usize> {
    choose(rng, table, |record| !record.is_free())
}

fn choose(rng: &mut Rng, table: &Table, wanted: fn(&Record) -> bool) -> Option<usize> {
    let places: Vec<usize> = (0..table.places.len()).filter(|&place| wanted(&table.places[place])).collect();
    (!places.is_empty()).then(|| rng.pick(&places))
}

/// Links of which both ends stand; chains come about by themselves.
fn link_both_ends(rng: &mut Rng, table: &mut Table) {
    let mut places: Vec<usize> = (0..table.places.len()).filter(|&place| !table.places[place].is_free()).collect();
    places.sort_by_key(|&place| table.places[place].serial);
    let times = rng.pick(&[0, 0, 2, 10, 100]);
    for _ in 0..times {
        if places.len() < 2 {
            return;
        }
        let old = rng.index(places.len() - 1);
        let new = if rng.one_in(2) { old + 1 } else { old + 1 + rng.index(places.len() - old - 1) };
        let (old, new) = (places[old], places[new]);
        if table.places[old].replacement == 0 && table.places[new].replaced == 0 {
            table.places[old].replacement = table.places[new].serial;
            table.places[new].replaced = table.places[old].serial;
        }
    }
}

/// Links to serials that do not stand.
fn link_dangling(rng: &mut Rng, table: &mut Table) {
    let times = rng.pick(&[0, 0, 2, 10, 60]);
    for _ in 0..times {
        let Some(place) = standing(rng, table) else { return };
        let step = rng.between(1, 40) as u32;
        let serial = table.places[place].serial;
        let (below, above) = (serial.saturating_sub(step), serial.saturating_add(step));
        if rng.one_in(2) {
            if table.places[place].replaced == 0 && table.find(below).is_none() {
                table.places[place].replaced = below;
            }
        } else if table.places[place].replacement == 0
            && above > serial
            && above <= table.last
            && table.find(above).is_none()
        {
            table.places[place].replacement = above;
        }
    }
}

/// Breaks a sound table in one field; nothing if the table has no such place. More than one rule may be broken.
type Break = fn(&mut Rng, &mut Table) -> Option<()>;

/// For each rule a way to break it.
const BREAKS: [(&str, Break); 29] = [
    ("place count", break_place_count),
    ("size of the place count", break_size_of_count),
    ("free line", break_free_line),
    ("free body", break_free_body),
    ("body zeros", break_body_zeros),
    ("serials distinct", break_serials_distinct),
    ("serial issued", break_serial_issued),
    ("state", break_state),
    ("length", break_length),
    ("mask", break_mask),
    ("unit", break_unit),
    ("no limit", break_no_limit),
    ("total", break_total),
    ("count", break_count),
    ("material past length", break_material_past_length),
    ("material destroyed", break_material_destroyed),
    ("replaced", break_replaced),
    ("replacement", break_replacement),
    ("replaced names back", break_replaced_names_back),
    ("replacement names back", break_replacement_names_back),
    ("dates not negative", break_dates_not_negative),
    ("latest clock not negative", break_latest_not_negative),
    ("dates in order", break_dates_in_order),
    ("Active has begun", break_active_has_begun),
    ("name length", break_name_length),
    ("name zeros", break_name_zeros),
    ("name past length", break_name_past_length),
    ("name is text", break_name_is_text),
    ("names differ", break_names_differ),
];

/// A table that breaks one rule and no other, where a few tries find one; it breaks at least one in any case.
pub fn broken(rng: &mut Rng) -> Vec<u8> {
    let (name, spoil) = rng.pick(&BREAKS);
    for _ in 0..20 {
        let mut table = sound(rng);
        if spoil(rng, &mut table).is_some() {
            let bytes = table.encode();
            if soundness::broken(&bytes) == [name] {
                return bytes;
            }
        }
    }
    let mut table = sound(rng);
    table.place_count = 63;
    table.encode()
}

/// A table with a record that is named as its own replacement, and as replaced by itself: each link names the other.
pub fn self_linked(rng: &mut Rng) -> Vec<u8> {
    let mut table = sound(rng);
    if let Some(place) = standing(rng, &table) {
        let record = &mut table.places[place];
        (record.replaced, record.replacement) = (record.serial, record.serial);
    }
    table.encode()
}

fn break_place_count(rng: &mut Rng, table: &mut Table) -> Option<()> {
    let any = rng.next() as u32;
    table.place_count =
        rng.pick(&[0, 1, 63, 65, 128, 255, 257, 320, 0x4000, 0x1_0000, 0x0100_0040, 0x4000_0000, u32::MAX, any]);
    Some(())
}

fn break_size_of_count(_: &mut Rng, table: &mut Table) -> Option<()> {
    let other = if table.places.len() == SMALL_COUNT { LARGE_COUNT } else { SMALL_COUNT };
    table.place_count = other as u32;
    Some(())
}

fn break_free_line(rng: &mut Rng, table: &mut Table) -> Option<()> {
    let place = choose(rng, table, Record::is_free)?;
    let record = &mut table.places[place];
    match rng.below(5) {
        0 => record.state = rng.between(1, 255) as u8,
        1 => record.unit = rng.between(1, 255) as u8,
        2 => record.length = 1 << rng.below(16),
        3 => record.replaced = 1 << rng.below(32),
        _ => record.replacement = 1 << rng.below(32),
    }
    Some(())
}

fn break_free_body(rng: &mut Rng, table: &mut Table) -> Option<()> {
    let place = choose(rng, table, Record::is_free)?;
    let record = &mut table.places[place];
    match rng.below(10) {
        0 => record.total = 1 << rng.below(64),
        1 => record.count = 1 << rng.below(64),
        2 => record.mask = 1 << rng.below(32),
        3 => record.zeros = 1 << rng.below(32),
        4 => record.activation = 1 << rng.below(64),
        5 => record.deactivation = 1 << rng.below(64),
        6 => record.name.length = rng.pick(&[1, 4, 32, 33, 255]),
        7 => record.name.zeros[rng.index(7)] = 1 << rng.below(8),
        8 => record.name.room[rng.index(32)] = 1 << rng.below(8),
        _ => record.material[rng.index(32)] = 1 << rng.below(8),
    }
    Some(())
}

fn break_body_zeros(rng: &mut Rng, table: &mut Table) -> Option<()> {
    let place = standing(rng, table)?;
    table.places[place].zeros = 1 << rng.below(32);
    Some(())
}

fn break_serials_distinct(rng: &mut Rng, table: &mut Table) -> Option<()> {
    let (one, two) = (standing(rng, table)?, standing(rng, table)?);
    for place in [one, two] {
        table.places[place].replaced = 0;
        table.places[place].replacement = 0;
    }
    table.places[one].serial = table.places[two].serial;
    Some(())
}

fn break_serial_issued(rng: &mut Rng, table: &mut Table) -> Option<()> {
    let place = standing(rng, table)?;
    if rng.one_in(2) {
        table.places[place].serial = table.last.checked_add(rng.pick(&[1, 2, 1000]))?;
    } else {
        table.last = table.standing().map(|record| record.serial).max()? - 1;
    }
    Some(())
}

fn break_state(rng: &mut Rng, table: &mut Table) -> Option<()> {
    let place = standing(rng, table)?;
    table.places[place].state = rng.pick(&[0, 7, 8, 128, 129, 255]);
    Some(())
}

fn break_length(rng: &mut Rng, table: &mut Table) -> Option<()> {
    let place = standing(rng, table)?;
    table.places[place].length = rng.pick(&[0, 1, 16, 64, 127, 129, 136, 191, 193, 255, 257, 320, 512, 0x8080, 0xFFFF]);
    Some(())
}

fn break_mask(rng: &mut Rng, table: &mut Table) -> Option<()> {
    let place = standing(rng, table)?;
    table.places[place].mask |= 0x0100_0000 << rng.below(8);
    Some(())
}

fn break_unit(rng: &mut Rng, table: &mut Table) -> Option<()> {
    let place = choose(rng, table, |record| record.unit != 0)?;
    table.places[place].unit = rng.pick(&[3, 4, 129, 130, 255]);
    Some(())
}

fn break_no_limit(rng: &mut Rng, table: &mut Table) -> Option<()> {
    let place = choose(rng, table, |record| !record.is_free() && record.unit == 0)?;
    let record = &mut table.places[place];
    (record.total, record.count) = rng.pick(&[(1, 0), (0, 1), (1, 1), (100, 100), (1 << 63, 0), (0, 1 << 63)]);
    Some(())
}

fn break_total(rng: &mut Rng, table: &mut Table) -> Option<()> {
    let place = choose(rng, table, |record| record.unit != 0)?;
    let record = &mut table.places[place];
    record.total = rng.pick(&[0, GREATEST_TOTAL + 1, 1 << 63, u64::MAX]);
    record.count = record.count.min(record.total);
    Some(())
}

fn break_count(rng: &mut Rng, table: &mut Table) -> Option<()> {
    let place = choose(rng, table, |record| record.unit != 0)?;
    let record = &mut table.places[place];
    record.count = rng.pick(&[record.total + 1, 1 << 63, u64::MAX]);
    Some(())
}

fn break_material_past_length(rng: &mut Rng, table: &mut Table) -> Option<()> {
    let place = choose(rng, table, |record| (128..256).contains(&record.length) && record.state < 5)?;
    let record = &mut table.places[place];
    let first = u64::from(record.length / 8);
    let at = rng.between(first, 31);
    let at = rng.pick(&[first, at, 31]);
    record.material[at as usize] = 1 << rng.below(8);
    Some(())
}

fn break_material_destroyed(rng: &mut Rng, table: &mut Table) -> Option<()> {
    let place = choose(rng, table, |record| record.state >= 5)?;
    let record = &mut table.places[place];
    let at = rng.index(usize::from(record.length) / 8);
    record.material[at] = 1 << rng.below(8);
    Some(())
}

fn break_replaced(rng: &mut Rng, table: &mut Table) -> Option<()> {
    let place = standing(rng, table)?;
    let serial = table.places[place].serial;
    let above = serial.saturating_add(rng.between(1, 50) as u32);
    table.places[place].replaced = rng.pick(&[serial, above, above, u32::MAX]);
    Some(())
}

fn break_replacement(rng: &mut Rng, table: &mut Table) -> Option<()> {
    let place = standing(rng, table)?;
    let serial = table.places[place].serial;
    let below = serial.saturating_sub(rng.between(1, 50) as u32);
    let not_issued = table.last.saturating_add(1);
    table.places[place].replacement = rng.pick(&[serial, below, not_issued, u32::MAX]);
    Some(())
}

fn break_replaced_names_back(rng: &mut Rng, table: &mut Table) -> Option<()> {
    let (one, two) = (standing(rng, table)?, standing(rng, table)?);
    table.places[one].replaced = table.places[two].serial;
    Some(())
}

fn break_replacement_names_back(rng: &mut Rng, table: &mut Table) -> Option<()> {
    let (one, two) = (standing(rng, table)?, standing(rng, table)?);
    table.places[one].replacement = table.places[two].serial;
    Some(())
}

fn break_dates_not_negative(rng: &mut Rng, table: &mut Table) -> Option<()> {
    let place = standing(rng, table)?;
    let record = &mut table.places[place];
    let any = rng.next() as i64 | i64::MIN;
    let negative = rng.pick(&[-1, i64::MIN, -record.activation - 1, any]);
    if rng.one_in(2) {
        record.activation = negative;
    } else {
        (record.activation, record.deactivation) = (0, negative);
    }
    Some(())
}

fn break_latest_not_negative(rng: &mut Rng, table: &mut Table) -> Option<()> {
    let any = rng.next() as i64 | i64::MIN;
    table.latest = rng.pick(&[-1, i64::MIN, -table.latest - 1, any]);
    for record in table.places.iter_mut().filter(|record| record.state == 2) {
        record.activation = 0;
    }
    Some(())
}

fn break_dates_in_order(rng: &mut Rng, table: &mut Table) -> Option<()> {
    let place = choose(rng, table, |record| record.activation > 1)?;
    let record = &mut table.places[place];
    let any = rng.between(1, record.activation as u64 - 1) as i64;
    record.deactivation = rng.pick(&[1, record.activation - 1, any]);
    Some(())
}

fn break_active_has_begun(rng: &mut Rng, table: &mut Table) -> Option<()> {
    let place = choose(rng, table, |record| record.state == 2)?;
    let after = table.latest.checked_add(1)?;
    let record = &mut table.places[place];
    record.activation = rng.pick(&[after, after, i64::MAX]);
    record.deactivation = rng.pick(&[0, record.activation, i64::MAX]);
    Some(())
}

/// With zeros behind it, which are text, such a name breaks no other rule.
fn break_name_length(rng: &mut Rng, table: &mut Table) -> Option<()> {
    let place = standing(rng, table)?;
    let any = rng.between(33, 255) as u8;
    table.places[place].name.length = rng.pick(&[33, 34, 64, 128, 160, 255, any]);
    Some(())
}

fn break_name_zeros(rng: &mut Rng, table: &mut Table) -> Option<()> {
    let place = standing(rng, table)?;
    table.places[place].name.zeros[rng.index(7)] = 1 << rng.below(8);
    Some(())
}

fn break_name_past_length(rng: &mut Rng, table: &mut Table) -> Option<()> {
    let place = choose(rng, table, |record| !record.is_free() && record.name.length < 32)?;
    let name = &mut table.places[place].name;
    let first = u64::from(name.length);
    let at = rng.between(first, 31);
    let at = rng.pick(&[first, at, 31]);
    name.room[at as usize] = 1 << rng.below(8);
    Some(())
}

fn break_name_is_text(rng: &mut Rng, table: &mut Table) -> Option<()> {
    let place = standing(rng, table)?;
    let wrong = no_text(rng);
    let most = 32_usize.checked_sub(wrong.len())?;
    let any = rng.index(most + 1);
    let before = rng.pick(&[0, most, any]);
    table.places[place].name = Name::of(&[any_text(rng, before).as_bytes(), &wrong].concat());
    Some(())
}

fn break_names_differ(rng: &mut Rng, table: &mut Table) -> Option<()> {
    let one = choose(rng, table, |record| record.name.length > 0)?;
    let two = standing(rng, table).filter(|&two| two != one)?;
    table.places[two].name = table.places[one].name.clone();
    Some(())
}
