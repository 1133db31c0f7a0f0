//! Soundness of a stored table, as a list of named rules.
//! A table is sound if none of them is broken.

use super::table::{places_in, Name, Record, Table, COUNTS};
use super::ttlv::is_text;

/// The greatest total of a usage limit.
pub const GREATEST_TOTAL: u64 = 1_000_000_000_000;

/// A rule that a table of a size that there is keeps or breaks.
pub struct Rule {
    pub name: &'static str,
    pub kept: fn(&Table) -> bool,
}

/// The name of the one rule that is about the size alone: it is that of some place count.
pub const SIZE_RULE: &str = "size";

/// All other rules.
pub const RULES: [Rule; 29] = [
    Rule { name: "place count", kept: |table| COUNTS.contains(&(table.place_count as usize)) },
    Rule { name: "size of the place count", kept: size_follows },
    Rule { name: "free line", kept: |table| table.places.iter().all(|record| !record.is_free() || line_zero(record)) },
    Rule { name: "free body", kept: |table| table.places.iter().all(|record| !record.is_free() || body_zero(record)) },
    Rule { name: "body zeros", kept: |table| table.standing().all(|record| record.zeros == 0) },
    Rule { name: "serials distinct", kept: serials_distinct },
    Rule { name: "serial issued", kept: |table| table.standing().all(|record| record.serial <= table.last) },
    Rule { name: "state", kept: |table| table.standing().all(|record| (1..=6).contains(&record.state)) },
    Rule { name: "length", kept: |table| table.standing().all(|record| [128, 192, 256].contains(&record.length)) },
    Rule { name: "mask", kept: |table| table.standing().all(|record| record.mask <= 0x00FF_FFFF) },
    Rule { name: "unit", kept: |table| table.standing().all(|record| record.unit <= 2) },
    Rule { name: "no limit", kept: |table| table.standing().all(no_limit_is_zero) },
    Rule { name: "total", kept: |table| table.standing().all(total_in_range) },
    Rule { name: "count", kept: |table| table.standing().all(count_within_total) },
    Rule { name: "material past length", kept: |table| table.standing().all(material_within_length) },
    Rule { name: "material destroyed", kept: |table| table.standing().all(destroyed_is_empty) },
    Rule { name: "replaced", kept: |table| table.standing().all(replaced_is_below) },
    Rule { name: "replacement", kept: |table| table.standing().all(|record| replacement_is_above(record, table.last)) },
    Rule { name: "replaced names back", kept: replaced_names_back },
    Rule { name: "replacement names back", kept: replacement_names_back },
    Rule { name: "dates not negative", kept: |table| table.standing().all(dates_not_negative) },
    Rule { name: "latest clock not negative", kept: |table| table.latest >= 0 },
    Rule { name: "dates in order", kept: |table| table.standing().all(dates_in_order) },
    Rule {
        name: "Active has begun",
        kept: |table| table.standing().all(|record| active_has_begun(record, table.latest)),
    },
    Rule { name: "name length", kept: |table| table.standing().all(|record| record.name.length <= 32) },
    Rule { name: "name zeros", kept: |table| table.standing().all(|record| record.name.zeros == [0; 7]) },
    Rule { name: "name past length", kept: |table| table.standing().all(name_within_length) },
    Rule { name: "name is text", kept: |table| table.standing().all(name_is_text) },
    Rule { name: "names differ", kept: names_differ },
];

/// The names of all rules, in the order in which they are looked at.
pub fn names() -> Vec<&'static str> {
    std::iter::once(SIZE_RULE).chain(RULES.iter().map(|rule| rule.name)).collect()
}

/// The names of the rules that this table breaks: of the size alone if that is wrong.
pub fn broken(bytes: &[u8]) -> Vec<&'static str> {
    if places_in(bytes.len()).is_none() {
        return vec![SIZE_RULE];
    }
    let table = Table::decode(bytes);
    RULES.iter().filter(|rule| !(rule.kept)(&table)).map(|rule| rule.name).collect()
}

/// The size is that of the place count, if that is one that there is.
fn size_follows(table: &Table) -> bool {
    let said = table.place_count as usize;
    !COUNTS.contains(&said) || table.places.len() == said
}

fn line_zero(record: &Record) -> bool {
    let numbers = [u32::from(record.state), u32::from(record.unit), u32::from(record.length)];
    numbers == [0; 3] && record.serial == 0 && record.replaced == 0 && record.replacement == 0
}

fn body_zero(record: &Record) -> bool {
    let numbers = [record.total, record.count, u64::from(record.mask), u64::from(record.zeros)];
    let dates = [record.activation, record.deactivation];
    numbers == [0; 4] && record.material == [0; 32] && dates == [0; 2] && record.name == Name::default()
}

fn serials_distinct(table: &Table) -> bool {
    table.standing().all(|record| table.standing().filter(|other| other.serial == record.serial).count() == 1)
}

fn no_limit_is_zero(record: &Record) -> bool {
    record.unit != 0 || (record.total == 0 && record.count == 0)
}

fn total_in_range(record: &Record) -> bool {
    record.unit == 0 || (1..=GREATEST_TOTAL).contains(&record.total)
}

fn count_within_total(record: &Record) -> bool {
    record.unit == 0 || record.count <= record.total
}

fn material_within_length(record: &Record) -> bool {
    record.material.iter().skip(usize::from(record.length / 8)).all(|&byte| byte == 0)
}

fn destroyed_is_empty(record: &Record) -> bool {
    ![5, 6].contains(&record.state) || record.material == [0; 32]
}

fn replaced_is_below(record: &Record) -> bool {
    record.replaced == 0 || record.replaced < record.serial
}

fn replacement_is_above(record: &Record, last: u32) -> bool {
    record.replacement == 0 || (record.replacement > record.serial && record.replacement <= last)
}

/// Whoever is named as replaced, and stands, names the one who says so as its replacement.
fn replaced_names_back(table: &Table) -> bool {
    table.standing().filter(|record| record.replaced != 0).all(|record| {
        let mut named = table.standing().filter(|other| other.serial == record.replaced);
        named.all(|other| other.replacement == record.serial)
    })
}

/// Whoever is named as replacement, and stands, names the one who says so as replaced.
fn replacement_names_back(table: &Table) -> bool {
    table.standing().filter(|record| record.replacement != 0).all(|record| {
        let mut named = table.standing().filter(|other| other.serial == record.replacement);
        named.all(|other| other.replaced == record.serial)
    })
}

fn dates_not_negative(record: &Record) -> bool {
    record.activation >= 0 && record.deactivation >= 0
}

/// Deactivation is not before activation where both are set.
fn dates_in_order(record: &Record) -> bool {
    record.activation == 0 || record.deactivation == 0 || record.deactivation >= record.activation
}

/// A set activation date of an Active key is at most the latest clock.
fn active_has_begun(record: &Record, latest: i64) -> bool {
    record.state != 2 || record.activation == 0 || record.activation <= latest
}

fn name_within_length(record: &Record) -> bool {
    record.name.room.iter().skip(usize::from(record.name.length)).all(|&byte| byte == 0)
}

fn name_is_text(record: &Record) -> bool {
    record.name.text().is_none_or(is_text)
}

/// No two records have the same name, destroyed ones among them.
fn names_differ(table: &Table) -> bool {
    let names: Vec<&[u8]> = table.standing().filter_map(|record| record.name.text()).collect();
    names.iter().all(|name| names.iter().filter(|other| *other == name).count() == 1)
}
