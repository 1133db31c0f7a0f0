//! The frame of a request and the payloads of its items, read in place.
//! Starts from well-formed TTLV.

use super::items::Fields;
use super::stored::{Dates, Name};

/// A request whose frame is right.
pub struct Frame<'a> {
    pub version: (u32, u32),
    pub option: Option<u32>,
    pub count: usize,
    pub number_of_items: usize,
    items: Fields<'a>,
}

/// A batch item.
pub struct BatchItem<'a> {
    pub operation: u32,
    pub id: Option<&'a [u8]>,
    pub payload: Fields<'a>,
}

/// What an item asks for.
pub enum Order<'a> {
    Create(Wanted),
    Locate(Name),
    /// With its Offset, if one is given.
    Rekey(Target<'a>, Option<u32>),
    Allocate(Target<'a>, u64),
    Activate(Target<'a>),
    Revoke(Target<'a>, u32),
    Destroy(Target<'a>),
    Key(Target<'a>),
    Attributes(Target<'a>),
}

/// The uses that apply protection: Sign, Encrypt and MAC Generate. A limit needs one of them in the mask.
const PROTECTING: u32 = 0x01 | 0x04 | 0x80;

/// The text of the identifier, if one is given.
pub type Target<'a> = Option<&'a [u8]>;

/// The attributes of a key to be created; unit 0 with total 0 for no limit, and the empty name for none.
pub struct Wanted {
    pub length: u16,
    pub mask: u32,
    pub unit: u8,
    pub total: u64,
    pub dates: Dates,
    pub name: Name,
}

/// Why an item's payload does not give an order.
pub enum Unusable {
    Operation,
    Payload,
}

impl<'a> Frame<'a> {
    pub fn read(mut request: Fields<'a>) -> Option<Self> {
        let mut message = request.structure(0x42007801)?;
        let mut header = message.structure(0x42007701)?;
        let mut version = header.structure(0x42006901)?;
        let version_numbers = (version.word(0x42006A02)?, version.word(0x42006B02)?);
        let option = header.word(0x42000E05);
        let count = header.word(0x42000D02)? as usize;
        if !version.is_empty() || !header.is_empty() {
            return None;
        }
        let number_of_items = count_items(message)?;
        Some(Frame { version: version_numbers, option, count, number_of_items, items: message })
    }

    /// The batch items, one after the other.
    pub fn items(&self) -> impl Iterator<Item = BatchItem<'a>> {
        let mut items = self.items;
        std::iter::from_fn(move || BatchItem::read(&mut items))
    }
}

/// How many batch items stand here; none if there is no item or something else.
fn count_items(mut items: Fields) -> Option<usize> {
    let mut number = 0;
    while !items.is_empty() {
        BatchItem::read(&mut items)?;
        number += 1;
    }
    (number > 0).then_some(number)
}

impl<'a> BatchItem<'a> {
    fn read(items: &mut Fields<'a>) -> Option<Self> {
        let mut item = items.structure(0x42000F01)?;
        let operation = item.word(0x42005C05)?;
        let id = item.take(0x42009308);
        let payload = item.structure(0x42007901)?;
        let id_allowed = id.is_none_or(|id| (1..=16).contains(&id.len()));
        (item.is_empty() && id_allowed).then_some(BatchItem { operation, id, payload })
    }

    /// What the item asks for.
    pub fn order(&self) -> Result<Order<'a>, Unusable> {
        if !matches!(self.operation, 0x01 | 0x04 | 0x08 | 0x0A | 0x0B | 0x11..=0x14) {
            return Err(Unusable::Operation);
        }
        let mut payload = self.payload;
        let order = read_order(self.operation, &mut payload).ok_or(Unusable::Payload)?;
        if payload.is_empty() {
            Ok(order)
        } else {
            Err(Unusable::Payload)
        }
    }
}

fn read_order<'a>(operation: u32, payload: &mut Fields<'a>) -> Option<Order<'a>> {
    match operation {
        0x01 => return Wanted::read(payload).map(Order::Create),
        0x08 => return read_wanted_name(payload).map(Order::Locate),
        _ => {}
    }
    let target = read_target(payload)?;
    match operation {
        0x04 => read_offset(payload).map(|offset| Order::Rekey(target, offset)),
        0x0A => Some(Order::Key(target)),
        0x0B => Some(Order::Attributes(target)),
        0x11 => read_amount(payload).map(|amount| Order::Allocate(target, amount)),
        0x12 => Some(Order::Activate(target)),
        0x13 => read_code(payload).map(|code| Order::Revoke(target, code)),
        _ => Some(Order::Destroy(target)),
    }
}

/// The identifier if one is given; nothing if it is no text.
fn read_target<'a>(payload: &mut Fields<'a>) -> Option<Target<'a>> {
    if payload.next_has_tag(0x420094) {
        payload.take(0x42009407).map(Some)
    } else {
        Some(None)
    }
}

/// The Offset if one is given; nothing if it is no Interval.
fn read_offset(payload: &mut Fields) -> Option<Option<u32>> {
    if payload.next_has_tag(0x420058) {
        payload.word(0x4200580A).map(Some)
    } else {
        Some(None)
    }
}

fn read_amount(payload: &mut Fields) -> Option<u64> {
    let amount = u64::try_from(payload.long(0x42009603)?).ok()?;
    (amount > 0).then_some(amount)
}

fn read_code(payload: &mut Fields) -> Option<u32> {
    let mut reason = payload.structure(0x42008101)?;
    let code = reason.word(0x42008205)?;
    (reason.is_empty() && (1..=7).contains(&code)).then_some(code)
}

impl Wanted {
    fn read(payload: &mut Fields) -> Option<Self> {
        let object_type = payload.word(0x42005705)?;
        let mut attributes = payload.structure(0x42012501)?;
        let algorithm = attributes.word(0x42002805)?;
        let length = attributes.word(0x42002A02)?;
        let mask = attributes.word(0x42002C02)?;
        let (total, unit) = if attributes.next_has_tag(0x420095) { read_limits(&mut attributes)? } else { (0, 0) };
        let dates = read_dates(&mut attributes)?;
        let name = if attributes.is_empty() { Name::default() } else { read_name(&mut attributes)? };
        let allowed = object_type == 2
            && algorithm == 3
            && matches!(length, 128 | 192 | 256)
            && mask <= 0x00FF_FFFF
            && (unit == 0 || mask & PROTECTING != 0)
            && attributes.is_empty();
        allowed.then_some(Wanted { length: length as u16, mask, unit, total, dates, name })
    }
}

fn read_limits(attributes: &mut Fields) -> Option<(u64, u8)> {
    let mut limits = attributes.structure(0x42009501)?;
    let total = u64::try_from(limits.long(0x42009703)?).ok()?;
    let unit = limits.word(0x42009805)?;
    let allowed = limits.is_empty() && (1..=super::stored::GREATEST_TOTAL).contains(&total) && matches!(unit, 1 | 2);
    allowed.then_some((total, unit as u8))
}

/// The name that Locate looks for: the only attribute.
fn read_wanted_name(payload: &mut Fields) -> Option<Name> {
    let mut attributes = payload.structure(0x42012501)?;
    let name = read_name(&mut attributes)?;
    attributes.is_empty().then_some(name)
}

/// Uninterpreted text of 1 to 32 bytes.
fn read_name(attributes: &mut Fields) -> Option<Name> {
    let mut fields = attributes.structure(0x42005301)?;
    let name = Name::new(fields.take(0x42005507)?)?;
    let uninterpreted = fields.word(0x42005405)? == 1;
    (uninterpreted && fields.is_empty()).then_some(name)
}

fn read_dates(attributes: &mut Fields) -> Option<Dates> {
    let activation = read_date(attributes, 0x42000109)?;
    let deactivation = read_date(attributes, 0x42002F09)?;
    let dates = Dates { activation, deactivation };
    dates.in_order().then_some(dates)
}

/// The date of this name, or 0 if there is none; nothing if it is no Date-Time or below 1.
fn read_date(attributes: &mut Fields, name: u32) -> Option<u64> {
    if !attributes.next_has_tag(name >> 8) {
        return Some(0);
    }
    match attributes.long(name)? {
        date @ 1.. => Some(date as u64),
        _ => None,
    }
}
