//! Writing requests: TTLV items as nodes that can also be spoilt, for tests, the race and other tools.
//! Assumes nothing; what is written need not be a request that the box accepts.

/// One TTLV item, as it is to be written. Type and value need not fit each other.
#[derive(Clone, Debug)]
pub struct Node {
    pub tag: u32,
    pub kind: u8,
    pub body: Body,
}

/// What stands behind the header of an item.
#[derive(Clone, Debug)]
pub enum Body {
    Nodes(Vec<Node>),
    Bytes(Vec<u8>),
}

impl Node {
    /// The bytes: header, value, zero padding.
    pub fn encode(&self) -> Vec<u8> {
        let mut bytes = Vec::new();
        self.append_to(&mut bytes);
        bytes
    }

    fn append_to(&self, bytes: &mut Vec<u8>) {
        let start = bytes.len();
        bytes.extend((self.tag << 8 | u32::from(self.kind)).to_be_bytes());
        bytes.extend([0; 4]);
        match &self.body {
            Body::Nodes(nodes) => nodes.iter().for_each(|node| node.append_to(bytes)),
            Body::Bytes(value) => bytes.extend(value),
        }
        let length = (bytes.len() - start - 8) as u32;
        bytes[start + 4..start + 8].copy_from_slice(&length.to_be_bytes());
        bytes.resize(bytes.len().next_multiple_of(8), 0);
    }
}

pub fn structure(tag: u32, nodes: Vec<Node>) -> Node {
    Node { tag, kind: 0x01, body: Body::Nodes(nodes) }
}

pub fn integer(tag: u32, number: i32) -> Node {
    Node { tag, kind: 0x02, body: Body::Bytes(number.to_be_bytes().to_vec()) }
}

pub fn long_integer(tag: u32, number: i64) -> Node {
    Node { tag, kind: 0x03, body: Body::Bytes(number.to_be_bytes().to_vec()) }
}

pub fn enumeration(tag: u32, number: u32) -> Node {
    Node { tag, kind: 0x05, body: Body::Bytes(number.to_be_bytes().to_vec()) }
}

pub fn text(tag: u32, text: &str) -> Node {
    raw_text(tag, text.as_bytes())
}

/// A Text String of any bytes, which need not be text.
pub fn raw_text(tag: u32, bytes: &[u8]) -> Node {
    Node { tag, kind: 0x07, body: Body::Bytes(bytes.to_vec()) }
}

pub fn byte_string(tag: u32, bytes: &[u8]) -> Node {
    Node { tag, kind: 0x08, body: Body::Bytes(bytes.to_vec()) }
}

pub fn date_time(tag: u32, seconds: i64) -> Node {
    Node { tag, kind: 0x09, body: Body::Bytes(seconds.to_be_bytes().to_vec()) }
}

pub fn interval(tag: u32, seconds: u32) -> Node {
    Node { tag, kind: 0x0A, body: Body::Bytes(seconds.to_be_bytes().to_vec()) }
}

/// The numbers in a request's header.
#[derive(Clone, Copy, Debug)]
pub struct Header {
    pub version: (i32, i32),
    pub option: Option<u32>,
    pub count: i32,
}

/// A request of version 2.1 with the right Batch Count.
pub fn request(option: Option<u32>, items: Vec<Node>) -> Node {
    let count = items.len() as i32;
    request_with(Header { version: (2, 1), option, count }, items)
}

/// A request with these numbers in its header.
pub fn request_with(header: Header, items: Vec<Node>) -> Node {
    let (major, minor) = header.version;
    let mut fields = vec![structure(0x420069, vec![integer(0x42006A, major), integer(0x42006B, minor)])];
    fields.extend(header.option.map(|option| enumeration(0x42000E, option)));
    fields.push(integer(0x42000D, header.count));
    let mut parts = vec![structure(0x420077, fields)];
    parts.extend(items);
    structure(0x420078, parts)
}

/// A batch item.
pub fn item(operation: u32, id: Option<&[u8]>, payload: Vec<Node>) -> Node {
    let mut fields = vec![enumeration(0x42005C, operation)];
    fields.extend(id.map(|id| byte_string(0x420093, id)));
    fields.push(structure(0x420079, payload));
    structure(0x42000F, fields)
}

/// The payload of a Create: AES of this length and mask, a limit of (total, unit) if any, no dates and no name.
pub fn create(length: i32, mask: i32, limit: Option<(i64, u32)>) -> Vec<Node> {
    create_dated(length, mask, limit, (None, None))
}

/// The payload of a Create with those of its dates, activation and deactivation, that are to be set.
pub fn create_dated(
    length: i32,
    mask: i32,
    limit: Option<(i64, u32)>,
    (activation, deactivation): (Option<i64>, Option<i64>),
) -> Vec<Node> {
    let mut attributes = vec![enumeration(0x420028, 3), integer(0x42002A, length), integer(0x42002C, mask)];
    attributes
        .extend(limit.map(|(total, unit)| {
            structure(0x420095, vec![long_integer(0x420097, total), enumeration(0x420098, unit)])
        }));
    attributes.extend(activation.map(|date| date_time(0x420001, date)));
    attributes.extend(deactivation.map(|date| date_time(0x42002F, date)));
    vec![enumeration(0x420057, 2), structure(0x420125, attributes)]
}

/// The payload of a Create with one attribute more, behind the others: its name, mostly.
pub fn create_with(mut payload: Vec<Node>, attribute: Node) -> Vec<Node> {
    if let Some(Node { body: Body::Nodes(attributes), .. }) = payload.last_mut() {
        attributes.push(attribute);
    }
    payload
}

/// A Name of this text, which is uninterpreted.
pub fn name(value: &str) -> Node {
    structure(0x420053, vec![text(0x420055, value), enumeration(0x420054, 1)])
}

/// The payload of Locate.
pub fn location(value: &str) -> Vec<Node> {
    vec![structure(0x420125, vec![name(value)])]
}

/// The payload of Re-key without Offset, Activate, Destroy, Get and Get Attributes: the identifier, or nothing.
pub fn target(identifier: Option<&str>) -> Vec<Node> {
    identifier.map(|identifier| text(0x420094, identifier)).into_iter().collect()
}

/// The payload of Re-key with an Offset in seconds.
pub fn replacement(identifier: Option<&str>, offset: u32) -> Vec<Node> {
    let mut payload = target(identifier);
    payload.push(interval(0x420058, offset));
    payload
}

/// The payload of Get Usage Allocation.
pub fn allocation(identifier: Option<&str>, count: i64) -> Vec<Node> {
    let mut payload = target(identifier);
    payload.push(long_integer(0x420096, count));
    payload
}

/// The payload of Revoke.
pub fn revocation(identifier: Option<&str>, code: u32) -> Vec<Node> {
    let mut payload = target(identifier);
    payload.push(structure(0x420081, vec![enumeration(0x420082, code)]));
    payload
}
