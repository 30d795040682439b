//! The sheet: its records, and the numbers 10 to 16.

use crate::path;
use crate::Refusal;

/// "the mark B4 4D" before every record, of sheets and of images.
pub const MARK: [u8; 2] = [0xB4, 0x4D];

/// "How many operands each of the eight kinds takes is a fixed list".
pub const OPERANDS: [usize; 8] = [0, 1, 1, 1, 2, 2, 1, 2];

const MOST_BYTES: usize = 4096;

/// A policy node. An operand that its kind does not take is 0.
#[derive(Clone, Copy)]
pub struct Node {
    pub kind: u8,
    pub left: u8,
    pub right: u8,
}

impl Node {
    /// Whether the kind is known and each operand that it takes is in range:
    /// an event of the sheet, or a node before `place`.
    pub fn fits(&self, events: u64, place: usize) -> bool {
        let event = |operand: u8| u64::from(operand) < events;
        let earlier = |operand: u8| usize::from(operand) < place;
        match self.kind {
            0 => true,
            1 | 2 => event(self.left),
            3 | 6 => earlier(self.left),
            4 | 5 | 7 => earlier(self.left) && earlier(self.right),
            _ => false,
        }
    }

    fn of(payload: &[u8]) -> Node {
        let operand = |place: usize| payload.get(place).copied().unwrap_or(0);
        Node { kind: operand(0), left: operand(1), right: operand(2) }
    }
}

pub struct Root<'a> {
    pub access: u8,
    pub event: u8,
    pub path: &'a [u8],
}

/// An accepted sheet, as listed.
#[derive(Default)]
pub struct Sheet<'a> {
    pub events: u8,
    pub causes: Vec<(u8, u8)>,
    pub conflicts: Vec<(u8, u8)>,
    pub roots: Vec<Root<'a>>,
    pub nodes: Vec<Node>,
}

/// "In a sheet, 10 comes first, then the earliest faulty record decides (11,
/// 12, 15, 13, 14 within it), then 16."
pub fn read(bytes: &[u8]) -> Result<Sheet<'_>, Refusal> {
    if bytes.len() > MOST_BYTES {
        return Err(10);
    }
    let mut sheet = Sheet::default();
    let mut last = None;
    let mut rest = bytes;
    while !rest.is_empty() {
        let (record, behind) = Record::cut(rest).ok_or(11)?;
        if !record.stands_behind(last) {
            return Err(12);
        }
        if sheet.has_most(record.kind) {
            return Err(15);
        }
        if !sheet.in_range(record) {
            return Err(13);
        }
        if record.kind == 4 && !path::well_formed(&record.payload[2..]) {
            return Err(14);
        }
        sheet.add(record);
        last = Some(record);
        rest = behind;
    }
    if sheet.nodes.is_empty() {
        return Err(16);
    }
    Ok(sheet)
}

/// One record whose mark, kind and payload length are right.
#[derive(Clone, Copy)]
struct Record<'a> {
    kind: u8,
    payload: &'a [u8],
}

impl<'a> Record<'a> {
    /// The first record of the bytes and the bytes behind it; none where 11
    /// applies: "wrong mark, unknown kind or node kind, payload length not
    /// fitting, or bytes end inside a record".
    fn cut(bytes: &'a [u8]) -> Option<(Record<'a>, &'a [u8])> {
        let [first, second, kind, length, behind @ ..] = bytes else {
            return None;
        };
        if [*first, *second] != MARK {
            return None;
        }
        let length = usize::from(*length);
        let payload = behind.get(..length)?;
        let fits = match kind {
            1 => length == 1,
            2 | 3 => length == 2,
            4 => (4..=122).contains(&length),
            5 => node_length_fits(payload),
            _ => false,
        };
        fits.then_some((Record { kind: *kind, payload }, &behind[length..]))
    }

    /// Whether 12 is silent: kind 1 first and only there, kinds ascending,
    /// and the keys of kinds 2, 3 and 4 strictly ascending.
    fn stands_behind(&self, last: Option<Record>) -> bool {
        let Some(last) = last else {
            return self.kind == 1;
        };
        if self.kind != last.kind {
            return self.kind > last.kind;
        }
        match self.kind {
            1 => false,
            2 | 3 => self.payload > last.payload,
            // "kind 4 by (access, path bytes), a proper prefix coming first":
            // the event, which stands between the two, is no part of the key.
            4 => self.root_key() > last.root_key(),
            _ => true,
        }
    }

    fn root_key(&self) -> (u8, &'a [u8]) {
        (self.payload[0], &self.payload[2..])
    }
}

/// "node kind, then its operands", as many as the fixed list says.
fn node_length_fits(payload: &[u8]) -> bool {
    let Some((&kind, operands)) = payload.split_first() else {
        return false;
    };
    OPERANDS.get(usize::from(kind)) == Some(&operands.len())
}

impl<'a> Sheet<'a> {
    /// Whether the sheet holds as many records of a kind as it may already.
    /// Kind 1 a second time is 12, so it is never asked about here.
    fn has_most(&self, kind: u8) -> bool {
        match kind {
            2 => self.causes.len() >= 64,
            3 => self.conflicts.len() >= 64,
            4 => self.roots.len() >= 16,
            5 => self.nodes.len() >= 64,
            _ => false,
        }
    }

    /// Whether 13 is silent: "event count not 1 to 32, a >= b, event or
    /// access out of range, operand not an earlier node".
    fn in_range(&self, record: Record) -> bool {
        let payload = record.payload;
        match record.kind {
            1 => (1..=32).contains(&payload[0]),
            2 | 3 => payload[0] < payload[1] && payload[1] < self.events,
            4 => payload[0] <= 1 && payload[1] < self.events,
            _ => Node::of(payload).fits(u64::from(self.events), self.nodes.len()),
        }
    }

    fn add(&mut self, record: Record<'a>) {
        let payload = record.payload;
        match record.kind {
            1 => self.events = payload[0],
            2 => self.causes.push((payload[0], payload[1])),
            3 => self.conflicts.push((payload[0], payload[1])),
            4 => {
                self.roots.push(Root { access: payload[0], event: payload[1], path: &payload[2..] })
            }
            _ => self.nodes.push(Node::of(payload)),
        }
    }
}
