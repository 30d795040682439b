//! Damaged sheets: one change to a valid one, or something wilder.

use crate::random::Random;
use crate::sheet::OPERANDS;

use super::paths;
use super::sheets::{self, record};
use super::Script;

type Records = Vec<Vec<u8>>;

const KIND: usize = 2;
const LENGTH: usize = 3;
const PAYLOAD: usize = 4;

impl Script {
    /// Lends a damaged sheet. Calls behind it show that the monitor stays,
    /// and path questions that the sheet is judged first.
    pub(super) fn damaged_sheet(&mut self) {
        let bytes = damaged(&mut self.random);
        self.use_sheet(&bytes);
        for _ in 0..self.random.below(3) {
            self.any_call();
        }
        if self.random.percent(40) {
            self.path_question();
        }
    }
}

fn damaged(random: &mut Random) -> Vec<u8> {
    if random.percent(3) {
        return too_long(random);
    }
    if random.percent(12) {
        return too_many(random);
    }
    let mut records = if random.percent(12) { sheets::any(random) } else { sheets::small(random) };
    for _ in 0..random.pick(&[1, 1, 1, 1, 2, 4]) {
        match random.weighted(&[30, 25, 35, 20]) {
            0 => spoil_frame(random, &mut records),
            1 => spoil_order(random, &mut records),
            2 => spoil_range(random, &mut records),
            _ => spoil_path(random, &mut records),
        }
        if records.is_empty() {
            records.push(record(1, &[1]));
        }
    }
    let mut bytes = records.concat();
    match random.below(24) {
        0 => bytes.truncate(random.below(bytes.len())),
        1 => bytes.extend(random.pick(&[&b"\xB4"[..], b"\xB4\x4D", b"\xB4\x4D\x05", b"\0"])),
        2 => wild(random, &mut bytes),
        3 => bytes.clear(),
        _ => {}
    }
    bytes
}

/// Around the limit of 4,096 bytes.
fn too_long(random: &mut Random) -> Vec<u8> {
    let mut bytes = if random.percent(50) { sheets::small(random).concat() } else { Vec::new() };
    bytes.resize(random.pick(&[4096, 4097, 4097, 4098, 4200]), 0);
    bytes
}

/// As many records of a kind as there may be, and mostly one more, with or
/// without another fault.
fn too_many(random: &mut Random) -> Vec<u8> {
    let mut records = vec![record(1, &[32])];
    let more = random.percent(75);
    match random.below(4) {
        kind @ (0 | 1) => {
            let kind = kind as u8 + 2;
            let pairs = (1..=64).map(|n| record(kind, &[n / 16, n % 16 + 16]));
            records.extend(pairs);
            let last = random.pick(&[[4, 31], [31, 31], [4, 0], [4, 16], [5, 200], [0, 31]]);
            records.extend(more.then(|| record(kind, &last)));
        }
        2 => {
            records.extend((0..16).map(|n| record(4, &[0, n, b'/', b'a' + n])));
            let last: [&[u8]; 4] = [b"\x01\0/a", b"\x01\0xx", b"\x09\xFF//", b"\0\0/a"];
            let last = random.pick(&last);
            records.extend(more.then(|| record(4, last)));
        }
        _ => {
            records
                .extend((0..64).map(|n| record(5, &[6 * (n & 1), n / 2][..1 + (n & 1) as usize])));
            let last: [&[u8]; 4] = [b"\0", b"\x03\xC8", b"\x08", b"\x01\x02"];
            let last = random.pick(&last);
            records.extend(more.then(|| record(5, last)));
        }
    }
    let nodes = records.iter().any(|record| record[KIND] == 5);
    if random.percent(70) && (more || !nodes) {
        records.push(record(5, &[0]));
    }
    records.concat()
}

/// 11: mark, kind, payload length, node kind, bytes that end too early.
fn spoil_frame(random: &mut Random, records: &mut Records) {
    let place = random.below(records.len());
    let chosen = &mut records[place];
    match random.below(8) {
        0 => chosen[random.below(2)] ^= 1 << random.below(8),
        1 => chosen[KIND] = random.pick(&[0, 6, 7, 8, 9, 64, 255]),
        2 => chosen[LENGTH] = chosen[LENGTH].wrapping_add(random.pick(&[1, 255, 2])),
        3 => {
            chosen.push(random.below(3) as u8);
            chosen[LENGTH] = (chosen.len() - PAYLOAD) as u8;
        }
        4 => {
            let mut payload = vec![random.pick(&[0, 1, 9]), 0, b'/'];
            payload.resize(random.pick(&[0, 1, 2, 3, 123, 124, 255]), b'a');
            insert(records, record(4, &payload));
        }
        5 if chosen.len() > PAYLOAD => {
            chosen.pop();
            chosen[LENGTH] = (chosen.len() - PAYLOAD) as u8;
        }
        // Behind the last record, out of order too, or cut short there.
        6 => {
            let mut last = record(random.between(1, 4) as u8, &[0, 1, b'/', b'a', 0, 0]);
            last[LENGTH] = random.pick(&[0, 1, 2, 3, 4, 6, 122]);
            last.truncate(PAYLOAD + random.below(6));
            records.push(last);
        }
        _ => {
            let kind = random.pick(&[0, 1, 2, 3, 4, 5, 6, 7, 8, 8, 9, 16, 255]);
            let payload = [kind, 0, 0, 0];
            records.push(record(5, &payload[..random.below(5)]));
        }
    }
}

/// 12: the first record, kind 1 again, two records changed about, a record or
/// the key of a root doubled.
fn spoil_order(random: &mut Random, records: &mut Records) {
    let place = random.below(records.len());
    let other = random.below(records.len());
    match random.below(6) {
        0 => drop(records.remove(0)),
        1 => records.insert(place, record(1, &[random.pick(&[1, 4, 32, 0])])),
        2 | 3 => records.swap(place, other),
        4 => {
            let event = random.below(4) as u8;
            insert(records, record(4, &[0, event, b'/', b'a']));
            insert(records, record(4, &[0, event ^ 1, b'/', b'a']));
        }
        _ => records.insert(place, records[place].clone()),
    }
}

/// 13 and 16: numbers out of range, and sheets without a node.
fn spoil_range(random: &mut Random, records: &mut Records) {
    let nodes = records.iter().filter(|record| record[KIND] == 5).count() as u8;
    let events = records[0].get(PAYLOAD).copied().unwrap_or(1);
    let low = random.below(usize::from(events)) as u8;
    let wide = random.pick(&[events, events, 32, 33, 200, 255]);
    match random.below(10) {
        0 => records[0] = record(1, &[random.pick(&[0, 33, 34, 128, 255])]),
        1 | 2 => {
            let pairs =
                [[31, 31], [30, 29], [wide, 3], [31, wide], [0, wide], [200, 200], [31, 30]];
            let pair = random.pick(&pairs);
            insert(records, record(random.between(2, 3) as u8, &pair));
        }
        3 => insert(records, record(4, &[random.pick(&[2, 3, 255]), 0, b'/', b'a'])),
        4 => insert(records, record(4, &[1, wide, b'/', 0xFE])),
        // Both events are in the sheet, but not a < b.
        7 | 8 => {
            let high = random.between(usize::from(low), usize::from(events).max(1) - 1) as u8;
            insert(records, record(random.between(2, 3) as u8, &[high, low]));
        }
        5 => records.push(record(5, &[random.between(1, 2) as u8, wide])),
        6 => {
            let operands = [[nodes, 0], [0, nodes], [nodes + 1, 255], [wide, wide]];
            let [a, b] = random.pick(&operands);
            let kind = random.pick(&[3, 4, 5, 6, 7]);
            let payload = [kind, a, b];
            records.push(record(5, &payload[..1 + OPERANDS[usize::from(kind)]]));
        }
        _ => records.retain(|record| record[KIND] != 5),
    }
}

/// 14: a root path that is not well formed, now and then with 13 before it.
fn spoil_path(random: &mut Random, records: &mut Records) {
    let mut payload = vec![random.pick(&[0, 1, 0, 1, 0, 1, 2]), random.pick(&[0, 0, 0, 0, 0, 200])];
    payload.extend(paths::bad_root(random));
    insert(records, record(4, &payload));
}

/// A few bytes changed at random.
fn wild(random: &mut Random, bytes: &mut [u8]) {
    if bytes.is_empty() {
        return;
    }
    for _ in 0..random.between(1, 5) {
        bytes[random.below(bytes.len())] = random.byte();
    }
}

/// Puts a record where its kind and its key belong, so that order is kept.
fn insert(records: &mut Records, new: Vec<u8>) {
    let key = |record: &[u8]| {
        let payload = &record[PAYLOAD.min(record.len())..];
        match record[KIND] {
            4 if payload.len() > 2 => [&[4, payload[0]], &payload[2..]].concat(),
            kind => [&[kind], payload].concat(),
        }
    };
    let fresh = key(&new);
    let place = records.iter().rposition(|old| old[KIND] < 5 && key(old) <= fresh);
    records.insert(place.map_or(0, |place| place + 1), new);
}
