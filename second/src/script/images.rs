//! Images that no save wrote: well formed ones, and each fault of 42 and 43.

use crate::image::Image;
use crate::random::Random;
use crate::tables::Tables;

use super::Script;

impl Script {
    pub(super) fn image_burst(&mut self) {
        self.save_a_way_back();
        for _ in 0..self.random.between(2, 7) {
            if self.restore_crafted(75) {
                self.live_on();
            } else if self.random.percent(15) {
                self.any_call();
            }
        }
        self.back_to_history();
    }

    /// Restores an image that no save wrote, damaged with that chance, and
    /// tells whether it was accepted.
    pub(super) fn restore_crafted(&mut self, chance: usize) -> bool {
        let crafted = crafted(&mut self.random, self.monitor.tables());
        let bytes = match self.random.percent(chance) {
            true => self.damaged_image(crafted),
            false => crafted.bytes(),
        };
        self.say_hex("restore", &bytes) == b"ok"
    }

    /// A few calls on a state that an image alone made.
    fn live_on(&mut self) {
        if self.random.percent(60) {
            self.check();
        }
        if self.monitor.window().is_some_and(|(let_go, _)| let_go > u32::MAX - 80) {
            for _ in 0..self.random.between(1, 4) {
                self.say("begin");
            }
        }
        for _ in 0..self.random.below(9) {
            self.step();
        }
    }

    fn damaged_image(&mut self, mut image: Image) -> Vec<u8> {
        let tables = self.monitor.tables();
        match self.random.below(10) {
            0 | 1 => damaged_bytes(&mut self.random, image.bytes()),
            2 => {
                damage_meaning(&mut self.random, tables, &mut image);
                damaged_mark(&mut self.random, image.bytes())
            }
            3 => {
                damage_sums(&mut self.random, &mut image);
                image.bytes()
            }
            4 if self.random.percent(30) => overfull(&mut self.random, image).bytes(),
            5 if !self.images.is_empty() => {
                let place = self.random.below(self.images.len());
                damaged_bytes(&mut self.random, self.images[place].clone())
            }
            // Saved under the sheet before this one.
            6 if !self.foreign.is_empty() => self.foreign.clone(),
            _ => {
                damage_meaning(&mut self.random, tables, &mut image);
                if self.random.percent(12) {
                    return damaged_bytes(&mut self.random, image.bytes());
                }
                image.bytes()
            }
        }
    }
}

/// An image that neither 42 nor 43 refuses, with totals up to the limit.
fn crafted(random: &mut Random, tables: &Tables) -> Image {
    let kept = match random.below(30) {
        0 | 1 => 64,
        2 | 3 => 0,
        4..=7 => random.between(8, 20),
        _ => random.between(1, 6),
    };
    let mut sets: Vec<u32> = (0..kept).map(|_| any_allowed(random, tables)).collect();
    if let Some(oldest) = sets.first_mut() {
        *oldest = any_open(random, tables);
    }
    let room = u32::MAX - kept as u32;
    let let_go = match random.below(if kept == 64 { 5 } else { 8 }) {
        0 | 1 => 0,
        2 => 1,
        3 => room,
        4 => room - random.below(5) as u32,
        5 => random.word() as u32 % room,
        _ => random.below(100) as u32,
    };
    let row = if let_go == 0 { 0 } else { random.word() & low_bits(tables.nodes) };
    Image { total: let_go + kept as u32, let_go, row, sets }
}

/// That many ones from the lowest bit up.
fn low_bits(count: u64) -> u64 {
    match count {
        0 => 0,
        _ => u64::MAX >> 64u64.saturating_sub(count).min(63),
    }
}

/// A set grown event by event, as sessions do.
pub fn any_allowed(random: &mut Random, tables: &Tables) -> u32 {
    let steps = random.below(8);
    grow(random, tables, steps)
}

fn grow(random: &mut Random, tables: &Tables, steps: usize) -> u32 {
    let mut set = 0;
    for _ in 0..steps {
        let events = tables.addable_events(set);
        if events.is_empty() {
            break;
        }
        set |= 1 << random.pick(&events);
    }
    set
}

pub fn any_closed(random: &mut Random, tables: &Tables) -> u32 {
    grow(random, tables, 32)
}

/// A set that is open, often so that a single event more can close it, the
/// last of the sheet perhaps.
fn any_open(random: &mut Random, tables: &Tables) -> u32 {
    let steps = if random.percent(50) { 32 } else { random.below(8) };
    let upwards = random.percent(50);
    let mut open = 0;
    for _ in 0..steps {
        let events = tables.addable_events(open);
        let choice = if upwards { 1 } else { events.len() };
        let set = events.get(random.below(choice)).map_or(open, |event| open | 1 << event);
        if tables.closed(set) {
            break;
        }
        open = set;
    }
    open
}

/// 42 by the mark or kind of the last session, or of the header.
fn damaged_mark(random: &mut Random, mut bytes: Vec<u8>) -> Vec<u8> {
    let record = if bytes.len() > 19 { bytes.len() - 7 } else { 0 };
    bytes[record + random.below(3)] ^= 1 << random.below(8);
    bytes
}

/// 42 by single bytes: length, marks, kinds; and a bit changed anywhere.
fn damaged_bytes(random: &mut Random, mut bytes: Vec<u8>) -> Vec<u8> {
    let sessions = bytes.len().saturating_sub(19) / 7;
    let record = match random.below(sessions + 1) {
        0 => 0,
        session => 12 + 7 * session,
    };
    match random.below(8) {
        0 => bytes.truncate(random.below(bytes.len())),
        1 => bytes.push(random.byte()),
        2 => drop(bytes.pop()),
        3 => bytes.extend(b"\xB4\x4D\x09\0\0\0\0"),
        4 => bytes[record + random.below(2)] ^= 1 << random.below(8),
        5 => bytes[record + 2] = random.pick(&[8, 9, 10, 0, 5, 255]),
        6 => {
            let place = random.below(bytes.len());
            bytes[place] ^= 1 << random.below(8);
        }
        _ => bytes.truncate(random.pick(&[0, 1, 18, 19, 25, 26])),
    }
    bytes
}

/// 42 by its numbers: the sum, the sum with a carry, a row with none let go.
fn damage_sums(random: &mut Random, image: &mut Image) {
    match random.below(5) {
        0 => image.total = image.total.wrapping_add(1),
        1 => image.total = image.total.wrapping_sub(1),
        2 => {
            image.let_go = u32::MAX;
            image.total = (image.sets.len() as u32).wrapping_sub(1);
        }
        3 => {
            image.let_go = 0;
            image.total = image.sets.len() as u32;
            image.row = random.pick(&[1, 2, 1 << 63, u64::MAX]);
        }
        _ => std::mem::swap(&mut image.let_go, &mut image.total),
    }
}

/// 65 kept or more, with sums that are right, or would be in fewer bits.
fn overfull(random: &mut Random, mut image: Image) -> Image {
    let kept = random.pick(&[65, 65, 65, 66, 256, 257]);
    image.sets.resize(kept, 0);
    image.let_go = image.let_go.min(1000);
    image.total = image.let_go + if random.percent(50) { kept } else { kept % 256 } as u32;
    image
}

/// 43: bits outside the sheet, a session not allowed, the oldest closed.
fn damage_meaning(random: &mut Random, tables: &Tables, image: &mut Image) {
    let place = random.below(image.sets.len());
    let event = random.below(tables.events.min(32) as usize);
    match random.below(5) {
        0 => {
            let outside = tables.nodes.min(63) as usize;
            image.row |= 1 << random.between(outside, 63);
        }
        kind if !image.sets.is_empty() => {
            let outside = tables.events.min(31) as usize;
            match kind {
                1 => image.sets[place] |= 1 << random.between(outside, 31),
                // Without its causes, or beside what it conflicts with.
                2 => image.sets[place] = 1 << event,
                3 => image.sets[place] |= 1 << event | tables.conflicts[event],
                _ => image.sets[0] = any_closed(random, tables),
            }
        }
        _ => image.row = u64::MAX,
    }
}
