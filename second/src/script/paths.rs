//! Root paths, and path questions of every sort, hostile ones above all.

use crate::random::Random;
use crate::sheet;

use super::Script;

/// A well formed segment.
fn segment(random: &mut Random) -> Vec<u8> {
    const KNOWN: [&[u8]; 16] = [
        b"a",
        b"b",
        b"srv",
        b"mod1",
        b"mod10",
        b"mod",
        b"A",
        b"..a",
        b"...",
        b".a",
        b"a.",
        b"a b",
        b"%2e%2e",
        b"\\",
        b"-",
        b"\xFF\x01",
    ];
    if random.percent(80) {
        return random.pick(&KNOWN).to_vec();
    }
    let length = random.between(1, 5);
    let mut segment: Vec<u8> = (0..length).map(|_| random.between(1, 255) as u8).collect();
    for byte in &mut segment {
        if *byte == b'/' || *byte == b'.' {
            *byte = b'x';
        }
    }
    segment
}

fn push_segment(path: &mut Vec<u8>, segment: &[u8]) {
    path.push(b'/');
    path.extend(segment);
}

/// Grows a path by one segment up to a length, where there is room for one.
fn pad(path: &mut Vec<u8>, length: usize, random: &mut Random) {
    if path.len() + 2 <= length {
        path.push(b'/');
        path.resize(length, random.pick(b"abcz~"));
    }
}

/// A well formed root of 2 to 120 bytes, often below or beside an earlier one.
pub fn root(random: &mut Random, earlier: &[Vec<u8>]) -> Vec<u8> {
    let mut path = Vec::new();
    if !earlier.is_empty() && random.percent(60) {
        let first = if random.percent(50) { earlier.len() - 1 } else { 0 };
        path = earlier[random.between(first, earlier.len() - 1)].clone();
    }
    if !path.is_empty() && random.percent(20) {
        path.push(b'x');
    }
    for _ in 0..random.between(1, 2) {
        push_segment(&mut path, &segment(random));
    }
    if random.percent(6) {
        let length = random.between(118, 120);
        pad(&mut path, length, random);
    }
    if path.len() > 120 {
        return b"/srv".to_vec();
    }
    path
}

/// A root of about as many bytes as a root may have.
pub fn long_root(random: &mut Random) -> Vec<u8> {
    let mut path = root(random, &[]);
    let length = random.between(119, 120);
    pad(&mut path, length, random);
    path
}

/// A root path of 2 to 120 bytes that is not well formed.
pub fn bad_root(random: &mut Random) -> Vec<u8> {
    const BAD: [&[u8]; 12] = [
        b"//", b"/a/", b"xx", b"a/b", b"/..", b"/.", b"/a/..", b"/a/./b", b"/a//b", b"/a\0",
        b"/../a", b"//a",
    ];
    let mut path = random.pick(&BAD).to_vec();
    if random.percent(5) {
        path.extend(vec![b'/'; 120 - path.len()]);
    }
    path
}

impl Script {
    pub(super) fn path_burst(&mut self) {
        for _ in 0..self.random.between(4, 14) {
            self.path_question();
        }
    }

    pub(super) fn path_question(&mut self) {
        let (access, root) = self.some_root();
        let path = self.path_near(&root);
        let access = match self.random.below(20) {
            0 => self.random.pick(&[2, 3, 255, 256, u32::MAX]),
            1..=4 => 1 - access,
            _ => access,
        };
        let raw = access <= 1 && !path.contains(&b'\n') && self.random.percent(70);
        if raw {
            let mut line = if access == 0 { b"read ".to_vec() } else { b"write ".to_vec() };
            line.extend(path);
            self.say(line);
        } else {
            self.say_hex(&format!("path {access}"), &path);
        }
    }

    /// A root of the last sheet lent, or one of our own.
    fn some_root(&mut self) -> (u32, Vec<u8>) {
        if let Ok(sheet) = sheet::read(self.monitor.sheet_bytes()) {
            if !sheet.roots.is_empty() && self.random.percent(90) {
                let root = &sheet.roots[self.random.below(sheet.roots.len())];
                return (u32::from(root.access), root.path.to_vec());
            }
        }
        let access = self.random.below(2) as u32;
        (access, root(&mut self.random, &[]))
    }

    /// A path made out of a root, of one sort or another.
    fn path_near(&mut self, root: &[u8]) -> Vec<u8> {
        let mut path = root.to_vec();
        match self.random.weighted(&[10, 22, 9, 6, 30, 10, 10]) {
            0 => {}
            1 => {
                for _ in 0..self.random.between(1, 3) {
                    let segment = segment(&mut self.random);
                    push_segment(&mut path, &segment);
                }
            }
            // The same bytes, without the segment edge.
            2 => path.extend(self.random.pick(&[&b"0"[..], b"0/a", b".", b" ", b"x/.."])),
            3 => path.truncate(self.random.below(root.len())),
            4 => self.spoil(&mut path),
            5 => self.near_limit(&mut path),
            _ => self.change_byte(&mut path),
        }
        path
    }

    fn spoil(&mut self, path: &mut Vec<u8>) {
        const ENDS: [&[u8]; 14] = [
            b"/", b"//", b"/..", b"/../b", b"/.", b"/./b", b"//b", b"\0", b"/a\0b", b"/\0", b"/a/",
            b"/a/..", b"/a/../b", b"/..\0",
        ];
        match self.random.below(8) {
            0 => path.insert(0, b'/'),
            1 => *path = path.split_off(1),
            2 => *path = self.random.pick(&[&b""[..], b"/", b"x", b"\0", b"/.", b"."]).to_vec(),
            3 => {
                let place = self.random.below(path.len());
                let insert = self.random.pick(b"/./\0");
                path.insert(place, insert);
            }
            _ => path.extend(self.random.pick(&ENDS)),
        }
    }

    /// Paths of 254 to 257 bytes or twice as many, now and then malformed.
    fn near_limit(&mut self, path: &mut Vec<u8>) {
        let length = self.random.pick(&[254, 255, 255, 255, 255, 256, 256, 256, 257, 520]);
        pad(path, length, &mut self.random);
        if self.random.percent(20) {
            let last = path.len() - 1;
            path[last] = self.random.pick(b"/\0");
        }
    }

    fn change_byte(&mut self, path: &mut [u8]) {
        let place = self.random.below(path.len());
        path[place] = match self.random.below(3) {
            0 => path[place] ^ 0x20,
            1 => self.random.byte(),
            _ => path[place].wrapping_add(1),
        };
    }
}
