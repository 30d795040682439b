//! Lines that are not commands, and commands in an odd dress.

use super::Script;

const ODD: [&str; 74] = [
    "",
    "#",
    "# a comment",
    "#begin",
    " ",
    "  ",
    "\r",
    "?",
    "-",
    "BEGIN",
    "Begin",
    "begin ",
    " begin",
    "begin\r",
    "begin 1",
    "beginn",
    "begi",
    "begin\t",
    "check ",
    "check\r",
    "checks",
    "counts ",
    "counts 1",
    "count",
    "record",
    "record ",
    "record 1",
    "record 1 ",
    "record  1 0",
    "record 1  0",
    "record 1 0 ",
    "record 1 0 0",
    "record 4294967296 0",
    "record 1 4294967296",
    "record -1 0",
    "record 1 +0",
    "record 0x1 0",
    "record\t1 0",
    "record 01 00",
    "record 00000000000000000000000000001 0000000000000000000000000000000",
    "save",
    "save ",
    "save 4097",
    "save 4294967296",
    "save 19 ",
    "save -",
    "save 0019",
    "sheet",
    "sheet ",
    "sheet  ",
    "sheet |",
    "sheet b",
    "sheet b44",
    "sheet b 4",
    "sheet b|4",
    "sheet - -",
    "sheet |-",
    "sheet -|",
    "sheet b4-",
    "sheet zz",
    "sheet b4,4d",
    "restore",
    "restore ",
    "restore  - ",
    "restore 0g",
    "restore b4 4d 0",
    "path",
    "path 0",
    "path 0 ",
    "path 00 2f61",
    "path 4294967296 2f",
    "path x 2f",
    "path  0 2f",
    "path 0 - -",
];

const ODD_TOO: [&str; 26] = [
    "read",
    "write",
    "readx /a",
    "read\t/a",
    "read ",
    "write ",
    "write  /a",
    "write /a\r",
    "read - ",
    "Read /a",
    "poke",
    "poke total",
    "poke total 0",
    "poke total 0 ",
    "poke total 1 0",
    "poke row 65 0",
    "poke set 64 0",
    "poke kind 64 0",
    "poke needs 32 0",
    "poke conflicts 32 0",
    "poke need 0 0",
    "poke Total 0 0",
    "poke total 0 18446744073709551616",
    "poke total 4294967296 0",
    "poke nodes 1 1",
    "poke total  0 0",
];

impl Script {
    pub(super) fn noise(&mut self) {
        for _ in 0..self.random.between(1, 4) {
            let line = match self.random.below(10) {
                0 => self.random_bytes(),
                1..=3 => self.random.pick(&ODD_TOO).into(),
                _ => self.random.pick(&ODD).into(),
            };
            self.say(line);
        }
    }

    fn random_bytes(&mut self) -> Vec<u8> {
        let word = self.random.pick(&["", "sheet ", "save ", "restore ", "path 1 ", "poke "]);
        let mut line = word.as_bytes().to_vec();
        for _ in 0..self.random.between(1, 12) {
            line.push(self.random.byte());
        }
        line.retain(|&byte| byte != b'\n');
        line
    }

    /// Lines around the longest that is read: 16,383 bytes.
    pub(super) fn long_line(&mut self) {
        let length = self.random.pick(&[16_382, 16_383, 16_384, 16_385]);
        let word = self.random.pick(&["# ", "read /", "restore ", "sheet ", "path 0 ", "save "]);
        let mut line = word.as_bytes().to_vec();
        line.resize(length, b'0');
        self.say(line);
    }
}
