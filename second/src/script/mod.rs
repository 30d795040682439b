//! Random scripts. A script is a row of episodes: a valid sheet, with damaged
//! ones before it, and bursts of commands of one sort under it. A monitor runs
//! along, so that a burst can aim at the state it finds.

mod calls;
mod damage;
mod images;
mod noise;
mod paths;
mod pokes;
mod sheets;

use crate::commands;
use crate::monitor::Monitor;
use crate::random::Random;
use crate::tally::Tally;
use crate::text::push_hex;
use calls::Habit;

pub struct Script {
    pub text: Vec<u8>,
    pub tally: Tally,
    commands: usize,
    random: Random,
    monitor: Monitor,
    /// The sheet at hand.
    sheet: Vec<u8>,
    /// Images saved of histories under it.
    images: Vec<Vec<u8>>,
    /// The last one saved under the sheet before.
    foreign: Vec<u8>,
    habit: Habit,
}

impl Script {
    /// A script of about `count` commands, the same for the same seed.
    pub fn new(seed: u64, count: usize) -> Script {
        let mut random = Random::new(seed);
        let habit = Habit::any(&mut random);
        let mut script = Script {
            text: Vec::new(),
            tally: Tally::default(),
            commands: 0,
            random,
            monitor: Monitor::default(),
            sheet: Vec::new(),
            images: Vec::new(),
            foreign: Vec::new(),
            habit,
        };
        script.before_any_sheet();
        while script.commands < count {
            let most = count - script.commands;
            script.episode(most);
        }
        script
    }

    pub fn commands(&self) -> usize {
        self.commands
    }

    /// Adds a line, carries it out and answers what it answered.
    fn say(&mut self, line: impl AsRef<[u8]>) -> Vec<u8> {
        let line = line.as_ref();
        self.text.extend(line);
        self.text.push(b'\n');
        let mut answer = Vec::new();
        commands::answer(&mut self.monitor, line, &mut answer);
        answer.pop();
        self.tally.add(line, &answer, &self.monitor);
        self.commands += 1;
        answer
    }

    /// A word and bytes in hex, now and then in another dress.
    fn say_hex(&mut self, word: &str, bytes: &[u8]) -> Vec<u8> {
        let mut line = word.as_bytes().to_vec();
        line.push(b' ');
        let mut hex = Vec::new();
        push_hex(&mut hex, bytes);
        match self.random.below(40) {
            0 if bytes.len() < 200 => line.extend(self.dressed(&hex)),
            1 => line.extend(hex.to_ascii_uppercase()),
            _ => line.extend(hex),
        }
        self.say(line)
    }

    /// Hex with spaces and bars between its pairs; `-` takes spaces only.
    fn dressed(&mut self, hex: &[u8]) -> Vec<u8> {
        let gaps: &[&str] =
            if hex == b"-" { &["", " ", "  "] } else { &["", " ", " | ", "|", "  "] };
        let mut text = Vec::new();
        for pair in hex.chunks(2) {
            text.extend(self.random.pick(gaps).as_bytes());
            text.extend(pair);
        }
        text.extend(self.random.pick(gaps).as_bytes());
        text
    }

    /// Every call answers 20 to the state of all zeros, until it is poked.
    fn before_any_sheet(&mut self) {
        for _ in 0..self.random.below(6) {
            self.any_call();
            self.path_question();
        }
        if self.random.percent(30) {
            self.poke_zeros();
        }
    }

    fn episode(&mut self, most: usize) {
        for _ in 0..self.random.below(13) {
            self.damaged_sheet();
        }
        let bytes = sheets::any(&mut self.random).concat();
        self.use_sheet(&bytes);
        self.habit = Habit::any(&mut self.random);
        let longest = if self.random.percent(10) { 2500 } else { 400 };
        let length = self.random.between(40, longest).min(most);
        let end = self.commands + length;
        self.path_burst();
        while self.commands < end {
            self.burst();
        }
    }

    /// Lends a sheet; where it is accepted, what was saved before is past.
    fn use_sheet(&mut self, bytes: &[u8]) {
        if self.say_hex("sheet", bytes) == b"ok" {
            self.sheet = bytes.to_vec();
            self.foreign = self.images.pop().unwrap_or_default();
            self.images.clear();
        }
    }

    /// The power fails: the same sheet is loaded anew, and an image that was
    /// saved before comes back. Large sheets are spared, for a short script.
    fn power_cut(&mut self) {
        if self.images.is_empty() || self.sheet.len() > 600 {
            return;
        }
        let sheet = self.sheet.clone();
        self.say_hex("sheet", &sheet);
        self.say("check");
        let image = self.images[self.random.below(self.images.len())].clone();
        self.say_hex("restore", &image);
        self.say("check");
        self.say("counts");
    }

    fn burst(&mut self) {
        match self.random.weighted(&[370, 16, 110, 150, 130, 80, 35, 12, 14]) {
            0 => self.history_burst(),
            1 => self.full_burst(),
            2 => self.image_burst(),
            3 => self.poke_burst(),
            4 => self.path_burst(),
            5 => self.noise(),
            6 => self.damaged_sheet(),
            7 => self.march(),
            _ => self.power_cut(),
        }
        if self.random.below(1000) == 0 {
            self.long_line();
        }
    }
}
