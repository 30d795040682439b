//! What occurred in a script: commands, answers, and the node kinds of the
//! sheets that were accepted.

use std::collections::BTreeMap;
use std::fmt;

use crate::commands::is_silent;
use crate::monitor::Monitor;

const WORDS: [&str; 10] =
    ["sheet", "begin", "record", "check", "counts", "save", "restore", "path", "read", "write"];

#[derive(Default)]
pub struct Tally {
    commands: BTreeMap<String, usize>,
    answers: BTreeMap<String, usize>,
    kinds: [usize; 8],
    sheets: usize,
    /// Checks of a history, and of those the ones with sessions let go.
    checks: (usize, usize),
    /// The longest history checked.
    longest: u32,
}

impl Tally {
    /// Counts a line and its answer; the monitor stands as the line left it.
    pub fn add(&mut self, line: &[u8], answer: &[u8], monitor: &Monitor) {
        let word = command_word(line, answer);
        if word == "sheet" && answer == b"ok" {
            self.add_kinds(monitor);
        }
        if word == "check" && monitor.is_history() {
            self.add_check(monitor);
        }
        if word != "silent line" {
            *self.answers.entry(answer_word(&word, answer)).or_default() += 1;
        }
        *self.commands.entry(word).or_default() += 1;
    }

    fn add_kinds(&mut self, monitor: &Monitor) {
        let tables = monitor.loaded();
        self.sheets += 1;
        for &kind in tables.kind.iter().take(tables.nodes as usize) {
            self.kinds[usize::from(kind & 7)] += 1;
        }
    }

    fn add_check(&mut self, monitor: &Monitor) {
        let Ok((total, let_go, _)) = monitor.counts() else {
            return;
        };
        self.checks.0 += 1;
        self.checks.1 += usize::from(let_go > 0);
        self.longest = self.longest.max(total);
    }

    /// Adds the counts of another script.
    pub fn merge(&mut self, other: &Tally) {
        for (word, count) in &other.commands {
            *self.commands.entry(word.clone()).or_default() += count;
        }
        for (word, count) in &other.answers {
            *self.answers.entry(word.clone()).or_default() += count;
        }
        for (mine, theirs) in self.kinds.iter_mut().zip(other.kinds) {
            *mine += theirs;
        }
        self.sheets += other.sheets;
        self.checks.0 += other.checks.0;
        self.checks.1 += other.checks.1;
        self.longest = self.longest.max(other.longest);
    }
}

fn command_word(line: &[u8], answer: &[u8]) -> String {
    if is_silent(line) {
        return "silent line".into();
    }
    if answer == b"?" {
        return "not a command".into();
    }
    let word = line.split(|&byte| byte == b' ').next().unwrap_or(line);
    let known = WORDS.iter().find(|known| known.as_bytes() == word);
    known.copied().unwrap_or("poke").into()
}

fn answer_word(command: &str, answer: &[u8]) -> String {
    let first = answer.split(|&byte| byte == b' ').next().unwrap_or(answer);
    match first.first() {
        Some(b'r') => String::from_utf8_lossy(first).into_owned(),
        Some(b's') => "s (session)".into(),
        Some(b'i') => "i (image)".into(),
        Some(b'e') => "e (event)".into(),
        Some(b'0'..=b'9') => "counts".into(),
        Some(b'o') => format!("ok ({command})"),
        _ => String::from_utf8_lossy(first).into_owned(),
    }
}

impl fmt::Display for Tally {
    fn fmt(&self, f: &mut fmt::Formatter) -> fmt::Result {
        writeln!(f, "commands:")?;
        for (word, count) in &self.commands {
            writeln!(f, "  {word:14} {count:9}")?;
        }
        writeln!(f, "answers:")?;
        for (word, count) in &self.answers {
            writeln!(f, "  {word:14} {count:9}")?;
        }
        writeln!(f, "node kinds in {} accepted sheets:", self.sheets)?;
        for (kind, count) in self.kinds.iter().enumerate() {
            writeln!(f, "  kind {kind:<9} {count:9}")?;
        }
        writeln!(
            f,
            "checks of a history {}, with sessions let go {}",
            self.checks.0, self.checks.1
        )?;
        write!(f, "longest history checked {}", self.longest)
    }
}
