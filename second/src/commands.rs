//! The command language: one command on a line, one answer on a line.

use std::io::{self, BufRead, Write};

use crate::field::Field;
use crate::monitor::Monitor;
use crate::path;
use crate::text::{bytes, number, push_hex};
use crate::Refusal;

const MOST_LINE: usize = 16_383;
const MOST_BUFFER: u64 = 4096;
const MOST_NUMBER: u64 = u32::MAX as u64;

/// What a buffer holds before a save.
const UNWRITTEN: u8 = 0xEE;

enum Command {
    Sheet(Vec<u8>),
    Begin,
    Record(u32, u32),
    Check,
    Counts,
    Save(usize),
    Restore(Vec<u8>),
    Path(u32, Vec<u8>),
    Poke(Field, usize, u64),
}

/// The command on a line, if it is one.
fn parse(line: &[u8]) -> Option<Command> {
    if line.len() > MOST_LINE {
        return None;
    }
    match line {
        b"begin" => return Some(Command::Begin),
        b"check" => return Some(Command::Check),
        b"counts" => return Some(Command::Counts),
        _ => {}
    }
    let (word, rest) = split_word(line)?;
    match word {
        b"sheet" => Some(Command::Sheet(bytes(rest)?)),
        b"record" => {
            let (session, event) = split_word(rest)?;
            Some(Command::Record(small(session)?, small(event)?))
        }
        b"save" => Some(Command::Save(number(rest, MOST_BUFFER)? as usize)),
        b"restore" => Some(Command::Restore(bytes(rest)?)),
        b"path" => {
            let (access, path) = split_word(rest)?;
            Some(Command::Path(small(access)?, bytes(path)?))
        }
        b"read" => Some(Command::Path(0, rest.to_vec())),
        b"write" => Some(Command::Path(1, rest.to_vec())),
        b"poke" => parse_poke(rest),
        _ => None,
    }
}

fn parse_poke(text: &[u8]) -> Option<Command> {
    let (name, rest) = split_word(text)?;
    let (place, value) = split_word(rest)?;
    let place = small(place)? as usize;
    let value = number(value, u64::MAX)?;
    let field = Field::ALL.into_iter().find(|field| field.name().as_bytes() == name)?;
    (place < field.places()).then_some(Command::Poke(field, place, value))
}

/// The text before the first space and the text behind it.
fn split_word(text: &[u8]) -> Option<(&[u8], &[u8])> {
    let space = text.iter().position(|&byte| byte == b' ')?;
    Some((&text[..space], &text[space + 1..]))
}

fn small(text: &[u8]) -> Option<u32> {
    number(text, MOST_NUMBER).map(|value| value as u32)
}

/// Whether a line has no answer at all: an empty one, or a comment.
pub fn is_silent(line: &[u8]) -> bool {
    line.is_empty() || line[0] == b'#'
}

/// Carries a line out and writes its answer line, if it has one.
pub fn answer(monitor: &mut Monitor, line: &[u8], out: &mut Vec<u8>) {
    if is_silent(line) {
        return;
    }
    match parse(line) {
        Some(command) => carry_out(monitor, command, out),
        None => out.push(b'?'),
    }
    out.push(b'\n');
}

fn carry_out(monitor: &mut Monitor, command: Command, out: &mut Vec<u8>) {
    match command {
        Command::Sheet(bytes) => say(out, monitor.sheet(bytes), |()| "ok".into()),
        Command::Begin => say(out, monitor.begin(), |session| format!("s{session}")),
        Command::Record(session, event) => {
            say(out, monitor.record(session, event), |()| "ok".into());
        }
        Command::Check => say(out, monitor.check(), |(holds, row)| {
            format!("{} {row:016x}", if holds { "allow" } else { "deny" })
        }),
        Command::Counts => {
            say(out, monitor.counts(), |(total, let_go, kept)| format!("{total} {let_go} {kept}"))
        }
        Command::Save(room) => {
            let mut buffer = vec![UNWRITTEN; room];
            say(out, monitor.save(&mut buffer), |length| format!("i{length}"));
            out.push(b' ');
            push_hex(out, &buffer);
        }
        Command::Restore(bytes) => say(out, monitor.restore(&bytes), |()| "ok".into()),
        Command::Path(access, path) => say_path(out, monitor.sheet_bytes(), access, &path),
        Command::Poke(field, place, value) => {
            monitor.poke(|state| field.put(state, place, value));
            out.extend(b"ok");
        }
    }
}

fn say<T>(out: &mut Vec<u8>, result: Result<T, Refusal>, words: impl Fn(T) -> String) {
    let text = match result {
        Ok(value) => words(value),
        Err(refusal) => format!("r{refusal}"),
    };
    out.extend(text.as_bytes());
}

fn say_path(out: &mut Vec<u8>, sheet: &[u8], access: u32, path: &[u8]) {
    match path::question(sheet, access, path) {
        Ok(found) => {
            out.extend(format!("e{} ", found.event).as_bytes());
            push_hex(out, found.root);
            out.push(b' ');
            push_hex(out, found.rest);
        }
        Err(refusal) => out.extend(format!("r{refusal}").as_bytes()),
    }
}

/// Answers a whole script with a monitor of its own.
pub fn answer_all(mut script: impl BufRead, mut to: impl Write) -> io::Result<()> {
    const ENOUGH: usize = 1 << 16;
    let mut monitor = Monitor::default();
    let mut line = Vec::new();
    let mut out = Vec::new();
    loop {
        line.clear();
        if script.read_until(b'\n', &mut line)? == 0 {
            return to.write_all(&out);
        }
        if line.last() == Some(&b'\n') {
            line.pop();
        }
        answer(&mut monitor, &line, &mut out);
        if out.len() >= ENOUGH {
            to.write_all(&out)?;
            out.clear();
        }
    }
}
