//! Another program's answers to a script beside our own.

use std::io::{Read, Write};
use std::process::{Child, Command, Stdio};
use std::sync::mpsc;
use std::thread;
use std::time::Duration;

use crate::commands;

/// A program that has not ended its answers by then is stopped.
const PATIENCE: Duration = Duration::from_secs(60);

/// The program that is held against ours.
pub struct Drive {
    program: String,
}

impl Drive {
    pub fn new(program: &str) -> Drive {
        Drive { program: program.into() }
    }

    /// All that the program writes for a script; what went wrong stands
    /// behind it as a line of its own, so that it shows as a difference.
    fn answers(&self, script: &[u8]) -> Vec<u8> {
        let started = Command::new(&self.program)
            .stdin(Stdio::piped())
            .stdout(Stdio::piped())
            .stderr(Stdio::null())
            .spawn();
        match started {
            Ok(child) => talk(child, script),
            Err(error) => format!("(cannot start {}: {error})\n", self.program).into_bytes(),
        }
    }
}

/// Feeds a child its script while reading its answers: one thread writes,
/// one reads, so that neither pipe can hold the other up.
fn talk(mut child: Child, script: &[u8]) -> Vec<u8> {
    let (Some(mut input), Some(mut output)) = (child.stdin.take(), child.stdout.take()) else {
        return b"(no pipe to the program)\n".to_vec();
    };
    let (done, waiting) = mpsc::channel();
    thread::scope(|scope| {
        // A child that stops reading early shows in its answers.
        scope.spawn(move || drop(input.write_all(script)));
        scope.spawn(move || {
            let mut answers = Vec::new();
            let read = output.read_to_end(&mut answers);
            let _ = done.send(read.map(|_| answers));
        });
        let answers = waiting.recv_timeout(PATIENCE);
        if answers.is_err() {
            let _ = child.kill();
        }
        let ended = child.wait();
        let mut answers = match answers {
            Ok(Ok(answers)) => answers,
            Ok(Err(_)) => b"(answers cannot be read)\n".to_vec(),
            Err(_) => b"(no end of answers)\n".to_vec(),
        };
        if !ended.is_ok_and(|status| status.success()) {
            answers.extend(b"(the program failed)\n");
        }
        answers
    })
}

/// Our own answers to a script.
fn own_answers(script: &[u8]) -> Vec<u8> {
    let mut answers = Vec::new();
    if commands::answer_all(script, &mut answers).is_err() {
        answers.extend(b"(our own program failed)\n");
    }
    answers
}

pub fn differs(drive: &Drive, script: &[u8]) -> bool {
    drive.answers(script) != own_answers(script)
}

/// The shortest script found that still shows a difference: chunks of lines
/// are dropped, large ones first, as long as a difference remains.
pub fn shrink(drive: &Drive, script: &[u8]) -> Vec<u8> {
    let mut lines: Vec<&[u8]> = script.split_inclusive(|&byte| byte == b'\n').collect();
    let mut chunk = lines.len().div_ceil(2);
    while chunk > 0 {
        let before = lines.len();
        drop_chunks(drive, &mut lines, chunk);
        // Single lines are tried again until none can be dropped.
        if chunk > 1 || lines.len() == before {
            chunk /= 2;
        }
    }
    lines.concat()
}

/// Tries to drop each chunk, the last first.
fn drop_chunks(drive: &Drive, lines: &mut Vec<&[u8]>, chunk: usize) {
    let mut end = lines.len();
    while end > 0 {
        let start = end.saturating_sub(chunk);
        let rest = [&lines[..start], &lines[end..]].concat();
        if differs(drive, &rest.concat()) {
            *lines = rest;
        }
        end = start;
    }
}

/// Prints a script with both answers to each line; `<<` marks a difference.
pub fn show(drive: &Drive, script: &[u8]) {
    let theirs = drive.answers(script);
    let ours = own_answers(script);
    let mut theirs = theirs.split(|&byte| byte == b'\n');
    let mut ours = ours.split(|&byte| byte == b'\n');
    let plain = |text: &[u8]| text.escape_ascii().to_string();
    for line in script.split(|&byte| byte == b'\n') {
        println!("{}", plain(line));
        if commands::is_silent(line) {
            continue;
        }
        show_pair(theirs.next(), ours.next());
    }
    // What stands behind the last answer, if anything does.
    let (theirs, ours): (Vec<_>, Vec<_>) = (theirs.collect(), ours.collect());
    for place in 0..theirs.len().max(ours.len()) {
        show_pair(theirs.get(place).copied(), ours.get(place).copied());
    }
}

fn show_pair(theirs: Option<&[u8]>, ours: Option<&[u8]>) {
    let plain = |text: Option<&[u8]>| match text {
        Some(text) => text.escape_ascii().to_string(),
        None => "(nothing)".into(),
    };
    if theirs == ours && theirs == Some(b"") {
        return;
    }
    let mark = if theirs == ours { "" } else { "   <<" };
    println!("    drive:  {}{mark}", plain(theirs));
    println!("    second: {}{mark}", plain(ours));
}
