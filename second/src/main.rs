//! `second`: answers the commands on standard input.

use std::io::{self, Write};
use std::process::ExitCode;

fn main() -> ExitCode {
    let mut to = io::stdout().lock();
    let done = second::commands::answer_all(io::stdin().lock(), &mut to).and_then(|()| to.flush());
    match done {
        Ok(()) => ExitCode::SUCCESS,
        Err(_) => ExitCode::FAILURE,
    }
}
