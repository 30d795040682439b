//! `generate SEED COUNT [--tally]`: writes a random script.

use std::io::{self, Write};
use std::process::ExitCode;

use second::script::Script;

fn main() -> ExitCode {
    let words: Vec<String> = std::env::args().skip(1).collect();
    let Some((seed, count, tally)) = wanted(&words) else {
        eprintln!("generate SEED COUNT [--tally]");
        return ExitCode::from(2);
    };
    let script = Script::new(seed, count);
    if tally {
        eprintln!("{}", script.tally);
    }
    match io::stdout().lock().write_all(&script.text) {
        Ok(()) => ExitCode::SUCCESS,
        Err(_) => ExitCode::FAILURE,
    }
}

fn wanted(words: &[String]) -> Option<(u64, usize, bool)> {
    let (seed, count, tally) = match words {
        [seed, count] => (seed, count, false),
        [seed, count, tally] if tally == "--tally" => (seed, count, true),
        _ => return None,
    };
    Some((seed.parse().ok()?, count.parse().ok()?, tally))
}
