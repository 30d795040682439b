//! `soak SEED COUNT [DRIVE]`: holds another program against this one, with
//! fresh random scripts, until COUNT commands were compared.

use std::process::ExitCode;
use std::time::Instant;

use second::compare::{self, Drive};
use second::random::Random;
use second::script::Script;
use second::tally::Tally;

/// A progress line after so many commands.
const OFTEN: usize = 100_000;

fn main() -> ExitCode {
    let words: Vec<String> = std::env::args().skip(1).collect();
    let Some((seed, count, drive)) = wanted(&words) else {
        eprintln!("soak SEED COUNT [DRIVE]");
        return ExitCode::from(2);
    };
    soak(seed, count, &drive)
}

fn wanted(words: &[String]) -> Option<(u64, usize, Drive)> {
    let (seed, count, drive) = match words {
        [seed, count] => (seed, count, "target/bin/drive"),
        [seed, count, drive] => (seed, count, drive.as_str()),
        _ => return None,
    };
    Some((seed.parse().ok()?, count.parse().ok()?, Drive::new(drive)))
}

fn soak(seed: u64, count: usize, drive: &Drive) -> ExitCode {
    let start = Instant::now();
    let mut random = Random::new(seed);
    let mut tally = Tally::default();
    let mut compared = 0;
    while compared < count {
        let length = random.between(2000, 5000).min(count - compared);
        let script = Script::new(random.word(), length);
        if compare::differs(drive, &script.text) {
            println!(
                "a difference after {compared} commands without one; the shortest script found:"
            );
            compare::show(drive, &compare::shrink(drive, &script.text));
            return ExitCode::FAILURE;
        }
        tally.merge(&script.tally);
        if (compared + script.commands()) / OFTEN > compared / OFTEN {
            let done = compared + script.commands();
            println!("{done} commands compared, {:.0} s", start.elapsed().as_secs_f64());
        }
        compared += script.commands();
    }
    println!("{tally}");
    println!("{compared} commands compared, no difference, {:.0} s", start.elapsed().as_secs_f64());
    ExitCode::SUCCESS
}
