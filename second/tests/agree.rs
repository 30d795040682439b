//! Histories and stored states give the same answers where both speak: on
//! sequences of calls in which every image restored was saved before.

use second::commands;
use second::monitor::Monitor;
use second::script::Script;
use second::text;

fn answer(monitor: &mut Monitor, line: &[u8]) -> Vec<u8> {
    let mut answer = Vec::new();
    commands::answer(monitor, line, &mut answer);
    answer
}

/// The image in the answer `iLEN HEX` to a save.
fn image(answer: &str) -> Option<Vec<u8>> {
    let (length, hex) = answer.strip_prefix('i')?.trim_end().split_once(' ')?;
    text::bytes(&hex.as_bytes()[..2 * length.parse::<usize>().ok()?])
}

/// Whether a line keeps to calls, and to images saved before.
fn is_call(line: &[u8], saved: &[Vec<u8>]) -> bool {
    match line.strip_prefix(b"restore ").and_then(text::bytes) {
        Some(image) => saved.contains(&image),
        None => !line.starts_with(b"poke"),
    }
}

fn both_ways(seed: u64) -> usize {
    let script = Script::new(seed, 3000);
    let (mut whole, mut stored) = (Monitor::default(), Monitor::default());
    let mut saved = Vec::new();
    let mut restored = 0;
    for line in script.text.split(|&byte| byte == b'\n') {
        if !is_call(line, &saved) {
            continue;
        }
        let said = answer(&mut whole, line);
        assert_eq!(said, answer(&mut stored, line), "seed {seed}, {}", line.escape_ascii());
        if line.starts_with(b"sheet") && said == b"ok\n" {
            // From here on one of the two is judged as it is stored.
            stored.poke(|_| {});
            saved.clear();
        }
        restored += usize::from(line.starts_with(b"restore") && said == b"ok\n");
        saved.extend(image(&String::from_utf8_lossy(&said)));
    }
    restored
}

#[test]
fn histories_and_stored_states_agree() {
    let restored: usize = (0..40).map(both_ways).sum();
    assert!(restored > 1000, "too few images were restored: {restored}");
}
