//! The worked history of document 01, W1 to W11, in the command language.

use second::commands;

const EVENTS: &str = "B4 4D 01 01 04 | B4 4D 02 02 00 01 | B4 4D 02 02 00 02 | \
    B4 4D 02 02 00 03 | B4 4D 03 02 01 02 | B4 4D 04 0B 01 01 2F 73 72 76 2F 6D 6F 64 31 | ";
const NEVER_CONNECTED: &str =
    "B4 4D 05 01 00 | B4 4D 05 02 01 02 | B4 4D 05 03 07 00 01 | B4 4D 05 02 03 02";

fn run(nodes: &str, script: &str) -> Vec<String> {
    let script = format!("sheet {EVENTS}{nodes}\n{script}");
    let mut answers = Vec::new();
    commands::answer_all(script.as_bytes(), &mut answers).expect("answers go into memory");
    let answers = String::from_utf8(answers).expect("answers are plain text");
    answers.lines().skip(1).map(String::from).collect()
}

/// Runs the lines and compares the answer of each.
fn expect(nodes: &str, lines: &[(&str, &str)]) {
    let script: String = lines.iter().map(|(line, _)| format!("{line}\n")).collect();
    let answers: Vec<&str> = lines.iter().map(|(_, answer)| *answer).collect();
    assert_eq!(run(nodes, &script), answers);
}

#[test]
fn w1_to_w6() {
    let image = "b44d0802000000010000000700000000000000b44d0900000000";
    expect(
        NEVER_CONNECTED,
        &[
            ("check", "allow 0000000000000009"),
            ("begin", "s1"),
            ("record 1 1", "r26"),
            ("record 1 0", "ok"),
            ("record 1 2", "ok"),
            ("check", "deny 0000000000000007"),
            ("record 1 1", "r25"),
            ("record 1 0", "r24"),
            ("record 1 3", "ok"),
            ("counts", "1 1 0"),
            ("check", "deny 0000000000000007"),
            ("begin", "s2"),
            ("check", "deny 0000000000000005"),
            ("save 26", &format!("i26 {image}")),
            ("record 1 0", "r23"),
            ("record 3 4", "r21"),
            ("record 1 4", "r22"),
        ],
    );
}

#[test]
fn w7() {
    expect(
        NEVER_CONNECTED,
        &[
            ("begin", "s1"),
            ("begin", "s2"),
            ("record 2 0", "ok"),
            ("record 2 1", "ok"),
            ("record 2 3", "ok"),
            ("counts", "2 0 2"),
            ("check", "allow 0000000000000009"),
            ("record 1 0", "ok"),
            ("record 1 2", "ok"),
            ("check", "deny 0000000000000005"),
            ("record 1 3", "ok"),
            ("counts", "2 2 0"),
        ],
    );
}

#[test]
fn w8() {
    expect(
        "B4 4D 05 01 00 | B4 4D 05 02 06 00",
        &[
            ("check", "deny 0000000000000001"),
            ("begin", "s1"),
            ("check", "deny 0000000000000001"),
            ("begin", "s2"),
            ("check", "allow 0000000000000003"),
            ("record 1 0", "ok"),
            ("record 1 1", "ok"),
            ("record 1 3", "ok"),
            ("counts", "2 1 1"),
            ("check", "allow 0000000000000003"),
        ],
    );
}

#[test]
fn w9() {
    expect(
        "B4 4D 05 02 02 01 | B4 4D 05 02 02 02",
        &[
            ("begin", "s1"),
            ("record 1 0", "ok"),
            ("record 1 1", "ok"),
            ("check", "deny 0000000000000001"),
        ],
    );
}

#[test]
fn room_is_freed() {
    let mut script = "begin\n".repeat(65);
    script += "record 1 0\nrecord 1 1\nrecord 1 3\nbegin\n";
    let answers = run(NEVER_CONNECTED, &script);
    assert_eq!(answers[63..], ["s64", "r27", "ok", "ok", "ok", "s65"]);
}

#[test]
fn w10_and_w11() {
    let long = format!("write /srv/mod1/{}", "a".repeat(245));
    let over = format!("{long}a");
    expect(
        NEVER_CONNECTED,
        &[
            ("write /srv/mod1/a", "e1 2f7372762f6d6f6431 2f61"),
            ("write /srv/mod1", "e1 2f7372762f6d6f6431 -"),
            ("write /srv/mod10/a", "r33"),
            ("read /srv/mod1/a", "r33"),
            ("write /srv/mod1/../mod2/x", "r32"),
            ("write /srv/mod1/", "r32"),
            ("write /", "r32"),
            ("write /srv/mod1/..a", "e1 2f7372762f6d6f6431 2f2e2e61"),
            (&long, &format!("e1 2f7372762f6d6f6431 2f{}", "61".repeat(245))),
            (&over, "r31"),
        ],
    );
}
