//! Logs: three with right replies, grants and counts, the last with many later reads of a tap, and what is
//! no log. The program plays them as files and writes talks.

use std::path::{Path, PathBuf};
use std::process::Command;

use peer::beside::{self, Stored};
use peer::grant::Grant;
use peer::log::{Log, Malformed, Played};
use peer::talk::{talk, Tally};

/// Each log with its grants and counts.
const LOGS: [(&str, &str, &str); 3] = [
    (
        include_str!("logs/base-007.log"),
        include_str!("logs/base-007.grants"),
        include_str!("logs/base-007.counts"),
    ),
    (
        include_str!("logs/base-029.log"),
        include_str!("logs/base-029.grants"),
        include_str!("logs/base-029.counts"),
    ),
    (
        include_str!("logs/talk-004.log"),
        include_str!("logs/talk-004.grants"),
        include_str!("logs/talk-004.counts"),
    ),
];

fn played(text: &str) -> Played {
    let log = Log::parse(text.as_bytes()).expect("a log");
    log.play().expect("a tag")
}

/// What is stored beside a log.
fn stored(grants: Option<&str>, counts: Option<&str>) -> Stored {
    Stored {
        grants: grants.map(str::to_string),
        counts: counts.map(str::to_string),
    }
}

#[test]
fn right_replies_grants_and_counts() {
    for (text, grants, counts) in LOGS {
        let log = Log::parse(text.as_bytes()).expect("a log");
        assert_eq!(log.exchanges.len(), 120);
        assert_eq!(log.text(), text);
        let played = played(text);
        assert_eq!(played.report(&stored(Some(grants), Some(counts))), [""; 0]);
        assert_eq!(beside::text(&played.beside.grants), grants);
        assert_eq!(beside::text(&played.beside.counts), counts);
    }
}

#[test]
fn a_wrong_reply_is_found() {
    let mut log = Log::parse(LOGS[0].0.as_bytes()).expect("a log");
    log.exchanges[41].reply.push(0);
    let differences = log.play().expect("a tag").differences;
    assert_eq!(differences.len(), 1);
    assert_eq!(differences[0].number, 42);
    assert_eq!(differences[0].logged.len(), differences[0].ours.len() + 1);
}

/// Grants or counts of a log, and what makes them wrong: another line, lines missing at the end,
/// lines too many. With how many lines then differ.
fn spoiled(right: &str, other: &str) -> [(String, usize); 6] {
    let lines: Vec<&str> = right.lines().collect();
    let front = lines[..118].join("\n");
    let mut wrong = lines.clone();
    wrong[41] = other;
    [
        (wrong.join("\n"), 1),
        (front.clone(), 2),
        (front + "\n\n", 2),
        (format!("{right}{other}\n"), 1),
        (format!("{right}\n"), 1),
        (String::new(), 120),
    ]
}

fn spoiled_grants() -> [(String, usize); 6] {
    spoiled(LOGS[0].1, "key SDMFileRead")
}

fn spoiled_counts() -> [(String, usize); 6] {
    spoiled(LOGS[0].2, "36")
}

#[test]
fn wrong_missing_and_surplus_lines_are_found() {
    let (log, grants, counts) = LOGS[0];
    let played = played(log);
    for (text, differing) in spoiled_grants() {
        let report = played.report(&stored(Some(&text), Some(counts)));
        assert_eq!(report.len(), differing, "{text}");
    }
    for (text, differing) in spoiled_counts() {
        let report = played.report(&stored(Some(grants), Some(&text)));
        assert_eq!(report.len(), differing, "{text}");
    }
}

/// The differences of a text, in one line.
fn named<T: std::fmt::Display>(what: &'static str, text: &str, ours: &[T]) -> String {
    let differences = beside::differences(what, text, ours);
    let lines: Vec<String> = differences.iter().map(|line| line.to_string()).collect();
    lines.join("; ")
}

#[test]
fn differing_counts_are_named() {
    let report = |text| named("count", text, &[1, 10]);
    assert_eq!(report("1\n10\n"), "");
    assert_eq!(report("1\n010\n"), "2 count 010, ours 10");
    assert_eq!(report("2\n"), "1 count 2, ours 1; 2 count missing, ours 10");
    assert_eq!(report("1\n10\n0\n"), "3 count 0, ours missing");
}

#[test]
fn differing_grants_are_named() {
    let report = |text| named("grant", text, &[Grant::NoRight, Grant::NotAsked]);
    assert_eq!(report("none\n-\n"), "");
    assert_eq!(report("none\n-"), "");
    assert_eq!(report("none\r\n-\n"), "1 grant none\r, ours none");
    assert_eq!(report("none\nE Read\n"), "2 grant E Read, ours -");
    assert_eq!(report("none\n"), "2 grant missing, ours -");
    assert_eq!(report("none\n-\nnone\n"), "3 grant none, ours missing");
}

/// An empty folder for a test.
fn folder(name: &str) -> PathBuf {
    let folder = Path::new(env!("CARGO_TARGET_TMPDIR")).join(name);
    if folder.exists() {
        std::fs::remove_dir_all(&folder).expect("an old folder removed");
    }
    std::fs::create_dir_all(&folder).expect("a folder");
    folder
}

/// Whether the program ends well, and the last line that it prints.
fn program(command: &str, paths: &[&Path]) -> (bool, String) {
    let program = Command::new(env!("CARGO_BIN_EXE_peer"))
        .args(command.split(' '))
        .args(paths)
        .output()
        .expect("the program runs");
    let said = String::from_utf8(program.stdout).expect("text");
    let last = said.lines().last().unwrap_or_default().to_string();
    (program.status.success(), last)
}

#[test]
fn what_is_stored_beside_a_log_makes_it_differ() {
    let folder = folder("stored");
    let [log, grants, counts] = ["a.log", "a.grants", "a.counts"].map(|name| folder.join(name));
    std::fs::write(&log, LOGS[0].0).expect("a log written");
    let right = (true, "1 logs, 0 differ".to_string());
    assert_eq!(program("play", &[&log]), right);
    for (path, written, spoiled) in [
        (&grants, LOGS[0].1, spoiled_grants()),
        (&counts, LOGS[0].2, spoiled_counts()),
    ] {
        for (text, _) in spoiled {
            std::fs::write(path, &text).expect("a file written");
            let differs = (false, "1 logs, 1 differ".to_string());
            assert_eq!(program("play", &[&log]), differs, "{text}");
        }
        std::fs::write(path, written).expect("a file written");
        assert_eq!(program("play", &[&log]), right);
    }
}

#[test]
fn talks_are_written_with_grants_and_counts() {
    let folder = folder("talks");
    let order = "talks --seed 7 --exchanges 500 --each 300 --into";
    assert!(program(order, &[&folder]).0);
    let logs = ["talk-00000.log", "talk-00001.log"].map(|name| folder.join(name));
    for kind in ["grants", "counts"] {
        let lines = logs.each_ref().map(|log| {
            let text = std::fs::read_to_string(log.with_extension(kind)).expect("a text");
            assert!(text.ends_with('\n'));
            text.lines().count()
        });
        assert_eq!(lines, [300, 200]);
    }
    let right = (true, "2 logs, 0 differ".to_string());
    assert_eq!(program("play", &[&logs[0], &logs[1]]), right);
}

fn malformed(text: &str) -> Option<usize> {
    Log::parse(text.as_bytes())
        .err()
        .map(|Malformed { line, .. }| line)
}

#[test]
fn malformed_logs_name_their_line() {
    let uid = "04F98491E5FECE\n";
    let random = "2FD3507838CD130496BE0326056CB71B69C6F1DB\n";
    assert_eq!(malformed(uid), None);
    assert_eq!(malformed(&format!("{uid}00A4000C\n9000\n{random}")), None);
    assert_eq!(malformed(""), Some(1));
    assert_eq!(malformed("05F98491E5FECE\n"), Some(1));
    assert_eq!(malformed("04F98491E5FE\n"), Some(1));
    assert_eq!(
        malformed(&format!("{uid}00a4000C\n9000\n{random}")),
        Some(2)
    );
    assert_eq!(malformed(&format!("{uid}00A4000C\n900\n{random}")), Some(3));
    assert_eq!(malformed(&format!("{uid}00A4000C\n9000\n00\n")), Some(4));
    assert_eq!(malformed(&format!("{uid}00A4000C\n9000\n")), Some(4));
    assert_eq!(malformed(&format!("{uid}00A4000C\r\n9000\n")), Some(2));
    assert_eq!(
        malformed(&format!("{uid}00A4000C\n9000\n{random}\n")),
        Some(6)
    );
}

#[test]
fn a_seed_fixes_a_talk_and_a_talk_plays_as_written() {
    let text = |seed, index| {
        let (log, beside) = talk(seed, index, 300, &mut Tally::default()).expect("a talk");
        assert_eq!(played(&log.text()).beside, beside);
        log.text()
    };
    assert_eq!(text(5, 3), text(5, 3));
    assert_ne!(text(5, 3), text(5, 4));
    assert_ne!(text(5, 3), text(6, 3));
    assert!(played(&text(5, 3)).differences.is_empty());
}
