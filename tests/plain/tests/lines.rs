//! Good and malformed lines.

mod common;

use common::answers;
use plain::damage::{damaged, KINDS};
use plain::step::Step;
use plain::{profiles, script};
use std::io::Write;
use std::process::{Command, Stdio};

#[test]
fn good_lines() {
    let zeros = "0".repeat(100_000);
    let put = format!("P 7 4294967295 18446744073709551615 {zeros}65535");
    let text = format!("B {zeros}7\n{put}\nR 7 {zeros}4294967295\n");
    assert_eq!(answers(text.as_bytes()), "B 0\nP 0\nR 0 18446744073709551615 65535 0\nE 0\n");
    assert_eq!(answers(b"B 4294967295\nR 8 1\n"), "B 1\nR 1\nE 0\n");
    assert_eq!(answers(b"T\nT\n"), "T 0 0\nT 0 0\nE 0\n");
    assert_eq!(answers(b"G\nT\n"), "G 0\nT 0 0\nE 0\n");
}

/// A map is guarded from its start on: only the first line may say so.
#[test]
fn malformed_first_lines() {
    for line in ["G ", "G 0", "G\r", "G\t", "G\0", "GG", "G0", " G", "g", "G 0 0", "G T", "", "E"] {
        assert_eq!(answers(format!("{line}\nB 0\n").as_bytes()), "?\n", "{line:?}");
        assert_eq!(answers(format!("G\n{line}\nB 0\n").as_bytes()), "G 0\n?\n", "{line:?}");
    }
    assert_eq!(answers(b"G\nG\n"), "G 0\n?\n");
}

#[test]
fn malformed_lines() {
    let lines: [&[u8]; 62] = [
        b"\n",
        b" \n",
        b"\r\n",
        b"B\n",
        b"B \n",
        b"B 0 \n",
        b" B 0\n",
        b"B  0\n",
        b"B\t0\n",
        b"B 0\t\n",
        b"B 0\r\n",
        b"B0\n",
        b"b 0\n",
        b"E 0\n",
        b"? 0\n",
        b"0\n",
        b"B 0 0\n",
        b"B +0\n",
        b"B -0\n",
        b"B -\n",
        b"B 0x0\n",
        b"B 0.0\n",
        b"B 4294967296\n",
        b"R 0\n",
        b"R 0 4294967296\n",
        b"S 0 1\n",
        b"S 0 1 2 3\n",
        b"S 0 1 4294967296\n",
        b"P 0 1\n",
        b"P 0 1 2\n",
        b"P 0 1 2 \n",
        b"P 0 1 2 3 \n",
        b"P 0 1 2 3 4\n",
        b"P 0 1 2  3\n",
        b"P 0 1 2 -3\n",
        b"P 0 1 2 65536\n",
        b"P 0 1 2 065536\n",
        b"P 0 1 2 4294967296\n",
        b"P 0 1 2 18446744073709551616\n",
        b"P 0 4294967296 2 3\n",
        b"P 0 1 18446744073709551616 3\n",
        b"P 0 1 99999999999999999999999 3\n",
        b"M\n",
        b"M 0 0\n",
        b"M 4294967296\n",
        b"T \n",
        b"T 0\n",
        b"T\r\n",
        b"T\t\n",
        b"T0\n",
        b"TT\n",
        b" T\n",
        b"t\n",
        b"T\x00\n",
        b"G\n",
        b"G \n",
        b"G 0\n",
        b"GG\n",
        b"g\n",
        b"B 0\x00\n",
        b"\x00\n",
        b"B \xff\n",
    ];
    for line in lines {
        let text = [b"B 1\n", line, b"B 2\n"].concat();
        assert_eq!(answers(&text), "B 0\n?\n", "{:?}", String::from_utf8_lossy(line));
    }
}

#[test]
fn last_line_without_its_line_feed() {
    for line in ["B 2", "B ", "B", "M 5", "T", "T ", "G", "G ", "P 1 2 3 4", " ", "\r"] {
        assert_eq!(answers(format!("B 1\n{line}").as_bytes()), "B 0\n?\n", "{line:?}");
        assert_eq!(answers(line.as_bytes()), "?\n", "{line:?}");
    }
}

/// Only what stands before the damaged line is answered, for every kind.
#[test]
fn every_kind_of_damage() {
    for seed in 0..8 * KINDS.len() as u64 {
        let damaged = damaged(seed, 60);
        assert_eq!(damaged.kind, KINDS[seed as usize % KINDS.len()].name);
        let given = answers(&damaged.text);
        let (earlier, last) = given.split_at(given.len() - 2);
        assert_eq!(last, "?\n", "{}", damaged.kind);
        assert_eq!(earlier.lines().count(), damaged.line, "{}", damaged.kind);
        let lines = damaged.text.split_inclusive(|&byte| byte == b'\n');
        let good: Vec<u8> = lines.take(damaged.line).flatten().copied().collect();
        assert!(answers(&good).starts_with(earlier), "{}", damaged.kind);
    }
}

/// The damage of a wide owner is the owner alone: with the last one that fits in its
/// place, all lines are answered.
#[test]
fn wide_owners() {
    let kind = KINDS.iter().position(|kind| kind.name == "wide owner").expect("it is a kind");
    let mut by_one = 0;
    for seed in (kind as u64..).step_by(KINDS.len()).take(40) {
        let damaged = damaged(seed, 20);
        let mut lines: Vec<&[u8]> = damaged.text.split_inclusive(|&byte| byte == b'\n').collect();
        by_one += usize::from(lines[damaged.line] == b"P 0 1 2 65536\n");
        lines[damaged.line] = b"P 0 1 2 65535\n";
        assert!(answers(&damaged.text).ends_with("?\n"));
        assert!(!answers(&lines.concat()).contains('?'));
    }
    assert!(by_one > 0);
}

/// A step's line reads back as the step.
#[test]
fn lines_read_back() {
    for profile in profiles::PROFILES.iter().filter(|profile| profile.least == 0) {
        let steps = plain::generate::script(5, 500, profile);
        let text = plain::generate::text(5, 500, profile);
        assert_eq!(script::steps(&text), steps);
        assert_eq!(script::guarded(&text), profile.guarded);
    }
}

fn run(arguments: &[&str], input: &[u8]) -> (Option<i32>, String) {
    let mut child = Command::new(env!("CARGO_BIN_EXE_plain"))
        .args(arguments)
        .stdin(Stdio::piped())
        .stdout(Stdio::piped())
        .stderr(Stdio::null())
        .spawn()
        .unwrap();
    child.stdin.take().unwrap().write_all(input).unwrap();
    let output = child.wait_with_output().unwrap();
    (output.status.code(), String::from_utf8(output.stdout).unwrap())
}

#[test]
fn commands() {
    let (code, script) = run(&["script", "3", "300", "any"], b"");
    assert_eq!((code, script.lines().count()), (Some(0), 300));
    assert_eq!(run(&["script", "3", "300", "any"], b"").1, script);
    let (code, answer) = run(&["answer"], script.as_bytes());
    assert_eq!((code, answer), (Some(0), answers(script.as_bytes())));
    let read = b"B 0\nR 0 5\n";
    assert_eq!(run(&["answer"], read), (Some(0), "B 0\nR 0 - 1\nE 0\n".into()));
    assert_eq!(run(&["fast"], read), (Some(0), "B 0\nR 0 -\nE 0\n".into()));
    let (code, claim) = run(&["claim"], script.as_bytes());
    assert_eq!(code, Some(0));
    assert!(claim.starts_with("claim holds: "), "{claim}");
    let (_, script) = run(&["script", "3", "300", "guarded"], b"");
    assert!(script.starts_with("G\n") && script.lines().count() == 301);
    assert_eq!(run(&["answer"], script.as_bytes()).1, answers(script.as_bytes()));
    assert_eq!(run(&["claim"], script.as_bytes()).0, Some(0));
    assert_eq!(run(&["script", "3", "300", "none"], b"").0, Some(2));
    assert_eq!(run(&["profiles"], b"").1.lines().count(), profiles::PROFILES.len());
    assert_eq!(run(&["damage-kinds"], b"").1.lines().count(), KINDS.len());
    assert_eq!(run(&["damaged", "23", "10"], b"").0, Some(0));
}

/// The order of a hash map, other in each process, must not show.
#[test]
fn scripts_are_the_same_each_time() {
    for profile in profiles::PROFILES.iter().filter(|profile| profile.least == 0) {
        let script = || run(&["script", "9", "4000", profile.name], b"").1;
        assert_eq!(script(), script(), "{}", profile.name);
    }
}

#[test]
fn parsed_fields_stand_in_their_order() {
    let steps = script::steps(b"S 1 2 3\nP 4 5 6 7\n");
    let put = Step::Put { worker: 4, address: 5, value: 6, owner: 7 };
    let expected = [Step::Scan { worker: 1, lo: 2, hi: 3 }, put];
    assert_eq!(steps, expected);
}
