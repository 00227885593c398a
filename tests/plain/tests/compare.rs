//! The comparison itself: it finds what differs, and where.

mod common;

use common::answers;
use plain::compare::suite::{by_script, damaged, random, Size, GATE};
use plain::compare::{first_difference, run, runs, Difference, Subject};
use plain::damage::KINDS;
use plain::profiles::PROFILES;
use std::io;

fn between(script: &str, expected: &str, given: &str) -> Option<Difference> {
    first_difference(script.as_bytes(), expected.as_bytes(), given.as_bytes())
}

#[test]
fn first_differing_line() {
    assert!(between("B 0\n", "B 0\nE 0\n", "B 0\nE 0\n").is_none());
    let found = between("B 0\nB 0\nB 1\n", "B 0\nB 3\nB 0\n", "B 0\nB 0\nB 3\n").unwrap();
    assert_eq!((found.line, found.script.as_str()), (2, "B 0"));
    assert_eq!((found.expected.as_str(), found.given.as_str()), ("B 3", "B 0"));
}

#[test]
fn missing_answers() {
    let found = between("B 0\n", "B 0\nE 0\n", "B 0\n").unwrap();
    assert_eq!((found.line, found.script.as_str()), (2, "(end)"));
    assert_eq!((found.expected.as_str(), found.given.as_str()), ("E 0", "(nothing)"));
    let found = between("", "E 0\n", "E 0").unwrap();
    assert_eq!((found.line, found.given.as_str()), (1, "E 0 (no line feed)"));
    assert!(between("", "E 0\n", "E 0\nE 0\n").is_some());
}

/// The model, but for one answer.
struct Liar;

impl Subject for Liar {
    fn name(&self) -> String {
        "lying".into()
    }

    fn answers(&self, script: &[u8]) -> io::Result<Vec<u8>> {
        Ok(answers(script).replace("V 14\n", "V 13\n").into())
    }
}

#[test]
fn lies_are_found() {
    let size = Size { seeds: 1..2, steps: 3_000 };
    let races = PROFILES.iter().find(|profile| profile.name == "races");
    let tally = run(&by_script(&Liar, random(&size, races)));
    assert_eq!((tally.passed, tally.failed, tally.lines), (0, 1, 3_000));
}

/// The runs that are written by hand are the model's too.
#[test]
fn runs_by_hand() {
    for script in runs::all() {
        let text = script.text();
        let found = first_difference(&text, &script.answers(&text), answers(&text).as_bytes());
        assert!(found.is_none(), "{script}\n{}", found.unwrap());
    }
}

#[test]
fn the_gate_has_every_kind() {
    let scripts = random(&GATE, None);
    assert!(PROFILES
        .iter()
        .all(|profile| scripts.iter().any(|script| script.group() == profile.name)));
    assert_eq!(damaged(0..2).len(), 2 * KINDS.len());
}
