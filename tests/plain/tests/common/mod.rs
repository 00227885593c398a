//! What several tests share; none of them uses all of it.
#![allow(dead_code)]

pub mod lent;

use plain::script;

pub fn answers(script: &[u8]) -> String {
    let mut out = Vec::new();
    script::answer(script, &mut out).expect("a vector takes all");
    String::from_utf8(out).expect("answers are plain text")
}

/// Runs lines of the form `input -> output`, the last with input `(end)`.
pub fn agrees(run: &str) {
    let lines: Vec<(&str, &str)> = run
        .lines()
        .map(str::trim)
        .filter(|line| !line.is_empty())
        .map(|line| line.split_once(" -> ").expect("an arrow"))
        .collect();
    let script: String = lines
        .iter()
        .filter(|(input, _)| *input != "(end)")
        .map(|(input, _)| format!("{input}\n"))
        .collect();
    let expected: Vec<&str> = lines.iter().map(|(_, output)| *output).collect();
    let answers = answers(script.as_bytes());
    let given: Vec<&str> = answers.lines().take(expected.len()).collect();
    assert_eq!(given, expected);
}
