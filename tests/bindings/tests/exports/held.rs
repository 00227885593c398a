//! Exports held open while jobs go on, in random scripts of every profile: step by step,
//! in one call, and from C.

use bindings::exports::{play, Done, Mixed};
use bindings::mixtures::{file_length, mixture, Met, Mixture};
use bindings::programs::{compile, output_of, root, C};
use bindings::subjects::contents;
use bindings::{fresh, replay};
use plain::map::{Record, MAP_LIMIT};
use plain::profiles::{Profile, PROFILES};
use plain::script::{write_contents, GUARD};
use plain::step::Shown;
use sections::{Sections, Step};
use std::fs::{self, File};
use std::path::PathBuf;
use std::process::Command;

/// What all scripts together must meet, and how often.
const OFTEN: [(&str, usize); 17] = [
    ("install", 1000),
    ("fold", 500),
    ("fold of the oldest", 500),
    ("join", 100),
    ("cut", 100),
    ("export of nothing", 10),
    ("export of a full map", 5),
    ("another one", 200),
    ("none open", 100),
    ("file", 200),
    ("file with too few bytes", 200),
    ("portion with no places", 500),
    ("fewest addresses", 100),
    ("fewest values", 100),
    ("fewest owners", 100),
    ("whole", 100),
    ("closed early", 100),
];

/// Tries a script of each profile, and counts what they meet.
fn each_profile(seed: u64, try_it: impl Fn(&Profile, Mixture)) {
    let mut all = Met::new();
    for profile in &PROFILES {
        let mixture = mixture(profile, seed, 10_000);
        mixture.met.iter().for_each(|(&name, times)| *all.entry(name).or_default() += times);
        try_it(profile, mixture);
    }
    for (name, least) in OFTEN {
        assert!(all.get(name) >= Some(&least), "{name}: {all:?}");
    }
}

fn shown(&Record { address, stored }: &Record) -> Shown {
    (address, stored.payload.value, stored.payload.owner)
}

/// What the map and its export are after a script: as the second model has them.
fn left_alike(profile: &Profile, map: &mut Sections, mixture: &mut Mixture) {
    let expected: Vec<Shown> = mixture.engine.map().contents().iter().map(shown).collect();
    assert_eq!(contents(map), expected, "{}", profile.name);
    let whole = Mixed::File(file_length(MAP_LIMIT));
    for step in [Mixed::Portion([MAP_LIMIT; 3]), whole, Mixed::Close, Mixed::Open, whole] {
        let expected = play(&mut mixture.engine, step);
        assert_eq!(play(map, step), expected, "{} at its end: {step:?}", profile.name);
    }
}

#[test]
fn step_by_step() {
    each_profile(51, |profile, mut mixture| {
        let mut map = fresh(profile.guarded);
        for (step, done) in &mixture.played {
            assert_eq!(play(&mut map, *step), *done, "{}: {step:?}", profile.name);
        }
        left_alike(profile, &mut map, &mut mixture);
    });
}

/// The bytes after a list: each granted file over those before it.
fn bytes_after(played: &[(Mixed, Done)], length: usize) -> Vec<u8> {
    let mut bytes = vec![85; length];
    for (_, done) in played {
        let written = done.line.strip_prefix("f 0 ").map_or(0, |it| it.parse().expect("a number"));
        bytes[..written].copy_from_slice(&done.bytes[..written]);
    }
    bytes
}

/// The same as one list. Each of its answers is that of the step by itself.
#[test]
fn in_one_call() {
    each_profile(52, |profile, mut mixture| {
        let list: Vec<Step> = mixture.played.iter().map(|(step, _)| step.listed()).collect();
        let length = mixture.played.iter().map(|(_, done)| done.bytes.len()).max().unwrap_or(0);
        let mut bytes = vec![85; length];
        let (mut map, answers) = replay(&list, &mut bytes, profile.guarded);
        let mut single = fresh(profile.guarded);
        for ((step, done), answer) in mixture.played.iter().zip(answers) {
            assert_eq!(single.perform(step.listed()), answer, "{}: {step:?}", profile.name);
            assert_eq!(step.line_of(answer), done.line, "{}: {step:?}", profile.name);
        }
        assert!(bytes == bytes_after(&mixture.played, length), "{}", profile.name);
        left_alike(profile, &mut map, &mut mixture);
    });
}

/// A file's line has its bytes too.
fn line_in_c((step, done): &(Mixed, Done)) -> String {
    let bytes: String = done.bytes.iter().map(|byte| format!("{byte:02x}")).collect();
    match step {
        Mixed::File(_) => format!("{} {bytes}\n", done.line),
        _ => format!("{}\n", done.line),
    }
}

#[test]
fn in_c() {
    let folder = PathBuf::from(env!("CARGO_TARGET_TMPDIR"));
    let (program, input) = (folder.join("exports_in_c"), folder.join("exports_in_c.script"));
    compile(&C, &root().join("tests/bindings/script.c"), &program);
    each_profile(53, |profile, mixture| {
        let mut script = if profile.guarded { GUARD.to_vec() } else { Vec::new() };
        mixture.played.iter().for_each(|(step, _)| step.write(&mut script));
        fs::write(&input, script).expect("there is room");
        let input = File::open(&input).expect("it was written");
        let given = output_of(Command::new(&program).stdin(input));
        let mut end = Vec::new();
        write_contents(
            &mut end,
            &mixture.engine.map().contents().iter().map(shown).collect::<Vec<_>>(),
        );
        let start = if profile.guarded { "G 0\n" } else { "" };
        let lines: String = mixture.played.iter().map(line_in_c).collect();
        let expected = format!("{start}{lines}{}", String::from_utf8(end).expect("plain text"));
        for (number, (given, expected)) in given.lines().zip(expected.lines()).enumerate() {
            assert_eq!(given, expected, "{}, line {}", profile.name, number + 1);
        }
        assert_eq!(given.lines().count(), expected.lines().count());
    });
}
