//! The profiles together reach every refusal, limit, leaf action and end of the
//! address range, and the claim holds on each of their scripts.

mod ages;
mod facts;
mod guard;
mod hiding;
mod names;
mod observe;
mod owners;
mod slots;

use observe::{Observer, Seen};
use plain::profiles::{find, Profile, PROFILES};
use plain::step::{run, Buffers, Step};
use plain::{claim, generate, script};

/// Letter and the refusals listed for it, but for 15.
const REFUSALS: [(char, &[u8]); 11] = [
    ('B', &[0, 1, 3]),
    ('R', &[0, 1, 2, 4, 6]),
    ('S', &[0, 1, 2, 4, 5, 6, 8]),
    ('P', &[0, 1, 2, 4, 7]),
    ('D', &[0, 1, 2, 4, 7]),
    ('L', &[0, 1, 2, 4, 9, 10, 11, 16, 17, 18]),
    ('V', &[0, 1, 2, 4, 12, 13, 14]),
    ('I', &[0, 1, 2, 4]),
    ('A', &[0, 1, 2]),
    ('M', &[0]),
    ('T', &[0]),
];

/// Letter, answer and the stages at which it must have come up.
const STAGES: [(&str, &str); 10] = [
    ("B 3", "Open Locked Checked"),
    ("R 4", "Locked Checked"),
    ("S 4", "Locked Checked"),
    ("P 4", "Locked Checked"),
    ("D 4", "Locked Checked"),
    ("L 4", "Locked Checked"),
    ("V 4", "Open Checked"),
    ("I 4", "Open Locked"),
    ("A 0", "Open Locked Checked"),
    ("A 2", "Free"),
];

const MEETINGS: [&str; 72] = [
    "read fills the read set",
    "read beyond the read set",
    "own read at a full read set",
    "backward at a full read set",
    "scan fills the read set",
    "scan beyond the read set",
    "scan fills the leaf set",
    "scan beyond the leaf set",
    "32 leaves at once",
    "33 leaves at once",
    "64 places",
    "65 places",
    "6 before 8",
    "16th write",
    "17th put",
    "17th removal",
    "old put at a full write set",
    "old removal at a full write set",
    "lock fills the indexlet",
    "lock beyond the indexlet",
    "pending address at a full indexlet",
    "no address at a full indexlet",
    "lock at a full map",
    "lock beyond the map",
    "9 before 10",
    "9 before 11",
    "10 before 11",
    "9 before 10 and 11",
    "12 by appeared",
    "12 by disappeared",
    "12 by other value",
    "12 by other stamp",
    "12 before 13",
    "12 before 14",
    "13 before 14",
    "14 by version gone",
    "0 with lock on an index record",
    "0 with absent again",
    "number before install",
    "merge of none",
    "first leaf emptied",
    "leaf joins the first",
    "leaf joins another",
    "1 whole",
    "16 whole",
    "17 cut",
    "24 cut",
    "31 cut",
    "32 or more cut",
    "record dropped under lock",
    "merge under lock",
    "removal of an absent address merged",
    "oldest of none",
    "oldest with others of its leaf",
    "oldest is a removal",
    "oldest by install",
    "oldest by its first write",
    "oldest since the last merge",
    "oldest by address",
    "oldest and not youngest",
    "R at the first address",
    "R at the last address",
    "S at the first address",
    "S at the last address",
    "P at the first address",
    "P at the last address",
    "D at the first address",
    "D at the last address",
    "M at the first address",
    "M at the last address",
    "B 0 Some(Free)",
    "I 0 Some(Checked)",
];

/// What request 102 adds: each reason for 16 to 18, what they go before, and what
/// a granted put may rest on.
const GUARDED: [&str; 47] = [
    "16 by length 0",
    "16 by length 65537",
    "16 by a long length",
    "16 by a length above 32 bits",
    "16 by a length cut to 32 bits",
    "16 by a sum that wraps",
    "16 by an end one past the last address",
    "16 by an end past the last address",
    "17 by no scan",
    "17 by reads alone",
    "17 by a byte at lo",
    "17 by a byte at hi",
    "17 by two scans together",
    "17 by a scan elsewhere",
    "18 by a section below",
    "18 by a section above",
    "18 by a byte of a section below",
    "18 by a byte of a section above",
    "18 by an own put",
    "18 by the latest scan",
    "16 before 17 of a lower address",
    "16 before 18 of a lower address",
    "17 before 18 of a lower address",
    "16 before 9",
    "16 before 10",
    "16 before 11",
    "17 before 9",
    "17 before 10",
    "17 before 11",
    "18 before 9",
    "18 before 10",
    "18 before 11",
    "put with length 1",
    "put with length 65536",
    "put with the first byte",
    "put with the last byte",
    "put with lo just enough",
    "put with lo 0 for a low address",
    "put with hi just enough",
    "put with a scan after the put",
    "put with the latest scan",
    "put with a narrow scan that would refuse it",
    "put with an own removal in its way",
    "put with an own put in its way cut short",
    "put with its own old section",
    "put with a section that touches it",
    "put with an own put that touches it",
];

/// What request 103 adds: the ways in which a look-up goes, and ends.
const LOOK_UPS: [&str; 14] = [
    "own write at an entry",
    "own write at no entry",
    "entry at home",
    "empty home",
    "another at home",
    "entry past an empty slot",
    "no entry past an empty slot",
    "no entry away from home",
    "entry of a lock",
    "no entry of an index record",
    "past the last slot",
    "entry past 100 slots",
    "no entry past 100 slots",
    "all slots",
];

/// What request 104 adds: each way in which a write waits or is locked in a scanned
/// leaf, at an address that the index lacks, alone where it refuses. 9 and 13 come
/// from removals as well.
const HIDING: [&str; 17] = [
    "14 by pending put",
    "14 by own lock and pending put",
    "14 by pending put locked for a put",
    "14 by pending put locked for a removal",
    "14 by lock for a put",
    "14 by lock on a dropped record",
    "14 by pending removal locked for a put",
    "0 with pending removal",
    "0 with lock for a removal",
    "0 with removal locked on a dropped record",
    "0 with pending removal locked for a removal",
    "0 with own lock for a put",
    "0 with own lock for a removal",
    "0 with own put over a pending removal",
    "0 with own removal over a pending removal",
    "9 by two removals",
    "13 by lock for a removal",
];

/// What request 106 adds: who puts, what a put changes if it changes the owner alone,
/// and that a change of the owner alone is seen; whoever owns it, a section is in the
/// way.
const OWNERS: [&str; 10] = [
    "put by the first owner",
    "put by the last owner",
    "another owner in an own put",
    "another owner in a waiting put",
    "another owner in the index",
    "job of other owners alone",
    "12 by other owner",
    "18 by the same owner",
    "18 by another owner",
    "put with another owner alone",
];

fn required() -> Vec<String> {
    let names = MEETINGS.iter().chain(&GUARDED).chain(&LOOK_UPS).chain(&HIDING).chain(&OWNERS);
    let mut names: Vec<String> = names.map(|name| name.to_string()).collect();
    for (letter, numbers) in REFUSALS {
        names.extend(numbers.iter().map(|number| format!("{letter} {number}")));
    }
    for (answer, stages) in STAGES {
        names.extend(stages.split(' ').map(|stage| format!("{answer} Some({stage})")));
    }
    names
}

fn short_profiles() -> impl Iterator<Item = &'static Profile> {
    PROFILES.iter().filter(|profile| profile.least == 0)
}

/// A script of the profile.
fn observe(profile: &Profile, steps: &[Step], seen: &mut Seen) {
    let mut observer = Observer::new(profile.guarded);
    steps.iter().for_each(|&step| observer.play(step, seen));
}

fn assert_claim(profile: &Profile, steps: Vec<Step>) {
    if let Err(failure) = claim::check(&claim::record(profile.engine(), steps)) {
        panic!("{}: {failure}", profile.name);
    }
}

#[test]
fn profiles_reach_everything() {
    let mut seen = Seen::new();
    for profile in short_profiles() {
        for seed in 0..3 {
            observe(profile, &generate::script(seed, 20_000, profile), &mut seen);
        }
    }
    let missing: Vec<String> =
        required().into_iter().filter(|name| !seen.contains_key(name)).collect();
    assert!(missing.is_empty(), "not reached: {missing:?}\nreached: {seen:?}");
}

#[test]
fn claim_holds_on_every_profile() {
    for profile in short_profiles() {
        for (seed, steps) in [(0, 20_000), (1, 20_000), (2, 20_000), (3, 2_000), (4, 500)] {
            assert_claim(profile, generate::script(seed, steps, profile));
        }
    }
}

#[test]
fn ordinary_grants_every_kind_often() {
    let profile = find("ordinary", 0).unwrap();
    let (mut engine, mut buffers) = (profile.engine(), Buffers::default());
    let mut granted = [0; 256];
    for step in generate::script(1, 1_000_000, profile) {
        if run(&mut engine, step, &mut buffers).granted() {
            granted[script::letter(step) as usize] += 1;
        }
    }
    for letter in b"BRSPDLVIAMT" {
        assert!(granted[*letter as usize] >= 10_000, "{}", *letter as char);
    }
}

/// Where every merge picks its own leaf, each reason to pick comes up often, and
/// many leaves wait.
#[test]
fn turns_has_every_pick() {
    let profile = find("turns", 0).unwrap();
    let steps = generate::script(1, 45_000, profile);
    assert!(!steps.iter().any(|step| matches!(step, Step::Merge { .. })));
    let mut seen = Seen::new();
    observe(profile, &steps, &mut seen);
    for name in MEETINGS.iter().filter(|name| name.starts_with("oldest")) {
        assert!(seen.get(*name).is_some_and(|&times| times >= 20), "{name}: {seen:?}");
    }
}

/// In a guarded map all that the guard may say comes up, and the other refusals of
/// lock and validate too; many transactions are installed all the same.
#[test]
fn guarded_has_every_cause() {
    let profile = find("guarded", 0).unwrap();
    let mut seen = Seen::new();
    observe(profile, &generate::script(1, 45_000, profile), &mut seen);
    let times = |name: &str| seen.get(name).copied().unwrap_or(0);
    for name in GUARDED {
        assert!(times(name) >= 3, "{name}: {seen:?}");
    }
    for name in ["L 9", "L 10", "L 11", "L 16", "L 17", "L 18", "V 12", "V 13", "V 14"] {
        assert!(times(name) >= 20, "{name}: {seen:?}");
    }
    assert!(5 * times("I 0") > 2 * times("B 0"), "{seen:?}");
    assert!(4 * times("install of puts") > times("B 0"), "{seen:?}");
}

/// Where one home slot is crowded, look-ups go every way often.
#[test]
fn crowd_has_every_look_up() {
    let profile = find("crowd", 0).unwrap();
    let mut seen = Seen::new();
    observe(profile, &generate::script(1, 45_000, profile), &mut seen);
    for name in LOOK_UPS {
        assert!(seen.get(name).is_some_and(|&times| times >= 20), "{name}: {seen:?}");
    }
}

/// Beside cleanup jobs, each kind of entry often decides a validation, or does not.
#[test]
fn cleanup_has_every_entry() {
    let profile = find("cleanup", 0).unwrap();
    let mut seen = Seen::new();
    observe(profile, &generate::script(1, 45_000, profile), &mut seen);
    for name in HIDING {
        assert!(seen.get(name).is_some_and(|&times| times >= 20), "{name}: {seen:?}");
    }
}

/// Every profile has owners from both ends of the range, and jobs that change owners
/// and nothing else; where jobs meet at old addresses, such jobs are often seen.
#[test]
fn every_profile_has_owners() {
    for profile in short_profiles() {
        let mut seen = Seen::new();
        observe(profile, &generate::script(1, 20_000, profile), &mut seen);
        let times = |name: &str| seen.get(name).copied().unwrap_or(0);
        for name in ["put by the first owner", "put by the last owner"] {
            assert!(times(name) >= 20, "{}, {name}: {seen:?}", profile.name);
        }
        let name = "job of other owners alone";
        assert!(times(name) >= 3, "{}, {name}: {}", profile.name, times(name));
        if ["contended", "races", "guarded"].contains(&profile.name) {
            let name = "12 by other owner";
            assert!(times(name) >= 5, "{}, {name}: {}", profile.name, times(name));
        }
    }
}

#[test]
fn commit_numbers_end() {
    let profile = find("spent", 0).unwrap();
    let steps = generate::script(1, 0, profile);
    let mut seen = Seen::new();
    observe(profile, &steps, &mut seen);
    for name in ["V 15", "12 before 15", "13 before 15", "14 before 15", "I 0", "A 0 Some(Locked)"]
    {
        assert!(seen.contains_key(name), "{name}");
    }
    assert_claim(profile, steps);
}
