//! Guarded maps: no steps whatever leave two current sections that overlap, and
//! the same steps on another map would.

use plain::engine::Engine;
use plain::generate;
use plain::map::Map;
use plain::profiles::{find, Profile, PROFILES};
use plain::step::{run, Answer, Buffers, Step};

/// Whether two current sections share a byte. Rising as they are, some neighbours
/// do if any two do.
fn overlap(map: &Map) -> bool {
    let contents = map.contents();
    contents.windows(2).any(|pair| {
        let end = u128::from(pair[0].address) + u128::from(pair[0].stored.payload.value);
        end > u128::from(pair[1].address)
    })
}

/// How often sections overlapped after a step, and the answers.
fn play(mut engine: Engine, steps: &[Step]) -> (usize, Vec<Answer>) {
    let mut buffers = Buffers::default();
    let mut overlaps = 0;
    let mut answers = Vec::new();
    for &step in steps {
        answers.push(run(&mut engine, step, &mut buffers));
        overlaps += usize::from(overlap(engine.map()));
    }
    (overlaps, answers)
}

fn profile() -> &'static Profile {
    find("guarded", 0).expect("it is a profile")
}

#[test]
fn nothing_overlaps_after_any_step() {
    for seed in 0..4 {
        let steps = generate::script(seed, 30_000, profile());
        assert_eq!(play(Engine::new(true), &steps).0, 0, "seed {seed}");
    }
}

/// Most of their jobs put without a scan, so they get nowhere: but no step may
/// slip through.
#[test]
fn nothing_overlaps_by_steps_of_other_profiles() {
    let others = PROFILES.iter().filter(|profile| profile.least == 0 && !profile.guarded);
    for profile in others {
        let steps = generate::script(3, 5_000, profile);
        assert_eq!(play(Engine::new(true), &steps).0, 0, "{}", profile.name);
    }
}

/// Without the guard the same steps do overlap, and 16 to 18 are never answered.
#[test]
fn only_the_guard_prevents_it() {
    let steps = generate::script(0, 30_000, profile());
    let (overlaps, answers) = play(Engine::new(false), &steps);
    assert!(overlaps > 10_000, "{overlaps}");
    assert!(!answers.iter().any(|answer| matches!(answer, Answer::Refused(16..))));
}

/// Each current section of a guarded map could be put there.
#[test]
fn lengths_are_good() {
    let (mut engine, mut buffers) = (Engine::new(true), Buffers::default());
    for step in generate::script(2, 30_000, profile()) {
        run(&mut engine, step, &mut buffers);
        if let Step::Install { .. } = step {
            for record in engine.map().contents() {
                let length = record.stored.payload.value;
                let end = u128::from(record.address) + u128::from(length);
                assert!((1..=65_536).contains(&length), "{record:?}");
                assert!(end <= 1 << 32, "{record:?}");
            }
        }
    }
}
