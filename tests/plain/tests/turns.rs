//! Nobody starves: a write that waits is merged by the 192nd merge that picks
//! its own leaf, whatever else comes between.

use plain::engine::Engine;
use plain::map::INDEXLET_LIMIT;
use plain::profiles::PROFILES;
use plain::step::{run, Buffers, Step};
use plain::{generate, script};
use std::collections::HashMap;

/// The most such merges that any write of a fresh engine's history saw while it waited, the
/// one that took it in or the last of the history included.
fn longest(mut engine: Engine, steps: &[Step]) -> usize {
    let mut buffers = Buffers::default();
    let mut waited: HashMap<u32, usize> = HashMap::new();
    let mut longest = 0;
    for &step in steps {
        run(&mut engine, step, &mut buffers);
        match step {
            Step::MergeOldest => waited.values_mut().for_each(|turns| *turns += 1),
            Step::Merge { .. } | Step::Install { .. } => {}
            _ => continue,
        }
        longest = waited.values().copied().fold(longest, usize::max);
        waited.retain(|&address, _| engine.map().pending(address).is_some());
        for (&address, entry) in engine.map().indexlet() {
            if entry.pending.is_some() {
                waited.entry(address).or_insert(0);
            }
        }
        assert!(waited.values().all(|&turns| turns < INDEXLET_LIMIT), "starved: {waited:?}");
    }
    longest
}

#[test]
fn nobody_starves() {
    for profile in PROFILES.iter().filter(|profile| profile.least == 0) {
        for seed in 0..4 {
            let most = longest(profile.engine(), &generate::script(seed, 20_000, profile));
            assert!(most > 0, "{}", profile.name);
        }
    }
}

/// The bound is met, and no smaller one would do.
#[test]
fn the_last_of_192() {
    let runs = plain::compare::runs::all();
    let longest = runs.iter().map(|run| {
        let text = run.text();
        longest(Engine::new(script::guarded(&text)), &script::steps(&text))
    });
    assert_eq!(longest.max(), Some(INDEXLET_LIMIT));
}
