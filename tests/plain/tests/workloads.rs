//! Each workload keeps up what it is timed for, and few of its steps are refused.

use plain::engine::Engine;
use plain::generate;
use plain::slots::home;
use plain::step::{run, Buffers, Step};
use plain::workloads::{find, HOMES, SECTION, SEED};
use std::collections::BTreeSet;

/// Shows the engine after each step of the workload's start.
fn play(name: &str, mut see: impl FnMut(&Engine, Step)) {
    let workload = find(name).expect("it is a workload");
    let (mut engine, mut buffers) = (workload.engine(), Buffers::default());
    let steps = generate::script(SEED, 100_000, workload);
    let mut refused = 0;
    for &step in &steps {
        refused += usize::from(!run(&mut engine, step, &mut buffers).granted());
        see(&engine, step);
    }
    assert!(20 * refused < steps.len(), "{name}: {refused} refused");
}

/// Where a step reads or writes.
fn address(step: Step) -> Option<u32> {
    match step {
        Step::Read { address, .. } | Step::Put { address, .. } | Step::Remove { address, .. } => {
            Some(address)
        }
        _ => None,
    }
}

#[test]
fn forty_addresses() {
    let mut addresses = BTreeSet::new();
    play("forty", |_, step| addresses.extend(address(step)));
    assert!(addresses.into_iter().eq((0..40).map(|place| place * SECTION)));
}

#[test]
fn growing_fills_and_empties() {
    let (mut full, mut turns) = (false, 0);
    play("growing", |engine, _| match engine.map().index().len() {
        1000.. => full = true,
        ..100 if full => (full, turns) = (false, turns + 1),
        _ => {}
    });
    assert!(turns >= 10, "{turns}");
}

#[test]
fn homes_are_crowded() {
    let mut crowded = 0;
    play("homes", |engine, step| {
        let entries = engine.map().indexlet().values();
        let waiting = entries.filter(|entry| entry.pending.is_some()).count();
        assert!(waiting <= 190, "{waiting}");
        crowded += usize::from(waiting >= 150);
        let shares = |address| HOMES.contains(&home(address));
        assert!(address(step).into_iter().all(shares), "{step:?}");
    });
    assert!(crowded > 95_000, "{crowded}");
}
