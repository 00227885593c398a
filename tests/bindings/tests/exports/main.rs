//! Request 107's exports through the library: what their portions and files give, what
//! is refused, that jobs go on meanwhile, and the programs of docs/EXPORTS.md.

mod documents;
mod files;
mod held;
mod portions;
mod refusals;

use bindings::exports::{play, Exporting, Mixed};
use plain::random::Random;
use plain::step::{Shown, Step};

/// An address and what is put there, or `None` to remove it.
type Edit = (u32, Option<(u64, u16)>);

fn put(&(address, value, owner): &Shown) -> Edit {
    (address, Some((value, owner)))
}

fn removal(&(address, ..): &Shown) -> Edit {
    (address, None)
}

/// Takes a step that is granted, and gives its line.
fn grant(subject: &mut impl Exporting, step: Step) -> String {
    let line = play(subject, Mixed::Job(step)).line;
    assert_eq!(line.split(' ').nth(1), Some("0"), "{step:?}: {line}");
    line
}

/// Folds all that waits.
fn fold_all(subject: &mut impl Exporting) {
    while grant(subject, Step::MergeOldest) != "T 0 0" {}
}

/// Begins a job with these edits.
fn edit(subject: &mut impl Exporting, worker: u32, edits: &[Edit]) {
    grant(subject, Step::Begin { worker });
    for &(address, edit) in edits {
        let step = match edit {
            Some((value, owner)) => Step::Put { worker, address, value, owner },
            None => Step::Remove { worker, address },
        };
        grant(subject, step);
    }
}

/// Up to its number, which it gets since it read nothing.
fn check(subject: &mut impl Exporting, worker: u32, edits: &[Edit]) {
    edit(subject, worker, edits);
    grant(subject, Step::Lock { worker });
    grant(subject, Step::Validate { worker });
}

/// A whole job at seat 0.
fn install(subject: &mut impl Exporting, edits: &[Edit]) {
    check(subject, 0, edits);
    grant(subject, Step::Install { worker: 0 });
}

/// Puts so many records, from the first address to the last, by jobs of 16 of them in
/// any order, and tells what they are, by rising address. Those of the last job wait.
fn fill(subject: &mut impl Exporting, count: u64) -> Vec<Shown> {
    let mut random = Random::new(count);
    let gaps = count.saturating_sub(1).max(1);
    let address = |n: u64| (n * u64::from(u32::MAX) / gaps) as u32;
    let mut record = |n| (address(n), random.number(), random.number() as u16);
    let records: Vec<Shown> = (0..count).map(&mut record).collect();
    let mut mixed = records.clone();
    random.shuffle(&mut mixed);
    for job in mixed.chunks(16) {
        fold_all(subject);
        install(subject, &job.iter().map(put).collect::<Vec<_>>());
    }
    records
}
