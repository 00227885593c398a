//! The profiles, and the plans of those whose workers go on side by side.

use crate::choose::leaf_around;
use crate::engine::Engine;
use crate::generate::Generator;
use crate::map::Write;
use crate::moves::{transaction, write_of};
use crate::rounds::{capacity, cleanup, crowd, guarded, leaves, limits, spent, turns};
use crate::scenarios;
use crate::step::Step;

pub struct Profile {
    pub name: &'static str,
    /// Plays one or more steps.
    pub round: fn(&mut Generator),
    /// A script has at least this many steps.
    pub least: usize,
    /// Whether some numbers have leading zeros.
    pub padded: bool,
    /// Of the merges at something pending, one in so many picks its own leaf.
    pub oldest: usize,
    /// Whether the map is guarded.
    pub guarded: bool,
}

pub const fn profile(name: &'static str, round: fn(&mut Generator)) -> Profile {
    Profile { name, round, least: 0, padded: false, oldest: 4, guarded: false }
}

impl Profile {
    /// A fresh one, for its scripts.
    pub fn engine(&self) -> Engine {
        Engine::new(self.guarded)
    }
}

pub const PROFILES: [Profile; 16] = [
    profile("ordinary", |generator| generator.go_on(ordinary)),
    profile("contended", |generator| generator.go_on(contended)),
    profile("scans", |generator| generator.go_on(scans)),
    profile("removals", |generator| generator.go_on(removals)),
    profile("ends", |generator| generator.go_on(ends)),
    profile("races", scenarios::round),
    profile("leaves", leaves::leaves),
    profile("fill", capacity::fill),
    profile("waiting", capacity::waiting),
    profile("limits", limits::limits),
    Profile { oldest: 1, ..profile("turns", turns::turns) },
    profile("crowd", crowd::crowd),
    profile("cleanup", cleanup::cleanup),
    Profile { guarded: true, ..profile("guarded", guarded::guarded) },
    Profile { padded: true, ..profile("wild", wild) },
    Profile { least: 4_005_000, ..profile("spent", spent::spent) },
];

/// By name; `any` takes one by the seed, but never the long one.
pub fn find(name: &str, seed: u64) -> Option<&'static Profile> {
    if name == "any" {
        return Some(&PROFILES[(seed % (PROFILES.len() as u64 - 1)) as usize]);
    }
    PROFILES.iter().find(|profile| profile.name == name)
}

/// Ends some transactions early.
pub fn or_abort(generator: &mut Generator, mut steps: Vec<Step>, one_in: usize) -> Vec<Step> {
    if generator.random.one_in(one_in) {
        if let Some(worker) = steps[0].worker() {
            steps.truncate(generator.random.between(1, steps.len() - 1));
            steps.push(Step::Abort { worker });
        }
    }
    steps
}

/// Link jobs: a worker looks over a few sections of its own part of the map and
/// changes some of them; now and then it strays.
fn ordinary(generator: &mut Generator, worker: u32) -> Vec<Step> {
    const SECTION: u32 = 4096;
    const PART: u32 = 112;
    let random = &mut generator.random;
    let part = if random.one_in(16) { random.address(0, 7) } else { worker };
    let first = part * PART + random.address(0, PART - 16);
    let last = first + random.address(3, 12);
    let (lo, hi) = (first * SECTION, last * SECTION);
    let mut body = vec![Step::Scan { worker, lo, hi }];
    for _ in 0..random.between(1, 3) {
        body.push(Step::Read { worker, address: random.address(first, last) * SECTION });
    }
    for _ in 0..generator.random.between(1, 4) {
        let address = generator.random.address(first, last) * SECTION;
        let removed = generator.random.one_in(4);
        let write = if removed { Write::Delete } else { generator.put_at(address) };
        body.push(write_of(worker, address, write));
    }
    let mut steps = vec![Step::Merge { address: lo }, Step::Merge { address: hi }];
    steps.extend(or_abort(generator, transaction(worker, body), 6));
    match generator.random.below(4) {
        0 => steps.push(Step::Merge { address: lo }),
        1 => steps.push(Step::MergeOldest),
        _ => {}
    }
    steps
}

/// A few steps at addresses of the caller's choice.
fn mixed(
    generator: &mut Generator,
    worker: u32,
    length: usize,
    address: impl Fn(&mut Generator) -> u32,
) -> Vec<Step> {
    let mut body = Vec::new();
    for _ in 0..length {
        let at = address(generator);
        body.push(match generator.random.below(8) {
            0..=2 => Step::Read { worker, address: at },
            3 => {
                let other = address(generator);
                Step::Scan { worker, lo: at.min(other), hi: at.max(other) }
            }
            4 => Step::Remove { worker, address: at },
            _ => {
                let put = generator.put_at(at);
                write_of(worker, at, put)
            }
        });
    }
    body
}

/// Lets a merge of something pending go before some plans.
fn and_merge(generator: &mut Generator, mut steps: Vec<Step>, one_in: usize) -> Vec<Step> {
    if generator.random.one_in(one_in) {
        if let Some(step) = generator.some_merge() {
            steps.insert(0, step);
        }
    }
    steps
}

/// All workers want the same few addresses.
fn contended(generator: &mut Generator, worker: u32) -> Vec<Step> {
    let base = generator.area.0;
    let length = generator.random.between(1, 6);
    let hot = |generator: &mut Generator| base + 8 * generator.random.address(0, 11);
    let body = mixed(generator, worker, length, hot);
    let steps = or_abort(generator, transaction(worker, body), 10);
    and_merge(generator, steps, 3)
}

/// Many scans of all widths, over own writes and pending ones.
fn scans(generator: &mut Generator, worker: u32) -> Vec<Step> {
    let base = generator.area.0;
    let address = |place: u32| base + 3 * place;
    let mut body = Vec::new();
    for _ in 0..generator.random.between(1, 7) {
        let random = &mut generator.random;
        let first = random.address(0, 600);
        let width = [0, 3, 15, 63, 68][random.below(5)];
        let (lo, hi) = (address(first), address(first + random.address(0, width)));
        match random.below(12) {
            0 => body.push(Step::Scan { worker, lo: hi, hi: lo }),
            1..=5 => body.push(Step::Scan { worker, lo, hi }),
            6..=7 => body.push(Step::Remove { worker, address: hi }),
            _ => {
                let put = generator.put_at(hi);
                body.push(write_of(worker, hi, put));
            }
        }
    }
    let steps = or_abort(generator, transaction(worker, body), 12);
    and_merge(generator, steps, 1)
}

/// The map grows large and is then emptied leaf by leaf, over and over.
fn removals(generator: &mut Generator, worker: u32) -> Vec<Step> {
    let count = generator.map().index().len();
    generator.growing = if generator.growing { count < 200 } else { count < 3 };
    if generator.random.one_in(16) {
        return hand_over(generator, worker);
    }
    if generator.growing {
        let new = generator.fresh(12);
        let body = generator.puts(&new).into_iter();
        let body = body.map(|(address, write)| write_of(worker, address, write));
        return and_merge(generator, transaction(worker, body), 1);
    }
    let address = generator.indexed_one();
    let (lo, hi) = leaf_around(generator, address);
    let mut body = vec![Step::Scan { worker, lo, hi }];
    let records = generator.map().indexed_between(lo, hi).iter();
    body.extend(records.map(|record| Step::Remove { worker, address: record.address }));
    body.push(Step::Remove { worker, address: generator.fresh_one() });
    let mut steps = or_abort(generator, transaction(worker, body), 16);
    steps.insert(0, Step::Merge { address });
    steps.push(Step::Merge { address });
    steps
}

/// A record of the index goes to another owner, and nothing else changes.
fn hand_over(generator: &mut Generator, worker: u32) -> Vec<Step> {
    let address = generator.indexed_one();
    let put = generator.hand_over(address);
    transaction(worker, [Step::Read { worker, address }, write_of(worker, address, put)])
}

/// Addresses at both ends of the range.
fn ends(generator: &mut Generator, worker: u32) -> Vec<Step> {
    const EDGES: [u32; 8] = [0, 1, 2, 1 << 31, (1 << 31) - 1, u32::MAX - 2, u32::MAX - 1, u32::MAX];
    let length = generator.random.between(1, 8);
    let edge = |generator: &mut Generator| {
        let far = generator.random.address(0, 40);
        match generator.random.below(4) {
            0 => far,
            1 => u32::MAX - far,
            _ => generator.random.pick(&EDGES),
        }
    };
    let body = mixed(generator, worker, length, edge);
    let mut steps = or_abort(generator, transaction(worker, body), 12);
    if generator.random.one_in(2) {
        steps.insert(0, Step::Merge { address: edge(generator) });
    }
    and_merge(generator, steps, 2)
}

/// Any step at any worker, good or not.
pub fn wild(generator: &mut Generator) {
    const STRANGE: [u32; 6] = [8, 9, 255, 256, 1 << 31, u32::MAX];
    let random = &mut generator.random;
    let worker = if random.one_in(16) { random.pick(&STRANGE) } else { random.below(8) as u32 };
    let mut address = || match random.below(16) {
        0 => random.number() as u32,
        1 => random.pick(&STRANGE),
        _ => random.address(0, 40),
    };
    let (lo, hi) = (address(), address());
    let step = match random.below(21) {
        0..=2 => Step::Begin { worker },
        3..=5 => Step::Read { worker, address: lo },
        6 => Step::Scan { worker, lo, hi },
        7 => Step::Scan { worker, lo: lo.min(hi), hi: lo.max(hi) },
        8..=10 => {
            let put = generator.put_at(lo);
            write_of(worker, lo, put)
        }
        11 => Step::Remove { worker, address: lo },
        12..=13 => Step::Lock { worker },
        14..=15 => Step::Validate { worker },
        16..=17 => Step::Install { worker },
        18 => Step::Abort { worker },
        19 => Step::Merge { address: lo },
        _ => Step::MergeOldest,
    };
    generator.play(step);
}
