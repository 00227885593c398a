//! Which scripts are compared.

use super::program::{Feed, Program};
use super::{runs, Check, Script, Subject};
use crate::damage;
use crate::profiles::{self, Profile, PROFILES};
use std::ops::Range;
use std::path::Path;

/// How many scripts of each kind, and how long.
pub struct Size {
    pub seeds: Range<u64>,
    pub steps: usize,
}

/// Those of the gate: 2.7 million steps, and one script that is long enough to
/// spend all serial numbers.
pub const GATE: Size = Size { seeds: 1..5, steps: 45_000 };

/// Whether the profile's scripts are as short as asked.
fn short(profile: &Profile) -> bool {
    profile.least == 0
}

pub fn random(size: &Size, only: Option<&'static Profile>) -> Vec<Script> {
    let mut scripts = Vec::new();
    // The long ones come first, so that no processor waits for one at the end.
    let (short, long): (Vec<_>, Vec<_>) = PROFILES.iter().partition(|profile| short(profile));
    for profile in long.into_iter().chain(short) {
        if only.is_some_and(|only| only.name != profile.name) {
            continue;
        }
        let most = if profile.least == 0 { u64::MAX } else { 1 };
        for seed in size.seeds.clone().take(most as usize) {
            scripts.push(Script::Random { profile, seed, steps: size.steps.max(profile.least) });
        }
    }
    scripts
}

/// Every kind of damage, so many times, in scripts of one line and of hundreds.
pub fn damaged(seeds: Range<u64>) -> Vec<Script> {
    let kinds = damage::KINDS.len() as u64;
    let seeds = seeds.start * kinds..seeds.end * kinds;
    seeds.map(|seed| Script::Damaged { seed, steps: 1 + (seed % 7 * 90) as usize }).collect()
}

const FEEDS: [&[usize]; 4] = [&[1], &[1, 2, 3, 5, 7, 11, 13], &[4096, 1, 4095], &[65536, 1, 65535]];

/// Short scripts of all kinds, to be fed in odd pieces.
fn pieces() -> Vec<Script> {
    let size = Size { seeds: 1..2, steps: 1_500 };
    let mut scripts: Vec<Script> = random(&size, None);
    scripts.retain(|script| matches!(script, Script::Random { profile, .. } if short(profile)));
    scripts.extend(damaged(0..1));
    scripts.extend(runs::all());
    scripts
}

/// Lines for a client that waits, as many as a day at a terminal may have.
fn conversations() -> Vec<Script> {
    random(&Size { seeds: 3..4, steps: 10_000 }, profiles::find("ordinary", 0))
}

/// A way to come to the program, and the scripts that do.
type Way = (Program, fn() -> Vec<Script>);

/// What `mapscript` is held to.
pub struct Programs {
    piped: Program,
    fed: Vec<Way>,
}

impl Programs {
    pub fn new(path: &Path) -> Self {
        let program = |feed| Program { path: path.into(), feed };
        let mut fed: Vec<Way> = Vec::new();
        for sizes in FEEDS {
            fed.push((program(Feed::Packets(sizes)), pieces));
            fed.push((program(Feed::Awaited(sizes)), pieces));
        }
        for feed in [Feed::Lines, Feed::Awaited(&[3]), Feed::Awaited(&[40, 1, 70]), Feed::Broken] {
            fed.push((program(feed), conversations));
        }
        fed.push((program(Feed::Unreadable), conversations));
        Programs { piped: program(Feed::Pipe), fed }
    }

    /// The gate's comparison.
    pub fn gate(&self) -> Vec<Check<'_>> {
        let mut scripts = random(&GATE, None);
        scripts.extend(damaged(0..12));
        scripts.extend(runs::all());
        let mut checks = by_script(&self.piped, scripts);
        for (fed, scripts) in &self.fed {
            let check = |script| Check { group: fed.name(), script, subject: fed };
            checks.extend(scripts().into_iter().map(check));
        }
        checks
    }

    /// Random scripts of any seeds, and as many of each kind of damage.
    pub fn longer(&self, size: &Size, only: Option<&'static Profile>) -> Vec<Check<'_>> {
        let mut scripts = random(size, only);
        if only.is_none() {
            scripts.extend(damaged(size.seeds.clone()));
        }
        by_script(&self.piped, scripts)
    }
}

/// Scripts through a subject, reported by their kind.
pub fn by_script(subject: &dyn Subject, scripts: Vec<Script>) -> Vec<Check<'_>> {
    let check = |script: Script| Check { group: script.group().into(), script, subject };
    scripts.into_iter().map(check).collect()
}
