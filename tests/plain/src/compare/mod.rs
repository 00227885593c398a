//! Scripts answered by another program and by this model, compared line by
//! line.

mod difference;
mod guarded;
mod owners;
pub mod program;
mod removals;
pub mod runs;
mod script;
mod slots;
pub mod suite;

pub use difference::{first_difference, Difference};
pub use script::Script;

use std::collections::BTreeMap;
use std::io;
use std::num::NonZero;
use std::sync::atomic::{AtomicUsize, Ordering};
use std::sync::Mutex;
use std::thread;

/// What is held against the model.
pub trait Subject: Sync {
    /// How scripts come to it; their answers must not depend on it.
    fn name(&self) -> String;

    /// All that it writes for a script.
    fn answers(&self, script: &[u8]) -> io::Result<Vec<u8>>;

    /// What it must write, where these are all answers to the script.
    fn due(&self, answers: Vec<u8>) -> Vec<u8> {
        answers
    }
}

/// One script through one subject.
pub struct Check<'a> {
    /// Those of a group are reported together.
    pub group: String,
    pub script: Script,
    pub subject: &'a dyn Subject,
}

/// How many checks passed and failed, and how many lines the scripts had.
#[derive(Default, Clone, Copy)]
pub struct Tally {
    pub passed: usize,
    pub failed: usize,
    pub lines: usize,
}

impl Tally {
    fn scripts(&self) -> usize {
        self.passed + self.failed
    }

    fn add(&mut self, other: Tally) {
        self.passed += other.passed;
        self.failed += other.failed;
        self.lines += other.lines;
    }
}

/// After so many differences no more checks are run: where each is a program that
/// hangs, they take too long.
const ENOUGH: usize = 10;

/// Runs all checks on all processors, and prints each difference and a line for
/// each group.
pub fn run(checks: &[Check]) -> Tally {
    let groups = Mutex::new(BTreeMap::<String, Tally>::new());
    let (next, failed) = (AtomicUsize::new(0), AtomicUsize::new(0));
    let work = || {
        while failed.load(Ordering::Relaxed) < ENOUGH {
            let Some(check) = checks.get(next.fetch_add(1, Ordering::Relaxed)) else { break };
            let tally = check.run();
            failed.fetch_add(tally.failed, Ordering::Relaxed);
            let mut groups = groups.lock().expect("no check panics");
            groups.entry(check.group.clone()).or_default().add(tally);
        }
    };
    thread::scope(|scope| {
        let count = thread::available_parallelism().map_or(1, NonZero::get);
        (0..count).for_each(|_| drop(scope.spawn(work)));
    });
    let mut all = Tally::default();
    for (group, tally) in groups.into_inner().expect("no check panics") {
        println!(
            "{group}: {} scripts, {} lines, {} differ",
            tally.scripts(),
            tally.lines,
            tally.failed
        );
        all.add(tally);
    }
    if all.scripts() < checks.len() {
        println!(
            "{} scripts were not run, after so many differences",
            checks.len() - all.scripts()
        );
    }
    all
}

impl Check<'_> {
    fn run(&self) -> Tally {
        let script = self.script.text();
        let lines = script.iter().filter(|&&byte| byte == b'\n').count();
        match self.difference(&script) {
            None => Tally { passed: 1, failed: 0, lines },
            Some(difference) => {
                println!("DIFFERENCE in {}, {}\n{difference}", self.script, self.subject.name());
                Tally { passed: 0, failed: 1, lines }
            }
        }
    }

    fn difference(&self, script: &[u8]) -> Option<Difference> {
        let expected = self.subject.due(self.script.answers(script));
        match self.subject.answers(script) {
            Ok(given) => first_difference(script, &expected, &given),
            Err(error) => Some(Difference::failed(script, &expected, &error)),
        }
    }
}
