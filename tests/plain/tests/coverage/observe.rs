//! An engine that runs along and counts what its steps meet, by name.

use crate::ages::Ages;
use crate::facts::{Facts, Meeting};
use crate::guard::Log;
use crate::names::check_entries;
use crate::slots::Table;
use plain::engine::{Engine, Reading, WORKERS};
use plain::script::letter;
use plain::step::{run, Answer, Buffers, Step};
use std::collections::{BTreeMap, HashSet};

#[derive(Default)]
pub struct Observer {
    pub engine: Engine,
    pub guarded: bool,
    pub buffers: Buffers,
    /// Records that a merge dropped while a worker held their lock, as it still does.
    pub dropped: HashSet<(u32, usize)>,
    pub ages: Ages,
    pub table: Table,
    /// The latest commit number of each worker.
    pub numbers: [u32; WORKERS],
    /// What each worker has done since its begin, in a guarded map.
    pub logs: [Log; WORKERS],
    largest_installed: u32,
}

/// Names of what was met, with how often.
pub type Seen = BTreeMap<String, usize>;

impl Observer {
    pub fn new(guarded: bool) -> Self {
        Observer { engine: Engine::new(guarded), guarded, ..Observer::default() }
    }

    pub fn play(&mut self, step: Step, seen: &mut Seen) {
        let meeting = Meeting::of(self, step);
        let answer = run(&mut self.engine, step, &mut self.buffers);
        if !matches!(meeting.facts, Facts::Read { .. } | Facts::Scan { .. } | Facts::Write { .. }) {
            check_entries(&self.engine);
            let map = self.engine.map();
            self.table.follow(map);
            self.dropped.retain(|&(address, holder)| map.holder(address) == Some(holder));
        }
        self.log(step, answer);
        let mut names = meeting.names(self, answer);
        names.extend(self.edges(step, answer));
        names.extend(self.install_order(step, answer));
        let number = if let Answer::Refused(number) = answer { number } else { 0 };
        names.push(format!("{} {number}", letter(step) as char));
        names.push(format!("{} {number} {:?}", letter(step) as char, meeting.stage));
        for name in names {
            *seen.entry(name).or_default() += 1;
        }
    }

    fn log(&mut self, step: Step, answer: Answer) {
        if let Some(worker) = step.worker().filter(|_| self.guarded && answer.granted()) {
            self.logs[worker as usize].note(self.engine.map(), step);
        }
    }

    /// Both ends of the address range.
    fn edges(&self, step: Step, answer: Answer) -> Vec<String> {
        let name = |address: &u32| match *address {
            0 => Some("first"),
            u32::MAX => Some("last"),
            _ => None,
        };
        let (letter, addresses): (char, Vec<u32>) = match (step, answer) {
            (Step::Put { address, .. }, Answer::Granted) => ('P', vec![address]),
            (Step::Remove { address, .. }, Answer::Granted) => ('D', vec![address]),
            (Step::Read { address, .. }, Answer::Read(Reading { payload: Some(_), .. })) => {
                ('R', vec![address])
            }
            (Step::Merge { address }, Answer::Merged(1..)) => ('M', vec![address]),
            (Step::Scan { .. }, Answer::Found(count)) => {
                ('S', self.buffers.first(count).map(|(address, ..)| address).collect())
            }
            _ => return Vec::new(),
        };
        let found = addresses.iter().filter_map(name);
        found.map(|name| format!("{letter} at the {name} address")).collect()
    }

    fn install_order(&mut self, step: Step, answer: Answer) -> Option<String> {
        let worker = step.worker()? as usize;
        if let Answer::Commit(number) = answer {
            self.numbers[worker] = number;
        }
        if !matches!((step, answer), (Step::Install { .. }, Answer::Granted)) {
            return None;
        }
        let late = self.numbers[worker] < self.largest_installed;
        self.largest_installed = self.largest_installed.max(self.numbers[worker]);
        late.then(|| "number before install".into())
    }
}
