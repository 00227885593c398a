//! Random scripts with steps of exports between their steps, as the second model
//! answers them.

use crate::exports::{play, Done, Mixed};
use plain::engine::Engine;
use plain::generate;
use plain::map::MAP_LIMIT;
use plain::profiles::Profile;
use plain::random::Random;
use plain::step::Step;
use std::cmp::Ordering;
use std::collections::BTreeMap;

/// What came up while an export was open, what its steps were, and how often.
pub type Met = BTreeMap<&'static str, usize>;

/// A script with exports: its steps with what each gave, the model at its end, and what
/// it met.
pub struct Mixture {
    pub played: Vec<(Mixed, Done)>,
    pub engine: Engine,
    pub met: Met,
    random: Random,
    /// Of the open export: its records, and those that remain.
    held: Option<[usize; 2]>,
}

const LENGTHS: [usize; 5] = [0, 1, 3, 64, MAP_LIMIT];

/// How long the file of so many records is, by request 107: two numbers of 4 bytes, an
/// address of 4 and an entry of 10 for each.
pub fn file_length(records: usize) -> usize {
    4 + 4 + (4 + 10) * records
}

/// A short script of a profile, of `spent` too.
pub fn mixture(profile: &Profile, seed: u64, steps: usize) -> Mixture {
    let profile = Profile { least: 0, ..*profile };
    let mut all = Mixture {
        played: Vec::new(),
        engine: profile.engine(),
        met: Met::new(),
        random: Random::new(seed),
        held: None,
    };
    for step in generate::script(seed, steps, &profile) {
        all.between();
        all.job(step);
    }
    all
}

impl Mixture {
    fn meet(&mut self, name: &'static str) {
        *self.met.entry(name).or_default() += 1;
    }

    fn play(&mut self, step: Mixed) -> String {
        let done = play(&mut self.engine, step);
        let line = done.line.clone();
        self.played.push((step, done));
        line
    }

    fn job(&mut self, step: Step) {
        let leaves = self.engine.map().leaves().len();
        let line = self.play(Mixed::Job(step));
        if self.held.is_none() {
            return;
        }
        match step {
            Step::Install { .. } if line == "I 0" => self.meet("install"),
            Step::Merge { .. } if line != "M 0 0" => self.meet("fold"),
            Step::MergeOldest if line != "T 0 0" => self.meet("fold of the oldest"),
            _ => {}
        }
        match self.engine.map().leaves().len().cmp(&leaves) {
            Ordering::Less => self.meet("join"),
            Ordering::Greater => self.meet("cut"),
            Ordering::Equal => {}
        }
    }

    /// Between two steps an export may be opened, gone on with or closed; or what would
    /// need one is refused.
    fn between(&mut self) {
        // A map is seldom full: then it is exported soon.
        let full = self.engine.map().total_with([].into_iter()) == MAP_LIMIT;
        match self.held {
            None if self.random.one_in(if full { 2 } else { 25 }) => self.open(),
            None if self.random.one_in(40) => self.without_one(),
            Some([records, left]) if full && records < MAP_LIMIT && self.random.one_in(4) => {
                self.close(left);
            }
            Some(held) if self.random.one_in(6) => self.go_on(held),
            _ => {}
        }
    }

    fn open(&mut self) {
        let records = self.engine.map().contents().len();
        self.play(Mixed::Open);
        self.held = Some([records; 2]);
        match records {
            0 => self.meet("export of nothing"),
            MAP_LIMIT => self.meet("export of a full map"),
            _ => {}
        }
    }

    fn without_one(&mut self) {
        let lengths = self.lengths();
        let length = self.random.pick(&[0, 7, 8, file_length(MAP_LIMIT)]);
        let step = self.random.pick(&[Mixed::Portion(lengths), Mixed::File(length), Mixed::Close]);
        self.play(step);
        self.meet("none open");
    }

    fn go_on(&mut self, [records, left]: [usize; 2]) {
        match self.random.below(12) {
            0 => {
                self.play(Mixed::Open);
                self.meet("another one");
            }
            1 | 2 => self.file(file_length(records)),
            3 if left == 0 || self.random.one_in(3) => self.close(left),
            _ => self.portion(records, left),
        }
    }

    fn close(&mut self, left: usize) {
        self.play(Mixed::Close);
        self.held = None;
        self.meet(if left == 0 { "whole" } else { "closed early" });
    }

    fn file(&mut self, needed: usize) {
        let (less, more) = (self.random.below(needed), self.random.between(needed, needed + 100));
        let length = self.random.pick(&[needed - 1, needed, less, more]);
        self.play(Mixed::File(length));
        self.meet(if length < needed { "file with too few bytes" } else { "file" });
    }

    fn portion(&mut self, records: usize, left: usize) {
        let lengths = self.lengths();
        self.play(Mixed::Portion(lengths));
        let [m, n, o] = lengths;
        let shortest = m.min(n).min(o);
        let count = shortest.min(left);
        self.held = Some([records, left - count]);
        if shortest == 0 && left > 0 {
            self.meet("portion with no places");
        }
        // Fewer places than records, and one buffer alone is the shortest.
        if 0 < shortest && shortest < left {
            match [m > shortest, n > shortest, o > shortest] {
                [false, true, true] => self.meet("fewest addresses"),
                [true, false, true] => self.meet("fewest values"),
                [true, true, false] => self.meet("fewest owners"),
                _ => {}
            }
        }
    }

    /// Three equal ones, or any.
    fn lengths(&mut self) -> [usize; 3] {
        if self.random.one_in(2) {
            [self.random.pick(&LENGTHS); 3]
        } else {
            [(); 3].map(|()| self.random.pick(&LENGTHS))
        }
    }
}
