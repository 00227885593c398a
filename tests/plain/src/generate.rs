//! Random scripts. An engine runs along, so that a profile knows what would be
//! granted and where the leaves are.

use crate::engine::{Engine, Stage, LAST_COMMIT, WORKERS};
use crate::profiles::{wild, Profile};
use crate::random::Random;
use crate::rounds::guarded::cover;
use crate::script::{fields, letter, write_step, GUARD};
use crate::step::{run, Answer, Buffers, Step};
use std::collections::VecDeque;

/// What a worker is to do next: some merges and one whole transaction.
pub type Plan = fn(&mut Generator, u32) -> Vec<Step>;

pub struct Generator {
    pub random: Random,
    pub engine: Engine,
    /// New addresses come from here.
    pub area: (u32, u32),
    pub growing: bool,
    /// Of the merges at something pending, one in so many picks its own leaf.
    oldest: usize,
    buffers: Buffers,
    script: Vec<Step>,
    queues: [VecDeque<Step>; WORKERS],
}

pub fn script(seed: u64, steps: usize, profile: &Profile) -> Vec<Step> {
    let steps = steps.max(profile.least);
    let mut generator = Generator::new(seed, profile);
    while generator.script.len() < steps {
        (generator.round(profile))(&mut generator);
    }
    generator.script.truncate(steps);
    generator.script
}

/// The script's lines, in a padded profile some with leading zeros. The first line
/// of a guarded one is no step.
pub fn text(seed: u64, steps: usize, profile: &Profile) -> Vec<u8> {
    let mut random = Random::new(seed);
    let mut text = if profile.guarded { GUARD.to_vec() } else { Vec::new() };
    for step in script(seed, steps, profile) {
        if profile.padded && random.one_in(8) {
            write_padded(&mut text, step, &mut random);
        } else {
            write_step(&mut text, step);
        }
    }
    text
}

fn write_padded(text: &mut Vec<u8>, step: Step, random: &mut Random) {
    text.push(letter(step));
    for number in fields(step) {
        let most = if random.one_in(100) { 3000 } else { 30 };
        let zeros = "0".repeat(random.below(most));
        text.extend(format!(" {zeros}{number}").bytes());
    }
    text.push(b'\n');
}

fn area(random: &mut Random) -> (u32, u32) {
    let base = random.address(0, 1 << 31);
    let areas = [
        (0, 4095),
        (0, 0xffff),
        (u32::MAX - 0xffff, u32::MAX),
        (0, u32::MAX),
        (base, base + (1 << 20)),
    ];
    random.pick(&areas)
}

/// Playing steps.
impl Generator {
    /// Very long scripts run out of commit numbers, and then go on wildly: other
    /// rounds count on their commits.
    fn round(&self, profile: &Profile) -> fn(&mut Generator) {
        let near_end = self.engine.last_commit() > LAST_COMMIT - 10_000;
        if near_end && profile.least == 0 {
            wild
        } else {
            profile.round
        }
    }

    fn new(seed: u64, profile: &Profile) -> Self {
        let mut random = Random::new(seed);
        Generator {
            area: area(&mut random),
            growing: true,
            oldest: profile.oldest,
            random,
            engine: profile.engine(),
            buffers: Buffers::default(),
            script: Vec::new(),
            queues: Default::default(),
        }
    }

    pub fn play(&mut self, step: Step) -> Answer {
        self.script.push(step);
        run(&mut self.engine, step, &mut self.buffers)
    }

    /// One step of one worker: the next of its queue, or the first of a new plan.
    pub fn go_on(&mut self, plan: Plan) {
        let worker = self.random.below(WORKERS);
        if self.queues[worker].is_empty() {
            if self.engine.worker(worker).stage != Stage::Free {
                self.queues[worker].push_back(Step::Abort { worker: worker as u32 });
            }
            let steps = plan(self, worker as u32);
            self.queues[worker].extend(steps);
        }
        self.advance(worker);
    }

    /// A merge that takes something in, if anything is pending.
    pub fn some_merge(&mut self) -> Option<Step> {
        let pending = self.pending();
        if pending.is_empty() {
            return None;
        }
        let address = self.random.pick(&pending);
        let oldest = self.random.one_in(self.oldest);
        Some(if oldest { Step::MergeOldest } else { Step::Merge { address } })
    }

    pub fn enqueue(&mut self, worker: u32, steps: Vec<Step>) {
        self.queues[worker as usize].extend(steps);
    }

    /// Plays all queues to their ends, interleaved.
    pub fn drain(&mut self) {
        while self.queues.iter().any(|queue| !queue.is_empty()) {
            let worker = self.random.below(WORKERS);
            self.advance(worker);
        }
    }

    fn advance(&mut self, worker: usize) {
        let Some(step) = self.queues[worker].pop_front() else { return };
        if let Answer::Refused(number) = self.play(step) {
            self.react(worker, step, number);
        }
    }

    /// A refused lock is tried again or given up; what validation ended is over.
    fn react(&mut self, worker: usize, step: Step, refusal: u8) {
        match (step, refusal) {
            (Step::Lock { .. }, 9..=11) => {
                if refusal != 9 {
                    self.merge_some();
                }
                if self.random.one_in(4) {
                    self.give_up(worker);
                } else {
                    self.queues[worker].push_front(step);
                }
            }
            (Step::Lock { .. }, 16..=18) => match self.random.below(4) {
                0 => self.mend(worker, step, refusal),
                1 => {}
                _ => self.give_up(worker),
            },
            (Step::Validate { .. }, 12..=14) if !self.random.one_in(8) => {
                self.queues[worker].clear();
            }
            (Step::Validate { .. }, 15) => self.give_up(worker),
            _ => {}
        }
    }

    fn give_up(&mut self, worker: usize) {
        self.queues[worker].clear();
        self.queues[worker].push_back(Step::Abort { worker: worker as u32 });
    }

    /// Scans what was not scanned, or takes back all puts, and tries the lock again.
    fn mend(&mut self, at: usize, lock: Step, refusal: u8) {
        let (worker, writes) = (at as u32, &self.engine.worker(at).write_set);
        let mut steps: Vec<Step> = match cover(writes) {
            Some((lo, hi)) if refusal == 17 => vec![Step::Scan { worker, lo, hi }],
            _ => writes.iter().map(|&(address, _)| Step::Remove { worker, address }).collect(),
        };
        steps.push(lock);
        steps.into_iter().rev().for_each(|step| self.queues[at].push_front(step));
    }

    /// Makes the worker free at once.
    pub fn idle(&mut self, worker: u32) {
        self.queues[worker as usize].clear();
        if self.engine.worker(worker as usize).stage != Stage::Free {
            self.abort(worker);
        }
    }

    /// Some distinct workers, all free.
    pub fn idle_workers<const N: usize>(&mut self) -> [u32; N] {
        let mut workers: [u32; WORKERS] = std::array::from_fn(|worker| worker as u32);
        self.random.shuffle(&mut workers);
        let chosen = std::array::from_fn(|at| workers[at]);
        for &worker in &chosen {
            self.idle(worker);
        }
        chosen
    }

    pub fn idle_all(&mut self) {
        (0..WORKERS as u32).for_each(|worker| self.idle(worker));
    }
}
