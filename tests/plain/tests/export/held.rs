//! Exports held open while jobs go on, in scripts of every profile. A twin runs the
//! same script without exports.

use crate::file::{file, length, parse};
use crate::portions::{any_lengths, portion};
use crate::refusals::{no_other, nothing_to_take};
use plain::claim::{replay, Event};
use plain::engine::Engine;
use plain::generate;
use plain::profiles::{Profile, PROFILES};
use plain::random::Random;
use plain::step::{Answer, Buffers, Shown, Step};
use std::cmp::Ordering;
use std::collections::BTreeMap;

/// An open export: what it has to give, and what its portions gave so far.
struct Held {
    contents: Vec<Shown>,
    given: Vec<Shown>,
}

/// What came up while an export was open, and how exports ended; and how often.
type Met = BTreeMap<&'static str, usize>;

struct Twins {
    engine: Engine,
    twin: Engine,
    buffers: [Buffers; 2],
    history: Vec<Event>,
    held: Option<Held>,
    random: Random,
    met: Met,
}

impl Twins {
    fn new(profile: &Profile, seed: u64) -> Self {
        Twins {
            engine: profile.engine(),
            twin: profile.engine(),
            buffers: Default::default(),
            history: Vec::new(),
            held: None,
            random: Random::new(seed),
            met: Met::new(),
        }
    }

    fn meet(&mut self, name: &'static str) {
        *self.met.entry(name).or_default() += 1;
    }

    /// Both answer the same.
    fn play(&mut self, step: Step) {
        let leaves = self.twin.map().leaves().len();
        let [ours, others] = &mut self.buffers;
        let event = Event::play(&mut self.engine, step, ours);
        assert_eq!(event, Event::play(&mut self.twin, step, others));
        assert_eq!(ours, others);
        if self.held.is_some() {
            self.note(&event, leaves);
        }
        self.history.push(event);
    }

    /// There were so many leaves before.
    fn note(&mut self, event: &Event, leaves: usize) {
        let name = match (event.step, event.answer) {
            (Step::Install { .. }, Answer::Granted) => "install",
            (Step::Abort { .. }, Answer::Granted) => "abort",
            (Step::Validate { .. }, Answer::Refused(12..=14)) => "end by a validation",
            (Step::Merge { .. }, Answer::Merged(1..)) => "merge",
            (Step::MergeOldest, Answer::Merged(1..)) => "merge of the oldest",
            _ => return,
        };
        self.meet(name);
        match self.twin.map().leaves().len().cmp(&leaves) {
            Ordering::Less => self.meet("join"),
            Ordering::Greater => self.meet("cut"),
            Ordering::Equal => {}
        }
    }

    /// Between two steps an export may be opened, or gone on with. But for the export,
    /// the engine stays as its twin.
    fn between(&mut self) {
        match self.held.take() {
            None if self.random.one_in(20) => self.open(),
            None if self.random.one_in(40) => nothing_to_take(&mut self.engine),
            Some(held) if self.random.one_in(8) => self.go_on(held),
            held => return self.held = held,
        }
        let mut engine = self.engine.clone();
        assert_eq!(engine.close_export().is_ok(), self.held.is_some());
        assert!(engine == self.twin, "another state than its twin's");
    }

    /// What it has to give, the list says: it ran the jobs installed by now.
    fn open(&mut self) {
        let (list, _) = replay(&self.history).expect("the claim holds");
        let contents: Vec<Shown> = list.scan(0, u32::MAX).collect();
        assert_eq!(self.engine.open_export(), Ok(contents.len()));
        self.held = Some(Held { contents, given: Vec::new() });
    }

    fn go_on(&mut self, mut held: Held) {
        let left = held.contents.len() - held.given.len();
        match self.random.below(12) {
            0 => no_other(&mut self.engine),
            1 => self.whole_file(&held),
            2 if left == 0 || self.random.one_in(3) => return self.close(held),
            _ => {
                let lengths = any_lengths(&mut self.random);
                held.given.extend(portion(&mut self.engine, lengths, left));
            }
        }
        self.held = Some(held);
    }

    fn whole_file(&mut self, held: &Held) {
        let needed = length(held.contents.len());
        let room = self.random.between(needed, 20_000);
        assert_eq!(parse(&file(&self.engine, room).expect("there is room")), held.contents);
        assert_eq!(file(&self.engine, self.random.below(needed)), Err(8));
        self.meet("file");
    }

    /// All portions, or those before it was closed early, make up the contents or their
    /// beginning.
    fn close(&mut self, Held { contents, given }: Held) {
        self.engine.close_export().expect("it is open");
        assert_eq!(given, contents[..given.len()]);
        let shown = replay(&self.history).expect("the claim holds").0;
        let changed = !shown.scan(0, u32::MAX).eq(contents.iter().copied());
        self.meet(match (given.len() == contents.len(), changed) {
            (true, true) => CHANGED,
            (true, false) => "whole, and still present",
            (false, _) => "closed early",
        });
    }
}

/// A short script, of `spent` too, with exports between its steps.
fn play(profile: &Profile, seed: u64) -> Met {
    // Shown only if something fails.
    println!("profile {}, seed {seed}", profile.name);
    let profile = Profile { least: 0, ..*profile };
    let mut twins = Twins::new(&profile, seed);
    for step in generate::script(seed, 10_000, &profile) {
        twins.between();
        twins.play(step);
    }
    twins.met
}

const CHANGED: &str = "whole, and others present at its end";

const OFTEN: [&str; 11] = [
    "install",
    "abort",
    "end by a validation",
    "merge",
    "merge of the oldest",
    "join",
    "cut",
    "file",
    "whole, and still present",
    CHANGED,
    "closed early",
];

#[test]
fn jobs_go_on() {
    let mut all = Met::new();
    for (profile, seed) in PROFILES.iter().flat_map(|profile| [(profile, 0), (profile, 1)]) {
        let met = play(profile, seed);
        assert!(met.get(CHANGED) >= Some(&10), "{}: {met:?}", profile.name);
        met.into_iter().for_each(|(name, times)| *all.entry(name).or_default() += times);
    }
    for name in OFTEN {
        assert!(all.get(name) >= Some(&200), "{name}: {all:?}");
    }
}
