//! Demand 3's claim, checked on a history of steps and answers alone: the
//! installed transactions, run one by one by commit number on the sequential
//! list, give the same answers and leave the same contents.

use crate::engine::{Engine, Reading};
use crate::list::{Item, SequentialList};
use crate::step::{run, Answer, Buffers, Shown, Step};
use std::collections::HashMap;

/// A step with its answer, and what a granted scan left in the buffers.
#[derive(PartialEq, Eq, Debug)]
pub struct Event {
    pub step: Step,
    pub answer: Answer,
    pub found: Vec<Shown>,
}

impl Event {
    /// Runs the step.
    pub fn play(engine: &mut Engine, step: Step, buffers: &mut Buffers) -> Self {
        let answer = run(engine, step, buffers);
        let count = if let Answer::Found(count) = answer { count } else { 0 };
        Event { step, answer, found: buffers.first(count).collect() }
    }
}

/// A history, and the current contents at its end.
pub struct Run {
    pub history: Vec<Event>,
    pub contents: Vec<Item>,
}

/// Document 01's installed job: where its granted steps stand in the history.
struct Installed {
    number: u32,
    /// The largest number installed before it began.
    earlier: u32,
    events: Vec<usize>,
}

/// What was compared, if all was well.
#[derive(Debug, PartialEq, Eq)]
pub struct Holds {
    pub transactions: usize,
    pub answers: usize,
}

/// A fresh engine's history of these steps.
pub fn record(mut engine: Engine, steps: impl IntoIterator<Item = Step>) -> Run {
    let mut buffers = Buffers::default();
    let steps = steps.into_iter();
    let history = steps.map(|step| Event::play(&mut engine, step, &mut buffers)).collect();
    let contents = engine.map().contents().into_iter().map(|record| Item {
        address: record.address,
        value: record.stored.payload.value,
        owner: record.stored.payload.owner,
        stamp: record.stored.commit,
    });
    Run { history, contents: contents.collect() }
}

pub fn check(run: &Run) -> Result<Holds, String> {
    let (list, holds) = replay(&run.history)?;
    if list.items() != run.contents {
        return Err(format!("contents {:?}, the list has {:?}", run.contents, list.items()));
    }
    Ok(holds)
}

/// The list after the installed transactions of a history, whose answers are compared
/// with it on the way.
pub fn replay(history: &[Event]) -> Result<(SequentialList, Holds), String> {
    let mut by_number = installed(history)?;
    by_number.sort_by_key(|transaction| transaction.number);
    check_numbers(history, &by_number)?;
    let mut list = SequentialList::default();
    let mut answers = 0;
    for Installed { number, events, .. } in &by_number {
        for &at in events {
            answers += feed(&mut list, *number, &history[at])
                .map_err(|what| format!("step {}, number {number}: {what}", at + 1))?;
        }
    }
    Ok((list, Holds { transactions: by_number.len(), answers }))
}

/// Reads the installed transactions off the history, in order of install.
fn installed(history: &[Event]) -> Result<Vec<Installed>, String> {
    let mut installed = Vec::new();
    let mut open: HashMap<u32, Installed> = HashMap::new();
    let mut largest = 0;
    for (at, event) in history.iter().enumerate() {
        let Some(worker) = event.step.worker().filter(|_| event.answer.granted()) else { continue };
        if let Step::Begin { .. } = event.step {
            open.insert(worker, Installed { number: 0, earlier: largest, events: Vec::new() });
        }
        let lost = || format!("step {}: granted without a begin", at + 1);
        let transaction = open.get_mut(&worker).ok_or_else(lost)?;
        transaction.events.push(at);
        if let Answer::Commit(number) = event.answer {
            transaction.number = number;
        }
        match event.step {
            Step::Abort { .. } => drop(open.remove(&worker)),
            Step::Install { .. } => {
                largest = largest.max(transaction.number);
                installed.extend(open.remove(&worker));
            }
            _ => {}
        }
    }
    Ok(installed)
}

/// Each number was given, no two share one, and they agree with real time: what
/// begins after an install has the larger number. `by_number` is sorted.
fn check_numbers(history: &[Event], by_number: &[Installed]) -> Result<(), String> {
    let given = history.iter().filter(|event| matches!(event.answer, Answer::Commit(_))).count();
    for &Installed { number, earlier, .. } in by_number {
        if number < 1 || number as usize > given {
            return Err(format!("number {number} of {given} given"));
        }
        if number <= earlier {
            return Err(format!("number {number} began after {earlier} was installed"));
        }
    }
    match by_number.windows(2).find(|pair| pair[0].number == pair[1].number) {
        Some(pair) => Err(format!("number {} twice", pair[0].number)),
        None => Ok(()),
    }
}

/// One step of the list. Gives the number of answers compared. Of a read it is value
/// and owner, or absence: how many slots were examined, the list does not say.
fn feed(list: &mut SequentialList, number: u32, event: &Event) -> Result<usize, String> {
    match (event.step, event.answer) {
        (Step::Read { address, .. }, answer) => {
            let expected = list.read(address);
            let told = |reading: Reading| reading.payload.map(|it| (it.value, it.owner));
            let same = matches!(answer, Answer::Read(reading) if told(reading) == expected);
            compare(same, || format!("{answer:?}, the list reads {expected:?}"))
        }
        (Step::Scan { lo, hi, .. }, answer) => {
            let expected: Vec<Shown> = list.scan(lo, hi).collect();
            let same = answer == Answer::Found(expected.len()) && event.found == expected;
            compare(same, || format!("{:?}, the list scans {expected:?}", event.found))
        }
        (Step::Put { address, value, owner, .. }, _) => {
            list.put(Item { address, value, owner, stamp: number });
            Ok(0)
        }
        (Step::Remove { address, .. }, _) => {
            list.remove(address);
            Ok(0)
        }
        _ => Ok(0),
    }
}

fn compare(same: bool, what: impl Fn() -> String) -> Result<usize, String> {
    if same {
        Ok(1)
    } else {
        Err(what())
    }
}
