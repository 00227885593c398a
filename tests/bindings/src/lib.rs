//! The bindings, held to the second model.

pub mod abi;
pub mod exports;
pub mod lent;
pub mod mixtures;
pub mod programs;
pub mod subjects;

use plain::engine::Reading;
use plain::map::{Commit, Payload};
use plain::step::{self, Answer, Buffers, PLACES};
use sections::{Refusal, Section, Sections, SerialNumber, Step};

/// A fresh map, guarded or not.
pub fn fresh(guarded: bool) -> Sections {
    if guarded {
        Sections::guarded()
    } else {
        Sections::new()
    }
}

/// A list of steps on such a map, with bytes for its files.
pub fn replay(
    steps: &[Step],
    bytes: &mut [u8],
    guarded: bool,
) -> (Sections, Vec<Result<sections::Answer, Refusal>>) {
    if guarded {
        Sections::replay_guarded(steps, bytes)
    } else {
        Sections::replay(steps, bytes)
    }
}

/// A step of the second model, its scans with buffers of so many places: of addresses,
/// of values and of owners.
pub fn step_of(step: step::Step, [addresses, values, owners]: [usize; 3]) -> Step {
    match step {
        step::Step::Begin { worker: seat } => Step::Begin { seat },
        step::Step::Read { worker: seat, address } => Step::Read { seat, address },
        step::Step::Scan { worker: seat, lo, hi } => {
            Step::Scan { seat, lo, hi, addresses, values, owners }
        }
        step::Step::Put { worker: seat, address, value, owner } => {
            Step::Put { seat, address, value, owner }
        }
        step::Step::Remove { worker: seat, address } => Step::Remove { seat, address },
        step::Step::Lock { worker: seat } => Step::Lock { seat },
        step::Step::Validate { worker: seat } => Step::Validate { seat },
        step::Step::Install { worker: seat } => Step::Install { seat },
        step::Step::Abort { worker: seat } => Step::Abort { seat },
        step::Step::Merge { address } => Step::Fold { address },
        step::Step::MergeOldest => Step::FoldOldest,
    }
}

/// The same with a script's buffers.
pub fn script_step(step: step::Step) -> Step {
    step_of(step, [PLACES; 3])
}

fn commit(serial: SerialNumber) -> Commit {
    serial.get().try_into().expect("a serial number is at most a million")
}

/// The address of what is found is the one that was read.
fn reading(at: u32, read: sections::Reading) -> Reading {
    let payload = |Section { address, value, owner }| {
        assert_eq!(address, at);
        Payload { value, owner }
    };
    Reading { payload: read.found.map(payload), examined: Some(read.examined) }
}

fn refused(refusal: Refusal) -> Answer {
    Answer::Refused(refusal.number() as u8)
}

/// An answer to a step in the second model's words, a scan's records in the buffers.
pub fn answer_of(
    step: step::Step,
    answer: Result<sections::Answer, Refusal>,
    addresses: &mut [u32],
    values: &mut [u64],
    owners: &mut [u16],
) -> Answer {
    match (step, answer) {
        (_, Err(refusal)) => refused(refusal),
        (_, Ok(sections::Answer::Granted)) => Answer::Granted,
        (step::Step::Read { address, .. }, Ok(sections::Answer::Read(read))) => {
            Answer::Read(reading(address, read))
        }
        (_, Ok(sections::Answer::Found(found))) => {
            for (place, section) in found.iter().enumerate() {
                addresses[place] = section.address;
                values[place] = section.value;
                owners[place] = section.owner;
            }
            Answer::Found(found.len())
        }
        (_, Ok(sections::Answer::Serial(serial))) => Answer::Commit(commit(serial)),
        (_, Ok(sections::Answer::Folded(count))) => Answer::Merged(count),
        (step, Ok(other)) => panic!("{other:?} is no answer to {step:?}"),
    }
}

/// A step by the method that is named after it.
pub fn by_method(map: &mut Sections, step: step::Step, buffers: &mut Buffers) -> Answer {
    let answer = match step {
        step::Step::Begin { worker } => map.begin(worker).map(|()| Answer::Granted),
        step::Step::Read { worker, address } => {
            map.read(worker, address).map(|read| Answer::Read(reading(address, read)))
        }
        step::Step::Scan { worker, lo, hi } => {
            let Buffers { addresses, values, owners } = buffers;
            map.scan(worker, lo, hi, addresses, values, owners).map(Answer::Found)
        }
        step::Step::Put { worker, address, value, owner } => {
            map.put(worker, address, value, owner).map(|()| Answer::Granted)
        }
        step::Step::Remove { worker, address } => {
            map.remove(worker, address).map(|()| Answer::Granted)
        }
        step::Step::Lock { worker } => map.lock(worker).map(|()| Answer::Granted),
        step::Step::Validate { worker } => {
            map.validate(worker).map(|serial| Answer::Commit(commit(serial)))
        }
        step::Step::Install { worker } => map.install(worker).map(|()| Answer::Granted),
        step::Step::Abort { worker } => map.abort(worker).map(|()| Answer::Granted),
        step::Step::Merge { address } => map.fold(address).map(Answer::Merged),
        step::Step::MergeOldest => map.fold_oldest().map(Answer::Merged),
    };
    answer.unwrap_or_else(refused)
}
