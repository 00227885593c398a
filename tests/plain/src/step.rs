//! Steps and their answers as plain data, and the engine run by them.

use crate::engine::{Engine, Reading, Refusal};
use crate::map::{Commit, Payload};

pub const PLACES: usize = 64;

/// The last of them merges the leaf of the write that has waited longest. An export's
/// steps have no script line, and are not among them.
#[derive(Clone, Copy, PartialEq, Eq, Debug)]
pub enum Step {
    Begin { worker: u32 },
    Read { worker: u32, address: u32 },
    Scan { worker: u32, lo: u32, hi: u32 },
    Put { worker: u32, address: u32, value: u64, owner: u16 },
    Remove { worker: u32, address: u32 },
    Lock { worker: u32 },
    Validate { worker: u32 },
    Install { worker: u32 },
    Abort { worker: u32 },
    Merge { address: u32 },
    MergeOldest,
}

impl Step {
    /// A merge has no worker.
    pub fn worker(self) -> Option<u32> {
        match self {
            Step::Begin { worker }
            | Step::Read { worker, .. }
            | Step::Scan { worker, .. }
            | Step::Put { worker, .. }
            | Step::Remove { worker, .. }
            | Step::Lock { worker }
            | Step::Validate { worker }
            | Step::Install { worker }
            | Step::Abort { worker } => Some(worker),
            Step::Merge { .. } | Step::MergeOldest => None,
        }
    }
}

/// What a step answers. The records of a scan stand in the buffers.
#[derive(Clone, Copy, PartialEq, Eq, Debug)]
pub enum Answer {
    Refused(u8),
    Granted,
    Read(Reading),
    Found(usize),
    Commit(Commit),
    Merged(usize),
}

impl Answer {
    pub fn granted(self) -> bool {
        !matches!(self, Answer::Refused(_))
    }
}

impl From<Refusal> for Answer {
    fn from(refusal: Refusal) -> Self {
        Answer::Refused(refusal as u8)
    }
}

/// A record as a scan shows it: address, value and owner.
pub type Shown = (u32, u64, u16);

/// The three buffers lent to a scan.
#[derive(Clone, PartialEq, Eq, Debug)]
pub struct Buffers {
    pub addresses: [u32; PLACES],
    pub values: [u64; PLACES],
    pub owners: [u16; PLACES],
}

impl Default for Buffers {
    fn default() -> Self {
        Buffers { addresses: [0; PLACES], values: [0; PLACES], owners: [0; PLACES] }
    }
}

impl Buffers {
    pub fn first(&self, count: usize) -> impl Iterator<Item = Shown> + '_ {
        (0..count).map(|at| (self.addresses[at], self.values[at], self.owners[at]))
    }
}

pub fn run(engine: &mut Engine, step: Step, buffers: &mut Buffers) -> Answer {
    let answer = match step {
        Step::Begin { worker } => engine.begin(worker).map(|()| Answer::Granted),
        Step::Read { worker, address } => engine.read(worker, address).map(Answer::Read),
        Step::Scan { worker, lo, hi } => engine
            .scan(worker, lo, hi, &mut buffers.addresses, &mut buffers.values, &mut buffers.owners)
            .map(Answer::Found),
        Step::Put { worker, address, value, owner } => {
            engine.put(worker, address, Payload { value, owner }).map(|()| Answer::Granted)
        }
        Step::Remove { worker, address } => {
            engine.remove(worker, address).map(|()| Answer::Granted)
        }
        Step::Lock { worker } => engine.lock(worker).map(|()| Answer::Granted),
        Step::Validate { worker } => engine.validate(worker).map(Answer::Commit),
        Step::Install { worker } => engine.install(worker).map(|()| Answer::Granted),
        Step::Abort { worker } => engine.abort(worker).map(|()| Answer::Granted),
        Step::Merge { address } => Ok(Answer::Merged(engine.merge(address))),
        Step::MergeOldest => Ok(Answer::Merged(engine.merge_oldest())),
    };
    answer.unwrap_or_else(Answer::from)
}
