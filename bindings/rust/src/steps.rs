//! Steps and answers as data, for lists of them.

use crate::declared::{Code, COUNT, PORTION, VALUE};
use crate::{Address, Owner, Seat, SerialNumber, Value};

/// What a granted step tells: which kind of number, that number, the one beside it (an
/// owner, or what remains of an export), and slots examined.
pub(crate) type Told = [u64; 4];

/// A step with its arguments.
#[derive(Clone, Copy, PartialEq, Eq, Hash, Debug)]
#[non_exhaustive]
#[allow(missing_docs)]
pub enum Step {
    Begin {
        seat: Seat,
    },
    Read {
        seat: Seat,
        address: Address,
    },
    /// From lo to hi, both included, into buffers of so many places.
    Scan {
        seat: Seat,
        lo: Address,
        hi: Address,
        addresses: usize,
        values: usize,
        owners: usize,
    },
    Put {
        seat: Seat,
        address: Address,
        value: Value,
        owner: Owner,
    },
    Remove {
        seat: Seat,
        address: Address,
    },
    Lock {
        seat: Seat,
    },
    Validate {
        seat: Seat,
    },
    Install {
        seat: Seat,
    },
    Abort {
        seat: Seat,
    },
    Fold {
        address: Address,
    },
    /// Of the leaf with the edit that has waited longest.
    FoldOldest,
    OpenExport,
    /// Of the open export, into buffers of so many places.
    Portion {
        addresses: usize,
        values: usize,
        owners: usize,
    },
    /// Of the open export, into a buffer of so many bytes.
    File {
        bytes: usize,
    },
    CloseExport,
}

/// A record as reads, scans and exports show it.
#[derive(Clone, Copy, PartialEq, Eq, Hash, Debug)]
pub struct Section {
    /// Where it starts.
    pub address: Address,
    /// What was put there.
    pub value: Value,
    /// Whose section it is.
    pub owner: Owner,
}

/// What a granted read tells.
#[derive(Clone, Copy, PartialEq, Eq, Hash, Debug)]
pub struct Reading {
    /// What is at the address, or `None`: absent.
    pub found: Option<Section>,
    /// How many slots of the indexlet the look-up examined, 1 to 256: many, if it is
    /// crowded. 0 for the job's own edit.
    pub examined: usize,
}

/// What a granted step answers.
#[derive(Clone, PartialEq, Eq, Hash, Debug)]
#[non_exhaustive]
pub enum Answer {
    /// It was done.
    Granted,
    /// Of a read.
    Read(Reading),
    /// Of a scan: sections by rising address.
    Found(Vec<Section>),
    /// Of a validate.
    Serial(SerialNumber),
    /// Of a fold: how many edits it took into the index.
    Folded(usize),
    /// Of the opening of an export: how many records it has.
    Opened(usize),
    /// Of a portion: sections by rising address, and how many remain after them.
    Given(Vec<Section>, usize),
    /// Of a file: how many bytes it has.
    Filed(usize),
}

impl Step {
    pub(crate) fn code(self) -> Code {
        let (kind, numbers) = match self {
            Step::Begin { seat } => (0, [seat.into(), 0, 0, 0, 0, 0]),
            Step::Read { seat, address } => (1, [seat.into(), address.into(), 0, 0, 0, 0]),
            Step::Scan { seat, lo, hi, .. } => {
                let [addresses, values, owners] = self.places().map(|places| places as u64);
                (2, [seat.into(), lo.into(), hi.into(), addresses, values, owners])
            }
            Step::Put { seat, address, value, owner } => {
                (3, [seat.into(), address.into(), value, owner.into(), 0, 0])
            }
            Step::Remove { seat, address } => (4, [seat.into(), address.into(), 0, 0, 0, 0]),
            Step::Lock { seat } => (5, [seat.into(), 0, 0, 0, 0, 0]),
            Step::Validate { seat } => (6, [seat.into(), 0, 0, 0, 0, 0]),
            Step::Install { seat } => (7, [seat.into(), 0, 0, 0, 0, 0]),
            Step::Abort { seat } => (8, [seat.into(), 0, 0, 0, 0, 0]),
            Step::Fold { address } => (9, [address.into(), 0, 0, 0, 0, 0]),
            Step::FoldOldest => (10, [0; 6]),
            Step::OpenExport => (11, [0; 6]),
            Step::Portion { .. } => {
                let [addresses, values, owners] = self.places().map(|places| places as u64);
                (12, [0, 0, 0, addresses, values, owners])
            }
            Step::File { bytes } => (13, [0, 0, 0, bytes as u64, 0, 0]),
            Step::CloseExport => (14, [0; 6]),
        };
        let [a, b, c, d, e, f] = numbers;
        [kind, a, b, c, d, e, f]
    }

    /// The places of the buffers of a scan or a portion: of addresses, of values and of
    /// owners.
    pub(crate) fn places(self) -> [usize; 3] {
        match self {
            Step::Scan { addresses, values, owners, .. }
            | Step::Portion { addresses, values, owners } => [addresses, values, owners],
            _ => [0; 3],
        }
    }

    /// The bytes of a file's buffer.
    pub(crate) fn bytes(self) -> usize {
        match self {
            Step::File { bytes } => bytes,
            _ => 0,
        }
    }

    /// What these words and the records in the buffers tell, if the step was granted.
    pub(crate) fn answer(self, told: Told, shown: Vec<Section>) -> Answer {
        let [_, value, beside, _] = told;
        match self {
            Step::Read { address, .. } => Answer::Read(reading(address, told)),
            Step::Scan { .. } => Answer::Found(shown),
            Step::Validate { .. } => Answer::Serial(SerialNumber(value)),
            Step::Fold { .. } | Step::FoldOldest => Answer::Folded(value as usize),
            Step::OpenExport => Answer::Opened(value as usize),
            Step::Portion { .. } => Answer::Given(shown, beside as usize),
            Step::File { .. } => Answer::Filed(value as usize),
            _ => Answer::Granted,
        }
    }
}

/// How many records stand in the buffers: those of a scan, or of a portion.
pub(crate) fn shown([told, count, ..]: Told) -> usize {
    match told {
        COUNT | PORTION => count as usize,
        _ => 0,
    }
}

/// What they tell of a read.
pub(crate) fn reading(address: Address, [told, value, owner, examined]: Told) -> Reading {
    let section = Section { address, value, owner: owner as Owner };
    Reading { found: (told == VALUE).then_some(section), examined: examined as usize }
}
