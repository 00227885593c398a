//! The section map of document 01, over its proved static library.
//!
//! Up to eight jobs, one at a seat, enter sections into one map: each begins,
//! reads, scans, puts and removes, then locks, validates and installs. The
//! installed jobs have the answers that they would have if run alone, one after
//! the other by serial number; a job for which that fails is refused.
//!
//! ```
//! use sections::{Refusal, Section, Sections};
//!
//! let mut map = Sections::new();
//! map.begin(0)?;
//! map.put(0, 4096, 32, 1)?;
//! map.lock(0)?;
//! let serial = map.validate(0)?;
//! map.install(0)?;
//! assert_eq!(serial.get(), 1);
//!
//! // What waits in the indexlet is not scanned, and a job that missed it is ended.
//! map.begin(1)?;
//! assert_eq!(map.scan_all(1, 4000, 5000)?, []);
//! map.lock(1)?;
//! assert_eq!(map.validate(1), Err(Refusal::Phantom));
//!
//! // A fold takes it into the index.
//! assert_eq!(map.fold(4096)?, 1);
//! map.begin(1)?;
//! let section = Section { address: 4096, value: 32, owner: 1 };
//! assert_eq!(map.scan_all(1, 4000, 5000)?, [section]);
//! # Ok::<(), Refusal>(())
//! ```
//!
//! In a guarded map ([`Sections::guarded`]) no two present sections ever overlap. An
//! export ([`Sections::open_export`]) keeps what is present while jobs go on.
#![deny(unsafe_code)]
#![warn(missing_docs)]

mod contents;
mod declared;
mod exports;
mod refusal;
mod replay;
mod steps;

pub use contents::{Contents, Record};
pub use exports::{file_bytes, Portion};
pub use refusal::Refusal;
pub use steps::{Answer, Reading, Section, Step};

use declared::Map;
use std::fmt;
use steps::{reading, shown, Told};

/// A seat's number: 0 to 7, any other is refused.
pub type Seat = u32;

/// Where a section starts.
pub type Address = u32;

/// What a record holds: a section's length, to the map any number. In a guarded
/// map it is counted in bytes, from 1 to [`LONGEST`].
pub type Value = u64;

/// Whose section it is, to the map any number.
pub type Owner = u16;

/// The bytes of the longest section of a guarded map.
pub const LONGEST: Value = declared::LONGEST;

/// How many seats a map has.
pub const SEATS: usize = declared::SEATS;

/// The most records that a map can hold, and an export.
pub const MAP_LIMIT: usize = declared::MAP_LIMIT;

/// The most records that a granted scan can show: those that it logs, and the
/// job's own edits.
pub const SCAN_LIMIT: usize = declared::READ_LIMIT + declared::WRITE_LIMIT;

/// The number that a validated job has, from 1: installed jobs are as if run in
/// the order of their numbers. A record has the one of the job that wrote it as
/// its stamp.
#[derive(Clone, Copy, PartialEq, Eq, PartialOrd, Ord, Hash, Debug)]
pub struct SerialNumber(u64);

impl SerialNumber {
    /// As a number.
    pub fn get(self) -> u64 {
        self.0
    }
}

impl fmt::Display for SerialNumber {
    fn fmt(&self, out: &mut fmt::Formatter) -> fmt::Result {
        self.0.fmt(out)
    }
}

/// One map with its eight seats and its export, 166 KB. A clone goes on by itself.
#[derive(Clone)]
pub struct Sections {
    map: Box<Map>,
}

/// Each step of document 01. A refused step changes nothing, unless the refusal
/// ends the job ([`Refusal::ends_job`]).
impl Sections {
    /// A fresh map: no record, every seat free.
    pub fn new() -> Self {
        Sections { map: declared::fresh(false) }
    }

    /// A fresh guarded map: whatever steps it is given, no two present sections ever
    /// overlap. An address is a section's first byte, a value its length in bytes.
    ///
    /// Each put needs a scan of the same job that covers all addresses from which
    /// another section could reach into it, that is from 65,535 before the section, or
    /// 0, to its last byte. Of several such scans the latest decides: over what it
    /// found the job's own edits are laid, and nothing else may share a byte with the
    /// section. All this is tested by [`lock`](Sections::lock), so the scan may also
    /// come after the put. A removal needs no scan.
    ///
    /// ```
    /// # use sections::{Refusal, Sections};
    /// let mut map = Sections::guarded();
    /// map.begin(0)?;
    /// map.put(0, 4096, 32, 1)?;
    /// assert_eq!(map.lock(0), Err(Refusal::Uncovered));
    /// map.scan_all(0, 0, 9999)?;
    /// map.lock(0)?;
    /// map.validate(0)?;
    /// map.install(0)?;
    /// map.fold(4096)?;
    ///
    /// // The section's last byte is 4127.
    /// map.begin(1)?;
    /// map.scan_all(1, 0, 9999)?;
    /// map.put(1, 4127, 100, 2)?;
    /// assert_eq!(map.lock(1), Err(Refusal::Overlap));
    ///
    /// // The refused job is still open, and may remove what is in its way.
    /// map.remove(1, 4096)?;
    /// map.lock(1)?;
    /// map.validate(1)?;
    /// map.install(1)?;
    /// let sections: Vec<_> = map.iter().map(|record| (record.address, record.value)).collect();
    /// assert_eq!(sections, [(4127, 100)]);
    /// # Ok::<(), Refusal>(())
    /// ```
    pub fn guarded() -> Self {
        Sections { map: declared::fresh(true) }
    }

    /// Begins a job at a free seat.
    pub fn begin(&mut self, seat: Seat) -> Result<(), Refusal> {
        self.call(Step::Begin { seat }).map(drop)
    }

    /// The section at an address, or absent: the job's own edit, or else the present
    /// record, which is logged. And how many slots of the indexlet were examined for it.
    ///
    /// ```
    /// # use sections::{Reading, Refusal, Section, Sections};
    /// let mut map = Sections::new();
    /// map.begin(0)?;
    /// map.put(0, 4096, 32, 1)?;
    /// let section = Section { address: 4096, value: 32, owner: 1 };
    /// assert_eq!(map.read(0, 4096)?, Reading { found: Some(section), examined: 0 });
    /// assert_eq!(map.read(0, 8192)?, Reading { found: None, examined: 1 });
    /// # Ok::<(), Refusal>(())
    /// ```
    pub fn read(&mut self, seat: Seat, address: Address) -> Result<Reading, Refusal> {
        self.call(Step::Read { seat, address }).map(|told| reading(address, told))
    }

    /// The records from lo to hi, both included, into three buffers, of which the
    /// shortest one decides: how many there are. Other places are left.
    ///
    /// ```
    /// # use sections::{Refusal, Sections};
    /// let mut map = Sections::new();
    /// map.begin(0)?;
    /// map.put(0, 4096, 32, 1)?;
    /// let (mut addresses, mut values, mut owners) = ([0; 2], [0; 3], [0; 1]);
    /// assert_eq!(map.scan(0, 0, 9999, &mut addresses, &mut values, &mut owners)?, 1);
    /// assert_eq!((addresses, values, owners), ([4096, 0], [32, 0, 0], [1]));
    /// let short = map.scan(0, 0, 9999, &mut addresses, &mut values, &mut []);
    /// assert_eq!(short, Err(Refusal::ShortBuffer));
    /// # Ok::<(), Refusal>(())
    /// ```
    pub fn scan(
        &mut self,
        seat: Seat,
        lo: Address,
        hi: Address,
        addresses: &mut [Address],
        values: &mut [Value],
        owners: &mut [Owner],
    ) -> Result<usize, Refusal> {
        let step = Step::Scan {
            seat,
            lo,
            hi,
            addresses: addresses.len(),
            values: values.len(),
            owners: owners.len(),
        };
        let words = declared::step(&mut self.map, &step.code(), addresses, values, owners);
        granted(words).map(|[_, count, ..]| count as usize)
    }

    /// The same into a vector, with as many places as a scan can need.
    pub fn scan_all(
        &mut self,
        seat: Seat,
        lo: Address,
        hi: Address,
    ) -> Result<Vec<Section>, Refusal> {
        let (mut addresses, mut values) = ([0; SCAN_LIMIT], [0; SCAN_LIMIT]);
        let mut owners = [0; SCAN_LIMIT];
        let count = self.scan(seat, lo, hi, &mut addresses, &mut values, &mut owners)?;
        Ok(first(count, &addresses, &values, &owners))
    }

    /// An edit: a record at the address.
    pub fn put(
        &mut self,
        seat: Seat,
        address: Address,
        value: Value,
        owner: Owner,
    ) -> Result<(), Refusal> {
        self.call(Step::Put { seat, address, value, owner }).map(drop)
    }

    /// An edit: no record at the address.
    pub fn remove(&mut self, seat: Seat, address: Address) -> Result<(), Refusal> {
        self.call(Step::Remove { seat, address }).map(drop)
    }

    /// Locks all edited addresses, or none. Of several refusals it answers the first
    /// in this order: 1, 2, 4, then in a guarded map 16, 17, 18, then 9, 10, 11.
    pub fn lock(&mut self, seat: Seat) -> Result<(), Refusal> {
        self.call(Step::Lock { seat }).map(drop)
    }

    /// Compares the log with the map, and takes the next serial number.
    pub fn validate(&mut self, seat: Seat) -> Result<SerialNumber, Refusal> {
        self.call(Step::Validate { seat }).map(|[_, number, ..]| SerialNumber(number))
    }

    /// Lets the edits of a validated job into the indexlet, and frees the seat.
    pub fn install(&mut self, seat: Seat) -> Result<(), Refusal> {
        self.call(Step::Install { seat }).map(drop)
    }

    /// Drops the job.
    pub fn abort(&mut self, seat: Seat) -> Result<(), Refusal> {
        self.call(Step::Abort { seat }).map(drop)
    }

    /// Takes all waiting edits of the leaf around an address into the index: how
    /// many there were.
    pub fn fold(&mut self, address: Address) -> Result<usize, Refusal> {
        self.call(Step::Fold { address }).map(|[_, count, ..]| count as usize)
    }

    /// The same of the leaf with the edit that has waited longest, counted from the
    /// install that began the waiting; of one install the lower address is older.
    /// An edit waits for 192 such folds at most, whatever else comes between.
    ///
    /// ```
    /// # use sections::{Refusal, Sections};
    /// let mut map = Sections::new();
    /// map.begin(0)?;
    /// map.put(0, 4096, 32, 1)?;
    /// map.lock(0)?;
    /// map.validate(0)?;
    /// map.install(0)?;
    /// assert_eq!(map.fold_oldest()?, 1);
    /// assert_eq!(map.fold_oldest()?, 0);
    /// # Ok::<(), Refusal>(())
    /// ```
    pub fn fold_oldest(&mut self) -> Result<usize, Refusal> {
        self.call(Step::FoldOldest).map(|[_, count, ..]| count as usize)
    }

    /// Any step, with buffers of its own for a scan or a portion, and for a file, of
    /// which only the length is told: [`file`](Sections::file) gives the bytes.
    ///
    /// ```
    /// # use sections::{Answer, Reading, Sections, Step};
    /// let mut map = Sections::new();
    /// assert_eq!(map.perform(Step::Begin { seat: 0 }), Ok(Answer::Granted));
    /// let absent = Reading { found: None, examined: 1 };
    /// assert_eq!(map.perform(Step::Read { seat: 0, address: 9 }), Ok(Answer::Read(absent)));
    /// ```
    pub fn perform(&mut self, step: Step) -> Result<Answer, Refusal> {
        let [m, n, o] = step.places();
        let (mut addresses, mut values, mut owners) = (vec![0; m], vec![0; n], vec![0; o]);
        let (addresses, values, owners) = (&mut addresses[..], &mut values[..], &mut owners[..]);
        let map = &mut *self.map;
        let words = match step {
            Step::OpenExport => declared::open_export(map),
            Step::Portion { .. } => declared::portion(map, addresses, values, owners),
            Step::File { bytes } => declared::file(map, &mut vec![0; bytes]),
            Step::CloseExport => declared::close_export(map),
            _ => declared::step(map, &step.code(), addresses, values, owners),
        };
        let told = granted(words)?;
        Ok(step.answer(told, first(shown(told), addresses, values, owners)))
    }

    /// A step that needs no buffers.
    fn call(&mut self, step: Step) -> Result<Told, Refusal> {
        granted(declared::step(&mut self.map, &step.code(), &mut [], &mut [], &mut []))
    }
}

/// The sections in the first places.
fn first(count: usize, addresses: &[Address], values: &[Value], owners: &[Owner]) -> Vec<Section> {
    let section =
        |at: usize| Section { address: addresses[at], value: values[at], owner: owners[at] };
    (0..count).map(section).collect()
}

/// What is told, if the step was granted. A coded step of this crate has a meaning, so
/// any other number is one of the table.
fn granted([number, told @ ..]: declared::Words) -> Result<Told, Refusal> {
    match Refusal::from_number(number) {
        Some(refusal) => Err(refusal),
        None => {
            assert_eq!(number, 0, "the library answered a number that this crate does not know");
            Ok(told)
        }
    }
}

impl Default for Sections {
    fn default() -> Self {
        Sections::new()
    }
}

/// As its contents.
impl fmt::Debug for Sections {
    fn fmt(&self, out: &mut fmt::Formatter) -> fmt::Result {
        out.debug_list().entries(self).finish()
    }
}
