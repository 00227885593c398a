//! Request 102's guard. In a guarded map a value is a section's length in bytes,
//! and a lock is refused unless a scan of the transaction found room for each put.

use crate::engine::{lay_over, Refusal, Scan, Worker};
use crate::map::Write;

pub const LONGEST: u64 = 65_536;

/// A stretch of bytes, such as a section's, by its first and its last one.
#[derive(Clone, Copy, PartialEq, Eq, Debug)]
pub struct Span {
    pub first: u32,
    pub last: u32,
}

impl Span {
    /// A section's. `None` for a length out of bounds, or an end past the highest
    /// address.
    pub fn new(address: u32, length: u64) -> Option<Self> {
        if !(1..=LONGEST).contains(&length) {
            return None;
        }
        let last = u32::try_from(u64::from(address) + length - 1).ok()?;
        Some(Span { first: address, last })
    }

    pub fn length(self) -> u64 {
        u64::from(self.last - self.first) + 1
    }

    pub fn overlaps(self, other: Span) -> bool {
        self.first <= other.last && other.first <= self.last
    }

    /// The lowest address from which a section may reach into this one.
    pub fn reached_from(self) -> u32 {
        self.first.saturating_sub(LONGEST as u32 - 1)
    }
}

/// Each cause is sought in all puts before the next cause.
pub fn check(worker: &Worker) -> Result<(), Refusal> {
    let sections = sections(&worker.write_set).collect::<Option<Vec<Span>>>();
    let sections = sections.ok_or(Refusal::BadLength)?;
    let scans = sections.iter().map(|&section| deciding_scan(worker, section));
    let scans = scans.collect::<Option<Vec<&Scan>>>().ok_or(Refusal::MissingScan)?;
    let mut scanned = sections.into_iter().zip(scans);
    if scanned.any(|(section, scan)| overlapped(worker, section, scan)) {
        return Err(Refusal::Overlap);
    }
    Ok(())
}

/// The section of each put, if it can be one.
pub fn sections(writes: &[(u32, Write)]) -> impl Iterator<Item = Option<Span>> + '_ {
    writes.iter().filter_map(|&(address, write)| match write {
        Write::Put(payload) => Some(Span::new(address, payload.value)),
        Write::Delete => None,
    })
}

/// The latest of the scans that saw all that could overlap the section.
fn deciding_scan(worker: &Worker, section: Span) -> Option<&Scan> {
    let covers = |scan: &&Scan| scan.lo <= section.reached_from() && section.last <= scan.hi;
    worker.scans.iter().rev().find(covers)
}

/// Whether another section overlaps this one, once all writes are laid over what
/// the scan logged. Whose sections they are does not matter.
fn overlapped(worker: &Worker, section: Span, scan: &Scan) -> bool {
    let logged = &worker.read_set[scan.logged.clone()];
    lay_over(logged, &worker.write_set).into_iter().any(|(address, payload)| {
        let other = Span::new(address, payload.value).expect("no other length was ever locked");
        address != section.first && other.overlaps(section)
    })
}
