//! Eight workers over one map: the steps and their refusals.

use crate::export::{Export, Portion};
use crate::guard;
use crate::map::{Commit, Leaf, Lock, Map, Payload, Pending, Stored, Write, INDEXLET_LIMIT};
use std::ops::Range;

pub const WORKERS: usize = 8;
pub const READ_LIMIT: usize = 64;
pub const LEAF_SET_LIMIT: usize = 32;
pub const WRITE_LIMIT: usize = 16;
pub const LAST_COMMIT: Commit = 1_000_000;

/// Document 01's table of refusals, with its numbers, and those of requests 102 and
/// 107.
#[derive(Clone, Copy, PartialEq, Eq, Debug)]
pub enum Refusal {
    NoWorker = 1,
    WorkerFree = 2,
    WorkerTaken = 3,
    WrongStage = 4,
    Backward = 5,
    ReadSetFull = 6,
    WriteSetFull = 7,
    ShortBuffer = 8,
    Held = 9,
    IndexletFull = 10,
    MapFull = 11,
    Changed = 12,
    UnderLock = 13,
    Phantom = 14,
    Spent = 15,
    BadLength = 16,
    MissingScan = 17,
    Overlap = 18,
    ExportOpen = 19,
    NoExport = 20,
}

use Refusal::*;

#[derive(Clone, Copy, PartialEq, Eq, Debug, Default)]
pub enum Stage {
    #[default]
    Free,
    Open,
    Locked,
    Checked,
}

/// What a granted read tells.
#[derive(Clone, Copy, PartialEq, Eq, Debug)]
pub struct Reading {
    /// `None` if absent.
    pub payload: Option<Payload>,
    /// Request 103's slots that the look-up examined: 0 for an own write, and `None`
    /// where no slots are kept.
    pub examined: Option<usize>,
}

/// A granted scan: its range, and where in the read set its log stands.
#[derive(Clone, PartialEq, Eq)]
pub struct Scan {
    pub lo: u32,
    pub hi: u32,
    pub logged: Range<usize>,
}

/// A seat in document 01, with its job, here a transaction.
#[derive(Clone, PartialEq, Eq, Default)]
pub struct Worker {
    pub stage: Stage,
    /// The log of records: what was current at each address read.
    pub read_set: Vec<(u32, Option<Stored>)>,
    /// The log of marks.
    pub leaf_set: Vec<Leaf>,
    /// The granted scans in their order. Each logs a leaf, so there are at most as
    /// many as leaves.
    pub scans: Vec<Scan>,
    /// The edits, by rising address.
    pub write_set: Vec<(u32, Write)>,
    commit: Commit,
}

impl Worker {
    fn write_at(&self, address: u32) -> Result<usize, usize> {
        self.write_set.binary_search_by_key(&address, |&(at, _)| at)
    }

    fn writes_between(&self, lo: u32, hi: u32) -> &[(u32, Write)] {
        let from = self.write_set.partition_point(|&(at, _)| at < lo);
        let length = self.write_set[from..].partition_point(|&(at, _)| at <= hi);
        &self.write_set[from..from + length]
    }

    fn written(&self) -> impl ExactSizeIterator<Item = u32> + '_ {
        self.write_set.iter().map(|&(address, _)| address)
    }

    fn clear(&mut self) {
        self.stage = Stage::Free;
        self.read_set.clear();
        self.leaf_set.clear();
        self.scans.clear();
        self.write_set.clear();
    }
}

/// By default the map is not guarded.
#[derive(Clone, PartialEq, Eq, Default)]
pub struct Engine {
    guarded: bool,
    map: Map,
    workers: [Worker; WORKERS],
    last_commit: Commit,
    /// Installs so far, whatever their numbers.
    installs: u32,
    /// Request 107's, while one is open.
    export: Option<Export>,
}

impl Engine {
    pub fn new(guarded: bool) -> Self {
        Engine { guarded, ..Engine::default() }
    }

    /// One whose map keeps no slots.
    pub fn without_slots(guarded: bool) -> Self {
        Engine { map: Map::without_slots(), ..Engine::new(guarded) }
    }

    pub fn map(&self) -> &Map {
        &self.map
    }

    pub fn worker(&self, at: usize) -> &Worker {
        &self.workers[at]
    }

    pub fn last_commit(&self) -> Commit {
        self.last_commit
    }

    fn known(&self, worker: u32) -> Result<usize, Refusal> {
        let at = worker as usize;
        if at < WORKERS {
            Ok(at)
        } else {
            Err(NoWorker)
        }
    }

    fn taken(&self, worker: u32) -> Result<usize, Refusal> {
        let at = self.known(worker)?;
        if self.workers[at].stage == Stage::Free {
            Err(WorkerFree)
        } else {
            Ok(at)
        }
    }

    fn at_stage(&self, worker: u32, stage: Stage) -> Result<usize, Refusal> {
        let at = self.taken(worker)?;
        if self.workers[at].stage == stage {
            Ok(at)
        } else {
            Err(WrongStage)
        }
    }

    pub fn begin(&mut self, worker: u32) -> Result<(), Refusal> {
        let at = self.known(worker)?;
        if self.workers[at].stage != Stage::Free {
            return Err(WorkerTaken);
        }
        self.workers[at].stage = Stage::Open;
        Ok(())
    }

    /// An own write is answered without a log entry, so a full log lets it be, and
    /// without a look-up.
    pub fn read(&mut self, worker: u32, address: u32) -> Result<Reading, Refusal> {
        let at = self.at_stage(worker, Stage::Open)?;
        let worker = &mut self.workers[at];
        if let Ok(own) = worker.write_at(address) {
            let payload = match worker.write_set[own].1 {
                Write::Put(payload) => Some(payload),
                Write::Delete => None,
            };
            return Ok(Reading { payload, examined: self.map.slots().map(|_| 0) });
        }
        if worker.read_set.len() == READ_LIMIT {
            return Err(ReadSetFull);
        }
        let current = self.map.current(address);
        worker.read_set.push((address, current));
        let payload = current.map(|stored| stored.payload);
        Ok(Reading { payload, examined: self.map.slots().map(|slots| slots.examined(address)) })
    }

    /// Shows only what the index holds and what the transaction wrote: a
    /// pending insertion is not shown, and makes the leaf fail validation. Of the
    /// three buffers the shortest decides.
    pub fn scan(
        &mut self,
        worker: u32,
        lo: u32,
        hi: u32,
        addresses: &mut [u32],
        values: &mut [u64],
        owners: &mut [u16],
    ) -> Result<usize, Refusal> {
        let at = self.at_stage(worker, Stage::Open)?;
        if lo > hi {
            return Err(Backward);
        }
        let records = self.map.indexed_between(lo, hi);
        let leaves = self.map.leaves_between(lo, hi);
        let worker = &mut self.workers[at];
        if worker.read_set.len() + records.len() > READ_LIMIT
            || worker.leaf_set.len() + leaves.len() > LEAF_SET_LIMIT
        {
            return Err(ReadSetFull);
        }
        let seen: Vec<(u32, Option<Stored>)> =
            records.iter().map(|record| (record.address, self.map.current_of(record))).collect();
        let found = lay_over(&seen, worker.writes_between(lo, hi));
        if found.len() > addresses.len().min(values.len()).min(owners.len()) {
            return Err(ShortBuffer);
        }
        fill(&found, addresses, values, owners);
        let first = worker.read_set.len();
        worker.read_set.extend(seen);
        worker.leaf_set.extend(leaves);
        worker.scans.push(Scan { lo, hi, logged: first..worker.read_set.len() });
        Ok(found.len())
    }

    pub fn put(&mut self, worker: u32, address: u32, payload: Payload) -> Result<(), Refusal> {
        self.write(worker, address, Write::Put(payload))
    }

    pub fn remove(&mut self, worker: u32, address: u32) -> Result<(), Refusal> {
        self.write(worker, address, Write::Delete)
    }

    fn write(&mut self, worker: u32, address: u32, write: Write) -> Result<(), Refusal> {
        let at = self.at_stage(worker, Stage::Open)?;
        let worker = &mut self.workers[at];
        match worker.write_at(address) {
            Ok(own) => worker.write_set[own].1 = write,
            Err(_) if worker.write_set.len() == WRITE_LIMIT => return Err(WriteSetFull),
            Err(place) => worker.write_set.insert(place, (address, write)),
        }
        Ok(())
    }

    /// What a guarded map asks for goes before the other causes, whose numbers are
    /// lower.
    pub fn lock(&mut self, worker: u32) -> Result<(), Refusal> {
        let at = self.at_stage(worker, Stage::Open)?;
        let worker = &mut self.workers[at];
        if self.guarded {
            guard::check(worker)?;
        }
        // An open transaction holds no lock, so any holder is another.
        if worker.written().any(|address| self.map.holder(address).is_some()) {
            return Err(Held);
        }
        if self.map.indexlet_with(worker.written()) > INDEXLET_LIMIT {
            return Err(IndexletFull);
        }
        if self.map.overfull_with(worker.written()) {
            return Err(MapFull);
        }
        for &(address, write) in &worker.write_set {
            self.map.lock(address, Lock { holder: at, put: write.is_put() });
        }
        worker.stage = Stage::Locked;
        Ok(())
    }

    pub fn validate(&mut self, worker: u32) -> Result<Commit, Refusal> {
        let at = self.at_stage(worker, Stage::Locked)?;
        if let Some(refusal) = self.conflict(at) {
            self.end(at);
            return Err(refusal);
        }
        if self.last_commit == LAST_COMMIT {
            return Err(Spent);
        }
        self.last_commit += 1;
        let worker = &mut self.workers[at];
        worker.commit = self.last_commit;
        worker.stage = Stage::Checked;
        Ok(worker.commit)
    }

    /// Each cause is sought in the whole log before the next cause.
    fn conflict(&self, at: usize) -> Option<Refusal> {
        let worker = &self.workers[at];
        let changed = |&(address, seen)| self.map.current(address) != seen;
        if worker.read_set.iter().any(changed) {
            return Some(Changed);
        }
        let held = |&(address, _)| self.map.holder(address).is_some_and(|holder| holder != at);
        if worker.read_set.iter().any(held) {
            return Some(UnderLock);
        }
        if worker.leaf_set.iter().any(|&leaf| self.map.phantom(leaf, at)) {
            return Some(Phantom);
        }
        None
    }

    pub fn install(&mut self, worker: u32) -> Result<(), Refusal> {
        let at = self.at_stage(worker, Stage::Checked)?;
        let worker = &mut self.workers[at];
        self.installs += 1;
        for &(address, write) in &worker.write_set {
            let pending = Pending { write, commit: worker.commit, since: self.installs };
            self.map.install(address, pending);
        }
        worker.clear();
        Ok(())
    }

    pub fn abort(&mut self, worker: u32) -> Result<(), Refusal> {
        let at = self.taken(worker)?;
        self.end(at);
        Ok(())
    }

    fn end(&mut self, at: usize) {
        let worker = &mut self.workers[at];
        if worker.stage != Stage::Open {
            for address in worker.written() {
                self.map.unlock(address);
            }
        }
        worker.clear();
    }

    pub fn merge(&mut self, address: u32) -> usize {
        self.map.merge(address)
    }

    pub fn merge_oldest(&mut self) -> usize {
        self.map.merge_oldest()
    }
}

/// Request 107's steps. They name no worker, and change nothing but the export.
impl Engine {
    /// Answers how many records it has.
    pub fn open_export(&mut self) -> Result<usize, Refusal> {
        if self.export.is_some() {
            return Err(ExportOpen);
        }
        let export = Export::new(&self.map.contents());
        Ok(self.export.insert(export).count())
    }

    /// Of the three buffers the shortest decides, be it of no places.
    pub fn portion(
        &mut self,
        addresses: &mut [u32],
        values: &mut [u64],
        owners: &mut [u16],
    ) -> Result<Portion, Refusal> {
        let export = self.export.as_mut().ok_or(NoExport)?;
        Ok(export.portion(addresses, values, owners))
    }

    /// Writes the export as a file to the start of the buffer. Answers how many bytes it
    /// has.
    pub fn file(&self, bytes: &mut [u8]) -> Result<usize, Refusal> {
        let file = self.export.as_ref().ok_or(NoExport)?.file();
        bytes.get_mut(..file.len()).ok_or(ShortBuffer)?.copy_from_slice(&file);
        Ok(file.len())
    }

    pub fn close_export(&mut self) -> Result<(), Refusal> {
        self.export.take().map(drop).ok_or(NoExport)
    }
}

/// Writes records into the first places of three buffers that hold as many.
pub fn fill(
    records: &[(u32, Payload)],
    addresses: &mut [u32],
    values: &mut [u64],
    owners: &mut [u16],
) {
    for (place, &(address, payload)) in records.iter().enumerate() {
        addresses[place] = address;
        values[place] = payload.value;
        owners[place] = payload.owner;
    }
}

/// What was seen in the index with the own writes laid over, both rising.
pub fn lay_over(seen: &[(u32, Option<Stored>)], writes: &[(u32, Write)]) -> Vec<(u32, Payload)> {
    let shown = |&(address, stored): &(u32, Option<Stored>)| Some((address, stored?.payload));
    let mut found = Vec::with_capacity(seen.len() + writes.len());
    let mut rest = seen;
    for &(address, write) in writes {
        let (below, others) = rest.split_at(rest.partition_point(|&(at, _)| at < address));
        found.extend(below.iter().filter_map(shown));
        let replaced = others.first().is_some_and(|&(at, _)| at == address);
        rest = &others[replaced as usize..];
        if let Write::Put(payload) = write {
            found.push((address, payload));
        }
    }
    found.extend(rest.iter().filter_map(shown));
    found
}
