//! The map under the workers: the index with its leaves, and the indexlet with
//! pending writes and locks. It knows nothing of transactions.

use crate::slots::Slots;
use std::collections::{hash_map, HashMap};

pub const MAP_LIMIT: usize = 1024;
pub const INDEXLET_LIMIT: usize = 192;
const WHOLE_LIMIT: usize = 16;
const RUN: usize = 8;

/// A serial number in document 01, and the stamp of what a job wrote.
pub type Commit = u32;

/// What a put gives a record: document 01's value, and whose section it is (request
/// 106).
#[derive(Clone, Copy, PartialEq, Eq, Debug)]
pub struct Payload {
    pub value: u64,
    pub owner: u16,
}

/// A record without its address. An absent one is `None`: no payload, no stamp.
#[derive(Clone, Copy, PartialEq, Eq, Debug)]
pub struct Stored {
    pub payload: Payload,
    pub commit: Commit,
}

#[derive(Clone, Copy, PartialEq, Eq, Debug)]
pub struct Record {
    pub address: u32,
    pub stored: Stored,
}

/// An edit in document 01. To delete leaves the address gone.
#[derive(Clone, Copy, PartialEq, Eq, Debug)]
pub enum Write {
    Put(Payload),
    Delete,
}

impl Write {
    pub fn is_put(self) -> bool {
        matches!(self, Write::Put(_))
    }
}

/// A waiting edit in document 01.
#[derive(Clone, Copy, PartialEq, Eq, Debug)]
pub struct Pending {
    pub write: Write,
    pub commit: Commit,
    /// How many installs there were when the waiting began, with that one.
    pub since: u32,
}

impl Pending {
    fn stored(self) -> Option<Stored> {
        match self.write {
            Write::Put(payload) => Some(Stored { payload, commit: self.commit }),
            Write::Delete => None,
        }
    }
}

/// Whose lock it is, and whether it is for a put.
#[derive(Clone, Copy, PartialEq, Eq, Debug)]
pub struct Lock {
    pub holder: usize,
    pub put: bool,
}

/// One address of the indexlet. It stays while it is pending or locked.
#[derive(Clone, Copy, PartialEq, Eq, Default, Debug)]
pub struct Entry {
    pub pending: Option<Pending>,
    pub lock: Option<Lock>,
}

impl Entry {
    /// Where the index holds nothing, a removal changes nothing that a scan shows:
    /// only puts hide (request 104).
    fn hides_from(&self, worker: usize) -> bool {
        let waiting = self.pending.is_some_and(|pending| pending.write.is_put());
        waiting || self.lock.is_some_and(|lock| lock.put && lock.holder != worker)
    }
}

/// A leaf runs from `low` to the next leaf's low. The version is document 01's
/// mark; it is fresh whenever the leaf changes, so it also fixes the low.
#[derive(Clone, Copy, PartialEq, Eq, Debug)]
pub struct Leaf {
    pub low: u32,
    pub version: u64,
}

#[derive(Clone, PartialEq, Eq)]
pub struct Map {
    index: Vec<Record>,
    leaves: Vec<Leaf>,
    indexlet: HashMap<u32, Entry>,
    /// A slot for each entry of the indexlet, unless none are kept.
    slots: Option<Slots>,
    last_version: u64,
}

impl Default for Map {
    fn default() -> Self {
        Map { slots: Some(Slots::default()), ..Map::without_slots() }
    }
}

impl Map {
    /// The same in all but how many slots a look-up examines, which it cannot tell.
    pub fn without_slots() -> Self {
        Map {
            index: Vec::new(),
            leaves: vec![Leaf { low: 0, version: 0 }],
            indexlet: HashMap::new(),
            slots: None,
            last_version: 0,
        }
    }
}

/// Records.
impl Map {
    pub fn index(&self) -> &[Record] {
        &self.index
    }

    pub fn indexed(&self, address: u32) -> Option<&Record> {
        let found = self.index.binary_search_by_key(&address, |record| record.address);
        found.ok().map(|at| &self.index[at])
    }

    pub fn indexed_between(&self, lo: u32, hi: u32) -> &[Record] {
        let from = self.index.partition_point(|record| record.address < lo);
        let length = self.index[from..].partition_point(|record| record.address <= hi);
        &self.index[from..from + length]
    }

    /// The present record of document 01: what is pending goes first.
    pub fn current(&self, address: u32) -> Option<Stored> {
        match self.pending(address) {
            Some(pending) => pending.stored(),
            None => self.indexed(address).map(|record| record.stored),
        }
    }

    /// `current` for a record of the index, without a second search.
    pub fn current_of(&self, record: &Record) -> Option<Stored> {
        match self.pending(record.address) {
            Some(pending) => pending.stored(),
            None => Some(record.stored),
        }
    }

    /// All current records by rising address.
    pub fn contents(&self) -> Vec<Record> {
        self.contents_between(0, u32::MAX)
    }

    pub fn contents_between(&self, lo: u32, hi: u32) -> Vec<Record> {
        let indexed = self.indexed_between(lo, hi).iter().map(|record| record.address);
        let inside = |address: &u32| (lo..=hi).contains(address);
        let other = self.indexlet.keys().copied().filter(inside);
        let mut addresses: Vec<u32> = indexed.chain(other).collect();
        addresses.sort_unstable();
        addresses.dedup();
        let record = |address| Some(Record { address, stored: self.current(address)? });
        addresses.into_iter().filter_map(record).collect()
    }
}

/// The indexlet.
impl Map {
    pub fn indexlet(&self) -> &HashMap<u32, Entry> {
        &self.indexlet
    }

    pub fn slots(&self) -> Option<&Slots> {
        self.slots.as_ref()
    }

    pub fn pending(&self, address: u32) -> Option<Pending> {
        self.indexlet.get(&address)?.pending
    }

    pub fn holder(&self, address: u32) -> Option<usize> {
        self.indexlet.get(&address)?.lock.map(|lock| lock.holder)
    }

    /// Distinct pending and locked addresses, with these.
    pub fn indexlet_with(&self, addresses: impl Iterator<Item = u32>) -> usize {
        let new = addresses.filter(|address| !self.indexlet.contains_key(address));
        self.indexlet.len() + new.count()
    }

    /// Distinct index, pending and locked addresses, with these.
    pub fn total_with(&self, addresses: impl Iterator<Item = u32>) -> usize {
        let outside = self.indexlet.keys().filter(|&&address| self.indexed(address).is_none());
        let new = addresses.filter(|address| {
            !self.indexlet.contains_key(address) && self.indexed(*address).is_none()
        });
        self.index.len() + outside.count() + new.count()
    }

    /// Whether `total_with` would pass the limit. It counts only near the limit.
    pub fn overfull_with(&self, addresses: impl ExactSizeIterator<Item = u32>) -> bool {
        let at_most = self.index.len() + self.indexlet.len() + addresses.len();
        at_most > MAP_LIMIT && self.total_with(addresses) > MAP_LIMIT
    }

    pub fn lock(&mut self, address: u32, lock: Lock) {
        let entry = match self.indexlet.entry(address) {
            hash_map::Entry::Occupied(old) => old.into_mut(),
            hash_map::Entry::Vacant(new) => {
                if let Some(slots) = &mut self.slots {
                    slots.take(address);
                }
                new.insert(Entry::default())
            }
        };
        entry.lock = Some(lock);
    }

    pub fn unlock(&mut self, address: u32) {
        if let Some(entry) = self.indexlet.get_mut(&address) {
            entry.lock = None;
            if entry.pending.is_none() {
                self.drop_entry(address);
            }
        }
    }

    fn drop_entry(&mut self, address: u32) {
        self.indexlet.remove(&address);
        if let Some(slots) = &mut self.slots {
            slots.release(address);
        }
    }

    /// The write waits, and its lock goes. Where one waits already, the later one
    /// keeps its place.
    pub fn install(&mut self, address: u32, pending: Pending) {
        let since = self.pending(address).map_or(pending.since, |earlier| earlier.since);
        let pending = Some(Pending { since, ..pending });
        let old = self.indexlet.insert(address, Entry { pending, lock: None });
        if let (None, Some(slots)) = (old, &mut self.slots) {
            slots.take(address);
        }
    }
}

/// Leaves and merges.
impl Map {
    pub fn leaves(&self) -> &[Leaf] {
        &self.leaves
    }

    pub fn leaf_at(&self, address: u32) -> usize {
        self.leaves.partition_point(|leaf| leaf.low <= address) - 1
    }

    pub fn high(&self, at: usize) -> u32 {
        self.leaves.get(at + 1).map_or(u32::MAX, |next| next.low - 1)
    }

    pub fn leaves_between(&self, lo: u32, hi: u32) -> &[Leaf] {
        &self.leaves[self.leaf_at(lo)..=self.leaf_at(hi)]
    }

    /// Whether the leaf, seen earlier, is gone or hides a key from the worker.
    pub fn phantom(&self, seen: Leaf, worker: usize) -> bool {
        let at = self.leaf_at(seen.low);
        if self.leaves[at].version != seen.version {
            return true;
        }
        let high = self.high(at);
        self.indexlet.iter().any(|(&address, entry)| {
            (seen.low..=high).contains(&address)
                && entry.hides_from(worker)
                && self.indexed(address).is_none()
        })
    }

    /// Document 01's fold: the pending writes of the leaf enter the index.
    pub fn merge(&mut self, address: u32) -> usize {
        let at = self.leaf_at(address);
        let (low, high) = (self.leaves[at].low, self.high(at));
        let pending = self.take_pending(low, high);
        if pending.is_empty() {
            return 0;
        }
        let from = self.index.partition_point(|record| record.address < low);
        let length = self.indexed_between(low, high).len();
        let merged = lay_over(&self.index[from..from + length], &pending);
        self.rebuild(at, &merged);
        self.index.splice(from..from + length, merged);
        pending.len()
    }

    /// The merge that picks its own leaf: that of the write that has waited
    /// longest. Of one install the lower address is older.
    pub fn merge_oldest(&mut self) -> usize {
        let entries = self.indexlet.iter();
        let ages = entries.filter_map(|(&address, entry)| Some((entry.pending?.since, address)));
        match ages.min() {
            Some((_, address)) => self.merge(address),
            None => 0,
        }
    }

    /// Takes the pending writes from low to high out of the indexlet, rising.
    fn take_pending(&mut self, low: u32, high: u32) -> Vec<(u32, Pending)> {
        let mut taken = Vec::new();
        for (&address, entry) in &mut self.indexlet {
            if (low..=high).contains(&address) {
                taken.extend(entry.pending.take().map(|pending| (address, pending)));
            }
        }
        for (address, _) in &taken {
            if self.holder(*address).is_none() {
                self.drop_entry(*address);
            }
        }
        taken.sort_unstable_by_key(|&(address, _)| address);
        taken
    }

    /// The leaf at this place anew, now that it has these records.
    fn rebuild(&mut self, at: usize, records: &[Record]) {
        match records.len() {
            0 if at > 0 => {
                self.leaves.remove(at);
                self.leaves[at - 1].version = self.next_version();
            }
            0..=WHOLE_LIMIT => self.leaves[at].version = self.next_version(),
            count => {
                let mut cut = vec![Leaf { low: self.leaves[at].low, version: self.next_version() }];
                let mut start = 0;
                while count - start >= 2 * RUN {
                    start += RUN;
                    cut.push(Leaf { low: records[start].address, version: self.next_version() });
                }
                self.leaves.splice(at..=at, cut);
            }
        }
    }

    fn next_version(&mut self) -> u64 {
        self.last_version += 1;
        self.last_version
    }
}

/// Records with pending writes laid over, both rising.
fn lay_over(records: &[Record], pending: &[(u32, Pending)]) -> Vec<Record> {
    let mut merged = Vec::with_capacity(records.len() + pending.len());
    let mut old = records.iter().copied().peekable();
    for &(address, write) in pending {
        while let Some(record) = old.next_if(|record| record.address < address) {
            merged.push(record);
        }
        old.next_if(|record| record.address == address);
        merged.extend(write.stored().map(|stored| Record { address, stored }));
    }
    merged.extend(old);
    merged
}
