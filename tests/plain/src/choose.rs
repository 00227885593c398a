//! Choosing addresses, values and owners, and steering the size of the map.

use crate::engine::WORKERS;
use crate::generate::Generator;
use crate::map::{Map, Payload, Write};
use crate::moves::{transaction, write_of};

/// Choosing addresses, values and owners.
impl Generator {
    pub fn map(&self) -> &Map {
        self.engine.map()
    }

    pub fn total(&self) -> usize {
        self.map().total_with(std::iter::empty())
    }

    /// Small ones often meet again; both ends of the range come up.
    pub fn value(&mut self) -> u64 {
        match self.random.below(8) {
            0 => 0,
            1 => u64::MAX,
            2 => self.random.number(),
            _ => self.random.below(100) as u64,
        }
    }

    pub fn payload(&mut self) -> Payload {
        Payload { value: self.value(), owner: self.random.owner() }
    }

    /// The same value.
    pub fn of_other_owner(&mut self, Payload { value, owner }: Payload) -> Payload {
        Payload { value, owner: self.random.other_owner(owner) }
    }

    /// A put that changes nothing but the owner of what is there, if anything is.
    pub fn hand_over(&mut self, address: u32) -> Write {
        Write::Put(match self.map().current(address) {
            Some(stored) => self.of_other_owner(stored.payload),
            None => self.payload(),
        })
    }

    /// A put at the address, in some cases of that kind.
    pub fn put_at(&mut self, address: u32) -> Write {
        if self.random.one_in(4) {
            self.hand_over(address)
        } else {
            Write::Put(self.payload())
        }
    }

    pub fn puts(&mut self, addresses: &[u32]) -> Vec<(u32, Write)> {
        addresses.iter().map(|&address| (address, self.put_at(address))).collect()
    }

    fn unknown(&self, address: u32) -> bool {
        self.map().indexed(address).is_none() && !self.map().indexlet().contains_key(&address)
    }

    /// An address from low to high that the map does not hold in any way.
    pub fn fresh_between(&mut self, low: u32, high: u32) -> Option<u32> {
        for _ in 0..64 {
            let address = self.random.address(low, high);
            if self.unknown(address) {
                return Some(address);
            }
        }
        None
    }

    /// Distinct new addresses of the area, in random order.
    pub fn fresh(&mut self, count: usize) -> Vec<u32> {
        let mut chosen = Vec::new();
        while chosen.len() < count {
            let address = self.random.address(self.area.0, self.area.1);
            if self.unknown(address) && !chosen.contains(&address) {
                chosen.push(address);
            }
        }
        chosen
    }

    pub fn fresh_one(&mut self) -> u32 {
        self.fresh(1)[0]
    }

    /// An address of the index, or a new one if it is empty.
    pub fn indexed_one(&mut self) -> u32 {
        match self.map().index().len() {
            0 => self.fresh_one(),
            count => {
                let at = self.random.below(count);
                self.map().index()[at].address
            }
        }
    }

    /// Rising, so that the choice does not hang on the hash map's order.
    pub fn pending(&self) -> Vec<u32> {
        let entries = self.map().indexlet().iter();
        let pending = entries.filter(|(_, entry)| entry.pending.is_some());
        let mut addresses: Vec<u32> = pending.map(|(&address, _)| address).collect();
        addresses.sort_unstable();
        addresses
    }

    pub fn merge_some(&mut self) {
        if let Some(step) = self.some_merge() {
            self.play(step);
        }
    }

    pub fn merge_all(&mut self) {
        while !self.pending().is_empty() {
            self.merge_some();
        }
    }
}

/// Steering the size of the map.
impl Generator {
    /// Commits these writes in transactions of all workers, interleaved.
    pub fn spread(&mut self, mut writes: &[(u32, Write)]) {
        self.idle_all();
        while !writes.is_empty() {
            for worker in 0..WORKERS as u32 {
                let count = self.random.between(8, 16).min(writes.len());
                let (now, later) = writes.split_at(count);
                let body = now.iter().map(|&(address, write)| write_of(worker, address, write));
                if count > 0 {
                    self.enqueue(worker, transaction(worker, body));
                }
                writes = later;
            }
            self.drain();
        }
        self.idle_all();
    }

    /// Up to this many addresses in all. Bounded, since commit numbers end.
    pub fn grow(&mut self, total: usize) {
        for _ in 0..32 {
            let missing = total.saturating_sub(self.total());
            if missing == 0 {
                break;
            }
            let new = self.fresh(missing.min(128));
            let writes = self.puts(&new);
            self.spread(&writes);
        }
    }

    /// Down to this many records, all in the index: single ones or long runs.
    pub fn shrink(&mut self, keep: usize) {
        for _ in 0..32 {
            let mut addresses: Vec<u32> =
                self.map().contents().iter().map(|record| record.address).collect();
            let surplus = addresses.len().saturating_sub(keep);
            if surplus == 0 {
                break;
            }
            if self.random.one_in(2) {
                self.random.shuffle(&mut addresses);
            } else {
                let start = self.random.below(addresses.len());
                addresses.rotate_left(start);
            }
            addresses.truncate(surplus.min(128));
            let writes: Vec<_> = addresses.iter().map(|&at| (at, Write::Delete)).collect();
            self.spread(&writes);
            self.merge_all();
        }
    }
}

/// The range of the leaf that holds the address.
pub fn leaf_around(generator: &Generator, address: u32) -> (u32, u32) {
    let map = generator.map();
    let at = map.leaf_at(address);
    (map.leaves()[at].low, map.high(at))
}
