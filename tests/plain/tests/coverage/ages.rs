//! How long writes have waited, kept from the installs and merges alone; and
//! whether another rule than the request's would have merged another leaf.

use std::cmp::Reverse;
use std::collections::{BTreeMap, HashMap};

/// Installs are counted in their order, from 1.
#[derive(Clone, Copy)]
struct Wait {
    began: u32,
    /// The commit number of the install that began it.
    number: u32,
    /// The latest install at the address, and the first one ever.
    latest: u32,
    first: u32,
}

#[derive(Default)]
pub struct Ages {
    installs: u32,
    waiting: BTreeMap<u32, Wait>,
    first: HashMap<u32, u32>,
}

impl Ages {
    pub fn install(&mut self, number: u32, addresses: &[u32]) {
        self.installs += 1;
        let now = self.installs;
        for &address in addresses {
            let first = *self.first.entry(address).or_insert(now);
            let new = Wait { began: now, number, latest: now, first };
            self.waiting.entry(address).or_insert(new).latest = now;
        }
    }

    /// The pending writes of a leaf are merged.
    pub fn merge(&mut self, (low, high): (u32, u32)) {
        self.waiting.retain(|&address, _| address < low || high < address);
    }

    pub fn between(&self, (low, high): (u32, u32)) -> Vec<u32> {
        self.waiting.range(low..=high).map(|(&address, _)| address).collect()
    }

    fn least<K: Ord>(&self, key: impl Fn(u32, &Wait) -> K) -> Option<u32> {
        let waiting = self.waiting.iter().map(|(&address, wait)| (key(address, wait), address));
        waiting.min().map(|(_, address)| address)
    }

    pub fn oldest(&self) -> Option<u32> {
        self.least(|address, wait| (wait.began, address))
    }

    /// What decided for this leaf: without it, another would have been merged.
    pub fn decisive(&self, (low, high): (u32, u32)) -> Vec<&'static str> {
        let others = [
            ("oldest by install", self.least(|at, wait| (wait.number, at))),
            ("oldest by its first write", self.least(|at, wait| (wait.latest, at))),
            ("oldest since the last merge", self.least(|at, wait| (wait.first, at))),
            ("oldest by address", self.least(|at, wait| (wait.began, Reverse(at)))),
            ("oldest and not youngest", self.least(|at, wait| Reverse((wait.began, at)))),
        ];
        let elsewhere = |other: &Option<u32>| other.is_some_and(|at| at < low || high < at);
        others.iter().filter(|(_, other)| elsewhere(other)).map(|(name, _)| *name).collect()
    }
}
