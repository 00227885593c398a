//! Request 103's slots by document 01's words. Only where the entries lie is kept,
//! and counts are worked out from that.

use plain::map::Map;
use std::collections::BTreeMap;

const SLOTS: usize = 256;

fn home(address: u32) -> usize {
    let table = |at: usize| (167 * at + 13) % SLOTS;
    let [highest, lower @ ..] = address.to_be_bytes().map(usize::from);
    lower.into_iter().fold(table(highest), |so_far, byte| table(byte ^ so_far))
}

/// An entry lies so many slots past its home.
struct Lies {
    home: usize,
    passed: usize,
}

#[derive(Default)]
pub struct Table(BTreeMap<u32, Lies>);

/// How a look-up goes.
#[derive(Default)]
pub struct Look {
    pub examined: usize,
    pub found: bool,
    /// Whether one of the slots before the last is empty, and whether the last is.
    pub past_empty: bool,
    pub empty: bool,
    /// Whether a count of 0 ended it.
    pub zero: bool,
    /// Whether it goes on with slot 0.
    pub wraps: bool,
}

impl Table {
    /// The entries after a step. New ones come by a lock alone, by rising address.
    pub fn follow(&mut self, map: &Map) {
        self.0.retain(|address, _| map.indexlet().contains_key(address));
        let entries = map.indexlet().keys().copied();
        let mut new: Vec<u32> = entries.filter(|address| !self.0.contains_key(address)).collect();
        new.sort_unstable();
        for address in new {
            let home = home(address);
            let passed = (0..SLOTS).find(|passed| self.at(home + passed).is_none());
            self.0.insert(address, Lies { home, passed: passed.expect("there is room") });
        }
    }

    /// The address in a slot. Past 255 they go on with 0.
    fn at(&self, slot: usize) -> Option<u32> {
        let here = |lies: &Lies| (lies.home + lies.passed) % SLOTS == slot % SLOTS;
        self.0.iter().find(|(_, lies)| here(lies)).map(|(&address, _)| address)
    }

    /// How many entries passed a slot.
    fn count(&self, slot: usize) -> usize {
        let passes = |lies: &&Lies| (slot + SLOTS - lies.home) % SLOTS < lies.passed;
        self.0.values().filter(passes).count()
    }

    pub fn look_up(&self, address: u32) -> Look {
        let home = home(address);
        let mut look = Look::default();
        for slot in home..home + SLOTS {
            look.past_empty |= look.empty;
            look.examined += 1;
            look.empty = self.at(slot).is_none();
            look.found = self.at(slot) == Some(address);
            look.zero = !look.found && self.count(slot) == 0;
            look.wraps |= slot == SLOTS;
            if look.found || look.zero {
                break;
            }
        }
        look
    }
}
