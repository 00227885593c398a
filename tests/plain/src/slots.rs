//! Document 01's slots of the indexlet. They decide how many of them a look-up
//! examines, and nothing else.

pub const SLOTS: usize = 256;

/// Document 01's table T.
pub const TABLE: [u8; SLOTS] = table();

const fn table() -> [u8; SLOTS] {
    let mut table = [0; SLOTS];
    let mut at = 0;
    while at < SLOTS {
        table[at] = ((167 * at + 13) % SLOTS) as u8;
        at += 1;
    }
    table
}

/// The home slot. For the highest byte there is no result so far, which is as if it
/// were 0.
pub fn home(address: u32) -> usize {
    let bytes = address.to_be_bytes().into_iter();
    usize::from(bytes.fold(0, |so_far, byte| TABLE[usize::from(byte ^ so_far)]))
}

/// The n-th address with that home slot: of 256 that follow one another each has
/// another one.
pub fn sharing(slot: usize, n: u32) -> u32 {
    let mut some = 256 * n..=256 * n + 255;
    some.find(|&address| home(address) == slot).expect("the table is a permutation")
}

/// All slots from the home slot on.
fn from_home(address: u32) -> impl Iterator<Item = usize> {
    let home = home(address);
    (home..home + SLOTS).map(|slot| slot % SLOTS)
}

#[derive(Clone, Copy, PartialEq, Eq)]
struct Slot {
    address: Option<u32>,
    /// How many entries passed it on their way.
    overflow: u32,
}

#[derive(Clone, PartialEq, Eq)]
pub struct Slots([Slot; SLOTS]);

impl Default for Slots {
    fn default() -> Self {
        Slots([Slot { address: None, overflow: 0 }; SLOTS])
    }
}

impl Slots {
    /// For a new entry.
    pub fn take(&mut self, address: u32) {
        for at in from_home(address) {
            let slot = &mut self.0[at];
            if slot.address.is_none() {
                slot.address = Some(address);
                return;
            }
            slot.overflow += 1;
        }
        panic!("there are more slots than entries");
    }

    /// Of an entry that goes.
    pub fn release(&mut self, address: u32) {
        for at in from_home(address) {
            let slot = &mut self.0[at];
            if slot.address == Some(address) {
                slot.address = None;
                return;
            }
            slot.overflow -= 1;
        }
        panic!("address {address} has no slot");
    }

    /// How many slots a look-up examines, with the one that ends it.
    pub fn examined(&self, address: u32) -> usize {
        let ends = |at: usize| self.0[at].address == Some(address) || self.0[at].overflow == 0;
        from_home(address).position(ends).map_or(SLOTS, |passed| passed + 1)
    }
}
