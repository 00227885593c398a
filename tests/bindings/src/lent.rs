//! Three lent buffers of any lengths, which hold something already.

use plain::step::Shown;
use std::fmt;

#[derive(Clone, PartialEq, Debug)]
pub struct Lent {
    pub addresses: Vec<u32>,
    pub values: Vec<u64>,
    pub owners: Vec<u16>,
}

impl Lent {
    pub fn new([m, n, o]: [usize; 3]) -> Self {
        Lent { addresses: vec![7; m], values: vec![8; n], owners: vec![9; o] }
    }

    pub fn lengths(&self) -> [usize; 3] {
        [self.addresses.len(), self.values.len(), self.owners.len()]
    }

    /// With these records in the first places, and nothing else changed.
    pub fn with(mut self, records: impl IntoIterator<Item = Shown>) -> Self {
        for (place, (address, value, owner)) in records.into_iter().enumerate() {
            self.addresses[place] = address;
            self.values[place] = value;
            self.owners[place] = owner;
        }
        self
    }

    /// The records in the first places.
    pub fn first(&self, count: usize) -> Vec<Shown> {
        (0..count).map(|at| (self.addresses[at], self.values[at], self.owners[at])).collect()
    }
}

/// Every place, each after a space.
impl fmt::Display for Lent {
    fn fmt(&self, out: &mut fmt::Formatter) -> fmt::Result {
        self.addresses.iter().try_for_each(|it| write!(out, " {it}"))?;
        self.values.iter().try_for_each(|it| write!(out, " {it}"))?;
        self.owners.iter().try_for_each(|it| write!(out, " {it}"))
    }
}
