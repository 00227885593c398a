//! Three lent buffers of any lengths, which hold something already.

use plain::step::Shown;

#[derive(Clone, PartialEq, Debug)]
pub struct Lent {
    pub addresses: Vec<u32>,
    pub values: Vec<u64>,
    pub owners: Vec<u16>,
}

impl Lent {
    pub fn new([addresses, values, owners]: [usize; 3]) -> Self {
        Lent { addresses: vec![7; addresses], values: vec![8; values], owners: vec![9; owners] }
    }

    pub fn lengths(&self) -> [usize; 3] {
        [self.addresses.len(), self.values.len(), self.owners.len()]
    }

    pub fn places(&self) -> usize {
        self.lengths().into_iter().min().expect("there are three")
    }

    /// With these records in the first places, and nothing else changed.
    pub fn with(mut self, records: impl IntoIterator<Item = Shown>) -> Self {
        for (place, (address, value, owner)) in records.into_iter().enumerate() {
            self.addresses[place] = address;
            self.values[place] = value;
            self.owners[place] = owner;
        }
        self
    }
}
