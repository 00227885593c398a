//! Document 01's plain sorted list: it runs whole transactions one after the
//! other, has no limits, and knows nothing of the engine.

/// An entry's stamp is the commit number of its writer.
#[derive(Clone, Copy, PartialEq, Eq, Debug)]
pub struct Item {
    pub address: u32,
    pub value: u64,
    pub owner: u16,
    pub stamp: u32,
}

#[derive(Default)]
pub struct SequentialList {
    items: Vec<Item>,
}

impl SequentialList {
    pub fn items(&self) -> &[Item] {
        &self.items
    }

    fn first_from(&self, address: u32) -> usize {
        self.items.partition_point(|item| item.address < address)
    }

    /// Value and owner.
    pub fn read(&self, address: u32) -> Option<(u64, u16)> {
        let item = self.items.get(self.first_from(address))?;
        (item.address == address).then_some((item.value, item.owner))
    }

    /// Addresses, values and owners.
    pub fn scan(&self, lo: u32, hi: u32) -> impl Iterator<Item = (u32, u64, u16)> + '_ {
        let from = self.items[self.first_from(lo)..].iter();
        let inside = from.take_while(move |item| item.address <= hi);
        inside.map(|item| (item.address, item.value, item.owner))
    }

    /// An entry at its address goes.
    pub fn put(&mut self, item: Item) {
        self.remove(item.address);
        let at = self.first_from(item.address);
        self.items.insert(at, item);
    }

    pub fn remove(&mut self, address: u32) {
        let at = self.first_from(address);
        if self.items.get(at).is_some_and(|item| item.address == address) {
            self.items.remove(at);
        }
    }
}
