//! Present contents, record by record.

use crate::{declared, Address, Owner, Sections, SerialNumber, Value};

/// A present record.
#[derive(Clone, Copy, PartialEq, Eq, Hash, Debug)]
pub struct Record {
    /// Where the section starts.
    pub address: Address,
    /// What was put there.
    pub value: Value,
    /// Whose section it is.
    pub owner: Owner,
    /// The serial number of the job that wrote it.
    pub stamp: SerialNumber,
}

/// All present records by rising address; see [`Sections::iter`].
#[derive(Clone)]
pub struct Contents<'a> {
    map: &'a Sections,
    from: u64,
}

impl Sections {
    /// All present records by rising address, those that wait in the indexlet too.
    ///
    /// ```
    /// # use sections::{Refusal, Sections};
    /// let mut map = Sections::new();
    /// map.begin(0)?;
    /// map.put(0, 8192, 64, 2)?;
    /// map.put(0, 4096, 32, 1)?;
    /// map.lock(0)?;
    /// map.validate(0)?;
    /// map.install(0)?;
    /// let owners: Vec<(u32, u16)> = map.iter().map(|it| (it.address, it.owner)).collect();
    /// assert_eq!(owners, [(4096, 1), (8192, 2)]);
    /// for record in &map {
    ///     assert_eq!(record.stamp.get(), 1);
    /// }
    /// # Ok::<(), Refusal>(())
    /// ```
    pub fn iter(&self) -> Contents<'_> {
        self.iter_from(0)
    }

    /// The same from an address on.
    pub fn iter_from(&self, address: Address) -> Contents<'_> {
        Contents { map: self, from: address.into() }
    }
}

impl Iterator for Contents<'_> {
    type Item = Record;

    fn next(&mut self) -> Option<Record> {
        let [address, value, owner, stamp] = declared::next(&self.map.map, self.from)?;
        self.from = address + 1;
        let (address, owner) = (address as Address, owner as Owner);
        Some(Record { address, value, owner, stamp: SerialNumber(stamp) })
    }
}

impl<'a> IntoIterator for &'a Sections {
    type Item = Record;
    type IntoIter = Contents<'a>;

    fn into_iter(self) -> Contents<'a> {
        self.iter()
    }
}
