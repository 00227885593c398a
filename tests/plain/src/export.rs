//! Request 107's export: what was present when it was opened, in portions and as a
//! file. It keeps its own records, so whatever comes later changes nothing of it.

use crate::engine::fill;
use crate::map::{Payload, Record};

/// Bytes per entry of the file's second array: a value and an owner.
const ENTRY: u32 = 10;

/// How many records a portion has, and how many remain after it.
#[derive(Clone, Copy, PartialEq, Eq, Debug)]
pub struct Portion {
    pub count: usize,
    pub remaining: usize,
}

#[derive(Clone, PartialEq, Eq)]
pub struct Export {
    /// By rising address, without their stamps.
    records: Vec<(u32, Payload)>,
    /// How many of them the portions had so far.
    taken: usize,
}

impl Export {
    pub fn new(contents: &[Record]) -> Self {
        let records = contents.iter().map(|record| (record.address, record.stored.payload));
        Export { records: records.collect(), taken: 0 }
    }

    pub fn count(&self) -> usize {
        self.records.len()
    }

    /// The next records, as many as there are and the shortest buffer holds.
    pub fn portion(
        &mut self,
        addresses: &mut [u32],
        values: &mut [u64],
        owners: &mut [u16],
    ) -> Portion {
        let places = addresses.len().min(values.len()).min(owners.len());
        let rest = &self.records[self.taken..];
        let next = &rest[..places.min(rest.len())];
        fill(next, addresses, values, owners);
        self.taken += next.len();
        Portion { count: next.len(), remaining: rest.len() - next.len() }
    }

    /// All records, whatever portions were taken: two sizes, then the addresses, then
    /// the entries of value and owner, all little-endian.
    pub fn file(&self) -> Vec<u8> {
        let mut bytes = Vec::new();
        bytes.extend((self.records.len() as u32).to_le_bytes());
        bytes.extend(ENTRY.to_le_bytes());
        for (address, _) in &self.records {
            bytes.extend(address.to_le_bytes());
        }
        for (_, payload) in &self.records {
            bytes.extend(payload.value.to_le_bytes());
            bytes.extend(payload.owner.to_le_bytes());
        }
        bytes
    }
}
