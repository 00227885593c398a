//! Request 107's export: what was present when it was opened, in portions and as a
//! file, while jobs and folds go on.

use crate::{declared, granted, Address, Owner, Refusal, Sections, Value};

/// What a granted portion tells.
#[derive(Clone, Copy, PartialEq, Eq, Hash, Debug)]
pub struct Portion {
    /// How many records it has: the first places of the three buffers.
    pub count: usize,
    /// How many records remain after it.
    pub remaining: usize,
}

/// How many bytes the file of an export of so many records has: two sizes of 4, then an
/// address of 4 and an entry of 10 for each. The most is that of
/// [`MAP_LIMIT`](crate::MAP_LIMIT) records, 14,344.
pub const fn file_bytes(records: usize) -> usize {
    8 + 14 * records
}

/// Request 107's steps. A map has one export at a time; no step of a job and no fold
/// changes anything of it, nor does it change the map.
impl Sections {
    /// Opens an export of all present records, those that wait in the indexlet too, and
    /// tells how many there are.
    ///
    /// ```
    /// # use sections::{Portion, Refusal, Sections};
    /// let mut map = Sections::new();
    /// map.begin(0)?;
    /// map.put(0, 4096, 32, 1)?;
    /// map.lock(0)?;
    /// map.validate(0)?;
    /// assert_eq!(map.open_export()?, 0);
    /// assert_eq!(map.open_export(), Err(Refusal::ExportOpen));
    ///
    /// // What is installed later, only the next one shows.
    /// map.install(0)?;
    /// let (mut addresses, mut values, mut owners) = ([0; 2], [0; 2], [0; 2]);
    /// let portion = map.portion(&mut addresses, &mut values, &mut owners)?;
    /// assert_eq!(portion, Portion { count: 0, remaining: 0 });
    /// map.close_export()?;
    /// assert_eq!(map.open_export()?, 1);
    /// # Ok::<(), Refusal>(())
    /// ```
    pub fn open_export(&mut self) -> Result<usize, Refusal> {
        granted(declared::open_export(&mut self.map)).map(|[_, count, ..]| count as usize)
    }

    /// The next records of the export by rising address, into three buffers, of which
    /// the shortest one decides how many. Other places are left. With a buffer of no
    /// places it gives none, and is granted.
    ///
    /// ```
    /// # use sections::{Portion, Refusal, Sections};
    /// let mut map = Sections::new();
    /// map.begin(0)?;
    /// map.put(0, 8192, 64, 2)?;
    /// map.put(0, 4096, 32, 1)?;
    /// map.lock(0)?;
    /// map.validate(0)?;
    /// map.install(0)?;
    /// map.open_export()?;
    /// let (mut addresses, mut values, mut owners) = ([0; 1], [0; 3], [0; 2]);
    /// let portion = map.portion(&mut addresses, &mut values, &mut owners)?;
    /// assert_eq!(portion, Portion { count: 1, remaining: 1 });
    /// assert_eq!((addresses, values, owners), ([4096], [32, 0, 0], [1, 0]));
    /// # Ok::<(), Refusal>(())
    /// ```
    pub fn portion(
        &mut self,
        addresses: &mut [Address],
        values: &mut [Value],
        owners: &mut [Owner],
    ) -> Result<Portion, Refusal> {
        let words = declared::portion(&mut self.map, addresses, values, owners);
        granted(words).map(|[_, count, remaining, _]| Portion {
            count: count as usize,
            remaining: remaining as usize,
        })
    }

    /// All records of the export as a file, whatever portions were taken, to the start
    /// of the buffer: how many bytes it has ([`file_bytes`]). Other bytes are left, and
    /// all of them if the buffer is too short. `docs/EXPORTS.md` has the layout.
    ///
    /// ```
    /// # use sections::{file_bytes, Refusal, Sections, MAP_LIMIT};
    /// let mut map = Sections::new();
    /// map.open_export()?;
    /// assert_eq!(map.file(&mut [0; 7]), Err(Refusal::ShortBuffer));
    /// let mut bytes = [0; file_bytes(MAP_LIMIT)];
    /// let count = map.file(&mut bytes)?;
    /// assert_eq!(bytes[..count], [0, 0, 0, 0, 10, 0, 0, 0]);
    /// # Ok::<(), Refusal>(())
    /// ```
    pub fn file(&mut self, bytes: &mut [u8]) -> Result<usize, Refusal> {
        granted(declared::file(&mut self.map, bytes)).map(|[_, count, ..]| count as usize)
    }

    /// Closes the export, of which portions may remain.
    pub fn close_export(&mut self) -> Result<(), Refusal> {
        granted(declared::close_export(&mut self.map)).map(drop)
    }
}
