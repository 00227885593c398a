//! The functions of the static library, as crates/sections/src/lib.rt has them,
//! and the memory that they are lent. All that is unsafe is here.
#![allow(unsafe_code)]

/// Document 01's limits.
pub const SEATS: usize = 8;
pub const MAP_LIMIT: usize = 1024;
const SLOTS: usize = 256;
/// The rows of the indexlet's filter, behind its slots.
const FILTER_ROWS: usize = 256;
/// The row of the bitmap of its slots, behind the filter.
const BITMAP_ROWS: usize = 1;
pub const READ_LIMIT: usize = 64;
const MARK_LIMIT: usize = 32;
pub const WRITE_LIMIT: usize = 16;

/// Request 102's: the bytes of the longest section of a guarded map.
pub const LONGEST: u64 = 65_536;

/// How many words a row of each array has.
const GLOBAL_WORDS: usize = 8;
const RECORD_WORDS: usize = 4;
const LEAF_WORDS: usize = 4;
const SLOT_WORDS: usize = 9;
const READ_WORDS: usize = 5;
const MARK_WORDS: usize = 7;
const WRITE_WORDS: usize = 4;
const EXPORT_WORDS: usize = 3;
const EXPORTED_WORDS: usize = 3;

pub type Globals = [u64; GLOBAL_WORDS];
pub type Records = [[u64; RECORD_WORDS]; MAP_LIMIT];
pub type Leaves = [[u64; LEAF_WORDS]; MAP_LIMIT + 1];
pub type Slots = [[u64; SLOT_WORDS]; SLOTS + FILTER_ROWS + BITMAP_ROWS];
pub type Reads = [[[u64; READ_WORDS]; READ_LIMIT]; SEATS];
pub type Marks = [[[u64; MARK_WORDS]; MARK_LIMIT]; SEATS];
pub type Writes = [[[u64; WRITE_WORDS]; WRITE_LIMIT]; SEATS];
pub type Seats = [u64; SEATS];

/// Request 107's: the numbers of an export, and a row for each of its records.
pub type Export = [u64; EXPORT_WORDS];
pub type Exported = [[u64; EXPORTED_WORDS]; MAP_LIMIT];

/// A step: its kind, and up to six numbers.
pub type Code = [u64; 7];

/// An answer: document 01's number, what is told, the number that tells it, the one
/// beside it (the owner of what a read found, or what remains after a portion), and of
/// a granted read the slots examined.
pub type Words = [u64; 5];

/// A present record: address, value, owner and stamp.
pub type Found = [u64; 4];

/// What an answer's second word may be.
pub const VALUE: u64 = 1;
pub const COUNT: u64 = 3;
pub const PORTION: u64 = 7;

/// The arrays of one map. Only the library writes them, so what it asks of them,
/// that they are as its last call left them, always holds.
#[derive(Clone)]
pub struct Map {
    globals: Globals,
    export: Export,
    exported: Exported,
    records: Records,
    leaves: Leaves,
    slots: Slots,
    reads: Reads,
    marks: Marks,
    writes: Writes,
    seats: Seats,
}

extern "C" {
    fn sections_fresh(
        globals: &mut Globals,
        export: &mut Export,
        records: &mut Records,
        leaves: &mut Leaves,
        slots: &mut Slots,
        reads: &mut Reads,
        marks: &mut Marks,
        writes: &mut Writes,
        seats: &mut Seats,
        guarded: bool,
    );

    fn sections_step(
        answer: &mut Words,
        addresses: *mut u32,
        address_places: usize,
        values: *mut u64,
        value_places: usize,
        owners: *mut u16,
        owner_places: usize,
        globals: &mut Globals,
        records: &mut Records,
        leaves: &mut Leaves,
        slots: &mut Slots,
        reads: &mut Reads,
        marks: &mut Marks,
        writes: &mut Writes,
        seats: &mut Seats,
        step: &Code,
    );

    fn sections_replay(
        counts: &mut [u64; 2],
        out: *mut u64,
        out_places: usize,
        addresses: *mut u32,
        address_places: usize,
        values: *mut u64,
        value_places: usize,
        owners: *mut u16,
        owner_places: usize,
        bytes: *mut u8,
        byte_places: usize,
        globals: &mut Globals,
        export: &mut Export,
        exported: &mut Exported,
        records: &mut Records,
        leaves: &mut Leaves,
        slots: &mut Slots,
        reads: &mut Reads,
        marks: &mut Marks,
        writes: &mut Writes,
        seats: &mut Seats,
        steps: *const u64,
        step_words: usize,
        guarded: bool,
    ) -> u64;

    fn sections_next(
        found: &mut Found,
        globals: &Globals,
        records: &Records,
        leaves: &Leaves,
        slots: &Slots,
        reads: &Reads,
        marks: &Marks,
        writes: &Writes,
        seats: &Seats,
        from: u64,
    ) -> bool;

    fn sections_open_export(
        answer: &mut Words,
        export: &mut Export,
        exported: &mut Exported,
        globals: &Globals,
        records: &Records,
        leaves: &Leaves,
        slots: &Slots,
        reads: &Reads,
        marks: &Marks,
        writes: &Writes,
        seats: &Seats,
    );

    fn sections_portion(
        answer: &mut Words,
        addresses: *mut u32,
        address_places: usize,
        values: *mut u64,
        value_places: usize,
        owners: *mut u16,
        owner_places: usize,
        export: &mut Export,
        exported: &Exported,
    );

    fn sections_file(
        answer: &mut Words,
        bytes: *mut u8,
        byte_places: usize,
        export: &mut Export,
        exported: &Exported,
    );

    fn sections_close_export(answer: &mut Words, export: &mut Export);
}

/// Not a map yet.
fn blank() -> Box<Map> {
    Box::new(Map {
        globals: [0; GLOBAL_WORDS],
        export: [0; EXPORT_WORDS],
        exported: [[0; EXPORTED_WORDS]; MAP_LIMIT],
        records: [[0; RECORD_WORDS]; MAP_LIMIT],
        leaves: [[0; LEAF_WORDS]; MAP_LIMIT + 1],
        slots: [[0; SLOT_WORDS]; SLOTS + FILTER_ROWS + BITMAP_ROWS],
        reads: [[[0; READ_WORDS]; READ_LIMIT]; SEATS],
        marks: [[[0; MARK_WORDS]; MARK_LIMIT]; SEATS],
        writes: [[[0; WRITE_WORDS]; WRITE_LIMIT]; SEATS],
        seats: [0; SEATS],
    })
}

pub fn fresh(guarded: bool) -> Box<Map> {
    let mut map = blank();
    let x = &mut *map;
    // SAFETY: the types are those of the library, which asks nothing of what they hold.
    unsafe {
        sections_fresh(
            &mut x.globals,
            &mut x.export,
            &mut x.records,
            &mut x.leaves,
            &mut x.slots,
            &mut x.reads,
            &mut x.marks,
            &mut x.writes,
            &mut x.seats,
            guarded,
        );
    }
    map
}

/// One step, with the buffers that are lent to it.
pub fn step(
    x: &mut Map,
    code: &Code,
    addresses: &mut [u32],
    values: &mut [u64],
    owners: &mut [u16],
) -> Words {
    let mut answer = [0; 5];
    // SAFETY: the arrays are as the last call left them, and no two references overlap.
    unsafe {
        sections_step(
            &mut answer,
            addresses.as_mut_ptr(),
            addresses.len(),
            values.as_mut_ptr(),
            values.len(),
            owners.as_mut_ptr(),
            owners.len(),
            &mut x.globals,
            &mut x.records,
            &mut x.leaves,
            &mut x.slots,
            &mut x.reads,
            &mut x.marks,
            &mut x.writes,
            &mut x.seats,
            code,
        );
    }
    answer
}

/// How a list of steps ended: steps taken, words of answers written, and why no
/// more were taken (0 there are none, 1 one has no meaning, 2 no room).
#[derive(Clone, Copy, PartialEq, Eq, Debug)]
pub struct Ran {
    pub taken: u64,
    pub written: u64,
    pub stop: u64,
}

/// A list of steps, seven words to each, from a fresh map, with the buffers that are
/// lent to its scans, portions and files.
pub fn replay(
    steps: &[u64],
    addresses: &mut [u32],
    values: &mut [u64],
    owners: &mut [u16],
    bytes: &mut [u8],
    out: &mut [u64],
    guarded: bool,
) -> (Box<Map>, Ran) {
    let mut map = blank();
    let x = &mut *map;
    let mut counts = [0; 2];
    // SAFETY: the types are those of the library, which asks nothing of what they hold.
    let stop = unsafe {
        sections_replay(
            &mut counts,
            out.as_mut_ptr(),
            out.len(),
            addresses.as_mut_ptr(),
            addresses.len(),
            values.as_mut_ptr(),
            values.len(),
            owners.as_mut_ptr(),
            owners.len(),
            bytes.as_mut_ptr(),
            bytes.len(),
            &mut x.globals,
            &mut x.export,
            &mut x.exported,
            &mut x.records,
            &mut x.leaves,
            &mut x.slots,
            &mut x.reads,
            &mut x.marks,
            &mut x.writes,
            &mut x.seats,
            steps.as_ptr(),
            steps.len(),
            guarded,
        )
    };
    let [taken, written] = counts;
    (map, Ran { taken, written, stop })
}

/// The first present record from an address on.
pub fn next(x: &Map, from: u64) -> Option<Found> {
    let mut found = [0; 4];
    // SAFETY: the arrays are as the last call left them.
    let there = unsafe {
        sections_next(
            &mut found, &x.globals, &x.records, &x.leaves, &x.slots, &x.reads, &x.marks, &x.writes,
            &x.seats, from,
        )
    };
    there.then_some(found)
}

/// Opens an export of what is present.
pub fn open_export(x: &mut Map) -> Words {
    let mut answer = [0; 5];
    // SAFETY: the arrays are as the last call left them, and no two references overlap.
    unsafe {
        sections_open_export(
            &mut answer,
            &mut x.export,
            &mut x.exported,
            &x.globals,
            &x.records,
            &x.leaves,
            &x.slots,
            &x.reads,
            &x.marks,
            &x.writes,
            &x.seats,
        );
    }
    answer
}

/// The next records of the export, into the buffers that are lent to it.
pub fn portion(
    x: &mut Map,
    addresses: &mut [u32],
    values: &mut [u64],
    owners: &mut [u16],
) -> Words {
    let mut answer = [0; 5];
    // SAFETY: the arrays are as the last call left them, and no two references overlap.
    unsafe {
        sections_portion(
            &mut answer,
            addresses.as_mut_ptr(),
            addresses.len(),
            values.as_mut_ptr(),
            values.len(),
            owners.as_mut_ptr(),
            owners.len(),
            &mut x.export,
            &x.exported,
        );
    }
    answer
}

/// The whole export as a file, into the bytes that are lent to it.
pub fn file(x: &mut Map, bytes: &mut [u8]) -> Words {
    let mut answer = [0; 5];
    // SAFETY: the arrays are as the last call left them, and no two references overlap.
    unsafe {
        sections_file(&mut answer, bytes.as_mut_ptr(), bytes.len(), &mut x.export, &x.exported);
    }
    answer
}

/// Closes the export.
pub fn close_export(x: &mut Map) -> Words {
    let mut answer = [0; 5];
    // SAFETY: the array is as the last call left it.
    unsafe {
        sections_close_export(&mut answer, &mut x.export);
    }
    answer
}

#[cfg(test)]
mod tests;
