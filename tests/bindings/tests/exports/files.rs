//! The file, read back by a reader of its own: whole whatever portions were taken, and
//! in buffers of any length.

use crate::portions::portion;
use crate::{fill, fold_all, install, put, removal};
use plain::step::Shown;
use sections::{file_bytes, Refusal, Sections, MAP_LIMIT};

/// The records of a file by request 107's text: little-endian, the record count and the
/// bytes per entry of the second array, each 32-bit, then all addresses, then all
/// entries of value and owner. Nothing may be left over.
pub fn read_back(file: &[u8]) -> Vec<Shown> {
    let number = |bytes: &[u8]| bytes.iter().rev().fold(0, |n, &byte| n << 8 | u64::from(byte));
    let (count, size) = (number(&file[..4]) as usize, number(&file[4..8]));
    assert_eq!(size, 10);
    let (addresses, entries) = file[8..].split_at(4 * count);
    assert_eq!(entries.len(), 10 * count);
    let record = |(address, entry): (&[u8], &[u8])| {
        (number(address) as u32, number(&entry[..8]), number(&entry[8..]) as u16)
    };
    addresses.chunks(4).zip(entries.chunks(10)).map(record).collect()
}

/// What a buffer of so many bytes gets. All else in it must stay.
pub fn file(map: &mut Sections, length: usize) -> Result<Vec<u8>, Refusal> {
    let mut bytes = vec![85; length];
    let written = map.file(&mut bytes);
    let past = bytes.split_off(written.unwrap_or(0));
    assert!(past.iter().all(|&byte| byte == 85));
    written.map(|_| bytes)
}

#[test]
fn bytes_by_hand() {
    let mut map = Sections::new();
    let records = [(0xfedc_ba98, 300, 0xabcd), (0x1020, 0x0102_0304_0506_0708, 9)];
    install(&mut map, &records.each_ref().map(put));
    assert_eq!(map.open_export(), Ok(2));
    let bytes = [
        [2, 0, 0, 0].as_slice(),
        &[10, 0, 0, 0],
        &[0x20, 0x10, 0, 0],
        &[0x98, 0xba, 0xdc, 0xfe],
        &[8, 7, 6, 5, 4, 3, 2, 1, 9, 0],
        &[44, 1, 0, 0, 0, 0, 0, 0, 0xcd, 0xab],
    ];
    assert_eq!(file(&mut map, 100), Ok(bytes.concat()));
}

/// The lowest and the highest of each number.
#[test]
fn ends_of_the_numbers() {
    let mut map = Sections::new();
    let records = [(0, u64::MAX, 0), (1, 0, u16::MAX), (u32::MAX, u64::MAX - 1, u16::MAX)];
    install(&mut map, &records.each_ref().map(put));
    assert_eq!(map.open_export(), Ok(3));
    assert_eq!(read_back(&file(&mut map, 50).expect("there is room")), records);
}

/// One that never held anything, and one whose records are removed: the removals wait,
/// and then are folded.
#[test]
fn no_records() -> Result<(), Refusal> {
    let mut map = Sections::new();
    let records = fill(&mut map, 12);
    fold_all(&mut map);
    install(&mut map, &records.iter().map(removal).collect::<Vec<_>>());
    let waiting = map.clone();
    assert_eq!(map.fold_oldest()?, 12);
    for mut map in [Sections::new(), waiting, map] {
        assert_eq!(map.open_export()?, 0);
        assert_eq!(file(&mut map, 7), Err(Refusal::ShortBuffer));
        assert_eq!(file(&mut map, 8)?, [0, 0, 0, 0, 10, 0, 0, 0]);
        assert_eq!(read_back(&file(&mut map, 100)?), []);
    }
    Ok(())
}

/// One byte too few is 8, and nothing is written; what is longer stays past the file.
#[test]
fn buffers_around_its_length() -> Result<(), Refusal> {
    for (count, length) in [(1, 22), (2, 36), (5, 78), (1024, 14_344)] {
        assert_eq!(file_bytes(count), length);
        let mut map = Sections::new();
        let records = fill(&mut map, count as u64);
        assert_eq!(map.open_export()?, count);
        for short in [0, 1, 7, 8, length - 14, length - 1] {
            assert_eq!(file(&mut map, short), Err(Refusal::ShortBuffer), "{count}: {short}");
        }
        for long in [length, length + 1, length + 9, 2 * length + 1000] {
            let file = file(&mut map, long)?;
            assert_eq!((file.len(), read_back(&file)), (length, records.clone()));
        }
    }
    Ok(())
}

/// Files, written or refused, and portions know nothing of each other.
#[test]
fn whole_after_portions() -> Result<(), Refusal> {
    let mut map = Sections::new();
    let records = fill(&mut map, 100);
    for places in [1, 3, 33, 64, 100] {
        assert_eq!(map.open_export()?, 100);
        let mut taken = Vec::new();
        for _ in 0..=100_usize.div_ceil(places) {
            assert_eq!(read_back(&file(&mut map, 1408)?), records);
            assert_eq!(file(&mut map, 1407), Err(Refusal::ShortBuffer));
            taken.extend(portion(&mut map, [places; 3], 100 - taken.len()));
        }
        assert_eq!(taken, records);
        map.close_export()?;
    }
    Ok(())
}

/// Of the opening, whatever is installed and folded later: a full map of which half is
/// removed, and the other half put anew.
#[test]
fn as_it_was_at_opening() -> Result<(), Refusal> {
    let mut map = Sections::new();
    let records = fill(&mut map, 1024);
    assert_eq!(map.open_export()?, MAP_LIMIT);
    let before = file(&mut map, 14_344)?;
    for job in records.chunks(16) {
        fold_all(&mut map);
        let (removed, changed) = job.split_at(8);
        let changes = changed.iter().map(|&(address, ..)| (address, Some((1, 2))));
        install(&mut map, &removed.iter().map(removal).chain(changes).collect::<Vec<_>>());
    }
    assert_eq!(map.iter().count(), 512);
    let after = file(&mut map, 14_344)?;
    assert_eq!(read_back(&after), records);
    assert!(before == after);
    map.close_export()?;
    assert_eq!(map.open_export()?, 512);
    let changed = records.chunks(16).flat_map(|job| &job[8..]);
    let changed: Vec<Shown> = changed.map(|&(address, ..)| (address, 1, 2)).collect();
    assert_eq!(read_back(&file(&mut map, 14_344)?), changed);
    Ok(())
}
