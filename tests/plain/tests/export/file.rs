//! The file, read back by a parser of its own: whole whatever portions were taken, and
//! in buffers of any length.

use crate::portions::portion;
use crate::{filled, install, numbered, put};
use plain::engine::Engine;
use plain::map::MAP_LIMIT;
use plain::step::Shown;

/// Little-endian: the last byte weighs most.
fn number(bytes: &[u8]) -> u64 {
    bytes.iter().rev().fold(0, |so_far, &byte| 256 * so_far + u64::from(byte))
}

/// The records of a file, of which nothing may be left over.
pub fn parse(file: &[u8]) -> Vec<Shown> {
    let (count, rest) = file.split_at(4);
    let (entry, rest) = rest.split_at(4);
    assert_eq!(number(entry), 10);
    let (addresses, entries) = rest.split_at(4 * number(count) as usize);
    assert_eq!(entries.len(), 10 * number(count) as usize);
    let record = |(address, entry): (&[u8], &[u8])| {
        (number(address) as u32, number(&entry[..8]), number(&entry[8..]) as u16)
    };
    addresses.chunks(4).zip(entries.chunks(10)).map(record).collect()
}

/// What a buffer of this length gets. All else in it must stay.
pub fn file(engine: &Engine, length: usize) -> Result<Vec<u8>, u8> {
    let mut bytes = vec![85; length];
    let written = numbered(engine.file(&mut bytes));
    let past = bytes.split_off(written.unwrap_or(0));
    assert!(past.iter().all(|&byte| byte == 85));
    written.map(|_| bytes)
}

/// How long a file of so many records is.
pub fn length(count: usize) -> usize {
    8 + (4 + 10) * count
}

#[test]
fn bytes_by_hand() {
    let mut engine = Engine::default();
    install(
        &mut engine,
        &[(0xfedc_ba98, put(300, 0xabcd)), (0x1020, put(0x0102_0304_0506_0708, 9))],
    );
    assert_eq!(engine.open_export(), Ok(2));
    let bytes = [
        [2, 0, 0, 0].as_slice(),
        &[10, 0, 0, 0],
        &[0x20, 0x10, 0, 0],
        &[0x98, 0xba, 0xdc, 0xfe],
        &[8, 7, 6, 5, 4, 3, 2, 1, 9, 0],
        &[44, 1, 0, 0, 0, 0, 0, 0, 0xcd, 0xab],
    ];
    assert_eq!(file(&engine, 100), Ok(bytes.concat()));
}

#[test]
fn no_records() {
    let mut engine = Engine::default();
    assert_eq!(engine.open_export(), Ok(0));
    assert_eq!(file(&engine, 100), Ok(vec![0, 0, 0, 0, 10, 0, 0, 0]));
    assert_eq!(parse(&file(&engine, 8).expect("there is room")), []);
}

#[test]
fn a_full_map_is_read_back() {
    let (mut engine, contents) = filled(MAP_LIMIT as u32);
    assert_eq!(engine.open_export(), Ok(MAP_LIMIT));
    let file = file(&engine, 14_344).expect("there is room");
    assert_eq!(file.len(), 14_344);
    assert_eq!(parse(&file), contents);
}

/// One byte too few is 8, and nothing is written; what is longer stays past the file.
#[test]
fn buffers_around_its_length() {
    for count in [0, 1, 2, 5, MAP_LIMIT] {
        let (mut engine, contents) = filled(count as u32);
        engine.open_export().expect("none is open");
        let needed = length(count);
        let near = needed.saturating_sub(100)..needed;
        for short in [0, 1, 7].into_iter().chain(near).filter(|&short| short < needed) {
            assert_eq!(file(&engine, short), Err(8), "{count} records, {short} bytes");
        }
        for long in [needed, needed + 1, needed + 9, 2 * needed + 1000] {
            let file = file(&engine, long).expect("there is room");
            assert_eq!((file.len(), parse(&file)), (needed, contents.clone()));
        }
    }
}

/// Files, written or refused, and portions know nothing of each other.
#[test]
fn whole_after_portions() {
    let (mut engine, contents) = filled(100);
    for places in [1, 3, 33, 64, 100] {
        assert_eq!(engine.open_export(), Ok(100));
        let mut taken = Vec::new();
        for _ in 0..=100_usize.div_ceil(places) {
            assert_eq!(parse(&file(&engine, length(100)).expect("there is room")), contents);
            assert_eq!(file(&engine, length(100) - 1), Err(8));
            taken.extend(portion(&mut engine, [places; 3], 100 - taken.len()));
        }
        assert_eq!(taken, contents);
        engine.close_export().expect("it is open");
    }
}
