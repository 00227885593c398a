//! Portions: however an export is cut, together they are what was present when it was
//! opened.

use crate::{check, edit, fill, fold_all, install, put, removal};
use bindings::lent::Lent;
use plain::engine::Engine;
use plain::step::Shown;
use sections::{Portion, Refusal, Sections, MAP_LIMIT};

/// Takes a portion of an export of which so many records are left, and gives its
/// records. Every place past its count must stay.
pub fn portion(map: &mut Sections, lengths: [usize; 3], left: usize) -> Vec<Shown> {
    let mut lent = Lent::new(lengths);
    let Lent { addresses, values, owners } = &mut lent;
    let answer = map.portion(addresses, values, owners);
    let count = lengths.into_iter().min().expect("there are three").min(left);
    assert_eq!(answer, Ok(Portion { count, remaining: left - count }), "{lengths:?}");
    let records = lent.first(count);
    assert_eq!(lent, Lent::new(lengths).with(records.iter().copied()));
    records
}

/// All portions of a new export, which is closed when nothing remains.
fn whole(map: &mut Sections, lengths: [usize; 3]) -> Vec<Shown> {
    let count = map.open_export().expect("none is open");
    let mut taken = Vec::new();
    while taken.len() < count {
        taken.extend(portion(map, lengths, count - taken.len()));
    }
    assert_eq!(portion(map, lengths, 0), []);
    map.close_export().expect("it is open");
    taken
}

#[test]
fn a_full_map_cut_in_many_ways() {
    let mut map = Sections::new();
    let records = fill(&mut map, 1024);
    assert_eq!(MAP_LIMIT, 1024);
    let equal = [1, 3, 64, 1023, 1024, 1025].map(|length| [length; 3]);
    let unequal = [[1024, 3, 64], [1, 1024, 3], [64, 1024, 3], [1023, 1024, 1025]];
    for lengths in equal.into_iter().chain(unequal) {
        assert_eq!(whole(&mut map, lengths), records, "{lengths:?}");
    }
}

/// With no places in one buffer or in all it is granted, gives nothing and takes
/// nothing, be it the first, one between or the last.
#[test]
fn no_places() -> Result<(), Refusal> {
    let mut map = Sections::new();
    let records = fill(&mut map, 4);
    assert_eq!(map.open_export()?, 4);
    let mut taken = Vec::new();
    for left in [4, 1, 0] {
        for lengths in [[0; 3], [0, 3, 3], [3, 0, 3], [3, 3, 0]] {
            assert_eq!(portion(&mut map, lengths, left), []);
        }
        taken.extend(portion(&mut map, [3; 3], left));
    }
    assert_eq!(taken, records);
    Ok(())
}

/// All triples of lengths around the count, and then all that is left.
#[test]
fn the_shortest_decides() -> Result<(), Refusal> {
    let mut map = Sections::new();
    let records = fill(&mut map, 5);
    for lengths in (0..343).map(|n| [n / 49, n / 7 % 7, n % 7]) {
        assert_eq!(map.open_export()?, 5);
        let mut taken = portion(&mut map, lengths, 5);
        let left = 5 - taken.len();
        taken.extend(portion(&mut map, [5; 3], left));
        assert_eq!(taken, records, "{lengths:?}");
        map.close_export()?;
    }
    Ok(())
}

/// However much was taken of the one before.
#[test]
fn each_starts_at_the_first_record() -> Result<(), Refusal> {
    let mut map = Sections::new();
    let records = fill(&mut map, 20);
    for taken in 0..=20 {
        assert_eq!(map.open_export()?, 20);
        portion(&mut map, [taken; 3], 20);
        map.close_export()?;
        assert_eq!(whole(&mut map, [7; 3]), records);
    }
    Ok(())
}

/// The index has 3, 5 and 7. The removal of 3 and puts at 4 and 7 wait; a put at 5 has
/// its number, but is not installed; a put at 6 has no lock.
fn day() -> Sections {
    let mut map = Sections::new();
    install(&mut map, &[(3, 30, 1), (5, 50, 2), (7, 70, 3)].each_ref().map(put));
    assert_eq!(map.fold(0), Ok(3));
    install(&mut map, &[(3, None), (4, Some((40, 4))), (7, Some((u64::MAX, u16::MAX)))]);
    check(&mut map, 1, &[(5, Some((50, 6)))]);
    edit(&mut map, 2, &[(6, Some((60, 0)))]);
    map
}

/// An export has what is present when it is opened, waiting puts too; what is installed,
/// removed, folded and aborted later, only the next one shows.
#[test]
fn as_it_was_at_opening() -> Result<(), Refusal> {
    let mut map = day();
    assert_eq!(map.open_export()?, 3);
    assert_eq!(portion(&mut map, [1; 3], 3), [(4, 40, 4)]);
    map.install(1)?;
    assert_eq!(map.fold(0)?, 4);
    install(&mut map, &[(4, None), (8, Some((80, 8)))]);
    map.abort(2)?;
    assert_eq!(portion(&mut map, [3; 3], 2), [(5, 50, 2), (7, u64::MAX, u16::MAX)]);
    map.close_export()?;
    assert_eq!(map.open_export()?, 3);
    assert_eq!(map.fold_oldest()?, 2);
    let later = [(5, 50, 6), (7, u64::MAX, u16::MAX), (8, 80, 8)];
    assert_eq!(portion(&mut map, [3; 3], 3), later);
    Ok(())
}

/// A full map is emptied while its export is open: after each portion of three, a job
/// removes sixteen records and folds take the removals in. The second model, which does
/// the same, says that the leaves have joined to one.
#[test]
fn held_while_all_leaves_join() -> Result<(), Refusal> {
    let (mut map, mut model) = (Sections::new(), Engine::default());
    let records = fill(&mut map, 1024);
    assert_eq!(records, fill(&mut model, 1024));
    fold_all(&mut model);
    fold_all(&mut map);
    assert!(model.map().leaves().len() >= 64);
    assert_eq!(map.open_export()?, 1024);
    let mut taken = Vec::new();
    for job in records.chunks(16) {
        taken.extend(portion(&mut map, [3; 3], 1024 - taken.len()));
        let removals: Vec<_> = job.iter().map(removal).collect();
        install(&mut model, &removals);
        install(&mut map, &removals);
        fold_all(&mut model);
        fold_all(&mut map);
    }
    assert_eq!((model.map().leaves().len(), map.iter().count()), (1, 0));
    let left = 1024 - taken.len();
    assert_eq!(left, 832);
    taken.extend(portion(&mut map, [1024; 3], left));
    assert_eq!(taken, records);
    map.close_export()?;
    assert_eq!(map.open_export()?, 0);
    assert_eq!(portion(&mut map, [3; 3], 0), []);
    Ok(())
}
