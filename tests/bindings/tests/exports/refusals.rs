//! 19 with an export open, and 20 with none, which goes before 8. Neither changes
//! anything.

use crate::files::{file, read_back};
use crate::portions::portion;
use crate::{fill, install};
use bindings::lent::Lent;
use sections::{Answer, Refusal, Sections, Step};

/// Where none is open. Nothing lent is written to.
fn nothing_to_take(map: &mut Sections) {
    for lengths in [[0; 3], [3; 3], [1024, 0, 64]] {
        let mut lent = Lent::new(lengths);
        let Lent { addresses, values, owners } = &mut lent;
        assert_eq!(map.portion(addresses, values, owners), Err(Refusal::NoExport));
        assert_eq!(lent, Lent::new(lengths));
    }
    for length in [0, 7, 8, 20_000] {
        assert_eq!(file(map, length), Err(Refusal::NoExport));
    }
    assert_eq!(map.close_export(), Err(Refusal::NoExport));
}

fn no_other(map: &mut Sections) {
    assert_eq!(map.open_export(), Err(Refusal::ExportOpen));
}

/// A fresh map of either kind, one with records, an export in each of its states, and a
/// map whose export was closed.
#[test]
fn one_at_a_time() -> Result<(), Refusal> {
    assert_eq!((Refusal::ExportOpen.number(), Refusal::NoExport.number()), (19, 20));
    nothing_to_take(&mut Sections::new());
    nothing_to_take(&mut Sections::guarded());
    let mut map = Sections::new();
    let records = fill(&mut map, 3);
    nothing_to_take(&mut map);
    assert_eq!(map.open_export()?, 3);
    for left in (1..=3).rev() {
        no_other(&mut map);
        assert_eq!(portion(&mut map, [1; 3], left), [records[3 - left]]);
    }
    no_other(&mut map);
    map.close_export()?;
    nothing_to_take(&mut map);
    assert_eq!(map.open_export()?, 3);
    no_other(&mut map);
    map.close_export()?;
    nothing_to_take(&mut map);
    Ok(())
}

/// The open one stays as it was, and only the next one shows what came later.
#[test]
fn a_refused_opening_renews_nothing() -> Result<(), Refusal> {
    let mut map = Sections::new();
    let records = fill(&mut map, 3);
    assert_eq!(map.open_export()?, 3);
    assert_eq!(portion(&mut map, [1; 3], 3), records[..1]);
    install(&mut map, &[(1, Some((1, 1)))]);
    no_other(&mut map);
    assert_eq!(portion(&mut map, [4; 3], 2), records[1..]);
    assert_eq!(read_back(&file(&mut map, 100)?), records);
    map.close_export()?;
    assert_eq!(map.open_export()?, 4);
    Ok(())
}

/// Exports name no seat: all eight may be taken, and nothing of their jobs changes.
#[test]
fn jobs_do_not_notice() -> Result<(), Refusal> {
    let mut map = Sections::new();
    fill(&mut map, 1);
    (0..8).try_for_each(|seat| map.begin(seat))?;
    assert_eq!(map.open_export()?, 1);
    map.put(7, 5, 6, 7)?;
    map.lock(7)?;
    assert_eq!(portion(&mut map, [1; 3], 1).len(), 1);
    assert_eq!(map.validate(7)?.get(), 2);
    map.close_export()?;
    map.install(7)?;
    assert_eq!((0..7).map(|seat| map.begin(seat)).filter(Result::is_err).count(), 7);
    Ok(())
}

/// What a clone's export goes through, the map's does not see.
#[test]
fn a_clone_has_an_export_of_its_own() -> Result<(), Refusal> {
    let mut map = Sections::new();
    let records = fill(&mut map, 3);
    assert_eq!(map.open_export()?, 3);
    assert_eq!(portion(&mut map, [1; 3], 3), records[..1]);
    let mut clone = map.clone();
    assert_eq!(portion(&mut clone, [3; 3], 2), records[1..]);
    clone.close_export()?;
    install(&mut clone, &[(1, Some((1, 1)))]);
    assert_eq!(clone.open_export()?, 4);
    assert_eq!(portion(&mut map, [3; 3], 2), records[1..]);
    assert_eq!(read_back(&file(&mut map, 100)?), records);
    Ok(())
}

/// A list has exports of its own, 8, 19 and 20 too. Its files go one over the other.
#[test]
fn in_a_list() {
    let portion = |places| Step::Portion { addresses: places, values: places, owners: places };
    let steps = [
        portion(1),
        Step::File { bytes: 10 },
        Step::CloseExport,
        Step::OpenExport,
        Step::OpenExport,
        Step::File { bytes: 7 },
        portion(1),
        Step::File { bytes: 10 },
        Step::CloseExport,
        Step::CloseExport,
    ];
    let none = Err(Refusal::NoExport);
    let expected = [
        none.clone(),
        none.clone(),
        none.clone(),
        Ok(Answer::Opened(0)),
        Err(Refusal::ExportOpen),
        Err(Refusal::ShortBuffer),
        Ok(Answer::Given(vec![], 0)),
        Ok(Answer::Filed(8)),
        Ok(Answer::Granted),
        none,
    ];
    for guarded in [false, true] {
        let mut bytes = [85; 10];
        let (mut map, answers) = bindings::replay(&steps, &mut bytes, guarded);
        assert_eq!((&answers[..], bytes), (&expected[..], [0, 0, 0, 0, 10, 0, 0, 0, 85, 85]));
        nothing_to_take(&mut map);
    }
}

#[test]
#[should_panic(expected = "more bytes than are lent")]
fn a_file_of_a_list_without_its_bytes() {
    Sections::replay(&[Step::OpenExport, Step::File { bytes: 9 }], &mut [0; 8]);
}
