//! Document 01's runs that are not starred, and the edges of the map and of a
//! guarded one.

use sections::{Answer, Record, Refusal, Section, Sections, Step, LONGEST};

/// Another owner for each address, from the highest one down.
fn owner(address: u32) -> u16 {
    !(address as u16)
}

/// A whole job of puts.
fn enter(map: &mut Sections, seat: u32, addresses: impl Iterator<Item = u32>) -> u64 {
    let job = || {
        map.begin(seat)?;
        addresses.into_iter().try_for_each(|at| map.put(seat, at, u64::from(at) + 7, owner(at)))?;
        map.lock(seat)?;
        let serial = map.validate(seat)?;
        map.install(seat)?;
        Ok::<u64, Refusal>(serial.get())
    };
    job().expect("it is granted")
}

#[test]
fn waiting_addresses() -> Result<(), Refusal> {
    let mut map = Sections::new();
    for job in 0..12 {
        assert_eq!(enter(&mut map, job % 8, 16 * job..16 * job + 16), u64::from(job) + 1);
    }
    map.begin(0)?;
    map.put(0, 192, 1, 0)?;
    assert_eq!(map.lock(0), Err(Refusal::IndexletFull));
    map.begin(1)?;
    map.put(1, 191, 1, 0)?;
    map.lock(1)?;
    assert_eq!(map.fold(0), Ok(192));
    map.lock(0)
}

/// Two leaves, in which edits wait. The job with the lower serial number is
/// installed later, so that its edit is the younger one.
#[test]
fn folds_of_the_oldest() -> Result<(), Refusal> {
    let mut map = Sections::new();
    assert_eq!(map.fold_oldest(), Ok(0));
    enter(&mut map, 0, 0..16);
    enter(&mut map, 0, 16..17);
    assert_eq!(map.fold_oldest(), Ok(17));
    for (seat, addresses) in [(1, 2..3), (2, 14..16)] {
        map.begin(seat)?;
        addresses.into_iter().try_for_each(|address| map.put(seat, address, 1, 0))?;
        map.lock(seat)?;
        assert_eq!(map.validate(seat)?.get(), u64::from(seat) + 2);
    }
    map.install(2)?;
    map.install(1)?;
    enter(&mut map, 2, 14..15);
    assert_eq!([map.fold_oldest(), map.fold_oldest(), map.fold_oldest()], [Ok(2), Ok(1), Ok(0)]);
    Ok(())
}

#[test]
fn edited_addresses() -> Result<(), Refusal> {
    let mut map = Sections::new();
    map.begin(7)?;
    (0..16).try_for_each(|address| map.put(7, address, 1, 0))?;
    assert_eq!(map.put(7, 16, 1, 0), Err(Refusal::EditsFull));
    assert_eq!(map.remove(7, 16), Err(Refusal::EditsFull));
    map.put(7, 15, 1, 2)?;
    map.remove(7, 15)
}

/// One record, and buffers of 0, 1 and more places, equal or not.
#[test]
fn short_buffers() -> Result<(), Refusal> {
    let mut map = Sections::new();
    enter(&mut map, 0, 3..4);
    map.fold(3)?;
    map.begin(0)?;
    let mut places = |m: usize, n: usize, o: usize| {
        let (mut addresses, mut values, mut owners) = (vec![70; m], vec![80; n], vec![90; o]);
        let answer = map.scan(0, 0, 9, &mut addresses, &mut values, &mut owners);
        (answer, addresses, values, owners)
    };
    let short = Err(Refusal::ShortBuffer);
    assert_eq!(places(0, 0, 0), (short, vec![], vec![], vec![]));
    assert_eq!(places(0, 2, 1), (short, vec![], vec![80, 80], vec![90]));
    assert_eq!(places(2, 0, 1), (short, vec![70, 70], vec![], vec![90]));
    assert_eq!(places(1, 2, 0), (short, vec![70], vec![80, 80], vec![]));
    let mine = owner(3);
    assert_eq!(places(1, 1, 1), (Ok(1), vec![3], vec![10], vec![mine]));
    assert_eq!(places(1, 3, 2), (Ok(1), vec![3], vec![10, 80, 80], vec![mine, 90]));
    assert_eq!(places(3, 1, 2), (Ok(1), vec![3, 70, 70], vec![10], vec![mine, 90]));
    assert_eq!(places(3, 2, 1), (Ok(1), vec![3, 70, 70], vec![10, 80], vec![mine]));
    Ok(())
}

/// The owner of a job's own edit, of what waits and of what is folded; and that a put
/// with another owner and the same value is a change to a job that has read it.
#[test]
fn owners() -> Result<(), Refusal> {
    let mut map = Sections::new();
    map.begin(0)?;
    map.put(0, 4, 11, 1)?;
    map.put(0, 4, 11, owner(4))?;
    let section = Section { address: 4, value: 11, owner: owner(4) };
    assert_eq!(map.read(0, 4)?.found, Some(section));
    map.abort(0)?;
    enter(&mut map, 0, 4..5);
    map.begin(1)?;
    assert_eq!(map.read(1, 4)?.found, Some(section));
    map.fold(4)?;
    assert_eq!((map.read(1, 4)?.found, map.scan_all(1, 0, 9)?), (Some(section), vec![section]));
    map.begin(0)?;
    map.put(0, 4, 11, 1)?;
    map.lock(0)?;
    map.validate(0)?;
    map.install(0)?;
    map.lock(1)?;
    assert_eq!(map.validate(1), Err(Refusal::Changed));
    assert_eq!(map.iter().map(|record| record.owner).collect::<Vec<_>>(), [1]);
    Ok(())
}

/// 64 records that are logged, and 16 of the job's own beside them: no scan shows
/// more, and `scan_all` has places for these.
#[test]
fn the_longest_scan() -> Result<(), Refusal> {
    let mut map = Sections::new();
    for job in 0..4 {
        enter(&mut map, 0, 32 * job..32 * job + 16);
    }
    map.fold(0)?;
    map.begin(0)?;
    (16..32).try_for_each(|address| map.put(0, address, 1, owner(address)))?;
    let found = map.scan_all(0, 0, 200)?;
    assert_eq!(found.len(), sections::SCAN_LIMIT);
    assert!(found.iter().all(|section| section.owner == owner(section.address)));
    assert_eq!(map.scan_all(0, 0, 200), Err(Refusal::LogFull));
    Ok(())
}

#[test]
fn contents_one_by_one() -> Result<(), Refusal> {
    let mut map = Sections::new();
    assert_eq!(map.iter().next(), None);
    enter(&mut map, 2, [0, 9, u32::MAX].into_iter());
    map.fold(0)?;
    enter(&mut map, 2, 4..5);
    let all: Vec<Record> = map.iter().collect();
    let plain = |it: &Record| (it.address, it.value, it.owner, it.stamp.get());
    let last = (u32::MAX, u64::from(u32::MAX) + 7, 0, 1);
    let expected = [(0, 7, 65_535, 1), (4, 11, 65_531, 2), (9, 16, 65_526, 1), last];
    assert_eq!(all.iter().map(plain).collect::<Vec<_>>(), expected);
    assert_eq!(map.iter_from(5).collect::<Vec<_>>(), all[2..]);
    assert_eq!(map.iter_from(10).collect::<Vec<_>>(), all[3..]);
    Ok(())
}

/// What a clone goes through, the map does not see.
#[test]
fn clones_go_on_by_themselves() {
    let mut map = Sections::new();
    enter(&mut map, 0, 1..3);
    let mut clone = map.clone();
    enter(&mut clone, 0, 5..6);
    assert_eq!((map.iter().count(), clone.iter().count()), (2, 3));
    assert_eq!((enter(&mut map, 0, 7..8), enter(&mut clone, 0, 7..8)), (2, 3));
}

#[test]
fn an_empty_list() {
    let (map, answers) = Sections::replay(&[], &mut []);
    assert_eq!((map.iter().count(), answers.len()), (0, 0));
    let steps = [Step::Abort { seat: 3 }, Step::Fold { address: 0 }, Step::FoldOldest];
    let (_, answers) = Sections::replay(&steps, &mut []);
    let none = Ok(Answer::Folded(0));
    assert_eq!(answers, [Err(Refusal::SeatFree), none.clone(), none]);
}

/// A map may go to another thread, and be looked at by several.
#[test]
fn maps_between_threads() {
    let mut map = Sections::new();
    enter(&mut map, 0, 1..3);
    let count = std::thread::scope(|scope| {
        let looks = [0, 2].map(|from| {
            scope.spawn({
                let map = &map;
                move || map.iter_from(from).count()
            })
        });
        looks.map(|look| look.join().expect("it looks"))
    });
    assert_eq!(count, [2, 1]);
    assert_eq!(std::thread::spawn(move || map.iter().count()).join().expect("it looks"), 2);
}

/// What a lock answers in an empty guarded map, if its job has seen all of it and
/// puts these sections.
fn locked(sections: &[(u32, u64)]) -> Result<(), Refusal> {
    let mut map = Sections::guarded();
    map.begin(0)?;
    map.scan_all(0, 0, u32::MAX)?;
    sections.iter().try_for_each(|&(address, length)| map.put(0, address, length, 0))?;
    map.lock(0)
}

#[test]
fn shortest_and_longest_sections() {
    let lock = |length| locked(&[(100_000, length)]);
    assert_eq!([1, LONGEST].map(lock), [Ok(()); 2]);
    assert_eq!([0, LONGEST + 1, 1 << 32, u64::MAX].map(lock), [Err(Refusal::Unfit); 4]);
}

/// A section may end with the highest address, and not past it.
#[test]
fn sections_at_the_highest_address() {
    let first = (1 << 32) - LONGEST;
    let lock = |(address, length): (u64, u64)| locked(&[(address as u32, length)]);
    assert_eq!([(first, LONGEST), (u32::MAX.into(), 1)].map(lock), [Ok(()); 2]);
    let past = [(first + 1, LONGEST), (u32::MAX.into(), 2)];
    assert_eq!(past.map(lock), [Err(Refusal::Unfit); 2]);
}

#[test]
fn sections_side_by_side() {
    assert_eq!(locked(&[(0, 10), (10, LONGEST), (65_546, 1)]), Ok(()));
    assert_eq!(locked(&[(0, 11), (10, LONGEST)]), Err(Refusal::Overlap));
    assert_eq!(locked(&[(10, LONGEST), (65_545, 1)]), Err(Refusal::Overlap));
}

/// What a scan must cover for a section: all from where another one could reach into
/// it, up to its last byte.
fn reach(address: u32, length: u64) -> (u32, u32) {
    (address.saturating_sub(LONGEST as u32 - 1), address + (length - 1) as u32)
}

/// A byte is missing at one end or at the other, and then none.
#[test]
fn scans_that_cover() -> Result<(), Refusal> {
    let mut map = Sections::guarded();
    map.begin(0)?;
    map.put(0, 200_000, 1000, 0)?;
    assert_eq!(map.lock(0), Err(Refusal::Uncovered));
    let (lo, hi) = reach(200_000, 1000);
    for (lo, hi) in [(lo + 1, hi), (lo, hi - 1)] {
        map.scan_all(0, lo, hi)?;
        assert_eq!(map.lock(0), Err(Refusal::Uncovered));
    }
    map.scan_all(0, lo, hi)?;
    map.lock(0)
}

/// A whole job of a guarded map, of sections of so many bytes side by side.
fn lay(map: &mut Sections, first: u32, count: u32, length: u64) -> Result<(), Refusal> {
    map.begin(7)?;
    let (lo, hi) = reach(first, length * u64::from(count));
    map.scan_all(7, lo, hi)?;
    (0..count).try_for_each(|place| map.put(7, first + place * length as u32, length, 0))?;
    map.lock(7)?;
    map.validate(7)?;
    map.install(7)
}

/// What a job removes is not in its way. Its lock is refused before, and leaves it
/// open.
#[test]
fn over_an_own_removal() -> Result<(), Refusal> {
    let mut map = Sections::guarded();
    lay(&mut map, 1000, 2, 100)?;
    map.fold(0)?;
    map.begin(0)?;
    let section = |address| Section { address, value: 100, owner: 0 };
    assert_eq!(map.scan_all(0, 0, 2000)?, [1000, 1100].map(section));
    map.put(0, 1050, 50, 1)?;
    assert_eq!(map.lock(0), Err(Refusal::Overlap));
    map.remove(0, 1000)?;
    map.lock(0)?;
    map.validate(0)?;
    map.install(0)?;
    let contents: Vec<_> = map.iter().map(|it| (it.address, it.value, it.owner)).collect();
    assert_eq!(contents, [(1050, 50, 1), (1100, 100, 0)]);
    Ok(())
}

/// 1,024 sections, of which 192 are put anew and wait, one of them locked by seat 0:
/// the causes of seat 1's lock hold together, and are taken away one by one.
#[test]
fn order_of_a_lock() -> Result<(), Refusal> {
    let mut map = Sections::guarded();
    assert_eq!([map.lock(8), map.lock(1)], [Err(Refusal::NoSeat), Err(Refusal::SeatFree)]);
    let first = |job: u32| 16 * job * LONGEST as u32;
    for job in 0..64 {
        lay(&mut map, first(job), 16, LONGEST)?;
        map.fold_oldest()?;
    }
    (0..12).try_for_each(|job| lay(&mut map, first(job), 16, LONGEST))?;
    map.begin(0)?;
    map.scan_all(0, 0, 0)?;
    map.put(0, 0, 1, 0)?;
    map.lock(0)?;
    assert_eq!(map.lock(0), Err(Refusal::WrongStage));

    let new = first(64);
    map.begin(1)?;
    [(0, 0), (1, 1), (new, 1)].into_iter().try_for_each(|(at, n)| map.put(1, at, n, 0))?;
    assert_eq!(map.lock(1), Err(Refusal::Unfit));
    map.put(1, 0, 2, 0)?;
    map.scan_all(1, 0, 1)?;
    assert_eq!(map.lock(1), Err(Refusal::Uncovered));
    let (lo, hi) = reach(new, 1);
    map.scan_all(1, lo, hi)?;
    assert_eq!(map.lock(1), Err(Refusal::Overlap));
    map.put(1, 0, 1, 0)?;
    assert_eq!(map.lock(1), Err(Refusal::Held));
    map.abort(0)?;
    assert_eq!(map.lock(1), Err(Refusal::IndexletFull));
    map.fold_oldest()?;
    assert_eq!(map.lock(1), Err(Refusal::MapFull));
    Ok(())
}
