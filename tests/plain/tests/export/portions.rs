//! Portions: however an export is cut, together they are what was present when it
//! was opened.

use crate::common::lent::Lent;
use crate::{check, edit, filled, install, put};
use plain::engine::{Engine, Refusal};
use plain::export::Portion;
use plain::map::{Write, MAP_LIMIT};
use plain::random::Random;
use plain::step::Shown;

const LENGTHS: [usize; 5] = [0, 1, 3, 64, 1024];

/// Three equal ones, or any.
pub fn any_lengths(random: &mut Random) -> [usize; 3] {
    if random.one_in(2) {
        [random.pick(&LENGTHS); 3]
    } else {
        [(); 3].map(|()| random.pick(&LENGTHS))
    }
}

impl Lent {
    pub fn portion(&mut self, engine: &mut Engine) -> Result<Portion, Refusal> {
        engine.portion(&mut self.addresses, &mut self.values, &mut self.owners)
    }

    fn first(&self, count: usize) -> Vec<Shown> {
        (0..count).map(|at| (self.addresses[at], self.values[at], self.owners[at])).collect()
    }
}

/// Takes a portion of an export of which so many records are left. Gives its records;
/// its answer must fit the buffers, and every place past its count must stay.
pub fn portion(engine: &mut Engine, lengths: [usize; 3], left: usize) -> Vec<Shown> {
    let before = Lent::new(lengths);
    let count = before.places().min(left);
    let mut lent = before.clone();
    assert_eq!(lent.portion(engine), Ok(Portion { count, remaining: left - count }));
    let records = lent.first(count);
    assert_eq!(lent, before.with(records.iter().copied()));
    records
}

/// All portions of a new export, which is closed when nothing remains.
fn whole(engine: &mut Engine, mut lengths: impl FnMut() -> [usize; 3]) -> Vec<Shown> {
    let count = engine.open_export().expect("none is open");
    let mut taken = Vec::new();
    while taken.len() < count {
        taken.extend(portion(engine, lengths(), count - taken.len()));
    }
    assert_eq!(portion(engine, [64; 3], 0), []);
    engine.close_export().expect("it is open");
    taken
}

#[test]
fn a_full_map_cut_in_many_ways() {
    let (mut engine, contents) = filled(MAP_LIMIT as u32);
    assert_eq!(contents.len(), MAP_LIMIT);
    assert!(engine.map().index().len() < MAP_LIMIT, "some wait");
    let equal = [1, 3, 64, 1000, 1023, 1024, 1025].map(|length| [length; 3]);
    let unequal = [[1024, 3, 64], [1, 1024, 3], [64, 1024, 3], [1023, 1024, 1025]];
    for lengths in equal.into_iter().chain(unequal) {
        assert_eq!(whole(&mut engine, || lengths), contents, "{lengths:?}");
    }
    let mut random = Random::new(107);
    for _ in 0..100 {
        assert_eq!(whole(&mut engine, || any_lengths(&mut random)), contents);
    }
}

/// All triples of lengths around the count, and then all that is left.
#[test]
fn the_shortest_decides() {
    let (mut engine, contents) = filled(5);
    for lengths in (0..343).map(|n| [n / 49, n / 7 % 7, n % 7]) {
        assert_eq!(engine.open_export(), Ok(5));
        let mut taken = portion(&mut engine, lengths, 5);
        let left = 5 - taken.len();
        taken.extend(portion(&mut engine, [5; 3], left));
        assert_eq!(taken, contents, "{lengths:?}");
        engine.close_export().expect("it is open");
    }
}

/// One that never held anything, and one whose records are removed: they wait to be
/// dropped, and then are.
#[test]
fn empty_maps() {
    let (mut engine, contents) = filled(12);
    engine.merge_oldest();
    let removals: Vec<(u32, Write)> =
        contents.iter().map(|&(address, ..)| (address, Write::Delete)).collect();
    install(&mut engine, &removals);
    let waiting = engine.clone();
    engine.merge_oldest();
    for mut engine in [Engine::default(), waiting, engine] {
        assert_eq!(engine.open_export(), Ok(0));
        for lengths in [[0; 3], [3; 3], [1024, 0, 64]] {
            assert_eq!(portion(&mut engine, lengths, 0), []);
        }
        engine.close_export().expect("it is open");
    }
}

/// The index has 3, 5 and 7. The removal of 3 and puts at 4 and 7 wait; a put at 5 has
/// its number, but is not installed; a put at 6 has no lock.
fn day() -> Engine {
    let mut engine = Engine::default();
    install(&mut engine, &[(3, put(30, 1)), (5, put(50, 2)), (7, put(70, 3))]);
    assert_eq!(engine.merge(0), 3);
    install(&mut engine, &[(3, Write::Delete), (4, put(40, 4)), (7, put(u64::MAX, u16::MAX))]);
    check(&mut engine, 1, &[(5, put(50, 6))]);
    edit(&mut engine, 2, &[(6, put(60, 0))]);
    engine
}

/// An export has the present contents of its opening, whatever is installed, folded
/// and aborted later; another one has that too.
#[test]
fn as_it_was_at_opening() {
    let mut engine = day();
    assert_eq!(engine.open_export(), Ok(3));
    assert_eq!(portion(&mut engine, [1; 3], 3), [(4, 40, 4)]);
    engine.install(1).expect("it is checked");
    assert_eq!(engine.merge(0), 4);
    install(&mut engine, &[(4, Write::Delete), (8, put(80, 8))]);
    engine.abort(2).expect("it is open");
    assert_eq!(portion(&mut engine, [3; 3], 2), [(5, 50, 2), (7, u64::MAX, u16::MAX)]);
    engine.close_export().expect("it is open");
    assert_eq!(engine.open_export(), Ok(3));
    assert_eq!(engine.merge_oldest(), 2);
    let later = [(5, 50, 6), (7, u64::MAX, u16::MAX), (8, 80, 8)];
    assert_eq!(portion(&mut engine, [3; 3], 3), later);
}

/// However much was taken of the one before.
#[test]
fn each_starts_at_the_first_record() {
    let (mut engine, contents) = filled(20);
    for taken in 0..=20 {
        assert_eq!(engine.open_export(), Ok(20));
        portion(&mut engine, [taken; 3], 20);
        engine.close_export().expect("it is open");
        assert_eq!(whole(&mut engine, || [7; 3]), contents);
    }
}
