//! The runs that document 01 keeps, as far as they show on this model.

mod common;

use common::agrees;
use common::lent::Lent;
use plain::engine::{Engine, Reading, Refusal};
use plain::map::{Map, Payload, Pending, Write};

#[test]
fn full_run() {
    agrees(
        "B 0 -> B 0
         P 0 4096 32 0 -> P 0
         L 0 -> L 0
         V 0 -> V 0 1
         I 0 -> I 0
         B 1 -> B 0
         S 1 4000 5000 -> S 0 0
         L 1 -> L 0
         V 1 -> V 14
         M 4096 -> M 0 1
         B 1 -> B 0
         S 1 4000 5000 -> S 0 1 4096 32 0
         L 1 -> L 0
         V 1 -> V 0 2
         I 1 -> I 0
         (end) -> E 1 4096 32 0",
    );
}

#[test]
fn empty_input() {
    agrees("(end) -> E 0");
}

#[test]
fn merge_with_nothing_pending() {
    agrees("M 0 -> M 0 0\n M 4294967295 -> M 0 0\n (end) -> E 0");
}

#[test]
fn range_of_a_scan() {
    agrees("B 0 -> B 0\n S 0 5 5 -> S 0 0\n S 0 5 4 -> S 5");
}

#[test]
fn last_worker() {
    agrees("B 7 -> B 0\n B 8 -> B 1\n B 7 -> B 3\n A 6 -> A 2\n A 8 -> A 1\n A 7 -> A 0");
}

#[test]
fn crossing_transactions() {
    agrees(
        "B 0 -> B 0
         R 0 1 -> R 0 - 1
         P 0 2 5 0 -> P 0
         B 1 -> B 0
         R 1 2 -> R 0 - 1
         P 1 1 6 0 -> P 0
         L 0 -> L 0
         L 1 -> L 0
         V 0 -> V 13
         V 1 -> V 0 1
         I 0 -> I 2
         I 1 -> I 0
         (end) -> E 1 1 6 0",
    );
}

#[test]
fn commit_number_before_install() {
    agrees(
        "B 0 -> B 0
         R 0 2 -> R 0 - 1
         P 0 1 10 0 -> P 0
         L 0 -> L 0
         V 0 -> V 0 1
         B 1 -> B 0
         P 1 2 20 0 -> P 0
         L 1 -> L 0
         V 1 -> V 0 2
         I 1 -> I 0
         I 0 -> I 0
         (end) -> E 2 1 10 0 2 20 0",
    );
}

#[test]
fn removed_record_under_lock() {
    agrees(
        "B 0 -> B 0
         P 0 7 1 0 -> P 0
         L 0 -> L 0
         V 0 -> V 0 1
         I 0 -> I 0
         M 7 -> M 0 1
         B 0 -> B 0
         D 0 7 -> D 0
         L 0 -> L 0
         V 0 -> V 0 2
         I 0 -> I 0
         B 0 -> B 0
         P 0 7 2 0 -> P 0
         L 0 -> L 0
         M 7 -> M 0 1
         B 1 -> B 0
         S 1 0 10 -> S 0 0
         L 1 -> L 0
         V 1 -> V 14
         (end) -> E 0",
    );
}

#[test]
fn abort_releases_locks() {
    agrees(
        "B 0 -> B 0
         P 0 7 1 0 -> P 0
         L 0 -> L 0
         B 1 -> B 0
         P 1 7 2 0 -> P 0
         L 1 -> L 9
         A 0 -> A 0
         L 1 -> L 0
         V 1 -> V 0 1
         A 1 -> A 0
         B 0 -> B 0
         P 0 7 3 0 -> P 0
         L 0 -> L 0
         V 0 -> V 0 2
         I 0 -> I 0
         (end) -> E 1 7 3 0",
    );
}

#[test]
fn same_value_is_a_change() {
    agrees(
        "B 0 -> B 0
         P 0 7 1 0 -> P 0
         L 0 -> L 0
         V 0 -> V 0 1
         I 0 -> I 0
         B 1 -> B 0
         R 1 7 -> R 0 1 0 1
         B 0 -> B 0
         P 0 7 1 0 -> P 0
         L 0 -> L 0
         V 0 -> V 0 2
         I 0 -> I 0
         L 1 -> L 0
         V 1 -> V 12
         (end) -> E 1 7 1 0",
    );
}

/// Another owner, and nothing else but the stamp.
#[test]
fn other_owner_is_a_change() {
    agrees(
        "B 0 -> B 0
         P 0 7 1 5 -> P 0
         L 0 -> L 0
         V 0 -> V 0 1
         I 0 -> I 0
         B 1 -> B 0
         R 1 7 -> R 0 1 5 1
         B 0 -> B 0
         P 0 7 1 6 -> P 0
         L 0 -> L 0
         V 0 -> V 0 2
         I 0 -> I 0
         L 1 -> L 0
         V 1 -> V 12
         (end) -> E 1 7 1 6",
    );
}

/// By script or not, what the engine keeps of a put: in the write set, in the
/// indexlet, in the index and in the log.
#[test]
fn owners_are_kept() {
    let mut engine = Engine::default();
    let put = Payload { value: 1, owner: 65_535 };
    engine.begin(0).unwrap();
    engine.put(0, 7, put).unwrap();
    assert_eq!(engine.worker(0).write_set, [(7, Write::Put(put))]);
    engine.lock(0).unwrap();
    engine.validate(0).unwrap();
    engine.install(0).unwrap();
    assert_eq!(engine.map().pending(7).unwrap().write, Write::Put(put));
    engine.begin(1).unwrap();
    engine.read(1, 7).unwrap();
    engine.merge(7);
    assert_eq!(engine.map().index()[0].stored.payload, put);
    assert_eq!(engine.scan(1, 7, 7, &mut [0], &mut [0], &mut [0]), Ok(1));
    let logged: Vec<Payload> =
        engine.worker(1).read_set.iter().map(|(_, seen)| seen.unwrap().payload).collect();
    assert_eq!(logged, [put, put]);
}

fn payload(value: u64) -> Payload {
    Payload { value, owner: 0 }
}

/// The sizes of the leaves after one merge of so many insertions.
fn cuts(count: u32) -> Vec<usize> {
    let mut map = Map::default();
    for address in 1..=count {
        map.install(10 * address, Pending { write: Write::Put(payload(1)), commit: 1, since: 1 });
    }
    assert_eq!(map.merge(5), count as usize);
    assert_eq!(map.leaves()[0].low, 0);
    let versions: Vec<u64> = map.leaves().iter().map(|leaf| leaf.version).collect();
    assert!(versions.iter().copied().eq(1..=versions.len() as u64));
    let size = |at: usize| map.indexed_between(map.leaves()[at].low, map.high(at)).len();
    (0..map.leaves().len()).map(size).collect()
}

#[test]
fn leaf_cuts() {
    assert_eq!(cuts(1), [1]);
    assert_eq!(cuts(16), [16]);
    assert_eq!(cuts(17), [8, 9]);
    assert_eq!(cuts(23), [8, 15]);
    assert_eq!(cuts(24), [8, 8, 8]);
    assert_eq!(cuts(31), [8, 8, 15]);
    assert_eq!(cuts(32), [8, 8, 8, 8]);
}

#[test]
fn emptied_leaf_joins_its_left_neighbour() {
    let mut map = Map::default();
    let write = |map: &mut Map, address, write| {
        map.install(address, Pending { write, commit: 1, since: 1 })
    };
    (1..=24).for_each(|address| write(&mut map, 10 * address, Write::Put(payload(1))));
    map.merge(0);
    let lows = |map: &Map| map.leaves().iter().map(|leaf| leaf.low).collect::<Vec<_>>();
    assert_eq!(lows(&map), [0, 90, 170]);
    (9..=16).for_each(|address| write(&mut map, 10 * address, Write::Delete));
    assert_eq!(map.merge(169), 8);
    assert_eq!(lows(&map), [0, 170]);
    assert_eq!(map.leaves().iter().map(|leaf| leaf.version).collect::<Vec<_>>(), [4, 3]);
    (1..=8).for_each(|address| write(&mut map, 10 * address, Write::Delete));
    assert_eq!(map.merge(0), 8);
    assert_eq!(lows(&map), [0, 170]);
    assert_eq!(map.leaves()[0].version, 5);
    (17..=24).for_each(|address| write(&mut map, 10 * address, Write::Delete));
    assert_eq!(map.merge(u32::MAX), 8);
    assert_eq!(lows(&map), [0]);
    assert_eq!(map.leaves()[0].version, 6);
}

fn commit(engine: &mut Engine, worker: u32, addresses: impl Iterator<Item = u32>) {
    engine.begin(worker).unwrap();
    addresses.for_each(|address| engine.put(worker, address, payload(1)).unwrap());
    engine.lock(worker).unwrap();
    engine.validate(worker).unwrap();
    engine.install(worker).unwrap();
}

#[test]
fn full_indexlet() {
    let mut engine = Engine::default();
    (0..12).for_each(|part| commit(&mut engine, part % 8, 16 * part..16 * part + 16));
    engine.begin(0).unwrap();
    engine.put(0, 192, payload(1)).unwrap();
    assert_eq!(engine.lock(0), Err(Refusal::IndexletFull));
    engine.begin(1).unwrap();
    engine.put(1, 191, payload(1)).unwrap();
    assert_eq!(engine.lock(1), Ok(()));
    assert_eq!(engine.merge(0), 192);
    assert_eq!(engine.lock(0), Ok(()));
}

#[test]
fn full_map() {
    let mut engine = Engine::default();
    for part in 0..64 {
        commit(&mut engine, 0, 16 * part..16 * part + 16);
        engine.merge(16 * part);
    }
    engine.begin(0).unwrap();
    engine.put(0, 1023, payload(2)).unwrap();
    assert_eq!(engine.lock(0), Ok(()));
    engine.begin(1).unwrap();
    engine.put(1, 1024, payload(2)).unwrap();
    assert_eq!(engine.lock(1), Err(Refusal::MapFull));
    engine.put(1, 1023, payload(2)).unwrap();
    assert_eq!(engine.lock(1), Err(Refusal::Held));
}

#[test]
fn full_write_set() {
    let mut engine = Engine::default();
    engine.begin(0).unwrap();
    (0..16).for_each(|address| engine.put(0, address, payload(1)).unwrap());
    assert_eq!(engine.put(0, 16, payload(1)), Err(Refusal::WriteSetFull));
    assert_eq!(engine.remove(0, 16), Err(Refusal::WriteSetFull));
    assert_eq!(engine.put(0, 15, payload(2)), Ok(()));
    assert_eq!(engine.remove(0, 15), Ok(()));
}

#[test]
fn full_read_set() {
    let mut engine = Engine::default();
    engine.begin(0).unwrap();
    engine.put(0, 100, payload(5)).unwrap();
    let absent = Reading { payload: None, examined: Some(1) };
    (0..64).for_each(|_| assert_eq!(engine.read(0, 1), Ok(absent)));
    assert_eq!(engine.read(0, 1), Err(Refusal::ReadSetFull));
    assert_eq!(engine.read(0, 100), Ok(Reading { payload: Some(payload(5)), examined: Some(0) }));
    let mut scan = || engine.scan(0, 0, 50, &mut [], &mut [], &mut []);
    (0..32).for_each(|_| assert_eq!(scan(), Ok(0)));
    assert_eq!(scan(), Err(Refusal::ReadSetFull));
}

#[test]
fn short_buffers() {
    let mut engine = Engine::default();
    commit(&mut engine, 0, 3..4);
    engine.merge(3);
    engine.begin(0).unwrap();
    for lengths in [[0, 0, 0], [5, 0, 0], [0, 5, 0], [0, 0, 5], [0, 5, 5], [5, 0, 5], [5, 5, 0]] {
        let mut lent = Lent::new(lengths);
        assert_eq!(lent.scan(&mut engine), Err(Refusal::ShortBuffer));
        assert_eq!(lent, Lent::new(lengths));
    }
    let mut lent = Lent::new([1, 4, 2]);
    assert_eq!(lent.scan(&mut engine), Ok(1));
    let expected = Lent { addresses: vec![3], values: vec![1, 8, 8, 8], owners: vec![0, 9] };
    assert_eq!(lent, expected);
    engine.put(0, 4, Payload { value: 6, owner: 5 }).unwrap();
    for lengths in [[3, 1, 3], [1, 3, 3], [3, 3, 1]] {
        let mut lent = Lent::new(lengths);
        assert_eq!(lent.scan(&mut engine), Err(Refusal::ShortBuffer));
        assert_eq!(lent, Lent::new(lengths));
    }
    let mut lent = Lent::new([3, 2, 4]);
    assert_eq!(lent.scan(&mut engine), Ok(2));
    let expected = Lent { addresses: vec![3, 4, 7], values: vec![1, 6], owners: vec![0, 5, 9, 9] };
    assert_eq!(lent, expected);
}

impl Lent {
    fn scan(&mut self, engine: &mut Engine) -> Result<usize, Refusal> {
        engine.scan(0, 0, 9, &mut self.addresses, &mut self.values, &mut self.owners)
    }
}
