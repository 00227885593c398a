//! The three buffers of a scan, of any lengths: the shortest decides, and every place
//! is compared.

mod common;

use common::lent::Lent;
use plain::engine::Engine;
use plain::generate;
use plain::map::{Payload, Write};
use plain::profiles::{find, PROFILES};
use plain::random::Random;
use plain::step::{run, Answer, Buffers, Step};
use std::collections::BTreeMap;

const LENGTHS: [usize; 10] = [0, 1, 2, 3, 7, 20, 63, 64, 65, 90];

impl Lent {
    fn any(random: &mut Random) -> Self {
        Lent::new([(); 3].map(|()| random.pick(&LENGTHS)))
    }
}

/// What an open worker's scan has to show, by document 01's words.
fn shown(engine: &Engine, worker: u32, lo: u32, hi: u32) -> BTreeMap<u32, Payload> {
    let inside = |address: u32| lo <= address && address <= hi;
    let map = engine.map();
    let indexed = map.index().iter().map(|record| record.address).filter(|&at| inside(at));
    let present = indexed.filter_map(|at| Some((at, map.current(at)?.payload)));
    let mut shown: BTreeMap<u32, Payload> = present.collect();
    let writes = engine.worker(worker as usize).write_set.iter();
    for &(address, write) in writes.filter(|&&(at, _)| inside(at)) {
        match write {
            Write::Put(payload) => shown.insert(address, payload),
            Write::Delete => shown.remove(&address),
        };
    }
    shown
}

/// How often a scan was granted with records, with unequal buffers, and with just
/// enough owners; and how often each buffer alone was too short.
#[derive(Default, Debug)]
struct Reached {
    granted: usize,
    unequal: usize,
    just_enough: usize,
    short: [usize; 3],
}

impl Reached {
    fn count(&mut self, answer: Answer, lent: &Lent, count: usize) {
        let lengths = lent.lengths();
        if let Answer::Found(1..) = answer {
            self.granted += 1;
            self.unequal += usize::from(lengths.iter().any(|&length| length != lengths[0]));
            let alone = lengths[2] == count && lengths[0] > count && lengths[1] > count;
            self.just_enough += usize::from(alone);
        }
        let short: Vec<usize> = (0..3).filter(|&at| lengths[at] < count).collect();
        if let (Answer::Refused(8), [only]) = (answer, short.as_slice()) {
            self.short[*only] += 1;
        }
    }
}

/// The scan with the buffers; the answer and every place are held to the documents.
/// What is refused for another cause leaves all places too.
fn scan(engine: &mut Engine, step: Step, lent: &Lent, reached: &mut Reached) {
    let Step::Scan { worker, lo, hi } = step else { panic!("{step:?} is no scan") };
    let mut after = lent.clone();
    let known = (worker as usize) < plain::engine::WORKERS;
    let shown = if known { shown(engine, worker, lo, hi) } else { BTreeMap::new() };
    let Lent { addresses, values, owners } = &mut after;
    let answer = engine.scan(worker, lo, hi, addresses, values, owners);
    let answer = answer.map_or_else(Answer::from, Answer::Found);
    match answer {
        Answer::Found(count) => {
            assert!(count == shown.len() && count <= lent.places(), "{step:?}: {count}");
            let records = shown.iter().map(|(&at, it)| (at, it.value, it.owner));
            assert_eq!(after, lent.clone().with(records), "{step:?}");
        }
        Answer::Refused(8) => assert!(shown.len() > lent.places(), "{step:?}"),
        _ => {}
    }
    if !answer.granted() {
        assert_eq!(after, *lent, "{step:?}");
    }
    reached.count(answer, lent, shown.len());
}

#[test]
fn buffers_of_any_lengths() {
    let mut reached = Reached::default();
    for profile in PROFILES.iter().filter(|profile| profile.least == 0) {
        let mut random = Random::new(5);
        let mut engine = profile.engine();
        let mut places = Buffers::default();
        for step in generate::script(5, 10_000, profile) {
            if let Step::Scan { .. } = step {
                scan(&mut engine, step, &Lent::any(&mut random), &mut reached);
            } else {
                run(&mut engine, step, &mut places);
            }
        }
    }
    let Reached { granted, unequal, just_enough, short } = reached;
    assert!(granted > 1000 && unequal > 1000 && just_enough > 50, "{reached:?}");
    assert!(short.iter().all(|&times| times > 300), "{reached:?}");
}

/// One scan with all triples of lengths around the count of its records.
#[test]
fn the_shortest_decides() {
    let profile = find("scans", 0).expect("it is a profile");
    let mut engine = profile.engine();
    let mut places = Buffers::default();
    for step in generate::script(2, 5_000, profile) {
        run(&mut engine, step, &mut places);
    }
    for worker in 0..8 {
        // A free one has nothing to abort.
        let _ = engine.abort(worker);
    }
    let records = engine.map().index();
    let (lo, hi) = (records[0].address, records[2].address);
    let mut reached = Reached::default();
    for lengths in (0..125).map(|n| [n / 25, n / 5 % 5, n % 5]) {
        engine.begin(0).expect("it is free");
        let lent = Lent::new(lengths);
        let count = shown(&engine, 0, lo, hi).len();
        let before = engine.worker(0).read_set.len();
        scan(&mut engine, Step::Scan { worker: 0, lo, hi }, &lent, &mut reached);
        let logged = engine.worker(0).read_set.len() - before;
        assert_eq!(logged > 0, count <= lent.places(), "a refused scan logs nothing");
        engine.abort(0).expect("it is open");
    }
    assert!(reached.granted > 0 && reached.short.iter().all(|&times| times > 0), "{reached:?}");
}
