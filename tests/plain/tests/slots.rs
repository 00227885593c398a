//! Slots of the indexlet: where their home is, how far look-ups go, and that a model
//! without them answers the same.

mod common;

use common::answers;
use plain::engine::{Engine, Stage, WORKERS, WRITE_LIMIT};
use plain::generate;
use plain::map::{Map, Payload, INDEXLET_LIMIT};
use plain::profiles::PROFILES;
use plain::random::Random;
use plain::script::answer_without_slots;
use plain::slots::{home, sharing, Slots, SLOTS, TABLE};

#[test]
fn homes_of_document_01() {
    assert_eq!([0, 1, 4096].map(home), [144, 233, 160]);
}

#[test]
fn the_table_is_a_permutation() {
    let mut entries = TABLE;
    entries.sort_unstable();
    assert!(entries.into_iter().eq(0..=255));
}

/// Whatever the order, no count is left behind.
#[test]
fn released_as_taken() {
    let mut random = Random::new(1);
    let mut slots = Slots::default();
    let mut addresses: Vec<u32> =
        (0..INDEXLET_LIMIT).map(|n| sharing(random.below(3), n as u32)).collect();
    addresses.iter().for_each(|&address| slots.take(address));
    let worst = addresses.iter().map(|&address| slots.examined(address)).max();
    assert!(worst > Some(INDEXLET_LIMIT / 2));
    random.shuffle(&mut addresses);
    addresses.iter().for_each(|&address| slots.release(address));
    assert!((0..SLOTS).all(|slot| slots.examined(sharing(slot, 0)) == 1));
}

/// The worst look-up of any address: with no entry it hangs on the home slot alone.
fn worst(map: &Map) -> usize {
    let slots = map.slots().expect("they are kept");
    let absent = |slot| {
        let mut some = (0..).map(|n| sharing(slot, 1_000_000 + n));
        some.find(|address| !map.indexlet().contains_key(address)).expect("few have an entry")
    };
    let addresses = map.indexlet().keys().copied().chain((0..SLOTS).map(absent));
    addresses.map(|address| slots.examined(address)).max().expect("there is an address")
}

/// The next step of a worker whose job reads nothing, so that no validation ends it.
/// Whether it locked.
fn advance(engine: &mut Engine, worker: u32, random: &mut Random, homes: &[usize]) -> bool {
    let state = engine.worker(worker as usize);
    match state.stage {
        Stage::Free => engine.begin(worker).expect("it is free"),
        Stage::Open if state.write_set.len() < WRITE_LIMIT && !random.one_in(3) => {
            let address = sharing(random.pick(homes), random.address(0, 300));
            if random.one_in(3) {
                engine.remove(worker, address).expect("there is room");
            } else {
                let put = Payload { value: 1, owner: random.owner() };
                engine.put(worker, address, put).expect("there is room");
            }
        }
        Stage::Open => return engine.lock(worker).is_ok(),
        Stage::Locked => drop(engine.validate(worker).expect("nothing was read")),
        Stage::Checked => engine.install(worker).expect("it is checked"),
    }
    false
}

/// Without folds, and where no job is ended but by an install, no look-up examines
/// more slots than there are entries, and some as many as 192.
#[test]
fn no_worse_than_192() {
    let mut most = 0;
    for seed in 0..40 {
        let mut random = Random::new(seed);
        let mut homes: Vec<usize> = (0..SLOTS).collect();
        random.shuffle(&mut homes);
        homes.truncate([1, 1, 2, 8, 256][seed as usize % 5]);
        let mut engine = Engine::default();
        for _ in 0..2_000 {
            let worker = random.below(WORKERS) as u32;
            if advance(&mut engine, worker, &mut random, &homes) {
                let (worst, entries) = (worst(engine.map()), engine.map().indexlet().len());
                assert!(worst <= entries.max(1), "seed {seed}: {worst} with {entries} entries");
                most = most.max(worst);
            }
        }
    }
    assert_eq!(most, INDEXLET_LIMIT);
}

/// The last field of each granted read taken off.
fn shortened(answers: &str) -> String {
    let shorter = |line: &str| match line.strip_prefix("R 0 ") {
        Some(told) => format!("R 0 {}\n", told.rsplit_once(' ').expect("two fields or more").0),
        None => format!("{line}\n"),
    };
    answers.lines().map(shorter).collect()
}

#[test]
fn the_same_without_slots() {
    let mut reads = 0;
    for profile in PROFILES.iter().filter(|profile| profile.least == 0) {
        let script = generate::text(11, 5_000, profile);
        let mut given = Vec::new();
        answer_without_slots(&script, &mut given).expect("a vector takes all");
        let all = answers(&script);
        assert_eq!(String::from_utf8_lossy(&given), shortened(&all), "{}", profile.name);
        reads += all.matches("\nR 0 ").count();
    }
    assert!(reads > 2_000, "{reads}");
}
