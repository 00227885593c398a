//! The map and the indexlet, filled to the last place.

use super::{look, try_lock};
use crate::engine::{WORKERS, WRITE_LIMIT};
use crate::generate::Generator;
use crate::map::{Write, INDEXLET_LIMIT, MAP_LIMIT};

/// The map to its last address, with locks just at the limit and beyond.
pub fn fill(generator: &mut Generator) {
    let room = generator.random.between(1, 12);
    generator.grow(MAP_LIMIT - room);
    generator.merge_all();
    step_over(generator, room);
    for _ in 0..generator.random.between(2, 6) {
        full_map(generator);
        look(generator);
    }
    both_full(generator);
    let least = generator.random.pick(&[0, 900, 1000]);
    let keep = generator.random.between(least, 1010);
    generator.shrink(keep);
}

/// With room for this many, one more is refused and this many are granted.
fn step_over(generator: &mut Generator, room: usize) {
    let [worker, other] = generator.idle_workers();
    let new = generator.fresh(room + 1);
    try_lock(generator, worker, &new);
    generator.begin(worker);
    new[..room].iter().for_each(|&address| generator.put(worker, address));
    generator.lock(worker);
    try_lock(generator, other, &new[room..]);
    if generator.validate(worker).granted() {
        generator.install(worker);
    }
}

/// Old addresses are granted, new ones are not, and a held one goes first.
fn full_map(generator: &mut Generator) {
    let [worker, holder] = generator.idle_workers();
    let (old, new, taken) =
        (generator.indexed_one(), generator.fresh_one(), generator.indexed_one());
    match generator.random.below(4) {
        0 => try_lock(generator, worker, &[old]),
        1 => try_lock(generator, worker, &[old, new]),
        2 => {
            generator.begin(holder);
            generator.put(holder, taken);
            generator.lock(holder);
            try_lock(generator, worker, &[new, taken]);
            generator.idle(holder);
        }
        _ => {
            generator.commit(worker, &[(old, Write::Delete)]);
            try_lock(generator, worker, &[new]);
            generator.merge(old);
            try_lock(generator, worker, &[new]);
        }
    }
}

/// Old addresses wait until the indexlet is full as well.
fn both_full(generator: &mut Generator) {
    let mut old: Vec<u32> = generator.map().index().iter().map(|record| record.address).collect();
    generator.random.shuffle(&mut old);
    generator.merge_all();
    let writes = generator.puts(&old[..INDEXLET_LIMIT]);
    generator.spread(&writes);
    for _ in 0..generator.random.between(2, 6) {
        full_indexlet(generator);
    }
    let [worker] = generator.idle_workers();
    try_lock(generator, worker, &old[INDEXLET_LIMIT..][..1]);
}

/// The indexlet to its last entry, with locks just at the limit and beyond.
pub fn waiting(generator: &mut Generator) {
    if generator.total() > 700 {
        generator.shrink(50);
    }
    generator.idle_all();
    let room = generator.random.between(1, 12);
    for _ in 0..32 {
        let missing = (INDEXLET_LIMIT - room).saturating_sub(generator.map().indexlet().len());
        if missing == 0 {
            break;
        }
        let writes = some_writes(generator, missing.min(WRITE_LIMIT));
        let worker = generator.random.below(WORKERS) as u32;
        generator.commit(worker, &writes);
    }
    let room = INDEXLET_LIMIT - generator.map().indexlet().len();
    step_over(generator, room);
    for _ in 0..generator.random.between(2, 6) {
        full_indexlet(generator);
        look(generator);
    }
    for _ in 0..generator.random.between(1, 30) {
        generator.merge_some();
    }
    look(generator);
}

/// Writes at new addresses, with some removals and some old addresses among them.
fn some_writes(generator: &mut Generator, count: usize) -> Vec<(u32, Write)> {
    let mut addresses = generator.fresh(count);
    if generator.random.one_in(3) {
        addresses[0] = generator.indexed_one();
    }
    let mut writes = generator.puts(&addresses);
    if generator.random.one_in(2) {
        writes[count - 1].1 = Write::Delete;
    }
    writes
}

/// Pending addresses are granted, others are not, and a held one goes first.
fn full_indexlet(generator: &mut Generator) {
    let [worker, holder] = generator.idle_workers();
    let pending = generator.pending();
    let (old, taken) = (generator.random.pick(&pending), generator.random.pick(&pending));
    let new = generator.fresh_one();
    match generator.random.below(5) {
        0 => try_lock(generator, worker, &[new]),
        1 => try_lock(generator, worker, &[old]),
        2 => try_lock(generator, worker, &[old, new]),
        3 => try_lock(generator, worker, &[]),
        _ => {
            generator.begin(holder);
            generator.put(holder, taken);
            generator.lock(holder);
            try_lock(generator, worker, &[taken, new]);
            generator.idle(holder);
        }
    }
}
