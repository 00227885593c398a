//! The logs, the write set and the buffers of one transaction, filled to the last.

use super::{finish_or_abort, random_range, range};
use crate::choose::leaf_around;
use crate::engine::{LEAF_SET_LIMIT, READ_LIMIT, WRITE_LIMIT};
use crate::generate::Generator;
use crate::map::Write;
use crate::step::PLACES;

/// The limits of one transaction.
pub fn limits(generator: &mut Generator) {
    if generator.map().index().len() < 2 * READ_LIMIT {
        generator.grow(3 * READ_LIMIT);
        generator.merge_all();
    }
    generator.idle_all();
    match generator.random.below(16) {
        0..=2 => read_to_limit(generator),
        3..=5 => scan_to_limit(generator),
        6..=8 => leaves_to_limit(generator),
        9..=11 => writes_to_limit(generator),
        12..=14 => places_to_limit(generator),
        _ => wide_leaves(generator),
    }
}

fn read_to_limit(generator: &mut Generator) {
    let [worker] = generator.idle_workers();
    generator.begin(worker);
    let own = generator.fresh_one();
    generator.put(worker, own);
    for _ in 0..READ_LIMIT {
        let some = [generator.indexed_one(), generator.fresh_one()];
        let address = generator.random.pick(&some);
        generator.read(worker, address);
    }
    let (lo, hi) = random_range(generator, 1);
    generator.read(worker, lo);
    generator.scan(worker, lo, hi);
    let empty = generator.fresh_one();
    generator.scan(worker, empty, empty);
    generator.scan(worker, hi, lo.wrapping_sub(1));
    generator.read(worker, own);
    finish_or_abort(generator, worker);
}

fn scan_to_limit(generator: &mut Generator) {
    let [worker] = generator.idle_workers();
    let first = generator.random.between(0, READ_LIMIT - 1);
    let (own, more) = (generator.indexed_one(), READ_LIMIT - first);
    generator.begin(worker);
    if first > 0 {
        let (lo, hi) = random_range(generator, first);
        generator.scan(worker, lo, hi);
    }
    generator.put(worker, own);
    let (lo, hi) = random_range(generator, more + 1);
    generator.scan(worker, lo, hi);
    let (lo, hi) = random_range(generator, more);
    generator.scan(worker, lo, hi);
    let other = generator.fresh_one();
    generator.read(worker, other);
    generator.read(worker, own);
    finish_or_abort(generator, worker);
}

fn leaves_to_limit(generator: &mut Generator) {
    let [worker] = generator.idle_workers();
    generator.begin(worker);
    for _ in 0..LEAF_SET_LIMIT - 1 {
        let address = generator.fresh_one();
        generator.scan(worker, address, address);
    }
    // One place is left, and this range meets two leaves.
    let leaf = generator.random.between(1, generator.map().leaves().len() - 1);
    let low = generator.map().leaves()[leaf].low;
    generator.scan(worker, low - 1, low);
    generator.scan(worker, low, low);
    generator.scan(worker, low - 1, low - 1);
    generator.read(worker, low);
    finish_or_abort(generator, worker);
}

fn writes_to_limit(generator: &mut Generator) {
    let [worker] = generator.idle_workers();
    let new = generator.fresh(WRITE_LIMIT + 1);
    let (old, last) = (generator.random.pick(&new[..WRITE_LIMIT]), new[WRITE_LIMIT]);
    generator.begin(worker);
    for &address in &new[..WRITE_LIMIT] {
        if generator.random.one_in(4) {
            generator.remove(worker, address);
        } else {
            generator.put(worker, address);
        }
    }
    generator.put(worker, last);
    generator.remove(worker, last);
    generator.put(worker, old);
    generator.remove(worker, old);
    generator.read(worker, old);
    finish_or_abort(generator, worker);
}

/// As many index records as a log and the buffers hold, with own writes.
fn places_to_limit(generator: &mut Generator) {
    generator.merge_all();
    let [worker, writer] = generator.idle_workers();
    let from = generator.random.between(0, generator.map().index().len() - PLACES - 1);
    let (lo, hi) = range(generator, from, PLACES);
    let beyond = range(generator, from, PLACES + 1).1;
    let Some(own) = generator.fresh_between(lo, hi) else { return };
    let place = from + generator.random.below(PLACES);
    let old = generator.map().index()[place].address;
    let gone = generator.random.one_in(2);
    if gone {
        generator.commit(writer, &[(old, Write::Delete)]);
    }
    generator.begin(worker);
    generator.put(worker, own);
    if let Some(second) = generator.fresh_between(lo, hi).filter(|_| gone) {
        generator.put(worker, second);
    }
    generator.scan(worker, lo, beyond);
    generator.scan(worker, lo, hi);
    generator.remove(worker, own);
    generator.scan(worker, lo, hi);
    finish_or_abort(generator, worker);
}

/// Thin leaves, so that a scan passes the limit of leaves before that of records.
fn wide_leaves(generator: &mut Generator) {
    generator.shrink(0);
    generator.grow(400);
    generator.merge_all();
    let leaves = generator.map().leaves().iter();
    let keep: Vec<u32> = leaves
        .filter_map(|leaf| {
            let (low, high) = leaf_around(generator, leaf.low);
            Some(generator.map().indexed_between(low, high).first()?.address)
        })
        .collect();
    let index = generator.map().index().iter().map(|record| record.address);
    let surplus: Vec<_> =
        index.filter(|at| !keep.contains(at)).map(|at| (at, Write::Delete)).collect();
    generator.spread(&surplus);
    generator.merge_all();
    for _ in 0..4 {
        wide_scan(generator);
    }
}

fn wide_scan(generator: &mut Generator) {
    let leaves = generator.map().leaves();
    if leaves.len() < LEAF_SET_LIMIT + 2 {
        return;
    }
    let from = generator.random.between(0, leaves.len() - LEAF_SET_LIMIT - 2);
    let leaves = generator.map().leaves();
    let (lo, next) = (leaves[from].low, leaves[from + LEAF_SET_LIMIT].low);
    let [worker] = generator.idle_workers();
    generator.begin(worker);
    generator.scan(worker, lo, next);
    generator.scan(worker, lo, next - 1);
    generator.scan(worker, lo, lo);
    finish_or_abort(generator, worker);
}
