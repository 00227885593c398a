//! Rounds that lead to a limit, step over it, and come back; and what they share.

use crate::engine::READ_LIMIT;
use crate::generate::Generator;

pub mod capacity;
pub mod cleanup;
pub mod crowd;
pub mod guarded;
pub mod leaves;
pub mod limits;
pub mod spent;
pub mod turns;

/// Locks these addresses with puts and removals, then aborts.
fn try_lock(generator: &mut Generator, worker: u32, addresses: &[u32]) {
    generator.idle(worker);
    generator.begin(worker);
    for &address in addresses {
        if generator.random.one_in(4) {
            generator.remove(worker, address);
        } else {
            generator.put(worker, address);
        }
    }
    generator.lock(worker);
    generator.abort(worker);
}

/// The range of the index from this place with this many records.
fn range(generator: &Generator, from: usize, count: usize) -> (u32, u32) {
    let index = generator.map().index();
    (index[from].address, index[from + count - 1].address)
}

pub fn random_range(generator: &mut Generator, count: usize) -> (u32, u32) {
    let from = generator.random.between(0, generator.map().index().len() - count);
    range(generator, from, count)
}

fn finish_or_abort(generator: &mut Generator, worker: u32) {
    if generator.random.one_in(3) {
        generator.abort(worker);
    } else {
        generator.finish(worker);
    }
}

/// A reader that sees some of the map and writes little or nothing.
fn look(generator: &mut Generator) {
    let [worker] = generator.idle_workers();
    let count = generator.map().index().len();
    generator.begin(worker);
    if count > 0 {
        let width = generator.random.between(1, count.min(READ_LIMIT - 2));
        let (lo, hi) = random_range(generator, width);
        generator.scan(worker, lo, hi);
    }
    let address = generator.indexed_one();
    generator.read(worker, address);
    match generator.random.below(4) {
        0 => generator.put(worker, address),
        1 => {
            let put = generator.hand_over(address);
            generator.write(worker, (address, put));
        }
        _ => {}
    }
    finish_or_abort(generator, worker);
}
