//! Many addresses with one home slot, so that look-ups go far.

use super::finish_or_abort;
use crate::engine::{WORKERS, WRITE_LIMIT};
use crate::generate::Generator;
use crate::map::INDEXLET_LIMIT;
use crate::scenarios::any_write;
use crate::slots::{home, sharing, SLOTS};

/// Entries of one home slot pile up. Merges and aborts take some out, and then
/// look-ups pass the empty slots.
pub fn crowd(generator: &mut Generator) {
    if generator.total() > 700 {
        generator.shrink(100);
    }
    if generator.random.one_in(16) {
        all_round(generator);
    } else {
        pile(generator);
    }
    look_up(generator);
    let entries = generator.map().indexlet().len();
    generator.growing =
        if generator.growing { entries < INDEXLET_LIMIT - 16 } else { entries < 40 };
    let most = if generator.growing { 2 } else { 8 };
    for _ in 0..generator.random.between(0, most) {
        generator.merge_some();
    }
    look_up(generator);
}

/// The home slot that all want.
fn wanted(generator: &Generator) -> usize {
    home(generator.area.1)
}

/// One of 400 addresses with that home slot, far apart.
fn one_of_crowd(generator: &mut Generator) -> u32 {
    sharing(wanted(generator), 41_000 * generator.random.address(0, 399))
}

/// One whose home slot the crowd reaches, when there are enough of them.
fn one_in_its_way(generator: &mut Generator) -> u32 {
    let further = generator.random.below(INDEXLET_LIMIT);
    sharing((wanted(generator) + further) % SLOTS, 7)
}

/// Some jobs stay locked, and are aborted once their worker is to do something else.
fn pile(generator: &mut Generator) {
    for _ in 0..generator.random.between(1, 4) {
        let [worker] = generator.idle_workers();
        generator.begin(worker);
        for _ in 0..generator.random.between(1, WRITE_LIMIT) {
            let other = generator.random.one_in(8);
            let address = if other { one_in_its_way(generator) } else { one_of_crowd(generator) };
            let write = any_write(generator, address);
            generator.write(worker, (address, write));
        }
        if generator.random.one_in(4) {
            generator.lock(worker);
        } else {
            generator.finish(worker);
        }
    }
}

/// Locks push an entry away from its home slot and go again; the next one starts
/// from where that one ended. In the end there are few entries, and mostly no slot
/// with a count of 0.
fn all_round(generator: &mut Generator) {
    generator.idle_all();
    generator.merge_all();
    let mut slot = wanted(generator);
    for _ in 0..3 {
        let [last, others @ ..]: [u32; WORKERS] = generator.idle_workers();
        let others = &others[..generator.random.between(5, others.len())];
        let mut places = generator.random.address(0, 1000)..;
        let mut next = || sharing(slot, places.next().expect("it has no end"));
        for &worker in others {
            generator.begin(worker);
            (0..WRITE_LIMIT).for_each(|_| generator.put(worker, next()));
            generator.lock(worker);
        }
        let pushed = next();
        let put = generator.put_at(pushed);
        generator.commit(last, &[(pushed, put)]);
        let examined = generator.map().slots().map_or(1, |slots| slots.examined(pushed));
        slot = (slot + examined - 1) % SLOTS;
        others.iter().for_each(|&worker| generator.abort(worker));
    }
}

/// Entries, addresses of the crowd and in its way, any address, and own writes.
fn look_up(generator: &mut Generator) {
    let [reader] = generator.idle_workers();
    generator.begin(reader);
    for _ in 0..generator.random.between(2, 12) {
        let address = sought(generator);
        if generator.random.one_in(12) {
            let write = any_write(generator, address);
            generator.write(reader, (address, write));
        }
        generator.read(reader, address);
    }
    finish_or_abort(generator, reader);
}

fn sought(generator: &mut Generator) -> u32 {
    let mut entries: Vec<u32> = generator.map().indexlet().keys().copied().collect();
    // The choice must not hang on the hash map's order.
    entries.sort_unstable();
    match generator.random.below(6) {
        0..=1 if !entries.is_empty() => generator.random.pick(&entries),
        0..=3 => one_of_crowd(generator),
        4 => one_in_its_way(generator),
        _ => generator.random.number() as u32,
    }
}
