//! Every action on a leaf, and probes of where the leaves end.

use super::look;
use crate::choose::leaf_around;
use crate::engine::{LEAF_SET_LIMIT, WRITE_LIMIT};
use crate::generate::Generator;
use crate::map::Write;

/// Merges that leave a leaf with a chosen number of records, while a reader has
/// seen it or a leaf beside it; then a look at where the leaves end.
pub fn leaves(generator: &mut Generator) {
    if generator.total() > 600 {
        generator.shrink(30);
    }
    let [reader, writer] = generator.idle_workers();
    let address = match generator.random.below(4) {
        0 => 0,
        1 => generator.fresh_one(),
        _ => generator.indexed_one(),
    };
    generator.merge(address);
    let counts = [0, 0, 0, 1, 2, 15, 16, 16, 17, 17, 23, 24, 25, 31, 32, 33, 48];
    let count = generator.random.pick(&counts);
    let (low, high) = leaf_around(generator, address);
    let seen = generator.random.pick(&[low.saturating_sub(1), low, high.saturating_add(1)]);
    generator.begin(reader);
    generator.scan(reader, seen, seen);
    lead_to(generator, writer, address, count);
    generator.merge(address);
    generator.finish(reader);
    match generator.random.below(3) {
        0 => border(generator),
        1 => count_leaves(generator),
        _ => look(generator),
    }
}

/// Pending writes after which the leaf of the address has this many records.
fn lead_to(generator: &mut Generator, writer: u32, address: u32, count: usize) {
    let (low, high) = leaf_around(generator, address);
    let records = generator.map().indexed_between(low, high);
    let old: Vec<u32> = records.iter().map(|record| record.address).collect();
    let surplus = old.len().saturating_sub(count);
    let mut writes: Vec<_> = old[..surplus].iter().map(|&at| (at, Write::Delete)).collect();
    let new = fresh_in_leaf(generator, (low, high), count.saturating_sub(old.len()));
    writes.extend(generator.puts(&new));
    if writes.is_empty() {
        writes.push((address, Write::Delete));
    }
    for some in writes.chunks(WRITE_LIMIT) {
        generator.commit(writer, some);
    }
}

/// This many new addresses of a leaf, or fewer if it has no more room; from the
/// area if the leaf lies there.
fn fresh_in_leaf(generator: &mut Generator, (low, high): (u32, u32), count: usize) -> Vec<u32> {
    let (near, far) = (generator.area.0.max(low), generator.area.1.min(high));
    let (low, high) = if near < far { (near, far) } else { (low, high) };
    let mut chosen = Vec::new();
    for _ in 0..200 {
        if chosen.len() == count {
            break;
        }
        let new = generator.fresh_between(low, high);
        chosen.extend(new.filter(|new| !chosen.contains(new)));
    }
    chosen
}

/// A reader on one side of a leaf's low, a writer on either: it matters only if
/// they are in the same leaf.
fn border(generator: &mut Generator) {
    let [reader, writer] = generator.idle_workers();
    let at = generator.random.below(generator.map().leaves().len());
    let low = generator.map().leaves()[at].low;
    let high = generator.map().high(at);
    generator.merge(low);
    generator.merge(low.saturating_sub(1));
    let near = low.saturating_add(20).min(high);
    let below = generator.fresh_between(low.saturating_sub(20), low);
    let above = generator.fresh_between(low, near);
    let Some((below, above)) = below.zip(above) else { return };
    let read = generator.random.pick(&[below, above]);
    let written = generator.random.pick(&[below, above]);
    let put = generator.put_at(written);
    generator.begin(reader);
    generator.scan(reader, read, read);
    generator.commit(writer, &[(written, put)]);
    generator.finish(reader);
}

/// Room for so many leaves in the log, and a range with one more.
fn count_leaves(generator: &mut Generator) {
    let [worker] = generator.idle_workers();
    let count = generator.map().leaves().len();
    let room = generator.random.between(1, 5).min(count);
    let from = generator.random.between(0, count - room);
    let low = generator.map().leaves()[from].low;
    let high = generator.map().high(from + room - 1);
    generator.begin(worker);
    for _ in 0..LEAF_SET_LIMIT - room {
        let address = generator.fresh_one();
        generator.scan(worker, address, address);
    }
    generator.scan(worker, low, high.saturating_add(1));
    generator.scan(worker, low.saturating_sub(1), high);
    generator.scan(worker, low, high);
    generator.finish(worker);
}
