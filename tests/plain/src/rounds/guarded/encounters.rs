//! Encounters in a guarded map: others that come to the same gap, or change it
//! between two scans, and a guard that goes before a limit.

use super::layout::{collide, crowd, drop_some, hand_over, place, put, resize, within};
use super::layout::{Change, Layout};
use super::{any_stretch, body, cover, faults, merges};
use crate::generate::Generator;
use crate::guard::{Span, LONGEST};
use crate::map::{Payload, Write, INDEXLET_LIMIT, MAP_LIMIT};
use crate::random::Random;

const ENCOUNTERS: [fn(&mut Generator); 10] = [
    same_gap,
    filled_between,
    emptied_between,
    changed_elsewhere,
    handed_over,
    handed_over,
    held,
    neighbour_held,
    neighbour_held,
    two_faults,
];

pub fn round(generator: &mut Generator) {
    generator.random.pick(&ENCOUNTERS)(generator);
}

/// A stretch that has nothing pending around it, so that scans see all of it.
fn settled_stretch(generator: &mut Generator) -> Span {
    let stretch = any_stretch(generator);
    for step in merges(generator, stretch) {
        generator.play(step);
    }
    stretch
}

fn settled_gap(generator: &mut Generator) -> Option<Span> {
    let stretch = settled_stretch(generator);
    Layout::new(generator.map(), stretch).gap(&mut generator.random)
}

/// A scan that is just enough, and the put.
fn scan_and_put(generator: &mut Generator, worker: u32, section: Span) {
    scan_for(generator, worker, section);
    let put = put(&mut generator.random, section);
    generator.write(worker, put);
}

fn scan_for(generator: &mut Generator, worker: u32, section: Span) {
    generator.scan(worker, section.reached_from(), section.last);
}

fn commit(generator: &mut Generator, worker: u32, writes: &[(u32, Write)]) {
    generator.begin(worker);
    if let Some((lo, hi)) = cover(writes) {
        generator.scan(worker, lo, hi);
    }
    writes.iter().for_each(|&write| generator.write(worker, write));
    generator.finish(worker);
    generator.idle(worker);
}

/// Two sections of a gap that share a byte, at times with the same address.
fn overlapping(random: &mut Random, gap: Span) -> [Span; 2] {
    let section = within(random, gap);
    let address = random.address(section.first, section.last);
    let first = random.pick(&[section.first, address, address]);
    let last = gap.last.min(first.saturating_add(LONGEST as u32 - 1));
    let mut both = [section, Span { first, last: random.address(first, last) }];
    random.shuffle(&mut both);
    both
}

/// Two look at the same gap, and both put a section there.
fn same_gap(generator: &mut Generator) {
    let pair: [u32; 2] = generator.idle_workers();
    let Some(gap) = settled_gap(generator) else { return };
    let sections = overlapping(&mut generator.random, gap);
    for (worker, section) in pair.into_iter().zip(sections) {
        generator.begin(worker);
        scan_and_put(generator, worker, section);
    }
    if generator.random.one_in(2) {
        pair.into_iter().for_each(|worker| generator.lock(worker));
    }
    generator.finish(pair[0]);
    if generator.random.one_in(2) {
        generator.merge(sections[0].first);
        scan_and_put(generator, pair[1], sections[1]);
    }
    generator.finish(pair[1]);
    pair.into_iter().for_each(|worker| generator.idle(worker));
}

/// The gap is filled between two scans, and the second one sees it.
fn filled_between(generator: &mut Generator) {
    let [worker, writer] = generator.idle_workers();
    let Some(gap) = settled_gap(generator) else { return };
    let [section, other] = overlapping(&mut generator.random, gap);
    generator.begin(worker);
    scan_and_put(generator, worker, section);
    let put = put(&mut generator.random, other);
    commit(generator, writer, &[put]);
    if !generator.random.one_in(4) {
        generator.merge(other.first);
    }
    scan_for(generator, worker, section);
    generator.finish(worker);
    generator.idle(worker);
}

/// A section that is in the way goes between two scans.
fn emptied_between(generator: &mut Generator) {
    let [worker, writer] = generator.idle_workers();
    let stretch = settled_stretch(generator);
    let mut layout = Layout::new(generator.map(), stretch);
    let gone = drop_some(&mut generator.random, &mut layout, 1);
    let Some(&(address, _)) = gone.first() else { return };
    let Some(stored) = generator.map().current(address) else { return };
    let Some(old) = Span::new(address, stored.payload.value) else { return };
    let section = within(&mut generator.random, old);
    generator.begin(worker);
    scan_and_put(generator, worker, section);
    commit(generator, writer, &gone);
    if generator.random.one_in(2) {
        generator.merge(address);
    }
    scan_for(generator, worker, section);
    generator.finish(worker);
    generator.idle(worker);
}

/// The last scan sees the gap filled, but it does not cover the section.
fn changed_elsewhere(generator: &mut Generator) {
    let [worker, writer] = generator.idle_workers();
    let Some(gap) = settled_gap(generator) else { return };
    let [section, other] = overlapping(&mut generator.random, gap);
    generator.begin(worker);
    scan_and_put(generator, worker, section);
    let put = put(&mut generator.random, other);
    commit(generator, writer, &[put]);
    generator.merge(other.first);
    generator.scan(worker, section.reached_from().saturating_add(1), section.last);
    generator.finish(worker);
    generator.idle(worker);
}

/// A neighbour goes to another owner after the scan, and validation sees that.
fn handed_over(generator: &mut Generator) {
    let [worker, writer] = generator.idle_workers();
    let stretch = settled_stretch(generator);
    let mut layout = Layout::new(generator.map(), stretch);
    let Some(gap) = layout.gap(&mut generator.random) else { return };
    let other = hand_over(&mut generator.random, &mut layout, 1);
    let section = within(&mut generator.random, gap);
    generator.begin(worker);
    scan_and_put(generator, worker, section);
    commit(generator, writer, &other);
    generator.finish(worker);
    generator.idle(worker);
}

/// Another has locked the address; what the guard asks for goes first.
fn held(generator: &mut Generator) {
    let [worker, holder] = generator.idle_workers();
    let Some(gap) = settled_gap(generator) else { return };
    let section = within(&mut generator.random, gap);
    generator.begin(holder);
    scan_and_put(generator, holder, section);
    generator.lock(holder);
    generator.begin(worker);
    let owner = generator.random.owner();
    let of_length = |value| Write::Put(Payload { value, owner });
    match generator.random.below(4) {
        0 => generator.write(worker, (section.first, of_length(section.length()))),
        1 => generator.write(worker, (section.first, of_length(LONGEST + 1))),
        2 => {
            scan_and_put(generator, worker, section);
            generator.write(worker, (section.last, of_length(1)));
        }
        _ => scan_and_put(generator, worker, section),
    }
    generator.lock(worker);
    generator.finish(holder);
    generator.finish(worker);
    generator.idle(worker);
}

/// Another has locked a section that the scan sees.
fn neighbour_held(generator: &mut Generator) {
    let [worker, holder] = generator.idle_workers();
    let stretch = settled_stretch(generator);
    let mut layout = Layout::new(generator.map(), stretch);
    let Some(gap) = layout.gap(&mut generator.random) else { return };
    let change = generator.random.pick(&[drop_some, resize]);
    let writes = change(&mut generator.random, &mut layout, 1);
    generator.begin(worker);
    let section = within(&mut generator.random, gap);
    scan_and_put(generator, worker, section);
    generator.begin(holder);
    if let Some((lo, hi)) = cover(&writes) {
        generator.scan(holder, lo, hi);
    }
    writes.iter().for_each(|&write| generator.write(holder, write));
    generator.lock(holder);
    generator.finish(worker);
    generator.finish(holder);
}

const ATTEMPTS: [Change; 5] = [place, place, place, collide, crowd];

/// Nothing is merged before them, so that what is full stays so.
pub fn attempts(generator: &mut Generator) {
    for _ in 0..generator.random.between(12, 24) {
        let faults = generator.random.pick(&[0, 0, 0, 1, 2]);
        attempt(generator, faults);
    }
}

fn two_faults(generator: &mut Generator) {
    attempt(generator, 2);
}

/// A lock of many new addresses or of one, with so many faults.
fn attempt(generator: &mut Generator, faults: usize) {
    let [worker] = generator.idle_workers();
    let stretch = any_stretch(generator);
    let change = generator.random.pick(&ATTEMPTS);
    let most = generator.random.pick(&[1, 15]);
    let mut body = body(generator, worker, stretch, change, most);
    (0..faults).for_each(|_| faults::spoil(&mut generator.random, &mut body));
    generator.begin(worker);
    for step in body {
        generator.play(step);
    }
    generator.lock(worker);
    generator.idle(worker);
}

/// Removals wait, of sections and of nothing, until there is no room for more. A
/// map that has no room for them is left alone.
pub fn full_indexlet(generator: &mut Generator) {
    if generator.total() > MAP_LIMIT - INDEXLET_LIMIT {
        return;
    }
    for _ in 0..40 {
        let room = INDEXLET_LIMIT - generator.map().indexlet().len();
        if room == 0 {
            break;
        }
        let [worker] = generator.idle_workers();
        let stretch = any_stretch(generator);
        let mut layout = Layout::new(generator.map(), stretch);
        let mut writes = drop_some(&mut generator.random, &mut layout, 2);
        for _ in writes.len()..generator.random.between(8, 16).min(room) {
            writes.push((generator.random.address(stretch.first, stretch.last), Write::Delete));
        }
        commit(generator, worker, &writes);
    }
    attempts(generator);
    for _ in 0..generator.random.between(10, 60) {
        generator.merge_oldest();
    }
}
