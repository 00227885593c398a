//! Scripts to be timed beside those of the profiles: jobs that are mostly granted, and
//! the same ones every time. No comparison runs them.

use crate::engine::{WORKERS, WRITE_LIMIT};
use crate::generate::{self, Generator};
use crate::map::{Payload, Write};
use crate::moves::{transaction, write_of};
use crate::profiles::{profile, Profile};
use crate::rounds::random_range;
use crate::script::write_step;
use crate::slots::sharing;
use crate::step::Step;

pub const WORKLOADS: [Profile; 3] =
    [profile("forty", forty), profile("growing", growing), profile("homes", homes)];

pub const SEED: u64 = 7;

pub fn find(name: &str) -> Option<&'static Profile> {
    WORKLOADS.iter().find(|workload| workload.name == name)
}

pub fn text(workload: &Profile) -> Vec<u8> {
    generate::text(SEED, 1_000_000, workload)
}

/// From one start to the next where sections lie side by side. None is longer.
pub const SECTION: u32 = 4096;

/// Its numbers are short: a quarter of the values that profiles put have some twenty
/// digits, which take their time to read and print.
fn section(generator: &mut Generator) -> Write {
    let random = &mut generator.random;
    let length = random.address(1, SECTION);
    Write::Put(Payload { value: length.into(), owner: random.below(8) as u16 })
}

fn section_or_none(generator: &mut Generator) -> Write {
    if generator.random.one_in(4) {
        Write::Delete
    } else {
        section(generator)
    }
}

/// Small jobs over forty addresses, one after the other. Now and then two go side by
/// side, since none is ever refused alone.
fn forty(generator: &mut Generator) {
    let workers: [u32; 2] = generator.idle_workers();
    let count = if generator.random.one_in(4) { 2 } else { 1 };
    for &worker in &workers[..count] {
        let job = small_job(generator, worker);
        generator.enqueue(worker, job);
    }
    generator.drain();
}

fn small_job(generator: &mut Generator, worker: u32) -> Vec<Step> {
    let (read, written) = (some_of_forty(generator, 2), some_of_forty(generator, 3));
    let mut body: Vec<Step> = read.iter().map(|&address| Step::Read { worker, address }).collect();
    for &address in &written {
        body.push(write_of(worker, address, section_or_none(generator)));
    }
    let address = generator.random.pick(&written);
    let oldest = generator.random.one_in(8);
    let mut steps = transaction(worker, body);
    steps.push(if oldest { Step::MergeOldest } else { Step::Merge { address } });
    steps
}

/// One or more.
fn some_of_forty(generator: &mut Generator, most: usize) -> Vec<u32> {
    let count = generator.random.between(1, most);
    (0..count).map(|_| generator.random.address(0, 39) * SECTION).collect()
}

/// The map fills to about 1,000 records and is emptied again, over and over. Each job's
/// writes are merged at once, since the next scan there would miss them.
fn growing(generator: &mut Generator) {
    let count = generator.map().index().len();
    generator.growing = if generator.growing { count < 1000 } else { count < 50 };
    let [worker] = generator.idle_workers();
    generator.begin(worker);
    if !generator.growing {
        unlink(generator, worker);
    } else if count < 2 || generator.random.one_in(2) {
        link_behind(generator, worker);
    } else {
        link_between(generator, worker);
    }
    generator.finish(worker);
    generator.merge_all();
}

/// Puts new sections side by side behind the last one.
fn link_behind(generator: &mut Generator, worker: u32) {
    let last = generator.map().index().last().map_or(0, |record| record.address);
    let count = generator.random.address(2, 12);
    generator.scan(worker, last, last + count * SECTION);
    for place in 1..=count {
        let put = section(generator);
        generator.write(worker, (last + place * SECTION, put));
    }
}

/// Puts new sections anywhere among those of a stretch.
fn link_between(generator: &mut Generator, worker: u32) {
    let count = generator.map().index().len().min(24);
    let (lo, hi) = scan_some(generator, worker, 2, count);
    for _ in 0..generator.random.between(2, 12) {
        if let Some(address) = generator.fresh_between(lo, hi) {
            let put = section(generator);
            generator.write(worker, (address, put));
        }
    }
}

/// Removes all sections of a stretch.
fn unlink(generator: &mut Generator, worker: u32) {
    let (lo, hi) = scan_some(generator, worker, 8, WRITE_LIMIT);
    let records = generator.map().indexed_between(lo, hi).iter();
    let addresses: Vec<u32> = records.map(|record| record.address).collect();
    addresses.into_iter().for_each(|address| generator.remove(worker, address));
}

/// A stretch of so many records.
fn scan_some(generator: &mut Generator, worker: u32, least: usize, most: usize) -> (u32, u32) {
    let count = generator.random.between(least, most);
    let (lo, hi) = random_range(generator, count);
    generator.scan(worker, lo, hi);
    (lo, hi)
}

/// The first two are so close that the crowd of one reaches the other.
pub const HOMES: [usize; 4] = [30, 60, 130, 200];

/// Long jobs at addresses of a few home slots. Merges come only where more than 190
/// addresses could wait after the next job.
fn homes(generator: &mut Generator) {
    while generator.map().indexlet().len() > 190 - WRITE_LIMIT {
        generator.merge_some();
    }
    let [worker] = generator.idle_workers();
    generator.begin(worker);
    for _ in 0..WRITE_LIMIT {
        if generator.random.one_in(2) {
            let address = one_of_crowds(generator);
            generator.read(worker, address);
        }
        let write = section_or_none(generator);
        let address = one_of_crowds(generator);
        generator.write(worker, (address, write));
    }
    generator.finish(worker);
}

/// One of 400 addresses, from all over the range.
fn one_of_crowds(generator: &mut Generator) -> u32 {
    let home = generator.random.pick(&HOMES);
    sharing(home, 160_000 * generator.random.address(0, 99))
}

/// So many records, merged, and then jobs that read and put one of them and merge it.
pub fn filled(records: u32) -> Vec<u8> {
    let put = |worker, address, value| Step::Put { worker, address, value, owner: 0 };
    let mut text = Vec::new();
    let mut job = |worker, body: Vec<Step>, address| {
        let steps = transaction(worker, body).into_iter().chain([Step::Merge { address }]);
        steps.for_each(|step| write_step(&mut text, step));
    };
    let addresses: Vec<u32> = (0..records).map(|place| place * SECTION).collect();
    for some in addresses.chunks(WRITE_LIMIT) {
        let puts = some.iter().map(|&address| put(0, address, 1));
        job(0, puts.collect(), some[some.len() - 1]);
    }
    for number in 0..142_000 {
        let (worker, address) = (number % WORKERS as u32, number * 7919 % records * SECTION);
        let body = vec![Step::Read { worker, address }, put(worker, address, number.into())];
        job(worker, body, address);
    }
    text
}
