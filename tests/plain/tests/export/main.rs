//! Request 107's export: what its portions and its file give, what is refused, and
//! that jobs and exports do not notice each other.

#[path = "../common/mod.rs"]
mod common;
mod file;
mod held;
mod portions;
mod refusals;

use plain::engine::{Engine, Refusal, WRITE_LIMIT};
use plain::list::{Item, SequentialList};
use plain::map::{Payload, Write, INDEXLET_LIMIT};
use plain::random::Random;
use plain::step::Shown;

/// With the number of a refusal.
fn numbered<T>(answer: Result<T, Refusal>) -> Result<T, u8> {
    answer.map_err(|refusal| refusal as u8)
}

fn put(value: u64, owner: u16) -> Write {
    Write::Put(Payload { value, owner })
}

/// Begins a job with these writes.
fn edit(engine: &mut Engine, worker: u32, writes: &[(u32, Write)]) {
    engine.begin(worker).expect("it is free");
    for &(address, write) in writes {
        match write {
            Write::Put(payload) => engine.put(worker, address, payload).expect("there is room"),
            Write::Delete => engine.remove(worker, address).expect("there is room"),
        }
    }
}

/// Up to its number, which it gets since it read nothing.
fn check(engine: &mut Engine, worker: u32, writes: &[(u32, Write)]) {
    edit(engine, worker, writes);
    engine.lock(worker).expect("nobody has a lock");
    engine.validate(worker).expect("nothing was read");
}

fn install(engine: &mut Engine, writes: &[(u32, Write)]) {
    check(engine, 0, writes);
    engine.install(0).expect("it is checked");
}

/// An engine with so many records from the first address to the last, of which those
/// installed last wait, and what the list then holds.
fn filled(count: u32) -> (Engine, Vec<Shown>) {
    let (mut engine, mut list) = (Engine::default(), SequentialList::default());
    let mut random = Random::new(count.into());
    let last = u64::from(u32::MAX);
    let address = |n: u32| (u64::from(n) * last / u64::from(count - 1).max(1)) as u32;
    let mut addresses: Vec<u32> = (0..count).map(address).collect();
    random.shuffle(&mut addresses);
    for job in addresses.chunks(WRITE_LIMIT) {
        while engine.map().indexlet_with(job.iter().copied()) > INDEXLET_LIMIT {
            engine.merge_oldest();
        }
        let mut writes = Vec::new();
        for &address in job {
            let (value, owner) = (random.number(), random.number() as u16);
            writes.push((address, put(value, owner)));
            list.put(Item { address, value, owner, stamp: 0 });
        }
        install(&mut engine, &writes);
    }
    (engine, list.scan(0, u32::MAX).collect())
}
