//! Request 106's owners by its words: what a put changes, and what a job sees.

use plain::engine::Worker;
use plain::map::{Map, Payload, Stored, Write};

/// The worker's write at the address.
pub fn own(worker: &Worker, address: u32) -> Option<Write> {
    worker.write_set.iter().find(|&&(at, _)| at == address).map(|&(_, write)| write)
}

fn put(write: Write) -> Option<Payload> {
    match write {
        Write::Put(payload) => Some(payload),
        Write::Delete => None,
    }
}

/// The own edit if there is one, else what is present.
pub fn to_be_read(map: &Map, worker: &Worker, address: u32) -> Option<Payload> {
    match own(worker, address) {
        Some(write) => put(write),
        None => map.current(address).map(|stored| stored.payload),
    }
}

fn other_owner_alone(old: Option<Payload>, new: Payload) -> bool {
    old.is_some_and(|old| old.value == new.value && old.owner != new.owner)
}

/// What is to be said of a put's owner.
pub fn of_put(map: &Map, worker: &Worker, address: u32, new: Payload) -> Vec<&'static str> {
    let own = own(worker, address);
    let waiting = map.pending(address).filter(|_| own.is_none());
    let indexed = map.indexed(address).filter(|_| own.is_none() && waiting.is_none());
    let waits = waiting.and_then(|pending| put(pending.write));
    let names = [
        (new.owner == 0, "put by the first owner"),
        (new.owner == u16::MAX, "put by the last owner"),
        (other_owner_alone(own.and_then(put), new), "another owner in an own put"),
        (other_owner_alone(waits, new), "another owner in a waiting put"),
        (other_owner_alone(indexed.map(|it| it.stored.payload), new), "another owner in the index"),
    ];
    names.iter().filter(|name| name.0).map(|name| name.1).collect()
}

/// Whether these writes change owners of present records, and nothing else.
pub fn alone(map: &Map, writes: &[(u32, Write)]) -> bool {
    let changes = |&(address, write): &(u32, Write)| {
        let there = map.current(address).map(|stored| stored.payload);
        put(write).is_some_and(|new| other_owner_alone(there, new))
    };
    !writes.is_empty() && writes.iter().all(changes)
}

/// How a record differs from what was logged. A stamp differs with the rest.
pub fn difference(then: Stored, now: Stored) -> Option<&'static str> {
    if then.payload.value != now.payload.value {
        Some("other value")
    } else if then.payload.owner != now.payload.owner {
        Some("other owner")
    } else if then.commit != now.commit {
        Some("other stamp")
    } else {
        None
    }
}
