//! Request 104's hidden keys by its words: what an entry of the indexlet is to the
//! validation of a worker that scanned its leaf.

use crate::observe::Observer;
use plain::map::Write;

#[derive(Clone, Copy, PartialEq)]
pub enum Kind {
    Put,
    Removal,
}

impl Kind {
    fn of(write: Write) -> Self {
        match write {
            Write::Put(_) => Kind::Put,
            Write::Delete => Kind::Removal,
        }
    }
}

enum Locked {
    Own(Kind),
    Other(Kind),
}

pub enum Bearing {
    Hides(&'static str),
    Calm(&'static str),
}

/// What the worker wrote there last, and not what the lock says that it is for.
pub fn written(observer: &Observer, worker: usize, address: u32) -> Option<Kind> {
    let writes = &observer.engine.worker(worker).write_set;
    writes.iter().find(|&&(to, _)| to == address).map(|&(_, write)| Kind::of(write))
}

/// What another worker's lock at the address is for.
pub fn other_lock(observer: &Observer, worker: usize, address: u32) -> Option<Kind> {
    let holder = observer.engine.map().holder(address).filter(|&holder| holder != worker)?;
    written(observer, holder, address)
}

/// None for an entry at an index record, unless it is another's lock.
pub fn bearing(observer: &Observer, worker: usize, address: u32) -> Option<Bearing> {
    let map = observer.engine.map();
    let other = other_lock(observer, worker, address);
    if map.index().iter().any(|record| record.address == address) {
        return other.map(|_| Bearing::Calm("lock on an index record"));
    }
    let own = map.holder(address).filter(|&holder| holder == worker);
    let own = own.and_then(|holder| written(observer, holder, address));
    let locked = other.map(Locked::Other).or(own.map(Locked::Own));
    let waiting = map.pending(address).map(|pending| Kind::of(pending.write));
    let dropped = map.holder(address).is_some_and(|at| observer.dropped.contains(&(address, at)));
    Some(outside_the_index(waiting, locked, dropped))
}

/// The same where the index lacks the address. It may lack it because a merge
/// dropped the record under the lock.
fn outside_the_index(waiting: Option<Kind>, locked: Option<Locked>, dropped: bool) -> Bearing {
    use Bearing::{Calm, Hides};
    use Kind::{Put, Removal};
    use Locked::{Other, Own};
    match (waiting, locked) {
        (Some(Put), None) => Hides("pending put"),
        (Some(Put), Some(Own(_))) => Hides("own lock and pending put"),
        (Some(Put), Some(Other(Put))) => Hides("pending put locked for a put"),
        (Some(Put), Some(Other(Removal))) => Hides("pending put locked for a removal"),
        (None, Some(Other(Put))) if dropped => Hides("lock on a dropped record"),
        (None, Some(Other(Put))) => Hides("lock for a put"),
        (Some(Removal), Some(Other(Put))) => Hides("pending removal locked for a put"),
        (Some(Removal), None) => Calm("pending removal"),
        (Some(Removal), Some(Own(Put))) => Calm("own put over a pending removal"),
        (Some(Removal), Some(Own(Removal))) => Calm("own removal over a pending removal"),
        (Some(Removal), Some(Other(Removal))) => Calm("pending removal locked for a removal"),
        (None, Some(Own(Put))) => Calm("own lock for a put"),
        (None, Some(Own(Removal))) => Calm("own lock for a removal"),
        (None, Some(Other(Removal))) if dropped => Calm("removal locked on a dropped record"),
        (None, Some(Other(Removal))) => Calm("lock for a removal"),
        (None, None) => unreachable!("an entry is pending or locked"),
    }
}
