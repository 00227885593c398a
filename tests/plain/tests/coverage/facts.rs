//! What a step meets, worked out before it from the engine's stores by document
//! 01's words, and not by the engine's own tests.

use crate::guard::Guard;
use crate::hiding::{bearing, other_lock, written, Bearing, Kind};
use crate::observe::Observer;
use crate::owners;
use crate::slots::Look;
use plain::engine::{Stage, Worker, WORKERS};
use plain::map::{Leaf, Map, Payload, Write};
use plain::step::{Buffers, Step};
use std::collections::{BTreeMap, BTreeSet};

/// A step and the engine as it was before it.
pub struct Meeting {
    pub stage: Option<Stage>,
    pub facts: Facts,
}

pub enum Facts {
    Plain,
    Read {
        own: bool,
        /// What is to be told.
        payload: Option<Payload>,
        reads: usize,
        look: Look,
        /// Whether an edit waits at the address, and whether the index has it.
        pending: bool,
        indexed: bool,
    },
    Scan {
        backward: bool,
        reads: usize,
        leaves: usize,
        here: usize,
        /// What is to be shown, and the buffers before.
        shown: BTreeMap<u32, Payload>,
        before: Box<Buffers>,
    },
    Write {
        old: bool,
        count: usize,
        removal: bool,
        /// What is to be said of a put's owner.
        owners: Vec<&'static str>,
    },
    Lock {
        guard: Guard,
        count: usize,
        held: BTreeSet<&'static str>,
        waiting: usize,
        indexlet: usize,
        total: usize,
    },
    Validate {
        changes: BTreeSet<&'static str>,
        held: BTreeSet<&'static str>,
        phantoms: BTreeSet<&'static str>,
        calm: BTreeSet<&'static str>,
    },
    Install {
        number: u32,
        written: Vec<u32>,
        puts: bool,
        /// Whether it changes the owner of records, and nothing else.
        owners_alone: bool,
    },
    Merge {
        /// What is to be said of the pick, if the merge picked its own leaf.
        picked: Vec<&'static str>,
        at: usize,
        leaves: Vec<Leaf>,
        pending: Vec<(u32, Write, bool)>,
        locked: Vec<(u32, usize)>,
        range: (u32, u32),
    },
}

impl Meeting {
    pub fn of(observer: &Observer, step: Step) -> Meeting {
        let engine = &observer.engine;
        let at = step.worker().map(|worker| worker as usize).filter(|&worker| worker < WORKERS);
        let stage = at.map(|at| engine.worker(at).stage);
        let facts = match (step, at, stage) {
            (Step::Merge { address }, _, _) => merge_facts(engine.map(), address, vec![]),
            (Step::MergeOldest, _, _) => oldest_facts(observer),
            (Step::Install { .. }, Some(at), Some(Stage::Checked)) => install_facts(observer, at),
            (Step::Validate { .. }, Some(at), Some(Stage::Locked)) => validate_facts(observer, at),
            (Step::Lock { .. }, Some(at), Some(Stage::Open)) => lock_facts(observer, at),
            (_, Some(at), Some(Stage::Open)) => open_facts(observer, engine.worker(at), step),
            _ => Facts::Plain,
        };
        Meeting { stage, facts }
    }
}

fn open_facts(observer: &Observer, worker: &Worker, step: Step) -> Facts {
    let map = observer.engine.map();
    let own = |address: u32| owners::own(worker, address).is_some();
    let count = worker.write_set.len();
    match step {
        Step::Read { address, .. } => Facts::Read {
            own: own(address),
            payload: owners::to_be_read(map, worker, address),
            reads: worker.read_set.len() + 1,
            look: observer.table.look_up(address),
            pending: map.pending(address).is_some(),
            indexed: map.index().iter().any(|record| record.address == address),
        },
        Step::Scan { lo, hi, .. } if lo > hi => Facts::Scan {
            backward: true,
            reads: worker.read_set.len(),
            leaves: worker.leaf_set.len(),
            here: 0,
            shown: BTreeMap::new(),
            before: Box::new(observer.buffers.clone()),
        },
        Step::Scan { lo, hi, .. } => scan_facts(observer, worker, lo, hi),
        Step::Put { address, value, owner, .. } => {
            let owners = owners::of_put(map, worker, address, Payload { value, owner });
            Facts::Write { old: own(address), count, removal: false, owners }
        }
        Step::Remove { address, .. } => {
            Facts::Write { old: own(address), count, removal: true, owners: vec![] }
        }
        _ => Facts::Plain,
    }
}

fn scan_facts(observer: &Observer, worker: &Worker, lo: u32, hi: u32) -> Facts {
    let map = observer.engine.map();
    let inside = |address: u32| lo <= address && address <= hi;
    let indexed: Vec<u32> =
        map.index().iter().map(|record| record.address).filter(|&at| inside(at)).collect();
    let present = indexed.iter().filter_map(|&at| Some((at, map.current(at)?.payload)));
    let mut shown: BTreeMap<u32, Payload> = present.collect();
    for &(address, write) in worker.write_set.iter().filter(|&&(at, _)| inside(at)) {
        match write {
            Write::Put(payload) => shown.insert(address, payload),
            Write::Delete => shown.remove(&address),
        };
    }
    let meets = |at: &usize| map.leaves()[*at].low <= hi && map.high(*at) >= lo;
    let here = (0..map.leaves().len()).filter(meets).count();
    Facts::Scan {
        backward: false,
        reads: worker.read_set.len() + indexed.len(),
        leaves: worker.leaf_set.len() + here,
        here,
        shown,
        before: Box::new(observer.buffers.clone()),
    }
}

fn lock_facts(observer: &Observer, at: usize) -> Facts {
    let (map, worker) = (observer.engine.map(), observer.engine.worker(at));
    let edited: BTreeSet<u32> = worker.write_set.iter().map(|&(at, _)| at).collect();
    let indexlet: BTreeSet<u32> = map.indexlet().keys().copied().collect();
    let index: BTreeSet<u32> = map.index().iter().map(|record| record.address).collect();
    let both: BTreeSet<u32> = indexlet.union(&edited).copied().collect();
    Facts::Lock {
        guard: if observer.guarded { observer.logs[at].guard() } else { Guard::default() },
        count: edited.len(),
        held: edited.iter().filter_map(|&address| meeting(observer, at, address)).collect(),
        waiting: indexlet.len(),
        indexlet: both.len(),
        total: both.union(&index).count(),
    }
}

/// An own edit where another holds the lock.
fn meeting(observer: &Observer, at: usize, address: u32) -> Option<&'static str> {
    let both = (written(observer, at, address)?, other_lock(observer, at, address)?);
    Some(if both == (Kind::Removal, Kind::Removal) { "two removals" } else { "a put" })
}

fn validate_facts(observer: &Observer, at: usize) -> Facts {
    let (map, worker) = (observer.engine.map(), observer.engine.worker(at));
    let mut changes = BTreeSet::new();
    let mut calm = BTreeSet::new();
    let mut held = BTreeSet::new();
    for &(address, then) in &worker.read_set {
        match (then, map.current(address)) {
            (None, Some(_)) => changes.extend(["appeared"]),
            (Some(_), None) => changes.extend(["disappeared"]),
            (Some(then), Some(now)) => changes.extend(owners::difference(then, now)),
            (None, None) if map.pending(address).is_some() => calm.extend(["absent again"]),
            _ => {}
        }
        held.extend(other_lock(observer, at, address).map(|kind| match kind {
            Kind::Put => "lock for a put",
            Kind::Removal => "lock for a removal",
        }));
    }
    let mut phantoms = BTreeSet::new();
    for seen in &worker.leaf_set {
        let Some(leaf) = map.leaves().iter().position(|leaf| leaf.version == seen.version) else {
            phantoms.insert("version gone");
            continue;
        };
        let inside = |at: &u32| map.leaves()[leaf].low <= *at && *at <= map.high(leaf);
        for &address in map.indexlet().keys().filter(|at| inside(at)) {
            match bearing(observer, at, address) {
                Some(Bearing::Hides(name)) => phantoms.extend([name]),
                Some(Bearing::Calm(name)) => calm.extend([name]),
                None => {}
            }
        }
    }
    Facts::Validate { changes, held, phantoms, calm }
}

fn install_facts(observer: &Observer, at: usize) -> Facts {
    let writes = &observer.engine.worker(at).write_set;
    Facts::Install {
        number: observer.numbers[at],
        written: writes.iter().map(|&(address, _)| address).collect(),
        puts: writes.iter().any(|(_, write)| matches!(write, Write::Put(_))),
        owners_alone: owners::alone(observer.engine.map(), writes),
    }
}

fn oldest_facts(observer: &Observer) -> Facts {
    let map = observer.engine.map();
    let Some(oldest) = observer.ages.oldest() else {
        return merge_facts(map, 0, vec!["oldest of none"]);
    };
    let at = map.leaf_at(oldest);
    let mut picked = observer.ages.decisive((map.leaves()[at].low, map.high(at)));
    if map.pending(oldest).is_some_and(|pending| pending.write == Write::Delete) {
        picked.push("oldest is a removal");
    }
    if observer.ages.between((map.leaves()[at].low, map.high(at))).len() > 1 {
        picked.push("oldest with others of its leaf");
    }
    merge_facts(map, oldest, picked)
}

fn merge_facts(map: &Map, address: u32, picked: Vec<&'static str>) -> Facts {
    let leaves = map.leaves().to_vec();
    let at = leaves.iter().rposition(|leaf| leaf.low <= address).expect("the first starts at 0");
    let range = (leaves[at].low, map.high(at));
    let inside = |address: u32| range.0 <= address && address <= range.1;
    let indexed = |address: u32| map.index().iter().any(|record| record.address == address);
    let entries = map.indexlet().iter().filter(|(&at, _)| inside(at));
    let pending = entries
        .clone()
        .filter_map(|(&at, entry)| entry.pending.map(|pending| (at, pending.write, indexed(at))));
    let locked = entries.filter_map(|(&at, entry)| entry.lock.map(|lock| (at, lock.holder)));
    let (pending, locked) = (pending.collect(), locked.collect());
    Facts::Merge { picked, at, leaves, pending, locked, range }
}
