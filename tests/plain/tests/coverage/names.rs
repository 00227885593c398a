//! The answer held against the facts: document 01's causes, in the order in which
//! they are answered, and the names of the limits and actions met.

use crate::facts::{Facts, Meeting};
use crate::guard::Guard;
use crate::observe::Observer;
use crate::slots::Look;
use plain::engine::{Engine, Stage, LEAF_SET_LIMIT, READ_LIMIT, WORKERS, WRITE_LIMIT};
use plain::map::{Leaf, Lock, Map, Payload, Write, INDEXLET_LIMIT, MAP_LIMIT};
use plain::step::{Answer, Buffers, PLACES};
use std::collections::{BTreeMap, BTreeSet};

/// The first cause must be the answer.
fn expect(answer: Answer, causes: &[(bool, u8)]) {
    let refusal = causes.iter().find(|cause| cause.0).map(|cause| cause.1);
    match refusal {
        Some(number) => assert_eq!(answer, Answer::Refused(number)),
        None => assert!(answer.granted(), "{answer:?}"),
    }
}

impl Meeting {
    pub fn names(&self, observer: &mut Observer, answer: Answer) -> Vec<String> {
        let granted = answer.granted();
        match &self.facts {
            Facts::Plain => Vec::new(),
            Facts::Read { .. } => self.read_names(answer),
            Facts::Scan { .. } => self.scan_names(observer, answer),
            &Facts::Write { old, count, removal, ref owners } => {
                expect(answer, &[(!old && count == WRITE_LIMIT, 7)]);
                let full = count == WRITE_LIMIT;
                let mut names = chosen(&[
                    (granted && !old && count == WRITE_LIMIT - 1, "16th write"),
                    (!granted && !removal, "17th put"),
                    (!granted && removal, "17th removal"),
                    (full && old && !removal, "old put at a full write set"),
                    (full && old && removal, "old removal at a full write set"),
                ]);
                names.extend(owners.iter().filter(|_| granted).map(|name| name.to_string()));
                names
            }
            Facts::Lock { .. } => self.lock_names(answer),
            Facts::Validate { .. } => self.validate_names(observer, answer),
            Facts::Install { number, written, puts, owners_alone } => {
                observer.ages.install(*number, written);
                chosen(&[(*puts, "install of puts"), (*owners_alone, "job of other owners alone")])
            }
            Facts::Merge { .. } => self.merge_names(observer, answer),
        }
    }

    fn read_names(&self, answer: Answer) -> Vec<String> {
        let &Facts::Read { own, payload, reads, ref look, pending, indexed } = &self.facts else {
            return vec![];
        };
        expect(answer, &[(!own && reads > READ_LIMIT, 6)]);
        let mut names = chosen(&[
            (!own && reads == READ_LIMIT, "read fills the read set"),
            (!own && reads == READ_LIMIT + 1, "read beyond the read set"),
            (own && reads > READ_LIMIT, "own read at a full read set"),
        ]);
        if let Answer::Read(reading) = answer {
            assert_eq!(reading.payload, payload);
            assert_eq!(reading.examined, Some(if own { 0 } else { look.examined }));
            names.extend(look_names(look, own, pending, indexed));
        }
        names
    }

    fn scan_names(&self, observer: &Observer, answer: Answer) -> Vec<String> {
        let &Facts::Scan { backward, reads, leaves, here, ref shown, ref before } = &self.facts
        else {
            return vec![];
        };
        check_places(before, shown, answer, &observer.buffers);
        let shown = shown.len();
        let (many_reads, many_leaves) = (reads > READ_LIMIT, leaves > LEAF_SET_LIMIT);
        let (full, short) = (many_reads || many_leaves, shown > PLACES);
        expect(answer, &[(backward, 5), (full, 6), (short, 8)]);
        let granted = answer.granted();
        chosen(&[
            (backward && reads == READ_LIMIT, "backward at a full read set"),
            (granted && shown > 0 && reads == READ_LIMIT, "scan fills the read set"),
            (reads == READ_LIMIT + 1 && !many_leaves, "scan beyond the read set"),
            (granted && leaves == LEAF_SET_LIMIT, "scan fills the leaf set"),
            (leaves == LEAF_SET_LIMIT + 1 && !many_reads, "scan beyond the leaf set"),
            (granted && here == LEAF_SET_LIMIT, "32 leaves at once"),
            (here == LEAF_SET_LIMIT + 1 && !many_reads, "33 leaves at once"),
            (granted && shown == PLACES, "64 places"),
            (!full && shown == PLACES + 1, "65 places"),
            (full && short, "6 before 8"),
        ])
    }

    fn lock_names(&self, answer: Answer) -> Vec<String> {
        let &Facts::Lock { ref guard, count, ref held, waiting, indexlet, total } = &self.facts
        else {
            return vec![];
        };
        let (why_held, held) = (held, !held.is_empty());
        let (narrow, full) = (indexlet > INDEXLET_LIMIT, total > MAP_LIMIT);
        let [length, scan, overlap] = [16, 17, 18].map(|number| guard.has(number));
        expect(
            answer,
            &[(length, 16), (scan, 17), (overlap, 18), (held, 9), (narrow, 10), (full, 11)],
        );
        if length || scan || overlap {
            return guard_names(guard, answer, [(held, 9), (narrow, 10), (full, 11)]);
        }
        let granted = answer.granted();
        let mut names = chosen(&[
            (
                granted && count > 0 && waiting < indexlet && indexlet == INDEXLET_LIMIT,
                "lock fills the indexlet",
            ),
            (
                granted && count > 0 && waiting == INDEXLET_LIMIT,
                "pending address at a full indexlet",
            ),
            (granted && count == 0 && waiting == INDEXLET_LIMIT, "no address at a full indexlet"),
            (!held && indexlet == INDEXLET_LIMIT + 1, "lock beyond the indexlet"),
            (granted && waiting < indexlet && total == MAP_LIMIT, "lock at a full map"),
            (!held && !narrow && total == MAP_LIMIT + 1, "lock beyond the map"),
            (held && narrow && !full, "9 before 10"),
            (held && full && !narrow, "9 before 11"),
            (!held && narrow && full, "10 before 11"),
            (held && narrow && full, "9 before 10 and 11"),
        ]);
        if granted {
            names.extend(guard.calm.iter().map(|name| format!("put with {name}")));
        }
        names.extend(only(why_held, 9));
        names
    }

    fn validate_names(&self, observer: &Observer, answer: Answer) -> Vec<String> {
        let Facts::Validate { changes, held, phantoms, calm } = &self.facts else { return vec![] };
        let [changed, locked, phantom] = [changes, held, phantoms].map(|causes| !causes.is_empty());
        let spent = observer.engine.last_commit() == 1_000_000
            && !matches!(answer, Answer::Commit(1_000_000));
        expect(answer, &[(changed, 12), (locked, 13), (phantom, 14), (spent, 15)]);
        let mut names = chosen(&[
            (changed && locked, "12 before 13"),
            (changed && phantom, "12 before 14"),
            (!changed && locked && phantom, "13 before 14"),
            (changed && spent, "12 before 15"),
            (!changed && locked && spent, "13 before 15"),
            (!changed && !locked && phantom && spent, "14 before 15"),
        ]);
        match answer {
            Answer::Refused(12) => names.extend(only(changes, 12)),
            Answer::Refused(13) => names.extend(only(held, 13)),
            Answer::Refused(14) => names.extend(only(phantoms, 14)),
            Answer::Commit(_) => names.extend(calm.iter().map(|name| format!("0 with {name}"))),
            _ => {}
        }
        names
    }

    fn merge_names(&self, observer: &mut Observer, answer: Answer) -> Vec<String> {
        let Facts::Merge { picked, at, leaves, pending, locked, range } = &self.facts else {
            return vec![];
        };
        let map = observer.engine.map();
        assert_eq!(answer, Answer::Merged(pending.len()));
        assert_eq!(observer.ages.between(*range).len(), pending.len());
        observer.ages.merge(*range);
        let mut names: Vec<String> = picked.iter().map(|name| name.to_string()).collect();
        if pending.is_empty() {
            assert_eq!(map.leaves(), leaves);
            names.push("merge of none".into());
            return names;
        }
        let records: Vec<u32> =
            map.indexed_between(range.0, range.1).iter().map(|record| record.address).collect();
        check_leaves(map, leaves, *at, &records);
        let dropped = |address| {
            pending.iter().any(|&(to, write, was)| to == address && was && write == Write::Delete)
        };
        let under_lock: Vec<_> = locked.iter().copied().filter(|&(to, _)| dropped(to)).collect();
        let count = records.len();
        names.extend(chosen(&[
            (count == 0 && *at == 0, "first leaf emptied"),
            (count == 0 && *at == 1, "leaf joins the first"),
            (count == 0 && *at > 1, "leaf joins another"),
            (count == 1, "1 whole"),
            (count == 16, "16 whole"),
            (count == 17, "17 cut"),
            (count == 24, "24 cut"),
            (count == 31, "31 cut"),
            (count >= 32, "32 or more cut"),
            (!under_lock.is_empty(), "record dropped under lock"),
            (!locked.is_empty() && under_lock.is_empty(), "merge under lock"),
            (
                pending.iter().any(|&(_, write, was)| !was && write == Write::Delete),
                "removal of an absent address merged",
            ),
        ]));
        observer.dropped.extend(under_lock);
        names
    }
}

/// The cause by name, if it is the only one.
fn only(causes: &BTreeSet<&str>, number: u8) -> Option<String> {
    let name = causes.first().filter(|_| causes.len() == 1);
    name.map(|name| format!("{number} by {name}"))
}

/// How a granted read was looked up.
fn look_names(look: &Look, own: bool, pending: bool, indexed: bool) -> Vec<String> {
    let &Look { examined, found, past_empty, empty, zero, wraps } = look;
    if own {
        return chosen(&[(found, "own write at an entry"), (!found, "own write at no entry")]);
    }
    chosen(&[
        (found && examined == 1, "entry at home"),
        (zero && examined == 1 && empty, "empty home"),
        (zero && examined == 1 && !empty, "another at home"),
        (found && past_empty, "entry past an empty slot"),
        (zero && past_empty, "no entry past an empty slot"),
        (zero && examined > 1, "no entry away from home"),
        (found && !pending, "entry of a lock"),
        (!found && indexed, "no entry of an index record"),
        (wraps, "past the last slot"),
        (found && examined > 100, "entry past 100 slots"),
        (zero && examined > 100, "no entry past 100 slots"),
        (!found && !zero, "all slots"),
    ])
}

/// A granted scan has written its records to the first places, and nothing else; any
/// other answer leaves all places.
fn check_places(before: &Buffers, shown: &BTreeMap<u32, Payload>, answer: Answer, after: &Buffers) {
    let mut expected = before.clone();
    if let Answer::Found(count) = answer {
        assert_eq!(count, shown.len());
        for (place, (&address, payload)) in shown.iter().enumerate() {
            expected.addresses[place] = address;
            expected.values[place] = payload.value;
            expected.owners[place] = payload.owner;
        }
    }
    assert_eq!(*after, expected);
}

/// Why the guard refused, and what it went before.
fn guard_names(guard: &Guard, answer: Answer, later: [(bool, u8); 3]) -> Vec<String> {
    let Answer::Refused(number) = answer else { return vec![] };
    let mut names: Vec<String> =
        guard.reason(number).iter().map(|reason| format!("{number} by {reason}")).collect();
    for other in number + 1..=18 {
        if guard.jumps(number, other) {
            names.push(format!("{number} before {other} of a lower address"));
        }
    }
    if number == 18 {
        names.extend(only(&guard.owners, 18));
    }
    names.extend(
        later.iter().filter(|cause| cause.0).map(|cause| format!("{number} before {}", cause.1)),
    );
    names
}

/// Locked are just the write sets of locked and checked workers, each address for the
/// kind of its write, and every entry of the indexlet is pending or locked.
pub fn check_entries(engine: &Engine) {
    let entries = engine.map().indexlet();
    assert!(entries.values().all(|entry| entry.pending.is_some() || entry.lock.is_some()));
    let mut locked = 0;
    for at in 0..WORKERS {
        let worker = engine.worker(at);
        assert!(worker.scans.len() <= worker.leaf_set.len(), "each scan logs a leaf");
        if matches!(worker.stage, Stage::Locked | Stage::Checked) {
            for &(address, write) in &worker.write_set {
                let lock = Lock { holder: at, put: matches!(write, Write::Put(_)) };
                assert_eq!(entries[&address].lock, Some(lock));
            }
            locked += worker.write_set.len();
        }
    }
    assert_eq!(entries.values().filter(|entry| entry.lock.is_some()).count(), locked);
    assert!(entries.len() <= INDEXLET_LIMIT);
}

/// The leaves after a merge that counted: lows and fresh versions by the rule.
fn check_leaves(map: &Map, before: &[Leaf], at: usize, records: &[u32]) {
    let mut lows: Vec<u32> = before.iter().map(|leaf| leaf.low).collect();
    let fresh = match records.len() {
        0 if at > 0 => {
            lows.remove(at);
            at - 1..at
        }
        0..=16 => at..at + 1,
        count => {
            lows.splice(at + 1..at + 1, (1..count / 8).map(|run| records[8 * run]));
            at..at + count / 8
        }
    };
    assert!(map.leaves().iter().map(|leaf| leaf.low).eq(lows));
    let last = before.iter().map(|leaf| leaf.version).max().unwrap_or(0);
    let mut previous = last;
    for (place, leaf) in map.leaves().iter().enumerate() {
        if fresh.contains(&place) {
            assert!(leaf.version > previous, "versions rise from left to right");
            previous = leaf.version;
        } else {
            assert!(before.contains(leaf), "other leaves stay");
        }
    }
    assert!(map.leaves().len() <= 1025);
}

fn chosen(names: &[(bool, &str)]) -> Vec<String> {
    names.iter().filter(|name| name.0).map(|name| name.1.to_string()).collect()
}
