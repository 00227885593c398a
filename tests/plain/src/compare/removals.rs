//! Runs of request 104: removals hide nothing, and are edits like any other for the
//! rest.

use super::runs::{as_put, as_shown, listed, two_leaves, Run};
use super::Script;
use crate::step::Shown;

pub fn all() -> Vec<Script> {
    let mut scripts = vec![dropped_under_removal(), beside_a_scanner(), fresh_mark()];
    scripts.extend([put_under_removal(), removal_under_put(), replaced(), kinds_of_locks()]);
    scripts.extend([held_and_under_lock(), full_indexlet(), full_map(), joined(), cut()]);
    scripts
}

impl Run {
    /// A job that scans 0 to 1000, edits nothing and is locked. It sees addresses as `job`
    /// puts them.
    fn looks(self, seat: u32, seen: &[u32]) -> Self {
        let records: Vec<Shown> = seen.iter().copied().map(as_shown).collect();
        let scan = format!("S {seat} 0 1000 -> S 0 {}{}", seen.len(), listed(&records));
        self.lines(&format!("B {seat} -> B 0\n{scan}\nL {seat} -> L 0"))
    }

    /// The same, and nothing is hidden.
    fn sees(self, seat: u32, number: u32, seen: &[u32]) -> Self {
        self.looks(seat, seen).lines(&format!("V {seat} -> V 0 {number}\nI {seat} -> I 0"))
    }

    /// The same, and a key is hidden.
    fn misses_a_key(self, seat: u32, seen: &[u32]) -> Self {
        self.looks(seat, seen).lines(&format!("V {seat} -> V 14"))
    }

    fn locks_put(self, seat: u32, address: u32) -> Self {
        let value = as_put(address).1;
        self.lines(&format!(
            "B {seat} -> B 0\nP {seat} {address} {value} 0 -> P 0\nL {seat} -> L 0"
        ))
    }

    fn locks_removal(self, seat: u32, address: u32) -> Self {
        self.lines(&format!("B {seat} -> B 0\nD {seat} {address} -> D 0\nL {seat} -> L 0"))
    }
}

/// Document 01's last starred run, but the lock is for a removal.
fn dropped_under_removal() -> Script {
    Run::default()
        .job(0, 1, [7])
        .lines("M 7 -> M 0 1")
        .removals(0, 2, [7])
        .locks_removal(0, 7)
        .lines(
            "M 7 -> M 0 1
             B 1 -> B 0
             S 1 0 10 -> S 0 0
             L 1 -> L 0
             V 1 -> V 0 3
             I 1 -> I 0
             V 0 -> V 0 4
             I 0 -> I 0
             M 7 -> M 0 1",
        )
        .end("a record dropped under the lock of a removal", [].into_iter())
}

/// Seat 0 drops addresses that were never linked. Seat 1 scans and links beside it,
/// while they are locked, and while they wait; what it has linked is hidden.
fn beside_a_scanner() -> Script {
    Run::default()
        .job(1, 1, [5])
        .lines(
            "M 0 -> M 0 1
             B 0 -> B 0
             D 0 1 -> D 0
             D 0 4 -> D 0
             D 0 900 -> D 0
             B 1 -> B 0
             S 1 0 1000 -> S 0 1 5 12 0
             L 0 -> L 0
             L 1 -> L 0
             V 1 -> V 0 2
             I 1 -> I 0
             V 0 -> V 0 3",
        )
        .sees(1, 4, &[5])
        .lines(
            "B 1 -> B 0
             S 1 0 1000 -> S 0 1 5 12 0
             P 1 6 13 0 -> P 0
             I 0 -> I 0
             L 1 -> L 0
             V 1 -> V 0 5",
        )
        .misses_a_key(2, &[5])
        .lines("I 1 -> I 0")
        .misses_a_key(2, &[5])
        .lines("M 0 -> M 0 4")
        .sees(2, 6, &[5, 6])
        .end("removals of what was never linked", [5, 6].into_iter().map(as_put))
}

/// A fold of removals that change no record still gives the leaf a fresh mark.
fn fresh_mark() -> Script {
    Run::default()
        .job(0, 1, [5])
        .lines("M 0 -> M 0 1")
        .lines("B 1 -> B 0\nS 1 0 1000 -> S 0 1 5 12 0")
        .removals(0, 2, [4, 6])
        .lines("M 5 -> M 0 2\nL 1 -> L 0\nV 1 -> V 14")
        .sees(1, 3, &[5])
        .end("a fresh mark by removals alone", [as_put(5)].into_iter())
}

/// A put waits at 5, locked for its removal, by another seat or by the scanner: it is
/// there, and no scan shows it. Once its removal waits instead, all is shown.
fn put_under_removal() -> Script {
    Run::default()
        .job(0, 1, [5])
        .locks_removal(1, 5)
        .misses_a_key(2, &[])
        .lines("V 1 -> V 0 2")
        .misses_a_key(2, &[])
        .lines("I 1 -> I 0")
        .sees(2, 3, &[])
        .job(0, 4, [5])
        .lines("B 1 -> B 0\nS 1 0 1000 -> S 0 0\nD 1 5 -> D 0\nL 1 -> L 0\nV 1 -> V 14")
        .lines("M 0 -> M 0 1")
        .sees(2, 5, &[5])
        .end("a put that waits under the lock of a removal", [as_put(5)].into_iter())
}

/// A removal waits at 5, which was never linked. Seat 1's lock for a put hides the
/// key from others, and not from seat 1.
fn removal_under_put() -> Script {
    Run::default()
        .removals(0, 1, [5])
        .lines("B 1 -> B 0\nS 1 0 1000 -> S 0 0\nP 1 5 12 0 -> P 0")
        .sees(2, 2, &[])
        .lines("L 1 -> L 0")
        .misses_a_key(2, &[])
        .lines("V 1 -> V 0 3")
        .misses_a_key(2, &[])
        .lines("I 1 -> I 0")
        .misses_a_key(2, &[])
        .lines("M 0 -> M 0 1")
        .sees(2, 4, &[5])
        .end("a removal that waits under the lock of a put", [as_put(5)].into_iter())
}

/// The last edit of an address is what its lock is for. A lock that was refused, here
/// since seat 1 holds 9, has not settled it.
fn replaced() -> Script {
    Run::default()
        .lines("B 0 -> B 0\nP 0 5 12 0 -> P 0\nD 0 5 -> D 0\nL 0 -> L 0")
        .sees(2, 1, &[])
        .lines("A 0 -> A 0\nB 0 -> B 0\nD 0 5 -> D 0\nP 0 5 12 0 -> P 0\nL 0 -> L 0")
        .misses_a_key(2, &[])
        .lines("A 0 -> A 0")
        .locks_removal(1, 9)
        .lines(
            "B 0 -> B 0
             P 0 5 12 0 -> P 0
             D 0 9 -> D 0
             L 0 -> L 9
             D 0 5 -> D 0
             A 1 -> A 0
             L 0 -> L 0",
        )
        .sees(2, 2, &[])
        .lines("V 0 -> V 0 3\nI 0 -> I 0")
        .sees(2, 4, &[])
        .end("a put replaced by a removal", [].into_iter())
}

/// An edit waits at 5 all the time, so its entry stays, and one lock after the other
/// is taken there: each is for what it is for, whatever the one before was for.
fn kinds_of_locks() -> Script {
    Run::default()
        .removals(0, 1, [5])
        .locks_put(1, 5)
        .lines("A 1 -> A 0")
        .sees(2, 2, &[])
        .locks_removal(1, 5)
        .sees(2, 3, &[])
        .lines("A 1 -> A 0")
        .locks_put(3, 5)
        .misses_a_key(2, &[])
        .lines("V 3 -> V 0 4\nI 3 -> I 0")
        .locks_removal(1, 5)
        .lines("V 1 -> V 0 5\nI 1 -> I 0")
        .sees(2, 6, &[])
        .lines("M 0 -> M 0 1")
        .locks_removal(1, 5)
        .sees(2, 7, &[])
        .lines("A 1 -> A 0")
        .end("locks of both kinds in turn", [].into_iter())
}

/// 9 and 13 do not look at kinds. Seat 1 has read 5, absent, or has scanned 7.
fn held_and_under_lock() -> Script {
    Run::default()
        .job(0, 1, [7])
        .lines("M 0 -> M 0 1")
        .locks_removal(0, 5)
        .lines(
            "B 1 -> B 0
             D 1 5 -> D 0
             L 1 -> L 9
             A 1 -> A 0
             B 1 -> B 0
             R 1 5 -> R 0 - 1
             L 1 -> L 0
             V 1 -> V 13
             A 0 -> A 0",
        )
        .locks_removal(0, 7)
        .lines(
            "B 1 -> B 0
             S 1 0 10 -> S 0 1 7 14 0
             L 1 -> L 0
             V 1 -> V 13
             V 0 -> V 0 2
             I 0 -> I 0
             B 1 -> B 0
             S 1 0 10 -> S 0 0
             D 1 7 -> D 0
             L 1 -> L 0
             V 1 -> V 0 3
             I 1 -> I 0
             M 0 -> M 0 1",
        )
        .end("9 and 13 by removals", [].into_iter())
}

/// 192 removals wait where nothing was linked: one more is 10, and none hides a key.
fn full_indexlet() -> Script {
    let mut run = Run::default();
    for job in 0..12 {
        run = run.removals(job % 8, job + 1, 16 * job..16 * job + 16);
    }
    run.sees(2, 13, &[])
        .lines("B 0 -> B 0\nD 0 192 -> D 0\nL 0 -> L 10\nT -> T 0 192\nL 0 -> L 0")
        .sees(2, 14, &[])
        .end("192 removals wait", [].into_iter())
}

/// With 1,024 records a removal of another address is 11.
fn full_map() -> Script {
    let mut run = Run::default();
    for job in 0..64 {
        run = run.job(0, job + 1, 16 * job..16 * job + 16).oldest(&[16]);
    }
    run.lines("B 1 -> B 0\nD 1 1024 -> D 0\nL 1 -> L 11\nA 1 -> A 0")
        .locks_removal(1, 1023)
        .lines("V 1 -> V 0 65\nI 1 -> I 0\nT -> T 0 1")
        .locks_removal(1, 1024)
        .end("a removal from a full map", (0..1023).map(as_put))
}

/// The leaf from 90 on is emptied, and joins the one before: with a lock for a
/// removal in each, and then with one for a put.
fn joined() -> Script {
    let below: Vec<u32> = (1..=8).map(|place| 10 * place).collect();
    two_leaves()
        .removals(0, 3, (9..=17).map(|place| 10 * place))
        .locks_removal(1, 95)
        .locks_removal(2, 15)
        .lines("M 170 -> M 0 9")
        .sees(3, 4, &below)
        .locks_put(4, 96)
        .misses_a_key(3, &below)
        .lines("A 4 -> A 0\nV 1 -> V 0 5\nI 1 -> I 0")
        .sees(3, 6, &below)
        .end("removals in leaves that join", below.iter().copied().map(as_put))
}

/// One leaf is cut into two while locks of both kinds stay in each.
fn cut() -> Script {
    let above: Vec<u32> = (9..=17).map(|place| 10 * place).collect();
    let scan = |seat: u32| {
        let records: Vec<Shown> = above.iter().copied().map(as_shown).collect();
        format!("B {seat} -> B 0\nS {seat} 90 200 -> S 0 9{}\nL {seat} -> L 0", listed(&records))
    };
    Run::default()
        .job(0, 1, (1..=16).map(|place| 10 * place))
        .job(0, 2, [170])
        .locks_put(1, 15)
        .locks_removal(2, 16)
        .locks_removal(3, 95)
        .locks_put(4, 96)
        .lines("T -> T 0 17")
        .lines(&scan(5))
        .lines("V 5 -> V 14\nA 4 -> A 0")
        .lines(&scan(5))
        .lines("V 5 -> V 0 3\nI 5 -> I 0")
        .lines("B 6 -> B 0\nS 6 0 9 -> S 0 0\nL 6 -> L 0\nV 6 -> V 14\nA 1 -> A 0")
        .lines("B 6 -> B 0\nS 6 0 9 -> S 0 0\nL 6 -> L 0\nV 6 -> V 0 4\nI 6 -> I 0")
        .end("removals in a leaf that is cut", (1..=17).map(|place| as_put(10 * place)))
}
