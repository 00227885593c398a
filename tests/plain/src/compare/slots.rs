//! Runs of request 103 with the slots examined worked out by hand.

use super::runs::{as_put, value_at, Run};
use super::Script;

pub fn all() -> Vec<Script> {
    let mut scripts = vec![own_edits(), one_home(), after_aborts(), after_folds()];
    scripts.extend([worst_without_folds(), worst()]);
    scripts
}

/// The n-th address with that home slot, n up to 255: document 01's rule turned
/// round. Its two highest bytes are 0, and T of T of 0 is 136; to divide by 167
/// modulo 256 is to multiply by 23, and to take away 13 is to add 243.
fn sharing(slot: u32, n: u32) -> u32 {
    let third = (167 * (n ^ 136) + 13) % 256;
    256 * n + (third ^ (23 * (slot + 243) % 256))
}

/// That of address 0.
const HOME: u32 = 144;

fn crowd(n: u32) -> u32 {
    sharing(HOME, n)
}

impl Run {
    /// Reads of what a whole job has put, with the slots that they examine.
    fn finds(self, expected: &[(u32, usize)]) -> Self {
        let line = |&(address, examined): &(u32, usize)| {
            format!("R 7 {address} -> R 0 {} 0 {examined}\n", value_at(address))
        };
        self.reads(expected.iter().map(line).collect())
    }

    /// The same where nothing is present.
    fn misses(self, expected: &[(u32, usize)]) -> Self {
        let line =
            |&(address, examined): &(u32, usize)| format!("R 7 {address} -> R 0 - {examined}\n");
        self.reads(expected.iter().map(line).collect())
    }

    fn reads(self, lines: String) -> Self {
        self.lines(&format!("B 7 -> B 0\n{lines}A 7 -> A 0"))
    }

    /// A job that has locked these addresses.
    fn holds(self, seat: u32, addresses: impl IntoIterator<Item = u32>) -> Self {
        let puts = addresses.into_iter().map(|address| format!("P {seat} {address} 1 0 -> P 0\n"));
        self.lines(&format!("B {seat} -> B 0\n{}L {seat} -> L 0", puts.collect::<String>()))
    }
}

/// The job's own edit answers without a look-up; no refused read ends with a count.
fn own_edits() -> Script {
    let many = "R 0 1 -> R 0 - 1\n".repeat(62);
    Run::default()
        .lines(
            "B 0 -> B 0
             R 0 0 -> R 0 - 1
             P 0 0 5 0 -> P 0
             R 0 0 -> R 0 5 0 0
             D 0 0 -> D 0
             R 0 0 -> R 0 - 0
             R 0 4294967295 -> R 0 - 1
             R 8 0 -> R 1
             R 1 0 -> R 2",
        )
        .lines(&format!("{many}R 0 1 -> R 6\nR 0 0 -> R 0 - 0\nL 0 -> L 0\nR 0 0 -> R 4"))
        .misses(&[(0, 1), (1, 1)])
        .lines("V 0 -> V 0 1\nI 0 -> I 0")
        .misses(&[(0, 1), (1, 1)])
        .end("slots examined for own edits", [].into_iter())
}

/// Two addresses of one home slot, the higher one put first: a lock takes slots by
/// rising address. Then one of the next home slot, which is taken, and a third one.
fn one_home() -> Script {
    let next = sharing(HOME + 1, 0);
    Run::default()
        .job(0, 1, [crowd(1), crowd(0)])
        .finds(&[(crowd(0), 1), (crowd(1), 2)])
        .misses(&[(crowd(2), 2), (next, 1), (sharing(HOME - 1, 0), 1), (1, 1)])
        .job(1, 2, [next])
        .finds(&[(crowd(0), 1), (crowd(1), 2), (next, 2)])
        .misses(&[(crowd(2), 3), (sharing(HOME + 1, 1), 2), (sharing(HOME + 2, 0), 1)])
        .job(2, 3, [crowd(2)])
        .finds(&[(crowd(1), 2), (crowd(2), 4), (next, 2)])
        .misses(&[(crowd(3), 4), (sharing(HOME + 2, 0), 2), (sharing(HOME + 3, 0), 1)])
        .lines("M 0 -> M 0 4")
        .finds(&[(crowd(1), 1), (crowd(2), 1)])
        .end("slots examined at one home slot", in_order([crowd(0), crowd(1), crowd(2), next]))
}

/// An abort and a refused validation take entries out, and searches pass their empty
/// slots. The next new entry takes the first of them.
fn after_aborts() -> Script {
    Run::default()
        .holds(0, [crowd(0)])
        .job(1, 1, [crowd(1)])
        .job(2, 2, [crowd(2)])
        .misses(&[(crowd(0), 1), (crowd(3), 3)])
        .lines("A 0 -> A 0")
        .finds(&[(crowd(1), 2), (crowd(2), 3)])
        .misses(&[(crowd(0), 3), (crowd(3), 3)])
        .job(3, 3, [crowd(3)])
        .finds(&[(crowd(1), 2), (crowd(2), 3), (crowd(3), 1)])
        .misses(&[(crowd(0), 3)])
        .lines("B 4 -> B 0\nR 4 1 -> R 0 - 1")
        .lines(&format!("P 4 {} 1 0 -> P 0\nL 4 -> L 0", crowd(4)))
        .job(5, 4, [crowd(5)])
        .job(6, 5, [1])
        .misses(&[(crowd(4), 4)])
        .lines("V 4 -> V 12")
        .finds(&[(crowd(2), 3), (crowd(5), 5)])
        .misses(&[(crowd(4), 5), (sharing(HOME + 3, 0), 2)])
        .end("slots examined after aborts", in_order([1, crowd(1), crowd(2), crowd(3), crowd(5)]))
}

/// Two leaves, the second from the ninth record on. A fold of the first empties a
/// slot that is passed on; one of the second leaves a locked entry in its slot.
fn after_folds() -> Script {
    Run::default()
        .job(0, 1, (0..16).map(crowd))
        .job(0, 2, [crowd(16)])
        .oldest(&[17])
        .job(1, 3, [crowd(3)])
        .job(2, 4, [crowd(10)])
        .finds(&[(crowd(3), 1), (crowd(10), 2), (crowd(5), 2)])
        .lines("M 0 -> M 0 1")
        .finds(&[(crowd(3), 2), (crowd(10), 2), (crowd(5), 2)])
        .misses(&[(crowd(17), 2)])
        .puts(3, 5, [crowd(10)])
        .lines(&format!("M {} -> M 0 1", crowd(8)))
        .finds(&[(crowd(3), 2), (crowd(10), 2)])
        .lines("A 3 -> A 0")
        .finds(&[(crowd(3), 1), (crowd(10), 1)])
        .misses(&[(crowd(17), 1)])
        .end("slots examined after folds", (0..17).map(crowd).map(as_put))
}

/// 192 addresses of one home slot, never folded, and every job installed. They lie
/// from slot 144 to slot 79, past slot 255.
fn worst_without_folds() -> Script {
    let mut run = Run::default();
    for job in 0..12 {
        run = run.job(job % 7, job + 1, (16 * job..16 * job + 16).map(crowd));
    }
    let expected: Vec<(u32, usize)> = (0..192).map(|n| (crowd(n), n as usize + 1)).collect();
    for some in expected.chunks(64) {
        run = run.finds(some);
    }
    run.misses(&[(crowd(192), 192), (crowd(255), 192), (sharing(HOME + 1, 0), 191)])
        .misses(&[(sharing(255, 0), 81), (sharing(0, 0), 80), (sharing(78, 0), 2)])
        .misses(&[(sharing(79, 0), 1), (sharing(80, 0), 1), (sharing(HOME - 1, 0), 1)])
        .end("192 addresses of one home slot", (0..192).map(crowd).map(as_put))
}

/// Locks of aborted jobs push three entries away, each from the slot where the one
/// before ended, all round: to slots 0, 113 and 144. Then every count is 1, and a
/// search that finds nothing examines all slots.
fn worst() -> Script {
    let pushed = [(HOME, 112), (0, 112), (113, 30)];
    let mut run = Run::default();
    for (number, (home, others)) in (1..).zip(pushed) {
        let addresses: Vec<u32> = (0..others).map(|n| sharing(home, n)).collect();
        let seats = (0..).zip(addresses.chunks(16));
        for (seat, some) in seats.clone() {
            run = run.holds(seat, some.iter().copied());
        }
        run = run.job(7, number, [sharing(home, others)]);
        for (seat, _) in seats {
            run = run.lines(&format!("A {seat} -> A 0"));
        }
    }
    let [first, second, third] = pushed.map(|(home, n)| sharing(home, n));
    run.finds(&[(first, 113), (second, 114), (third, 32)])
        .misses(&[(crowd(0), 256), (1, 256), (sharing(0, 0), 256), (sharing(143, 0), 256)])
        .job(0, 4, [crowd(1)])
        .finds(&[(crowd(1), 2), (first, 113)])
        .misses(&[(crowd(0), 256)])
        .lines("T -> T 0 4")
        .finds(&[(first, 1)])
        .misses(&[(crowd(0), 1), (1, 1)])
        .end("256 slots examined", in_order([first, second, third, crowd(1)]))
}

fn in_order<const N: usize>(mut addresses: [u32; N]) -> impl Iterator<Item = (u32, u64)> {
    addresses.sort_unstable();
    addresses.into_iter().map(as_put)
}
