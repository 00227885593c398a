//! Runs of request 106: an owner goes with every value, and is a part of what changed.

use super::runs::{listed, Run};
use super::Script;
use crate::step::Shown;

pub fn all() -> Vec<Script> {
    let mut scripts = vec![told(), by_read(), by_scan(), same_owner(), there_and_back()];
    scripts.extend([second_edit(), aborted(), install_order(), many_leaves(), places()]);
    scripts.extend([guarded_overlap(), guarded_change(), first_and_last()]);
    scripts.extend(malformed());
    scripts
}

impl Run {
    /// A whole job of puts, with its serial number.
    fn owned(self, seat: u32, number: u32, records: &[Shown]) -> Self {
        let mut run = self.lines(&format!("B {seat} -> B 0"));
        for (address, value, owner) in records {
            run = run.lines(&format!("P {seat} {address} {value} {owner} -> P 0"));
        }
        run.lines(&format!("L {seat} -> L 0\nV {seat} -> V 0 {number}\nI {seat} -> I 0"))
    }
}

/// Of an own edit, of one that waits, and of the index.
fn told() -> Script {
    Run::default()
        .lines(
            "B 0 -> B 0
             P 0 4096 32 7 -> P 0
             R 0 4096 -> R 0 32 7 0
             S 0 0 9999 -> S 0 1 4096 32 7
             L 0 -> L 0
             V 0 -> V 0 1
             B 1 -> B 0
             R 1 4096 -> R 0 - 1
             A 1 -> A 0
             I 0 -> I 0
             B 1 -> B 0
             R 1 4096 -> R 0 32 7 1
             S 1 0 9999 -> S 0 0
             A 1 -> A 0
             M 0 -> M 0 1
             B 1 -> B 0
             R 1 4096 -> R 0 32 7 1
             S 1 0 9999 -> S 0 1 4096 32 7
             D 1 4096 -> D 0
             R 1 4096 -> R 0 - 0
             A 1 -> A 0",
        )
        .end_owned("whose section it is", &[(4096, 32, 7)])
}

/// The reader sees another owner than there is when it validates, first of what
/// waits and then of the index.
fn by_read() -> Script {
    Run::default()
        .owned(0, 1, &[(7, 1, 2)])
        .lines("B 1 -> B 0\nR 1 7 -> R 0 1 2 1")
        .owned(0, 2, &[(7, 1, 3)])
        .lines("L 1 -> L 0\nV 1 -> V 12\nM 7 -> M 0 1\nB 1 -> B 0\nR 1 7 -> R 0 1 3 1")
        .owned(0, 3, &[(7, 1, 2)])
        .lines("M 7 -> M 0 1\nL 1 -> L 0\nV 1 -> V 12\nB 1 -> B 0\nR 1 7 -> R 0 1 2 1")
        .lines("L 1 -> L 0\nV 1 -> V 0 4\nI 1 -> I 0")
        .end_owned("another owner is a change to a reader", &[(7, 1, 2)])
}

/// The same of a scan. Its leaf has the same mark as before, and hides nothing.
fn by_scan() -> Script {
    Run::default()
        .owned(0, 1, &[(5, 9, 1), (7, 1, 2)])
        .lines("M 0 -> M 0 2\nB 1 -> B 0\nS 1 0 9 -> S 0 2 5 9 1 7 1 2")
        .owned(0, 2, &[(7, 1, 65535)])
        .lines("L 1 -> L 0\nV 1 -> V 12\nB 1 -> B 0\nS 1 0 9 -> S 0 2 5 9 1 7 1 65535")
        .lines("L 1 -> L 0\nV 1 -> V 0 3\nI 1 -> I 0")
        .end_owned("another owner is a change to a scan", &[(5, 9, 1), (7, 1, 65535)])
}

/// A put of the same value and owner is a change all the same, by its stamp.
fn same_owner() -> Script {
    Run::default()
        .owned(0, 1, &[(7, 1, 2)])
        .lines("B 1 -> B 0\nR 1 7 -> R 0 1 2 1")
        .owned(0, 2, &[(7, 1, 2)])
        .lines("L 1 -> L 0\nV 1 -> V 12")
        .end_owned("the same owner again", &[(7, 1, 2)])
}

/// The owner that was read is there again, by another job: the stamp tells.
fn there_and_back() -> Script {
    Run::default()
        .owned(0, 1, &[(7, 1, 2)])
        .lines("M 7 -> M 0 1\nB 1 -> B 0\nS 1 7 7 -> S 0 1 7 1 2")
        .owned(0, 2, &[(7, 1, 3)])
        .owned(0, 3, &[(7, 1, 2)])
        .lines("L 1 -> L 0\nV 1 -> V 12")
        .end_owned("an owner there and back", &[(7, 1, 2)])
}

/// A second edit replaces the owner with the rest; a removal leaves none.
fn second_edit() -> Script {
    Run::default()
        .lines(
            "B 0 -> B 0
             P 0 7 1 2 -> P 0
             P 0 7 1 3 -> P 0
             R 0 7 -> R 0 1 3 0
             D 0 7 -> D 0
             R 0 7 -> R 0 - 0
             S 0 0 9 -> S 0 0
             P 0 7 4 0 -> P 0
             P 0 8 4 1 -> P 0
             S 0 0 9 -> S 0 2 7 4 0 8 4 1
             L 0 -> L 0
             V 0 -> V 0 1
             I 0 -> I 0",
        )
        .end_owned("the owner of a second edit", &[(7, 4, 0), (8, 4, 1)])
}

/// Nobody sees the owner of a job that ends.
fn aborted() -> Script {
    Run::default()
        .owned(0, 1, &[(7, 1, 2)])
        .lines("B 0 -> B 0\nP 0 7 1 3 -> P 0\nL 0 -> L 0\nV 0 -> V 0 2")
        .lines("B 1 -> B 0\nR 1 7 -> R 0 1 2 1\nL 1 -> L 0\nA 0 -> A 0\nV 1 -> V 0 3\nI 1 -> I 0")
        .end_owned("the owner of a job that was aborted", &[(7, 1, 2)])
}

/// Two jobs give 1 and 2 to other owners. The lower number is installed later, and
/// what a job did not put keeps its owner.
fn install_order() -> Script {
    Run::default()
        .owned(0, 1, &[(1, 10, 1), (2, 20, 1), (3, 30, 1)])
        .lines(
            "B 0 -> B 0
             P 0 1 10 8 -> P 0
             L 0 -> L 0
             V 0 -> V 0 2
             B 1 -> B 0
             P 1 2 20 9 -> P 0
             L 1 -> L 0
             V 1 -> V 0 3
             I 1 -> I 0
             I 0 -> I 0
             T -> T 0 3",
        )
        .end_owned("owners by two jobs", &[(1, 10, 8), (2, 20, 9), (3, 30, 1)])
}

/// 17 records, each of another owner, in one leaf that a fold cuts; one of them is
/// handed over, and one goes, in each of the two.
fn many_leaves() -> Script {
    let owned = |place: u32| (10 * place, 5, 1000 * place as u16);
    let mut records: Vec<Shown> = (1..=17).map(owned).collect();
    let run = Run::default().owned(0, 1, &records[..16]).owned(0, 2, &records[16..]);
    let run = run.lines("T -> T 0 17").removals(1, 3, [20, 160]);
    let (first, last) = ((10, 5, 77), (170, 5, 78));
    (records[0], records[16]) = (first, last);
    let run = run.owned(2, 4, &[first, last]).lines("T -> T 0 2\nT -> T 0 2");
    records.retain(|&(address, ..)| address != 20 && address != 160);
    run.lines(&format!("B 3 -> B 0\nS 3 0 999 -> S 0 15{}", listed(&records)))
        .lines("L 3 -> L 0\nV 3 -> V 0 5\nI 3 -> I 0")
        .end_owned("an owner for each of 17 records", &records)
}

/// 64 records with as many owners fit into the buffers, 65 do not.
fn places() -> Script {
    let records: Vec<Shown> = (0..65).map(|at: u32| (at, 3, 65_535 - at as u16)).collect();
    let mut run = Run::default();
    for (number, some) in (1..).zip(records[..64].chunks(16)) {
        run = run.owned(5, number, some);
    }
    run.lines("M 0 -> M 0 64\nB 6 -> B 0\nP 6 64 3 65471 -> P 0\nS 6 0 64 -> S 8")
        .lines(&format!("S 6 1 64 -> S 0 64{}", listed(&records[1..])))
        .lines("A 6 -> A 0\nB 6 -> B 0")
        .lines(&format!("S 6 0 64 -> S 0 64{}", listed(&records[..64])))
        .end_owned("64 owners", &records[..64])
}

/// The guard looks at lengths alone: a section is in the way whoever owns it.
fn guarded_overlap() -> Script {
    Run::default()
        .lines("G -> G 0\nB 0 -> B 0\nS 0 0 9999 -> S 0 0\nP 0 1000 100 1 -> P 0")
        .lines("L 0 -> L 0\nV 0 -> V 0 1\nI 0 -> I 0\nM 0 -> M 0 1")
        .lines(
            "B 1 -> B 0
             S 1 0 9999 -> S 0 1 1000 100 1
             P 1 1099 1 2 -> P 0
             L 1 -> L 18
             P 1 1099 1 1 -> P 0
             L 1 -> L 18
             P 1 1099 0 100 -> P 0
             L 1 -> L 16
             D 1 1099 -> D 0
             P 1 1100 10 1 -> P 0
             P 1 1109 1 2 -> P 0
             L 1 -> L 18
             P 1 1110 1 2 -> P 0
             D 1 1109 -> D 0
             L 1 -> L 0
             V 1 -> V 0 2
             I 1 -> I 0",
        )
        .end_owned("an overlap of two owners", &[(1000, 100, 1), (1100, 10, 1), (1110, 1, 2)])
}

/// A section may be handed over in its place, once it is scanned; who has scanned it
/// for a put beside it sees that.
fn guarded_change() -> Script {
    Run::default()
        .lines("G -> G 0\nB 0 -> B 0\nS 0 0 9999 -> S 0 0\nP 0 1000 100 1 -> P 0")
        .lines("L 0 -> L 0\nV 0 -> V 0 1\nI 0 -> I 0\nM 0 -> M 0 1")
        .lines(
            "B 1 -> B 0
             S 1 0 9999 -> S 0 1 1000 100 1
             P 1 1100 10 1 -> P 0
             B 2 -> B 0
             P 2 1000 100 2 -> P 0
             L 2 -> L 17
             S 2 0 1099 -> S 0 1 1000 100 2
             L 2 -> L 0
             V 2 -> V 0 2
             I 2 -> I 0
             L 1 -> L 0
             V 1 -> V 12",
        )
        .end_owned("a section handed over", &[(1000, 100, 2)])
}

/// Both ends of the range, and leading zeros.
fn first_and_last() -> Script {
    let zeros = "0".repeat(1000);
    Run::default()
        .lines("B 0 -> B 0\nP 0 0 18446744073709551615 0 -> P 0")
        .lines(&format!("P 0 1 0 {zeros}65535 -> P 0\nR 0 1 -> R 0 0 65535 0"))
        .lines("L 0 -> L 0\nV 0 -> V 0 1\nI 0 -> I 0")
        .end_owned("the first and the last owner", &[(0, u64::MAX, 0), (1, 0, 65535)])
}

/// A put has four numbers, and its owner 16 bits.
fn malformed() -> Vec<Script> {
    let lines = [
        ("65,536 as an owner", "P 0 1 2 65536"),
        ("an owner of 32 bits", "P 0 1 2 4294967296"),
        ("an owner of 64 bits", "P 0 1 2 18446744073709551616"),
        ("leading zeros of a wide owner", "P 0 1 2 0065536"),
        ("a put without owner", "P 0 1 2"),
        ("a put and a space", "P 0 1 2 "),
        ("a put of two owners", "P 0 1 2 3 4"),
        ("a space behind an owner", "P 0 1 2 3 "),
        ("a minus before an owner", "P 0 1 2 -1"),
        ("no digit for an owner", "P 0 1 2 x"),
        ("a removal with an owner", "D 0 1 3"),
        ("a read with an owner", "R 0 1 3"),
        ("a scan with an owner", "S 0 1 2 3"),
    ];
    let script = |(name, line): (&str, &str)| Script::Text {
        name: name.into(),
        text: format!("B 0\n{line}\nB 1\n"),
        answers: "B 0\n?\n".into(),
    };
    lines.map(script).into()
}
