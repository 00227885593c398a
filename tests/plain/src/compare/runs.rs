//! Runs with their answers written down by hand: those of document 01 that are
//! not starred, as far as a script can show them, folds of the oldest, guarded maps,
//! slots examined, removals, owners and the edges of a script.

use super::{guarded, owners, removals, slots, Script};
use crate::step::Shown;

/// Lines with their answers, in the order in which they are run.
#[derive(Default)]
pub(super) struct Run {
    text: String,
    answers: String,
}

impl Run {
    /// Lines of the form `input -> output`.
    pub fn lines(mut self, lines: &str) -> Self {
        for line in lines.lines() {
            let (input, output) = line.trim().split_once(" -> ").expect("an arrow");
            self.text += &format!("{input}\n");
            self.answers += &format!("{output}\n");
        }
        self
    }

    /// A whole job of puts, all of owner 0, with its serial number.
    pub fn job(self, seat: u32, number: u32, addresses: impl IntoIterator<Item = u32>) -> Self {
        self.puts(seat, number, addresses).lines(&format!("I {seat} -> I 0"))
    }

    /// The same but for its install.
    pub fn puts(self, seat: u32, number: u32, addresses: impl IntoIterator<Item = u32>) -> Self {
        let mut run = self.lines(&format!("B {seat} -> B 0"));
        for address in addresses {
            run = run.lines(&format!("P {seat} {address} {} 0 -> P 0", value_at(address)));
        }
        run.lines(&format!("L {seat} -> L 0\nV {seat} -> V 0 {number}"))
    }

    /// A whole job of removals.
    pub fn removals(
        self,
        seat: u32,
        number: u32,
        addresses: impl IntoIterator<Item = u32>,
    ) -> Self {
        let mut run = self.lines(&format!("B {seat} -> B 0"));
        for address in addresses {
            run = run.lines(&format!("D {seat} {address} -> D 0"));
        }
        run.lines(&format!("L {seat} -> L 0\nV {seat} -> V 0 {number}\nI {seat} -> I 0"))
    }

    /// Folds of the oldest, with the counts that they answer.
    pub fn oldest(self, counts: &[usize]) -> Self {
        counts.iter().fold(self, |run, count| run.lines(&format!("T -> T 0 {count}")))
    }

    /// The records that are left, all of owner 0.
    pub fn end(self, name: &str, records: impl Iterator<Item = (u32, u64)>) -> Script {
        let records: Vec<Shown> = records.map(|(address, value)| (address, value, 0)).collect();
        self.end_owned(name, &records)
    }

    pub fn end_owned(self, name: &str, records: &[Shown]) -> Script {
        let answers = format!("{}E {}{}\n", self.answers, records.len(), listed(records));
        Script::Text { name: name.into(), text: self.text, answers }
    }
}

/// Records as they stand in an answer.
pub(super) fn listed(records: &[Shown]) -> String {
    let one = |(address, value, owner): &Shown| format!(" {address} {value} {owner}");
    records.iter().map(one).collect()
}

pub(super) fn value_at(address: u32) -> u64 {
    u64::from(address) + 7
}

pub(super) fn as_put(address: u32) -> (u32, u64) {
    (address, value_at(address))
}

/// The same with its owner.
pub(super) fn as_shown(address: u32) -> Shown {
    (address, value_at(address), 0)
}

pub fn all() -> Vec<Script> {
    let mut scripts = vec![full_indexlet(), full_write_set(), short_buffer(), zeros()];
    scripts.extend([install_order(), age_of_an_address(), ages_in_one_install(), last_of_192()]);
    scripts.extend(guarded::all());
    scripts.extend(slots::all());
    scripts.extend(removals::all());
    scripts.extend(owners::all());
    let edges = [
        ("empty input", "", "E 0\n"),
        ("a last line without its line feed", "B 0\nB 1", "B 0\n?\n"),
        ("one letter and nothing more", "B", "?\n"),
        ("an empty line", "B 0\n\nB 1\n", "B 0\n?\n"),
        ("a line after a malformed one", "B 0\nB x\nB 1\n", "B 0\n?\n"),
        ("T and a space", "T\nT \nT\n", "T 0 0\n?\n"),
        ("T and a number", "T\nT 0\nT\n", "T 0 0\n?\n"),
        ("T and a carriage return", "T\nT\r\nT\n", "T 0 0\n?\n"),
        ("T without its line feed", "T\nT", "T 0 0\n?\n"),
        ("G alone", "G\n", "G 0\nE 0\n"),
        ("G without its line feed", "G", "?\n"),
        ("a line without its line feed behind G", "G\nB 0", "G 0\n?\n"),
        ("G and a space", "G \nB 0\n", "?\n"),
        ("G and a number", "G 0\nB 0\n", "?\n"),
        ("G and a carriage return", "G\r\nB 0\n", "?\n"),
        ("a small g", "g\nB 0\n", "?\n"),
        ("G twice", "G\nG\nB 0\n", "G 0\n?\n"),
        ("G in the second line", "B 0\nG\nB 1\n", "B 0\n?\n"),
        ("G behind an empty line", "\nG\nB 0\n", "?\n"),
    ];
    scripts.extend(edges.map(|(name, text, answers)| Script::Text {
        name: name.into(),
        text: text.into(),
        answers: answers.into(),
    }));
    scripts
}

/// 192 waiting: locking a new address is 10, a waiting one granted.
fn full_indexlet() -> Script {
    let mut run = Run::default();
    for job in 0..12 {
        run = run.job(job % 8, job + 1, 16 * job..16 * job + 16);
    }
    run.lines(
        "B 0 -> B 0
         P 0 192 1 0 -> P 0
         L 0 -> L 10
         B 1 -> B 0
         P 1 191 1 0 -> P 0
         L 1 -> L 0
         M 0 -> M 0 192
         L 0 -> L 0
         A 0 -> A 0
         A 1 -> A 0",
    )
    .end("192 waiting", (0..192).map(as_put))
}

/// The 17th edited address is 7, an old one granted.
fn full_write_set() -> Script {
    let mut run = Run::default().lines("B 3 -> B 0");
    for address in 1..=16 {
        run = run.lines(&format!("P 3 {address} {} 0 -> P 0", value_at(address)));
    }
    run.lines(
        "P 3 17 1 0 -> P 7
         D 3 17 -> D 7
         P 3 16 5 0 -> P 0
         D 3 1 -> D 0
         L 3 -> L 0
         V 3 -> V 0 1
         I 3 -> I 0",
    )
    .end("the 17th address", (2..16).map(as_put).chain([(16, 5)]))
}

/// 64 records fit into the 64 places of a script's buffers, 65 do not.
fn short_buffer() -> Script {
    let mut run = Run::default();
    for job in 0..4 {
        run = run.job(5, job + 1, 16 * job..16 * job + 16);
    }
    let mut records: Vec<Shown> = (0..64).map(as_shown).collect();
    run = run
        .lines("M 0 -> M 0 64\nB 6 -> B 0")
        .lines(&format!("S 6 0 63 -> S 0 64{}", listed(&records)))
        .lines("A 6 -> A 0\nB 6 -> B 0\nP 6 64 1 0 -> P 0\nS 6 0 64 -> S 8");
    records.push((64, 1, 0));
    run.lines(&format!("S 6 1 64 -> S 0 64{}", listed(&records[1..])))
        .end_owned("64 and 65 records", &records[..64])
}

/// A number may have any count of leading zeros.
fn zeros() -> Script {
    let zeros = "0".repeat(200_000);
    Run::default()
        .lines(&format!("B {zeros}2 -> B 0"))
        .lines(&format!("P {zeros}2 {zeros}4294967295 {zeros}18446744073709551615 {zeros} -> P 0"))
        .lines(&format!("R 2 {zeros}4294967295 -> R 0 18446744073709551615 0 0"))
        .lines(&format!("R 2 {zeros} -> R 0 - 1"))
        .lines("L 2 -> L 0\nV 2 -> V 0 1\nI 2 -> I 0")
        .end("200,000 leading zeros", [(u32::MAX, u64::MAX)].into_iter())
}

/// The records of `two_leaves`.
fn seventeen() -> impl Iterator<Item = u32> {
    (1..=17).map(|place| 10 * place)
}

/// 17 records in a leaf below 90 and one from there on. Two numbers are given.
pub(super) fn two_leaves() -> Run {
    Run::default().job(0, 1, (1..=16).map(|place| 10 * place)).job(0, 2, [170]).oldest(&[17, 0])
}

/// The lower number is installed later, so its edit is the younger one.
fn install_order() -> Script {
    two_leaves()
        .puts(0, 3, [20])
        .puts(1, 4, [150, 160])
        .lines("I 1 -> I 0\nI 0 -> I 0")
        .oldest(&[2, 1, 0])
        .puts(0, 5, [150, 160])
        .puts(1, 6, [20])
        .puts(2, 7, [30, 40])
        .lines("I 2 -> I 0\nI 0 -> I 0\nI 1 -> I 0")
        .oldest(&[3, 2, 0])
        .end("folds by install order", seventeen().map(as_put))
}

/// A later edit at an address that waits keeps its age, a removal too; once
/// folded, by whichever step, it starts anew. An abort installs nothing.
fn age_of_an_address() -> Script {
    two_leaves()
        .job(0, 3, [20])
        .job(1, 4, [150, 160])
        .job(2, 5, [20])
        .oldest(&[1, 2, 0])
        .job(3, 6, [150, 160])
        .job(4, 7, [20])
        .oldest(&[2, 1])
        .job(5, 8, [20])
        .job(6, 9, [150, 160])
        .lines("M 0 -> M 0 1")
        .job(7, 10, [20])
        .oldest(&[2, 1])
        .removals(0, 11, [20])
        .job(1, 12, [150, 160])
        .removals(2, 13, [20])
        .oldest(&[1, 2])
        .puts(3, 14, [30])
        .job(4, 15, [150, 160])
        .lines("A 3 -> A 0")
        .job(5, 16, [30])
        .oldest(&[2, 1, 0])
        .end("the age of an address", seventeen().filter(|&address| address != 20).map(as_put))
}

/// Of one install the lower address is older; each time the whole leaf is folded,
/// what is locked there again stays locked.
fn ages_in_one_install() -> Script {
    two_leaves()
        .job(0, 3, [160, 20, 150])
        .oldest(&[1, 2, 0])
        .job(1, 4, [30, 160])
        .job(2, 5, [20, 40, 50])
        .puts(3, 6, [160])
        .oldest(&[4, 1, 0])
        .lines("B 4 -> B 0\nP 4 160 1 0 -> P 0\nL 4 -> L 9\nI 3 -> I 0")
        .oldest(&[1, 0])
        .end("ages in one install", seventeen().map(as_put))
}

const THIN: u32 = 80;

/// A map of 192 leaves and the number of its last job: THIN leaves of one record
/// each, every eighth address, and 112 leaves that hold `filled`, eight or nine each.
fn many_leaves() -> (Run, u32) {
    let (mut run, mut number) = (Run::default(), 0);
    for part in 0..=THIN {
        number += 1;
        run = run.job(0, number, 8 * part..8 * part + 8).oldest(&[8]);
    }
    for part in 0..=THIN {
        number += 1;
        run = run.removals(1, number, 8 * part + 1..8 * part + 8).oldest(&[7]);
    }
    for some in filled()[1..].chunks(16) {
        number += 1;
        run = run.job(2, number, some.iter().copied()).oldest(&[16]);
    }
    (run, number)
}

fn thin() -> impl Iterator<Item = u32> {
    (0..THIN).map(|part| 8 * part)
}

fn filled() -> Vec<u32> {
    [8 * THIN].into_iter().chain(8 * THIN + 8..8 * THIN + 8 + 896).collect()
}

/// 192 edits wait in 192 leaves, and whatever is folded waits again at once. The
/// last of them, which no scan shows before, is folded by the 192nd turn.
fn last_of_192() -> Script {
    const LAST: u32 = 5000;
    let (mut run, mut number) = many_leaves();
    let mut waiting: Vec<u32> = thin().chain(filled().into_iter().step_by(8).take(111)).collect();
    waiting.push(LAST);
    for some in waiting.chunks(16) {
        number += 1;
        run = run.job(3, number, some.iter().copied());
    }
    for &address in &waiting[..191] {
        number += 1;
        run = run.oldest(&[1]).job(4, number, [address]);
    }
    run.lines(&format!("B 5 -> B 0\nS 5 {LAST} {LAST} -> S 0 0"))
        .oldest(&[1])
        .lines(&format!("S 5 {LAST} {LAST} -> S 0 1 {LAST} {} 0", value_at(LAST)))
        .oldest(&[1; 191])
        .oldest(&[0])
        .end("the last of 192 waiting", thin().chain(filled()).chain([LAST]).map(as_put))
}
