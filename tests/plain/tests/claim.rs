//! The claim's check on histories made by hand: good ones pass, and each way to
//! break the claim is found.

use plain::claim::{check, record, Event, Holds, Run};
use plain::engine::{Engine, Reading};
use plain::list::Item;
use plain::map::Payload;
use plain::script;
use plain::step::{Answer, Step};

fn event(line: &str) -> Event {
    let (input, output) = line.trim().split_once(" -> ").expect("an arrow");
    let step = script::steps(format!("{input}\n").as_bytes())[0];
    let words: Vec<&str> = output.split(' ').skip(1).collect();
    let numbers: Vec<u64> = words.iter().map(|word| word.parse().unwrap_or(0)).collect();
    let answer = match step {
        _ if numbers[0] > 0 => Answer::Refused(numbers[0] as u8),
        Step::Read { .. } => Answer::Read(reading(&words[1..])),
        Step::Scan { .. } => Answer::Found(numbers[1] as usize),
        Step::Validate { .. } => Answer::Commit(numbers[1] as u32),
        Step::Merge { .. } | Step::MergeOldest => Answer::Merged(numbers[1] as usize),
        _ => Answer::Granted,
    };
    let shown = numbers.get(2..).unwrap_or(&[]).chunks_exact(3);
    let found = shown.map(|record| (record[0] as u32, record[1], record[2] as u16));
    Event { step, answer, found: found.collect() }
}

/// Value and owner, or a dash, and then the slots examined.
fn reading(words: &[&str]) -> Reading {
    let payload = match words[..words.len() - 1] {
        [value, owner] => Some(Payload {
            value: value.parse().expect("a value"),
            owner: owner.parse().expect("an owner"),
        }),
        _ => None,
    };
    Reading { payload, examined: words[words.len() - 1].parse().ok() }
}

/// A history by lines, and the contents as address, value and stamp, all of owner 0.
fn judge(history: &str, contents: &[(u32, u64, u32)]) -> Result<Holds, String> {
    let item =
        |&(address, value, stamp): &(u32, u64, u32)| Item { address, value, owner: 0, stamp };
    judge_items(history, contents.iter().map(item).collect())
}

fn judge_items(history: &str, contents: Vec<Item>) -> Result<Holds, String> {
    let lines = history.lines().filter(|line| !line.trim().is_empty());
    check(&Run { history: lines.map(event).collect(), contents })
}

fn refused(history: &str, contents: &[(u32, u64, u32)], why: &str) {
    let failure = judge(history, contents).expect_err("the claim is broken");
    assert!(failure.contains(why), "{failure}");
}

/// One worker's whole transaction with a put.
fn put(worker: u32, address: u32, value: u64, number: u32) -> String {
    format!(
        "B {worker} -> B 0\nP {worker} {address} {value} 0 -> P 0\nL {worker} -> L 0
         V {worker} -> V 0 {number}\nI {worker} -> I 0\n"
    )
}

#[test]
fn full_run_holds() {
    let history = put(0, 4096, 32, 1)
        + "B 1 -> B 0
           S 1 4000 5000 -> S 0 0
           L 1 -> L 0
           V 1 -> V 14
           M 4096 -> M 0 1
           B 1 -> B 0
           S 1 4000 5000 -> S 0 1 4096 32 0
           R 1 4096 -> R 0 32 0 1
           L 1 -> L 0
           V 1 -> V 0 2
           I 1 -> I 0";
    let holds = judge(&history, &[(4096, 32, 1)]).unwrap();
    assert_eq!(holds, Holds { transactions: 2, answers: 2 });
}

#[test]
fn scan_that_misses_a_pending_section() {
    let history = put(0, 4096, 32, 1)
        + "B 1 -> B 0
           S 1 4000 5000 -> S 0 0
           L 1 -> L 0
           V 1 -> V 0 2
           I 1 -> I 0";
    refused(&history, &[(4096, 32, 1)], "the list scans");
}

/// Worker 1 is to remove 7, and worker 2 scans it meanwhile and gets the lower number.
fn scan_under_removal() -> &'static str {
    "B 1 -> B 0
     D 1 7 -> D 0
     L 1 -> L 0
     B 2 -> B 0
     S 2 0 9 -> S 0 0
     L 2 -> L 0
     V 2 -> V 0 2
     I 2 -> I 0
     V 1 -> V 0 3
     I 1 -> I 0"
}

/// It may miss a removal that waits or is locked, but not a put that waits under it.
#[test]
fn scan_that_misses_a_removal() {
    let removal = "B 0 -> B 0\nD 0 7 -> D 0\nL 0 -> L 0\nV 0 -> V 0 1\nI 0 -> I 0\n";
    judge(&(removal.to_string() + scan_under_removal()), &[]).unwrap();
    refused(&(put(0, 7, 1, 1) + scan_under_removal()), &[], "the list scans");
}

/// Worker 0 reads 2 as absent, and is installed after worker 1 put it.
fn two_orders(first: u32, second: u32) -> String {
    format!(
        "B 0 -> B 0
         R 0 2 -> R 0 - 1
         P 0 1 10 0 -> P 0
         L 0 -> L 0
         B 1 -> B 0
         P 1 2 20 0 -> P 0
         L 1 -> L 0
         V 0 -> V 0 {first}
         V 1 -> V 0 {second}
         I 1 -> I 0
         I 0 -> I 0"
    )
}

#[test]
fn order_by_install() {
    judge(&two_orders(1, 2), &[(1, 10, 1), (2, 20, 2)]).unwrap();
    refused(&two_orders(2, 1), &[(1, 10, 2), (2, 20, 1)], "the list reads");
}

#[test]
fn wrong_contents() {
    let history = put(0, 5, 6, 1);
    judge(&history, &[(5, 6, 1)]).unwrap();
    refused(&history, &[(5, 6, 2)], "contents");
    refused(&history, &[(5, 7, 1)], "contents");
    refused(&history, &[], "contents");
    refused(&history, &[(5, 6, 1), (6, 6, 1)], "contents");
}

#[test]
fn against_real_time() {
    let history = put(0, 5, 6, 2) + &put(1, 7, 8, 1);
    refused(&history, &[(5, 6, 2), (7, 8, 1)], "began after");
}

#[test]
fn one_number_for_two() {
    let history = two_orders(1, 1);
    refused(&history, &[(1, 10, 1), (2, 20, 1)], "twice");
}

#[test]
fn numbers_out_of_bounds() {
    refused(&put(0, 5, 6, 0), &[(5, 6, 0)], "of 1 given");
    refused(&put(0, 5, 6, 2), &[(5, 6, 2)], "of 1 given");
    let without = "B 0 -> B 0\nP 0 5 6 0 -> P 0\nL 0 -> L 0\nI 0 -> I 0";
    refused(without, &[(5, 6, 1)], "of 0 given");
}

#[test]
fn wrong_value_read() {
    let read = |answer: &str| {
        put(0, 5, 6, 1)
            + &format!("B 1 -> B 0\nR 1 5 -> R 0 {answer}\nL 1 -> L 0\nV 1 -> V 0 2\nI 1 -> I 0")
    };
    judge(&read("6 0 1"), &[(5, 6, 1)]).unwrap();
    refused(&read("7 0 1"), &[(5, 6, 1)], "the list reads");
    refused(&read("6 1 1"), &[(5, 6, 1)], "the list reads");
    refused(&read("- 1"), &[(5, 6, 1)], "the list reads");
    // How many slots were examined takes no part in it.
    judge(&read("6 0 0"), &[(5, 6, 1)]).unwrap();
    judge(&read("6 0 256"), &[(5, 6, 1)]).unwrap();
}

#[test]
fn wrong_places_of_a_scan() {
    let scan = |answer: &str| {
        put(0, 5, 6, 1)
            + &format!("B 1 -> B 0\nS 1 0 9 -> S 0 {answer}\nL 1 -> L 0\nV 1 -> V 0 2\nI 1 -> I 0")
    };
    judge(&scan("1 5 6 0"), &[(5, 6, 1)]).unwrap();
    refused(&scan("1 5 7 0"), &[(5, 6, 1)], "the list scans");
    refused(&scan("1 4 6 0"), &[(5, 6, 1)], "the list scans");
    refused(&scan("1 5 6 1"), &[(5, 6, 1)], "the list scans");
    refused(&scan("2 5 6 0 5 6 0"), &[(5, 6, 1)], "the list scans");
    refused(&scan("1"), &[(5, 6, 1)], "the list scans");
}

/// A job hands the section at 5 over, and another one must see that.
#[test]
fn wrong_owners() {
    let history = |read: u16, scan: u16| {
        put(0, 5, 6, 1)
            + "B 1 -> B 0\nP 1 5 6 9 -> P 0\nL 1 -> L 0\nV 1 -> V 0 2\nI 1 -> I 0\nM 0 -> M 0 1"
            + &format!("\nB 2 -> B 0\nR 2 5 -> R 0 6 {read} 1\nS 2 0 9 -> S 0 1 5 6 {scan}")
            + "\nL 2 -> L 0\nV 2 -> V 0 3\nI 2 -> I 0"
    };
    let left = |owner, stamp| vec![Item { address: 5, value: 6, owner, stamp }];
    let judge = |read, scan, contents| judge_items(&history(read, scan), contents);
    assert_eq!(judge(9, 9, left(9, 2)), Ok(Holds { transactions: 3, answers: 2 }));
    let why = |judged: Result<Holds, String>| judged.expect_err("the claim is broken");
    assert!(why(judge(0, 9, left(9, 2))).contains("the list reads"));
    assert!(why(judge(9, 0, left(9, 2))).contains("the list scans"));
    assert!(why(judge(9, 9, left(0, 2))).contains("contents"));
    assert!(why(judge(9, 9, left(9, 1))).contains("contents"));
}

/// What is refused, aborted, ended or not yet installed is not fed.
#[test]
fn only_installed_transactions_count() {
    let history = put(0, 5, 6, 1)
        + "B 1 -> B 0
           P 1 5 7 0 -> P 0
           L 1 -> L 0
           V 1 -> V 0 2
           A 1 -> A 0
           B 1 -> B 0
           P 1 8 1 0 -> P 0
           P 1 9 1 0 -> P 7
           L 1 -> L 0
           V 1 -> V 0 3
           B 2 -> B 0
           P 2 5 9 0 -> P 0";
    let holds = judge(&history, &[(5, 6, 1)]).unwrap();
    assert_eq!(holds, Holds { transactions: 1, answers: 0 });
}

/// A lock that a guarded map refuses is not fed either, and its job may still be.
#[test]
fn a_guarded_day_holds() {
    let day = include_bytes!("../../samples/guarded.script");
    assert!(script::guarded(day));
    let run = record(Engine::new(true), script::steps(day));
    let refused = |number| run.history.iter().any(|event| event.answer == Answer::Refused(number));
    assert!([16, 17, 18].into_iter().all(refused));
    assert_eq!(check(&run), Ok(Holds { transactions: 5, answers: 6 }));
}

#[test]
fn install_without_a_begin() {
    refused("I 0 -> I 0", &[], "without a begin");
    let twice = put(0, 5, 6, 1) + "I 0 -> I 0";
    refused(&twice, &[(5, 6, 1)], "without a begin");
}
