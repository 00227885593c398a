//! What may be wrong with a guarded transaction but for an overlap: one fault is
//! put into its steps.

use crate::guard::LONGEST;
use crate::random::Random;
use crate::step::Step;

const FAULTS: [fn(&mut Random, &mut Vec<Step>); 10] = [
    bad_length,
    bad_length,
    past_the_end,
    no_scan,
    only_read,
    short_at_lo,
    short_at_hi,
    two_halves,
    past_the_scan,
    past_the_scan,
];

pub fn spoil(random: &mut Random, body: &mut Vec<Step>) {
    random.pick(&FAULTS)(random, body);
}

/// One of the puts gets a length that cannot be. Some would be good if they were cut
/// to 32 bits, or if the end wrapped.
fn bad_length(random: &mut Random, body: &mut Vec<Step>) {
    let puts: Vec<usize> =
        (0..body.len()).filter(|&at| matches!(body[at], Step::Put { .. })).collect();
    if puts.is_empty() {
        return;
    }
    if let Step::Put { address, value, .. } = &mut body[random.pick(&puts)] {
        let wraps = 0u64.wrapping_sub((*address).into()).wrapping_add(random.number() % 100);
        let good = 1 + random.number() % LONGEST;
        let long = LONGEST + good;
        *value = random.pick(&[0, LONGEST + 1, long, (1 << 32) + good, wraps, 1 << 63, u64::MAX]);
    }
}

/// One more put, whose end is one past the highest address or further.
fn past_the_end(random: &mut Random, body: &mut Vec<Step>) {
    let Some(worker) = body.first().and_then(|step| step.worker()) else { return };
    let short = random.address(0, 1000);
    let length = u64::from(short) + 2 + if random.one_in(2) { 0 } else { random.number() % 60_000 };
    let (address, owner) = (u32::MAX - short, random.owner());
    body.push(Step::Put { worker, address, value: length, owner });
}

/// Replaces the first scan.
fn rescan(body: &mut Vec<Step>, scans: impl Fn(u32, u32, u32) -> Vec<Step>) {
    for at in 0..body.len() {
        if let Step::Scan { worker, lo, hi } = body[at] {
            body.splice(at..=at, scans(worker, lo, hi));
            return;
        }
    }
}

fn no_scan(_: &mut Random, body: &mut Vec<Step>) {
    rescan(body, |_, _, _| Vec::new());
}

fn only_read(_: &mut Random, body: &mut Vec<Step>) {
    let read = |worker, address| Step::Read { worker, address };
    rescan(body, |worker, lo, hi| vec![read(worker, lo), read(worker, hi)]);
}

fn short_at_lo(_: &mut Random, body: &mut Vec<Step>) {
    rescan(body, |worker, lo, hi| vec![Step::Scan { worker, lo: lo.saturating_add(1), hi }]);
}

fn short_at_hi(_: &mut Random, body: &mut Vec<Step>) {
    rescan(body, |worker, lo, hi| vec![Step::Scan { worker, lo, hi: hi.saturating_sub(1) }]);
}

/// Together they cover what the one did.
fn two_halves(random: &mut Random, body: &mut Vec<Step>) {
    let number = random.number();
    rescan(body, |worker, lo, hi| {
        let last = lo + (number % (u64::from(hi.saturating_sub(lo)) + 1)) as u32;
        let lower = Step::Scan { worker, lo, hi: last };
        vec![lower, Step::Scan { worker, lo: last.saturating_add(1), hi }]
    });
}

/// One more put, just above what the scans see.
fn past_the_scan(random: &mut Random, body: &mut Vec<Step>) {
    let scans = body.iter().filter_map(|step| match *step {
        Step::Scan { worker, hi, .. } => Some((hi, worker)),
        _ => None,
    });
    let Some((hi, worker)) = scans.max() else { return };
    let (value, owner) = (1 + random.number() % 100, random.owner());
    body.push(Step::Put { worker, address: hi.saturating_add(1), value, owner });
}
