//! Guarded maps: workers that place, move, resize and drop sections, and that
//! often do not do so as the guard wants it.

mod encounters;
mod faults;
mod layout;

pub use layout::cover;

use crate::choose::leaf_around;
use crate::engine::WORKERS;
use crate::generate::Generator;
use crate::guard::Span;
use crate::map::{Write, MAP_LIMIT};
use crate::moves::{transaction, write_of};
use crate::profiles::{or_abort, wild};
use crate::step::Step;
use layout::{clear, collide, crowd, cut, drop_some, place};
use layout::{hand_over, relocate, replace, resize, Change, Layout};

const GROWING: [Change; 14] = [
    place, place, place, place, place, place, drop_some, relocate, replace, resize, hand_over, cut,
    collide, crowd,
];

const SHRINKING: [Change; 14] = [
    place, clear, clear, clear, clear, clear, clear, relocate, replace, resize, hand_over, cut,
    collide, crowd,
];

/// A step of one of the workers side by side, or now and then something special.
pub fn guarded(generator: &mut Generator) {
    if full_or_empty(generator) {
        generator.growing = !generator.growing;
        encounters::attempts(generator);
    }
    match generator.random.below(3000) {
        0..=1 => encounters::full_indexlet(generator),
        2..=63 => encounters::round(generator),
        64..=123 => wild(generator),
        _ => generator.go_on(plan),
    }
}

/// Few places are left, so that most puts are refused.
const FULL: usize = MAP_LIMIT - 11;

/// The map grows until it is full and has been so for a while, and shrinks until
/// there is room, or at times much room.
fn full_or_empty(generator: &mut Generator) -> bool {
    let indexed = generator.map().index().len();
    match (generator.growing, indexed) {
        (true, FULL..) => generator.random.one_in(300),
        (false, ..200) => true,
        (false, ..700) => generator.random.one_in(1000),
        _ => false,
    }
}

const PART: u32 = 1 << 20;

/// The parts lie far apart. The first begins with the first address, the last ends
/// with the last.
fn part(at: u32) -> Span {
    let last_part = WORKERS as u32 - 1;
    let first = if at == last_part { u32::MAX - (PART - 1) } else { at << 29 };
    Span { first, last: first + (PART - 1) }
}

/// Some bytes of a part, often at one of its ends.
fn stretch(generator: &mut Generator, at: u32) -> Span {
    let (part, random) = (part(at), &mut generator.random);
    let more = random.pick(&[1 << 12, 1 << 14, 1 << 14, 1 << 15, 1 << 17]) - 1;
    let latest = part.last - more;
    let first = match random.below(6) {
        0 => part.first,
        1 => latest,
        _ => random.address(part.first, latest),
    };
    Span { first, last: first + more }
}

fn any_stretch(generator: &mut Generator) -> Span {
    let at = generator.random.below(WORKERS) as u32;
    stretch(generator, at)
}

/// A transaction in the worker's own part, or sometimes in another's.
fn plan(generator: &mut Generator, worker: u32) -> Vec<Step> {
    let strays = generator.random.one_in(4);
    let stretch = if strays { any_stretch(generator) } else { stretch(generator, worker) };
    let (changes, most) = if generator.growing { (&GROWING, 5) } else { (&SHRINKING, 2) };
    let change = generator.random.pick(changes);
    let body = body(generator, worker, stretch, change, most);
    let mut steps = if generator.random.one_in(8) { vec![] } else { merges(generator, stretch) };
    let whole = transaction(worker, body);
    steps.extend(or_abort(generator, whole, 20));
    steps
}

/// A scan and writes of a stretch, at times spoiled.
fn body(
    generator: &mut Generator,
    worker: u32,
    stretch: Span,
    change: Change,
    most: usize,
) -> Vec<Step> {
    let mut layout = Layout::new(generator.map(), stretch);
    let random = &mut generator.random;
    let writes = change(random, &mut layout, most);
    let mut body = scan(worker, stretch, &writes, random.one_in(2));
    body.extend(writes.into_iter().map(|(address, write)| write_of(worker, address, write)));
    match random.below(12) {
        0..=1 => faults::spoil(random, &mut body),
        2 => body.reverse(),
        3 => random.shuffle(&mut body),
        4 => body.extend(body.first().copied()),
        _ => {}
    }
    body
}

/// The scan that the puts need, and no more if it is to be narrow. Removals alone
/// need none.
fn scan(worker: u32, stretch: Span, writes: &[(u32, Write)], narrow: bool) -> Vec<Step> {
    let (lo, hi) = match cover(writes) {
        Some(least) if narrow => least,
        Some((lo, hi)) => (lo.min(stretch.reached_from()), hi.max(stretch.last)),
        None if narrow => return Vec::new(),
        None => (stretch.first, stretch.last),
    };
    vec![Step::Scan { worker, lo, hi }]
}

/// Merges of all that is pending where a scan of the stretch looks.
fn merges(generator: &mut Generator, stretch: Span) -> Vec<Step> {
    let low = leaf_around(generator, stretch.reached_from()).0;
    let high = leaf_around(generator, stretch.last).1;
    let mut pending = generator.pending();
    pending.retain(|address| (low..=high).contains(address));
    pending.dedup_by_key(|address| generator.map().leaf_at(*address));
    let mut steps: Vec<Step> = pending.into_iter().map(|address| Step::Merge { address }).collect();
    if generator.random.one_in(6) {
        steps.insert(0, Step::MergeOldest);
    }
    steps
}
