//! Merges that pick their own leaf, and no others.

use super::look;
use crate::generate::Generator;
use crate::map::INDEXLET_LIMIT;
use crate::moves::write_of;
use crate::scenarios::any_write;
use crate::step::Answer;

/// Workers that take their numbers in one order and install in another, over
/// many leaves. What is pending grows and shrinks, now and then to nothing.
pub fn turns(generator: &mut Generator) {
    if generator.total() > 700 || generator.map().leaves().len() < 8 {
        generator.shrink(100);
        generator.grow(400);
        generator.merge_all();
    }
    install_in_any_order(generator);
    let pending = generator.pending().len();
    generator.growing = if generator.growing { pending < INDEXLET_LIMIT / 2 } else { pending < 4 };
    let most = if generator.growing { 2 } else { 16 };
    for _ in 0..generator.random.between(0, most) {
        if generator.merge_oldest() == Answer::Merged(0) {
            break;
        }
    }
    if generator.random.one_in(8) {
        look(generator);
    }
}

fn install_in_any_order(generator: &mut Generator) {
    let mut workers: [u32; 4] = generator.idle_workers();
    for &worker in &workers {
        generator.begin(worker);
        for _ in 0..generator.random.between(1, 4) {
            let address = some_address(generator);
            let write = any_write(generator, address);
            generator.play(write_of(worker, address, write));
        }
        generator.lock(worker);
        generator.validate(worker);
    }
    generator.random.shuffle(&mut workers);
    for worker in workers {
        generator.install(worker);
        if generator.random.one_in(6) {
            generator.merge_oldest();
        }
    }
}

/// One that waits, one of the index, or a new one.
fn some_address(generator: &mut Generator) -> u32 {
    let pending = generator.pending();
    match generator.random.below(7) {
        0..=1 if !pending.is_empty() => generator.random.pick(&pending),
        2..=4 => generator.fresh_one(),
        _ => generator.indexed_one(),
    }
}
