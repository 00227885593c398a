//! All commit numbers given.

use crate::engine::LAST_COMMIT;
use crate::generate::Generator;
use crate::scenarios;
use crate::step::Step;

/// Numbers are used up by empty transactions, after a start that leaves records
/// and pending writes in the map.
pub fn spent(generator: &mut Generator) {
    match generator.engine.last_commit() {
        0..=299 | LAST_COMMIT => scenarios::round(generator),
        number if number < LAST_COMMIT - 1 => empty_transaction(generator),
        _ => last_number(generator),
    }
}

fn empty_transaction(generator: &mut Generator) {
    let [worker] = generator.idle_workers();
    generator.begin(worker);
    generator.lock(worker);
    generator.validate(worker);
    let last =
        if generator.random.one_in(4) { Step::Install { worker } } else { Step::Abort { worker } };
    generator.play(last);
}

/// The last number changes what another has read: its refusal is still
/// "changed". Then an empty transaction stays locked, and may try again.
fn last_number(generator: &mut Generator) {
    let [reader, writer, late] = generator.idle_workers();
    let address = generator.indexed_one();
    generator.begin(reader);
    generator.read(reader, address);
    generator.begin(late);
    generator.lock(late);
    generator.begin(writer);
    generator.put(writer, address);
    generator.lock(writer);
    generator.validate(writer);
    generator.validate(late);
    generator.install(writer);
    generator.validate(late);
    generator.finish(reader);
    generator.abort(late);
}
