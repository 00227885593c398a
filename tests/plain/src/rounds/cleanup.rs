//! Cleanup jobs, which drop addresses that were never linked, beside jobs that scan
//! nearby and link.

use crate::generate::Generator;
use crate::map::Write;
use crate::moves::{transaction, write_of};
use crate::profiles::or_abort;
use crate::scenarios::{any_write, hold, let_go, scan_leaf};
use crate::step::Step;

const ENCOUNTERS: [fn(&mut Generator); 5] = [
    dropped_under_lock,
    dropped_under_lock,
    locked_while_it_waits,
    locked_while_it_waits,
    own_while_it_waits,
];

/// A step of one of the workers side by side, or now and then an encounter.
pub fn cleanup(generator: &mut Generator) {
    if generator.random.one_in(110) {
        generator.random.pick(&ENCOUNTERS)(generator);
    } else {
        generator.go_on(plan);
    }
}

/// Places of the map: sections are linked at the even ones, and at no other.
const PLACES: u32 = 240;

fn address(generator: &Generator, place: u32) -> u32 {
    generator.area.0 + 4 * place
}

/// Some places side by side.
struct Stretch {
    first: u32,
    last: u32,
}

impl Stretch {
    fn any(generator: &mut Generator) -> Self {
        let first = generator.random.address(0, PLACES - 20);
        Stretch { first, last: first + generator.random.address(2, 18) }
    }

    fn linked(&self, generator: &mut Generator) -> u32 {
        let place = generator.random.address(self.first, self.last) / 2 * 2;
        address(generator, place)
    }

    fn never_linked(&self, generator: &mut Generator) -> u32 {
        let place = generator.random.address(self.first, self.last) / 2 * 2 + 1;
        address(generator, place)
    }

    fn scan(&self, generator: &Generator, worker: u32) -> Step {
        let (lo, hi) = (address(generator, self.first), address(generator, self.last));
        Step::Scan { worker, lo, hi }
    }
}

/// The map fills and is emptied, over and over, so that leaves are cut and joined.
fn plan(generator: &mut Generator, worker: u32) -> Vec<Step> {
    let count = generator.map().index().len();
    generator.growing = if generator.growing { count < 70 } else { count < 16 };
    let stretch = Stretch::any(generator);
    let mut steps = Vec::new();
    if generator.random.one_in(3) {
        steps.push(Step::Merge { address: address(generator, stretch.first) });
        steps.push(Step::Merge { address: address(generator, stretch.last) });
    }
    let links = if generator.growing { 5 } else { 2 };
    let links = generator.random.below(8) < links;
    let body = if links { link } else { drop_some }(generator, worker, &stretch);
    steps.extend(or_abort(generator, transaction(worker, body), 12));
    if generator.random.one_in(6) {
        steps.push(Step::MergeOldest);
    }
    steps
}

/// Most of what it drops is not there, and it seldom looks.
fn drop_some(generator: &mut Generator, worker: u32, stretch: &Stretch) -> Vec<Step> {
    let mut body = Vec::new();
    if generator.random.one_in(3) {
        body.push(stretch.scan(generator, worker));
    }
    for _ in 0..generator.random.between(1, 5) {
        let linked = generator.random.one_in(if generator.growing { 6 } else { 2 });
        let address =
            if linked { stretch.linked(generator) } else { stretch.never_linked(generator) };
        body.extend(write(generator, worker, (address, Write::Delete)));
    }
    body
}

/// It looks before it links.
fn link(generator: &mut Generator, worker: u32, stretch: &Stretch) -> Vec<Step> {
    let mut body = vec![stretch.scan(generator, worker)];
    if generator.random.one_in(3) {
        let any = [stretch.linked(generator), stretch.never_linked(generator)];
        body.push(Step::Read { worker, address: generator.random.pick(&any) });
    }
    for _ in 0..generator.random.between(0, 4) {
        let address = stretch.linked(generator);
        let put = generator.put_at(address);
        body.extend(write(generator, worker, (address, put)));
    }
    body
}

/// Sometimes in place of another one, which was of either kind.
fn write(generator: &mut Generator, worker: u32, last: (u32, Write)) -> Vec<Step> {
    let mut writes = vec![last];
    if generator.random.one_in(6) {
        writes.insert(0, (last.0, any_write(generator, last.0)));
    }
    writes.into_iter().map(|(address, write)| write_of(worker, address, write)).collect()
}

fn either(generator: &mut Generator, address: u32) -> Write {
    if generator.random.one_in(2) {
        Write::Delete
    } else {
        generator.put_at(address)
    }
}

/// The lock outlives the removed record, and then hides its key if it is for a put.
fn dropped_under_lock(generator: &mut Generator) {
    let [reader, writer, holder] = generator.idle_workers();
    let address = Stretch::any(generator).linked(generator);
    let put = generator.put_at(address);
    generator.commit(writer, &[(address, put)]);
    generator.merge(address);
    generator.commit(writer, &[(address, Write::Delete)]);
    let write = either(generator, address);
    hold(generator, holder, (address, write));
    generator.merge(address);
    generator.begin(reader);
    scan_leaf(generator, reader, address);
    generator.finish(reader);
    let_go(generator, holder);
}

/// A write of either kind waits at an address that the index lacks.
fn waiting(generator: &mut Generator, writer: u32) -> u32 {
    let address = Stretch::any(generator).linked(generator);
    generator.commit(writer, &[(address, Write::Delete)]);
    generator.merge(address);
    let write = either(generator, address);
    generator.commit(writer, &[(address, write)]);
    address
}

/// What waits and what it is locked for each hide the key, or do not.
fn locked_while_it_waits(generator: &mut Generator) {
    let [reader, writer, holder] = generator.idle_workers();
    let address = waiting(generator, writer);
    let write = either(generator, address);
    hold(generator, holder, (address, write));
    generator.begin(reader);
    scan_leaf(generator, reader, address);
    generator.finish(reader);
    let_go(generator, holder);
}

/// A worker's own lock hides nothing from it, but a put that waits there does.
fn own_while_it_waits(generator: &mut Generator) {
    let [worker, writer] = generator.idle_workers();
    let address = waiting(generator, writer);
    let write = either(generator, address);
    generator.begin(worker);
    scan_leaf(generator, worker, address);
    generator.write(worker, (address, write));
    generator.finish(worker);
}
