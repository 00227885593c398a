//! Short encounters of two or three workers: the ways in which a validation or
//! a lock is refused, and those in which it only looks so.

use crate::choose::leaf_around;
use crate::engine::{LAST_COMMIT, WORKERS};
use crate::generate::Generator;
use crate::map::Write;
use crate::step::Step;

const SCENARIOS: [fn(&mut Generator); 19] = [
    pending_phantom,
    locked_phantom,
    dropped_under_lock,
    own_lock_is_no_phantom,
    own_lock_on_a_pending_write,
    merged_leaf,
    merged_under_lock,
    changed,
    same_payload,
    other_owner,
    own_edit_of_other_owner,
    there_and_back,
    under_lock,
    several_causes,
    crossing,
    number_before_install,
    held,
    wrong_stages,
    abort_anywhere,
];

/// One scenario, on a map of moderate size.
pub fn round(generator: &mut Generator) {
    if generator.total() > 400 && generator.engine.last_commit() < LAST_COMMIT {
        generator.shrink(20);
    }
    let scenario = generator.random.pick(&SCENARIOS);
    scenario(generator);
    if generator.random.one_in(4) {
        generator.merge_some();
    }
}

/// A scan in the leaf of the address, which it may miss.
pub fn scan_leaf(generator: &mut Generator, worker: u32, address: u32) {
    let (low, high) = leaf_around(generator, address);
    let random = &mut generator.random;
    let (lo, hi) = match random.below(3) {
        0 => (low, high),
        1 => (random.address(low, address), random.address(address, high)),
        _ => {
            let lo = random.address(low, high);
            (lo, random.address(lo, high))
        }
    };
    generator.scan(worker, lo, hi);
}

fn read_or_scan(generator: &mut Generator, worker: u32, address: u32) {
    if generator.random.one_in(2) {
        generator.read(worker, address);
    } else {
        generator.scan(worker, address, address);
    }
}

pub fn any_write(generator: &mut Generator, address: u32) -> Write {
    if generator.random.one_in(3) {
        Write::Delete
    } else {
        generator.put_at(address)
    }
}

fn maybe_merge(generator: &mut Generator, address: u32) {
    if generator.random.one_in(2) {
        generator.merge(address);
    }
}

/// A record in the index with nothing pending or locked at it, if granted.
fn settled(generator: &mut Generator, worker: u32) -> u32 {
    let address = generator.indexed_one();
    let entry = generator.map().indexlet().get(&address);
    if entry.is_none() && generator.map().indexed(address).is_some() {
        return address;
    }
    let new = generator.fresh(3);
    let writes = generator.puts(&new);
    generator.commit(worker, &writes);
    generator.merge(new[0]);
    new[0]
}

/// The holder locks one address with a write.
pub fn hold(generator: &mut Generator, holder: u32, write: (u32, Write)) {
    generator.begin(holder);
    generator.write(holder, write);
    generator.lock(holder);
}

pub fn let_go(generator: &mut Generator, holder: u32) {
    if generator.random.one_in(2) && generator.validate(holder).granted() {
        generator.install(holder);
    } else {
        generator.idle(holder);
    }
}

fn pending_phantom(generator: &mut Generator) {
    let [reader, writer] = generator.idle_workers();
    let new = generator.fresh_one();
    let write = any_write(generator, new);
    generator.begin(reader);
    let early = generator.random.one_in(2);
    if early {
        scan_leaf(generator, reader, new);
    }
    generator.commit(writer, &[(new, write)]);
    if !early {
        scan_leaf(generator, reader, new);
    }
    generator.finish(reader);
}

fn locked_phantom(generator: &mut Generator) {
    let [reader, holder] = generator.idle_workers();
    let new = generator.fresh_one();
    let write = any_write(generator, new);
    generator.merge(new);
    generator.begin(reader);
    let early = generator.random.one_in(2);
    if early {
        scan_leaf(generator, reader, new);
    }
    hold(generator, holder, (new, write));
    if !early {
        scan_leaf(generator, reader, new);
    }
    generator.finish(reader);
    let_go(generator, holder);
}

/// The lock outlives the removed record, and then hides its key if it is for a put.
fn dropped_under_lock(generator: &mut Generator) {
    let [reader, writer, holder] = generator.idle_workers();
    let address = settled(generator, writer);
    generator.commit(writer, &[(address, Write::Delete)]);
    let write = any_write(generator, address);
    hold(generator, holder, (address, write));
    generator.merge(address);
    generator.begin(reader);
    scan_leaf(generator, reader, address);
    generator.finish(reader);
    let_go(generator, holder);
}

fn own_lock_is_no_phantom(generator: &mut Generator) {
    let [worker] = generator.idle_workers();
    let new = generator.fresh_one();
    let write = any_write(generator, new);
    generator.merge(new);
    generator.begin(worker);
    scan_leaf(generator, worker, new);
    generator.write(worker, (new, write));
    generator.finish(worker);
}

fn own_lock_on_a_pending_write(generator: &mut Generator) {
    let [worker, writer] = generator.idle_workers();
    let new = generator.fresh_one();
    let write = any_write(generator, new);
    generator.merge(new);
    generator.commit(writer, &[(new, write)]);
    generator.begin(worker);
    scan_leaf(generator, worker, new);
    generator.write(worker, (new, write));
    generator.finish(worker);
}

/// A merge that counts gives the leaf another version, whatever it changes.
fn merged_leaf(generator: &mut Generator) {
    let [reader, writer] = generator.idle_workers();
    let address = settled(generator, writer);
    generator.begin(reader);
    scan_leaf(generator, reader, address);
    let write = any_write(generator, address);
    generator.commit(writer, &[(address, write)]);
    generator.merge(address);
    generator.finish(reader);
}

/// A merged insertion under lock is in the index, so it is no phantom.
fn merged_under_lock(generator: &mut Generator) {
    let [reader, writer, holder] = generator.idle_workers();
    let new = generator.fresh_one();
    let put = generator.put_at(new);
    generator.commit(writer, &[(new, put)]);
    let write = any_write(generator, new);
    hold(generator, holder, (new, write));
    generator.merge(new);
    generator.begin(reader);
    scan_leaf(generator, reader, new);
    generator.finish(reader);
    let_go(generator, holder);
}

fn changed(generator: &mut Generator) {
    let [reader, writer] = generator.idle_workers();
    let settled = settled(generator, writer);
    let new = generator.fresh_one();
    let address = generator.random.pick(&[settled, new]);
    generator.begin(reader);
    read_or_scan(generator, reader, address);
    let write = any_write(generator, address);
    generator.commit(writer, &[(address, write)]);
    maybe_merge(generator, address);
    generator.finish(reader);
}

/// The stamp is another one, and nothing else.
fn same_payload(generator: &mut Generator) {
    let [reader, writer] = generator.idle_workers();
    let address = settled(generator, writer);
    let Some(stored) = generator.map().current(address) else { return };
    generator.begin(reader);
    read_or_scan(generator, reader, address);
    generator.commit(writer, &[(address, Write::Put(stored.payload))]);
    maybe_merge(generator, address);
    generator.finish(reader);
}

/// The section goes to another owner, and the next job sees whose it is.
fn other_owner(generator: &mut Generator) {
    let [reader, writer, next] = generator.idle_workers();
    let address = settled(generator, writer);
    let put = generator.hand_over(address);
    generator.begin(reader);
    read_or_scan(generator, reader, address);
    generator.commit(writer, &[(address, put)]);
    maybe_merge(generator, address);
    generator.begin(next);
    read_or_scan(generator, next, address);
    generator.finish(next);
    generator.finish(reader);
}

/// A second put at an address, of another owner alone, replaces the first.
fn own_edit_of_other_owner(generator: &mut Generator) {
    let [worker] = generator.idle_workers();
    let settled = settled(generator, worker);
    let new = generator.fresh_one();
    let address = generator.random.pick(&[settled, new]);
    generator.idle(worker);
    generator.begin(worker);
    let first = generator.payload();
    for payload in [first, generator.of_other_owner(first)] {
        generator.write(worker, (address, Write::Put(payload)));
        read_or_scan(generator, worker, address);
    }
    generator.finish(worker);
}

/// Absent then and absent now are equal, whatever happened between.
fn there_and_back(generator: &mut Generator) {
    let [reader, writer] = generator.idle_workers();
    let new = generator.fresh_one();
    let put = generator.put_at(new);
    generator.begin(reader);
    generator.read(reader, new);
    generator.commit(writer, &[(new, put)]);
    maybe_merge(generator, new);
    generator.commit(writer, &[(new, Write::Delete)]);
    maybe_merge(generator, new);
    generator.finish(reader);
}

fn under_lock(generator: &mut Generator) {
    let [reader, writer, holder] = generator.idle_workers();
    let settled = settled(generator, writer);
    let new = generator.fresh_one();
    let address = generator.random.pick(&[settled, new]);
    let write = any_write(generator, address);
    generator.begin(reader);
    if generator.random.one_in(2) {
        read_or_scan(generator, reader, address);
        hold(generator, holder, (address, write));
    } else {
        hold(generator, holder, (address, write));
        read_or_scan(generator, reader, address);
    }
    generator.finish(reader);
    let_go(generator, holder);
}

/// Any of the three causes at once; the lowest is to be answered.
fn several_causes(generator: &mut Generator) {
    let [reader, writer, holder] = generator.idle_workers();
    let address = settled(generator, writer);
    let new = generator.fresh(3);
    generator.begin(reader);
    generator.read(reader, new[0]);
    generator.read(reader, new[1]);
    scan_leaf(generator, reader, address);
    scan_leaf(generator, reader, new[2]);
    let write = any_write(generator, new[1]);
    let put = generator.put_at(new[0]);
    if generator.random.one_in(2) {
        generator.commit(writer, &[(new[0], put)]);
    }
    if generator.random.one_in(2) {
        hold(generator, holder, (new[1], write));
    }
    if generator.random.one_in(2) {
        generator.commit(writer, &[(new[2], write)]);
    }
    generator.finish(reader);
    generator.idle(holder);
}

/// Each reads what the other writes: only one may win.
fn crossing(generator: &mut Generator) {
    let pair: [u32; 2] = generator.idle_workers();
    let addresses = generator.fresh(2);
    for (at, &worker) in pair.iter().enumerate() {
        generator.begin(worker);
        generator.read(worker, addresses[at]);
        generator.put(worker, addresses[1 - at]);
    }
    generator.lock(pair[0]);
    generator.lock(pair[1]);
    for worker in pair {
        if generator.validate(worker).granted() {
            generator.install(worker);
        }
    }
}

/// The first number is installed last.
fn number_before_install(generator: &mut Generator) {
    let [first, second] = generator.idle_workers();
    let addresses = generator.fresh(2);
    generator.begin(first);
    generator.read(first, addresses[1]);
    generator.put(first, addresses[0]);
    generator.lock(first);
    let granted = generator.validate(first).granted();
    generator.begin(second);
    generator.put(second, addresses[1]);
    generator.finish(second);
    if granted {
        generator.install(first);
    }
}

fn held(generator: &mut Generator) {
    let [worker, holder] = generator.idle_workers();
    let addresses = generator.fresh(2);
    let write = any_write(generator, addresses[0]);
    hold(generator, holder, (addresses[0], write));
    generator.begin(worker);
    generator.write(worker, (addresses[0], write));
    generator.put(worker, addresses[1]);
    generator.lock(worker);
    let_go(generator, holder);
    generator.finish(worker);
}

/// Every step at every stage it does not belong to, and at no worker at all.
fn wrong_stages(generator: &mut Generator) {
    let [worker] = generator.idle_workers();
    generator.begin(worker);
    generator.put(worker, 7);
    try_all(generator, worker, "BVI");
    generator.lock(worker);
    try_all(generator, worker, "BRSPDLI");
    if generator.validate(worker).granted() {
        try_all(generator, worker, "BRSPDLV");
        generator.install(worker);
    }
    generator.idle(worker);
    try_all(generator, worker, "RSPDLVIA");
    let beyond = WORKERS as u32 + generator.random.pick(&[0, 1, u32::MAX - 8]);
    try_all(generator, beyond, "BRSPDLVIA");
}

fn try_all(generator: &mut Generator, worker: u32, letters: &str) {
    for letter in letters.bytes() {
        generator.play(match letter {
            b'B' => Step::Begin { worker },
            b'R' => Step::Read { worker, address: 7 },
            b'S' => Step::Scan { worker, lo: 9, hi: 7 },
            b'P' => Step::Put { worker, address: 7, value: 1, owner: 2 },
            b'D' => Step::Remove { worker, address: 7 },
            b'L' => Step::Lock { worker },
            b'V' => Step::Validate { worker },
            b'I' => Step::Install { worker },
            _ => Step::Abort { worker },
        });
    }
}

fn abort_anywhere(generator: &mut Generator) {
    let [worker] = generator.idle_workers();
    let address = generator.fresh_one();
    generator.begin(worker);
    generator.put(worker, address);
    let stage = generator.random.below(3);
    if stage > 0 {
        generator.lock(worker);
    }
    if stage > 1 {
        generator.validate(worker);
    }
    generator.idle(worker);
}
