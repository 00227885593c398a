//! Request 102's causes at a lock, worked out from a transaction's granted steps by
//! the request's words, and what was just enough or decided where it was granted.

use plain::map::{Map, Payload};
use plain::step::Step;
use std::collections::{BTreeMap, BTreeSet};

/// Wide enough for any sum of an address and a length.
type Wide = i128;

const LAST_ADDRESS: Wide = u32::MAX as Wide;

struct Scanned {
    lo: Wide,
    hi: Wide,
    /// Present records of the index: a length and an owner.
    logged: BTreeMap<u32, Payload>,
}

/// The latest write at an address.
struct Edit {
    /// `None` for a removal.
    put: Option<Payload>,
    scans_before: usize,
}

/// What one transaction has done so far.
#[derive(Default)]
pub struct Log {
    reads: usize,
    scans: Vec<Scanned>,
    edits: BTreeMap<u32, Edit>,
}

/// The addresses of the puts that each refusal is due for, with the reason; whose
/// sections overlap; and what is to be said of all others.
#[derive(Default)]
pub struct Guard {
    pub causes: BTreeMap<u8, BTreeMap<u32, &'static str>>,
    pub owners: BTreeSet<&'static str>,
    pub calm: Vec<&'static str>,
}

impl Guard {
    pub fn has(&self, number: u8) -> bool {
        self.causes.contains_key(&number)
    }

    /// The reason, if it is the only one.
    pub fn reason(&self, number: u8) -> Option<&'static str> {
        let reasons = self.causes.get(&number)?;
        let (_, first) = reasons.first_key_value()?;
        reasons.values().all(|reason| reason == first).then_some(first)
    }

    /// Whether the one cause goes first although the other has the lowest address.
    pub fn jumps(&self, first: u8, second: u8) -> bool {
        let lowest = |number| self.causes.get(&number)?.keys().next();
        lowest(first).zip(lowest(second)).is_some_and(|(first, second)| second < first)
    }
}

/// A put with a good length.
#[derive(Clone, Copy)]
struct Section {
    address: u32,
    from: Wide,
    first: Wide,
    last: Wide,
    owner: u16,
}

impl Section {
    fn new(address: u32, Payload { value, owner }: Payload) -> Self {
        let first = Wide::from(address);
        let (from, last) = ((first - 65_535).max(0), first + value as Wide - 1);
        Section { address, from, first, last, owner }
    }

    fn meets(&self, other: &Section) -> bool {
        self.address != other.address && self.first.max(other.first) <= self.last.min(other.last)
    }

    fn touches(&self, other: &Section) -> bool {
        self.last + 1 == other.first || other.last + 1 == self.first
    }
}

impl Log {
    /// A granted step of the worker.
    pub fn note(&mut self, map: &Map, step: Step) {
        let scans_before = self.scans.len();
        match step {
            Step::Begin { .. } => *self = Log::default(),
            Step::Read { .. } => self.reads += 1,
            Step::Scan { lo, hi, .. } => self.scans.push(Scanned::new(map, lo, hi)),
            Step::Put { address, value, owner, .. } => {
                let put = Some(Payload { value, owner });
                self.edits.insert(address, Edit { put, scans_before });
            }
            Step::Remove { address, .. } => {
                self.edits.insert(address, Edit { put: None, scans_before });
            }
            _ => {}
        }
    }

    pub fn guard(&self) -> Guard {
        let mut guard = Guard::default();
        for (&address, edit) in &self.edits {
            let Some(put) = edit.put else { continue };
            let (number, reason) = match bad_length(address, put.value) {
                Some(reason) => (16, reason),
                None => {
                    let section = Section::new(address, put);
                    guard.calm.extend(edges(&section, put.value));
                    match self.judge(&section, edit.scans_before, &mut guard) {
                        Some(refusal) => refusal,
                        None => continue,
                    }
                }
            };
            guard.causes.entry(number).or_default().insert(address, reason);
        }
        guard
    }

    /// 17 or 18, with the reason.
    fn judge(
        &self,
        section: &Section,
        scans_before: usize,
        guard: &mut Guard,
    ) -> Option<(u8, &'static str)> {
        let covers = |scan: &Scanned| scan.lo <= section.from && section.last <= scan.hi;
        let covering: Vec<usize> =
            (0..self.scans.len()).filter(|&at| covers(&self.scans[at])).collect();
        let (Some(&first), Some(&latest)) = (covering.first(), covering.last()) else {
            return Some((17, self.why_unscanned(section)));
        };
        let by_first = self.overlap(section, &self.scans[first]);
        if let Some(reason) = self.overlap(section, &self.scans[latest]) {
            guard.owners.extend(self.owners(section, &self.scans[latest]));
            return Some((18, if by_first.is_none() { "the latest scan" } else { reason }));
        }
        let last = self.scans.last().and_then(|scan| self.overlap(section, scan));
        let names = [
            (by_first.is_some(), "the latest scan"),
            (first >= scans_before, "a scan after the put"),
            (last.is_some(), "a narrow scan that would refuse it"),
        ];
        guard.calm.extend(names.iter().filter(|name| name.0).map(|name| name.1));
        guard.calm.extend(self.calm(section, &self.scans[latest]));
        None
    }

    fn why_unscanned(&self, section: &Section) -> &'static str {
        let some = |test: &dyn Fn(&Scanned) -> bool| self.scans.iter().any(test);
        let together = |lower: &Scanned| {
            let joins = |upper: &Scanned| upper.lo <= lower.hi + 1 && section.last <= upper.hi;
            lower.lo <= section.from && some(&joins)
        };
        if self.scans.is_empty() && self.reads == 0 {
            "no scan"
        } else if self.scans.is_empty() {
            "reads alone"
        } else if some(&together) {
            "two scans together"
        } else if some(&|scan| scan.lo == section.from + 1 && section.last <= scan.hi) {
            "a byte at lo"
        } else if some(&|scan| scan.lo <= section.from && scan.hi == section.last - 1) {
            "a byte at hi"
        } else {
            "a scan elsewhere"
        }
    }

    /// All edits laid over what the scan logged, and whether an entry is an own put.
    fn laid_over(&self, scan: &Scanned) -> Vec<(Section, bool)> {
        let logged = scan.logged.iter().filter(|(at, _)| !self.edits.contains_key(at));
        let logged = logged.map(|(&at, &there)| (Section::new(at, there), false));
        let own = self.edits.iter().filter_map(|(&at, edit)| Some((at, edit.put?)));
        // Another put of a bad length is 16's to tell.
        let own = own.filter(|&(at, put)| bad_length(at, put.value).is_none());
        logged.chain(own.map(|(at, put)| (Section::new(at, put), true))).collect()
    }

    /// Whose are the sections in its way.
    fn owners(&self, section: &Section, scan: &Scanned) -> BTreeSet<&'static str> {
        let mut names = BTreeSet::new();
        for (other, _) in self.laid_over(scan).iter().filter(|(other, _)| other.meets(section)) {
            let same = other.owner == section.owner;
            names.insert(if same { "the same owner" } else { "another owner" });
        }
        names
    }

    fn overlap(&self, section: &Section, scan: &Scanned) -> Option<&'static str> {
        let others = self.laid_over(scan);
        let (other, own) = others.into_iter().find(|(other, _)| other.meets(section))?;
        Some(match (own, other.first < section.first) {
            (true, _) => "an own put",
            (false, true) if other.last == section.first => "a byte of a section below",
            (false, true) => "a section below",
            (false, false) if other.first == section.last => "a byte of a section above",
            (false, false) => "a section above",
        })
    }

    /// What a granted put rests on.
    fn calm(&self, section: &Section, scan: &Scanned) -> Vec<&'static str> {
        let logged: Vec<Section> =
            scan.logged.iter().map(|(&at, &there)| Section::new(at, there)).collect();
        let in_the_way = |removed: bool| {
            logged.iter().any(|old| {
                let edit = self.edits.get(&old.address);
                old.meets(section) && edit.is_some_and(|edit| edit.put.is_none() == removed)
            })
        };
        let all = self.laid_over(scan);
        let neighbour =
            |own: bool| all.iter().any(|(other, is_own)| *is_own == own && other.touches(section));
        let old = logged.iter().find(|old| old.address == section.address);
        let handed_over =
            old.is_some_and(|old| old.last == section.last && old.owner != section.owner);
        let names = [
            (scan.lo == section.from && scan.lo > 0, "lo just enough"),
            (section.first < 65_535 && scan.lo == 0, "lo 0 for a low address"),
            (scan.hi == section.last, "hi just enough"),
            (in_the_way(true), "an own removal in its way"),
            (in_the_way(false), "an own put in its way cut short"),
            (scan.logged.contains_key(&section.address), "its own old section"),
            (handed_over, "another owner alone"),
            (neighbour(false), "a section that touches it"),
            (neighbour(true), "an own put that touches it"),
        ];
        names.iter().filter(|name| name.0).map(|name| name.1).collect()
    }
}

impl Scanned {
    fn new(map: &Map, lo: u32, hi: u32) -> Self {
        let inside =
            map.index().iter().map(|record| record.address).filter(|at| (lo..=hi).contains(at));
        let present = inside.filter_map(|at| Some((at, map.current(at)?.payload)));
        Scanned { lo: lo.into(), hi: hi.into(), logged: present.collect() }
    }
}

fn bad_length(address: u32, length: u64) -> Option<&'static str> {
    let past = Wide::from(address) + Wide::from(length) - 1 - LAST_ADDRESS;
    match length {
        0 => Some("length 0"),
        1..=65_536 if past == 1 => Some("an end one past the last address"),
        1..=65_536 if past > 1 => Some("an end past the last address"),
        1..=65_536 => None,
        65_537 => Some("length 65537"),
        65_538..=0xffff_ffff => Some("a long length"),
        // What 32 bits hold of it would be good, or in 64 bits its end would wrap.
        _ if (1..=65_536).contains(&(length as u32)) => Some("a length cut to 32 bits"),
        _ if (Wide::from(address) + Wide::from(length) - 1) > Wide::from(u64::MAX) => {
            Some("a sum that wraps")
        }
        _ => Some("a length above 32 bits"),
    }
}

fn edges(section: &Section, length: u64) -> Vec<&'static str> {
    let names = [
        (length == 65_536, "length 65536"),
        (length == 1, "length 1"),
        (section.first == 0, "the first byte"),
        (section.last == LAST_ADDRESS, "the last byte"),
    ];
    names.iter().filter(|name| name.0).map(|name| name.1).collect()
}
