//! What is taken and what is free of a stretch of bytes, and writes that change it.

use crate::engine::WRITE_LIMIT;
use crate::guard::{sections, Span, LONGEST};
use crate::map::{Map, Payload, Record, Write};
use crate::random::Random;
use std::collections::BTreeMap;

/// Most sections have no more bytes than this, so that many find room.
const SHORT: u32 = 4096;

type Writes = Vec<(u32, Write)>;

pub struct Layout {
    stretch: Span,
    /// The sections that overlap the stretch, rising.
    taken: Vec<Span>,
    /// Whose sections these were at first, by address.
    owners: BTreeMap<u32, u16>,
}

impl Layout {
    pub fn new(map: &Map, stretch: Span) -> Self {
        let near = map.contents_between(stretch.reached_from(), stretch.last);
        let owners = near.iter().map(|record| (record.address, record.stored.payload.owner));
        let section = |record: &Record| Span::new(record.address, record.stored.payload.value);
        let taken = near.iter().filter_map(section).filter(|span| span.overlaps(stretch)).collect();
        Layout { stretch, taken, owners: owners.collect() }
    }

    fn gaps(&self) -> Vec<Span> {
        let mut gaps = Vec::new();
        let mut next = u64::from(self.stretch.first);
        let end = u64::from(self.stretch.last) + 1;
        let taken = self.taken.iter().map(|span| (span.first.into(), u64::from(span.last) + 1));
        for (first, behind) in taken.chain([(end, end)]) {
            if next < first {
                gaps.push(Span { first: next as u32, last: (first - 1) as u32 });
            }
            next = behind;
        }
        gaps
    }

    pub fn gap(&self, random: &mut Random) -> Option<Span> {
        let gaps = self.gaps();
        (!gaps.is_empty()).then(|| random.pick(&gaps))
    }

    /// A section that is there.
    fn some(&self, random: &mut Random) -> Option<Span> {
        (!self.taken.is_empty()).then(|| random.pick(&self.taken))
    }

    /// Takes a section out, and gives the gap at its place.
    fn open(&mut self, section: Span) -> Option<Span> {
        self.taken.retain(|&taken| taken != section);
        self.gaps().into_iter().find(|gap| gap.overlaps(section))
    }

    /// A new section in one of the gaps.
    fn place(&mut self, random: &mut Random) -> Option<(u32, Write)> {
        let gap = self.gap(random)?;
        let section = within(random, gap);
        self.taken.push(section);
        self.taken.sort_unstable_by_key(|taken| taken.first);
        Some(put(random, section))
    }
}

/// Any owner's.
pub fn put(random: &mut Random, section: Span) -> (u32, Write) {
    put_of(section, random.owner())
}

pub fn put_of(section: Span, owner: u16) -> (u32, Write) {
    (section.first, Write::Put(Payload { value: section.length(), owner }))
}

/// A section somewhere in a gap, and often at one of its ends.
pub fn within(random: &mut Random, gap: Span) -> Span {
    let most = (gap.last - gap.first).min(LONGEST as u32 - 1);
    let more = match random.below(16) {
        0 => most,
        1 => 0,
        _ => random.address(0, most.min(SHORT - 1)),
    };
    let latest = gap.last - more;
    let first = match random.below(4) {
        0 => gap.first,
        1 => latest,
        _ => random.address(gap.first, latest),
    };
    Span { first, last: first + more }
}

/// The least range of a scan that covers all these puts.
pub fn cover(writes: &[(u32, Write)]) -> Option<(u32, u32)> {
    let lo = sections(writes).flatten().map(Span::reached_from).min()?;
    let hi = sections(writes).flatten().map(|section| section.last).max()?;
    Some((lo, hi))
}

/// Writes for one transaction, with at most so many new sections or removals.
pub type Change = fn(&mut Random, &mut Layout, usize) -> Writes;

pub fn place(random: &mut Random, layout: &mut Layout, most: usize) -> Writes {
    let count = random.between(1, most);
    (0..count).filter_map(|_| layout.place(random)).collect()
}

pub fn drop_some(random: &mut Random, layout: &mut Layout, most: usize) -> Writes {
    let mut taken = layout.taken.clone();
    random.shuffle(&mut taken);
    taken.iter().take(most).map(|section| (section.first, Write::Delete)).collect()
}

/// As many removals as a transaction can have.
pub fn clear(random: &mut Random, layout: &mut Layout, _: usize) -> Writes {
    drop_some(random, layout, WRITE_LIMIT)
}

/// A section goes, and another comes elsewhere.
pub fn relocate(random: &mut Random, layout: &mut Layout, _: usize) -> Writes {
    let gone = layout.some(random).map(|section| (section.first, Write::Delete));
    gone.into_iter().chain(layout.place(random)).collect()
}

/// A section goes, and another comes at its place.
pub fn replace(random: &mut Random, layout: &mut Layout, most: usize) -> Writes {
    let Some(old) = layout.some(random) else { return place(random, layout, most) };
    let new = layout.open(old).map(|gap| {
        let section = within(random, gap);
        put(random, section)
    });
    [(old.first, Write::Delete)].into_iter().chain(new).collect()
}

/// A section gets another length.
pub fn resize(random: &mut Random, layout: &mut Layout, most: usize) -> Writes {
    let Some(old) = layout.some(random) else { return place(random, layout, most) };
    let Some(gap) = layout.open(old) else { return Vec::new() };
    let last = gap.last.min(old.first.saturating_add(LONGEST as u32 - 1));
    let section = Span { first: old.first, last: random.address(old.first, last) };
    vec![put(random, section)]
}

/// A section goes to another owner, and stays as it is.
pub fn hand_over(random: &mut Random, layout: &mut Layout, most: usize) -> Writes {
    let Some(old) = layout.some(random) else { return place(random, layout, most) };
    let owner = layout.owners[&old.first];
    vec![put_of(old, random.other_owner(owner))]
}

/// A section is cut short, and a new one comes behind it.
pub fn cut(random: &mut Random, layout: &mut Layout, most: usize) -> Writes {
    let Some(old) = layout.some(random).filter(|section| section.length() > 1) else {
        return place(random, layout, most);
    };
    let last = random.address(old.first, old.last - 1);
    let rest = Span { first: last + 1, last: old.last };
    let behind = within(random, rest);
    vec![put(random, Span { first: old.first, last }), put(random, behind)]
}

/// A section over another one: from below, from within or over its end, and often
/// by a byte alone.
pub fn collide(random: &mut Random, layout: &mut Layout, most: usize) -> Writes {
    let Some(old) = layout.some(random) else { return place(random, layout, most) };
    let below = old.first.saturating_sub(random.address(1, 9));
    let within = random.address(old.first, old.last);
    let first = random.pick(&[below, within, old.last]);
    let least = first.max(old.first);
    let more = random.address(least, old.last.saturating_add(9));
    let last = random.pick(&[least, more]).min(first.saturating_add(LONGEST as u32 - 1));
    let mut writes = place(random, layout, most);
    writes.push(put(random, Span { first, last }));
    writes
}

/// New sections that overlap each other.
pub fn crowd(random: &mut Random, layout: &mut Layout, most: usize) -> Writes {
    let mut writes = place(random, layout, most);
    let new: Vec<Span> = sections(&writes).flatten().collect();
    if let Some(&section) = new.first() {
        let first = random.address(section.first, section.last);
        let second = Span { first, last: random.address(first, section.last) };
        writes.push(put(random, second));
    }
    writes
}
