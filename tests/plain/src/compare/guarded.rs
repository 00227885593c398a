//! Runs on guarded maps (request 102) with their answers written down by hand.

use super::runs::Run;
use super::Script;
use std::ops::Range;

pub fn all() -> Vec<Script> {
    let mut scripts = vec![day(), same_gap(), unguarded(), only_at_lock()];
    scripts.extend([lengths_before_scans(), scans_before_overlaps(), before_held()]);
    scripts.extend([before_full_indexlet(), before_full_map()]);
    scripts.extend([lengths(), highest_address(), low_addresses(), short_scans(), farthest()]);
    scripts.extend([latest_refuses(), latest_grants(), later_but_narrow(), waiting_removal()]);
    scripts.extend([own_puts(), own_removals(), no_scans(), most_scans(), short_buffer()]);
    scripts
}

fn guarded() -> Run {
    Run::default().lines("G -> G 0")
}

/// A guarded map that holds these sections, in one leaf of the index, by one job
/// with number 1 at seat 7.
fn holding(sections: &[(u32, u64)]) -> Run {
    let mut run = guarded().lines("B 7 -> B 0\nS 7 0 4294967295 -> S 0 0");
    for (address, length) in sections {
        run = run.lines(&format!("P 7 {address} {length} 0 -> P 0"));
    }
    let count = sections.len();
    run.lines(&format!("L 7 -> L 0\nV 7 -> V 0 1\nI 7 -> I 0\nT -> T 0 {count}"))
}

/// Sections that touch, one that waits unseen, one that is in the way, a move and
/// a removal.
fn day() -> Script {
    guarded()
        .lines(
            "B 0 -> B 0
             S 0 0 8191 -> S 0 0
             P 0 0 4096 0 -> P 0
             P 0 4096 4096 0 -> P 0
             L 0 -> L 0
             V 0 -> V 0 1
             I 0 -> I 0
             B 1 -> B 0
             S 1 0 12287 -> S 0 0
             P 1 8000 100 0 -> P 0
             L 1 -> L 0
             V 1 -> V 14
             M 0 -> M 0 2
             B 1 -> B 0
             S 1 0 12287 -> S 0 2 0 4096 0 4096 4096 0
             P 1 8000 100 0 -> P 0
             L 1 -> L 18
             P 1 8192 100 0 -> P 0
             L 1 -> L 18
             D 1 8000 -> D 0
             L 1 -> L 0
             V 1 -> V 0 2
             I 1 -> I 0
             T -> T 0 2
             B 2 -> B 0
             S 2 0 20000 -> S 0 3 0 4096 0 4096 4096 0 8192 100 0
             D 2 4096 -> D 0
             P 2 12288 4096 0 -> P 0
             L 2 -> L 0
             V 2 -> V 0 3
             I 2 -> I 0
             B 3 -> B 0
             D 3 0 -> D 0
             L 3 -> L 0
             V 3 -> V 0 4
             I 3 -> I 0
             T -> T 0 3",
        )
        .end("a guarded day", [(8192, 100), (12288, 4096)].into_iter())
}

/// Two jobs find the same gap. Locks are on addresses, so both are granted; the
/// first to validate sees the other's.
fn same_gap() -> Script {
    guarded()
        .lines(
            "B 0 -> B 0
             B 1 -> B 0
             S 0 0 1000 -> S 0 0
             S 1 0 1000 -> S 0 0
             P 0 500 10 0 -> P 0
             P 1 505 10 0 -> P 0
             L 0 -> L 0
             L 1 -> L 0
             V 0 -> V 14
             V 1 -> V 0 1
             I 1 -> I 0",
        )
        .end("two jobs at the same gap", [(505, 10)].into_iter())
}

/// Without its first line: any value, no scan, and one over the other.
fn unguarded() -> Script {
    Run::default()
        .lines(
            "B 0 -> B 0
             P 0 5 0 0 -> P 0
             P 0 6 18446744073709551615 0 -> P 0
             P 0 7 100 0 -> P 0
             P 0 8 100 0 -> P 0
             L 0 -> L 0
             V 0 -> V 0 1
             I 0 -> I 0",
        )
        .end("a map that is not guarded", [(5, 0), (6, u64::MAX), (7, 100), (8, 100)].into_iter())
}

/// Puts and removals check nothing, a refused lock leaves the job open, and what is
/// put and removed again needs no scan.
fn only_at_lock() -> Script {
    guarded()
        .lines(
            "L 8 -> L 1
             L 0 -> L 2
             B 0 -> B 0
             P 0 5 0 0 -> P 0
             R 0 5 -> R 0 0 0 0
             P 0 6 99999 0 -> P 0
             L 0 -> L 16
             V 0 -> V 4
             I 0 -> I 4
             D 0 5 -> D 0
             L 0 -> L 16
             D 0 6 -> D 0
             L 0 -> L 0
             L 0 -> L 4
             P 0 7 0 0 -> P 4
             V 0 -> V 0 1
             I 0 -> I 0
             T -> T 0 2
             B 0 -> B 0
             L 0 -> L 0
             A 0 -> A 0",
        )
        .end("checked only at lock", [].into_iter())
}

/// The put at 100 has no scan, but the length of the one at 200 is looked at first.
fn lengths_before_scans() -> Script {
    guarded()
        .lines(
            "B 0 -> B 0
             P 0 100 5 0 -> P 0
             P 0 200 0 0 -> P 0
             L 0 -> L 16
             P 0 200 1 0 -> P 0
             L 0 -> L 17
             S 0 0 200 -> S 0 2 100 5 0 200 1 0
             L 0 -> L 0
             V 0 -> V 0 1
             I 0 -> I 0",
        )
        .end("16 of all puts before 17", [(100, 5), (200, 1)].into_iter())
}

/// The put at 1005 overlaps, but the scan of the one at 2000 is looked for first.
fn scans_before_overlaps() -> Script {
    holding(&[(1000, 10)])
        .lines(
            "B 0 -> B 0
             S 0 0 1005 -> S 0 1 1000 10 0
             P 0 1005 1 0 -> P 0
             P 0 2000 5 0 -> P 0
             L 0 -> L 17
             P 0 3000 65537 0 -> P 0
             L 0 -> L 16
             D 0 3000 -> D 0
             S 0 0 2004 -> S 0 3 1000 10 0 1005 1 0 2000 5 0
             L 0 -> L 18
             D 0 1005 -> D 0
             L 0 -> L 0
             V 0 -> V 0 2
             I 0 -> I 0",
        )
        .end("17 of all puts before 18", [(1000, 10), (2000, 5)].into_iter())
}

/// The address is held all the time.
fn before_held() -> Script {
    guarded()
        .lines(
            "B 0 -> B 0
             S 0 0 109 -> S 0 0
             P 0 100 10 0 -> P 0
             L 0 -> L 0
             B 1 -> B 0
             P 1 100 0 0 -> P 0
             L 1 -> L 16
             P 1 100 10 0 -> P 0
             L 1 -> L 17
             S 1 0 200 -> S 0 1 100 10 0
             P 1 105 1 0 -> P 0
             L 1 -> L 18
             D 1 105 -> D 0
             L 1 -> L 9
             A 0 -> A 0
             L 1 -> L 0
             V 1 -> V 0 1
             I 1 -> I 0",
        )
        .end("16, 17 and 18 before 9", [(100, 10)].into_iter())
}

/// 192 removals wait, which need no scan.
fn before_full_indexlet() -> Script {
    let mut run = guarded();
    for job in 0..12 {
        run = run.removals(job % 8, job + 1, 16 * job..16 * job + 16);
    }
    run.lines(
        "B 0 -> B 0
         P 0 500 0 0 -> P 0
         L 0 -> L 16
         P 0 500 10 0 -> P 0
         L 0 -> L 17
         S 0 0 600 -> S 0 1 500 10 0
         P 0 505 1 0 -> P 0
         L 0 -> L 18
         P 0 510 1 0 -> P 0
         D 0 505 -> D 0
         L 0 -> L 10
         T -> T 0 192
         L 0 -> L 0
         V 0 -> V 14",
    )
    .end("16, 17 and 18 before 10", [].into_iter())
}

const LONGEST: u32 = 65_536;

/// 1,024 sections of the greatest length, side by side: no scan sees the one below.
fn before_full_map() -> Script {
    let mut run = guarded();
    for job in 0..64 {
        let first = 16 * job * LONGEST;
        let (lo, hi) = (first.saturating_sub(65_535), first + 16 * LONGEST - 1);
        run = run.lines(&format!("B 0 -> B 0\nS 0 {lo} {hi} -> S 0 0"));
        for place in 0..16 {
            run = run.lines(&format!("P 0 {} 65536 0 -> P 0", first + place * LONGEST));
        }
        run = run.lines(&format!("L 0 -> L 0\nV 0 -> V 0 {}\nI 0 -> I 0\nT -> T 0 16", job + 1));
    }
    run.lines(
        "B 0 -> B 0
         P 0 67108864 0 0 -> P 0
         L 0 -> L 16
         P 0 67108864 1 0 -> P 0
         L 0 -> L 17
         S 0 67043329 67108864 -> S 0 1 67108864 1 0
         L 0 -> L 11
         P 0 67108863 1 0 -> P 0
         L 0 -> L 17
         S 0 67043328 67108864 -> S 0 3 67043328 65536 0 67108863 1 0 67108864 1 0
         L 0 -> L 18
         D 0 67108863 -> D 0
         L 0 -> L 11
         A 0 -> A 0",
    )
    .end("16, 17 and 18 before 11", (0..1024).map(|place| (place * LONGEST, 65_536)))
}

/// Also lengths that would be good in 32 bits, or if the end wrapped in 64.
fn lengths() -> Script {
    let mut run = guarded().lines("B 0 -> B 0\nS 0 0 4294967295 -> S 0 0");
    let two_to_64 = 1u128 << 64;
    let bad = [0, 65_537, 1 << 32, (1 << 32) + 1, two_to_64 - 100_000, two_to_64 - 99_999];
    for length in bad.into_iter().chain([two_to_64 - 1]) {
        run = run.lines(&format!("P 0 100000 {length} 0 -> P 0\nL 0 -> L 16"));
    }
    run.lines(
        "P 0 100000 65536 0 -> P 0
         P 0 165536 1 0 -> P 0
         L 0 -> L 0
         V 0 -> V 0 1
         I 0 -> I 0",
    )
    .end("lengths of 1 and 65,536", [(100_000, 65_536), (165_536, 1)].into_iter())
}

/// A section may end with the highest address, but not past it.
fn highest_address() -> Script {
    guarded()
        .lines(
            "B 0 -> B 0
             S 0 4294836225 4294967295 -> S 0 0
             P 0 4294901761 65536 0 -> P 0
             L 0 -> L 16
             P 0 4294901761 65535 0 -> P 0
             L 0 -> L 0
             A 0 -> A 0
             B 0 -> B 0
             S 0 4294836225 4294967295 -> S 0 0
             P 0 4294901760 65536 0 -> P 0
             P 0 4294967295 2 0 -> P 0
             L 0 -> L 16
             P 0 4294967295 1 0 -> P 0
             L 0 -> L 18
             P 0 4294901760 65535 0 -> P 0
             L 0 -> L 0
             V 0 -> V 0 1
             I 0 -> I 0",
        )
        .end("the highest address", [(4_294_901_760, 65_535), (4_294_967_295, 1)].into_iter())
}

/// Up to 65,535 a scan must start with 0, and from there on above it.
fn low_addresses() -> Script {
    guarded()
        .lines(
            "B 0 -> B 0
             S 0 1 70000 -> S 0 0
             P 0 65536 1 0 -> P 0
             L 0 -> L 0
             A 0 -> A 0
             B 0 -> B 0
             S 0 1 70000 -> S 0 0
             P 0 65535 1 0 -> P 0
             L 0 -> L 17
             S 0 0 65535 -> S 0 1 65535 1 0
             L 0 -> L 0
             A 0 -> A 0
             B 0 -> B 0
             S 0 1 70000 -> S 0 0
             P 0 0 65535 0 -> P 0
             L 0 -> L 17
             S 0 0 65533 -> S 0 1 0 65535 0
             L 0 -> L 17
             S 0 0 65534 -> S 0 1 0 65535 0
             L 0 -> L 0
             V 0 -> V 0 1
             I 0 -> I 0",
        )
        .end("addresses up to 65,535", [(0, 65_535)].into_iter())
}

/// A byte is missing at one end or at the other. Two scans that cover together are
/// not enough; one that comes after the put is.
fn short_scans() -> Script {
    guarded()
        .lines(
            "B 0 -> B 0
             P 0 200000 1000 0 -> P 0
             S 0 134466 200999 -> S 0 1 200000 1000 0
             L 0 -> L 17
             S 0 134465 200998 -> S 0 1 200000 1000 0
             L 0 -> L 17
             S 0 134465 200999 -> S 0 1 200000 1000 0
             L 0 -> L 0
             V 0 -> V 0 1
             I 0 -> I 0",
        )
        .end("scans that are a byte short", [(200_000, 1000)].into_iter())
}

/// The longest section reaches as far as a scan has to look back.
fn farthest() -> Script {
    holding(&[(100_000, 65_536)])
        .lines(
            "B 0 -> B 0
             S 0 100000 165535 -> S 0 1 100000 65536 0
             P 0 165535 1 0 -> P 0
             L 0 -> L 18
             A 0 -> A 0
             B 0 -> B 0
             S 0 100001 165536 -> S 0 0
             P 0 165536 1 0 -> P 0
             L 0 -> L 0
             V 0 -> V 0 2
             I 0 -> I 0
             T -> T 0 1
             B 0 -> B 0
             S 0 34464 100001 -> S 0 1 100000 65536 0
             P 0 99999 2 0 -> P 0
             L 0 -> L 18
             P 0 99999 1 0 -> P 0
             L 0 -> L 0
             V 0 -> V 0 3
             I 0 -> I 0",
        )
        .end("the longest section", [(99_999, 1), (100_000, 65_536), (165_536, 1)].into_iter())
}

/// Seat 1's section comes between the two scans of seat 0, of which the first would
/// let it pass: so it does at seat 2, which scans but once.
fn latest_refuses() -> Script {
    guarded()
        .lines(
            "B 0 -> B 0
             S 0 0 1000 -> S 0 0
             P 0 500 10 0 -> P 0
             B 2 -> B 0
             S 2 0 1000 -> S 0 0
             P 2 510 10 0 -> P 0
             B 1 -> B 0
             S 1 0 1000 -> S 0 0
             P 1 505 10 0 -> P 0
             L 1 -> L 0
             V 1 -> V 0 1
             I 1 -> I 0
             M 0 -> M 0 1
             S 0 0 1000 -> S 0 2 500 10 0 505 10 0
             L 0 -> L 18
             D 0 500 -> D 0
             L 0 -> L 0
             V 0 -> V 14
             L 2 -> L 0
             V 2 -> V 14",
        )
        .end("the latest scan refuses", [(505, 10)].into_iter())
}

/// Seat 1 takes the section away between the two scans of seat 0, of which the first
/// would refuse. Validation sees that the two differ.
fn latest_grants() -> Script {
    holding(&[(505, 10)])
        .lines(
            "B 0 -> B 0
             S 0 0 1000 -> S 0 1 505 10 0
             P 0 500 10 0 -> P 0
             L 0 -> L 18
             B 1 -> B 0
             D 1 505 -> D 0
             L 1 -> L 0
             V 1 -> V 0 2
             I 1 -> I 0
             L 0 -> L 18
             S 0 0 1000 -> S 0 1 500 10 0
             L 0 -> L 0
             V 0 -> V 12",
        )
        .end("the latest scan grants", [].into_iter())
}

/// The later scan sees the overlap, but it does not cover the section.
fn later_but_narrow() -> Script {
    guarded()
        .lines(
            "B 0 -> B 0
             S 0 0 1000 -> S 0 0
             P 0 500 10 0 -> P 0
             B 1 -> B 0
             S 1 0 1000 -> S 0 0
             P 1 505 10 0 -> P 0
             L 1 -> L 0
             V 1 -> V 0 1
             I 1 -> I 0
             M 0 -> M 0 1
             S 0 1 1000 -> S 0 2 500 10 0 505 10 0
             L 0 -> L 0
             V 0 -> V 14",
        )
        .end("a later scan that covers too little", [(505, 10)].into_iter())
}

/// The section is still in the index, but its removal waits: it is logged as gone.
fn waiting_removal() -> Script {
    holding(&[(1000, 100)])
        .lines(
            "B 1 -> B 0
             D 1 1000 -> D 0
             L 1 -> L 0
             V 1 -> V 0 2
             I 1 -> I 0
             B 0 -> B 0
             S 0 0 2000 -> S 0 0
             P 0 1050 100 0 -> P 0
             L 0 -> L 0
             V 0 -> V 0 3
             I 0 -> I 0
             T -> T 0 2",
        )
        .end("a removal that waits", [(1050, 100)].into_iter())
}

/// Puts of one job must not overlap; one at the address of a section stands for it.
fn own_puts() -> Script {
    holding(&[(1000, 100)])
        .lines(
            "B 0 -> B 0
             S 0 0 3000 -> S 0 1 1000 100 0
             P 0 2000 10 0 -> P 0
             P 0 2009 1 0 -> P 0
             L 0 -> L 18
             P 0 2000 9 0 -> P 0
             L 0 -> L 0
             A 0 -> A 0
             B 0 -> B 0
             P 0 1050 50 0 -> P 0
             S 0 0 1099 -> S 0 2 1000 100 0 1050 50 0
             L 0 -> L 18
             P 0 1000 51 0 -> P 0
             L 0 -> L 18
             P 0 1000 50 0 -> P 0
             L 0 -> L 0
             V 0 -> V 0 2
             I 0 -> I 0",
        )
        .end("own puts", [(1000, 50), (1050, 50)].into_iter())
}

/// A job may put a section at the place of one that it removes, before the scan or
/// after it.
fn own_removals() -> Script {
    holding(&[(1000, 100)])
        .lines(
            "B 0 -> B 0
             D 0 1000 -> D 0
             S 0 0 2000 -> S 0 0
             P 0 1050 10 0 -> P 0
             L 0 -> L 0
             A 0 -> A 0
             B 0 -> B 0
             S 0 0 2000 -> S 0 1 1000 100 0
             P 0 1050 10 0 -> P 0
             L 0 -> L 18
             D 0 1000 -> D 0
             P 0 999 51 0 -> P 0
             L 0 -> L 0
             V 0 -> V 0 2
             I 0 -> I 0",
        )
        .end("own removals", [(999, 51), (1050, 10)].into_iter())
}

/// Reads are no scans, and a refused scan is none either; nor is one of the job
/// before, at the same seat.
fn no_scans() -> Script {
    guarded()
        .lines(
            "B 0 -> B 0
             R 0 10 -> R 0 - 1
             P 0 10 1 0 -> P 0
             L 0 -> L 17
             S 0 10 0 -> S 5
             L 0 -> L 17
             A 0 -> A 0
             B 0 -> B 0
             S 0 0 1000 -> S 0 0
             A 0 -> A 0
             B 0 -> B 0
             P 0 10 1 0 -> P 0
             L 0 -> L 17
             S 0 0 10 -> S 0 1 10 1 0
             L 0 -> L 0
             V 0 -> V 0 1
             I 0 -> I 0",
        )
        .end("what is no scan", [(10, 1)].into_iter())
}

/// The log has room for the marks of 32 scans. The first of them covers the put, or
/// the 33rd, which is refused.
fn most_scans() -> Script {
    let (many, few) = ("S 0 5 5 -> S 0 0\n".repeat(32), "S 0 5 5 -> S 0 0\n".repeat(31));
    guarded()
        .lines(&format!("B 0 -> B 0\n{many}S 0 0 1000 -> S 6"))
        .lines("P 0 500 10 0 -> P 0\nL 0 -> L 17\nA 0 -> A 0")
        .lines(&format!("B 0 -> B 0\nS 0 0 1000 -> S 0 0\n{few}S 0 5 5 -> S 6"))
        .lines("P 0 500 10 0 -> P 0\nL 0 -> L 0\nV 0 -> V 0 1\nI 0 -> I 0")
        .end("32 scans of a job", [(500, 10)].into_iter())
}

/// 64 sections and an own put are too many for the buffers of a scan, which is then
/// none; with a removal there is room.
fn short_buffer() -> Script {
    let sections = |places: Range<u32>| places.map(|place| (10 * place, 10));
    let shown = |places: Range<u32>| -> String {
        sections(places).map(|(address, length)| format!(" {address} {length} 0")).collect()
    };
    let mut run = guarded();
    for job in 0..4 {
        let (old, new) = (16 * job, 16 * job + 16);
        run = run.lines("B 0 -> B 0");
        run = run.lines(&format!("S 0 0 {} -> S 0 {old}{}", 10 * new - 1, shown(0..old)));
        for (address, length) in sections(old..new) {
            run = run.lines(&format!("P 0 {address} {length} 0 -> P 0"));
        }
        run = run.lines(&format!("L 0 -> L 0\nV 0 -> V 0 {}\nI 0 -> I 0", job + 1));
        run = run.oldest(&[16]);
    }
    run.lines("B 0 -> B 0\nP 0 640 1 0 -> P 0\nS 0 0 640 -> S 8\nL 0 -> L 17\nD 0 0 -> D 0")
        .lines(&format!("S 0 0 640 -> S 0 64{} 640 1 0", shown(1..64)))
        .lines("L 0 -> L 0\nV 0 -> V 0 5\nI 0 -> I 0")
        .end("a scan that its buffers refuse", sections(1..64).chain([(640, 1)]))
}
