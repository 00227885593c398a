//! The words of single steps, and of lists.

use super::*;

const ABSENT: u64 = 2;
const WIDE: u64 = 1 << 32;
const OWNERS: u64 = 1 << 16;

const OPENED: u64 = 6;
const FILED: u64 = 8;

const BEGIN: Code = [0; 7];
const READ: Code = [1, 0, 5, 0, 0, 0, 0];
const PUT: Code = [3, 0, 5, 50, 9, 0, 0];
const OPEN: Code = [11, 0, 0, 0, 0, 0, 0];
const CLOSE: Code = [14, 0, 0, 0, 0, 0, 0];

/// The words of an answer, with buffers of 4, 6 and 5 places.
fn words(map: &mut Map, code: Code) -> Words {
    step(map, &code, &mut [0; 4], &mut [0; 6], &mut [0; 5])
}

fn number(map: &mut Map, code: Code) -> u64 {
    let [number, told @ ..] = words(map, code);
    assert!(number == 0 || told == [0; 4], "{code:?}");
    number
}

#[test]
fn steps_with_no_meaning() {
    let codes: [Code; 19] = [
        OPEN,
        [12, 0, 0, 0, 0, 0, 0],
        [13, 0, 0, 0, 0, 0, 0],
        CLOSE,
        [15, 0, 0, 0, 0, 0, 0],
        [0, WIDE, 0, 0, 0, 0, 0],
        [1, 0, WIDE, 0, 0, 0, 0],
        [2, 0, 0, WIDE, 0, 0, 0],
        [2, 0, 0, 0, 5, 6, 5],
        [2, 0, 0, 0, 4, 7, 5],
        [2, 0, 0, 0, 4, 6, 6],
        [2, 0, 0, 0, 0, 0, u64::MAX],
        [3, WIDE, 0, 0, 0, 0, 0],
        [3, 0, WIDE, 0, 0, 0, 0],
        [3, 0, 0, 0, OWNERS, 0, 0],
        [3, 0, 0, 0, WIDE, 0, 0],
        [3, 0, 0, 0, u64::MAX, 0, 0],
        [9, WIDE, 0, 0, 0, 0, 0],
        [u64::MAX; 7],
    ];
    let map = &mut *fresh(false);
    let refused = |map: &mut Map, code| assert_eq!(number(map, code), 99, "{code:?}");
    codes.into_iter().for_each(|code| refused(map, code));
    assert_eq!(number(map, BEGIN), 0);
    codes.into_iter().for_each(|code| refused(map, code));
    // Nothing was put: a scan of everything needs no places.
    assert_eq!(number(map, [2, 0, 0, WIDE - 1, 0, 0, 0]), 0);
    // No export was opened, nor is this one closed.
    assert_eq!(open_export(map), [0, OPENED, 0, 0, 0]);
    codes.into_iter().for_each(|code| refused(map, code));
    assert_eq!(close_export(map), [0; 5]);
}

/// A value may be any number, an owner any of 16 bits, a scan may want all places,
/// and what a step does not have is not looked at.
#[test]
fn numbers_that_have_a_meaning() {
    const MAX: u64 = u64::MAX;
    let map = &mut *fresh(false);
    assert_eq!(number(map, [0, 0, MAX, MAX, MAX, MAX, MAX]), 0);
    assert_eq!(number(map, [2, 0, 0, 0, 4, 6, 5]), 0);
    assert_eq!(number(map, [10, WIDE, MAX, MAX, MAX, MAX, MAX]), 0);
    assert_eq!(number(map, [3, 0, 5, MAX, OWNERS - 1, MAX, MAX]), 0);
    let read = step(map, &[1, 0, 5, MAX, MAX, MAX, MAX], &mut [], &mut [], &mut []);
    assert_eq!(read, [0, VALUE, MAX, OWNERS - 1, 0]);
    assert_eq!(number(map, [4, 0, 5, MAX, MAX, MAX, MAX]), 0);
}

/// With buffers of 2, 4 and 3 places, and 30 bytes.
fn run(steps: &[Code], room: usize) -> (u64, u64, u64, Vec<u64>) {
    let mut out = vec![70; room];
    let (addresses, values, owners) = (&mut [0; 2], &mut [0; 4], &mut [0; 3]);
    let bytes = &mut [0; 30];
    let (_, ran) = replay(&steps.concat(), addresses, values, owners, bytes, &mut out, false);
    (ran.taken, ran.written, ran.stop, out)
}

/// What is left of a buffer of 70s after these words.
fn answered(words: &[u64], rest: usize) -> Vec<u64> {
    [words.to_vec(), vec![70; rest]].concat()
}

/// It stops where an answer would find no room: a scan's has 3 words for each place
/// of the shortest buffer, whichever that is.
#[test]
fn room_for_a_list() {
    assert_eq!(run(&[], 2), (0, 0, 0, vec![70; 2]));
    assert_eq!(run(&[BEGIN, PUT], 9), (1, 5, 2, answered(&[0; 5], 4)));
    assert_eq!(run(&[BEGIN, PUT], 4), (0, 0, 2, vec![70; 4]));
    let all = [[0; 5], [0; 5], [0, COUNT, 1, 0, 0]].concat();
    let all = [all, vec![5, 50, 9]].concat();
    for [m, n, o] in [[1, 4, 3], [2, 1, 3], [2, 4, 1], [1, 1, 1]] {
        let steps = [BEGIN, PUT, [2, 0, 0, 9, m, n, o]];
        assert_eq!(run(&steps, 19), (3, 18, 0, answered(&all, 1)));
        assert_eq!(run(&steps, 18), (3, 18, 0, answered(&all, 0)));
        assert_eq!(run(&steps, 17), (2, 10, 2, answered(&[0; 10], 7)));
    }
    let steps = [BEGIN, PUT, [2, 0, 0, 9, 2, 4, 3]];
    assert_eq!(run(&steps, 21), (3, 18, 0, answered(&all, 3)));
    assert_eq!(run(&steps, 20), (2, 10, 2, answered(&[0; 10], 10)));
}

/// It stops at a code with no meaning, and at words that make no whole code.
#[test]
fn ends_of_a_list() {
    assert_eq!(run(&[[15, 0, 0, 0, 0, 0, 0]], 10), (0, 0, 1, vec![70; 10]));
    let scan = |m, n, o| [2, 0, 0, 9, m, n, o];
    let wide = [3, 0, 5, 50, OWNERS, 0, 0];
    for code in [scan(3, 4, 3), scan(2, 5, 3), scan(2, 4, 4), wide] {
        assert_eq!(run(&[BEGIN, code], 50), (1, 5, 1, answered(&[0; 5], 45)), "{code:?}");
    }
    assert_eq!(run(&[BEGIN, scan(2, 4, 3)], 50).2, 0);
    for cut in 15..21 {
        let words = &[BEGIN, PUT, scan(1, 1, 1)].concat()[..cut];
        let (addresses, values, owners) = (&mut [0; 2], &mut [0; 4], &mut [0; 3]);
        let (_, ran) = replay(words, addresses, values, owners, &mut [], &mut [0; 50], false);
        assert_eq!(ran, Ran { taken: 2, written: 10, stop: 1 });
    }
}

/// Only of a granted read is one of the last two words not 0: the owner of what it
/// finds, and the slots examined but for the job's own edit.
#[test]
fn last_words() {
    let map = &mut *fresh(false);
    assert_eq!(words(map, BEGIN), [0; 5]);
    assert_eq!(words(map, READ), [0, ABSENT, 0, 0, 1]);
    assert_eq!(words(map, PUT), [0; 5]);
    assert_eq!(words(map, READ), [0, VALUE, 50, 9, 0]);
    assert_eq!(words(map, [2, 0, 0, 9, 1, 1, 1]), [0, COUNT, 1, 0, 0]);
    assert_eq!(words(map, [4, 0, 5, 0, 0, 0, 0]), [0; 5]);
    assert_eq!(words(map, READ), [0, ABSENT, 0, 0, 0]);
    assert_eq!(words(map, [1, 8, 5, 0, 0, 0, 0]), [1, 0, 0, 0, 0]);
}

/// The owner of what waits, and of what is folded.
#[test]
fn owner_of_an_installed_put() {
    let map = &mut *fresh(false);
    let codes = [BEGIN, PUT].into_iter().chain((5..8).map(|kind| [kind, 0, 0, 0, 0, 0, 0]));
    codes.for_each(|code| assert_eq!(number(map, code), 0));
    for _ in 0..2 {
        assert_eq!(next(map, 0), Some([5, 50, 9, 1]));
        assert_eq!(number(map, BEGIN), 0);
        assert_eq!(words(map, READ), [0, VALUE, 50, 9, 1]);
        assert_eq!(number(map, [8, 0, 0, 0, 0, 0, 0]), 0);
        assert_eq!(number(map, [9, 0, 0, 0, 0, 0, 0]), 0);
    }
}

/// The last argument decides, of a fresh map and of a list, after which the map
/// stays what it was.
#[test]
fn guarded_or_not() {
    const NO_BYTES: Code = [3, 0, 5, 0, 1, 0, 0];
    const LOCK: Code = [5, 0, 0, 0, 0, 0, 0];
    for (guarded, expected) in [(false, 0), (true, 16)] {
        let map = &mut *fresh(guarded);
        assert_eq!([BEGIN, NO_BYTES, LOCK].map(|code| number(map, code)), [0, 0, expected]);
        let list = [BEGIN, NO_BYTES].concat();
        let out = &mut [0; 10];
        let (mut map, _) = replay(&list, &mut [], &mut [], &mut [], &mut [], out, guarded);
        assert_eq!(number(&mut map, LOCK), expected);
    }
}

#[test]
fn from_any_address() {
    let map = &*fresh(false);
    [0, 1, WIDE, u64::MAX].into_iter().for_each(|from| assert_eq!(next(map, from), None));
}

const fn portion_code(addresses: u64, values: u64, owners: u64) -> Code {
    [12, 0, 0, 0, addresses, values, owners]
}

const fn file_code(bytes: u64) -> Code {
    [13, 0, 0, 0, bytes, 0, 0]
}

/// One job, which installs 50 at 5 for owner 9 and 60 at 6 for owner 8.
const JOB: [Code; 6] = [
    BEGIN,
    PUT,
    [3, 0, 6, 60, 8, 0, 0],
    [5, 0, 0, 0, 0, 0, 0],
    [6, 0, 0, 0, 0, 0, 0],
    [7, 0, 0, 0, 0, 0, 0],
];

/// The steps of exports after it, and the words of their answers.
const EXPORTS: [(Code, &[u64]); 19] = [
    (portion_code(2, 4, 3), &[20, 0, 0, 0, 0]),
    (file_code(40), &[20, 0, 0, 0, 0]),
    (CLOSE, &[20, 0, 0, 0, 0]),
    (OPEN, &[0, OPENED, 2, 0, 0]),
    (OPEN, &[19, 0, 0, 0, 0]),
    (portion_code(2, 0, 3), &[0, PORTION, 0, 2, 0]),
    (portion_code(1, 4, 3), &[0, PORTION, 1, 1, 0, 5, 50, 9]),
    (file_code(35), &[8, 0, 0, 0, 0]),
    (file_code(36), &[0, FILED, 36, 0, 0]),
    (portion_code(2, 2, 2), &[0, PORTION, 1, 0, 0, 6, 60, 8]),
    (portion_code(2, 4, 3), &[0, PORTION, 0, 0, 0]),
    (OPEN, &[19, 0, 0, 0, 0]),
    (CLOSE, &[0, 0, 0, 0, 0]),
    (CLOSE, &[20, 0, 0, 0, 0]),
    (file_code(0), &[20, 0, 0, 0, 0]),
    (OPEN, &[0, OPENED, 2, 0, 0]),
    (portion_code(2, 3, 2), &[0, PORTION, 2, 0, 0, 5, 50, 9, 6, 60, 8]),
    (file_code(40), &[0, FILED, 36, 0, 0]),
    (CLOSE, &[0, 0, 0, 0, 0]),
];

/// The file of what the job installed, byte by byte.
const FILE: [u8; 36] = [
    2, 0, 0, 0, 10, 0, 0, 0, 5, 0, 0, 0, 6, 0, 0, 0, 50, 0, 0, 0, 0, 0, 0, 0, 9, 0, 60, 0, 0, 0, 0,
    0, 0, 0, 8, 0,
];

/// The words of an export step by the function that is named after it, and the records
/// of a portion.
fn by_function(map: &mut Map, code: Code, bytes: &mut [u8]) -> Vec<u64> {
    let [kind, _, _, _, d, e, f] = code;
    let (mut addresses, mut values) = (vec![0; d as usize], vec![0; e as usize]);
    let mut owners = vec![0; f as usize];
    let words = match kind {
        11 => open_export(map),
        12 => portion(map, &mut addresses, &mut values, &mut owners),
        13 => file(map, &mut bytes[..d as usize]),
        _ => close_export(map),
    };
    let count = if words[1] == PORTION { words[2] as usize } else { 0 };
    let record = |at: usize| [addresses[at].into(), values[at], owners[at].into()];
    words.into_iter().chain((0..count).flat_map(record)).collect()
}

#[test]
fn exports_by_functions() {
    let (map, bytes) = (&mut *fresh(false), &mut [85; 40]);
    JOB.into_iter().for_each(|code| assert_eq!(number(map, code), 0));
    for (code, expected) in EXPORTS {
        let before = *bytes;
        assert_eq!(by_function(map, code, bytes), expected, "{code:?}");
        let file = [&FILE[..], &[85; 4]].concat();
        assert_eq!(&bytes[..], if expected[1] == FILED { &file } else { &before[..] });
    }
}

/// The same steps as one list have the same words, and leave the same bytes.
#[test]
fn exports_in_a_list() {
    let steps = [&JOB[..], &EXPORTS.map(|(code, _)| code)].concat().concat();
    // The job gets number 1.
    let job = [[0; 5], [0; 5], [0; 5], [0; 5], [0, 4, 1, 0, 0], [0; 5]].concat();
    let answers = EXPORTS.iter().flat_map(|&(_, words)| words).copied();
    let expected: Vec<u64> = job.into_iter().chain(answers).collect();
    let (mut out, bytes) = (vec![70; 200], &mut [85; 40]);
    let (addresses, values, owners) = (&mut [0; 2], &mut [0; 4], &mut [0; 3]);
    let (_, ran) = replay(&steps, addresses, values, owners, bytes, &mut out, false);
    assert_eq!(ran, Ran { taken: 25, written: expected.len() as u64, stop: 0 });
    assert_eq!(out, answered(&expected, 200 - expected.len()));
    assert_eq!(bytes[..], [&FILE[..], &[85; 4]].concat());
}

/// A list leaves the export as its steps left it, be it that one has no meaning; the
/// next list begins with none.
#[test]
fn exports_after_a_list() {
    for last in [vec![], vec![[15, 0, 0, 0, 0, 0, 0]]] {
        let steps = [&JOB[..], &[OPEN, portion_code(1, 1, 1)], &last].concat().concat();
        let (bytes, out) = (&mut [85; 36], &mut [0; 60]);
        let (mut map, ran) =
            replay(&steps, &mut [0; 1], &mut [0; 1], &mut [0; 1], bytes, out, false);
        assert_eq!((ran.taken, ran.stop), (8, last.len() as u64));
        assert_eq!(*bytes, [85; 36]);
        assert_eq!(open_export(&mut map), [19, 0, 0, 0, 0]);
        let rest = by_function(&mut map, portion_code(3, 3, 3), bytes);
        assert_eq!(rest, [0, PORTION, 1, 0, 0, 6, 60, 8]);
        assert_eq!(file(&mut map, bytes), [0, FILED, 36, 0, 0]);
        assert_eq!(*bytes, FILE);
    }
    assert_eq!(run(&[CLOSE], 5), (1, 5, 0, vec![20, 0, 0, 0, 0]));
}

/// A portion may want all places and a file all bytes, and what a step does not have is
/// not looked at; one that wants more has no meaning.
#[test]
fn meanings_of_export_steps() {
    const MAX: u64 = u64::MAX;
    let meant = [
        [11, MAX, MAX, MAX, MAX, MAX, MAX],
        [12, MAX, MAX, MAX, 2, 4, 3],
        [13, MAX, MAX, MAX, 30, MAX, MAX],
        [14, MAX, MAX, MAX, MAX, MAX, MAX],
    ];
    let words = [[0, OPENED, 0, 0, 0], [0, PORTION, 0, 0, 0], [0, FILED, 8, 0, 0], [0; 5]].concat();
    assert_eq!(run(&meant, 100), (4, 20, 0, answered(&words, 80)));
    let portions = [portion_code(3, 0, 0), portion_code(0, 5, 0), portion_code(0, 0, 4)];
    let wide = [portion_code(MAX, 4, 3), file_code(31), file_code(MAX)];
    for code in portions.into_iter().chain(wide) {
        assert_eq!(run(&[OPEN, code], 50), (1, 5, 1, answered(&words[..5], 45)), "{code:?}");
    }
}

/// A portion needs room as a scan does, however many records there are; any other step
/// of an export needs five words.
#[test]
fn room_for_exports() {
    let opened = [0, OPENED, 0, 0, 0];
    for [m, n, o] in [[1, 4, 3], [2, 1, 3], [2, 4, 1]] {
        let steps = [OPEN, portion_code(m, n, o)];
        let all = [opened, [0, PORTION, 0, 0, 0]].concat();
        assert_eq!(run(&steps, 13), (2, 10, 0, answered(&all, 3)));
        assert_eq!(run(&steps, 12), (1, 5, 2, answered(&opened, 7)));
    }
    for (code, words) in [(file_code(30), [0, FILED, 8, 0, 0]), (CLOSE, [0; 5])] {
        let all = [opened, words].concat();
        assert_eq!(run(&[OPEN, code], 10), (2, 10, 0, all));
        assert_eq!(run(&[OPEN, code], 9), (1, 5, 2, answered(&opened, 4)));
    }
    assert_eq!(run(&[OPEN], 4), (0, 0, 2, vec![70; 4]));
}
