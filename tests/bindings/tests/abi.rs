//! Header and wrapper against the code: the same functions, the same sizes, the
//! same numbers and words.

use bindings::abi::{Passed, Signature, Sources};
use bindings::programs::{compile, output_of, root, C};
use sections::Refusal;
use std::fs;
use std::path::PathBuf;
use std::process::Command;

const FUNCTIONS: [&str; 8] = [
    "sections_fresh",
    "sections_step",
    "sections_replay",
    "sections_next",
    "sections_open_export",
    "sections_portion",
    "sections_file",
    "sections_close_export",
];

fn crates() -> Sources {
    Sources::of_crates(&root().join("crates")).expect("the crates are there")
}

fn library(name: &str) -> Signature {
    crates().signature("sections", name).unwrap_or_else(|| panic!("{name} is not read"))
}

/// The arrays of a map, in the order in which a list is lent them, after its counts.
fn arrays() -> Vec<Passed> {
    let mut arrays = library("sections_replay").parameters;
    arrays.retain(|parameter| !parameter.dimensions().is_empty());
    arrays.split_off(1)
}

/// A fresh map is made in all of them but the records of its export, and from whether it
/// is guarded.
#[test]
fn arrays_of_a_fresh_map() {
    let mut fresh = library("sections_fresh").parameters;
    assert_eq!(fresh.pop(), Some(Passed::Number("bool".into())));
    let mut arrays = arrays();
    let exported = arrays.remove(2);
    assert_eq!(fresh, arrays);
    let [_, export, records, ..] = &library("sections_open_export").parameters[..] else {
        panic!("an export is opened without its arrays");
    };
    assert_eq!((export, records), (&arrays[1], &exported));
}

fn header() -> String {
    fs::read_to_string(root().join("bindings/c/sections.h")).expect("the header is there")
}

/// Compiles a text that includes the header, and answers what it prints.
fn printed(name: &str, text: &str, compiler: &[&str]) -> String {
    let folder = PathBuf::from(env!("CARGO_TARGET_TMPDIR"));
    let (source, program) = (folder.join(format!("{name}.c")), folder.join(name));
    fs::write(&source, format!("#include \"sections.h\"\n#include <stdio.h>\n{text}")).unwrap();
    compile(compiler, &source, &program);
    output_of(&mut Command::new(program))
}

#[test]
fn header_declares_what_the_library_has() {
    // A second declaration of another type is an error.
    let declared: String = FUNCTIONS.map(|name| library(name).in_c(name)).concat();
    printed("declared", &format!("{declared}int main(void) {{ return 0; }}\n"), &C);
}

#[test]
fn header_is_cpp_too() {
    let text = "static struct sections map;
    int main() {
        sections_init(&map);
        sections_init_guarded(&map);
        if (sections_export_open(&map).refusal || sections_export_close(&map)) return 1;
        return sections_begin(&map, 0);
    }\n";
    printed("cpp", text, &["c++", "-std=c++11", "-x", "c++"]);
}

/// A section of no bytes: any map but a guarded one locks it. Each function that
/// makes a map anew decides which one it is, whatever it was before.
#[test]
fn guarded_or_not() {
    let text = "static struct sections map;
    static int lock(void) {
        sections_begin(&map, 0);
        sections_put(&map, 0, 5, 0, 1);
        return sections_lock(&map, 0);
    }
    int main(void) {
        struct sections_code steps[] = {sections_code_begin(1), sections_code_put(1, 7, 0, 1), sections_code_lock(1)};
        uint64_t answers[15];
        sections_init_guarded(&map);
        printf(\"%d\\n\", lock());
        sections_run(&map, steps, 3, NULL, NULL, 0, answers, 15, false);
        printf(\"%d\\n%d\\n\", (int)answers[10], lock());
        sections_run(&map, steps, 3, NULL, NULL, 0, answers, 15, true);
        printf(\"%d\\n%d\\n\", (int)answers[10], lock());
        sections_init(&map);
        printf(\"%d\\n\", lock());
        return 0;
    }\n";
    assert_eq!(numbers(&printed("guarded", text, &C)), [16, 0, 0, 16, 16, 0]);
}

/// A read of nothing examines the home slot, one of the job's own edit none and tells
/// its owner; other answers have two 0s there. A scan's record has three words.
#[test]
fn words_of_a_list() {
    let text = "static struct sections map;
    static uint32_t addresses[2];
    static uint64_t values[1];
    static uint16_t owners[3];
    static const struct sections_buffers buffers = {addresses, 2, values, 1, owners, 3};
    int main(void) {
        struct sections_code steps[] = {sections_code_begin(0), sections_code_read(0, 5), sections_code_put(0, 5, 9, 65535),
                                        sections_code_read(0, 5), sections_code_scan(0, 0, 9, 2, 1, 3),
                                        sections_code_scan(0, 0, 9, 2, 1, 0), sections_code_read(1, 5)};
        enum { ROOM = 7 * SECTIONS_ANSWER_WORDS + SECTIONS_SHOWN_WORDS };
        uint64_t answers[ROOM];
        struct sections_ran ran = sections_run(&map, steps, 7, &buffers, NULL, 0, answers, ROOM, false);
        for (size_t i = 0; i < ran.written; i++)
            printf(\"%d\\n\", (int)answers[i]);
        struct sections_value read[] = {sections_read(&map, 0, 6), sections_read(&map, 0, 5), sections_read(&map, 1, 5)};
        for (int i = 0; i < 3; i++)
            printf(\"%d\\n%d\\n\", read[i].owner, (int)read[i].examined);
        return 0;
    }\n";
    let nothing = [0, 0, 0, 0, 0];
    let answers = [nothing, [0, 2, 0, 0, 1], nothing, [0, 1, 9, 65535, 0], [0, 3, 1, 0, 0]];
    let (found, refused) = ([5, 9, 65535], [[8, 0, 0, 0, 0], [2, 0, 0, 0, 0]]);
    let read = [0, 1, 65535, 0, 0, 0];
    let words = [&answers.concat()[..], &found, &refused.concat(), &read].concat();
    assert_eq!(numbers(&printed("list", text, &C)), words);
}

/// A list exports its one record, and leaves an export open, with which the functions go
/// on.
const EXPORT: &str = "static struct sections map;
    static uint32_t addresses[2];
    static uint64_t values[1];
    static uint16_t owners[3];
    static uint8_t bytes[24];
    static const struct sections_buffers buffers = {addresses, 2, values, 1, owners, 3};
    static void show(int refusal, size_t count) {
        printf(\"%d\\n%zu\\n\", refusal, count);
    }
    static void portion(void) {
        struct sections_given given = sections_export_portion(&map, &buffers);
        show(given.refusal, given.count);
        printf(\"%zu\\n\", given.remaining);
    }
    static void file(size_t size) {
        struct sections_count filed = sections_export_file(&map, bytes, size);
        show(filed.refusal, filed.count);
    }
    int main(void) {
        struct sections_code steps[] = {
            sections_code_export_close(), sections_code_begin(0), sections_code_put(0, 5, 9, 65535),
            sections_code_lock(0), sections_code_validate(0), sections_code_install(0),
            sections_code_export_portion(2, 1, 3), sections_code_export_open(), sections_code_export_open(),
            sections_code_export_portion(2, 1, 0), sections_code_export_portion(2, 1, 3),
            sections_code_export_file(21), sections_code_export_file(22), sections_code_export_close(),
            sections_code_export_file(24), sections_code_export_open()};
        enum { COUNT = sizeof steps / sizeof *steps, ROOM = COUNT * SECTIONS_ANSWER_WORDS + SECTIONS_SHOWN_WORDS };
        uint64_t answers[ROOM];
        struct sections_ran ran = sections_run(&map, steps, COUNT, &buffers, bytes, 24, answers, ROOM, false);
        for (size_t i = 0; i < ran.written; i++)
            printf(\"%d\\n\", (int)answers[i]);
        for (size_t i = 0; i < 24; i++)
            printf(\"%d\\n\", bytes[i]);
        struct sections_count opened = sections_export_open(&map);
        show(opened.refusal, opened.count);
        portion();
        portion();
        file(21);
        show(sections_export_close(&map), 0);
        show(sections_export_close(&map), 0);
        portion();
        file(24);
        opened = sections_export_open(&map);
        show(opened.refusal, opened.count);
        file(24);
        return 0;
    }\n";

/// Words of a list with 8, 19 and 20; a record and what remains of a portion; a file in
/// the first of the bytes. The functions answer the same.
#[test]
fn words_of_an_export() {
    let (nothing, opened, refused) = ([0; 5], [0, 6, 1, 0, 0], |number| [number, 0, 0, 0, 0]);
    let job = [nothing, nothing, nothing, [0, 4, 1, 0, 0], nothing];
    let before = [&[refused(20)], &job[..], &[refused(20), opened, refused(19)]].concat();
    let portions = [0, 7, 0, 1, 0, 0, 7, 1, 0, 0, 5, 9, 65535];
    let after = [refused(8), [0, 8, 22, 0, 0], nothing, refused(20), opened];
    let file = [1, 0, 0, 0, 10, 0, 0, 0, 5, 0, 0, 0, 9, 0, 0, 0, 0, 0, 0, 0, 255, 255, 0, 0];
    let left_open = [19, 0, 0, 1, 0, 0, 0, 0, 8, 0, 0, 0];
    let closed = [20, 0, 20, 0, 0, 20, 0, 0, 1, 0, 22];
    let lists = [&before.concat()[..], &portions, &after.concat(), &file].concat();
    let words = [&lists[..], &left_open, &closed].concat();
    assert_eq!(numbers(&printed("export", EXPORT, &C)), words);
}

/// Each function that makes a map anew leaves it without an export, whatever it had.
#[test]
fn fresh_maps_have_no_export() {
    let text = "static struct sections map;
    static void reopen(void) {
        printf(\"%d\\n\", sections_export_close(&map));
        printf(\"%d\\n\", sections_export_open(&map).refusal);
    }
    int main(void) {
        sections_init(&map);
        reopen();
        sections_init(&map);
        reopen();
        sections_init_guarded(&map);
        reopen();
        sections_run(&map, NULL, 0, NULL, NULL, 0, NULL, 0, false);
        reopen();
        return 0;
    }\n";
    assert_eq!(numbers(&printed("reopened", text, &C)), [[20, 0]; 4].concat());
}

/// What is told, in the order of the numbers that the words of a list have for it.
#[test]
fn numbers_of_what_is_told() {
    let told = ["NOTHING", "VALUE", "ABSENT", "COUNT", "SERIAL", "FOLDED"];
    let of_exports = ["OPENED", "PORTION", "FILE"];
    let line = |name: &&str| format!("printf(\"%d\\n\", SECTIONS_TOLD_{name});\n");
    let lines: String = told.iter().chain(&of_exports).map(line).collect();
    let text = printed("told", &format!("int main(void) {{ {lines}return 0; }}\n"), &C);
    assert_eq!(numbers(&text), (0..9).collect::<Vec<_>>());
}

/// A list has room for a scan if it has three words for each place of the shortest
/// buffer; and an owner of 17 bits, or a place too many, has no meaning. A portion is
/// like a scan, and a file may want no byte too many.
#[test]
fn ends_of_a_list() {
    let text = "static struct sections map;
    static uint32_t addresses[4];
    static uint64_t values[4];
    static uint16_t owners[4];
    static const struct sections_buffers buffers = {addresses, 4, values, 4, owners, 4};
    static void run(struct sections_code last, size_t room) {
        struct sections_code steps[] = {sections_code_begin(0), last};
        uint64_t answers[32];
        uint8_t bytes[5];
        struct sections_ran ran = sections_run(&map, steps, 2, &buffers, bytes, 5, answers, room, false);
        printf(\"%d\\n%zu\\n%zu\\n\", ran.stop, ran.taken, ran.written);
    }
    int main(void) {
        size_t room = 2 * SECTIONS_ANSWER_WORDS + 2 * SECTIONS_SHOWN_WORDS;
        run(sections_code_scan(0, 0, 9, 2, 4, 3), room);
        run(sections_code_scan(0, 0, 9, 4, 2, 3), room);
        run(sections_code_scan(0, 0, 9, 3, 4, 2), room);
        run(sections_code_scan(0, 0, 9, 4, 3, 2), room - 1);
        run(sections_code_scan(0, 0, 9, 5, 4, 4), 32);
        run(sections_code_scan(0, 0, 9, 4, 5, 4), 32);
        run(sections_code_scan(0, 0, 9, 4, 4, 5), 32);
        run(sections_code_of(3, 0, 7, 1, 65535, 0, 0), 32);
        run(sections_code_of(3, 0, 7, 1, 65536, 0, 0), 32);
        run(sections_code_export_portion(2, 4, 3), room);
        run(sections_code_export_portion(4, 3, 2), room - 1);
        run(sections_code_export_portion(5, 4, 4), 32);
        run(sections_code_export_portion(4, 5, 4), 32);
        run(sections_code_export_portion(4, 4, 5), 32);
        run(sections_code_export_file(5), room);
        run(sections_code_export_file(6), room);
        run(sections_code_of(15, 0, 0, 0, 0, 0, 0), room);
        return 0;
    }\n";
    let (whole, full, meaningless) = ([0, 2, 10], [2, 1, 5], [1, 1, 5]);
    let scans = [whole, whole, whole, full, meaningless, meaningless, meaningless];
    let puts = [whole, meaningless];
    let portions = [whole, full, meaningless, meaningless, meaningless];
    let others = [whole, meaningless, meaningless];
    let expected = [scans.concat(), puts.concat(), portions.concat(), others.concat()].concat();
    assert_eq!(numbers(&printed("ends", text, &C)), expected);
}

/// The header's functions pass no null pointer on, of all buffers or of one.
#[test]
fn null_where_there_are_no_places() {
    let text = "static struct sections map;
    static uint32_t addresses[1];
    static uint64_t values[1];
    static uint16_t owners[1];
    int main(void) {
        struct sections_buffers some[] = {{NULL, 0, NULL, 0, NULL, 0}, {NULL, 0, values, 1, owners, 1},
                                          {addresses, 1, NULL, 0, owners, 1}, {addresses, 1, values, 1, NULL, 0},
                                          {addresses, 1, values, 1, owners, 1}};
        struct sections_ran ran = sections_run(&map, NULL, 0, NULL, NULL, 0, NULL, 0, false);
        printf(\"%d\\n%zu\\n\", ran.stop, ran.taken);
        sections_begin(&map, 0);
        for (int i = 0; i < 5; i++)
            printf(\"%d\\n\", sections_scan(&map, 0, 0, 9, &some[i]).refusal);
        sections_put(&map, 0, 4, 5, 6);
        for (int i = 0; i < 5; i++)
            printf(\"%d\\n\", sections_scan(&map, 0, 0, 9, &some[i]).refusal);
        printf(\"%d\\n%d\\n%d\\n\", (int)addresses[0], (int)values[0], owners[0]);
        struct sections_code steps[] = {sections_code_begin(0), sections_code_scan(0, 0, 9, 0, 0, 0)};
        ran = sections_run(&map, steps, 2, &some[0], NULL, 0, NULL, 0, false);
        printf(\"%d\\n%zu\\n\", ran.stop, ran.taken);
        printf(\"%d\\n\", sections_export_open(&map).refusal);
        printf(\"%d\\n\", sections_export_portion(&map, NULL).refusal);
        for (int i = 0; i < 5; i++)
            printf(\"%d\\n\", sections_export_portion(&map, &some[i]).refusal);
        printf(\"%d\\n\", sections_export_file(&map, NULL, 0).refusal);
        return 0;
    }\n";
    let (empty, one, put) = ([0; 5], [8, 8, 8, 8, 0], [4, 5, 6]);
    let export = [0, 0, 0, 0, 0, 0, 0, 8];
    let expected = [&[0, 0][..], &empty, &one, &put, &[2, 0], &export].concat();
    assert_eq!(numbers(&printed("null", text, &C)), expected);
}

/// The members of `struct sections` are the arrays that a fresh map is made in.
#[test]
fn header_has_the_sizes_of_the_code() {
    let header = header();
    let members = header.split_once("struct sections {").unwrap().1.split_once("};").unwrap().0;
    let names = members.split(';').filter_map(|member| {
        Some(member.trim().strip_prefix("uint64_t ")?.split_once('[')?.0.to_owned())
    });
    let arrays = arrays();
    let names: Vec<String> = names.collect();
    assert_eq!(names.len(), arrays.len());
    let line = |name: &String| {
        format!("printf(\"%zu\\n\", sizeof ((struct sections *)0)->{name} / sizeof(uint64_t));\n")
    };
    let lines: String = names.iter().map(line).collect();
    let all = "printf(\"%zu\\n\", sizeof(struct sections) / sizeof(uint64_t));\n";
    let text = printed("sizes", &format!("int main(void) {{ {lines}{all}return 0; }}\n"), &C);
    let mut words: Vec<usize> =
        arrays.iter().map(|array| array.dimensions().iter().product()).collect();
    words.push(words.iter().sum());
    assert_eq!(numbers(&text), words);
}

/// The texts that say how large a map is.
#[test]
fn size_that_is_told() {
    let words = |array: &Passed| array.dimensions().iter().product::<usize>();
    let bytes = 8 * arrays().iter().map(words).sum::<usize>();
    let told = format!("{} KB", (bytes + 500) / 1000);
    for file in ["bindings/c/example.c", "bindings/rust/src/lib.rs"] {
        let text = fs::read_to_string(root().join(file)).expect("it is there");
        assert!(text.contains(&told), "{file}: {told}");
    }
}

fn numbers(text: &str) -> Vec<usize> {
    text.lines().map(|line| line.parse().expect("a number")).collect()
}

/// Document 01's limits stand in the lengths of the arrays.
#[test]
fn header_has_the_limits_of_the_code() {
    let [_, _, exported, records, _, slots, reads, marks, writes, seats] = &arrays()[..] else {
        panic!("the library has other arrays");
    };
    assert_eq!(exported.dimensions()[0], records.dimensions()[0]);
    assert_eq!(reads.dimensions()[0], seats.dimensions()[0]);
    let longest = crates().constant("LONGEST").expect("the longest section");
    let step = library("sections_step").parameters;
    let (first, last) = (&step[0], step.last().expect("a step has a code"));
    let limits = [
        ("SECTIONS_SEATS", seats.dimensions()[0]),
        ("SECTIONS_MAP_LIMIT", records.dimensions()[0]),
        ("SECTIONS_SLOT_COUNT", crates().constant("SLOTS").expect("the slots")),
        ("SECTIONS_READ_LIMIT", reads.dimensions()[1]),
        ("SECTIONS_MARK_LIMIT", marks.dimensions()[1]),
        ("SECTIONS_WRITE_LIMIT", writes.dimensions()[1]),
        ("SECTIONS_LONGEST", longest),
        ("SECTIONS_ANSWER_WORDS", first.dimensions()[0]),
        ("SECTIONS_CODE_WORDS", last.dimensions()[0]),
        ("SECTIONS_FOUND_WORDS", library("sections_next").parameters[0].dimensions()[0]),
        // By request 107: 4 and 4 bytes, then 4 and 10 for each record.
        ("SECTIONS_FILE_LIMIT", 4 + 4 + (4 + 10) * exported.dimensions()[0]),
        ("SECTIONS_FILE_BYTES(0)", 8),
        (
            "SECTIONS_SLOT_COUNT + SECTIONS_FILTER_ROWS + SECTIONS_BITMAP_ROWS",
            slots.dimensions()[0],
        ),
    ];
    let lines: String =
        limits.iter().map(|(name, _)| format!("printf(\"%d\\n\", {name});\n")).collect();
    let text = printed("limits", &format!("int main(void) {{ {lines}return 0; }}\n"), &C);
    assert_eq!(numbers(&text), limits.map(|(_, limit)| limit));
    assert_eq!((sections::SEATS, sections::MAP_LIMIT), (limits[0].1, limits[1].1));
    assert_eq!([sections::MAP_LIMIT, 0].map(sections::file_bytes), [limits[10].1, 8]);
    assert_eq!(sections::SCAN_LIMIT, limits[3].1 + limits[5].1);
    assert_eq!(sections::LONGEST, longest as u64);
    assert_eq!(crates().constant("OWNERS"), Some(usize::from(sections::Owner::MAX) + 1));
}

#[test]
fn wrapper_declares_what_the_library_has() {
    let file = root().join("bindings/rust/src/declared.rs");
    let declared = Sources::of_file("declared", &file).expect("it is there");
    for name in FUNCTIONS {
        assert_eq!(declared.signature("declared", name), Some(library(name)), "{name}");
    }
}

/// The refusals as the code names and numbers them, with document 01's words for
/// its workers and write sets.
fn refusals() -> Vec<(String, usize)> {
    let refusals = crates().numbers("spec", "number_of", "Refusal");
    let named = |name: String| name.replace("Worker", "Seat").replace("Writes", "Edits");
    refusals.into_iter().map(|(name, number)| (named(name), number)).collect()
}

/// `SeatFree` is "seat free".
fn word_of(name: &str) -> String {
    let spaced = name.chars().flat_map(|c| c.is_uppercase().then_some(' ').into_iter().chain([c]));
    spaced.collect::<String>().trim().to_lowercase()
}

/// Header and wrapper have the code's table: a name, a number and a word for each.
#[test]
fn refusals_are_the_same() {
    let refusals = refusals();
    let name = |refusal: &Refusal| (format!("{refusal:?}"), refusal.number() as usize);
    assert_eq!(Refusal::ALL.iter().map(name).collect::<Vec<_>>(), refusals);
    let constant = |(name, _): &(String, usize)| {
        let name = word_of(name).to_uppercase().replace(' ', "_");
        format!("printf(\"%d\\n\", SECTIONS_{name});\n")
    };
    let lines: String = refusals.iter().map(constant).collect();
    let text = printed("refusals", &format!("int main(void) {{ {lines}return 0; }}\n"), &C);
    let given: Vec<usize> = refusals.iter().map(|&(_, number)| number).collect();
    assert_eq!(numbers(&text), given);
    // The second model has no more of them.
    assert_eq!(given.last(), Some(&(plain::engine::Refusal::NoExport as usize)));
}

#[test]
fn words_are_the_same() {
    let text = "int main(void) {
        for (int i = 0; i < 128; i++)
            printf(\"%s\\n\", sections_word((enum sections_refusal)i));
        return 0;
    }\n";
    let mut words = vec!["unknown".to_owned(); 128];
    words[0] = "granted".into();
    words[crates().constant("MEANINGLESS").expect("its number")] = "no meaning".into();
    refusals().into_iter().for_each(|(name, number)| words[number] = word_of(&name));
    assert_eq!(printed("words", text, &C).lines().collect::<Vec<_>>(), words);
    for refusal in Refusal::ALL {
        assert_eq!(refusal.word(), words[refusal.number() as usize]);
    }
}
