//! The programs of docs/EXPORTS.md: each prints the sheet of a map that it is given.

use crate::{fill, install, put};
use bindings::programs::{compile, output_of, root, C};
use plain::step::Shown;
use sections::{file_bytes, Sections, MAP_LIMIT};
use std::fs;
use std::path::PathBuf;
use std::process::Command;

/// The only block of a language.
fn block(language: &str) -> String {
    let text = fs::read_to_string(root().join("docs/EXPORTS.md")).expect("it is there");
    let mut blocks = text.split("\n```").filter_map(|it| it.strip_prefix(language));
    let block = blocks.next().expect("there is one").to_owned();
    assert_eq!(blocks.next(), None, "there is only one of {language}");
    block
}

/// A folder of its own for a program.
fn folder(name: &str) -> PathBuf {
    let folder = PathBuf::from(env!("CARGO_TARGET_TMPDIR")).join(name);
    fs::create_dir_all(&folder).expect("there is room");
    folder
}

/// The sheet that all of them print.
fn sheet(records: &[Shown]) -> String {
    let line = |(address, value, owner): &Shown| format!("{address:#010x} {value:20} {owner:5}\n");
    records.iter().map(line).collect()
}

/// On files that the library wrote, with bytes of the buffer past them too.
#[test]
fn in_python() {
    let folder = folder("sheet_in_python");
    fs::write(folder.join("sheet.py"), block("python")).expect("there is room");
    let ends = [(0, u64::MAX, 0), (9, 0, u16::MAX), (u32::MAX, 1 << 63, 258)];
    let (mut few, mut full) = (Sections::new(), Sections::new());
    install(&mut few, &ends.each_ref().map(put));
    let all = fill(&mut full, 1024);
    let cases = [(Sections::new(), vec![]), (few, ends.to_vec()), (full, all)];
    for (mut map, records) in cases {
        let mut bytes = [85; file_bytes(MAP_LIMIT) + 7];
        map.open_export().expect("none is open");
        let written = map.file(&mut bytes).expect("there is room");
        for length in [written, bytes.len()] {
            fs::write(folder.join("sheet.bin"), &bytes[..length]).expect("there is room");
            let mut python = Command::new("python3");
            let given = output_of(python.arg("sheet.py").current_dir(&folder));
            assert_eq!(given, sheet(&records));
        }
    }
}

/// More records than a portion of these programs holds.
const RECORDS: u32 = 150;

fn record(n: u32) -> Shown {
    (14_000_000 * (RECORDS - 1 - n), u64::from(n) << 40, 300 * n as u16)
}

/// What they are to print, by rising address.
fn expected() -> String {
    sheet(&(0..RECORDS).rev().map(record).collect::<Vec<_>>())
}

/// The same records, each by a job of its own.
#[test]
fn in_c() {
    let main = format!(
        "static struct sections map;
        int main(void) {{
            sections_init(&map);
            for (uint32_t n = 0; n < {RECORDS}; n++) {{
                sections_begin(&map, 0);
                sections_put(&map, 0, 14000000 * ({RECORDS} - 1 - n), (uint64_t)n << 40, (uint16_t)(300 * n));
                sections_lock(&map, 0);
                sections_validate(&map, 0);
                sections_install(&map, 0);
            }}
            sheet(&map);
            return sections_export_open(&map).refusal;
        }}\n"
    );
    let folder = folder("sheet_in_c");
    let (source, program) = (folder.join("sheet.c"), folder.join("sheet"));
    fs::write(&source, block("c") + &main).expect("there is room");
    compile(&C, &source, &program);
    assert_eq!(output_of(&mut Command::new(program)), expected());
}

#[test]
fn in_rust() {
    let main = format!(
        "fn main() -> Result<(), Refusal> {{
            let mut map = Sections::new();
            for n in 0..{RECORDS}u32 {{
                map.begin(0)?;
                map.put(0, 14_000_000 * ({RECORDS} - 1 - n), u64::from(n) << 40, (300 * n) as u16)?;
                map.lock(0)?;
                map.validate(0)?;
                map.install(0)?;
            }}
            sheet(&mut map)?;
            map.open_export().map(drop)
        }}\n"
    );
    let folder = folder("sheet_in_rust");
    fs::create_dir_all(folder.join("src")).expect("there is room");
    fs::write(folder.join("src/main.rs"), block("rust") + &main).expect("there is room");
    let bindings = root().join("bindings/rust");
    let package = "[package]\nname = \"sheet\"\nedition = \"2021\"\n[workspace]\n[dependencies]\n";
    let manifest = format!("{package}sections = {{ path = {bindings:?} }}\n");
    fs::write(folder.join("Cargo.toml"), manifest).expect("there is room");
    let mut cargo = Command::new(env!("CARGO"));
    cargo.args(["run", "--offline", "--quiet"]).current_dir(&folder);
    assert_eq!(output_of(&mut cargo), expected());
}
