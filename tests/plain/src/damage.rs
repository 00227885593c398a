//! Scripts with one malformed line, one kind of damage for each way to fail.

use crate::generate::text;
use crate::profiles;
use crate::random::Random;

pub struct Kind {
    pub name: &'static str,
    place: Place,
    /// The damaged line, with its line feed unless that is the damage.
    damage: fn(&str, &mut Random) -> Vec<u8>,
}

/// Where the damaged line stands.
enum Place {
    Any,
    First,
    /// Behind another line.
    Later,
    Last,
    /// There is no other line.
    Alone,
}

const fn kind(name: &'static str, damage: fn(&str, &mut Random) -> Vec<u8>) -> Kind {
    Kind { name, place: Place::Any, damage }
}

const fn kind_at(
    place: Place,
    name: &'static str,
    damage: fn(&str, &mut Random) -> Vec<u8>,
) -> Kind {
    Kind { name, place, damage }
}

pub const KINDS: [Kind; 33] = [
    kind("empty line", |_, _| b"\n".to_vec()),
    kind("only a space", |_, _| b" \n".to_vec()),
    kind("carriage return", |line, _| format!("{line}\r\n").into()),
    kind("tab", |line, random| respaced(line, "\t", random)),
    kind("two spaces", |line, random| respaced(line, "  ", random)),
    kind("no space", |line, random| respaced(line, "", random)),
    kind("trailing space", |line, _| format!("{line} \n").into()),
    kind("leading space", |line, _| format!(" {line}\n").into()),
    kind("unknown letter", |line, random| relettered(line, b"CEFHJKNOQUWXYZ?#-", random)),
    kind("small letter", |line, random| relettered(line, b"brspdlviamtg", random)),
    kind("strange byte", |line, random| relettered(line, &[0, 0x7f, 0x80, 0xff, b'\r'], random)),
    kind("no letter", |line, _| format!("{}\n", &line[2..]).into()),
    kind("missing field", missing_field),
    kind("extra field", |line, random| format!("{line} {}\n", random.below(9)).into()),
    kind("only a letter", |line, _| format!("{}\n", &line[..1]).into()),
    kind("more than T", |_, random| more_than("T", random)),
    kind_at(Place::First, "more than G", |_, random| more_than("G", random)),
    kind_at(Place::First, "small g", |_, _| b"g\n".to_vec()),
    kind_at(Place::Later, "late G", |_, random| random.pick(&["G\n", "G\n", "G 0\n"]).into()),
    kind_at(Place::First, "G twice", |_, _| b"G\nG\n".to_vec()),
    kind_at(Place::Alone, "G without line feed", |_, _| b"G".to_vec()),
    kind("plus sign", |line, random| numbered(line, random, |number| format!("+{number}"))),
    kind("minus sign", |line, random| numbered(line, random, |number| format!("-{number}"))),
    kind("no digit", |line, random| numbered(line, random, |_| "x".into())),
    kind("hexadecimal", |line, random| numbered(line, random, |number| format!("0x{number}"))),
    kind("point", |line, random| numbered(line, random, |number| format!("{number}.0"))),
    kind("wide worker", |_, random| format!("B {}\n", wide(u32::MAX.into(), random)).into()),
    kind("wide address", wide_address),
    kind("wide value", |_, random| format!("P 0 1 {} 0\n", wide(u64::MAX, random)).into()),
    kind("wide owner", |_, random| format!("P 0 1 2 {}\n", wide(u16::MAX.into(), random)).into()),
    kind("no owner", |_, random| format!("P 0 1 {}\n", random.below(9)).into()),
    kind("two owners", |_, random| format!("P 0 1 2 {} 0\n", random.owner()).into()),
    kind_at(Place::Last, "no line feed", |line, random| {
        line[..random.between(1, line.len())].into()
    }),
];

/// A script and the place of its malformed line, counted from 0.
pub struct Damaged {
    pub kind: &'static str,
    pub line: usize,
    pub text: Vec<u8>,
}

pub fn damaged(seed: u64, steps: usize) -> Damaged {
    let kind = &KINDS[(seed % KINDS.len() as u64) as usize];
    let seed = Random::new(seed).number();
    let mut random = Random::new(seed);
    let profile = profiles::find("any", seed).expect("any is a profile");
    let whole = text(seed, steps.max(1), profile);
    let lines: Vec<&[u8]> = whole.split_inclusive(|&byte| byte == b'\n').collect();
    let at = place(kind, lines.len(), &mut random);
    let line = lines.get(at).map_or(&b""[..], |line| line.trim_ascii_end());
    let line = std::str::from_utf8(line).expect("a script is plain text");
    // Most kinds of damage are to a number, so a line without any gives way to one that has it.
    let line = if line.len() < 2 { "M 0" } else { line };
    let damage = (kind.damage)(line, &mut random);
    let rest = if let Place::Alone = kind.place { &[] } else { lines.get(at + 1..).unwrap_or(&[]) };
    // The last line of the damage is the malformed one.
    let good = damage.split_inclusive(|&byte| byte == b'\n').count() - 1;
    let text = [lines[..at].concat(), damage, rest.concat()].concat();
    Damaged { kind: kind.name, line: at + good, text }
}

fn place(kind: &Kind, lines: usize, random: &mut Random) -> usize {
    match kind.place {
        Place::Any => random.below(lines),
        Place::First | Place::Alone => 0,
        Place::Later => random.between(1, lines),
        Place::Last => lines - 1,
    }
}

/// One of the spaces made into something else. Made into nothing, it leaves the
/// line a field short.
fn respaced(line: &str, space: &str, random: &mut Random) -> Vec<u8> {
    let mut words: Vec<&str> = line.split(' ').collect();
    let at = random.below(words.len() - 1);
    let joined = [words[at], words[at + 1]].join(space);
    words.splice(at..=at + 1, [joined.as_str()]);
    format!("{}\n", words.join(" ")).into()
}

fn relettered(line: &str, letters: &[u8], random: &mut Random) -> Vec<u8> {
    let mut bytes = format!("{line}\n").into_bytes();
    bytes[0] = random.pick(letters);
    bytes
}

/// A letter that has no number, with something after it.
fn more_than(letter: &str, random: &mut Random) -> Vec<u8> {
    let number = random.number();
    let (again, apart) = (letter, format!(" {letter}"));
    let rest = [" ", " 0", "\r", "\t", "  ", again, "0", &apart, &format!(" {number}"), " 0 0"];
    format!("{letter}{}\n", random.pick(&rest)).into()
}

fn missing_field(line: &str, _: &mut Random) -> Vec<u8> {
    let (kept, _) = line.rsplit_once(' ').expect("each line has a number");
    format!("{kept}\n").into()
}

/// One of the numbers made into something else.
fn numbered(line: &str, random: &mut Random, make: fn(&str) -> String) -> Vec<u8> {
    let mut words: Vec<String> = line.split(' ').map(String::from).collect();
    let at = random.between(1, words.len() - 1);
    words[at] = make(&words[at]);
    format!("{}\n", words.join(" ")).into()
}

fn wide_address(_: &str, random: &mut Random) -> Vec<u8> {
    let number = wide(u32::MAX.into(), random);
    let lines = [
        format!("R 0 {number}\n"),
        format!("S 0 {number} {number}\n"),
        format!("S 0 1 {number}\n"),
        format!("P 0 {number} 1 0\n"),
        format!("D 0 {number}\n"),
        format!("M {number}\n"),
    ];
    lines[random.below(lines.len())].clone().into()
}

/// A number above the limit: by one, by little, by a factor, or by many digits.
fn wide(limit: u64, random: &mut Random) -> String {
    let limit = u128::from(limit);
    match random.below(5) {
        0 => format!("{}", limit + 1),
        1 => format!("000{}", limit + 1 + random.below(1000) as u128),
        2 => format!("{}", (limit + 1) * (2 + random.below(5) as u128)),
        3 => format!("{}0", limit + 1),
        _ => format!("1{}", "0".repeat(random.between(20, 400))),
    }
}
