//! The text of scripts: lines into steps, and steps and answers into lines.

use crate::engine::{Engine, Reading};
use crate::map::{Payload, Record};
use crate::step::{run, Answer, Buffers, Shown, Step};
use std::io::{self, Write};

const CHUNK: usize = 1 << 16;

/// The first line of a script for a guarded map. Anywhere else it is malformed.
pub const GUARD: &[u8] = b"G\n";

/// Steps read one by one. It stands at the start of a line.
pub struct Parser<'a> {
    /// Whether the first line was the one for a guarded map.
    pub guarded: bool,
    rest: &'a [u8],
}

impl<'a> Parser<'a> {
    pub fn new(script: &'a [u8]) -> Self {
        let behind = script.strip_prefix(GUARD);
        Parser { guarded: behind.is_some(), rest: behind.unwrap_or(script) }
    }

    pub fn at_end(&self) -> bool {
        self.rest.is_empty()
    }

    /// The next line whole, with its line feed; `None` if it is malformed.
    pub fn step(&mut self) -> Option<Step> {
        let step = match self.byte()? {
            b'B' => Step::Begin { worker: self.number32()? },
            b'R' => Step::Read { worker: self.number32()?, address: self.number32()? },
            b'S' => {
                Step::Scan { worker: self.number32()?, lo: self.number32()?, hi: self.number32()? }
            }
            b'P' => Step::Put {
                worker: self.number32()?,
                address: self.number32()?,
                value: self.number64()?,
                owner: self.number16()?,
            },
            b'D' => Step::Remove { worker: self.number32()?, address: self.number32()? },
            b'L' => Step::Lock { worker: self.number32()? },
            b'V' => Step::Validate { worker: self.number32()? },
            b'I' => Step::Install { worker: self.number32()? },
            b'A' => Step::Abort { worker: self.number32()? },
            b'M' => Step::Merge { address: self.number32()? },
            b'T' => Step::MergeOldest,
            _ => return None,
        };
        (self.byte()? == b'\n').then_some(step)
    }

    fn byte(&mut self) -> Option<u8> {
        let (&first, rest) = self.rest.split_first()?;
        self.rest = rest;
        Some(first)
    }

    fn digit(&mut self) -> Option<u64> {
        let first = self.rest.first().filter(|byte| byte.is_ascii_digit())?;
        self.rest = &self.rest[1..];
        Some(u64::from(first - b'0'))
    }

    /// One space, then one or more digits.
    fn number64(&mut self) -> Option<u64> {
        if self.byte()? != b' ' {
            return None;
        }
        let mut number = self.digit()?;
        while let Some(digit) = self.digit() {
            number = number.checked_mul(10)?.checked_add(digit)?;
        }
        Some(number)
    }

    fn number32(&mut self) -> Option<u32> {
        u32::try_from(self.number64()?).ok()
    }

    fn number16(&mut self) -> Option<u16> {
        u16::try_from(self.number64()?).ok()
    }
}

/// Whether the script runs on a guarded map.
pub fn guarded(script: &[u8]) -> bool {
    Parser::new(script).guarded
}

/// The steps up to the end or the first malformed line.
pub fn steps(script: &[u8]) -> Vec<Step> {
    let mut parser = Parser::new(script);
    std::iter::from_fn(|| parser.step()).collect()
}

/// Prints what `mapscript` must print.
pub fn answer(script: &[u8], out: &mut impl Write) -> io::Result<()> {
    answer_by(Engine::new(guarded(script)), script, out)
}

/// The same but for the slots examined, which a granted R line then does not end
/// with.
pub fn answer_without_slots(script: &[u8], out: &mut impl Write) -> io::Result<()> {
    answer_by(Engine::without_slots(guarded(script)), script, out)
}

fn answer_by(mut engine: Engine, script: &[u8], out: &mut impl Write) -> io::Result<()> {
    let mut parser = Parser::new(script);
    let mut buffers = Buffers::default();
    let mut text = Vec::with_capacity(2 * CHUNK);
    write_start(&mut text, parser.guarded);
    while !parser.at_end() {
        let Some(step) = parser.step() else {
            text.extend(b"?\n");
            return out.write_all(&text);
        };
        let answer = run(&mut engine, step, &mut buffers);
        write_answer(&mut text, step, answer, &buffers);
        if text.len() >= CHUNK {
            out.write_all(&text)?;
            text.clear();
        }
    }
    write_contents(&mut text, &shown(&engine.map().contents()));
    out.write_all(&text)
}

/// The answer to the line that makes the map a guarded one, if there is one.
pub fn write_start(text: &mut Vec<u8>, guarded: bool) {
    if guarded {
        text.extend(b"G 0\n");
    }
}

pub fn write_answer(text: &mut Vec<u8>, step: Step, answer: Answer, buffers: &Buffers) {
    text.push(letter(step));
    match answer {
        Answer::Refused(number) => field(text, number.into()),
        _ => field(text, 0),
    }
    match answer {
        Answer::Refused(_) | Answer::Granted => {}
        Answer::Read(Reading { payload, examined }) => {
            match payload {
                Some(payload) => write_payload(text, payload),
                None => text.extend(b" -"),
            }
            examined.iter().for_each(|&count| field(text, count as u64));
        }
        Answer::Commit(commit) => field(text, commit.into()),
        Answer::Merged(count) => field(text, count as u64),
        Answer::Found(count) => {
            field(text, count as u64);
            buffers.first(count).for_each(|record| write_record(text, record));
        }
    }
    text.push(b'\n');
}

fn shown(contents: &[Record]) -> Vec<Shown> {
    let shown = |record: &Record| {
        let payload = record.stored.payload;
        (record.address, payload.value, payload.owner)
    };
    contents.iter().map(shown).collect()
}

pub fn write_contents(text: &mut Vec<u8>, contents: &[Shown]) {
    text.push(b'E');
    field(text, contents.len() as u64);
    contents.iter().for_each(|&record| write_record(text, record));
    text.push(b'\n');
}

fn write_record(text: &mut Vec<u8>, (address, value, owner): Shown) {
    field(text, address.into());
    write_payload(text, Payload { value, owner });
}

/// The owner stands behind the value.
fn write_payload(text: &mut Vec<u8>, Payload { value, owner }: Payload) {
    field(text, value);
    field(text, owner.into());
}

pub fn write_step(text: &mut Vec<u8>, step: Step) {
    text.push(letter(step));
    fields(step).for_each(|number| field(text, number));
    text.push(b'\n');
}

/// A space and the number.
fn field(text: &mut Vec<u8>, mut number: u64) {
    let mut digits = [0; 21];
    let mut first = digits.len();
    loop {
        first -= 1;
        digits[first] = b'0' + (number % 10) as u8;
        number /= 10;
        if number == 0 {
            break;
        }
    }
    first -= 1;
    digits[first] = b' ';
    text.extend_from_slice(&digits[first..]);
}

pub fn letter(step: Step) -> u8 {
    match step {
        Step::Begin { .. } => b'B',
        Step::Read { .. } => b'R',
        Step::Scan { .. } => b'S',
        Step::Put { .. } => b'P',
        Step::Remove { .. } => b'D',
        Step::Lock { .. } => b'L',
        Step::Validate { .. } => b'V',
        Step::Install { .. } => b'I',
        Step::Abort { .. } => b'A',
        Step::Merge { .. } => b'M',
        Step::MergeOldest => b'T',
    }
}

/// The numbers of a step's line, in their order.
pub fn fields(step: Step) -> impl Iterator<Item = u64> {
    let worker = step.worker().map(u64::from);
    let (second, third, fourth) = match step {
        Step::Scan { lo, hi, .. } => (Some(lo), Some(u64::from(hi)), None),
        Step::Put { address, value, owner, .. } => (Some(address), Some(value), Some(owner)),
        Step::Read { address, .. } | Step::Remove { address, .. } | Step::Merge { address } => {
            (Some(address), None, None)
        }
        _ => (None, None, None),
    };
    worker.into_iter().chain(second.map(u64::from)).chain(third).chain(fourth.map(u64::from))
}
