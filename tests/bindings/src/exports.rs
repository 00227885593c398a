//! Steps of exports among those of jobs, and what they give in lines. Scripts have no
//! line for them; script.c has small letters.

use crate::lent::Lent;
use crate::{answer_of, by_method, script_step};
use plain::engine::Engine;
use plain::export::Portion;
use plain::script::{letter, write_answer, write_step};
use plain::step::{self, Answer, Buffers};
use sections::{Refusal, Section, Sections};

/// A step of a job, a fold, or a step of an export: a portion with the places of its
/// buffers, a file with its bytes.
#[derive(Clone, Copy, PartialEq, Debug)]
pub enum Mixed {
    Job(step::Step),
    Open,
    Portion([usize; 3]),
    File(usize),
    Close,
}

/// What a step gave: its answer, after a portion's every place of its buffers, and of a
/// file every byte that was lent to it.
#[derive(Clone, PartialEq, Debug)]
pub struct Done {
    pub line: String,
    pub bytes: Vec<u8>,
}

/// What takes both kinds of steps. A refusal is its number.
pub trait Exporting {
    fn job(&mut self, step: step::Step, buffers: &mut Buffers) -> Answer;
    fn open(&mut self) -> Result<usize, u8>;
    /// The count, and what remains.
    fn portion(&mut self, lent: &mut Lent) -> Result<[usize; 2], u8>;
    fn file(&mut self, bytes: &mut [u8]) -> Result<usize, u8>;
    fn close(&mut self) -> Result<(), u8>;
}

/// The second model.
impl Exporting for Engine {
    fn job(&mut self, step: step::Step, buffers: &mut Buffers) -> Answer {
        step::run(self, step, buffers)
    }

    fn open(&mut self) -> Result<usize, u8> {
        self.open_export().map_err(|no| no as u8)
    }

    fn portion(&mut self, Lent { addresses, values, owners }: &mut Lent) -> Result<[usize; 2], u8> {
        let portion = Engine::portion(self, addresses, values, owners);
        portion.map(|Portion { count, remaining }| [count, remaining]).map_err(|no| no as u8)
    }

    fn file(&mut self, bytes: &mut [u8]) -> Result<usize, u8> {
        Engine::file(self, bytes).map_err(|no| no as u8)
    }

    fn close(&mut self) -> Result<(), u8> {
        self.close_export().map_err(|no| no as u8)
    }
}

fn number(refusal: Refusal) -> u8 {
    refusal.number() as u8
}

/// The library.
impl Exporting for Sections {
    fn job(&mut self, step: step::Step, buffers: &mut Buffers) -> Answer {
        by_method(self, step, buffers)
    }

    fn open(&mut self) -> Result<usize, u8> {
        self.open_export().map_err(number)
    }

    fn portion(&mut self, Lent { addresses, values, owners }: &mut Lent) -> Result<[usize; 2], u8> {
        let portion = Sections::portion(self, addresses, values, owners);
        portion.map(|it| [it.count, it.remaining]).map_err(number)
    }

    fn file(&mut self, bytes: &mut [u8]) -> Result<usize, u8> {
        Sections::file(self, bytes).map_err(number)
    }

    fn close(&mut self) -> Result<(), u8> {
        self.close_export().map_err(number)
    }
}

/// The line of a script's step.
fn job_line(step: step::Step, answer: Answer, buffers: &Buffers) -> String {
    let mut text = Vec::new();
    write_answer(&mut text, step, answer, buffers);
    String::from_utf8(text).expect("answers are plain text").trim_end().into()
}

/// The line of an export's step: 0 and its numbers, or that of the refusal.
fn line<const N: usize>(letter: char, answer: Result<[usize; N], u8>) -> String {
    match answer {
        Ok(numbers) => numbers.iter().fold(format!("{letter} 0"), |line, n| format!("{line} {n}")),
        Err(number) => format!("{letter} {number}"),
    }
}

/// Takes a step.
pub fn play(subject: &mut impl Exporting, step: Mixed) -> Done {
    let (mut bytes, mut lent) = (Vec::new(), step.lent());
    let letter = step.letter();
    let line = match step {
        Mixed::Job(step) => {
            let mut buffers = Buffers::default();
            let answer = subject.job(step, &mut buffers);
            job_line(step, answer, &buffers)
        }
        Mixed::Open => line(letter, subject.open().map(|count| [count])),
        Mixed::Portion(_) => line(letter, subject.portion(&mut lent)) + &lent.to_string(),
        Mixed::File(length) => {
            bytes = vec![85; length];
            line(letter, subject.file(&mut bytes).map(|count| [count]))
        }
        Mixed::Close => line(letter, subject.close().map(|()| [])),
    };
    Done { line, bytes }
}

impl Mixed {
    /// As a step of a list.
    pub fn listed(self) -> sections::Step {
        match self {
            Mixed::Job(step) => script_step(step),
            Mixed::Open => sections::Step::OpenExport,
            Mixed::Portion([addresses, values, owners]) => {
                sections::Step::Portion { addresses, values, owners }
            }
            Mixed::File(bytes) => sections::Step::File { bytes },
            Mixed::Close => sections::Step::CloseExport,
        }
    }

    fn letter(self) -> char {
        match self {
            Mixed::Job(step) => letter(step).into(),
            Mixed::Open => 'o',
            Mixed::Portion(_) => 'p',
            Mixed::File(_) => 'f',
            Mixed::Close => 'c',
        }
    }

    /// The buffers of a portion.
    fn lent(self) -> Lent {
        Lent::new(if let Mixed::Portion(lengths) = self { lengths } else { [0; 3] })
    }

    /// The line of what a list answers to it.
    pub fn line_of(self, answer: Result<sections::Answer, Refusal>) -> String {
        use sections::Answer::{Filed, Given, Granted, Opened};
        let letter = self.letter();
        match (self, answer) {
            (Mixed::Job(step), answer) => {
                let mut buffers = Buffers::default();
                let Buffers { addresses, values, owners } = &mut buffers;
                let answer = answer_of(step, answer, addresses, values, owners);
                job_line(step, answer, &buffers)
            }
            (step, Err(no)) => line::<0>(letter, Err(number(no))) + &step.lent().to_string(),
            (Mixed::Open, Ok(Opened(count))) | (Mixed::File(_), Ok(Filed(count))) => {
                line(letter, Ok([count]))
            }
            (Mixed::Portion(_), Ok(Given(sections, remaining))) => {
                let shown = |it: &Section| (it.address, it.value, it.owner);
                let lent = self.lent().with(sections.iter().map(shown));
                line(letter, Ok([sections.len(), remaining])) + &lent.to_string()
            }
            (Mixed::Close, Ok(Granted)) => line(letter, Ok([])),
            (step, Ok(other)) => panic!("{other:?} is no answer to {step:?}"),
        }
    }

    /// Its line for script.c.
    pub fn write(self, text: &mut Vec<u8>) {
        match self {
            Mixed::Job(step) => write_step(text, step),
            Mixed::Open => text.extend(b"o\n"),
            Mixed::Portion([m, n, o]) => text.extend(format!("p {m} {n} {o}\n").bytes()),
            Mixed::File(length) => text.extend(format!("f {length}\n").bytes()),
            Mixed::Close => text.extend(b"c\n"),
        }
    }
}
