//! Lists of steps in one call.

use crate::steps::shown;
use crate::{declared, granted, Address, Answer, Owner, Refusal, Section, Sections, Step};

/// Words of an answer, and words of a record after those of a scan or a portion.
const HEAD: usize = 5;
const SHOWN: usize = 3;

impl Sections {
    /// Runs a list of steps on a fresh map: the map after it, and their answers.
    /// It is for this call that the serial run is proved as one promise.
    ///
    /// Its files are written to the start of `bytes`, one over the other, so that the
    /// last granted one stands there. A list without files needs none.
    ///
    /// # Panics
    ///
    /// If a file of the list wants more bytes than are lent.
    ///
    /// ```
    /// use sections::{Answer, Refusal, Section, Sections, Step};
    /// let steps = [
    ///     Step::Begin { seat: 0 },
    ///     Step::Put { seat: 0, address: 4096, value: 32, owner: 1 },
    ///     Step::Scan { seat: 0, lo: 0, hi: 9999, addresses: 1, values: 1, owners: 1 },
    ///     Step::Scan { seat: 0, lo: 0, hi: 9999, addresses: 1, values: 1, owners: 0 },
    /// ];
    /// let (_, answers) = Sections::replay(&steps, &mut []);
    /// let section = Section { address: 4096, value: 32, owner: 1 };
    /// assert_eq!(answers[2], Ok(Answer::Found(vec![section])));
    /// assert_eq!(answers[3], Err(Refusal::ShortBuffer));
    ///
    /// // The map is left with the export as the list left it.
    /// let mut bytes = [0; 8];
    /// let steps = [Step::OpenExport, Step::File { bytes: 8 }];
    /// let (mut map, answers) = Sections::replay(&steps, &mut bytes);
    /// assert_eq!(answers, [Ok(Answer::Opened(0)), Ok(Answer::Filed(8))]);
    /// assert_eq!(bytes, [0, 0, 0, 0, 10, 0, 0, 0]);
    /// assert_eq!(map.close_export(), Ok(()));
    /// ```
    pub fn replay(steps: &[Step], bytes: &mut [u8]) -> (Self, Vec<Result<Answer, Refusal>>) {
        run(steps, bytes, false)
    }

    /// The same on a fresh guarded map ([`Sections::guarded`]).
    ///
    /// # Panics
    ///
    /// If a file of the list wants more bytes than are lent.
    ///
    /// ```
    /// use sections::{Answer, Refusal, Sections, Step};
    /// let steps = [
    ///     Step::Begin { seat: 0 },
    ///     Step::Scan { seat: 0, lo: 0, hi: 9999, addresses: 1, values: 1, owners: 1 },
    ///     Step::Put { seat: 0, address: 4096, value: 32, owner: 1 },
    ///     Step::Put { seat: 0, address: 4127, value: 100, owner: 2 },
    ///     Step::Lock { seat: 0 },
    ///     Step::Remove { seat: 0, address: 4096 },
    ///     Step::Lock { seat: 0 },
    /// ];
    /// let (_, answers) = Sections::replay_guarded(&steps, &mut []);
    /// assert_eq!(answers[4], Err(Refusal::Overlap));
    /// assert_eq!(answers[6], Ok(Answer::Granted));
    /// ```
    pub fn replay_guarded(
        steps: &[Step],
        bytes: &mut [u8],
    ) -> (Self, Vec<Result<Answer, Refusal>>) {
        run(steps, bytes, true)
    }
}

/// The most words that an answer of the step has.
fn longest(step: &Step) -> usize {
    let [addresses, values, owners] = step.places();
    HEAD + SHOWN * addresses.min(values).min(owners)
}

/// The map after the list, and the answers.
fn run(
    steps: &[Step],
    bytes: &mut [u8],
    guarded: bool,
) -> (Sections, Vec<Result<Answer, Refusal>>) {
    let lent = steps.iter().all(|step| step.bytes() <= bytes.len());
    assert!(lent, "a file wants more bytes than are lent");
    let codes: Vec<u64> = steps.iter().flat_map(|step| step.code()).collect();
    let most = |buffer: usize| steps.iter().map(|step| step.places()[buffer]).max().unwrap_or(0);
    let (mut addresses, mut values) = (vec![0; most(0)], vec![0; most(1)]);
    let mut owners = vec![0; most(2)];
    let mut words = vec![0; steps.iter().map(longest).sum()];
    let (addresses, values, owners) = (&mut addresses, &mut values, &mut owners);
    let (map, ran) =
        declared::replay(&codes, addresses, values, owners, bytes, &mut words, guarded);
    assert_eq!(ran.taken, steps.len() as u64, "each step has a meaning and room");
    let mut rest = &words[..ran.written as usize];
    let answers = steps.iter().map(|&step| answer(step, &mut rest)).collect();
    (Sections { map }, answers)
}

/// Takes one answer off the words.
fn answer(step: Step, words: &mut &[u64]) -> Result<Answer, Refusal> {
    let (head, rest) = words.split_first_chunk::<HEAD>().expect("an answer for each step");
    *words = rest;
    let told = granted(*head)?;
    let (records, rest) = words.split_at(SHOWN * shown(told));
    *words = rest;
    Ok(step.answer(told, records.chunks_exact(SHOWN).map(section).collect()))
}

/// A record of a scan or a portion.
fn section(words: &[u64]) -> Section {
    Section { address: words[0] as Address, value: words[1], owner: words[2] as Owner }
}
