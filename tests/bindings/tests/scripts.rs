//! The random scripts of the second model through the library.

use bindings::lent::Lent;
use bindings::subjects::{Replaying, Stepwise};
use bindings::{answer_of, by_method, fresh, replay, step_of};
use plain::compare::suite::{by_script, random, Size};
use plain::compare::{run, runs, Script, Subject};
use plain::engine::Engine;
use plain::generate;
use plain::profiles::{find, Profile, PROFILES};
use plain::random::Random;
use plain::step::{self, Answer, Buffers, Step};

fn agrees(subject: &dyn Subject, seed: u64) {
    let size = Size { seeds: seed..seed + 2, steps: 12_000 };
    let mut scripts = random(&size, None);
    // The long profile spends all serial numbers: one script of it is enough.
    scripts.retain(|script| script.group() != "spent" || subject.name() == Stepwise.name());
    // The second model reads the lines here, and only whole ones.
    let whole = |script: &Script| !script.answers(&script.text()).ends_with(b"?\n");
    scripts.extend(runs::all().into_iter().filter(whole));
    let tally = run(&by_script(subject, scripts));
    assert_eq!(tally.failed, 0);
    assert!(tally.passed > 2 * (PROFILES.len() - 1));
}

#[test]
fn step_by_step() {
    agrees(&Stepwise, 21);
}

#[test]
fn in_one_call() {
    agrees(&Replaying, 31);
}

const LENGTHS: [usize; 9] = [0, 1, 2, 3, 7, 20, 63, 64, 90];

const PROFILES_OF_SCANS: [&str; 6] = ["ordinary", "scans", "ends", "leaves", "limits", "guarded"];

fn profiles_of_scans() -> impl Iterator<Item = &'static Profile> {
    PROFILES_OF_SCANS.iter().map(|name| find(name, 0).expect("it is a profile"))
}

/// The one that is shorter than both others.
fn shortest([m, n, o]: [usize; 3]) -> Option<usize> {
    [m < n.min(o), n < m.min(o), o < m.min(n)].iter().position(|&it| it)
}

/// A step by the second model: its answer, and the buffers after it.
struct Played {
    step: Step,
    answer: Answer,
    lent: Lent,
}

fn play(engine: &mut Engine, step: Step, lengths: [usize; 3]) -> Played {
    let Step::Scan { worker, lo, hi } = step else {
        let answer = step::run(engine, step, &mut Buffers::default());
        return Played { step, answer, lent: Lent::new([0; 3]) };
    };
    let mut lent = Lent::new(lengths);
    let Lent { addresses, values, owners } = &mut lent;
    let answer = engine.scan(worker, lo, hi, addresses, values, owners);
    Played { step, answer: answer.map_or_else(Answer::from, Answer::Found), lent }
}

/// How often scans were granted with records, and with unequal buffers; how often they
/// were refused for short buffers, and for which one alone, since the same scan with
/// more places in that one was granted; and how often a guarded map refused a lock by
/// 16, by 17 and by 18.
#[derive(Default, Debug)]
struct Reached {
    scans: [usize; 3],
    alone: [usize; 3],
    locks: [usize; 3],
}

impl Reached {
    fn count(&mut self, played: &Played) {
        let (answer, lengths) = (played.answer, played.lent.lengths());
        let found = matches!(answer, Answer::Found(1..));
        let unequal = found && lengths.iter().any(|&length| length != lengths[0]);
        let kinds = [found, unequal, answer == Answer::Refused(8)];
        self.scans.iter_mut().zip(kinds).for_each(|(count, kind)| *count += usize::from(kind));
        if let Answer::Refused(number @ 16..=18) = answer {
            self.locks[usize::from(number) - 16] += 1;
        }
    }

    fn enough(&self) {
        let reached = |counts: [usize; 3], least| counts.iter().all(|&count| count > least);
        assert!(reached(self.scans, 500) && reached(self.alone, 500), "{self:?}");
        assert!(reached(self.locks, 100), "{self:?}");
    }
}

/// A script, each scan with buffers of any lengths. One that is refused, and has a
/// shortest buffer, is tried again with more places in that one.
fn play_all(profile: &Profile, seed: u64, reached: &mut Reached) -> Vec<Played> {
    let (mut random, mut engine) = (Random::new(seed), profile.engine());
    let mut all = Vec::new();
    for step in generate::script(seed, 30_000, profile) {
        let mut lengths = [0; 3].map(|_: usize| random.pick(&LENGTHS));
        let played = play(&mut engine, step, lengths);
        reached.count(&played);
        let refused = played.answer == Answer::Refused(8);
        all.push(played);
        let Some(short) = shortest(lengths).filter(|_| refused) else { continue };
        lengths[short] = 90;
        let again = play(&mut engine, step, lengths);
        reached.count(&again);
        reached.alone[short] += usize::from(again.answer.granted());
        all.push(again);
    }
    all
}

/// Scans with buffers of any lengths: not only the answers must agree, but every
/// place of all three buffers.
#[test]
fn buffers_of_any_lengths() {
    let mut reached = Reached::default();
    for profile in profiles_of_scans() {
        let mut map = fresh(profile.guarded);
        for Played { step, answer, lent } in play_all(profile, 5, &mut reached) {
            let mut ours = Lent::new(lent.lengths());
            let given = if let Step::Scan { worker, lo, hi } = step {
                let Lent { addresses, values, owners } = &mut ours;
                let given = map.scan(worker, lo, hi, addresses, values, owners);
                given.map_or_else(|no| Answer::Refused(no.number() as u8), Answer::Found)
            } else {
                by_method(&mut map, step, &mut Buffers::default())
            };
            assert_eq!((given, ours), (answer, lent), "{}: {step:?}", profile.name);
        }
    }
    reached.enough();
}

/// One list whose every scan has buffers of its own lengths.
#[test]
fn lists_with_different_buffers() {
    let mut reached = Reached::default();
    for profile in profiles_of_scans() {
        let played = play_all(profile, 6, &mut reached);
        let coded = |played: &Played| step_of(played.step, played.lent.lengths());
        let list: Vec<sections::Step> = played.iter().map(coded).collect();
        let (_, answers) = replay(&list, &mut [], profile.guarded);
        let mut map = fresh(profile.guarded);
        for ((code, given), Played { step, answer, lent }) in
            list.into_iter().zip(answers).zip(played)
        {
            assert_eq!(map.perform(code), given, "{}: {step:?}", profile.name);
            let mut ours = Lent::new(lent.lengths());
            let Lent { addresses, values, owners } = &mut ours;
            let given = answer_of(step, given, addresses, values, owners);
            assert_eq!((given, ours), (answer, lent), "{}: {step:?}", profile.name);
        }
    }
    reached.enough();
}
