//! The library, held to the second model on whole scripts.

use crate::{answer_of, by_method, fresh, replay, script_step};
use plain::compare::Subject;
use plain::script::{guarded, steps, write_answer, write_contents, write_start};
use plain::step::{Buffers, Shown};
use sections::{Sections, Step};
use std::io;

/// Step by step.
pub struct Stepwise;

/// All steps in one call.
pub struct Replaying;

impl Subject for Stepwise {
    fn name(&self) -> String {
        "step by step".into()
    }

    fn answers(&self, script: &[u8]) -> io::Result<Vec<u8>> {
        let guarded = guarded(script);
        let mut map = fresh(guarded);
        let mut buffers = Buffers::default();
        let mut text = Vec::new();
        write_start(&mut text, guarded);
        for step in steps(script) {
            let answer = by_method(&mut map, step, &mut buffers);
            write_answer(&mut text, step, answer, &buffers);
        }
        write_contents(&mut text, &contents(&map));
        Ok(text)
    }
}

impl Subject for Replaying {
    fn name(&self) -> String {
        "in one call".into()
    }

    fn answers(&self, script: &[u8]) -> io::Result<Vec<u8>> {
        let (steps, guarded) = (steps(script), guarded(script));
        let list: Vec<Step> = steps.iter().map(|&step| script_step(step)).collect();
        let (map, answers) = replay(&list, &mut [], guarded);
        let mut text = Vec::new();
        write_start(&mut text, guarded);
        for (step, answer) in steps.into_iter().zip(answers) {
            let mut buffers = Buffers::default();
            let Buffers { addresses, values, owners } = &mut buffers;
            let answer = answer_of(step, answer, addresses, values, owners);
            write_answer(&mut text, step, answer, &buffers);
        }
        write_contents(&mut text, &contents(&map));
        Ok(text)
    }
}

/// Without stamps.
pub fn contents(map: &Sections) -> Vec<Shown> {
    map.iter().map(|record| (record.address, record.value, record.owner)).collect()
}
