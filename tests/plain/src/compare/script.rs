//! A script to compare, by the way it is made.

use crate::damage;
use crate::generate;
use crate::profiles::Profile;
use crate::script::answer;
use std::fmt;

pub enum Script {
    Random {
        profile: &'static Profile,
        seed: u64,
        steps: usize,
    },
    Damaged {
        seed: u64,
        steps: usize,
    },
    /// A text with answers of its own, which the model plays no part in.
    Text {
        name: String,
        text: String,
        answers: String,
    },
}

impl Script {
    pub fn text(&self) -> Vec<u8> {
        match self {
            Script::Random { profile, seed, steps } => generate::text(*seed, *steps, profile),
            Script::Damaged { seed, steps } => damage::damaged(*seed, *steps).text,
            Script::Text { text, .. } => text.clone().into(),
        }
    }

    /// What must be written for that text.
    pub fn answers(&self, text: &[u8]) -> Vec<u8> {
        if let Script::Text { answers, .. } = self {
            return answers.clone().into();
        }
        let mut answers = Vec::new();
        answer(text, &mut answers).expect("a vector takes all");
        answers
    }

    pub fn group(&self) -> &str {
        match self {
            Script::Random { profile, .. } => profile.name,
            Script::Damaged { .. } => "damaged",
            Script::Text { .. } => "written by hand",
        }
    }
}

/// Random ones as the command that prints them.
impl fmt::Display for Script {
    fn fmt(&self, out: &mut fmt::Formatter) -> fmt::Result {
        match self {
            Script::Random { profile, seed, steps } => {
                write!(
                    out,
                    "profile {0}, seed {seed}: plain script {seed} {steps} {0}",
                    profile.name
                )
            }
            Script::Damaged { seed, steps } => {
                let kind = damage::KINDS[(seed % damage::KINDS.len() as u64) as usize].name;
                write!(out, "damage '{kind}', seed {seed}: plain damaged {seed} {steps}")
            }
            Script::Text { name, .. } => write!(out, "'{name}'"),
        }
    }
}
