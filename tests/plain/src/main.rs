//! Commands over standard input and output; see `USAGE`.

use plain::compare::suite::{Programs, Size};
use plain::compare::{self, Check};
use plain::engine::Engine;
use plain::profiles::Profile;
use plain::{claim, damage, generate, profiles, script, workloads};
use std::io::{self, Read, Write};
use std::path::Path;
use std::process::ExitCode;

const USAGE: &str = "\
usage: plain answer                     answers to the script on standard input
       plain fast                       the same without slots examined, which it does not keep
       plain claim                      checks the claim on that script's history
       plain script SEED STEPS PROFILE  a random script; PROFILE may be `any`
       plain profiles                   the names of the profiles
       plain workload NAME              a script of a million steps to be timed
       plain workloads                  the names of those
       plain filled RECORDS             another: small jobs on a map of 1 to 1024 records
       plain damaged SEED STEPS         a random script with one malformed line
       plain damage-kinds               the kinds of damage
       plain compare PROGRAM            holds a program to these answers, as the gate does
       plain compare PROGRAM SEED COUNT STEPS [PROFILE]
                                        the same on COUNT scripts of each profile, from SEED on";

fn main() -> ExitCode {
    let arguments: Vec<String> = std::env::args().skip(1).collect();
    let words: Vec<&str> = arguments.iter().map(String::as_str).collect();
    match command(&words) {
        Ok(code) => code,
        Err(error) => {
            eprintln!("plain: {error}");
            ExitCode::from(2)
        }
    }
}

fn command(words: &[&str]) -> io::Result<ExitCode> {
    match words {
        ["answer"] => script::answer(&input()?, &mut io::stdout().lock())?,
        ["fast"] => script::answer_without_slots(&input()?, &mut io::stdout().lock())?,
        ["claim"] => return check_claim(&input()?),
        ["script", seed, steps, profile] => {
            let seed = number(seed)?;
            let profile = profiles::find(profile, seed).ok_or_else(usage)?;
            print(&generate::text(seed, number(steps)? as usize, profile))?;
        }
        ["profiles"] => print_names(&profiles::PROFILES),
        ["workload", name] => {
            print(&workloads::text(workloads::find(name).ok_or_else(usage)?))?;
        }
        ["workloads"] => print_names(&workloads::WORKLOADS),
        ["filled", records] => {
            let records = Some(number(records)?).filter(|count| (1..=1024).contains(count));
            print(&workloads::filled(records.ok_or_else(usage)? as u32))?;
        }
        ["damaged", seed, steps] => {
            print(&damage::damaged(number(seed)?, number(steps)? as usize).text)?;
        }
        ["damage-kinds"] => damage::KINDS.iter().for_each(|kind| println!("{}", kind.name)),
        ["compare", program] => return Ok(report(&Programs::new(Path::new(program)).gate())),
        ["compare", program, seed, count, steps, profile @ ..] if profile.len() < 2 => {
            let (first, count) = (number(seed)?, number(count)?);
            let size = Size { seeds: first..first + count, steps: number(steps)? as usize };
            let only = profile.first().map(|name| profiles::find(name, first).ok_or_else(usage));
            let programs = Programs::new(Path::new(program));
            return Ok(report(&programs.longer(&size, only.transpose()?)));
        }
        _ => return Err(usage()),
    }
    Ok(ExitCode::SUCCESS)
}

fn usage() -> io::Error {
    io::Error::other(USAGE)
}

fn number(word: &str) -> io::Result<u64> {
    word.parse().map_err(|_| usage())
}

fn input() -> io::Result<Vec<u8>> {
    let mut bytes = Vec::new();
    io::stdin().lock().read_to_end(&mut bytes)?;
    Ok(bytes)
}

fn print(text: &[u8]) -> io::Result<()> {
    io::stdout().lock().write_all(text)
}

fn print_names(profiles: &[Profile]) {
    profiles.iter().for_each(|profile| println!("{}", profile.name));
}

fn report(checks: &[Check]) -> ExitCode {
    let tally = compare::run(checks);
    println!("{} passed, {} failed", tally.passed, tally.failed);
    if tally.failed == 0 && tally.passed != 0 {
        ExitCode::SUCCESS
    } else {
        ExitCode::FAILURE
    }
}

/// A malformed line ends the run, as it does for the answers.
fn check_claim(script: &[u8]) -> io::Result<ExitCode> {
    let engine = Engine::new(script::guarded(script));
    match claim::check(&claim::record(engine, script::steps(script))) {
        Ok(holds) => {
            let (jobs, answers) = (holds.transactions, holds.answers);
            println!("claim holds: {jobs} jobs, {answers} answers compared");
            Ok(ExitCode::SUCCESS)
        }
        Err(failure) => {
            println!("claim fails: {failure}");
            Ok(ExitCode::FAILURE)
        }
    }
}
