//! The independent second model of the controller, as a program: it obeys both
//! languages, makes scripts from seeds, and compares other programs with
//! itself.

mod account;
mod child;
mod compare;
mod field;
mod gen;
mod gen_bench;
mod gen_probe;
mod gen_replay;
mod gen_unsound;
mod limits;
mod model;
mod pipe;
mod probe;
mod replay;
mod selftest;
mod sights;
mod sights_lines;
mod sights_probe;
mod sound;
mod spoil;
mod summary;
mod words;

use model::Controller;
use std::io::{Read, Write};
use std::process::ExitCode;

const USAGE: &str = "usage: second replay | probe | selftest
       second gen LANGUAGE SEED
       second bench claims|storm|idle|config LINES
       second summary LANGUAGE FIRST COUNT
       second compare LANGUAGE FIRST COUNT -- PROGRAM ARGS..
       second pipe -- PROGRAM ARGS..
LANGUAGE is replay or probe.";

/// One of the two languages: what an input prints, the script of a seed, and
/// what a line prints, by its number from 0 on, while the run goes on.
pub struct Language {
    pub name: &'static str,
    pub run: fn(&[u8]) -> Result<String, String>,
    pub script: fn(u64) -> Vec<u8>,
    pub obey: fn(&mut Controller, usize, &[u8]) -> Option<String>,
}

const REPLAY: Language =
    Language { name: "replay", run: replay::run, script: gen_replay::script, obey: replay::obey_numbered };
const PROBE: Language = Language {
    name: "probe",
    run: |input| Ok(probe::run(input)),
    script: gen_probe::script,
    obey: |state, _, line| Some(probe::obey(state, line)),
};

fn main() -> ExitCode {
    let arguments: Vec<String> = std::env::args().skip(1).collect();
    match obey(&arguments) {
        Ok(()) => ExitCode::SUCCESS,
        Err(message) => {
            eprintln!("{message}");
            ExitCode::FAILURE
        }
    }
}

fn obey(arguments: &[String]) -> Result<(), String> {
    let words: Vec<&str> = arguments.iter().map(String::as_str).collect();
    match *words {
        ["selftest"] => selftest::run(),
        ["gen", name, seed] => print((language(name)?.script)(number(seed)?)),
        ["bench", kind, lines] => print(gen_bench::script(kind, number(lines)?)?),
        ["summary", name, first, count] => summary::print(&language(name)?, number(first)?, number(count)?),
        ["compare", name, first, count, "--", _, ..] => {
            compare::compare(&language(name)?, number(first)?, number(count)?, &arguments[5..])
        }
        ["pipe", "--", _, ..] => pipe::run(&arguments[2..]),
        [name] => print((language(name)?.run)(&input()?)?.into_bytes()),
        _ => Err(USAGE.to_string()),
    }
}

fn language(name: &str) -> Result<Language, String> {
    [REPLAY, PROBE].into_iter().find(|language| language.name == name).ok_or(USAGE.to_string())
}

fn number(word: &str) -> Result<u64, String> {
    word.parse().map_err(|_| format!("{word}: not a number\n{USAGE}"))
}

fn input() -> Result<Vec<u8>, String> {
    let mut bytes = Vec::new();
    std::io::stdin().read_to_end(&mut bytes).map_err(|error| error.to_string())?;
    Ok(bytes)
}

fn print(bytes: Vec<u8>) -> Result<(), String> {
    std::io::stdout().write_all(&bytes).map_err(|error| error.to_string())
}
