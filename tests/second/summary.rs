//! Counts what the scripts of a range of seeds bring about, and fails if they
//! miss anything that they are to reach.

use crate::Language;
use crate::field::FIELDS;
use crate::gen::bucket_ends;
use crate::model::Controller;
use crate::sights::{self, Moment, SIGHTS};
use crate::sights_lines::{ENDS, REASONS, reason};
use crate::sights_probe::{self, Watch};
use crate::{sound, words};
use std::collections::BTreeMap;

/// How often each thing was seen; what is to be reached starts with 0.
struct Tally(BTreeMap<String, u64>);

/// Prints the counts of the scripts from seed `first` on.
pub fn print(language: &Language, first: u64, count: u64) -> Result<(), String> {
    let expected = if language.name == "probe" { of_probe() } else { of_replay() };
    let mut tally = Tally(expected.into_iter().map(|name| (name, 0)).collect());
    let mut lines = 0;
    for seed in first..first + count {
        let script = (language.script)(seed);
        lines += words::lines(&script).len();
        walk(language, &script, &mut tally).map_err(|message| format!("seed {seed}: {message}"))?;
    }
    println!("{count} scripts, {lines} lines");
    tally.0.iter().for_each(|(name, times)| println!("{times:8} {name}"));
    match &tally.missed()[..] {
        [] => Ok(()),
        missed => Err(format!("not reached: {}", missed.join("; "))),
    }
}

fn of_replay() -> Vec<String> {
    let answers = ["N 0", "N above 0", "R 0", "R above 0"].map(String::from).into_iter();
    let refusals = [1, 4, 5, 6, 7, 8, 11].map(refused).into_iter();
    let beginnings = [1, 11].map(|number| first_line(&refused(number))).into_iter();
    let reasons = REASONS.iter().map(|(name, _)| unreadable(name));
    let ends = ENDS.iter().map(|(name, _)| ending(name));
    sights().chain(answers).chain(refusals).chain(beginnings).chain(reasons).chain(ends).collect()
}

fn of_probe() -> Vec<String> {
    let letters = ["A", "B", "N", "R", "S"].into_iter();
    let answers = letters.flat_map(|letter| [format!("{letter} 0"), format!("{letter} above 0")]);
    let others = ["M above 0", "V end", "totals, claims 0", "totals, claims above 0"].map(String::from).into_iter();
    let fields = FIELDS.iter().map(|field| format!("V {}", field.name));
    let refusals = (1..=11).map(refused);
    sights().chain(answers).chain(others).chain(fields).chain(refusals).chain(sights_probe::names()).collect()
}

fn sights() -> impl Iterator<Item = String> {
    SIGHTS.iter().map(|(name, _)| name.to_string()).chain(bucket_ends().into_iter().map(sights::waited))
}

fn refused(number: u64) -> String {
    format!("refused {number}")
}

fn first_line(answer: &str) -> String {
    format!("first line: {answer}")
}

fn unreadable(name: &str) -> String {
    format!("unreadable: {name}")
}

fn ending(name: &str) -> String {
    format!("end: {name}")
}

impl Tally {
    fn see(&mut self, name: impl Into<String>) {
        *self.0.entry(name.into()).or_default() += 1;
    }

    fn missed(&self) -> Vec<&str> {
        self.0.iter().filter(|(_, times)| **times == 0).map(|(name, _)| name.as_str()).collect()
    }
}

/// Obeys a script line by line and counts what each line shows.
fn walk(language: &Language, script: &[u8], tally: &mut Tally) -> Result<(), String> {
    let mut state = Controller::zero();
    let mut watch = Watch::default();
    let mut claimers = BTreeMap::new();
    ENDS.iter().filter(|(_, applies)| applies(script)).for_each(|(name, _)| tally.see(ending(name)));
    for (number, line) in words::lines(script).into_iter().enumerate() {
        // Only this line's events are wanted.
        state.log.clear();
        let before = state.clone();
        let Some(answer) = (language.obey)(&mut state, number, line) else {
            break;
        };
        let command = words::words(line).and_then(|words| words::command(&words));
        let moment = Moment { line, command, before: &before, after: &state, answer: &answer, claimers: &claimers };
        still_sound(&moment)?;
        count(&moment, &mut watch, tally);
        if number == 0 && !moment.accepted() {
            tally.see(first_line(answer.trim_end()));
        }
        if let Some((context, id)) = moment.claimed() {
            claimers.insert(id, context);
        }
    }
    Ok(())
}

/// Calls that change the state must leave a sound one when they are accepted.
fn still_sound(moment: &Moment) -> Result<(), String> {
    let changes = matches!(moment.line.first(), Some(b'P' | b'L' | b'T' | b'R' | b'W')) && moment.accepted();
    match sound::broken(moment.after).first() {
        Some(clause) if changes => Err(format!("after '{}': not sound, {clause}", moment.line.escape_ascii())),
        _ => Ok(()),
    }
}

fn count(moment: &Moment, watch: &mut Watch, tally: &mut Tally) {
    moment.answer.lines().for_each(|line| tally.see(sort_of(line)));
    SIGHTS.iter().filter(|(_, shows)| shows(moment)).for_each(|(name, _)| tally.see(*name));
    let waited = moment.waited().filter(|ticks| bucket_ends().contains(ticks));
    waited.into_iter().for_each(|ticks| tally.see(sights::waited(ticks)));
    if moment.answer == "refused 11\n" {
        reason(moment.line).into_iter().for_each(|name| tally.see(unreadable(name)));
    }
    watch.see(moment).into_iter().for_each(|name| tally.see(name));
}

/// A refusal with its number, or the first word and whether its value is zero.
fn sort_of(line: &str) -> String {
    let words: Vec<&str> = line.split(' ').collect();
    match *words {
        ["refused", _] => line.to_string(),
        ["V", name, ..] => format!("V {name}"),
        ["R" | "N" | "S" | "A" | "B", "0"] => line.to_string(),
        ["clock", _, "claims", claims, ..] => format!("totals, claims {}", if claims == "0" { "0" } else { "above 0" }),
        [first, ..] => format!("{first} above 0"),
        [] => "empty".to_string(),
    }
}
