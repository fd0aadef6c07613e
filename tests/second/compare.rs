//! Feeds generated scripts to a program and compares what it prints with what
//! the model prints; of a script that differs it finds the shortest failing
//! beginning.

use crate::{Language, child, words};
use std::io::Write;
use std::sync::atomic::{AtomicU64, Ordering::Relaxed};
use std::thread;
use std::time::Duration;

/// How many lines of a failing script are shown.
const SHOWN_LINES: usize = 12;
/// For one script, on a slow host with an emulator.
const LIMIT: Duration = Duration::from_secs(60);

/// Compares `count` scripts from seed `first` on. The error tells the first
/// difference.
pub fn compare(language: &Language, first: u64, count: u64, program: &[String]) -> Result<(), String> {
    let Some(seed) = lowest_failing(language, first, count, program) else {
        println!("{count} scripts agree");
        return Ok(());
    };
    let found = shortest(language, &(language.script)(seed), program);
    Err(format!("seed {seed}: {}", found.unwrap_or_else(|message| message)))
}

/// Runs the scripts on every processor. Seeds are handed out in rising order
/// and each is carried to its end, so that none below the answer is missed.
fn lowest_failing(language: &Language, first: u64, count: u64, program: &[String]) -> Option<u64> {
    let (next, lowest) = (AtomicU64::new(first), AtomicU64::new(u64::MAX));
    let agrees = |seed| matches!(difference(language, &(language.script)(seed), program), Ok(None));
    let work = || {
        while lowest.load(Relaxed) == u64::MAX {
            let seed = next.fetch_add(1, Relaxed);
            if seed >= first + count {
                return;
            }
            if !agrees(seed) {
                lowest.fetch_min(seed, Relaxed);
            }
        }
    };
    let workers = thread::available_parallelism().map_or(1, |number| number.get());
    thread::scope(|scope| (0..workers).for_each(|_| drop(scope.spawn(work))));
    Some(lowest.into_inner()).filter(|&seed| seed < u64::MAX)
}

/// What the program prints for an input, and how it ended if that was not of
/// its own will.
fn run(program: &[String], input: &[u8]) -> Result<Vec<u8>, String> {
    // A program may stop reading after a refused first line.
    let feed = |mut pipe: std::process::ChildStdin, _| drop(pipe.write_all(input));
    let ended = child::run(program, feed, LIMIT)?;
    let mut output = ended.output;
    // Documents say nothing of exit codes, but no program may be killed.
    if ended.status.code().is_none() {
        let late = if ended.in_time { "" } else { ", after too long a time" };
        output.extend(format!("ended by {}{late}\n", ended.status).into_bytes());
    }
    Ok(output)
}

/// How the program's answer to an input differs from the model's, if it does.
fn difference(language: &Language, input: &[u8], program: &[String]) -> Result<Option<String>, String> {
    let expected = (language.run)(input)?;
    Ok(first_difference(expected.as_bytes(), &run(program, input)?))
}

/// The first line that differs, if one does, with what it should be and is.
pub fn first_difference(expected: &[u8], actual: &[u8]) -> Option<String> {
    if expected == actual {
        return None;
    }
    let at = expected.iter().zip(actual).take_while(|(one, other)| one == other).count();
    let line = actual[..at].iter().filter(|&&byte| byte == b'\n').count();
    let show = |text: &[u8]| match text.split_inclusive(|&byte| byte == b'\n').nth(line) {
        Some(line) => format!("'{}'", line.escape_ascii()),
        None => "nothing".to_string(),
    };
    Some(format!("output line {}: expected {}, actual {}", line + 1, show(expected), show(actual)))
}

/// Describes the shortest beginning, in whole lines, that differs.
fn shortest(language: &Language, script: &[u8], program: &[String]) -> Result<String, String> {
    let mut ends: Vec<usize> = script.iter().zip(1..).filter(|(byte, _)| **byte == b'\n').map(|(_, end)| end).collect();
    ends.insert(0, 0);
    ends.push(script.len());
    for end in ends {
        let beginning = &script[..end];
        if let Some(found) = difference(language, beginning, program)? {
            return Ok(describe(beginning, &found));
        }
    }
    Err("a script differed once and then agreed: the program is not repeatable".to_string())
}

fn describe(beginning: &[u8], found: &str) -> String {
    let lines = words::lines(beginning);
    let hidden = lines.len().saturating_sub(SHOWN_LINES);
    let mut text = format!("the first {} lines differ\n{found}\nlast lines of the input:\n", lines.len());
    for line in &lines[hidden..] {
        text += &format!("  {}\n", line.escape_ascii());
    }
    text
}
