//! Lines, words and numbers, which the replay language and the probe's language
//! have in common, and the five commands that are in both.

use crate::limits::LONGEST_LINE;
use crate::model::{Controller, LAST_32, Refusal};

/// A command of both languages.
pub enum Command {
    Line { source: u64, high: bool },
    Advance { ticks: u64 },
    Read { offset: u64 },
    Write { offset: u64, value: u64 },
    Notification { context: u64 },
}

/// The lines of an input. After a final line feed there is no further line.
pub fn lines(input: &[u8]) -> Vec<&[u8]> {
    let mut pieces: Vec<&[u8]> = input.split(|&byte| byte == b'\n').collect();
    if pieces.last().is_some_and(|last| last.is_empty()) {
        pieces.pop();
    }
    pieces
}

/// The words of a line, or none if it is too long. Needless spaces and odd
/// bytes end up in words that have no reading.
pub fn words(line: &[u8]) -> Option<Vec<&[u8]>> {
    if line.len() > LONGEST_LINE {
        return None;
    }
    Some(line.split(|&byte| byte == b' ').collect())
}

/// A decimal number without needless leading zeros, at most `limit`.
pub fn number(word: &[u8], limit: u64) -> Option<u64> {
    let needless_zero = word.len() > 1 && word[0] == b'0';
    if word.is_empty() || needless_zero || !word.iter().all(u8::is_ascii_digit) {
        return None;
    }
    let text = std::str::from_utf8(word).ok()?;
    // More digits than a u64 has are above every limit.
    text.parse::<u64>().ok().filter(|&value| value <= limit)
}

/// A decimal number of 32 bits.
pub fn number_32(word: &[u8]) -> Option<u64> {
    number(word, LAST_32)
}

/// The value of hex digits in capitals.
pub fn hex(digits: &[u8]) -> Option<u64> {
    let value_of = |digit: &u8| match digit {
        b'0'..=b'9' => Some(u64::from(digit - b'0')),
        b'A'..=b'F' => Some(u64::from(digit - b'A') + 10),
        _ => None,
    };
    digits.iter().try_fold(0, |value, digit| Some(value * 16 + value_of(digit)?))
}

fn offset(word: &[u8]) -> Option<u64> {
    if word.len() == 8 { hex(word) } else { None }
}

fn level(word: &[u8]) -> Option<bool> {
    match word {
        b"0" => Some(false),
        b"1" => Some(true),
        _ => None,
    }
}

/// Kinds written as one or more letters.
pub fn letters(word: &[u8]) -> Option<Vec<u8>> {
    let kind = |letter: &u8| match letter {
        b'l' => Some(0),
        b'e' => Some(1),
        b'c' => Some(2),
        _ => None,
    };
    if word.is_empty() { None } else { word.iter().map(kind).collect() }
}

/// The command of a line, if it is one of the five.
pub fn command(words: &[&[u8]]) -> Option<Command> {
    match *words {
        [b"L", source, high] => Some(Command::Line { source: number_32(source)?, high: level(high)? }),
        [b"T", ticks] => Some(Command::Advance { ticks: number_32(ticks)? }),
        [b"R", at] => Some(Command::Read { offset: offset(at)? }),
        [b"W", at, value] => Some(Command::Write { offset: offset(at)?, value: number_32(value)? }),
        [b"N", context] => Some(Command::Notification { context: number_32(context)? }),
        _ => None,
    }
}

impl Command {
    /// Runs the command; gives the line that it prints, if it prints one.
    pub fn run(&self, board: &mut Controller) -> Result<Option<String>, Refusal> {
        match *self {
            Command::Line { source, high } => board.line(source, high).map(|()| None),
            Command::Advance { ticks } => board.advance(ticks).map(|()| None),
            Command::Read { offset } => board.read(offset).map(|value| Some(format!("R {value}"))),
            Command::Write { offset, value } => board.write(offset, value).map(|()| None),
            Command::Notification { context } => board.notification(context).map(|value| Some(format!("N {value}"))),
        }
    }
}

/// The line that tells the totals.
pub fn totals(board: &Controller) -> Result<String, Refusal> {
    let sums = board.totals()?;
    Ok(format!("clock {} claims {} waited {} open {}", sums.clock, sums.claims, sums.waited, sums.open))
}
