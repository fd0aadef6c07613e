//! The replay language: from the bytes of an input to the bytes printed, with
//! the account of demand 3 checked at the end of the run.

use crate::account;
use crate::model::{Controller, Refusal};
use crate::words;

const UNREADABLE: Refusal = 11;

/// What a run prints, or what is wrong with its account.
pub fn run(input: &[u8]) -> Result<String, String> {
    let lines = words::lines(input);
    let first: &[u8] = lines.first().copied().unwrap_or(b"");
    let mut board = match make(first) {
        Ok(board) => board,
        Err(number) => return Ok(refused(number) + "\n"),
    };
    let answers = lines.iter().skip(1).filter_map(|line| obey(&mut board, line));
    let output: String = answers.map(|text| text + "\n").collect();
    account::check(&board)?;
    let last = words::totals(&board).map_err(|number| format!("totals refused with {number}"))?;
    Ok(format!("{output}{last}\n"))
}

/// The board that a first line makes.
pub fn make(line: &[u8]) -> Result<Controller, Refusal> {
    let (shape, kinds) = shape(line).ok_or(UNREADABLE)?;
    Controller::make(shape[0], shape[1], shape[2], &kinds)
}

fn shape(line: &[u8]) -> Option<([u64; 3], Vec<u8>)> {
    let [b"P", n, c, b, kinds] = *words::words(line)? else {
        return None;
    };
    let numbers = [words::number_32(n)?, words::number_32(c)?, words::number_32(b)?];
    Some((numbers, words::letters(kinds)?))
}

/// Obeys a line after the first; gives what it prints, if it prints anything.
pub fn obey(board: &mut Controller, line: &[u8]) -> Option<String> {
    let command = words::words(line).and_then(|words| words::command(&words)).ok_or(UNREADABLE);
    let answer = command.and_then(|command| command.run(board));
    answer.unwrap_or_else(|number| Some(refused(number)))
}

/// Obeys the line of that number, of which 0 is the first, as part of a run
/// that starts with a state of zeros. Gives what it prints, or nothing if a
/// refused first line has ended the run.
pub fn obey_numbered(board: &mut Controller, number: usize, line: &[u8]) -> Option<String> {
    if number > 0 && board.source_count == 0 {
        return None;
    }
    let answer = match number {
        0 => make(line).map(|made| *board = made).err().map(refused),
        _ => obey(board, line),
    };
    Some(answer.map_or(String::new(), |text| text + "\n"))
}

fn refused(number: Refusal) -> String {
    format!("refused {number}")
}
