//! The probe's language: a state at hand that can be called, changed field by
//! field and looked at, line by line.

use crate::field::{self, FIELDS, Field};
use crate::model::{Controller, Refusal};
use crate::sound;
use crate::words::{self, Command, number, number_32};

const UNREADABLE: Refusal = 11;

/// What a readable line asks for.
enum Request {
    Make { shape: [u64; 3], kinds: Vec<u8> },
    Step(Command),
    Mean,
    ByClaim(u64),
    ByTime(u64),
    Totals,
    IsSound,
    Put { field: &'static Field, index: usize, value: u64 },
    Look,
}

/// What a whole input prints.
pub fn run(input: &[u8]) -> String {
    let mut state = Controller::zero();
    words::lines(input).into_iter().map(|line| obey(&mut state, line)).collect()
}

/// Obeys one line and gives what it prints, line feeds included.
pub fn obey(state: &mut Controller, line: &[u8]) -> String {
    let answer = request(line).ok_or(UNREADABLE).and_then(|request| answer(state, request));
    answer.unwrap_or_else(|number| format!("refused {number}\n"))
}

fn answer(state: &mut Controller, request: Request) -> Result<String, Refusal> {
    Ok(match request {
        Request::Make { shape, kinds } => make(state, shape, &kinds)?,
        Request::Step(command) => command.run(state)?.map_or(String::new(), |text| text + "\n"),
        Request::Mean => state.mean().map(|(ticks, claims)| format!("M {ticks} {claims}\n"))?,
        Request::ByClaim(per_mille) => format!("A {}\n", state.percentile_by_claim(per_mille)?),
        Request::ByTime(per_mille) => format!("B {}\n", state.percentile_by_time(per_mille)?),
        Request::Totals => words::totals(state)? + "\n",
        Request::IsSound => format!("S {}\n", u64::from(sound::is_sound(state))),
        Request::Put { field, index, value } => {
            (field.set)(state, index, value);
            String::new()
        }
        Request::Look => look(state),
    })
}

/// A refused make leaves a state that is zero throughout.
fn make(state: &mut Controller, [n, c, b]: [u64; 3], kinds: &[u8]) -> Result<String, Refusal> {
    let made = Controller::make(n, c, b, kinds);
    let refused = made.as_ref().err().copied();
    *state = made.unwrap_or_else(|_| Controller::zero());
    refused.map_or(Ok(String::new()), Err)
}

fn look(state: &Controller) -> String {
    let mut shown = String::new();
    for field in &FIELDS {
        for index in 0..field.places {
            let value = (field.get)(state, index);
            if value != 0 {
                shown += &format!("V {} {index} {value}\n", field.name);
            }
        }
    }
    shown + "V end\n"
}

fn request(line: &[u8]) -> Option<Request> {
    let words = words::words(line)?;
    match *words {
        [b"P", n, c, b, listed] => {
            let shape = [number_32(n)?, number_32(c)?, number_32(b)?];
            Some(Request::Make { shape, kinds: kinds(listed)? })
        }
        [b"M"] => Some(Request::Mean),
        [b"A", per_mille] => Some(Request::ByClaim(number_32(per_mille)?)),
        [b"B", per_mille] => Some(Request::ByTime(number_32(per_mille)?)),
        [b"E"] => Some(Request::Totals),
        [b"S"] => Some(Request::IsSound),
        [b"V"] => Some(Request::Look),
        [b"F", name, index, value] => put(name, index, value),
        _ => words::command(&words).map(Request::Step),
    }
}

fn put(name: &[u8], index: &[u8], value: &[u8]) -> Option<Request> {
    let field = field::named(name)?;
    let index = number(index, field.places as u64 - 1)? as usize;
    Some(Request::Put { field, index, value: number(value, field.limit)? })
}

fn kinds(word: &[u8]) -> Option<Vec<u8>> {
    match word {
        b"-" => Some(Vec::new()),
        [b'?', digits @ ..] => pairs(digits),
        letters => words::letters(letters),
    }
}

/// One or more bytes, each as two capital hex digits.
fn pairs(digits: &[u8]) -> Option<Vec<u8>> {
    if digits.is_empty() || digits.len() % 2 != 0 {
        return None;
    }
    digits.chunks(2).map(|pair| words::hex(pair).map(|byte| byte as u8)).collect()
}
