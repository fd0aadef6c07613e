//! What scripts of the probe's language are to reach: reports at every size of
//! per mille, states that one field makes unsound, every call refused on them,
//! and every refusal followed by a look at the whole state.

use crate::field::FIELDS;
use crate::model::{Bucket, Controller};
use crate::sights::Moment;
use crate::sound;
use std::collections::BTreeSet;

/// The letters of the calls that are refused on an unsound state.
const CALLS: &[u8] = b"LTRWNMABE";

/// The further refusals, with a letter of a call that can give each.
const REFUSALS: [(u8, u64); 16] = [
    (b'L', 3),
    (b'T', 3),
    (b'R', 3),
    (b'W', 3),
    (b'R', 4),
    (b'W', 4),
    (b'R', 5),
    (b'W', 5),
    (b'L', 6),
    (b'N', 7),
    (b'T', 8),
    (b'A', 9),
    (b'B', 9),
    (b'M', 10),
    (b'A', 10),
    (b'B', 10),
];

/// What is remembered from one line of a script to the next.
#[derive(Default)]
pub struct Watch {
    /// Why the state at hand is unsound: a field alone, or several.
    culprit: Option<&'static str>,
    /// The letters of the calls refused with 2 since then.
    calls: BTreeSet<u8>,
    /// Refusals after which the state was not looked at yet.
    unseen: BTreeSet<(u8, u64)>,
}

/// The names of all that is to be reached.
pub fn names() -> Vec<String> {
    let fields = FIELDS.iter().map(|field| field.name).chain([SEVERAL, UNMADE]);
    let looks = CALLS.iter().map(|&letter| (letter, 2)).chain(REFUSALS);
    let reports = [b'A', b'B'].map(|letter| (0..=10).map(move |size| report(letter, 100 * size)));
    let clauses = sound::clause_names().into_iter().map(clause);
    let shares = [b'A', b'B'].map(exact);
    fields
        .map(unsound)
        .chain(looks.map(look))
        .chain(reports.into_iter().flatten())
        .chain(clauses)
        .chain(shares)
        .collect()
}

const SEVERAL: &str = "several fields";
const UNMADE: &str = "never having been made";

fn unsound(culprit: &str) -> String {
    format!("unsound by {culprit}, and every call refused")
}

fn look((letter, number): (u8, u64)) -> String {
    format!("{} refused with {number}, then looked at", char::from(letter))
}

fn report(letter: u8, per_mille: u64) -> String {
    format!("{} at {:4} and more", char::from(letter), per_mille / 100 * 100)
}

fn clause(name: &str) -> String {
    format!("broken alone: {name}")
}

fn exact(letter: u8) -> String {
    format!("{} at the exact share of a bucket", char::from(letter))
}

impl Watch {
    /// The names of what a moment shows.
    pub fn see(&mut self, moment: &Moment) -> Vec<String> {
        let letter = moment.line.first().copied().unwrap_or(b' ');
        let refusal = moment.answer.strip_prefix("refused ").and_then(|number| number.trim_end().parse().ok());
        match (letter, refusal) {
            (_, Some(11)) => Vec::new(),
            (b'F', _) => self.put(moment),
            (b'P', _) => self.make(),
            (b'V', _) => std::mem::take(&mut self.unseen).into_iter().map(look).collect(),
            (b'S', _) => broken_alone(moment.after),
            (_, Some(number)) => self.refuse(moment.before, letter, number),
            (b'A' | b'B', None) => answered(moment, letter),
            _ => Vec::new(),
        }
    }

    fn make(&mut self) -> Vec<String> {
        *self = Watch::default();
        Vec::new()
    }

    fn put(&mut self, moment: &Moment) -> Vec<String> {
        let name = FIELDS
            .iter()
            .map(|field| field.name)
            .find(|name| moment.line[2..].starts_with(format!("{name} ").as_bytes()));
        let states = (sound::is_sound(moment.before), sound::is_sound(moment.after));
        *self = Watch::default();
        self.culprit = match states {
            (_, true) => None,
            (true, false) => name,
            (false, false) => Some(SEVERAL),
        };
        Vec::new()
    }

    fn refuse(&mut self, before: &Controller, letter: u8, number: u64) -> Vec<String> {
        self.unseen.insert((letter, number));
        if number != 2 {
            return Vec::new();
        }
        self.calls.insert(letter);
        if before.source_count == 0 && self.culprit.is_none() {
            self.culprit = Some(UNMADE);
        }
        let every = CALLS.iter().all(|letter| self.calls.contains(letter));
        self.culprit.filter(|_| every).map(unsound).into_iter().collect()
    }
}

/// Only a state with one clause broken shows that a program looks at it.
fn broken_alone(state: &Controller) -> Vec<String> {
    match sound::broken(state)[..] {
        [name] => vec![clause(name)],
        _ => Vec::new(),
    }
}

fn answered(moment: &Moment, letter: u8) -> Vec<String> {
    let word = String::from_utf8_lossy(&moment.line[2..]);
    let per_mille = word.parse().expect("an accepted report has a per mille");
    let weight = |bucket: &Bucket| u128::from(if letter == b'A' { bucket.claims } else { bucket.ticks });
    let buckets = &moment.before.buckets;
    let all: u128 = buckets.iter().map(weight).sum();
    let reached = |k: usize| buckets[..=k].iter().map(weight).sum::<u128>();
    let is_exact = (0..buckets.len() - 1).any(|k| reached(k) < all && reached(k) * 1000 == u128::from(per_mille) * all);
    let size = report(letter, per_mille);
    if is_exact { vec![size, exact(letter)] } else { vec![size] }
}
