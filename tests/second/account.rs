//! Demand 3's account: from the log of a run alone, what the sums must be; then
//! that the state's sums are these.

use crate::limits::BUCKET_ROOM;
use crate::model::{Controller, Source};
use std::collections::BTreeMap;

/// What a run leaves in its log.
#[derive(Clone)]
pub enum Event {
    Rise { source: usize, time: u64 },
    Advance { ticks: u64, pending: u64 },
    Claim { source: usize, wait: u64 },
    Completion { source: usize },
}

/// What the log tells of one source.
#[derive(Default)]
struct Life {
    rises: u64,
    claims: u64,
    waited: u64,
    open_since: Option<u64>,
    in_service: bool,
}

/// What the log tells of the whole run.
#[derive(Default)]
struct Tale {
    clock: u64,
    area: u128,
    lives: BTreeMap<usize, Life>,
    waits: Vec<u64>,
}

/// Checks the whole account of a run that began with a fresh state.
pub fn check(board: &Controller) -> Result<(), String> {
    let mut tale = Tale::default();
    for event in &board.log {
        tale.take(event)?;
    }
    tale.check_area(board)?;
    for (id, source) in board.sources.iter().enumerate() {
        tale.check_source(id, source)?;
    }
    (0..BUCKET_ROOM).try_for_each(|k| tale.check_bucket(board, k))
}

fn require(holds: bool, what: impl Fn() -> String) -> Result<(), String> {
    if holds { Ok(()) } else { Err(what()) }
}

impl Tale {
    fn take(&mut self, event: &Event) -> Result<(), String> {
        match *event {
            Event::Rise { source, time } => self.rise(source, time),
            Event::Advance { ticks, pending } => self.advance(ticks, pending),
            Event::Claim { source, wait } => self.claim(source, wait),
            Event::Completion { source } => self.completion(source),
        }
    }

    fn rise(&mut self, source: usize, time: u64) -> Result<(), String> {
        require(time == self.clock, || format!("source {source} rose at {time}, clock {}", self.clock))?;
        let life = self.lives.entry(source).or_default();
        require(life.open_since.is_none(), || format!("source {source} rose while pending"))?;
        life.rises += 1;
        life.open_since = Some(time);
        Ok(())
    }

    fn advance(&mut self, ticks: u64, pending: u64) -> Result<(), String> {
        let open = self.lives.values().filter(|life| life.open_since.is_some()).count() as u64;
        require(open == pending, || format!("{pending} pending bits at an advance, {open} requests open"))?;
        self.area += u128::from(ticks) * u128::from(pending);
        self.clock += ticks;
        Ok(())
    }

    fn claim(&mut self, source: usize, wait: u64) -> Result<(), String> {
        let life = self.lives.entry(source).or_default();
        require(!life.in_service, || format!("two claims of source {source} without a completion between"))?;
        let since = life.open_since.take().ok_or(format!("claim of source {source}, which is not pending"))?;
        require(wait == self.clock - since, || format!("source {source} waited since {since}, booked {wait}"))?;
        life.in_service = true;
        life.claims += 1;
        life.waited += wait;
        self.waits.push(wait);
        Ok(())
    }

    fn completion(&mut self, source: usize) -> Result<(), String> {
        let life = self.lives.entry(source).or_default();
        require(life.in_service, || format!("completion of source {source}, which is not in service"))?;
        life.in_service = false;
        Ok(())
    }

    fn check_area(&self, board: &Controller) -> Result<(), String> {
        let totals = board.totals().map_err(|number| format!("totals refused with {number}"))?;
        let waited: u128 = self.waits.iter().map(|&wait| u128::from(wait)).sum();
        let since = self.lives.values().filter_map(|life| life.open_since);
        let open: u128 = since.map(|since| u128::from(self.clock - since)).sum();
        let area = self.area;
        require(area == waited + open, || format!("area {area} is not waited {waited} and open {open}"))?;
        require(totals.clock == self.clock, || format!("clock {}, ticks {}", totals.clock, self.clock))?;
        require(totals.waited == waited, || format!("total waited {}, log {waited}", totals.waited))?;
        require(totals.open == open, || format!("total open {}, log {open}", totals.open))?;
        let claims = self.waits.len() as u128;
        require(totals.claims == claims, || format!("total claims {}, log {claims}", totals.claims))
    }

    fn check_source(&self, id: usize, source: &Source) -> Result<(), String> {
        let silent = Life::default();
        let life = self.lives.get(&id).unwrap_or(&silent);
        let pending = source.is_pending();
        require(source.claims == life.claims, || format!("source {id} claims {}, log {}", source.claims, life.claims))?;
        require(source.waited == life.waited, || format!("source {id} waited {}, log {}", source.waited, life.waited))?;
        require(pending == life.open_since.is_some(), || format!("source {id} pending {pending} against the log"))?;
        let expected = life.claims + u64::from(pending);
        require(life.rises == expected, || format!("source {id} rose {} times, expected {expected}", life.rises))
    }

    fn check_bucket(&self, board: &Controller, k: usize) -> Result<(), String> {
        let range = if k == 0 { 0..1 } else { 1u64 << (k - 1)..1u64 << k };
        let inside: Vec<u64> = self.waits.iter().copied().filter(|wait| range.contains(wait)).collect();
        let (claims, ticks) = (inside.len() as u64, inside.iter().sum::<u64>());
        let bucket = &board.buckets[k];
        require(bucket.claims == claims, || format!("bucket {k} claims {}, log {claims}", bucket.claims))?;
        require(bucket.ticks == ticks, || format!("bucket {k} ticks {}, log {ticks}", bucket.ticks))
    }
}
