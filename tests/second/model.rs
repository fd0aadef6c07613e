//! The controller as the documents describe it: things (sources, contexts,
//! buckets) with their own contents, and the calls on them. It is the test
//! oracle, so it is written for being plainly right and not for speed. Every
//! field can hold values that no sound state has, because the probe's language
//! can put them there.

use crate::account::Event;
use crate::limits::{BUCKET_ROOM, CONTEXT_ROOM, LAST_SOURCE, MOST_BITS, MOST_CONTEXTS, MOST_EXTRA, SOURCE_ROOM};
use crate::sound;
use std::cmp::Reverse;
use std::collections::BTreeSet;

/// The last value of the clock and of the step count.
pub const LAST_32: u64 = 4_294_967_295;
const LAST_OFFSET: u64 = 0x3FF_FFFC;

/// A refusal, by its number in document 01.
pub type Refusal = u64;

#[derive(Clone, Copy, PartialEq, Eq)]
pub enum Kind {
    Level,
    EdgeDropping,
    EdgeCounting,
    Unknown(u64),
}

#[derive(Clone, Copy, PartialEq, Eq)]
pub enum Stage {
    Idle,
    Pending,
    InService,
    Unknown(u64),
}

#[derive(Clone, PartialEq, Eq)]
pub struct Source {
    pub kind: Kind,
    pub stage: Stage,
    pub line: bool,
    pub extra: u64,
    pub priority: u64,
    pub start: u64,
    pub claims: u64,
    pub waited: u64,
}

#[derive(Clone, PartialEq, Eq, Default)]
pub struct Context {
    pub enabled: BTreeSet<u64>,
    pub threshold: u64,
}

#[derive(Clone, PartialEq, Eq, Default)]
pub struct Bucket {
    pub claims: u64,
    pub ticks: u64,
}

#[derive(Clone)]
pub struct Controller {
    pub source_count: u64,
    pub context_count: u64,
    pub priority_bits: u64,
    pub clock: u64,
    pub steps: u64,
    pub sources: Vec<Source>,
    pub contexts: Vec<Context>,
    pub buckets: Vec<Bucket>,
    /// What happened since the state was made, for the account of demand 3.
    pub log: Vec<Event>,
}

/// The totals of the last line of a replay.
pub struct Totals {
    pub clock: u64,
    pub claims: u128,
    pub waited: u128,
    pub open: u128,
}

/// What an offset names on a board of a given shape.
enum Register {
    Priority(usize),
    Pending(u64),
    Enables(usize, u64),
    Threshold(usize),
    ClaimOrComplete(usize),
    Nothing,
}

impl Kind {
    pub fn from_number(number: u64) -> Kind {
        match number {
            0 => Kind::Level,
            1 => Kind::EdgeDropping,
            2 => Kind::EdgeCounting,
            other => Kind::Unknown(other),
        }
    }

    pub fn number(self) -> u64 {
        match self {
            Kind::Level => 0,
            Kind::EdgeDropping => 1,
            Kind::EdgeCounting => 2,
            Kind::Unknown(other) => other,
        }
    }
}

impl Stage {
    pub fn from_number(number: u64) -> Stage {
        match number {
            0 => Stage::Idle,
            1 => Stage::Pending,
            2 => Stage::InService,
            other => Stage::Unknown(other),
        }
    }

    pub fn number(self) -> u64 {
        match self {
            Stage::Idle => 0,
            Stage::Pending => 1,
            Stage::InService => 2,
            Stage::Unknown(other) => other,
        }
    }
}

impl Source {
    pub fn zero() -> Source {
        Source {
            kind: Kind::Level,
            stage: Stage::Idle,
            line: false,
            extra: 0,
            priority: 0,
            start: 0,
            claims: 0,
            waited: 0,
        }
    }

    pub fn is_pending(&self) -> bool {
        self.stage == Stage::Pending
    }

    /// Ticks that the open request has waited; nothing if there is none.
    pub fn open_age(&self, clock: u64) -> u64 {
        if self.is_pending() {
            clock.saturating_sub(self.start)
        } else {
            0
        }
    }
}

/// The bits of 32 sources packed as the register map packs them.
pub fn pack(word: u64, is_set: impl Fn(u64) -> bool) -> u64 {
    (0..32).filter(|bit| is_set(32 * word + bit)).map(|bit| 1 << bit).sum()
}

/// The sources named by the set bits of a packed word.
pub fn unpack(word: u64, value: u64) -> impl Iterator<Item = u64> {
    (0..32).filter(move |bit| value >> bit & 1 == 1).map(move |bit| 32 * word + bit)
}

/// The largest wait that bucket `k` holds.
fn upper_end(k: usize) -> u64 {
    (1u64 << k) - 1
}

fn bucket_of(wait: u64) -> usize {
    (0..BUCKET_ROOM).find(|&k| wait <= upper_end(k)).expect("a wait has at most 32 bits")
}

/// Whether a board may have so many sources, contexts and priority bits.
pub fn shape_fits(sources: u64, contexts: u64, bits: u64) -> bool {
    (1..=LAST_SOURCE).contains(&sources) && (1..=MOST_CONTEXTS).contains(&contexts) && (1..=MOST_BITS).contains(&bits)
}

impl Controller {
    /// The state that is zero throughout.
    pub fn zero() -> Controller {
        Controller {
            source_count: 0,
            context_count: 0,
            priority_bits: 0,
            clock: 0,
            steps: 0,
            sources: vec![Source::zero(); SOURCE_ROOM],
            contexts: vec![Context::default(); CONTEXT_ROOM],
            buckets: vec![Bucket::default(); BUCKET_ROOM],
            log: Vec::new(),
        }
    }

    pub fn make(sources: u64, contexts: u64, bits: u64, kinds: &[u8]) -> Result<Controller, Refusal> {
        let kinds_fit = kinds.len() as u64 == sources && kinds.iter().all(|&kind| kind <= 2);
        if !shape_fits(sources, contexts, bits) || !kinds_fit {
            return Err(1);
        }
        let mut made = Controller::zero();
        made.source_count = sources;
        made.context_count = contexts;
        made.priority_bits = bits;
        for (source, &kind) in made.sources.iter_mut().skip(1).zip(kinds) {
            source.kind = Kind::from_number(u64::from(kind));
        }
        Ok(made)
    }

    fn must_be_sound(&self) -> Result<(), Refusal> {
        if sound::is_sound(self) { Ok(()) } else { Err(2) }
    }

    fn must_be_able_to_step(&self) -> Result<(), Refusal> {
        self.must_be_sound()?;
        if self.steps >= LAST_32 { Err(3) } else { Ok(()) }
    }

    fn must_be_an_offset(offset: u64) -> Result<(), Refusal> {
        if offset > LAST_OFFSET {
            return Err(4);
        }
        if offset % 4 != 0 { Err(5) } else { Ok(()) }
    }

    pub fn has_source(&self, id: u64) -> bool {
        1 <= id && id <= self.source_count
    }

    // ---- the four steps ----

    pub fn line(&mut self, id: u64, high: bool) -> Result<(), Refusal> {
        self.must_be_able_to_step()?;
        if !self.has_source(id) {
            return Err(6);
        }
        self.steps += 1;
        let id = id as usize;
        let rises = high && !self.sources[id].line;
        self.sources[id].line = high;
        if rises {
            self.line_rose(id);
        }
        Ok(())
    }

    pub fn advance(&mut self, ticks: u64) -> Result<(), Refusal> {
        self.must_be_able_to_step()?;
        if self.clock + ticks > LAST_32 {
            return Err(8);
        }
        self.steps += 1;
        let pending = self.sources.iter().filter(|source| source.is_pending()).count() as u64;
        self.log.push(Event::Advance { ticks, pending });
        self.clock += ticks;
        Ok(())
    }

    pub fn read(&mut self, offset: u64) -> Result<u64, Refusal> {
        self.must_be_able_to_step()?;
        Controller::must_be_an_offset(offset)?;
        self.steps += 1;
        Ok(match self.register_at(offset) {
            Register::Priority(id) => self.sources[id].priority,
            Register::Pending(word) => pack(word, |id| self.has_source(id) && self.sources[id as usize].is_pending()),
            Register::Enables(context, word) => pack(word, |id| self.contexts[context].enabled.contains(&id)),
            Register::Threshold(context) => self.contexts[context].threshold,
            Register::ClaimOrComplete(context) => self.claim(context),
            Register::Nothing => 0,
        })
    }

    pub fn write(&mut self, offset: u64, value: u64) -> Result<(), Refusal> {
        self.must_be_able_to_step()?;
        Controller::must_be_an_offset(offset)?;
        self.steps += 1;
        let kept = value % 2u64.pow(self.priority_bits as u32);
        match self.register_at(offset) {
            Register::Priority(id) => self.sources[id].priority = kept,
            Register::Enables(context, word) => self.enable(context, word, value),
            Register::Threshold(context) => self.contexts[context].threshold = kept,
            Register::ClaimOrComplete(context) => self.complete(context, value),
            Register::Pending(_) | Register::Nothing => {}
        }
        Ok(())
    }

    // ---- what the steps are made of ----

    /// Registers of absent sources and contexts count as nothing.
    fn register_at(&self, offset: u64) -> Register {
        if offset < 0x1000 {
            let id = offset / 4;
            return if self.has_source(id) { Register::Priority(id as usize) } else { Register::Nothing };
        }
        if offset < 0x1080 {
            return Register::Pending((offset - 0x1000) / 4);
        }
        if (0x2000..0x20_0000).contains(&offset) {
            let (context, inside) = ((offset - 0x2000) / 0x80, (offset - 0x2000) % 0x80);
            let present = context < self.context_count;
            return if present { Register::Enables(context as usize, inside / 4) } else { Register::Nothing };
        }
        if offset >= 0x20_0000 {
            let (context, inside) = ((offset - 0x20_0000) / 0x1000, (offset - 0x20_0000) % 0x1000);
            return match inside {
                0 if context < self.context_count => Register::Threshold(context as usize),
                4 if context < self.context_count => Register::ClaimOrComplete(context as usize),
                _ => Register::Nothing,
            };
        }
        Register::Nothing
    }

    fn line_rose(&mut self, id: usize) {
        let source = &mut self.sources[id];
        match (source.stage, source.kind) {
            (Stage::Idle, _) => self.raise(id),
            (_, Kind::EdgeCounting) => source.extra = (source.extra + 1).min(MOST_EXTRA),
            _ => {}
        }
    }

    /// The pending bit of an idle source goes up, now.
    fn raise(&mut self, id: usize) {
        self.sources[id].stage = Stage::Pending;
        self.sources[id].start = self.clock;
        self.log.push(Event::Rise { source: id, time: self.clock });
    }

    fn enable(&mut self, context: usize, word: u64, value: u64) {
        let wanted: BTreeSet<u64> = unpack(word, value).filter(|&id| self.has_source(id)).collect();
        let enabled = &mut self.contexts[context].enabled;
        enabled.retain(|id| id / 32 != word);
        enabled.extend(wanted);
    }

    fn claim(&mut self, context: usize) -> u64 {
        let takes_part = |id: &&u64| {
            let source = &self.sources[**id as usize];
            source.is_pending() && source.priority >= 1
        };
        let rank = |id: &&u64| (self.sources[**id as usize].priority, Reverse(**id));
        let Some(&id) = self.contexts[context].enabled.iter().filter(takes_part).max_by_key(rank) else {
            return 0;
        };
        self.book(id as usize);
        id
    }

    /// Takes a pending source into service and books its wait.
    fn book(&mut self, id: usize) {
        let wait = self.clock - self.sources[id].start;
        let source = &mut self.sources[id];
        source.stage = Stage::InService;
        source.start = 0;
        source.claims += 1;
        source.waited += wait;
        let bucket = &mut self.buckets[bucket_of(wait)];
        bucket.claims += 1;
        bucket.ticks += wait;
        self.log.push(Event::Claim { source: id, wait });
    }

    fn complete(&mut self, context: usize, value: u64) {
        let named = self.has_source(value) && self.contexts[context].enabled.contains(&value);
        if !named || self.sources[value as usize].stage != Stage::InService {
            return;
        }
        let id = value as usize;
        self.log.push(Event::Completion { source: id });
        let source = &mut self.sources[id];
        source.stage = Stage::Idle;
        match source.kind {
            Kind::Level if source.line => self.raise(id),
            Kind::EdgeCounting if source.extra > 0 => {
                source.extra -= 1;
                self.raise(id);
            }
            _ => {}
        }
    }

    // ---- calls that only look ----

    pub fn notification(&self, context: u64) -> Result<u64, Refusal> {
        self.must_be_sound()?;
        if context >= self.context_count {
            return Err(7);
        }
        let context = &self.contexts[context as usize];
        let asks = |id: &u64| {
            let source = &self.sources[*id as usize];
            source.is_pending() && source.priority > context.threshold
        };
        Ok(u64::from(context.enabled.iter().any(asks)))
    }

    /// Ticks waited and claims of the whole board.
    pub fn mean(&self) -> Result<(u128, u128), Refusal> {
        let totals = self.totals()?;
        if totals.claims == 0 { Err(10) } else { Ok((totals.waited, totals.claims)) }
    }

    pub fn percentile_by_claim(&self, per_mille: u64) -> Result<u64, Refusal> {
        self.percentile(per_mille, |bucket| u128::from(bucket.claims))
    }

    pub fn percentile_by_time(&self, per_mille: u64) -> Result<u64, Refusal> {
        self.percentile(per_mille, |bucket| u128::from(bucket.ticks))
    }

    fn percentile(&self, per_mille: u64, weight: impl Fn(&Bucket) -> u128) -> Result<u64, Refusal> {
        self.must_be_sound()?;
        if !(1..=1000).contains(&per_mille) {
            return Err(9);
        }
        let all: u128 = self.buckets.iter().map(&weight).sum();
        if all == 0 {
            return Err(10);
        }
        let up_to = |k: usize| -> u128 { self.buckets[..=k].iter().map(&weight).sum() };
        let reached = |k: &usize| up_to(*k) * 1000 >= u128::from(per_mille) * all;
        let lowest = (0..BUCKET_ROOM).find(reached).expect("the last bucket reaches everything");
        Ok(upper_end(lowest))
    }

    pub fn totals(&self) -> Result<Totals, Refusal> {
        self.must_be_sound()?;
        let sum = |part: &dyn Fn(&Source) -> u64| -> u128 { self.sources.iter().map(|s| u128::from(part(s))).sum() };
        Ok(Totals {
            clock: self.clock,
            claims: sum(&|source| source.claims),
            waited: sum(&|source| source.waited),
            open: sum(&|source| source.open_age(self.clock)),
        })
    }
}
