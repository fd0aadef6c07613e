//! What a line brought about on a board, in both languages: the sights that
//! the scripts of the gate are to reach.

use crate::account::Event;
use crate::gen::{TOP, claim_offset};
use crate::limits::{LAST_SOURCE, MOST_BITS, MOST_CONTEXTS, MOST_EXTRA};
use crate::model::{Controller, Kind, Source, Stage};
use crate::words::Command;
use std::collections::BTreeMap;

/// One line that was obeyed. The log of `after` has the events of this line.
pub struct Moment<'a> {
    pub line: &'a [u8],
    pub command: Option<Command>,
    pub before: &'a Controller,
    pub after: &'a Controller,
    pub answer: &'a str,
    /// Which context has claimed a source in service.
    pub claimers: &'a BTreeMap<u64, u64>,
}

/// A name, and whether the moment shows it.
pub type Sight = (&'static str, fn(&Moment) -> bool);

pub const SIGHTS: [Sight; 39] = [
    ("shape: N 1", |m| m.makes() && m.after.source_count == 1),
    ("shape: N 31", |m| m.makes() && m.after.source_count == 31),
    ("shape: N 32", |m| m.makes() && m.after.source_count == 32),
    ("shape: N 33", |m| m.makes() && m.after.source_count == 33),
    ("shape: N the most", |m| m.makes() && m.after.source_count == LAST_SOURCE),
    ("shape: C 1", |m| m.makes() && m.after.context_count == 1),
    ("shape: C the most", |m| m.makes() && m.after.context_count == MOST_CONTEXTS),
    ("shape: b 1", |m| m.makes() && m.after.priority_bits == 1),
    ("shape: b the most", |m| m.makes() && m.after.priority_bits == MOST_BITS),
    ("storm: 30 pending at once", |m| m.after.sources.iter().filter(|s| s.is_pending()).count() >= 30),
    ("claim: of nothing", |m| m.finds_nothing(|_| true)),
    ("claim: priority 0 alone is left", |m| m.finds_nothing(|c| m.candidates(c).count() > 0)),
    ("claim: a tie", |m| m.takes(|c, id| m.rivals(c, id) > 1)),
    ("claim: at the threshold or below", |m| m.takes(|c, id| m.source(id).priority <= m.threshold(c))),
    ("claim: of the last source", |m| m.takes(|_, id| id == m.before.source_count)),
    ("completion: by the claimer", |m| m.completes(|c, id| m.claimers.get(&id) == Some(&c))),
    ("completion: by another context", |m| m.completes(|c, id| m.claimers.get(&id).is_some_and(|by| *by != c))),
    ("completion: pending again, level", |m| m.completes(|_, id| m.rises() && m.is(id, Kind::Level))),
    ("completion: pending again, counting", |m| m.completes(|_, id| m.rises() && m.is(id, Kind::EdgeCounting))),
    ("completion ignored: not enabled there", |m| m.ignores(|c, v| m.serves(v) && !m.enabled(c, v))),
    ("completion ignored: still pending", |m| m.ignores(|c, v| m.enabled(c, v) && m.source(v).is_pending())),
    ("completion ignored: idle", |m| m.ignores(|c, v| m.enabled(c, v) && m.source(v).stage == Stage::Idle)),
    ("completion ignored: 0", |m| m.ignores(|_, v| v == 0)),
    ("completion ignored: above N", |m| m.ignores(|_, v| v > m.before.source_count && v < 256)),
    ("completion ignored: right in its low 7 bits", |m| m.ignores(|c, v| v > 127 && m.fits(c, v % 128))),
    ("completion ignored: right in its low 8 bits", |m| m.ignores(|c, v| v > 255 && m.fits(c, v % 256))),
    ("completion ignored: right in its low 16 bits", |m| m.ignores(|c, v| v > 65535 && m.fits(c, v % 65536))),
    ("line: level lowered while pending", |m| {
        m.moves(|s, high| s.kind == Kind::Level && s.is_pending() && s.line && !high)
    }),
    ("line: an edge dropped", |m| m.meets_edge(|s| s.kind == Kind::EdgeDropping)),
    ("line: an edge counted", |m| m.meets_edge(|s| s.kind == Kind::EdgeCounting && s.extra < MOST_EXTRA)),
    ("line: an edge beyond the most", |m| m.meets_edge(|s| s.kind == Kind::EdgeCounting && s.extra == MOST_EXTRA)),
    ("line: the level repeated", |m| m.moves(|s, high| s.line == high)),
    ("clock: advance by 0", |m| m.accepted() && m.ticks() == Some(0)),
    ("clock: to its last value", |m| m.ticks() > Some(0) && m.accepted() && m.after.clock == TOP),
    ("clock: refused one tick beyond", |m| m.answer == "refused 8\n" && m.ticks() == Some(TOP + 1 - m.before.clock)),
    ("clock: refused at its last value", |m| m.answer == "refused 8\n" && m.before.clock == TOP),
    ("notification: 0 at the threshold", |m| {
        m.asks(|c| m.answer == "N 0\n" && m.candidates(c).any(|s| s.priority > 0))
    }),
    ("totals: ticks waited beyond 32 bits", |m| m.after.sources.iter().map(|s| s.waited).sum::<u64>() > TOP),
    ("totals: open ages beyond 32 bits", |m| {
        m.after.sources.iter().map(|s| s.open_age(m.after.clock)).sum::<u64>() > TOP
    }),
];

/// The name of a claim that waited so long.
pub fn waited(ticks: u64) -> String {
    format!("claim: waited {ticks}")
}

impl Moment<'_> {
    pub fn accepted(&self) -> bool {
        !self.answer.starts_with("refused")
    }

    fn makes(&self) -> bool {
        self.line.first() == Some(&b'P') && self.accepted()
    }

    /// A source as it was.
    fn source(&self, id: u64) -> &Source {
        &self.before.sources[id as usize]
    }

    fn is(&self, id: u64, kind: Kind) -> bool {
        self.source(id).kind == kind
    }

    fn threshold(&self, context: u64) -> u64 {
        self.before.contexts[context as usize].threshold
    }

    fn enabled(&self, context: u64, id: u64) -> bool {
        self.before.contexts[context as usize].enabled.contains(&id)
    }

    fn serves(&self, id: u64) -> bool {
        self.before.has_source(id) && self.source(id).stage == Stage::InService
    }

    /// Whether the context's completion of this source would take effect.
    fn fits(&self, context: u64, id: u64) -> bool {
        self.serves(id) && self.enabled(context, id)
    }

    /// Sources pending and enabled in a context, of any priority.
    fn candidates(&self, context: u64) -> impl Iterator<Item = &Source> {
        let enabled = self.before.contexts[context as usize].enabled.iter();
        enabled.map(|&id| self.source(id)).filter(|source| source.is_pending())
    }

    /// How many candidates have the priority of this one, itself included.
    fn rivals(&self, context: u64, id: u64) -> usize {
        self.candidates(context).filter(|source| source.priority == self.source(id).priority).count()
    }

    fn events(&self) -> impl Iterator<Item = &Event> {
        self.after.log.iter()
    }

    fn rises(&self) -> bool {
        self.events().any(|event| matches!(event, Event::Rise { .. }))
    }

    /// The context whose claim register is at an offset.
    fn context_at(&self, offset: u64) -> Option<u64> {
        (0..self.before.context_count).find(|&context| claim_offset(context) == offset)
    }

    /// The context of an accepted claim.
    fn claim(&self) -> Option<u64> {
        match self.command {
            Some(Command::Read { offset }) if self.accepted() => self.context_at(offset),
            _ => None,
        }
    }

    fn finds_nothing(&self, test: impl Fn(u64) -> bool) -> bool {
        self.answer == "R 0\n" && self.claim().is_some_and(test)
    }

    /// Source and wait of a claim that gave one.
    fn booked(&self) -> Option<(u64, u64)> {
        self.events().find_map(|event| match *event {
            Event::Claim { source, wait } => Some((source as u64, wait)),
            _ => None,
        })
    }

    pub fn waited(&self) -> Option<u64> {
        self.booked().map(|(_, wait)| wait)
    }

    /// Context and source of a claim that gave one.
    pub fn claimed(&self) -> Option<(u64, u64)> {
        self.claim().zip(self.booked().map(|(id, _)| id))
    }

    fn takes(&self, test: impl Fn(u64, u64) -> bool) -> bool {
        self.claimed().is_some_and(|(context, id)| test(context, id))
    }

    /// Context and value of an accepted completion.
    fn completion(&self) -> Option<(u64, u64)> {
        match self.command {
            Some(Command::Write { offset, value }) if self.accepted() => self.context_at(offset).zip(Some(value)),
            _ => None,
        }
    }

    fn took_effect(&self) -> bool {
        self.events().any(|event| matches!(event, Event::Completion { .. }))
    }

    fn completes(&self, test: impl Fn(u64, u64) -> bool) -> bool {
        self.took_effect() && self.completion().is_some_and(|(context, id)| test(context, id))
    }

    fn ignores(&self, test: impl Fn(u64, u64) -> bool) -> bool {
        !self.took_effect() && self.completion().is_some_and(|(context, value)| test(context, value))
    }

    /// An accepted line change: its source as it was, and the new level.
    fn moves(&self, test: impl Fn(&Source, bool) -> bool) -> bool {
        match self.command {
            Some(Command::Line { source, high }) if self.accepted() => test(self.source(source), high),
            _ => false,
        }
    }

    /// A line that rose while its source was not idle.
    fn meets_edge(&self, test: impl Fn(&Source) -> bool) -> bool {
        self.moves(|source, high| high && !source.line && source.stage != Stage::Idle && test(source))
    }

    fn ticks(&self) -> Option<u64> {
        match self.command {
            Some(Command::Advance { ticks }) => Some(ticks),
            _ => None,
        }
    }

    fn asks(&self, test: impl Fn(u64) -> bool) -> bool {
        matches!(self.command, Some(Command::Notification { context }) if self.accepted() && test(context))
    }
}
