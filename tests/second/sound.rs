//! The paragraph 'Sound' of document 01, clause by clause. Sums are taken over
//! whole numbers wide enough that nothing rolls over.

use crate::limits::MOST_EXTRA;
use crate::model::{Controller, Kind, Source, Stage, shape_fits};

/// A clause: its name, and whether the state keeps it.
type Clause = (&'static str, fn(&Controller) -> bool);

/// The clauses after the shape. They are only looked at when the shape is
/// within limits, since several speak of N, C and b.
const CLAUSES: [Clause; 15] = [
    ("absent sources are zero", absent_sources_are_zero),
    ("absent contexts are zero", absent_contexts_are_zero),
    ("priorities fit", |c| c.sources.iter().all(|s| s.priority <= most(c))),
    ("thresholds fit", |c| c.contexts.iter().all(|x| x.threshold <= most(c))),
    ("enables only for present sources", enables_only_for_present_sources),
    ("stages known", |c| c.sources.iter().all(|s| !matches!(s.stage, Stage::Unknown(_)))),
    ("start at most the clock", |c| c.sources.iter().all(|s| !s.is_pending() || s.start <= c.clock)),
    ("start zero when not pending", |c| c.sources.iter().all(|s| s.is_pending() || s.start == 0)),
    ("extra only at counting sources", |c| c.sources.iter().all(|s| s.extra <= most_extra(s))),
    ("no extra while idle", |c| c.sources.iter().all(|s| s.stage != Stage::Idle || s.extra == 0)),
    ("no level source idle with high line", |c| !c.sources.iter().any(is_lost_level)),
    ("waits within the clock", waits_within_the_clock),
    ("claims at most the steps", |c| claims(c) <= u128::from(c.steps)),
    ("claims equal bucket claims", |c| claims(c) == c.buckets.iter().map(|b| u128::from(b.claims)).sum()),
    ("waits equal bucket ticks", |c| waits(c) == c.buckets.iter().map(|b| u128::from(b.ticks)).sum()),
];

const SHAPE: Clause = ("shape within limits", shape_within_limits);

pub fn is_sound(c: &Controller) -> bool {
    broken(c).is_empty()
}

/// The names of the clauses that the state breaks.
pub fn broken(c: &Controller) -> Vec<&'static str> {
    if !(SHAPE.1)(c) {
        return vec![SHAPE.0];
    }
    CLAUSES.iter().filter(|(_, keeps)| !keeps(c)).map(|(name, _)| *name).collect()
}

/// The names of all clauses.
pub fn clause_names() -> Vec<&'static str> {
    [SHAPE].iter().chain(&CLAUSES).map(|(name, _)| *name).collect()
}

fn shape_within_limits(c: &Controller) -> bool {
    let fits = shape_fits(c.source_count, c.context_count, c.priority_bits);
    let present = c.sources.iter().zip(0u64..).filter(|(_, id)| c.has_source(*id));
    fits && present.map(|(source, _)| source).all(|s| s.kind.number() <= 2)
}

fn absent_sources_are_zero(c: &Controller) -> bool {
    let mut absent = c.sources.iter().zip(0u64..).filter(|(_, id)| !c.has_source(*id));
    absent.all(|(source, _)| *source == Source::zero())
}

fn absent_contexts_are_zero(c: &Controller) -> bool {
    let mut absent = c.contexts.iter().skip(c.context_count as usize);
    absent.all(|context| context.enabled.is_empty() && context.threshold == 0)
}

fn enables_only_for_present_sources(c: &Controller) -> bool {
    c.contexts.iter().flat_map(|context| &context.enabled).all(|&id| c.has_source(id))
}

fn waits_within_the_clock(c: &Controller) -> bool {
    c.sources.iter().all(|s| u128::from(s.waited) + u128::from(s.open_age(c.clock)) <= u128::from(c.clock))
}

fn is_lost_level(source: &Source) -> bool {
    source.kind == Kind::Level && source.stage == Stage::Idle && source.line
}

/// The largest priority and threshold of the board.
fn most(c: &Controller) -> u64 {
    2u64.pow(c.priority_bits as u32) - 1
}

fn most_extra(source: &Source) -> u64 {
    if source.kind == Kind::EdgeCounting { MOST_EXTRA } else { 0 }
}

fn claims(c: &Controller) -> u128 {
    c.sources.iter().map(|s| u128::from(s.claims)).sum()
}

fn waits(c: &Controller) -> u128 {
    c.sources.iter().map(|s| u128::from(s.waited)).sum()
}
