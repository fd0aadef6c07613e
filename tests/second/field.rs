//! The fields of a state as the probe's language names them, in the order in
//! which it shows them.

use crate::limits::{BUCKET_ROOM, CONTEXT_ROOM, SOURCE_ROOM, WORD_ROOM};
use crate::model::{Controller, Kind, LAST_32, Stage, pack, unpack};

const BYTE: u64 = 255;

pub struct Field {
    pub name: &'static str,
    /// Indices run from 0 to below this.
    pub places: usize,
    /// The largest value that can be read for it.
    pub limit: u64,
    pub get: fn(&Controller, usize) -> u64,
    pub set: fn(&mut Controller, usize, u64),
}

pub const FIELDS: [Field; 17] = [
    single("sources", |c, _| c.source_count, |c, _, v| c.source_count = v),
    single("contexts", |c, _| c.context_count, |c, _, v| c.context_count = v),
    single("bits", |c, _| c.priority_bits, |c, _, v| c.priority_bits = v),
    single("clock", |c, _| c.clock, |c, _, v| c.clock = v),
    single("steps", |c, _| c.steps, |c, _, v| c.steps = v),
    of_source("kind", BYTE, |c, i| c.sources[i].kind.number(), |c, i, v| c.sources[i].kind = Kind::from_number(v)),
    of_source("stage", BYTE, |c, i| c.sources[i].stage.number(), |c, i, v| c.sources[i].stage = Stage::from_number(v)),
    of_source("line", 1, |c, i| u64::from(c.sources[i].line), |c, i, v| c.sources[i].line = v == 1),
    of_source("extra", BYTE, |c, i| c.sources[i].extra, |c, i, v| c.sources[i].extra = v),
    of_source("priority", BYTE, |c, i| c.sources[i].priority, |c, i, v| c.sources[i].priority = v),
    of_source("start", LAST_32, |c, i| c.sources[i].start, |c, i, v| c.sources[i].start = v),
    of_source("claims", LAST_32, |c, i| c.sources[i].claims, |c, i, v| c.sources[i].claims = v),
    of_source("waited", LAST_32, |c, i| c.sources[i].waited, |c, i, v| c.sources[i].waited = v),
    Field { name: "enable", places: CONTEXT_ROOM * WORD_ROOM, limit: LAST_32, get: enable_word, set: set_enable_word },
    Field {
        name: "threshold",
        places: CONTEXT_ROOM,
        limit: BYTE,
        get: |c, i| c.contexts[i].threshold,
        set: |c, i, v| c.contexts[i].threshold = v,
    },
    of_bucket("bucket_claims", LAST_32, |c, i| c.buckets[i].claims, |c, i, v| c.buckets[i].claims = v),
    of_bucket("bucket_ticks", u64::MAX, |c, i| c.buckets[i].ticks, |c, i, v| c.buckets[i].ticks = v),
];

type Get = fn(&Controller, usize) -> u64;
type Set = fn(&mut Controller, usize, u64);

const fn single(name: &'static str, get: Get, set: Set) -> Field {
    Field { name, places: 1, limit: LAST_32, get, set }
}

const fn of_source(name: &'static str, limit: u64, get: Get, set: Set) -> Field {
    Field { name, places: SOURCE_ROOM, limit, get, set }
}

const fn of_bucket(name: &'static str, limit: u64, get: Get, set: Set) -> Field {
    Field { name, places: BUCKET_ROOM, limit, get, set }
}

fn enable_word(c: &Controller, index: usize) -> u64 {
    let (context, word) = (index / WORD_ROOM, index % WORD_ROOM);
    pack(word as u64, |id| c.contexts[context].enabled.contains(&id))
}

fn set_enable_word(c: &mut Controller, index: usize, value: u64) {
    let (context, word) = (index / WORD_ROOM, (index % WORD_ROOM) as u64);
    let enabled = &mut c.contexts[context].enabled;
    enabled.retain(|id| id / 32 != word);
    enabled.extend(unpack(word, value));
}

pub fn named(name: &[u8]) -> Option<&'static Field> {
    const ALL: &[Field] = &FIELDS;
    ALL.iter().find(|field| field.name.as_bytes() == name)
}
