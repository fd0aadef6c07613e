//! States that are not sound, one clause at a time: breaks of a board in
//! traffic, and states on each side of the edge of a clause. The boards have
//! a level source 1, a dropping source 2 and a counting source 3.

use crate::gen::TOP;
use crate::gen_probe::Scene;
use crate::limits::{LAST_BUCKET, LAST_SOURCE, MOST_BITS, MOST_CONTEXTS, MOST_EXTRA, WORD_ROOM};

const LAST_CONTEXT: u64 = MOST_CONTEXTS - 1;

const LEVEL: usize = 1;
const DROPPING: usize = 2;
const COUNTING: usize = 3;

/// Each puts one thing wrong into the state at hand.
pub const BREAKS: [fn(&mut Scene); 61] = [
    |s| s.put("sources", 0, 0),
    |s| s.put("sources", 0, LAST_SOURCE + 1),
    |s| s.put("sources", 0, 2 * LAST_SOURCE + 1),
    |s| s.put("sources", 0, TOP),
    |s| s.put("sources", 0, s.board.n - 1),
    |s| s.put("contexts", 0, 0),
    |s| s.put("contexts", 0, MOST_CONTEXTS + 1),
    |s| s.put("contexts", 0, TOP),
    |s| s.put("contexts", 0, s.board.c - 1),
    |s| s.put("bits", 0, 0),
    |s| s.put("bits", 0, MOST_BITS + 1),
    |s| s.put("bits", 0, 32),
    |s| s.put("bits", 0, 64),
    |s| s.put("bits", 0, TOP),
    |s| s.put("bits", 0, s.board.b - 1),
    |s| put_present(s, "kind", 3),
    |s| put_present(s, "kind", 255),
    |s| put_absent(s, "kind", 1),
    |s| put_absent(s, "kind", 3),
    |s| put_present(s, "stage", 3),
    |s| put_present(s, "stage", 255),
    |s| put_absent(s, "stage", 1),
    |s| put_absent(s, "stage", 2),
    |s| put_absent(s, "line", 1),
    |s| put_absent(s, "extra", 1),
    |s| put_absent(s, "priority", 1),
    |s| put_absent(s, "start", 1),
    |s| put_absent(s, "claims", 1),
    |s| put_absent(s, "waited", 1),
    |s| put_present(s, "priority", 1 << s.board.b),
    |s| put_present(s, "priority", 255),
    |s| put_context(s, "threshold", 1 << s.board.b),
    |s| put_context(s, "threshold", 255),
    |s| put_absent_context(s, "threshold", 1, 1),
    |s| put_absent_context(s, "enable", WORD_ROOM, 2),
    |s| put_absent_context(s, "enable", WORD_ROOM, 1 << 31),
    |s| put_enable_bit(s, 0),
    |s| put_enable_bit(s, s.board.n + 1),
    |s| put_enable_bit(s, LAST_SOURCE),
    |s| put_staged(s, LEVEL, 1, "extra", 1),
    |s| put_staged(s, DROPPING, 1, "extra", 1),
    |s| put_staged(s, DROPPING, 2, "extra", MOST_EXTRA),
    |s| put_staged(s, COUNTING, 0, "extra", 1),
    |s| put_staged(s, COUNTING, 0, "start", 1),
    |s| put_staged(s, COUNTING, 2, "start", 1),
    |s| put_staged(s, COUNTING, 1, "start", TOP),
    |s| put_staged(s, LEVEL, 0, "line", 1),
    |s| add_to_present(s, "claims"),
    |s| add_to_present(s, "waited"),
    |s| put_present(s, "claims", TOP),
    |s| put_present(s, "waited", TOP),
    |s| add_to_bucket(s, "bucket_claims", 1),
    |s| add_to_bucket(s, "bucket_ticks", 1),
    |s| add_to_bucket(s, "bucket_ticks", 1 << 32),
    |s| add_to_bucket(s, "bucket_ticks", 1 << 63),
    |s| move_claim(s),
    |s| claims_beyond_steps(s),
    |s| s.put("steps", 0, 0),
    |s| s.put("clock", 0, 0),
    |s| bucket_ticks_roll_over(s),
    |s| bucket_claims_roll_over(s),
];

fn put_present(s: &mut Scene, name: &'static str, value: u64) {
    let id = s.present();
    s.put(name, id, value);
}

fn put_absent(s: &mut Scene, name: &'static str, value: u64) {
    let id = s.absent();
    s.put(name, id, value);
}

fn put_context(s: &mut Scene, name: &'static str, value: u64) {
    let context = s.dice.below(s.board.c) as usize;
    s.put(name, context, value);
}

/// Puts into a place of a context that the board lacks; the last one if it has all.
fn put_absent_context(s: &mut Scene, name: &'static str, places_each: usize, value: u64) {
    let context = s.board.c.min(LAST_CONTEXT);
    if s.board.c == MOST_CONTEXTS {
        s.put("contexts", 0, context);
    }
    s.put(name, context as usize * places_each, value);
}

fn put_enable_bit(s: &mut Scene, id: u64) {
    let id = id.min(LAST_SOURCE);
    let index = s.dice.below(s.board.c) as usize * WORD_ROOM + id as usize / 32;
    let value = s.get("enable", index) | 1 << (id % 32);
    s.put("enable", index, value);
}

/// Brings a source into a stage with everything else of it in order, then puts
/// one thing wrong.
fn put_staged(s: &mut Scene, id: usize, stage: u64, name: &'static str, value: u64) {
    let clock = s.get("clock", 0);
    s.put("line", id, 0);
    s.put("extra", id, 0);
    s.put("start", id, if stage == 1 { clock } else { 0 });
    s.put("stage", id, stage);
    s.say("S");
    s.put(name, id, value);
}

fn add_to_present(s: &mut Scene, name: &'static str) {
    let id = s.present();
    s.put(name, id, s.get(name, id) + 1);
}

fn add_to_bucket(s: &mut Scene, name: &'static str, more: u64) {
    let bucket = s.bucket();
    s.put(name, bucket, s.get(name, bucket) + more);
}

/// A claim moved from one source to another is still sound: the sums agree.
fn move_claim(s: &mut Scene) {
    let (from, to) = (s.present(), s.present());
    s.put("claims", from, s.get("claims", from).saturating_sub(1));
    s.put("claims", to, s.get("claims", to) + 1);
}

fn claims_beyond_steps(s: &mut Scene) {
    let more = s.get("steps", 0) + 1;
    let id = s.present();
    s.put("claims", id, s.get("claims", id) + more);
    s.put("bucket_claims", 0, s.get("bucket_claims", 0) + more);
}

/// Two buckets whose ticks together add exactly 2^64.
fn bucket_ticks_roll_over(s: &mut Scene) {
    for bucket in [LAST_BUCKET - 1, LAST_BUCKET] {
        s.put("bucket_ticks", bucket, s.get("bucket_ticks", bucket) + (1 << 63));
    }
}

/// Two buckets, or two sources, whose claims together add exactly 2^32.
fn bucket_claims_roll_over(s: &mut Scene) {
    let name = s.dice.pick(&["bucket_claims", "claims"]);
    for place in [2, 3] {
        s.put(name, place, s.get(name, place) + (1 << 31));
    }
}

/// Each shows states on both sides of an edge.
pub const EDGES: [fn(&mut Scene); 16] = [
    waits_against_clock,
    waits_roll_over,
    claims_against_steps,
    claims_roll_over,
    ticks_roll_over,
    bucket_sums,
    priority_limits,
    threshold_limits,
    start_against_clock,
    start_when_not_pending,
    enable_bits,
    absent_contexts,
    extra_edges,
    lines_and_stages,
    full_waits,
    shape_limits,
];

fn waits_against_clock(s: &mut Scene) {
    let id = s.present();
    for waited in [60, 61] {
        let open = [("clock", 0, 100), ("stage", id, 1), ("start", id, 60)];
        let closed = [("waited", id, waited), ("bucket_ticks", 5, waited)];
        s.look_at_edge(&[&open[..], &closed[..]].concat());
    }
    for clock in [99, 100] {
        s.look_at_edge(&[("clock", 0, clock), ("waited", id, 100), ("bucket_ticks", LAST_BUCKET, 100)]);
    }
}

fn waits_roll_over(s: &mut Scene) {
    let id = s.present();
    for start in [0, 1, TOP - 1, TOP] {
        let open = [("clock", 0, TOP), ("stage", id, 1), ("start", id, start)];
        let closed = [("waited", id, TOP), ("bucket_ticks", 0, TOP)];
        s.look_at_edge(&[&open[..], &closed[..]].concat());
    }
}

fn claims_against_steps(s: &mut Scene) {
    let (id, other) = (s.present(), s.board.n as usize);
    for steps in [10, 9] {
        s.look_at_edge(&[("claims", id, 10), ("bucket_claims", 3, 10), ("steps", 0, steps)]);
    }
    for claims in [0, 1] {
        let some = [("claims", 1, TOP - 1), ("claims", other, 1), ("claims", 2, claims)];
        s.look_at_edge(&[&some[..], &[("bucket_claims", 9, TOP), ("steps", 0, TOP)][..]].concat());
    }
}

fn claims_roll_over(s: &mut Scene) {
    s.look_at_edge(&[("claims", 1, TOP), ("claims", 2, 1)]);
    s.look_at_edge(&[("bucket_claims", 1, TOP), ("bucket_claims", LAST_BUCKET, 1)]);
    let sources = [("claims", 1, TOP), ("claims", 2, 1), ("steps", 0, TOP)];
    s.look_at_edge(&[&sources[..], &[("bucket_claims", 1, TOP), ("bucket_claims", LAST_BUCKET, 1)][..]].concat());
}

fn ticks_roll_over(s: &mut Scene) {
    s.look_at_edge(&[("bucket_ticks", 0, 1 << 63), ("bucket_ticks", LAST_BUCKET, 1 << 63)]);
    s.look_at_edge(&[("bucket_ticks", 7, u64::MAX), ("bucket_ticks", 8, 1)]);
    let closed = [("clock", 0, 5), ("waited", 1, 5)];
    s.look_at_edge(&[&closed[..], &[("bucket_ticks", 1, u64::MAX), ("bucket_ticks", 2, 6)][..]].concat());
    s.look_at_edge(&[("clock", 0, TOP), ("waited", 1, TOP), ("waited", 2, 1)]);
    s.look_at_edge(&[("clock", 0, TOP), ("waited", 1, TOP), ("waited", 2, 1), ("bucket_ticks", 0, 1 << 32)]);
}

fn bucket_sums(s: &mut Scene) {
    let id = s.present();
    for bucket in [4, 5, 6] {
        s.look_at_edge(&[("claims", id, 5), ("bucket_claims", 0, bucket), ("steps", 0, 100)]);
        s.look_at_edge(&[("clock", 0, 50), ("waited", id, 5), ("bucket_ticks", LAST_BUCKET, bucket)]);
    }
}

fn priority_limits(s: &mut Scene) {
    let (id, beyond) = (s.present(), 1 << s.board.b);
    s.look_at_edge(&[("priority", id, beyond - 1)]);
    s.look_at_edge(&[("priority", id, beyond)]);
    s.look_at_edge(&[("priority", id, 128)]);
}

fn threshold_limits(s: &mut Scene) {
    let (context, beyond) = (s.board.c as usize - 1, 1 << s.board.b);
    s.look_at_edge(&[("threshold", context, beyond - 1)]);
    s.look_at_edge(&[("threshold", context, beyond)]);
    s.look_at_edge(&[("threshold", context, 128)]);
}

fn start_against_clock(s: &mut Scene) {
    let id = s.present();
    for start in [99, 100, 101, TOP] {
        s.look_at_edge(&[("clock", 0, 100), ("stage", id, 1), ("start", id, start)]);
    }
}

fn start_when_not_pending(s: &mut Scene) {
    let id = s.present();
    for stage in [0, 1, 2, 3] {
        s.look_at_edge(&[("clock", 0, 100), ("stage", id, stage), ("start", id, 1)]);
    }
}

fn enable_bits(s: &mut Scene) {
    let top_word = s.board.n as usize / 32;
    let bit = 1u64 << (s.board.n % 32);
    for value in [bit, bit << 1 & TOP, TOP] {
        s.look_at_edge(&[("enable", top_word, value)]);
    }
    s.look_at_edge(&[("enable", 0, 1)]);
    s.look_at_edge(&[("enable", WORD_ROOM - 1, 1 << 31)]);
}

fn absent_contexts(s: &mut Scene) {
    for context in [s.board.c - 1, s.board.c.min(LAST_CONTEXT), LAST_CONTEXT] {
        let context = context as usize;
        s.look_at_edge(&[("enable", context * WORD_ROOM, 2)]);
        s.look_at_edge(&[("threshold", context, 1)]);
    }
}

fn extra_edges(s: &mut Scene) {
    for (id, stage) in [(LEVEL, 1), (DROPPING, 2), (COUNTING, 0), (COUNTING, 1), (COUNTING, 2)] {
        let value = s.dice.pick(&[1, MOST_EXTRA - 1, MOST_EXTRA]);
        s.look_at_edge(&[("stage", id, stage), ("extra", id, value)]);
    }
    s.make();
    s.put("stage", COUNTING, 1);
    s.put("extra", COUNTING, MOST_EXTRA - 1);
    for level in [1, 0, 1, 0, 1] {
        s.say(format!("L {COUNTING} {level}"));
    }
    s.say("V");
}

fn lines_and_stages(s: &mut Scene) {
    for id in [LEVEL, DROPPING, COUNTING] {
        for stage in 0..4 {
            s.look_at_edge(&[("line", id, 1), ("stage", id, stage)]);
        }
    }
}

/// Every source has waited for all of the clock; then one tick more or less.
fn full_waits(s: &mut Scene) {
    let n = s.board.n.min(12) as usize;
    let mut puts: Vec<(&'static str, usize, u64)> = (1..=n).map(|id| ("waited", id, TOP)).collect();
    puts.push(("clock", 0, TOP));
    for change in [0, 1, 2] {
        let total = n as u64 * TOP + change - 1;
        s.look_at_edge(&[&puts[..], &[("bucket_ticks", LAST_BUCKET, total)][..]].concat());
    }
}

fn shape_limits(s: &mut Scene) {
    for (name, most) in [("sources", LAST_SOURCE), ("contexts", MOST_CONTEXTS), ("bits", MOST_BITS)] {
        for value in [1, most, most + 1] {
            s.look_at_edge(&[(name, 0, value)]);
        }
    }
}
