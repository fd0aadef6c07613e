//! Seeded scripts of the probe's language. The generator runs the model along,
//! so that it knows the contents of a field before it changes it and can put
//! them back. The remainder of the seed picks the style.

use crate::field::{self, FIELDS};
use crate::gen::{Board, Dice, TOP, claim_offset, finish, read_at, write_at};
use crate::gen_unsound::{BREAKS, EDGES};
use crate::limits::{BUCKET_ROOM, LAST_SOURCE, MOST_BITS, MOST_CONTEXTS};
use crate::model::Controller;
use crate::probe;
use crate::sound;
use crate::spoil;

const PER_MILLES: [u64; 12] = [0, 1, 2, 499, 500, 501, 990, 991, 999, 1000, 1001, TOP];

const STYLES: [fn(&mut Scene, u64); 10] = [
    traffic_and_reports,
    waits_of_every_bucket,
    reports_on_set_buckets,
    end_of_steps,
    end_of_clock,
    one_break_at_a_time,
    breaks_at_random,
    edges_of_sound,
    unreadable,
    makes,
];

/// A script in the making: its lines, and the state at hand after them.
pub struct Scene {
    pub dice: Dice,
    pub board: Board,
    state: Controller,
    lines: Vec<Vec<u8>>,
    /// Fields put since the last trial, with what they held before.
    undo: Vec<(&'static str, usize, u64)>,
}

pub fn script(seed: u64) -> Vec<u8> {
    let mut dice = Dice::new(seed ^ 0x5EED);
    let board = Board::any(&mut dice);
    let mut scene = Scene { dice, board, state: Controller::zero(), lines: Vec::new(), undo: Vec::new() };
    if scene.dice.chance(10) {
        // The state at hand before anything is made.
        scene.try_every_call();
    }
    scene.make();
    let styles = STYLES.len() as u64;
    STYLES[(seed % styles) as usize](&mut scene, seed / styles);
    scene.say("V");
    finish(&mut scene.dice, scene.lines)
}

impl Scene {
    pub fn say(&mut self, line: impl AsRef<[u8]>) {
        probe::obey(&mut self.state, line.as_ref());
        self.lines.push(line.as_ref().to_vec());
    }

    pub fn get(&self, name: &str, index: usize) -> u64 {
        let field = field::named(name.as_bytes()).expect("a field of the probe");
        (field.get)(&self.state, index)
    }

    pub fn put(&mut self, name: &'static str, index: usize, value: u64) {
        self.undo.push((name, index, self.get(name, index)));
        self.say(format!("F {name} {index} {value}"));
    }

    fn put_back(&mut self) {
        while let Some((name, index, value)) = self.undo.pop() {
            self.say(format!("F {name} {index} {value}"));
        }
    }

    /// The board afresh, ready for claims.
    pub fn make(&mut self) {
        self.undo.clear();
        self.say(self.board.first_line());
        for line in self.board.setup(&mut self.dice) {
            self.say(line);
        }
    }

    /// A board whose sources 1, 2 and 3 are of the three kinds, fresh.
    pub fn make_three_kinds(&mut self) {
        let n = self.dice.pick(&[3, 4, 5, 31, 32, 33, LAST_SOURCE - 1, LAST_SOURCE]);
        let (c, b) = (self.dice.below(MOST_CONTEXTS) + 1, self.dice.below(MOST_BITS) + 1);
        self.board = Board::new(&mut self.dice, n, c, b);
        self.board.kinds.replace_range(0..3, "lec");
        self.board.active.extend([1, 2, 3]);
        self.make();
    }

    fn traffic(&mut self, count: u64) {
        for _ in 0..count {
            let line = self.board.traffic(&mut self.dice);
            self.say(line);
        }
    }

    /// A place for a source that the board does not have.
    pub fn absent(&mut self) -> usize {
        let above = self.board.n + 1;
        let place = self.dice.pick(&[0, above, LAST_SOURCE]);
        if place == 0 || above > LAST_SOURCE { 0 } else { place as usize }
    }

    pub fn present(&mut self) -> usize {
        self.board.source(&mut self.dice) as usize
    }

    pub fn bucket(&mut self) -> usize {
        self.dice.below(BUCKET_ROOM as u64) as usize
    }

    fn reports(&mut self) {
        self.say("M");
        for _ in 0..4 {
            let by_claim = self.dice.pick(&PER_MILLES);
            let by_time = self.dice.pick(&PER_MILLES);
            self.say(format!("A {by_claim}"));
            self.say(format!("B {by_time}"));
        }
        self.say("E");
    }

    /// Every kind of call, with the whole state shown before and after.
    pub fn try_every_call(&mut self) {
        self.say("V");
        let Scene { dice, board, .. } = self;
        let context = board.context(dice);
        let (id, odd, p) = (board.source(dice), board.refused(dice), dice.pick(&PER_MILLES));
        let mut calls = vec![
            board.line_change(dice),
            format!("T {}", dice.below(3)),
            read_at(claim_offset(context)),
            read_at(0x1000),
            write_at(claim_offset(context), id),
            write_at(4 * id, TOP),
            write_at(0x2000, TOP),
            format!("N {context}"),
            odd,
            format!("A {p}"),
            format!("B {p}"),
        ];
        calls.extend(["M", "A 500", "B 500", "E", "S"].map(String::from));
        calls.into_iter().for_each(|call| self.say(call));
        self.say("V");
    }

    /// Tries every call on the state at hand, which `put` has brought about,
    /// and brings back a sound one.
    fn trial(&mut self) {
        let was_sound = sound::is_sound(&self.state);
        self.try_every_call();
        // Accepted calls have moved on, so there is nothing to put back to.
        if was_sound { self.make() } else { self.put_back() }
        self.say("S");
    }

    /// Looks at a state on one side of an edge, tried on a board made anew.
    pub fn look_at_edge(&mut self, puts: &[(&'static str, usize, u64)]) {
        self.make();
        puts.iter().for_each(|&(name, index, value)| self.put(name, index, value));
        self.say("S");
        self.try_every_call();
    }
}

/// Half of the scripts start with every source pending.
fn traffic_and_reports(scene: &mut Scene, turn: u64) {
    let raised = if turn % 2 == 0 { scene.board.n } else { 0 };
    (1..=raised).for_each(|id| scene.say(format!("L {id} 1")));
    for _ in 0..8 {
        scene.traffic(15);
        scene.reports();
        if scene.dice.chance(30) {
            scene.say("V");
        }
    }
}

/// Claims into every bucket, at both of its ends.
fn waits_of_every_bucket(scene: &mut Scene, _: u64) {
    scene.board = Board::of_bucket_ends(&mut scene.dice);
    scene.say(scene.board.first_line());
    for line in scene.board.waits(&mut scene.dice) {
        scene.say(line);
    }
    scene.say("V");
    scene.reports();
    scene.traffic(20);
}

/// Sound states whose buckets were set by hand, some of them huge; reports at
/// the exact shares of their buckets and beside them.
fn reports_on_set_buckets(scene: &mut Scene, _: u64) {
    for _ in 0..4 {
        scene.make();
        let most = scene.dice.pick(&[8, 100, 1000, 4_294_967_000, TOP]);
        let claims = spread(scene, most, "bucket_claims");
        let ticks = spread(scene, most, "bucket_ticks");
        let id = scene.present();
        scene.put("claims", id, claims.iter().sum());
        scene.put("waited", id, ticks.iter().sum());
        if scene.dice.chance(50) {
            add_full_sources(scene);
        }
        scene.put("clock", 0, TOP);
        scene.put("steps", 0, TOP);
        scene.say("S");
        scene.reports();
        at_shares(scene, "A", &claims);
        at_shares(scene, "B", &ticks);
    }
}

/// Parts of `most` put into random buckets; gives the parts by rising bucket.
fn spread(scene: &mut Scene, most: u64, name: &'static str) -> Vec<u64> {
    let mut places: Vec<usize> = (0..4).map(|_| scene.bucket()).collect();
    places.sort();
    places.dedup();
    let step = most / scene.dice.pick(&[10, 8, 5]);
    let parts: Vec<u64> = places.iter().map(|_| step * scene.dice.below(2) + step / 8).collect();
    places.iter().zip(&parts).for_each(|(&place, &part)| scene.put(name, place, part));
    parts
}

/// Every source but one waits for all of the clock, so that ticks pass 32 bits.
fn add_full_sources(scene: &mut Scene) {
    let bucket = scene.bucket();
    let others: Vec<usize> = (1..=scene.board.n as usize).filter(|&id| scene.get("waited", id) == 0).collect();
    let ticks = scene.get("bucket_ticks", bucket) + others.len() as u64 * TOP;
    others.into_iter().for_each(|id| scene.put("waited", id, TOP));
    scene.put("bucket_ticks", bucket, ticks);
}

fn at_shares(scene: &mut Scene, letter: &str, parts: &[u64]) {
    let all: u64 = parts.iter().sum::<u64>().max(1);
    let mut below = 0;
    for part in parts {
        below += part;
        let share = (u128::from(below) * 1000 / u128::from(all)) as u64;
        for per_mille in [share.saturating_sub(1), share, share + 1] {
            scene.say(format!("{letter} {per_mille}"));
        }
    }
}

fn end_of_steps(scene: &mut Scene, turn: u64) {
    scene.traffic(30);
    scene.put("steps", 0, TOP - turn % 4);
    scene.say("S");
    for _ in 0..5 {
        scene.try_every_call();
        scene.traffic(3);
    }
    scene.put("steps", 0, TOP);
    // Each sort of step, also with what would be refused by a higher number.
    for line in ["L 0 1", "L 1 1", "T 0", "T 4294967295", "R 04000001", "R 00000001", "W 00000004 1", "N 4294967295"] {
        scene.say(line);
    }
    scene.put("stage", 0, 1);
    scene.trial();
}

fn end_of_clock(scene: &mut Scene, _: u64) {
    scene.traffic(20);
    for _ in 0..4 {
        let left = scene.dice.pick(&[0, 1, 5, 6, 1000]);
        scene.put("clock", 0, TOP - left);
        for ticks in [left + 1, TOP, 0, left / 2, left, 1] {
            scene.say(format!("T {ticks}"));
            scene.traffic(3);
        }
        scene.reports();
        scene.say("V");
        scene.make();
        scene.traffic(20);
    }
}

fn one_break_at_a_time(scene: &mut Scene, turn: u64) {
    scene.make_three_kinds();
    scene.traffic(40);
    for next in 0..5 {
        BREAKS[(turn as usize * 5 + next) % BREAKS.len()](scene);
        scene.trial();
        scene.traffic(5);
    }
}

fn breaks_at_random(scene: &mut Scene, _: u64) {
    scene.traffic(40);
    for _ in 0..8 {
        for _ in 0..scene.dice.pick(&[1, 1, 1, 2, 5]) {
            put_at_random(scene);
        }
        scene.say("S");
        scene.trial();
        scene.traffic(5);
    }
}

fn put_at_random(scene: &mut Scene) {
    let field = &FIELDS[scene.dice.below(FIELDS.len() as u64) as usize];
    let near = scene.present().min(field.places - 1);
    let index = if scene.dice.chance(50) { near } else { scene.dice.below(field.places as u64) as usize };
    let now = scene.get(field.name, index);
    let any = scene.dice.any_size(64);
    let value = scene.dice.pick(&[0, 1, 2, 3, now.wrapping_sub(1), now.wrapping_add(1), field.limit, any]);
    scene.put(field.name, index, value.min(field.limit));
}

fn edges_of_sound(scene: &mut Scene, turn: u64) {
    for next in 0..4 {
        scene.make_three_kinds();
        EDGES[(turn as usize * 4 + next) % EDGES.len()](scene);
    }
}

fn unreadable(scene: &mut Scene, _: u64) {
    for _ in 0..40 {
        scene.traffic(1);
        let good = scene.board.traffic(&mut scene.dice);
        let spoiled = match scene.dice.below(3) {
            0 => spoil::spoiled(&mut scene.dice, &scene.board, &good),
            1 => spoil::spoiled_put(&mut scene.dice),
            _ => spoil::spoiled_report(&mut scene.dice),
        };
        scene.say(spoiled);
        if scene.dice.chance(10) {
            scene.say("V");
        }
    }
}

fn makes(scene: &mut Scene, _: u64) {
    for _ in 0..25 {
        let line = spoil::make_form(&mut scene.dice, &scene.board);
        scene.say(line);
        scene.say("S");
        scene.say("V");
        scene.traffic(2);
        if scene.dice.chance(40) {
            scene.make();
            scene.traffic(10);
        }
    }
    scene.make();
    scene.try_every_call();
}
