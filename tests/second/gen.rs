//! What both generators of scripts share: dice that depend on the seed alone,
//! boards, and lines of traffic on a board.

use crate::limits::{LAST_SOURCE, MOST_BITS, MOST_CONTEXTS, MOST_WORDS};

/// The last number that a line can hold.
pub const TOP: u64 = 4_294_967_295;

/// Repeatable random numbers.
pub struct Dice {
    state: u64,
}

/// The shape of a board and the few sources on which traffic gathers, so that
/// claims and completions meet.
pub struct Board {
    pub n: u64,
    pub c: u64,
    pub b: u64,
    pub kinds: String,
    pub active: Vec<u64>,
}

impl Dice {
    pub fn new(seed: u64) -> Dice {
        let mut dice = Dice { state: seed.wrapping_mul(0x9E37_79B9_7F4A_7C15) };
        // Neighbouring seeds begin alike; a few rolls part them.
        for _ in 0..4 {
            dice.roll();
        }
        dice
    }

    pub fn roll(&mut self) -> u64 {
        self.state = self.state.wrapping_mul(6_364_136_223_846_793_005).wrapping_add(0x5851_F42D);
        let folded = (self.state ^ (self.state >> 29)).wrapping_mul(0xA24B_AED4_963E_E407);
        folded ^ (folded >> 32)
    }

    pub fn below(&mut self, bound: u64) -> u64 {
        self.roll() % bound
    }

    pub fn chance(&mut self, percent: u64) -> bool {
        self.below(100) < percent
    }

    pub fn pick<T: Clone>(&mut self, choices: &[T]) -> T {
        choices[self.below(choices.len() as u64) as usize].clone()
    }

    pub fn shuffled(&mut self, choices: impl Iterator<Item = u64>) -> Vec<u64> {
        let mut keyed: Vec<(u64, u64)> = choices.map(|choice| (self.roll(), choice)).collect();
        keyed.sort();
        keyed.into_iter().map(|(_, choice)| choice).collect()
    }

    /// A number of any size, small ones as likely as large ones.
    pub fn any_size(&mut self, most_bits: u64) -> u64 {
        let bits = self.below(most_bits) + 1;
        self.roll() >> (64 - bits)
    }
}

/// The shortest and the longest wait of every bucket, rising.
pub fn bucket_ends() -> Vec<u64> {
    let mut ends: Vec<u64> = (0..32).flat_map(|k| [(1 << k) - 1, 1 << k]).chain([TOP]).collect();
    ends.dedup();
    ends
}

/// Joins lines to a script; now and then the end is ragged.
pub fn finish(dice: &mut Dice, lines: Vec<Vec<u8>>) -> Vec<u8> {
    if lines.is_empty() {
        return Vec::new();
    }
    let mut script = lines.join(&b'\n');
    match dice.below(12) {
        0 | 1 => {}
        2 => script.extend(b"\n\n"),
        _ => script.push(b'\n'),
    }
    script
}

pub fn read_at(offset: u64) -> String {
    format!("R {offset:08X}")
}

pub fn write_at(offset: u64, value: u64) -> String {
    format!("W {offset:08X} {value}")
}

pub fn enables_offset(context: u64, word: u64) -> u64 {
    0x2000 + 0x80 * context + 4 * word
}

pub fn threshold_offset(context: u64) -> u64 {
    0x20_0000 + 0x1000 * context
}

pub fn claim_offset(context: u64) -> u64 {
    threshold_offset(context) + 4
}

impl Board {
    pub fn new(dice: &mut Dice, n: u64, c: u64, b: u64) -> Board {
        let kinds = (0..n).map(|_| dice.pick(&['l', 'e', 'c'])).collect();
        let mut active = vec![1, n];
        for near in [31, 32, 33, 63, 64, 95, 96] {
            if near <= n && dice.chance(30) {
                active.push(near);
            }
        }
        while active.len() < 5 {
            active.push(dice.below(n) + 1);
        }
        Board { n, c, b, kinds, active }
    }

    pub fn small(dice: &mut Dice) -> Board {
        let (n, c, b) = (dice.below(9) + 1, dice.below(4) + 1, dice.below(MOST_BITS) + 1);
        Board::new(dice, n, c, b)
    }

    /// A shape at the edges of what is allowed.
    pub fn at_the_edge(dice: &mut Dice) -> Board {
        let n = dice.pick(&[1, 31, 32, 33, LAST_SOURCE]);
        let (c, b) = (dice.pick(&[1, MOST_CONTEXTS]), dice.pick(&[1, MOST_BITS]));
        Board::new(dice, n, c, b)
    }

    pub fn any(dice: &mut Dice) -> Board {
        if dice.chance(50) {
            return Board::small(dice);
        }
        let (n, c, b) = (dice.below(LAST_SOURCE) + 1, dice.below(MOST_CONTEXTS) + 1, dice.below(MOST_BITS) + 1);
        Board::new(dice, n, c, b)
    }

    /// A board with a source for every end of a bucket.
    pub fn of_bucket_ends(dice: &mut Dice) -> Board {
        let least = bucket_ends().len() as u64;
        let n = least + dice.below(LAST_SOURCE + 1 - least);
        let (c, b) = (dice.below(MOST_CONTEXTS) + 1, dice.below(MOST_BITS) + 1);
        Board::new(dice, n, c, b)
    }

    pub fn first_line(&self) -> String {
        format!("P {} {} {} {}", self.n, self.c, self.b, self.kinds)
    }

    pub fn source(&self, dice: &mut Dice) -> u64 {
        if dice.chance(90) { dice.pick(&self.active) } else { dice.below(self.n) + 1 }
    }

    pub fn context(&self, dice: &mut Dice) -> u64 {
        // Mostly the first two, so that contexts meet over the same sources.
        if dice.chance(70) { dice.below(self.c.min(2)) } else { dice.below(self.c) }
    }

    /// Priorities and enables with which most claims find something.
    pub fn setup(&self, dice: &mut Dice) -> Vec<String> {
        let mut lines = Vec::new();
        for &id in &self.active {
            let most = (1 << self.b) - 1;
            lines.push(write_at(4 * id, dice.below(most) + 1));
        }
        for context in 0..self.c.min(3) {
            for word in 0..=self.n / 32 {
                let value = if dice.chance(75) { TOP } else { dice.any_size(32) };
                lines.push(write_at(enables_offset(context, word), value));
            }
        }
        lines
    }

    /// Every source waits until the clock's end, one for each end of a bucket
    /// and the rest for any time; then all are claimed.
    pub fn waits(&self, dice: &mut Dice) -> Vec<String> {
        let most = (1 << self.b) - 1;
        let mut lines: Vec<String> = (1..=self.n).map(|id| write_at(4 * id, dice.below(most) + 1)).collect();
        lines.extend((0..=self.n / 32).map(|word| write_at(enables_offset(0, word), TOP)));
        let mut waits = bucket_ends();
        waits.resize_with(self.n as usize, || dice.any_size(32));
        waits.sort_by(|one, other| other.cmp(one));
        let mut clock = 0;
        for (id, wait) in dice.shuffled(1..=self.n).into_iter().zip(waits) {
            lines.extend([format!("T {}", TOP - wait - clock), format!("L {id} 1")]);
            clock = TOP - wait;
        }
        lines.extend((0..self.n).map(|_| read_at(claim_offset(0))));
        lines
    }

    /// One line of everyday traffic; a few in a hundred are to be refused.
    pub fn traffic(&self, dice: &mut Dice) -> String {
        let context = self.context(dice);
        match dice.below(100) {
            0..=31 => self.line_change(dice),
            32..=44 => advance(dice),
            45..=62 => read_at(claim_offset(context)),
            63..=75 => write_at(claim_offset(context), self.source(dice)),
            76 => write_at(claim_offset(context), self.foreign_value(dice)),
            77..=80 => write_at(4 * self.source(dice), any_priority(dice)),
            81..=83 => write_at(threshold_offset(context), any_priority(dice)),
            84..=85 => self.enable(dice, context),
            86..=91 => self.look(dice, context),
            92..=96 => format!("N {context}"),
            _ => self.refused(dice),
        }
    }

    pub fn line_change(&self, dice: &mut Dice) -> String {
        format!("L {} {}", self.source(dice), dice.below(2))
    }

    fn enable(&self, dice: &mut Dice, context: u64) -> String {
        let word = dice.below(self.n / 32 + 1);
        let value = dice.pick(&[TOP, TOP, TOP - 1, 0, 1, 0x8000_0000, 0x5555_5555, 0xAAAA_AAAA]);
        write_at(enables_offset(context, word), value)
    }

    fn look(&self, dice: &mut Dice, context: u64) -> String {
        let word = dice.below(self.n / 32 + 2);
        let priority = 4 * self.source(dice);
        let pending = 0x1000 + 4 * word;
        read_at(dice.pick(&[pending, pending, enables_offset(context, word), threshold_offset(context), priority]))
    }

    /// A line that is readable and mostly refused for what it asks.
    pub fn refused(&self, dice: &mut Dice) -> String {
        let value = dice.any_size(32);
        match dice.below(8) {
            0 | 1 => format!("L {} {}", dice.pick(&[0, self.n + 1, LAST_SOURCE + 1, 255, 256, TOP]), dice.below(2)),
            2 => format!("N {}", dice.pick(&[self.c, self.c + 1, MOST_CONTEXTS, MOST_CONTEXTS + 1, TOP])),
            3 => format!("T {}", dice.pick(&[TOP, TOP - 1, TOP - 5])),
            4 | 5 => read_at(self.strange_offset(dice)),
            _ => write_at(self.strange_offset(dice), value),
        }
    }

    /// An offset at the edge of something, beside everything, or anywhere.
    pub fn strange_offset(&self, dice: &mut Dice) -> u64 {
        // Far ones are those that a cut number would bring back onto the board.
        let far = (1 << dice.below(13)) + dice.below(self.c);
        let context = dice.pick(&[0, self.c - 1, self.c, MOST_CONTEXTS, 15871, far, far]);
        let word = dice.pick(&[0, self.n / 32, self.n / 32 + 1, MOST_WORDS, MOST_WORDS + 1, 31]);
        let beyond = 4 * LAST_SOURCE + 4;
        let places = [
            dice.pick(&[0, 4 * self.n, 4 * self.n + 4, 4 * LAST_SOURCE, beyond, beyond + 4 * self.n, 0xFFC]),
            dice.pick(&[0x1000, 0x1000 + 4 * word, 0x107C, 0x1080, 0x1FFC]),
            enables_offset(context, word),
            dice.pick(&[0x1F_1FFC, 0x1F_2000, 0x1F_FFFC]),
            threshold_offset(context),
            claim_offset(context),
            threshold_offset(context) + dice.pick(&[8, 12, 0x80, 0xFFC]),
            dice.pick(&[0x3FF_F000, 0x3FF_F004, 0x3FF_FFF8, 0x3FF_FFFC, 0x3FF_FFFD, 0x3FF_FFFF]),
            dice.pick(&[0x400_0000, 0x400_0001, 0x420_0004, 0xFFFF_FFFC, 0xFFFF_FFFF]),
            dice.below(0x400_0000),
            dice.any_size(32),
        ];
        let slant = if dice.chance(20) { dice.below(4) } else { 0 };
        (dice.pick(&places) + slant).min(TOP)
    }

    /// A value that names a source only to one who cuts it short, or none.
    pub fn foreign_value(&self, dice: &mut Dice) -> u64 {
        let id = self.source(dice);
        let high = dice.pick(&[0x80, 0x100, 0x200, 0x8000, 0x1_0000, 0x100_0000, 0x8000_0000, 0xFFFF_FF00]);
        let outside = dice.pick(&[0, self.n + 1, LAST_SOURCE, LAST_SOURCE + 1, 255, 256, TOP]);
        dice.pick(&[id, id, id + high, id + high, outside])
    }
}

fn advance(dice: &mut Dice) -> String {
    let ticks = match dice.below(10) {
        0 => 0,
        1..=5 => dice.below(9),
        6..=8 => dice.any_size(12),
        _ => dice.any_size(24),
    };
    format!("T {ticks}")
}

fn any_priority(dice: &mut Dice) -> u64 {
    match dice.below(10) {
        0 => dice.any_size(32),
        1 => 0,
        2 => TOP,
        _ => dice.below(1 << MOST_BITS),
    }
}
