//! Seeded scripts of the replay language. The remainder of the seed picks the
//! style, so that neighbouring seeds cover all styles.

use crate::gen::{Board, Dice, TOP, claim_offset, finish, read_at, write_at};
use crate::limits::{MOST_BITS, MOST_EXTRA};
use crate::spoil;

const STYLES: [fn(&mut Dice, u64) -> Lines; 11] = [
    ordinary,
    storm,
    edge_shapes,
    foreign_completions,
    end_of_clock,
    many_edges,
    unreadable,
    beginnings,
    strange_registers,
    waits_of_every_bucket,
    mixture,
];

type Lines = Vec<Vec<u8>>;

pub fn script(seed: u64) -> Vec<u8> {
    let mut dice = Dice::new(seed);
    let styles = STYLES.len() as u64;
    let lines = STYLES[(seed % styles) as usize](&mut dice, seed / styles);
    finish(&mut dice, lines)
}

fn begin(dice: &mut Dice, board: &Board) -> Lines {
    let mut lines = vec![board.first_line().into_bytes()];
    add(&mut lines, board.setup(dice));
    lines
}

fn add(lines: &mut Lines, more: Vec<String>) {
    lines.extend(more.into_iter().map(String::into_bytes));
}

fn add_traffic(dice: &mut Dice, board: &Board, lines: &mut Lines, count: u64) {
    add(lines, (0..count).map(|_| board.traffic(dice)).collect());
}

fn some(dice: &mut Dice, least: u64, most: u64) -> u64 {
    least + dice.below(most - least + 1)
}

fn ordinary(dice: &mut Dice, _: u64) -> Lines {
    let board = Board::any(dice);
    let mut lines = begin(dice, &board);
    let count = some(dice, 40, 350);
    add_traffic(dice, &board, &mut lines, count);
    lines
}

/// Waves: many lines go high, time passes, many claims, many completions.
fn storm(dice: &mut Dice, _: u64) -> Lines {
    let board = Board::any(dice);
    let mut lines = begin(dice, &board);
    let width = board.n.min(40);
    let first = 1 + dice.below(board.n - width + 1);
    let sources: Vec<u64> = (first..first + width).collect();
    add(&mut lines, sources.iter().map(|id| write_at(4 * id, dice.below(1 << MOST_BITS))).collect());
    for _ in 0..some(dice, 1, 3) {
        add(&mut lines, sources.iter().map(|id| format!("L {id} 1")).collect());
        add(&mut lines, vec![format!("T {}", dice.any_size(16))]);
        let claims = (0..width).map(|_| read_at(claim_offset(board.context(dice))));
        add(&mut lines, claims.collect());
        add_traffic(dice, &board, &mut lines, 6);
        let completions = sources.iter().map(|&id| write_at(claim_offset(board.context(dice)), id));
        add(&mut lines, completions.collect());
        add(&mut lines, sources.iter().filter(|&&id| id % 3 > 0).map(|id| format!("L {id} 0")).collect());
    }
    lines
}

fn edge_shapes(dice: &mut Dice, _: u64) -> Lines {
    let board = Board::at_the_edge(dice);
    let mut lines = begin(dice, &board);
    for _ in 0..some(dice, 40, 250) {
        let line = match dice.below(10) {
            0 => board.refused(dice),
            1 => read_at(0x1000 + 4 * (board.n / 32)),
            2 => format!("L {} {}", board.n, dice.below(2)),
            3 => write_at(claim_offset(board.c - 1), board.n),
            _ => board.traffic(dice),
        };
        add(&mut lines, vec![line]);
    }
    lines
}

fn foreign_completions(dice: &mut Dice, _: u64) -> Lines {
    let board = Board::any(dice);
    let mut lines = begin(dice, &board);
    for _ in 0..some(dice, 20, 100) {
        add_traffic(dice, &board, &mut lines, 2);
        let (claimer, other) = (board.context(dice), dice.below(board.c + 1));
        let value = board.foreign_value(dice);
        add(&mut lines, vec![read_at(claim_offset(claimer)), write_at(claim_offset(other), value)]);
    }
    lines
}

/// Brings the clock to its end in one leap or two, and stays there.
fn end_of_clock(dice: &mut Dice, _: u64) -> Lines {
    let board = Board::any(dice);
    let mut lines = begin(dice, &board);
    let raise = |dice: &mut Dice| format!("L {} 1", board.source(dice));
    let early = some(dice, 0, 4);
    add(&mut lines, (0..early).map(|_| raise(dice)).collect());
    let left = dice.pick(&[0, 0, 1, 5, 100, 5000]);
    let leap = if dice.chance(50) { 0 } else { dice.any_size(31) };
    add(&mut lines, vec![format!("T {leap}"), raise(dice), format!("T {}", TOP - left - leap)]);
    for _ in 0..some(dice, 40, 200) {
        let ticks = dice.pick(&[0, 1, 5, 6, left, left + 1, TOP]);
        let line = if dice.chance(15) { format!("T {ticks}") } else { board.traffic(dice) };
        add(&mut lines, vec![line]);
    }
    lines
}

/// A counting source with edges up to and past what it can count; half of the
/// scripts draw them all out again.
fn many_edges(dice: &mut Dice, turn: u64) -> Lines {
    let mut board = Board::small(dice);
    let id = board.n;
    board.kinds.pop();
    board.kinds.push('c');
    let mut lines = begin(dice, &board);
    add(&mut lines, vec![write_at(0x2000, TOP), write_at(4 * id, dice.below(2))]);
    let edges = some(dice, MOST_EXTRA - 2, MOST_EXTRA + 5);
    for edge in 0..edges {
        add(&mut lines, vec![format!("L {id} 1"), format!("L {id} 0")]);
        if edge == 3 || dice.chance(2) {
            add(&mut lines, vec![read_at(claim_offset(0)), format!("T {}", dice.below(5))]);
        }
    }
    add(&mut lines, vec![write_at(4 * id, TOP)]);
    let drawn = if turn % 2 == 0 { edges + 2 } else { 5 };
    for _ in 0..drawn {
        add(&mut lines, vec![read_at(claim_offset(0)), write_at(claim_offset(0), id)]);
    }
    add_traffic(dice, &board, &mut lines, 30);
    lines
}

fn unreadable(dice: &mut Dice, _: u64) -> Lines {
    let board = Board::any(dice);
    let mut lines = begin(dice, &board);
    for _ in 0..some(dice, 40, 200) {
        add_traffic(dice, &board, &mut lines, 1);
        let line = board.traffic(dice);
        lines.push(spoil::spoiled(dice, &board, &line));
    }
    lines
}

/// First lines of every sort, with traffic behind that a refused one must hush.
fn beginnings(dice: &mut Dice, turn: u64) -> Lines {
    let board = Board::any(dice);
    let firsts = spoil::first_lines(dice, &board);
    // The first two turns are empty input and an empty line alone.
    let choice = turn as usize % (firsts.len() + 2);
    if choice < 2 {
        return vec![Vec::new(); choice];
    }
    let mut lines = vec![firsts[choice - 2].clone()];
    if dice.chance(20) {
        return lines;
    }
    add(&mut lines, board.setup(dice));
    let count = some(dice, 40, 80);
    add_traffic(dice, &board, &mut lines, count);
    lines
}

fn strange_registers(dice: &mut Dice, _: u64) -> Lines {
    let board = Board::any(dice);
    let mut lines = begin(dice, &board);
    for _ in 0..some(dice, 60, 250) {
        let offset = board.strange_offset(dice);
        let value = dice.any_size(32);
        let line = match dice.below(4) {
            0 => board.traffic(dice),
            1 => write_at(offset, value),
            _ => read_at(offset),
        };
        add(&mut lines, vec![line]);
    }
    lines
}

fn waits_of_every_bucket(dice: &mut Dice, _: u64) -> Lines {
    let board = Board::of_bucket_ends(dice);
    let mut lines = vec![board.first_line().into_bytes()];
    add(&mut lines, board.waits(dice));
    add_traffic(dice, &board, &mut lines, 20);
    lines
}

fn mixture(dice: &mut Dice, _: u64) -> Lines {
    let board = if dice.chance(50) { Board::at_the_edge(dice) } else { Board::any(dice) };
    let mut lines = begin(dice, &board);
    for _ in 0..some(dice, 50, 300) {
        let line = board.traffic(dice);
        match dice.below(12) {
            0 => lines.push(spoil::spoiled(dice, &board, &line)),
            1 => add(&mut lines, vec![board.refused(dice)]),
            2 => add(&mut lines, vec![write_at(claim_offset(board.context(dice)), board.foreign_value(dice))]),
            3 => add(&mut lines, vec![read_at(board.strange_offset(dice))]),
            _ => lines.push(line.into_bytes()),
        }
    }
    lines
}
