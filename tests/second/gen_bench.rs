//! Long scripts to measure programs with. Each is of one kind of work, on the
//! largest board, with every source enabled in every context.

use crate::gen::{Board, Dice, TOP, claim_offset, enables_offset, read_at, threshold_offset, write_at};
use crate::limits::{LAST_SOURCE, MOST_BITS, MOST_CONTEXTS, MOST_WORDS};

/// The lines of one turn of the work.
type Turn = fn(&mut Dice, &Board) -> Vec<String>;

const KINDS: [(&str, Turn); 4] = [("claims", claims), ("storm", storm), ("idle", idle), ("config", config)];

/// A script of that kind of work and that many lines.
pub fn script(kind: &str, lines: u64) -> Result<Vec<u8>, String> {
    let (_, turn) = KINDS.iter().find(|(name, _)| *name == kind).ok_or(format!("{kind}: no kind of work"))?;
    let mut dice = Dice::new(1);
    let board = Board::new(&mut dice, LAST_SOURCE, MOST_CONTEXTS, MOST_BITS);
    let mut script = begin(&board);
    while (script.len() as u64) < lines {
        script.extend(turn(&mut dice, &board));
    }
    script.truncate(lines as usize);
    Ok((script.join("\n") + "\n").into_bytes())
}

fn begin(board: &Board) -> Vec<String> {
    let most = (1 << board.b) - 1;
    let priorities = (1..=board.n).map(|id| write_at(4 * id, 1 + id % most));
    let words = |context| (0..MOST_WORDS).map(move |word| write_at(enables_offset(context, word), TOP));
    let enables = (0..board.c).flat_map(words);
    [board.first_line()].into_iter().chain(priorities).chain(enables).collect()
}

/// One source after the other is raised, claimed and completed.
fn claims(dice: &mut Dice, board: &Board) -> Vec<String> {
    let (id, context) = (dice.below(board.n) + 1, dice.below(board.c));
    vec![
        format!("L {id} 1"),
        format!("T {}", dice.below(20)),
        read_at(claim_offset(context)),
        format!("L {id} 0"),
        write_at(claim_offset(context), id),
    ]
}

/// All sources rise at once, are claimed one by one, and are completed.
fn storm(dice: &mut Dice, board: &Board) -> Vec<String> {
    let claim = claim_offset(dice.below(board.c));
    let rises = (1..=board.n).map(|id| format!("L {id} 1"));
    let claims = (1..=board.n).flat_map(|_| [read_at(claim), "T 1".to_string()]);
    let ends = (1..=board.n).flat_map(|id| [format!("L {id} 0"), write_at(claim, id)]);
    rises.chain(claims).chain(ends).collect()
}

/// Time passes and contexts look, and nothing is there.
fn idle(dice: &mut Dice, board: &Board) -> Vec<String> {
    let context = dice.below(board.c);
    let pending = 0x1000 + 4 * dice.below(MOST_WORDS);
    vec![format!("T {}", dice.below(20)), format!("N {context}"), read_at(claim_offset(context)), read_at(pending)]
}

/// Priorities, enables and thresholds are written and read back.
fn config(dice: &mut Dice, board: &Board) -> Vec<String> {
    let context = dice.below(board.c);
    let priority = 4 * (dice.below(board.n) + 1);
    let registers = [priority, enables_offset(context, dice.below(MOST_WORDS)), threshold_offset(context)];
    registers.iter().flat_map(|&offset| [write_at(offset, dice.any_size(32)), read_at(offset)]).collect()
}
