//! Lines that are not as the language wants them: spoiled commands, and first
//! lines of every sort. A few come out readable after all; the model decides.

use crate::field::FIELDS;
use crate::gen::{Board, Dice, TOP};
use crate::limits::{CONTEXT_ROOM, LAST_SOURCE, LONGEST_LINE, MOST_BITS, MOST_CONTEXTS, SOURCE_ROOM, WORD_ROOM};

/// A readable line with one thing wrong.
pub fn spoiled(dice: &mut Dice, board: &Board, line: &str) -> Vec<u8> {
    match dice.below(6) {
        0 => spoiled_spaces(dice, line).into_bytes(),
        1 => spoiled_bytes(dice, line),
        2 => spoiled_words(dice, line).into_bytes(),
        3 => spoiled_number(dice).into_bytes(),
        4 => spoiled_offset(dice).into_bytes(),
        _ => match dice.below(3) {
            0 => too_long(dice, line),
            1 => board.first_line().into_bytes(),
            _ => Vec::new(),
        },
    }
}

fn spoiled_spaces(dice: &mut Dice, line: &str) -> String {
    match dice.below(7) {
        0 => format!("{line} "),
        1 => format!(" {line}"),
        2 => line.replacen(' ', "  ", 1),
        3 => line.replace(' ', "\t"),
        4 => line.replace(' ', ""),
        5 => format!("{line}\r"),
        _ => format!("{line}\t"),
    }
}

/// A byte put in, taken out or changed anywhere.
fn spoiled_bytes(dice: &mut Dice, line: &str) -> Vec<u8> {
    let mut bytes = line.as_bytes().to_vec();
    let at = dice.below(bytes.len() as u64) as usize;
    let odd = dice.pick(&[0, 0x0B, 0x0D, 0x1B, 0x7F, 0x80, 0xA0, 0xFF, b' ', b'0', b'9', b'A', b'a', b'.', b'_']);
    match dice.below(4) {
        0 => {
            bytes.remove(at);
        }
        1 => bytes[at] = odd,
        2 => bytes.insert(at, odd),
        _ => bytes.push(odd),
    }
    bytes
}

fn spoiled_words(dice: &mut Dice, line: &str) -> String {
    let (rest, last) = line.rsplit_once(' ').unwrap_or(("", line));
    match dice.below(8) {
        0 => rest.to_string(),
        1 => format!("{line} {last}"),
        2 => format!("{rest} 0{last}"),
        3 => format!("{rest} {}{last}", dice.pick(&['+', '-', '0', 'x', '\'', '"'])),
        4 => line.to_lowercase(),
        5 => format!("{}{}", dice.pick(&["X", "Q", "LL", "R W", "#", "r", "U", "1"]), &line[1..]),
        6 => dice.pick(&["L", "T", "R", "W", "N", "P", "L 1", "W 00000004", "T ", " ", "-"]).to_string(),
        _ => format!("{rest} {}", dice.pick(&["", "one", "1e3", "0x10", "1.0", "1,000", "l"])),
    }
}

/// Numbers that are too large, or written as no number is, where one belongs.
fn spoiled_number(dice: &mut Dice) -> String {
    let word = dice.pick(&[
        "4294967296",
        "4294967305",
        "9999999999",
        "18446744073709551616",
        "18446744073709551617",
        "340282366920938463463374607431768211457",
        "00",
        "01",
        "007",
        "-0",
        "+1",
        "",
    ]);
    match dice.below(6) {
        0 => format!("L {word} 1"),
        1 => format!("L 1 {}", dice.pick(&["2", "01", "00", "10", "4294967296", word])),
        2 => format!("L 0 {}", dice.pick(&["2", "true", word])),
        3 => format!("T {word}"),
        4 => format!("W 00000004 {word}"),
        _ => format!("N {word}"),
    }
}

fn spoiled_offset(dice: &mut Dice) -> String {
    let word = dice.pick(&[
        "0020000c", "0000000a", "0x200004", "0X200004", "200004", "0200004", "000200004", "100000004", "0020000G",
        "0020 004", "-0200004", "+0200004", "0020000/", "0020000:", "0020000@", "0020000`", "00200004H", "",
    ]);
    if dice.chance(60) { format!("R {word}") } else { format!("W {word} 1") }
}

/// Over the longest line, by one byte or by many, sometimes with a command as
/// its tail or its head, for whoever cuts lines into pieces.
fn too_long(dice: &mut Dice, line: &str) -> Vec<u8> {
    let over = LONGEST_LINE + 1;
    let lengths = [LONGEST_LINE, over, over, over + 1, 300, 511, 512, 513, 1023, 1024, 1025, 4095, 4096, 4097, 70_000];
    let length = dice.pick(&lengths);
    let filler = dice.pick(&[' ', '0', 'x', '1']);
    let fill = |count: usize| String::from(filler).repeat(count);
    match dice.below(4) {
        0 => fill(length),
        1 => fill(length) + line,
        2 => format!("{line}{}", fill(length - line.len())),
        _ => format!("T {}", fill(length - 2)),
    }
    .into_bytes()
}

/// First lines: made, refused with 1, unreadable.
pub fn first_lines(dice: &mut Dice, board: &Board) -> Vec<Vec<u8>> {
    let good = board.first_line();
    let readable = [good.clone(), largest(LAST_SOURCE, kinds_of(SOURCE_ROOM - 1))];
    let known = readable.into_iter().chain(refused_firsts(board)).chain(unreadable_firsts(board));
    let mut firsts: Vec<Vec<u8>> = known.map(String::into_bytes).collect();
    firsts.push(spoiled(dice, board, &good));
    firsts
}

fn kinds_of(count: usize) -> String {
    "lec".chars().cycle().take(count).collect()
}

/// A first line with the most contexts and bits.
fn largest(sources: impl std::fmt::Display, kinds: String) -> String {
    format!("P {sources} {MOST_CONTEXTS} {MOST_BITS} {kinds}")
}

/// A first line of that many bytes that asks for the most sources.
pub fn of_last_source(length: usize) -> String {
    let head = largest(LAST_SOURCE, String::new()).len();
    largest(LAST_SOURCE, kinds_of(length - head))
}

/// A first line of that many bytes that asks for as many sources as it has
/// kinds.
fn of_its_kinds(length: usize) -> String {
    let mut lines = (1..length).map(|count| largest(count, kinds_of(count)));
    lines.find(|line| line.len() == length).expect("a count of kinds for each length")
}

fn refused_firsts(board: &Board) -> Vec<String> {
    let Board { n, c, b, kinds, .. } = board;
    vec![
        format!("P 0 {c} {b} {kinds}"),
        format!("P {} {c} {b} {}", LAST_SOURCE + 1, kinds_of(SOURCE_ROOM)),
        format!("P {n} 0 {b} {kinds}"),
        format!("P {n} {} {b} {kinds}", MOST_CONTEXTS + 1),
        format!("P {n} {c} 0 {kinds}"),
        format!("P {n} {c} {} {kinds}", MOST_BITS + 1),
        format!("P {n} {c} {b} {kinds}l"),
        format!("P {} {c} {b} {kinds}", n + 1),
        format!("P {TOP} 1 1 l"),
        format!("P 1 {TOP} {TOP} l"),
        of_its_kinds(LONGEST_LINE),
    ]
}

fn unreadable_firsts(board: &Board) -> Vec<String> {
    let Board { n, c, b, kinds, .. } = board;
    let good = board.first_line();
    vec![
        // A byte too long, with a wrong count and with a wrong number.
        of_last_source(LONGEST_LINE + 1),
        of_its_kinds(LONGEST_LINE + 1),
        "P 4294967296 1 1 l".to_string(),
        "P 1 4294967297 1 l".to_string(),
        "P 1 1 4294967297 l".to_string(),
        format!("P {n} {c} {b} {kinds}x"),
        format!("P {n} {c} {b} {}", kinds.to_uppercase()),
        format!("P {n} {c} {b}"),
        format!("P {n} {c} {b} "),
        format!("P {n} {c} {b} -"),
        "P 1 1 1 ?00".to_string(),
        format!("P 0{n} {c} {b} {kinds}"),
        format!("P {n} {c} {b} {kinds} l"),
        format!("p {n} {c} {b} {kinds}"),
        format!(" {good}"),
        format!("{good}\r"),
        format!("{good}\0"),
        good.replacen(' ', "  ", 1),
        "P".to_string(),
        String::new(),
        "L 1 1".to_string(),
        "T 0".to_string(),
    ]
}

/// An `F` of the probe at the limits of its field: some readable, most not.
pub fn spoiled_put(dice: &mut Dice) -> Vec<u8> {
    let field = &FIELDS[dice.below(FIELDS.len() as u64) as usize];
    let (name, last) = (field.name, field.places - 1);
    let above = u128::from(field.limit) + 1;
    let beyond = format!("F enable {} 1", CONTEXT_ROOM * WORD_ROOM);
    match dice.below(14) {
        0 => format!("F {name} {last} {}", field.limit),
        1 | 2 => format!("F {name} {last} {above}"),
        3 => format!("F {name} {} 0", field.places),
        4 => format!("F {name} {} 1", dice.pick(&["4294967295", "4294967296", "-1", "00", "01", "", "x"])),
        5 => format!("F {name} 0 {}", dice.pick(&["00", "01", "-1", "+1", "", "x", "18446744073709551616"])),
        6 => format!("F {} 0 1", name.to_uppercase()),
        7 => format!("F {name}s 0 1"),
        8 => format!("F {} 0 1", dice.pick(&["", "source", "N", "bucket", "bucket-ticks", "open", "bit"])),
        9 => format!("F {name} 0"),
        10 => format!("F {name} 0 1 1"),
        11 => format!("F {name} 0 1 "),
        12 => format!("F  {name} 0 1"),
        _ => dice.pick(&["F", "F ", "f clock 0 1", "F clock 1 0", "F line 1 2", &beyond]).to_string(),
    }
    .into_bytes()
}

/// The probe's own letters with something missing or too much.
pub fn spoiled_report(dice: &mut Dice) -> Vec<u8> {
    let letter = dice.pick(&["M", "A", "B", "E", "S", "V"]);
    let tail = dice.pick(&["", " ", " 0", " 1", " 500", " 0500", " 4294967296", " 1 1", "\r", "\t", "  500", " -1"]);
    match dice.below(6) {
        0 => format!(" {letter}{tail}"),
        1 => format!("{}{tail}", letter.to_lowercase()),
        _ => format!("{letter}{tail}"),
    }
    .into_bytes()
}

/// The probe's ways to make a state, right and wrong.
pub fn make_form(dice: &mut Dice, board: &Board) -> Vec<u8> {
    match dice.below(8) {
        0 => {
            let firsts = first_lines(dice, board);
            dice.pick(&firsts)
        }
        1 => format!("P {} {} {} -", dice.pick(&[0, 1, board.n]), board.c, board.b).into_bytes(),
        2 => odd_kinds(dice, board).into_bytes(),
        3 => long_kinds(dice).into_bytes(),
        4 | 5 => {
            let bytes = dice.pick(&["00", "0003", "000102", "02", "03", "80", "FF", "0001FF", "000000"]);
            format!("P {} 1 1 ?{bytes}", bytes.len() / 2).into_bytes()
        }
        _ => {
            let odd = ["?", "?0", "?000", "?0a", "?0A0", "?00 ", "? 00", "?00l", "l?00", "--", "-l", "l-", "-?00", "?-", "??", "?0x"];
            format!("P 1 1 1 {}", dice.pick(&odd)).into_bytes()
        }
    }
}

/// The board's kinds as hex, one of them perhaps too large or missing.
fn odd_kinds(dice: &mut Dice, board: &Board) -> String {
    let mut kinds: Vec<u64> = board.kinds.chars().map(|letter| "lec".find(letter).unwrap_or(0) as u64).collect();
    let at = dice.below(board.n) as usize;
    match dice.below(4) {
        0 => kinds[at] = dice.pick(&[3, 4, 128, 255]),
        1 => kinds.push(0),
        _ => {}
    }
    let digits: String = kinds.iter().map(|kind| format!("{kind:02X}")).collect();
    format!("P {} {} {} ?{digits}", board.n, board.c, board.b)
}

/// Lists of odd kinds that fill the longest line, which can be made, and of
/// just over.
fn long_kinds(dice: &mut Dice) -> String {
    let fits = (LONGEST_LINE - "P 100 8 5 ?".len()) as u64 / 2;
    let most = MOST_CONTEXTS;
    let shapes = [(fits, most), (fits, most), (fits, 10), (fits - 1, most), (fits + 1, most), (LAST_SOURCE, most)];
    let (n, c) = dice.pick(&shapes);
    let digits: String = (0..n).map(|_| format!("0{}", dice.below(3))).collect();
    format!("P {n} {c} {MOST_BITS} ?{digits}")
}
