//! The ways in which a line can be unreadable, and the ends that a script can
//! have: what the scripts of the gate are to reach of them.

use crate::gen::TOP;
use crate::limits::LONGEST_LINE;
use crate::words;

/// A name, and whether the bytes show it.
pub type Look = (&'static str, fn(&[u8]) -> bool);

/// Ways to be unreadable. A line counts for one only if no other applies, for
/// only then does it show that a program looks at it.
pub const REASONS: [Look; 21] = [
    ("empty", |line| line.is_empty()),
    ("too long", |line| line.len() > LONGEST_LINE),
    ("P after the first line", |line| line.starts_with(b"P ")),
    ("a carriage return", |line| line.contains(&b'\r')),
    ("a tab", |line| line.contains(&b'\t')),
    ("a NUL byte", |line| line.contains(&0)),
    ("a byte above 127", |line| line.iter().any(|&byte| byte > 127)),
    ("a space at the start", |line| line.starts_with(b" ")),
    ("a space at the end", |line| line.ends_with(b" ")),
    ("two spaces", |line| line.windows(2).any(|pair| pair == b"  ")),
    ("a small letter as first word", |line| {
        first(line).is_some_and(|word| !is_command(word) && is_command(&word.to_ascii_uppercase()))
    }),
    ("a first word of no command", |line| first(line).is_some_and(|word| !is_command(&word.to_ascii_uppercase()))),
    ("too few words", |line| places(line).is_some_and(|places| parts(line).len() < 1 + places.len())),
    ("too many words", |line| places(line).is_some_and(|places| parts(line).len() > 1 + places.len())),
    ("a needless zero", |line| number_words(line, |word| word.len() > 1 && word[0] == b'0')),
    ("a sign", |line| number_words(line, |word| matches!(word[0], b'+' | b'-'))),
    ("a number beyond 32 bits", |line| number_words(line, |word| is_large(word, 32))),
    ("a number beyond 64 bits", |line| number_words(line, |word| is_large(word, 64))),
    ("a level that is none", |line| in_places(line, 'v', |word| word != b"0" && word != b"1")),
    ("an offset of other than eight digits", |line| in_places(line, 'o', |word| word.len() != 8)),
    ("a small hex digit", |line| in_places(line, 'o', |word| word.iter().any(|byte| (b'a'..=b'f').contains(byte)))),
];

/// Ends of a script.
pub const ENDS: [Look; 5] = [
    ("nothing at all", |script| script.is_empty()),
    ("a line feed alone", |script| script == b"\n"),
    ("a line feed", |script| script.len() > 1 && script.ends_with(b"\n") && !script.ends_with(b"\n\n")),
    ("no line feed", |script| !script.is_empty() && !script.ends_with(b"\n")),
    ("an empty line", |script| script.ends_with(b"\n\n")),
];

/// The one way in which a line is unreadable, if it is one of the list.
pub fn reason(line: &[u8]) -> Option<&'static str> {
    let mut found = REASONS.iter().filter(|(_, applies)| applies(line));
    let (name, _) = found.next()?;
    if found.next().is_some() { None } else { Some(name) }
}

/// The words of a line; needless spaces have their own names.
fn parts(line: &[u8]) -> Vec<&[u8]> {
    line.split(|&byte| byte == b' ').filter(|word| !word.is_empty()).collect()
}

fn first(line: &[u8]) -> Option<&[u8]> {
    parts(line).first().copied()
}

fn is_command(word: &[u8]) -> bool {
    matches!(word, b"L" | b"T" | b"R" | b"W" | b"N" | b"P")
}

/// What follows the letter of a command: numbers, levels and offsets.
fn places(line: &[u8]) -> Option<&'static str> {
    match first(line)? {
        b"L" => Some("nv"),
        b"T" | b"N" => Some("n"),
        b"R" => Some("o"),
        b"W" => Some("on"),
        _ => None,
    }
}

fn in_places(line: &[u8], place: char, test: impl Fn(&[u8]) -> bool) -> bool {
    let words = parts(line);
    let kept = places(line).unwrap_or("").chars().zip(words.iter().skip(1));
    kept.filter(|(other, _)| *other == place).any(|(_, word)| test(word))
}

fn number_words(line: &[u8], test: impl Fn(&[u8]) -> bool) -> bool {
    in_places(line, 'n', test)
}

/// Digits that make a number of more than 32 bits, or of more than 64.
fn is_large(word: &[u8], bits: u32) -> bool {
    let plain = word[0] != b'0' && word.iter().all(u8::is_ascii_digit);
    let beyond_64 = words::number(word, u64::MAX).is_none();
    plain && if bits == 64 { beyond_64 } else { !beyond_64 && words::number(word, TOP).is_none() }
}
