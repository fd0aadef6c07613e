//! How a replay program behaves between pipes: answers that come at once,
//! input in pieces of every size, readers that go away, lines of any length.
//! Each test prints a line of its own.

use crate::child::{self, Ended};
use crate::compare::first_difference;
use crate::gen::{Board, Dice};
use crate::limits::{LONGEST_LINE, MOST_BITS};
use crate::{replay, spoil, words};
use std::fs::{self, File};
use std::io::{BufRead, BufReader, Write};
use std::os::unix::process::ExitStatusExt;
use std::process::{ChildStdin, ChildStdout, Stdio};
use std::sync::mpsc::{self, Receiver};
use std::thread;
use std::time::Duration;

/// For one answer, and for the end of an ordinary run.
const PATIENCE: Duration = Duration::from_secs(30);
/// For the end of a run that reads no more.
const AT_ONCE: Duration = Duration::from_secs(10);
/// For the huge line, on a slow host with an emulator.
const LONG_PATIENCE: Duration = Duration::from_secs(600);
/// Between two pieces, so that most of them are read apart.
const PAUSE: Duration = Duration::from_micros(50);
const COMMANDS_ANSWERED: usize = 200;
const HUGE_LINE: usize = 300_000_000;
const MOST_KILOBYTES: u64 = 64_000;
const SIGPIPE: i32 = 13;

type Program = [String];
type Outcome = Result<(), String>;

const TESTS: [(&str, fn(&Program) -> Outcome); 18] = [
    ("every answer comes before the next line is written", co_process),
    ("an unreadable first line ends the run at once, the input still open", |p| ends_at_once(p, "T 1", "refused 11\n")),
    ("a refused shape ends the run at once, the input still open", |p| ends_at_once(p, &too_many_bits(), "refused 1\n")),
    ("a script in one piece", |p| in_pieces(p, &mixed_script(400_000), &[usize::MAX])),
    ("a script in single bytes", |p| in_pieces(p, &mixed_script(3_000), &[1])),
    ("a script cut at random", |p| in_pieces(p, &mixed_script(400_000), &random_lengths())),
    ("a script in pieces about as long as a line", |p| in_pieces(p, &mixed_script(400_000), &about_a_line())),
    ("a script in pieces about 65536 bytes", |p| in_pieces(p, &mixed_script(400_000), &[65536, 65535, 65537, 65536])),
    ("line feeds at and beside round lengths", round_lengths),
    ("the reader goes away", closed_output),
    ("the reader goes away, the signal ignored", closed_output_without_signal),
    ("a line of 300,000,000 bytes", huge_line),
    ("a directory as input", directory),
    ("every byte value", every_byte),
    ("lines about the longest", long_lines),
    ("a last line without line feed", no_last_line_feed),
    ("empty input", |p| prints(p, b"", "refused 11\n")),
    ("a line feed alone", |p| prints(p, b"\n", "refused 11\n")),
];

pub fn run(program: &Program) -> Outcome {
    let mut failed = 0;
    for (name, test) in TESTS {
        match test(program) {
            Ok(()) => println!("ok pipe: {name}"),
            Err(message) => {
                println!("FAILED pipe: {name}: {message}");
                failed += 1;
            }
        }
    }
    if failed == 0 { Ok(()) } else { Err(format!("{failed} pipe tests failed")) }
}

// ---- what the tests share ----

/// The program prints for the input what is expected.
fn prints(program: &Program, input: &[u8], expected: &str) -> Outcome {
    let feed = |mut pipe: ChildStdin, _| drop(pipe.write_all(input));
    agrees(expected, child::run(program, feed, PATIENCE)?)
}

/// The program prints for the input what the model prints.
fn as_the_model(program: &Program, input: &[u8]) -> Outcome {
    prints(program, input, &replay::run(input)?)
}

fn agrees(expected: &str, ended: Ended) -> Outcome {
    if !ended.in_time {
        return Err("does not end".to_string());
    }
    if let Some(found) = first_difference(expected.as_bytes(), &ended.output) {
        return Err(found);
    }
    ended.status.code().map(|_| ()).ok_or(format!("ended by {}", ended.status))
}

/// A script of at least so many bytes, with a spoiled line among twelve.
fn mixed_script(bytes: usize) -> Vec<u8> {
    let mut dice = Dice::new(bytes as u64);
    let board = Board::new(&mut dice, 33, 3, 3);
    let mut script = board.first_line().into_bytes();
    for line in board.setup(&mut dice) {
        script.extend([b"\n", line.as_bytes()].concat());
    }
    while script.len() < bytes {
        let line = board.traffic(&mut dice);
        let spoil = dice.below(12) == 0;
        let line = if spoil { spoil::spoiled(&mut dice, &board, &line) } else { line.into_bytes() };
        // One line alone does not fill a script.
        if line.len() < bytes / 4 {
            script.extend([b"\n", &line[..]].concat());
        }
    }
    script.push(b'\n');
    script
}

// ---- answers at once ----

fn co_process(program: &Program) -> Outcome {
    let mut dice = Dice::new(1);
    let board = Board::new(&mut dice, 9, 2, 3);
    let first = board.first_line();
    let mut model = replay::make(first.as_bytes()).map_err(|number| format!("the model refuses with {number}"))?;
    let mut lines = vec![(first, None)];
    let mut answered = 0;
    while answered < COMMANDS_ANSWERED {
        let line = board.traffic(&mut dice);
        let answer = replay::obey(&mut model, line.as_bytes());
        answered += usize::from(answer.is_some());
        lines.push((line, answer));
    }
    let last = words::totals(&model).map_err(|number| format!("totals refused with {number}"))?;
    converse(program, &lines, &last)
}

/// After a first line that makes no board there is nothing to read: the
/// program ends with status 0, though its writer still holds the pipe.
fn ends_at_once(program: &Program, first: &str, expected: &str) -> Outcome {
    let mut child = child::start(program, Stdio::piped())?;
    let mut pipe = child.stdin.take().expect("the input is a pipe");
    say(&mut pipe, first)?;
    let ended = child::end(child, AT_ONCE)?;
    drop(pipe);
    if !ended.in_time {
        let printed = ended.output.escape_ascii();
        return Err(format!("does not end within {AT_ONCE:?} while the input is open; printed '{printed}'"));
    }
    if !ended.status.success() {
        return Err(format!("ended by {}", ended.status));
    }
    agrees(expected, ended)
}

fn too_many_bits() -> String {
    format!("P 1 1 {} l", MOST_BITS + 1)
}

/// Writes each line after the answer to the one before has come; then closes
/// the input, upon which the last line must come.
fn converse(program: &Program, lines: &[(String, Option<String>)], last: &str) -> Outcome {
    let mut child = child::start(program, Stdio::piped())?;
    let mut pipe = child.stdin.take().expect("the input is a pipe");
    let answers = lines_of(child.stdout.take().expect("the output is a pipe"));
    let mut outcome = lines.iter().zip(1..).try_for_each(|((line, answer), number)| {
        say(&mut pipe, line)?;
        let heard = answer.as_ref().map_or(Ok(()), |text| hear(&answers, text));
        heard.map_err(|message| format!("line {number}, '{line}': {message}"))
    });
    drop(pipe);
    outcome = outcome.and_then(|()| hear(&answers, last));
    let (_, in_time) = child::wait(&mut child, PATIENCE)?;
    outcome.and(if in_time { Ok(()) } else { Err("does not end".to_string()) })
}

fn say(pipe: &mut ChildStdin, line: &str) -> Outcome {
    pipe.write_all(format!("{line}\n").as_bytes()).map_err(|error| error.to_string())
}

fn hear(answers: &Receiver<String>, expected: &str) -> Outcome {
    match answers.recv_timeout(PATIENCE) {
        Ok(line) if line == expected => Ok(()),
        Ok(line) => Err(format!("expected '{expected}', actual '{line}'")),
        Err(_) => Err(format!("no answer while the input is open, expected '{expected}'")),
    }
}

/// The lines that a program writes, as they come.
fn lines_of(output: ChildStdout) -> Receiver<String> {
    let (sender, receiver) = mpsc::channel();
    thread::spawn(move || {
        let lines = BufReader::new(output).lines().map_while(Result::ok);
        // Nobody listens any more once a test has failed.
        lines.for_each(|line| drop(sender.send(line)));
    });
    receiver
}

// ---- input in pieces ----

/// Feeds the script in pieces whose lengths come round in turn.
fn in_pieces(program: &Program, script: &[u8], lengths: &[usize]) -> Outcome {
    let feed = |mut pipe: ChildStdin, _| {
        let mut rest = script;
        for &length in lengths.iter().cycle() {
            let (piece, later) = rest.split_at(length.min(rest.len()));
            if piece.is_empty() || pipe.write_all(piece).is_err() {
                return;
            }
            rest = later;
            thread::sleep(PAUSE);
        }
    };
    agrees(&replay::run(script)?, child::run(program, feed, PATIENCE)?)
}

fn about_a_line() -> [usize; 3] {
    [LONGEST_LINE, LONGEST_LINE + 1, LONGEST_LINE + 2]
}

fn random_lengths() -> Vec<usize> {
    let mut dice = Dice::new(7);
    (0..1000).map(|_| dice.any_size(12) as usize + 1).collect()
}

/// Line feeds where the buffer of a program may end, and one byte aside.
fn round_lengths(program: &Program) -> Outcome {
    for round in [256, 512, 1024, 4096, 8192, 65536, 131_072] {
        for length in [round - 1, round, round + 1] {
            let script = [&of_length(length)[..], b"R 00001000\nL 9 1\nT 3"].concat();
            as_the_model(program, &script).map_err(|message| format!("line feed at byte {length}: {message}"))?;
        }
    }
    Ok(())
}

/// A script whose last line feed is its byte number `length`.
fn of_length(length: usize) -> Vec<u8> {
    let read = b"R 00000004\n";
    let mut script = b"P 3 1 3 lec\nL 1 1\n".to_vec();
    while script.len() + read.len() < length {
        script.extend(read);
    }
    script.resize(length - 1, b'x');
    script.push(b'\n');
    script
}

// ---- a reader that goes away ----

fn closed_output(program: &Program) -> Outcome {
    let mut child = child::start(program, Stdio::piped())?;
    let mut pipe = child.stdin.take().expect("the input is a pipe");
    let script = [b"P 1 1 1 l\n".to_vec(), b"R 00000004\n".repeat(300_000)].concat();
    thread::scope(|scope| {
        scope.spawn(move || pipe.write_all(&script));
        thread::sleep(Duration::from_millis(50));
        drop(child.stdout.take());
        let (status, in_time) = child::wait(&mut child, PATIENCE)?;
        match status.signal() {
            _ if !in_time => Err("does not end".to_string()),
            None | Some(SIGPIPE) => Ok(()),
            Some(_) => Err(format!("ended by {status}")),
        }
    })
}

/// The same where no signal comes, and only the write tells.
fn closed_output_without_signal(program: &Program) -> Outcome {
    let ignoring = ["sh", "-c", "trap '' PIPE; exec \"$@\"", "sh"].map(String::from);
    closed_output(&[&ignoring, program].concat())
}

// ---- odd inputs ----

/// One unreadable line, made while it is written; its program keeps little.
fn huge_line(program: &Program) -> Outcome {
    let (sender, peak) = mpsc::channel();
    let feed = |mut pipe: ChildStdin, id| {
        let before_last_byte = feed_zeros(&mut pipe, HUGE_LINE - 1).map(|()| peak_kilobytes(id));
        let _ = sender.send(before_last_byte.ok().flatten());
        let _ = pipe.write_all(b"0\nR 00000004\n");
    };
    let expected = "refused 11\nR 0\nclock 0 claims 0 waited 0 open 0\n";
    agrees(expected, child::run(program, feed, LONG_PATIENCE)?)?;
    match peak.recv() {
        // Off x86-64 the memory is that of an emulator.
        _ if cfg!(not(target_arch = "x86_64")) => Ok(()),
        Ok(Some(kilobytes)) if kilobytes < MOST_KILOBYTES => Ok(()),
        Ok(Some(kilobytes)) => Err(format!("takes {kilobytes} kB of memory")),
        _ => Err("the memory it takes cannot be seen".to_string()),
    }
}

fn feed_zeros(pipe: &mut ChildStdin, count: usize) -> std::io::Result<()> {
    pipe.write_all(b"P 1 1 1 l\n")?;
    let piece = [b'0'; 65536];
    (0..count / piece.len()).try_for_each(|_| pipe.write_all(&piece))?;
    pipe.write_all(&piece[..count % piece.len()])
}

/// The most memory that a process has had, as the system tells it.
fn peak_kilobytes(id: u32) -> Option<u64> {
    let status = fs::read_to_string(format!("/proc/{id}/status")).ok()?;
    let line = status.lines().find(|line| line.starts_with("VmHWM:"))?;
    line.split_whitespace().nth(1)?.parse().ok()
}

/// Reading a directory is an error, and what cannot be read is no input.
fn directory(program: &Program) -> Outcome {
    let input = File::open(".").map_err(|error| error.to_string())?;
    agrees("refused 11\n", child::end(child::start(program, Stdio::from(input))?, PATIENCE)?)
}

fn every_byte(program: &Program) -> Outcome {
    let mut script = b"P 1 1 1 l\n".to_vec();
    let places = ["*", "T 0*", "*T 0", "T*0", "T *", "R 0000000*", "L *", "L 1 *", "W 00000004 *", "N *", "* 1"];
    for byte in (0..=255).filter(|&byte| byte != b'\n') {
        for place in places {
            script.extend(place.bytes().map(|other| if other == b'*' { byte } else { other }));
            script.push(b'\n');
        }
    }
    as_the_model(program, &script)
}

/// The longest first line is read, and refused for its count of kinds; no
/// other line of such a length has a reading.
fn long_lines(program: &Program) -> Outcome {
    for (length, number) in (LONGEST_LINE - 1..).zip([1, 1, 11, 11]) {
        for end in ["", "\n", "\nT 0\n"] {
            let input = spoil::of_last_source(length) + end;
            let outcome = prints(program, input.as_bytes(), &format!("refused {number}\n"));
            outcome.map_err(|message| format!("{length} bytes: {message}"))?;
        }
    }
    let about = (LONGEST_LINE - 1..=LONGEST_LINE + 2).chain([511, 512, 513]);
    let later: String = about.map(|length| "T".repeat(length) + "\nN 0\n").collect();
    let expected = "refused 11\nN 0\n".repeat(7) + "clock 0 claims 0 waited 0 open 0\n";
    prints(program, format!("P 1 1 1 l\n{later}").as_bytes(), &expected)
}

fn no_last_line_feed(program: &Program) -> Outcome {
    let last = "clock 0 claims 0 waited 0 open 0\n";
    prints(program, b"P 1 1 1 l", last)?;
    prints(program, b"P 1 1 1 l\nR 00000004", &format!("R 0\n{last}"))?;
    prints(program, b"P 1 1 1 l\nR 0000000", &format!("refused 11\n{last}"))?;
    prints(program, b"P 1 1 1", "refused 11\n")
}
