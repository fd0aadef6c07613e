//! The worked example and the examples on each side of a line of document 01,
//! with the outputs that the document gives, and the readings of replay's
//! lines; and that the account notices what is wrong with a run.

use crate::account::{self, Event};
use crate::limits::{CONTEXT_ROOM, LAST_SOURCE, LONGEST_LINE, MOST_BITS, MOST_CONTEXTS, SOURCE_ROOM, WORD_ROOM};
use crate::model::Controller;
use crate::spoil;
use crate::{PROBE, REPLAY};

/// What it shows, the input, the output.
type Example = (&'static str, String, String);

/// Three sources that drop edges, two contexts, three bits; all enabled.
const BOARD: &str = "P 3 2 3 eee/W 00002000 14/W 00002080 14/";

pub fn run() -> Result<(), String> {
    let mut probes = claims_and_notifications();
    probes.extend(completions());
    probes.extend(buckets());
    probes.extend(limits());
    probes.push(percentiles());
    probes.extend(probe_forms());
    let long_lines = vec![long_first_line(LONGEST_LINE, 1), long_first_line(LONGEST_LINE + 1, 11)];
    let replays = [replay_example(), long_lines, replay_forms()].concat();
    let mut failed = 0;
    for (language, examples) in [(REPLAY, &replays), (PROBE, &probes)] {
        for (name, input, output) in examples {
            let actual = (language.run)(input.as_bytes())?;
            if actual != *output {
                eprintln!("{name}: expected\n{output}actual\n{actual}");
                failed += 1;
            }
        }
    }
    account_notices()?;
    println!("{} examples, {failed} failed", replays.len() + probes.len());
    if failed == 0 { Ok(()) } else { Err("selftest failed".to_string()) }
}

/// An example whose lines are parted by slashes.
fn example(name: &'static str, input: &str, output: &str) -> Example {
    let lines = |text: &str| text.replace('/', "\n");
    (name, lines(input), lines(output))
}

fn on_board(name: &'static str, input: &str, output: &str) -> Example {
    example(name, &format!("{BOARD}{input}"), output)
}

fn replay_example() -> Vec<Example> {
    let input = "P 3 1 3 lec/L 1 1/T 5/W 00000004 2/W 00002000 2/R 00200004/T 4/R 00200004/W 00200004 1/T 2/R 00200006/";
    let output = "R 1/R 0/refused 5/clock 11 claims 1 waited 5 open 2/";
    vec![example("worked example", input, output)]
}

fn replay_forms() -> Vec<Example> {
    let after = |name, line: &str, output: &str| {
        let end = "clock 0 claims 0 waited 0 open 0/";
        example(name, &format!("P 1 1 1 l/{line}"), &format!("{output}{end}"))
    };
    vec![
        example("empty input", "", "refused 11/"),
        example("one line feed", "/", "refused 11/"),
        example("first line not P", "T 1/", "refused 11/"),
        example("count of kinds", "P 2 1 1 l/T 1/", "refused 1/"),
        example("number of P too large", "P 4294967296 1 1 l/", "refused 11/"),
        example("number of P large", "P 4294967295 1 1 l/", "refused 1/"),
        after("nothing more", "", ""),
        after("later P", "P 1 1 1 l/", "refused 11/"),
        after("empty line at the end", "/", "refused 11/"),
        after("no final line feed", "R 00000004", "R 0/"),
        after("context too large to read", "N 4294967296/N 4294967295/", "refused 11/refused 7/"),
        after("levels", "L 1 2/L 1 01/L 0 2/L 0 1/L 2 0/", "refused 11/refused 11/refused 11/refused 6/refused 6/"),
        after("leading zeros", "T 00/T 01/T 0/", "refused 11/refused 11/"),
        after("spaces", "T  0/ T 0/T 0 /", "refused 11/refused 11/refused 11/"),
        after("odd bytes", "T 0\r/T\t0/T 0\0/", "refused 11/refused 11/refused 11/"),
        after("offsets", "R 0000000c/R 000000C/R 0000000C/", "refused 11/refused 11/R 0/"),
    ]
}

fn long_first_line(length: usize, number: u64) -> Example {
    ("long first line", spoil::of_last_source(length) + "\n", format!("refused {number}\n"))
}

fn claims_and_notifications() -> Vec<Example> {
    vec![
        on_board("tie", "W 00000008 5/W 0000000C 5/L 2 1/L 3 1/R 00200004/", "R 2/"),
        on_board("higher priority", "W 00000008 5/W 0000000C 6/L 2 1/L 3 1/R 00200004/", "R 3/"),
        on_board("threshold 5", "W 00000004 5/W 00200000 5/L 1 1/N 0/R 00200004/", "N 0/R 1/"),
        on_board("threshold 4", "W 00000004 5/W 00200000 4/L 1 1/N 0/R 00200004/", "N 1/R 1/"),
        on_board("priority 0", "L 1 1/N 0/R 00200004/R 00001000/", "N 0/R 0/R 2/"),
        on_board("priority mod 2^b", "W 00000004 9/R 00000004/W 00000004 7/R 00000004/", "R 1/R 7/"),
        example(
            "counting source",
            "P 1 1 1 c/L 1 1/L 1 0/L 1 1/L 1 0/L 1 1/V/",
            "V sources 0 1/V contexts 0 1/V bits 0 1/V steps 0 5/V kind 1 2/V stage 1 1/V line 1 1/V extra 1 2/V end/",
        ),
        example(
            "level line falls before the claim",
            "P 1 1 1 l/W 00000004 1/W 00002000 2/L 1 1/L 1 0/R 00200004/R 00200004/",
            "R 1/R 0/",
        ),
    ]
}

/// Source 2 is claimed by context 0; what follows completes it or not.
fn completions() -> Vec<Example> {
    let after_claim = |name, input: &str, output: &str| {
        let claimed = "W 00000008 5/L 2 1/R 00200004/L 2 0/";
        on_board(name, &format!("{claimed}{input}L 2 1/R 00200004/"), &format!("R 2/{output}"))
    };
    vec![
        after_claim("completed by another context", "W 00201004 2/", "R 2/"),
        after_claim("the other does not enable it", "W 00002080 0/W 00201004 2/", "R 0/"),
        after_claim("0x102 completes nothing", "W 00200004 258/", "R 0/"),
        after_claim("2 completes", "W 00200004 2/", "R 2/"),
    ]
}

fn buckets() -> Vec<Example> {
    let shown = |wait: u64, bucket: u64| {
        let input = format!("P 1 1 1 e/W 00000004 1/W 00002000 2/L 1 1/T {wait}/R 00200004/A 1000/V/");
        let upper = (1u64 << bucket) - 1;
        let unless_zero = |line: &str| if wait == 0 { String::new() } else { format!("V {line} {wait}/") };
        let output = format!(
            "R 1/A {upper}/V sources 0 1/V contexts 0 1/V bits 0 1/{}V steps 0 5/V kind 1 1/V stage 1 2/V line 1 1/\
             V priority 1 1/V claims 1 1/{}V enable 0 2/V bucket_claims {bucket} 1/{}V end/",
            unless_zero("clock 0"),
            unless_zero("waited 1"),
            unless_zero(&format!("bucket_ticks {bucket}")),
        );
        example("bucket", &input, &output)
    };
    [(0, 0), (1, 1), (3, 2), (4, 3), (4_294_967_295, 32)].map(|(wait, bucket)| shown(wait, bucket)).to_vec()
}

fn percentiles() -> Example {
    let mut input = "P 1 1 1 e/W 00000004 1/W 00002000 2/M/A 500/B 500/".to_string();
    for ticks in (0..99).map(|_| 1).chain([900]) {
        input += &format!("L 1 1/T {ticks}/R 00200004/L 1 0/W 00200004 1/");
    }
    input += "M/A 990/A 991/B 500/A 0/A 1001/B 0/";
    let reports = "M 999 100/A 1/A 1023/B 1023/refused 9/refused 9/refused 9/";
    example("percentiles", &input, &format!("refused 10/refused 10/refused 10/{}{reports}", "R 1/".repeat(100)))
}

fn limits() -> Vec<Example> {
    let kinds = "e".repeat(SOURCE_ROOM - 1);
    let made = format!("P {LAST_SOURCE} {MOST_CONTEXTS} {MOST_BITS} {kinds}");
    let word = 0x1000 + 4 * (LAST_SOURCE / 32);
    let last_bit = format!("{made}/L {LAST_SOURCE} 1/R {word:08X}/L {} 1/", LAST_SOURCE + 1);
    let clock = "T 4294967290/T 6/T 5/E/T 0/E/T 1/";
    let at_end = "clock 4294967295 claims 0 waited 0 open 0/";
    vec![
        on_board("end of the clock", clock, &format!("refused 8/{at_end}{at_end}refused 8/")),
        on_board("offsets", "R 03FFFFFC/R 04000000/R 04000001/R 03FFFFFE/", "R 0/refused 4/refused 4/refused 4/"),
        example("the last source", &last_bit, "R 2147483648/refused 6/"),
        on_board("steps", "F steps 0 4294967295/L 0 1/T 1/R 00000001/W 04000000 1/N 0/", &("refused 3/".repeat(4) + "N 0/")),
    ]
}

fn probe_forms() -> Vec<Example> {
    let enable = format!("F enable {} 0", CONTEXT_ROOM * WORD_ROOM);
    vec![
        example("empty probe", "", ""),
        example("zero state", "V/S/E/T 1/", "V end/S 0/refused 2/refused 2/"),
        example("refused make zeroes", &format!("P 1 1 1 l/P 1 1 {} l/V/", MOST_BITS + 1), "refused 1/V end/"),
        example("kind bytes", "P 2 1 1 ?0003/P 2 1 1 ?0002/S/P 1 1 1 -/P 1 1 1 ?/", "refused 1/S 1/refused 1/refused 11/"),
        example("field limits", &format!("F line 0 2/F kind 0 256/F clock 1 0/{enable}/F open 0 0/"), &"refused 11/".repeat(5)),
        example("wide field", "F bucket_ticks 32 18446744073709551615/V/", "V bucket_ticks 32 18446744073709551615/V end/"),
        example("nothing rolls over", "P 1 1 1 l/F bucket_ticks 0 18446744073709551615/F bucket_ticks 1 1/S/", "S 0/"),
    ]
}

/// A run in order passes; each thing wrong with it is noticed.
fn account_notices() -> Result<(), String> {
    let board = short_run().map_err(|number| format!("the short run was refused with {number}"))?;
    account::check(&board)?;
    let wrongs: [fn(&mut Controller); 8] = [
        |c| c.sources[1].claims += 1,
        |c| c.sources[1].waited -= 1,
        |c| c.buckets.swap(2, 3),
        |c| c.buckets[3].claims += 1,
        |c| c.clock += 1,
        |c| c.log.retain(|event| !matches!(event, Event::Completion { .. })),
        |c| c.log.retain(|event| !matches!(event, Event::Rise { .. })),
        |c| c.log.push(Event::Advance { ticks: 1, pending: 0 }),
    ];
    for (index, wrong) in wrongs.iter().enumerate() {
        let mut spoiled = board.clone();
        wrong(&mut spoiled);
        if account::check(&spoiled).is_ok() {
            return Err(format!("the account does not notice wrong {index}"));
        }
    }
    Ok(())
}

/// Two claims of a level source with a completion between, and an open age.
fn short_run() -> Result<Controller, u64> {
    let mut board = Controller::make(1, 1, 1, &[0])?;
    board.write(0x4, 1)?;
    board.write(0x2000, 2)?;
    board.line(1, true)?;
    for ticks in [5, 7] {
        board.advance(ticks)?;
        board.read(0x20_0004)?;
        board.write(0x20_0004, 1)?;
    }
    board.advance(2)?;
    Ok(board)
}
