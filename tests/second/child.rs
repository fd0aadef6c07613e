//! Another program run beside this one. Every wait has a limit, so that no
//! test hangs on a program that does.

use std::io::Read;
use std::process::{Child, ChildStdin, Command, ExitStatus, Stdio};
use std::thread;
use std::time::{Duration, Instant};

/// Between two looks at a program that has not ended.
const PAUSE: Duration = Duration::from_micros(300);

/// What became of a program.
pub struct Ended {
    pub output: Vec<u8>,
    pub status: ExitStatus,
    /// Whether it ended of itself and was not killed at the limit.
    pub in_time: bool,
}

pub fn start(program: &[String], input: Stdio) -> Result<Child, String> {
    let mut command = Command::new(&program[0]);
    command.args(&program[1..]).stdin(input).stdout(Stdio::piped());
    command.spawn().map_err(|error| format!("{}: {error}", program[0]))
}

/// Runs a program to its end. The input is fed, and the output read, by a
/// thread each, so that neither side waits for the other.
pub fn run(program: &[String], feed: impl FnOnce(ChildStdin, u32) + Send, limit: Duration) -> Result<Ended, String> {
    let mut child = start(program, Stdio::piped())?;
    let pipe = child.stdin.take().expect("the input is a pipe");
    let id = child.id();
    thread::scope(|scope| {
        scope.spawn(move || feed(pipe, id));
        end(child, limit)
    })
}

/// Reads what a program writes until it ends or the limit is reached.
pub fn end(mut child: Child, limit: Duration) -> Result<Ended, String> {
    let mut pipe = child.stdout.take().expect("the output is a pipe");
    thread::scope(|scope| {
        let reader = scope.spawn(move || {
            let mut output = Vec::new();
            pipe.read_to_end(&mut output).map(|_| output)
        });
        let (status, in_time) = wait(&mut child, limit)?;
        let output = reader.join().expect("the reader does not panic").map_err(|error| error.to_string())?;
        Ok(Ended { output, status, in_time })
    })
}

/// Waits for a program to end, and kills it at the limit. Tells its status and
/// whether it ended of itself.
pub fn wait(child: &mut Child, limit: Duration) -> Result<(ExitStatus, bool), String> {
    let failed = |error: std::io::Error| error.to_string();
    let from = Instant::now();
    while from.elapsed() < limit {
        if let Some(status) = child.try_wait().map_err(failed)? {
            return Ok((status, true));
        }
        thread::sleep(PAUSE);
    }
    child.kill().map_err(failed)?;
    Ok((child.wait().map_err(failed)?, false))
}
