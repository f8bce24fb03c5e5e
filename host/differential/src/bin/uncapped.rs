//! `uncapped OTHER [--seed N] [--sessions M] [--seconds S]`: M sessions of the uncapped family, whose counts reach 2^32 - 1, by this program's
//! library and by that of OTHER, which is this program built over another library, as that of an earlier commit. Answers and all bytes are
//! compared call by call. Each side may take S seconds a call; one that takes longer ends its session.
//! `uncapped --answers SEED FROM TO` prints one side's: session, step, and the answer with a digest of all bytes that it left.

use differential::families::Family;
use differential::under_test::Buffers;
use std::io::{BufRead, BufReader, Write};
use std::process::{Child, Command, ExitCode, Stdio};
use std::sync::mpsc::{channel, Receiver};
use std::time::Duration;

fn main() -> ExitCode {
    let words: Vec<String> = std::env::args().skip(1).collect();
    let done = match words.iter().map(String::as_str).collect::<Vec<_>>()[..] {
        ["--answers", seed, from, to] => {
            numbers(&[seed, from, to]).map(|numbers| print_answers(numbers[0], numbers[1], numbers[2]))
        }
        [other, ref rest @ ..] => Asked::of(rest).and_then(|asked| compare(other, &asked)),
        [] => Err("usage: uncapped OTHER [--seed N] [--sessions M] [--seconds S]".into()),
    };
    match done {
        Ok(()) => ExitCode::SUCCESS,
        Err(what) => {
            println!("{what}");
            ExitCode::FAILURE
        }
    }
}

fn numbers(words: &[&str]) -> Result<Vec<u64>, String> {
    words.iter().map(|word| word.parse().map_err(|_| format!("{word} is no number"))).collect()
}

struct Asked {
    seed: u64,
    sessions: u64,
    seconds: f64,
}

impl Asked {
    fn of(words: &[&str]) -> Result<Asked, String> {
        let mut asked = Asked { seed: 1, sessions: 1000, seconds: 0.5 };
        for pair in words.chunks(2) {
            match *pair {
                ["--seed", value] => asked.seed = numbers(&[value])?[0],
                ["--sessions", value] => asked.sessions = numbers(&[value])?[0],
                ["--seconds", value] => asked.seconds = value.parse().map_err(|_| format!("{value} is no number"))?,
                _ => return Err(format!("what is {pair:?}?")),
            }
        }
        Ok(asked)
    }
}

fn print_answers(seed: u64, from: u64, to: u64) {
    let mut out = std::io::stdout().lock();
    for number in from..to {
        let session = Family::Uncapped.session(seed, number);
        let mut buffers = Buffers::of(&session);
        for (index, step) in session.steps.iter().enumerate() {
            let answer = buffers.call(step);
            let line = writeln!(out, "{number} {index} {answer:x?} {:016x}", digest(&buffers));
            if line.and_then(|()| out.flush()).is_err() {
                return;
            }
        }
        if writeln!(out, "{number} end").is_err() {
            return;
        }
    }
}

/// FNV-1a over all bytes that a call may change, and where one buffer ends.
fn digest(buffers: &Buffers) -> u64 {
    let (records, names, missing) = buffers.register();
    let lengths = [buffers.window.len(), records.len(), names.len()].map(usize::to_le_bytes).concat();
    let bytes = lengths.iter().chain(&buffers.window).chain(records).chain(names).chain(missing);
    bytes.fold(0xCBF2_9CE4_8422_2325, |sum: u64, &byte| (sum ^ byte as u64).wrapping_mul(0x0000_0100_0000_01B3))
}

/// A program that prints its answers, from some session on.
struct Side {
    program: String,
    child: Child,
    lines: Receiver<String>,
}

impl Side {
    fn start(program: &str, asked: &Asked, from: u64) -> Result<Side, String> {
        let words = ["--answers".into(), asked.seed.to_string(), from.to_string(), asked.sessions.to_string()];
        let child = Command::new(program).args(words).stdout(Stdio::piped()).spawn();
        let mut child = child.map_err(|error| format!("{program}: {error}"))?;
        let output = BufReader::new(child.stdout.take().expect("it is piped"));
        let (sender, lines) = channel();
        std::thread::spawn(move || output.lines().map_while(Result::ok).try_for_each(|line| sender.send(line)));
        Ok(Side { program: program.into(), child, lines })
    }

    /// All that it says of a session, up to the first call that takes too long; whether it came to the end.
    fn session(&mut self, asked: &Asked, number: u64) -> Result<(Vec<String>, bool), String> {
        let (mut said, end) = (Vec::new(), format!("{number} end"));
        loop {
            match self.lines.recv_timeout(Duration::from_secs_f64(asked.seconds)) {
                Ok(line) if line == end => return Ok((said, true)),
                Ok(line) => said.push(line),
                Err(_) if self.child.try_wait().is_ok_and(|ended| ended.is_some()) => {
                    return Err(format!("{} ended in session {number}", self.program));
                }
                Err(_) => {
                    self.stop();
                    *self = Side::start(&self.program, asked, number + 1)?;
                    return Ok((said, false));
                }
            }
        }
    }

    fn stop(&mut self) {
        // it may have ended by itself
        let _ = self.child.kill();
        let _ = self.child.wait();
    }
}

fn compare(other: &str, asked: &Asked) -> Result<(), String> {
    let own = std::env::current_exe().map_err(|error| error.to_string())?;
    let mut sides = [Side::start(&own.to_string_lossy(), asked, 0)?, Side::start(other, asked, 0)?];
    let (mut calls, mut cut) = (0, [0; 2]);
    for number in 0..asked.sessions {
        let (own, own_ended) = sides[0].session(asked, number)?;
        let (other, other_ended) = sides[1].session(asked, number)?;
        cut[0] += !own_ended as u64;
        cut[1] += !other_ended as u64;
        let both = own.len().min(other.len());
        if let Some(step) = (0..both).find(|&step| own[step] != other[step]) {
            return Err(format!("this: {}\nother: {}", own[step], other[step]));
        }
        if own_ended && other_ended && own.len() != other.len() {
            return Err(format!("session {number}: {} calls and {}", own.len(), other.len()));
        }
        calls += both;
    }
    sides.iter_mut().for_each(Side::stop);
    println!(
        "{calls} calls of {} sessions compared, 0 mismatches; sessions cut for time: {} here, {} there",
        asked.sessions, cut[0], cut[1]
    );
    Ok(())
}
