//! The Rust's answers to the sessions of the gate's seed, stored so that they can be replayed without its sources. The first line
//! says how many there are. Then comes a line for each session, its family and number, and after it one for each call: number,
//! value, touch (`-` for none) and digest, in hex.

use crate::encoding::is_encoded;
use crate::families::Family;
use crate::under_test::{state, Buffers};
use fillqhano::raw::Answer;
use sessions::Session;
use std::fmt::Write;

/// Answers that are to be stored.
#[derive(Default)]
pub struct Answers {
    lines: String,
    count: u64,
}

impl Answers {
    /// Adds those of a session, each with the digest of what stands after it.
    pub fn add(&mut self, family: Family, number: u64, answers: &[(Answer, u64)]) {
        writeln!(self.lines, "{} {number}", family.name()).unwrap();
        for &(answer, digest) in answers {
            writeln!(self.lines, "{}", line(answer, digest)).unwrap();
        }
        self.count += answers.len() as u64;
    }

    /// The file that stores them.
    pub fn text(&self) -> String {
        format!("answers {}\n{}", self.count, self.lines)
    }
}

pub(crate) fn line(answer: Answer, digest: u64) -> String {
    let touch = answer.touch().map_or("-".into(), |first| format!("{first:x}"));
    format!("{:x} {:x} {touch} {digest:016x}", answer.number, answer.value)
}

/// Replays the answers; gives how many calls, or the first that differs. They have to be as many as the first line says.
pub fn replay(stored: &str, seed: u64) -> Result<u64, String> {
    let mut lines = stored.lines();
    let count = lines.next().and_then(|first| first.strip_prefix("answers ")?.parse().ok());
    let count: u64 = count.filter(|&count| count > 0).ok_or("the stored answers do not begin with how many they are")?;
    let mut calls = 0;
    let mut running: Option<(Session, Buffers, usize)> = None;
    for line in lines {
        let words: Vec<&str> = line.split(' ').collect();
        if let [family, number] = words[..] {
            let family = Family::ALL.into_iter().find(|known| known.name() == family).ok_or("an unknown family")?;
            let session = family.session(seed, number.parse().map_err(|_| "no number")?);
            let buffers = Buffers::of(&session);
            running = Some((session, buffers, 0));
            continue;
        }
        let (session, buffers, step) = running.as_mut().ok_or("no session")?;
        replay_one(session, buffers, *step, line)?;
        *step += 1;
        calls += 1;
    }
    if calls != count {
        return Err(format!("{calls} answers are stored, and there should be {count}"));
    }
    Ok(calls)
}

fn replay_one(session: &Session, buffers: &mut Buffers, step: usize, stored: &str) -> Result<(), String> {
    let answer = buffers.call(session.steps.get(step).ok_or("more answers than calls")?);
    let linker = buffers.linker().ok_or("the buffers are no register")?;
    let state = state(&linker);
    if !linker.is_empty() && !is_encoded(&state, buffers) {
        return Err(format!("step {}: the register is encoded otherwise", step + 1));
    }
    let given = line(answer, state.digest(&buffers.window));
    if given != stored {
        return Err(format!("step {}: {given} and not {stored}", step + 1));
    }
    Ok(())
}

#[cfg(test)]
mod tests {
    use super::*;

    const STORED: &str = include_str!("../stored.txt");

    #[test]
    fn stored_answers_that_are_cut_are_noticed() {
        assert!(replay(STORED, 1).is_ok());
        let without_last = STORED.trim_end().rsplit_once('\n').unwrap().0;
        let without_first = STORED.split_once('\n').unwrap().1;
        for cut in ["", "answers 0\n", without_last, without_first] {
            assert!(replay(cut, 1).is_err());
        }
    }
}
