//! The Rust's answers to the requests of the gate's seed, stored as those to sessions are: how many they are; then a line for each session, its
//! number, and after it one for each turn: served, number, value, touch and digest.

use super::{Requests, Side};
use crate::encoding::is_encoded;
use crate::stored::line;
use crate::under_test::state;
use fillqhano::raw::Turned;
use std::fmt::Write;

/// Answers that are to be stored.
#[derive(Default)]
pub struct Answers {
    lines: String,
    count: u64,
}

impl Answers {
    /// Adds those of a session, each with the digest of what stands after it.
    pub fn add(&mut self, number: u64, answers: &[(Turned, u64)]) {
        writeln!(self.lines, "session {number}").unwrap();
        for &(turned, digest) in answers {
            writeln!(self.lines, "{}", turn_line(turned, digest)).unwrap();
        }
        self.count += answers.len() as u64;
    }

    /// The file that stores them.
    pub fn text(&self) -> String {
        format!("turns {}\n{}", self.count, self.lines)
    }
}

fn turn_line(turned: Turned, digest: u64) -> String {
    format!("{} {}", turned.served, line(turned.answer(), digest))
}

/// Replays the answers; gives how many turns, or the first that differs. They have to be as many as the first line says.
pub fn replay(stored: &str, seed: u64) -> Result<u64, String> {
    let (first, sessions) = stored.split_once('\n').unwrap_or((stored, ""));
    let count: Option<u64> = first.strip_prefix("turns ").and_then(|count| count.parse().ok());
    let count = count.filter(|&count| count > 0).ok_or("the stored turns do not begin with how many they are")?;
    let mut turns = 0;
    for session in sessions.split("session ").skip(1) {
        let mut lines = session.lines();
        let number = lines.next().and_then(|number| number.parse().ok()).ok_or("no number")?;
        turns += replay_session(&Requests::new(seed, number), lines).map_err(|what| format!("session {number}: {what}"))?;
    }
    if turns != count {
        return Err(format!("{turns} turns are stored, and there should be {count}"));
    }
    Ok(turns)
}

/// Makes as many turns as there are lines.
fn replay_session<'a>(requests: &Requests, mut lines: impl Iterator<Item = &'a str>) -> Result<u64, String> {
    let (mut side, mut turns) = (Side::new(requests), 0);
    for round in &requests.rounds {
        round.iter().try_for_each(|request| side.send(request))?;
        while let Some((_, caller, buffer)) = side.queues.take() {
            let Some(stored) = lines.next() else {
                return Ok(turns);
            };
            replay_one(&mut side, caller, buffer, stored)?;
            turns += 1;
        }
    }
    match lines.next() {
        Some(_) => Err("more answers than turns".into()),
        None => Ok(turns),
    }
}

fn replay_one(side: &mut Side, caller: u32, buffer: u32, stored: &str) -> Result<(), String> {
    let turned = side.turn(caller, buffer)?;
    let linker = side.buffers.linker().ok_or("the buffers are no register")?;
    let state = state(&linker);
    if !linker.is_empty() && !is_encoded(&state, &side.buffers) {
        return Err("the register is encoded otherwise".into());
    }
    let given = turn_line(turned, state.digest(&side.buffers.window));
    if given != stored {
        return Err(format!("{given} and not {stored}"));
    }
    Ok(())
}

#[cfg(test)]
mod tests {
    use super::*;

    const STORED: &str = include_str!("../../stored_desk.txt");

    #[test]
    fn stored_turns_that_are_cut_are_noticed() {
        assert!(replay(STORED, 1).is_ok());
        let without_last = STORED.trim_end().rsplit_once('\n').unwrap().0;
        let without_first = STORED.split_once('\n').unwrap().1;
        for cut in ["", "turns 0\n", without_last, without_first] {
            assert!(replay(cut, 1).is_err());
        }
    }
}
