//! Requests on both sides. The Rust goes first, twice: by `handle`, whose window and modules are compared; and by the call that the request asks
//! for, which tells the number, the value and the touch that `handle` does not give. A request that it cannot finish in time is not made here.

use super::asked::{asked, put_words, Asked};
use super::{Request, Requests, Side};
use crate::compare::{differs, has_room, ACCESSES};
use crate::faults;
use crate::touches::Beginning;
use fillqhano::raw::{Answer, Turned};
use oracle::Oracle;
use sessions::desk::{header, NOT_LOADED};
use sessions::{Call, Random, State, Step};
use std::ops::AddAssign;

/// What was compared.
#[derive(Debug, Default, Clone, Copy)]
pub struct Tally {
    pub sessions: u64,
    /// Requests compared, by number; 9, which the Rust has not, by our definition alone.
    pub numbers: [u64; 10],
    /// The same by id, those above 9 and 0 as 0.
    pub ids: [u64; 10],
    pub touched: u64,
    /// Requests whose buffer lies wholly outside the window, and across an edge.
    pub outside: u64,
    pub across: u64,
    /// Turns with a bad window or register.
    pub refused: u64,
    /// Set apart: requests with odd names, with names as raw bytes; with high batches, equal and not.
    pub odd_names: u64,
    pub high_batches: u64,
    pub high_differences: u64,
    /// Requests that need too many accesses, which end their session.
    pub cut: u64,
}

impl Tally {
    pub fn compared(&self) -> u64 {
        self.numbers.iter().sum()
    }
}

impl AddAssign for Tally {
    fn add_assign(&mut self, other: Tally) {
        let counts = self.numbers.iter_mut().chain(&mut self.ids);
        counts.zip(other.numbers.into_iter().chain(other.ids)).for_each(|(sum, count)| *sum += count);
        self.sessions += other.sessions;
        self.touched += other.touched;
        self.outside += other.outside;
        self.across += other.across;
        self.refused += other.refused;
        self.odd_names += other.odd_names;
        self.high_batches += other.high_batches;
        self.high_differences += other.high_differences;
        self.cut += other.cut;
    }
}

/// What a session of requests came to: what was compared, each turn with a digest of all that it left, and the first mismatch.
#[derive(Default)]
pub struct Compared {
    pub tally: Tally,
    pub answers: Vec<(Turned, u64)>,
    pub mismatch: Option<String>,
}

/// Why a session ends before its last request.
enum Stop {
    Mismatch(String),
    /// It is not compared further: cut for length, or set apart.
    Here,
    /// A name is not valid UTF-8: it is to be run again, with names as raw bytes.
    OddName,
}

/// Runs the requests on both sides; none without the Rust's sources.
pub fn compare(requests: &Requests) -> Option<Compared> {
    let mut run = Run::new(requests, false)?;
    let mut stop = run.all();
    if let Err(Stop::OddName) = stop {
        run = Run::new(requests, true)?;
        stop = run.all();
    }
    if let Err(Stop::Mismatch(what)) = stop {
        run.done.mismatch = Some(what);
    }
    run.done.tally.sessions = 1;
    Some(run.done)
}

struct Run<'a> {
    requests: &'a Requests,
    /// The Rust by `handle`, and by the calls asked for.
    handling: Oracle,
    calling: Oracle,
    side: Side,
    state: State,
    raw_names: bool,
    /// Whether the last request may have walked a high batch.
    high_batch: bool,
    done: Compared,
}

impl<'a> Run<'a> {
    fn new(requests: &'a Requests, raw_names: bool) -> Option<Run<'a>> {
        let oracle = || {
            let mut oracle = Oracle::new(requests.session.at, requests.session.window.clone())?;
            if raw_names {
                oracle.keep_raw_names();
            }
            Some(oracle)
        };
        let (side, state, done) = (Side::new(requests), State::default(), Compared::default());
        Some(Run { requests, handling: oracle()?, calling: oracle()?, side, state, raw_names, high_batch: false, done })
    }

    fn at(&self) -> u32 {
        self.requests.session.at
    }

    fn all(&mut self) -> Result<(), Stop> {
        for round in &self.requests.rounds {
            for Request { buffer, words, .. } in round {
                put_words(self.at(), self.handling.window_mut(), *buffer, words);
            }
            round.iter().try_for_each(|request| self.side.send(request)).map_err(Stop::Mismatch)?;
            while let Some((_, caller, buffer)) = self.side.queues.clone().take() {
                self.lend_badly(buffer)?;
                self.side.queues.take();
                self.serve(caller, buffer)?;
            }
        }
        Ok(())
    }

    /// The same turn with a bad window or register, on a copy.
    fn lend_badly(&mut self, buffer: u32) -> Result<(), Stop> {
        let mut random = Random::new(buffer as u64, 0, self.done.answers.len() as u64);
        faults::turn_refused(&self.side.buffers, &self.side.desk, &mut random).map_err(Stop::Mismatch)?;
        self.done.tally.refused += 1;
        Ok(())
    }

    /// Has a buffer handled on both sides, and compares.
    fn serve(&mut self, caller: u32, buffer: u32) -> Result<(), Stop> {
        let (id, asked) = asked(self.at(), self.handling.window(), buffer);
        self.high_batch = false;
        let answer = match asked {
            Asked::Call(step) => self.called(&step, id, buffer)?,
            Asked::Elsewhere => {
                self.reply_error(id, buffer);
                Answer::new(9, 0, None)
            }
            Asked::Nothing | Asked::Unknown => {
                self.handled(buffer, asked != Asked::Unknown)?;
                Answer::new(0, 0, None)
            }
        };
        let served = if asked == Asked::Unknown { 2 } else { 1 };
        let Answer { number, value, touched, first } = answer;
        self.meets(Turned { number, value, served, caller, buffer, touched, first })?;
        self.count(id, buffer, answer);
        Ok(())
    }

    /// Has it handled by the Rust, which should know its id or not.
    fn handled(&mut self, buffer: u32, known: bool) -> Result<(), Stop> {
        match self.handling.handle_within(buffer, ACCESSES) {
            Some(given) if given == known => Ok(()),
            Some(_) => Err(Stop::Mismatch(format!("whether the id at {buffer:#x} is known"))),
            None => Err(self.cut()),
        }
    }

    fn cut(&mut self) -> Stop {
        self.done.tally.cut += 1;
        Stop::Here
    }

    /// Makes the call that is asked for, and has the buffer handled. Gives the answer that is due: that of the Rust's call, or 5 where there is no
    /// room, with the window as a refusal leaves it and the error reply.
    fn called(&mut self, step: &Step, id: u32, buffer: u32) -> Result<Answer, Stop> {
        let before = self.handling.window().to_vec();
        self.calling.window_mut().copy_from_slice(&before);
        let Some((number, value)) = self.calling.call_within(step, ACCESSES) else {
            return Err(self.cut());
        };
        if self.calling.watch().odd_name && !self.raw_names {
            return Err(Stop::OddName);
        }
        self.high_batch = self.calling.watch().high_batch;
        self.handled(buffer, true)?;
        let full = step.call != Call::Unload && number == 0;
        if full && !has_room(&self.calling.state(), self.side.buffers.lent(step)) {
            let model = Beginning::of(self.at(), before, step);
            for oracle in [&mut self.calling, &mut self.handling] {
                oracle.refuse_last(self.state.crs, self.state.missing.len(), model.window.clone());
            }
            self.reply_error(id, buffer);
            return Ok(Answer::new(5, 0, model.touch));
        }
        Ok(Answer::new(number, value, self.calling.watch().touch()))
    }

    /// The reply to a refusal that the Rust has not.
    fn reply_error(&mut self, id: u32, buffer: u32) {
        put_words(self.at(), self.handling.window_mut(), buffer, &[header(id, 1), NOT_LOADED]);
    }

    /// Makes the turn on the linker and compares.
    fn meets(&mut self, expected: Turned) -> Result<(), Stop> {
        let old = self.side.buffers.clone();
        let given = self.side.turn(expected.caller, expected.buffer).map_err(Stop::Mismatch)?;
        let state = self.handling.state();
        let window = self.handling.window();
        let mut mismatch = differs(expected.answer(), given.answer(), window, &state, &old, &self.side.buffers);
        if given.served != expected.served {
            mismatch = Some(format!("served is {}, and should be {}", given.served, expected.served));
        }
        if mismatch.is_some() && self.high_batch {
            self.done.tally.high_differences += 1;
            return Err(Stop::Here);
        }
        if let Some(what) = mismatch {
            return Err(Stop::Mismatch(what));
        }
        self.done.answers.push((expected, state.digest(window)));
        self.state = state;
        Ok(())
    }

    fn count(&mut self, id: u32, buffer: u32, answer: Answer) {
        let inside = |word: u32| {
            let place = buffer.wrapping_add(4 * word).wrapping_sub(self.at()) as usize;
            place + 4 <= self.side.buffers.window.len()
        };
        let words = (0..11).filter(|&word| inside(word)).count();
        let tally = &mut self.done.tally;
        tally.numbers[answer.number as usize] += 1;
        tally.ids[if id > 9 { 0 } else { id as usize }] += 1;
        tally.touched += answer.touched as u64;
        tally.outside += (words == 0) as u64;
        tally.across += (words > 0 && words < 11) as u64;
        tally.odd_names += self.raw_names as u64;
        tally.high_batches += self.high_batch as u64;
    }
}
