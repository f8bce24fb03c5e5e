//! One session on both sides. The Rust goes first: a call that it cannot finish in time is not made on the linker.

use crate::encoding::is_encoded;
use crate::faults::{self, Told};
use crate::needed::Needed;
use crate::touches::{Beginning, End};
use crate::under_test::{self, Buffers};
use fillqhano::raw::Answer;
use fillqhano::Linker;
use oracle::memory::Watch;
use oracle::Oracle;
use sessions::{Call, Random, Session, State, Step};
use std::ops::AddAssign;

/// How many accesses a call may need.
pub const ACCESSES: u64 = 1_000_000;

/// What was compared.
#[derive(Debug, Default, Clone, Copy)]
pub struct Tally {
    pub sessions: u64,
    /// Calls compared, by the number that they gave. Those set apart and found equal are among them.
    pub calls: [u64; 6],
    /// Those of them that had a touch.
    pub touched: [u64; 6],
    /// The same calls by kind: initialize, load, unload.
    pub kinds: [u64; 3],
    /// Of them those after which 64 modules stand, and 64 names are missing.
    pub most_modules: u64,
    pub most_missing: u64,
    /// Set apart: calls from the first name on that is not valid UTF-8, compared with names kept as raw bytes.
    pub odd_names: u64,
    /// Set apart: calls that may have walked a batch from 0xFFFF3FF4 up, and were equal; and those that differed.
    pub high_batches: u64,
    pub high_differences: u64,
    /// Calls that need too many accesses, which end their session.
    pub cut: u64,
    /// Refusals for want of room though the buffers grow, and 64 modules do not stand: for the wrapper's limit, and for
    /// counts or names that the image rewrites while it is rebased.
    pub limited: u64,
    pub rewritten: u64,
    /// Refusals for want of room of a module without names, whose window is told by the model alone, not by the Rust.
    pub unseen: u64,
    /// Calls with a bad window or register, compared with document 01.
    pub refused: u64,
}

impl Tally {
    pub fn compared(&self) -> u64 {
        self.calls.iter().sum()
    }
}

impl AddAssign for Tally {
    fn add_assign(&mut self, other: Tally) {
        self.sessions += other.sessions;
        let sums = self.calls.iter_mut().chain(&mut self.touched).chain(&mut self.kinds);
        for (sum, count) in sums.zip(other.calls.into_iter().chain(other.touched).chain(other.kinds)) {
            *sum += count;
        }
        self.most_modules += other.most_modules;
        self.most_missing += other.most_missing;
        self.odd_names += other.odd_names;
        self.high_batches += other.high_batches;
        self.high_differences += other.high_differences;
        self.cut += other.cut;
        self.limited += other.limited;
        self.rewritten += other.rewritten;
        self.unseen += other.unseen;
        self.refused += other.refused;
    }
}

/// A difference that no rule of document 01 explains.
#[derive(Debug, Clone, PartialEq, Eq)]
pub struct Mismatch {
    pub step: usize,
    pub what: String,
}

/// What a session came to: what was compared, the Rust's answers, each with a digest of all that it left, what stood after
/// the last of them, and the first mismatch.
pub struct Compared {
    pub tally: Tally,
    pub answers: Vec<(Answer, u64)>,
    pub state: State,
    pub mismatch: Option<Mismatch>,
}

/// Runs a session on both sides; none without the Rust's sources.
pub fn compare(session: &Session) -> Option<Compared> {
    compare_by(session, Watch::touch)
}

/// The same, the Rust's touches told in this way.
pub fn compare_by(session: &Session, told: Told) -> Option<Compared> {
    let mut run = Run::new(session, told)?;
    let (mut first_odd, mut step) = (usize::MAX, 0);
    while step < session.steps.len() {
        let goes_on = run.goes_on(step);
        if run.oracle.watch().odd_name && first_odd == usize::MAX {
            // from the start again, with names as raw bytes
            first_odd = step;
            run = Run::new(session, told)?;
            run.oracle.keep_raw_names();
            step = 0;
            continue;
        }
        if !goes_on {
            break;
        }
        run.done.tally.odd_names += (step >= first_odd) as u64;
        step += 1;
    }
    run.done.tally.sessions = 1;
    Some(run.done)
}

struct Run<'a> {
    session: &'a Session,
    told: Told,
    oracle: Oracle,
    buffers: Buffers,
    done: Compared,
}

impl<'a> Run<'a> {
    fn new(session: &'a Session, told: Told) -> Option<Run<'a>> {
        let oracle = Oracle::new(session.at, session.window.clone())?;
        let buffers = Buffers::of(session);
        let done = Compared { tally: Tally::default(), answers: Vec::new(), state: State::default(), mismatch: None };
        Some(Run { session, told, oracle, buffers, done })
    }

    /// Makes a step on both sides; false where the session ends there.
    fn goes_on(&mut self, index: usize) -> bool {
        let step = &self.session.steps[index];
        let mut random = Random::new(step.base as u64, step.size as u64, index as u64);
        if let Err(what) = faults::refused(&self.buffers, step, &mut random) {
            self.done.mismatch = Some(Mismatch { step: index, what });
            return false;
        }
        self.done.tally.refused += 1;
        let Some((number, value)) = self.oracle.call_within(step, ACCESSES) else {
            self.done.tally.cut += 1;
            return false;
        };
        let mut expected = Answer::new(number, value, (self.told)(self.oracle.watch()));
        let mut doubt = None;
        if step.call != Call::Unload {
            let model = Beginning::of(self.session.at, self.buffers.window.clone(), step);
            let state = self.oracle.state();
            let seen = self.window_seen(step, number, &state, &model);
            doubt = self.doubt(number, seen, &model);
            if number == 0 && !has_room(&state, self.buffers.lent(step)) {
                self.done.tally.unseen += seen.is_none() as u64;
                doubt = doubt.or(self.full_though_it_grows(step, &state, &model));
                expected = Answer::new(5, 0, model.touch);
                let before = &self.done.state;
                self.oracle.refuse_last(before.crs, before.missing.len(), model.window);
            }
        }
        self.meets(index, expected, doubt)
    }

    /// The Rust's window where the model ends: as a refusal left it, or when the first name was read, which was surely before
    /// the lists were written if there is a name, or a pointer to one.
    fn window_seen(&self, step: &Step, number: u32, state: &State, model: &Beginning) -> Option<&[u8]> {
        if number != 0 {
            return Some(self.oracle.window());
        }
        let named = state.modules.last().is_some_and(|module| module.room().1 > 0);
        let named = named || points_to_name(&model.window, step.base.wrapping_sub(self.session.at));
        self.oracle.watch().after_reset.as_deref().filter(|_| named)
    }

    /// What the model says otherwise than the Rust, as far as that can be seen. Its touch is the call's if it has one.
    fn doubt(&self, number: u32, seen: Option<&[u8]>, model: &Beginning) -> Option<String> {
        let ended = match model.end {
            End::Reset => 0,
            End::NotACro => 1,
            End::BadSegment => 2,
        };
        let touch = self.oracle.watch().touch();
        let same_touch = model.touch == touch || number == 0 && model.touch.is_none();
        let same = ended == number && same_touch && seen.is_none_or(|seen| seen == model.window);
        (!same).then(|| format!("the model gives {ended}, touch {:x?}, and the Rust {number}, touch {touch:x?}", model.touch))
    }

    /// Where the buffers grow and 64 modules do not stand, a call finds no room only for the limit, or because the image
    /// rewrites its own counts or names; gives what is wrong if it is neither.
    fn full_though_it_grows(&mut self, step: &Step, state: &State, model: &Beginning) -> Option<String> {
        let limit = self.buffers.limit.filter(|_| state.modules.len() <= 64)?;
        let (records, names) = room(state);
        if records > limit || names > limit {
            self.done.tally.limited += 1;
            return None;
        }
        self.done.tally.rewritten += 1;
        let before = Needed::of(self.session.at, &self.buffers.window, step.base, step.base);
        let after = Needed::of(self.session.at, &model.window, step.base, 0);
        (before == after).then(|| "no room, and neither counts nor names have changed".into())
    }

    /// Makes the call on the linker and compares.
    fn meets(&mut self, index: usize, expected: Answer, doubt: Option<String>) -> bool {
        let old = self.buffers.clone();
        let given = self.buffers.call(&self.session.steps[index]);
        let state = self.oracle.state();
        let mismatch = differs(expected, given, self.oracle.window(), &state, &old, &self.buffers);
        if mismatch.is_some() && self.oracle.watch().high_batch {
            self.done.tally.high_differences += 1;
            return false;
        }
        if let Some(what) = mismatch.or(doubt) {
            self.done.mismatch = Some(Mismatch { step: index, what });
            return false;
        }
        self.count(index, expected, &state);
        let digest = state.digest(self.oracle.window());
        self.done.answers.push((expected, digest));
        self.done.state = state;
        true
    }

    fn count(&mut self, index: usize, answer: Answer, state: &State) {
        let tally = &mut self.done.tally;
        tally.calls[answer.number as usize] += 1;
        tally.touched[answer.number as usize] += answer.touched as u64;
        tally.kinds[self.session.steps[index].call as usize] += 1;
        tally.most_modules += (state.modules.len() == 64) as u64;
        tally.most_missing += (state.missing.len() == 64) as u64;
        tally.high_batches += self.oracle.watch().high_batch as u64;
    }
}

/// Whether the image at this place has a pointer to the module's name.
fn points_to_name(window: &[u8], place: u32) -> bool {
    (0xC0..0xC4).any(|offset| window.get(place.wrapping_add(offset) as usize).is_some_and(|&byte| byte != 0))
}

/// The bytes of records and of names that what stands takes, by document 01.
fn room(state: &State) -> (usize, usize) {
    let rooms = state.modules.iter().map(|module| module.room());
    rooms.fold((32, 0), |sum, room| (sum.0 + room.0, sum.1 + room.1))
}

/// Whether so many bytes of records and of names have room for what stands, by document 01.
pub(crate) fn has_room(state: &State, lent: (usize, usize)) -> bool {
    let (records, names) = room(state);
    state.modules.len() <= 64 && records <= lent.0 && names <= lent.1
}

/// What differs between the Rust's answer, window and state and the linker's, if anything does.
pub(crate) fn differs(
    expected: Answer,
    given: Answer,
    window: &[u8],
    state: &State,
    old: &Buffers,
    new: &Buffers,
) -> Option<String> {
    if expected != given {
        return Some(format!("the call gives {given:x?}, and {expected:x?} in the Rust"));
    }
    if let Some(place) = (0..window.len()).find(|&place| window[place] != new.window[place]) {
        let address = new.at.wrapping_add(place as u32);
        let (ours, theirs) = (new.window[place], window[place]);
        return Some(format!("the byte at {address:#010x} is {ours:02x}, and {theirs:02x} in the Rust"));
    }
    let Some(linker) = new.linker() else {
        return Some("the buffers are no register".into());
    };
    register_differs(expected.number, state, old, new, &linker)
}

fn register_differs(number: u32, state: &State, old: &Buffers, new: &Buffers, linker: &Linker) -> Option<String> {
    let ours = under_test::state(linker);
    if ours != *state {
        return Some(format!("the register says {ours:x?}\nand in the Rust {state:x?}"));
    }
    let same = old.register() == new.register();
    if number != 0 && !same {
        return Some(format!("the register has changed with number {number}"));
    }
    // a register that no call has changed may have a 0 for the bytes in use
    let untouched = same && linker.is_empty();
    (!untouched && !is_encoded(state, new)).then(|| "the register is encoded otherwise".into())
}
