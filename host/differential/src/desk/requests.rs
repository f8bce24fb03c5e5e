//! Requests to the desk, made from the steps of a session: each step becomes a command buffer, somewhere in the window or outside it, mostly
//! with the words that ask for the step.

use crate::families::{telling, Family};
use sessions::{Call, Random, Session, Step};

/// A title writes these words from an address on, and sends that address.
#[derive(Debug, Clone, PartialEq, Eq)]
pub struct Request {
    pub caller: u32,
    pub buffer: u32,
    pub words: Vec<u32>,
}

/// A session whose steps are asked for by requests, in rounds: all buffers of a round are written and sent, and then served, so that a call may
/// change the words of a buffer that waits.
#[derive(Debug, Clone)]
pub struct Requests {
    pub session: Session,
    pub rounds: Vec<Vec<Request>>,
}

impl Requests {
    /// Those of a seed and a number.
    pub fn new(seed: u64, number: u64) -> Requests {
        let mut random = Random::new(seed, 200, number);
        let mut session = random.pick(&Family::CAPPED).session(seed, number);
        let page = if random.once_in(4) { None } else { add_page(&mut session) };
        let (mut rounds, mut round) = (Vec::new(), Vec::new());
        for step in &session.steps {
            round.push(request(&mut random, &session, page, step));
            if random.once_in(3) {
                rounds.push(std::mem::take(&mut round));
            }
        }
        rounds.push(round);
        Requests { session, rounds }
    }
}

/// Gives the window a page more, for buffers that lie in no image; none where it ends at 2^32.
fn add_page(session: &mut Session) -> Option<u32> {
    let end = session.at.wrapping_add(session.window.len() as u32);
    if end == 0 {
        return None;
    }
    session.window.resize(session.window.len() + 0x1000, 0);
    Some(end)
}

fn request(random: &mut Random, session: &Session, page: Option<u32>, step: &Step) -> Request {
    let buffer = match page {
        Some(page) if !random.once_in(5) => page + 4 * random.below(0x3F0),
        _ => anywhere(random, session, step),
    };
    Request { caller: random.below(8), buffer, words: words(random, session, step) }
}

/// An address inside the step's image or another part of the window, at one of its edges, or outside.
fn anywhere(random: &mut Random, session: &Session, step: &Step) -> u32 {
    let length = session.window.len() as u32;
    let end = session.at.wrapping_add(length);
    match random.below(10) {
        0 => random.word(),
        1 => random.pick(&[0xFFFF_FFFC, 0xFFFF_FFFE, 0, 4]),
        2 => session.at.wrapping_sub(random.from_to(1, 12)),
        3 => end.wrapping_sub(random.below(0x30)),
        4 => step.base.wrapping_add(4 * random.below(0x50)),
        5 => step.base.wrapping_add(random.below(step.size.clamp(1, 0x1000))),
        _ => session.at.wrapping_add(4 * random.below(length / 4)),
    }
}

/// The words that ask for the step; some have another id, another address, or something else in them.
fn words(random: &mut Random, session: &Session, step: &Step) -> Vec<u32> {
    let known = if step.call == Call::Load { random.pick(&[4, 4, 9]) } else { step.id() };
    let id = if random.once_in(8) { random.pick(&[0, 1, 2, 3, 4, 5, 6, 7, 8, 9, 10, 0x100, 0xFFFF]) } else { known };
    let other = random.word();
    let address = random.pick(&[0, 0, 0, 0, step.base, step.base, step.base, step.base, step.base ^ 4, other]);
    let mut words = step.command(id, address);
    words[0] |= random.pick(&[0, 0x2C2, other & 0xFFFF]);
    if random.once_in(2) {
        words.resize(11, other);
    }
    if step.call == Call::Load {
        words[5] = other;
        words[9] |= random.pick(&[0, 0, 0x100, 0xFFFF_FF00]);
    }
    if random.once_in(10) {
        let place = random.from_to(1, words.len() as u32 - 1) as usize;
        words[place] = telling(random, session, step.base);
    }
    words
}
