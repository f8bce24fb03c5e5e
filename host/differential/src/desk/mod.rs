//! Requests through the desk, against the Rust's `ldr_ro::handle`.

mod asked;
mod compare;
mod requests;
mod stored;

pub use compare::{compare, Compared, Tally};
pub use requests::{Request, Requests};
pub use stored::{replay, Answers};

use crate::under_test::Buffers;
use asked::put_words;
use fillqhano::raw::{self, Turned};
use sessions::desk::{Queues, LENGTH};

/// The linker's side of a run: what it is lent, the desk, and the model of its queues.
struct Side {
    buffers: Buffers,
    desk: Vec<u8>,
    queues: Queues,
}

impl Side {
    fn new(requests: &Requests) -> Side {
        Side { buffers: Buffers::of(&requests.session), desk: vec![0; LENGTH], queues: Queues::default() }
    }

    /// Writes a request's words and sends it. Gives what the model says otherwise.
    fn send(&mut self, request: &Request) -> Result<(), String> {
        let &Request { caller, buffer, ref words } = request;
        put_words(self.buffers.at, &mut self.buffers.window, buffer, words);
        let given = raw::send(&mut self.desk, caller, buffer);
        let expected = (self.queues.send(caller, buffer), 0);
        self.same_desk(given == expected, || format!("the sending of {buffer:#x} gives {given:?} and not {expected:?}"))
    }

    /// Makes a turn, which should serve this caller's buffer. Gives what the model says otherwise.
    fn turn(&mut self, caller: u32, buffer: u32) -> Result<Turned, String> {
        let turned = self.buffers.turn(&mut self.desk);
        let same = (turned.caller, turned.buffer) == (caller, buffer);
        self.same_desk(same, || format!("the turn is {turned:x?} and should serve {buffer:#x} of {caller}"))?;
        Ok(turned)
    }

    fn same_desk(&self, same: bool, what: impl FnOnce() -> String) -> Result<(), String> {
        match same {
            true if self.desk == self.queues.bytes() => Ok(()),
            true => Err("the desk's bytes are others".into()),
            false => Err(what()),
        }
    }
}
