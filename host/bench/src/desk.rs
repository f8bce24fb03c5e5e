//! The desk: loads that command buffers ask for, against the same loads made directly; and sending alone.

use crate::clock::now;
use crate::work::{Work, AT, RUNS};
use fillqhano::{Desk, Linker, Window};
use std::hint::black_box;
use std::time::Duration;

/// A row: work whose timed calls are asked for by command buffers, which have a page behind the window.
pub struct Asked {
    pub name: &'static str,
    work: Work,
}

impl Asked {
    pub fn all() -> [Asked; 2] {
        let [large, small] = Work::desk();
        [
            Asked { name: "through the desk: a large module", work: large },
            Asked { name: "through the desk: 63 small modules", work: small },
        ]
    }

    /// The best times of turns and of direct calls, which take turns. A turn's buffer is sent within the time.
    pub fn times(&self) -> (Duration, Duration) {
        let (linker, mut bytes) = self.work.linker();
        let commands = bytes.len();
        bytes.resize(commands + 0x1000, 0);
        for (step, place) in self.work.timed.iter().zip(bytes[commands..].chunks_mut(0x40)) {
            let words = step.command(step.id(), 0).into_iter().flat_map(u32::to_le_bytes);
            place.iter_mut().zip(words).for_each(|(at, byte)| *at = byte);
        }
        let mut best = (Duration::MAX, Duration::MAX);
        for _ in 0..RUNS {
            best.0 = best.0.min(self.time_turns(linker.clone(), bytes.clone(), AT + commands as u32));
            best.1 = best.1.min(self.work.time_linker(&(linker.clone(), bytes.clone())));
        }
        best
    }

    fn time_turns(&self, mut linker: Linker, mut bytes: Vec<u8>, commands: u32) -> Duration {
        let (mut desk, mut window) = (Desk::new(), Window { at: AT, bytes: &mut bytes });
        let start = now();
        for number in 0..self.work.timed.len() as u32 {
            desk.send(number % 8, commands + 0x40 * number).unwrap();
            let served = desk.turn(&mut linker, &mut window).unwrap().unwrap();
            assert!(served.result.is_ok(), "{}", self.name);
        }
        now() - start
    }
}

/// The best time of 128 sends, which fill a desk.
pub fn sends() -> Duration {
    let run = || {
        let mut desk = Desk::new();
        let start = now();
        for buffer in 0..128 {
            black_box(desk.send(buffer % 8, buffer)).unwrap();
        }
        now() - start
    };
    (0..RUNS).map(|_| run()).min().unwrap()
}
