//! The service desk: command buffers that ask for steps, and a model of the callers' queues. Both are written from request 3's page.

use crate::{Call, Step};
use std::collections::VecDeque;

/// A desk's bytes, the most callers, and the most buffers of one that wait.
pub const LENGTH: usize = 592;
const CALLERS: usize = 8;
const BUFFERS: usize = 16;

/// The result of an initialize or load that was refused.
pub const NOT_LOADED: u32 = 0xD901_2402;

/// A reply's first word: so many words follow it.
pub fn header(id: u32, words: u32) -> u32 {
    id << 16 | words << 6
}

impl Step {
    /// The id of the command that asks for it.
    pub fn id(&self) -> u32 {
        match self.call {
            Call::Initialize => 1,
            Call::Load => 4,
            Call::Unload => 5,
        }
    }

    /// The words of a command buffer with this id that asks for it, its module to run at this address.
    pub fn command(&self, id: u32, address: u32) -> Vec<u32> {
        let head = id << 16;
        match self.call {
            Call::Initialize => vec![head, self.base, self.size, address],
            Call::Unload => vec![head, self.base],
            Call::Load => {
                let (data, bss) = ((self.data_segment, self.data_segment_size), (self.bss_segment, self.bss_segment_size));
                let segments = [data.0, 0, data.1, bss.0, bss.1];
                let mut words = vec![head, self.base, address, self.size];
                words.extend(segments);
                words.extend([self.auto_link, self.fix_level]);
                words
            }
        }
    }
}

/// Callers by first sending, each with its waiting buffers, the oldest first; and the place at which the next turn begins to look.
#[derive(Debug, Clone, Default, PartialEq, Eq)]
pub struct Queues {
    pub places: Vec<(u32, VecDeque<u32>)>,
    pub next: usize,
}

impl Queues {
    /// What any bytes say: a count above its limit is the limit. Fewer than a desk's are none.
    pub fn of(bytes: &[u8]) -> Option<Queues> {
        let words: Vec<u32> = bytes.get(..LENGTH)?.chunks(4).map(|word| u32::from_le_bytes(word.try_into().unwrap())).collect();
        let counted = |count: u32, limit: usize| (count as usize).min(limit);
        let place = |words: &[u32]| (words[0], words[2..2 + counted(words[1], BUFFERS)].iter().copied().collect());
        let places = words[4..].chunks(18).take(counted(words[0], CALLERS)).map(place).collect();
        Some(Queues { places, next: counted(words[1], CALLERS) })
    }

    /// Their bytes.
    pub fn bytes(&self) -> Vec<u8> {
        let mut words = vec![self.places.len() as u32, self.next as u32, 0, 0];
        for (number, (caller, waiting)) in self.places.iter().enumerate() {
            words.extend([*caller, waiting.len() as u32]);
            words.extend(waiting);
            words.resize(4 + 18 * (number + 1), 0);
        }
        words.resize(LENGTH / 4, 0);
        words.into_iter().flat_map(u32::to_le_bytes).collect()
    }

    /// 8 for a ninth caller or a seventeenth buffer, else 0.
    pub fn send(&mut self, caller: u32, buffer: u32) -> u32 {
        let known = self.places.iter().position(|place| place.0 == caller);
        let place = known.unwrap_or(self.places.len());
        if known.is_none() && place < CALLERS {
            self.places.push((caller, VecDeque::new()));
        }
        match self.places.get_mut(place) {
            Some((_, waiting)) if waiting.len() < BUFFERS => waiting.push_back(buffer),
            _ => return 8,
        }
        0
    }

    /// Takes the buffer whose turn it is: the place, its caller and the buffer.
    pub fn take(&mut self) -> Option<(usize, u32, u32)> {
        let count = self.places.len();
        let mut order = (self.next..count).chain(0..count);
        let place = order.find(|&place| !self.places[place].1.is_empty())?;
        let (caller, waiting) = &mut self.places[place];
        let buffer = waiting.pop_front()?;
        self.next = place + 1;
        Some((place, *caller, buffer))
    }
}
