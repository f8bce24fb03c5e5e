//! What a command buffer asks for, read from request 3's page.

use crate::needed::Memory;
use sessions::{Call, Step};

#[derive(Debug, Clone, Copy, PartialEq, Eq)]
pub enum Asked {
    /// One of the linker's calls.
    Call(Step),
    /// An initialize or load with another address.
    Elsewhere,
    /// A command that is only acknowledged.
    Nothing,
    /// An id outside 1 to 9.
    Unknown,
}

/// The id and the command of the buffer at this address.
pub fn asked(at: u32, window: &[u8], buffer: u32) -> (u32, Asked) {
    let memory = Memory { at, window };
    let word = |index: u32| memory.word(buffer.wrapping_add(4 * index));
    let in_place = |address: u32| address == 0 || address == word(1);
    let id = word(0) >> 16;
    let asked = match id {
        1 if in_place(word(3)) => Asked::Call(Step::initialize(word(1), word(2))),
        4 | 9 if in_place(word(2)) => Asked::Call(Step {
            call: Call::Load,
            base: word(1),
            size: word(3),
            data_segment: word(4),
            data_segment_size: word(6),
            bss_segment: word(7),
            bss_segment_size: word(8),
            auto_link: word(9) & 0xFF,
            fix_level: word(10),
        }),
        1 | 4 | 9 => Asked::Elsewhere,
        5 => Asked::Call(Step::unload(word(1))),
        2 | 3 | 6 | 7 | 8 => Asked::Nothing,
        _ => Asked::Unknown,
    };
    (id, asked)
}

/// Writes words from an address on; bytes outside the window are dropped.
pub fn put_words(at: u32, window: &mut [u8], address: u32, words: &[u32]) {
    for (index, byte) in words.iter().flat_map(|word| word.to_le_bytes()).enumerate() {
        let place = address.wrapping_add(index as u32).wrapping_sub(at) as usize;
        if let Some(at) = window.get_mut(place) {
            *at = byte;
        }
    }
}
