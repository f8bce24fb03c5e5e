//! The stored sessions of crates/session_cases: files, and what the session program prints for each.

const STDIN: &[u8] = include_bytes!("../../../crates/session_cases/stdin");
const STDOUT: &str = include_str!("../../../crates/session_cases/stdout");

/// How many of them, the first ones, have their text from the Rust; those of the others were written by hand.
pub const FROM_THE_RUST: usize = 114;

fn word(at: usize) -> usize {
    u32::from_le_bytes(STDIN[at..at + 4].try_into().unwrap()) as usize
}

/// How many there are.
pub fn count() -> usize {
    word(0)
}

/// The files, each laid out from its pieces, and their texts.
pub fn all() -> Vec<(Vec<u8>, &'static str)> {
    let mut at = 4;
    let texts = STDOUT.split("case ").skip(1).map(|text| text.split_once('\n').unwrap().1);
    texts
        .map(|text| {
            let (mut file, pieces) = (vec![0; word(at)], word(at + 4));
            at += 8;
            for _ in 0..pieces {
                let (start, length) = (word(at), word(at + 4));
                file[start..start + length].copy_from_slice(&STDIN[at + 8..at + 8 + length]);
                at += 8 + length.next_multiple_of(4);
            }
            (file, text)
        })
        .collect()
}
