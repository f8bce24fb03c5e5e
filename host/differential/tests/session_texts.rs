//! The texts of the stored sessions (crates/session_cases) are what the Rust gives: each session is run on it and on the linker,
//! and what the session program should print is made from the Rust's answers. Those of the first kind have to be shown so; of
//! those written by hand, every one that the Rust can answer. Without the Rust's sources nothing is compared.

use differential::compare::compare;
use differential::{cases, text};
use sessions::Session;

/// How many of those written by hand it can answer: no bad file, no bad window, room for all.
const BY_HAND: usize = 76;

/// What the Rust gives for a session file, if every call of it has an answer there.
fn of_the_rust(file: &[u8]) -> Option<String> {
    let session = Session::from_file(file)?;
    if !is_window(&session) {
        return None;
    }
    let compared = compare(&session)?;
    assert_eq!(compared.mismatch, None);
    text::printed(&session, &compared)
}

/// The Rust has no rule for a window, and no number 3.
fn is_window(session: &Session) -> bool {
    let (at, length) = (session.at as u64, session.window.len() as u64);
    length > 0 && at % 0x1000 == 0 && length % 0x1000 == 0 && at + length <= 1 << 32
}

#[test]
fn every_text_is_the_rusts() {
    let cases = cases::all();
    assert_eq!(cases.len(), cases::count());
    let (from_the_rust, by_hand) = cases.split_at(cases::FROM_THE_RUST);
    if !oracle::AT_HAND {
        println!("the Rust's sources are not at hand: no text is compared");
        return;
    }
    for (number, (file, text)) in from_the_rust.iter().enumerate() {
        assert_eq!(of_the_rust(file).as_deref(), Some(*text), "case {}", number + 1);
    }
    let mut held = 0;
    for (number, (file, text)) in by_hand.iter().enumerate().filter(|case| case.1 .1 != "session bad\n") {
        if let Some(expected) = of_the_rust(file) {
            assert_eq!(expected, *text, "case {}", cases::FROM_THE_RUST + number + 1);
            held += 1;
        }
    }
    assert_eq!(held, BY_HAND, "so many texts written by hand were compared");
}
