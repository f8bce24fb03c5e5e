//! Request 3's worked example on both sides: the desk and the Rust's `handle` leave the same bytes. Without the Rust's sources only the desk's side
//! is run, in host/tests/desk.rs.

use differential::desk::{compare, Request, Requests};
use sessions::{Room, Session};

/// The page's window, a module at its beginning, and its five buffers, all sent before the first is served.
fn example() -> Requests {
    let mut window = vec![0; 0x2000];
    window[0x080..0x084].copy_from_slice(b"CRO0");
    window[0x0B0..0x0B2].copy_from_slice(&[0x38, 0x01]);
    window[0x0B4] = 0x10;
    let request = |caller, buffer, words: &[u32]| Request { caller, buffer, words: words.to_vec() };
    let round = vec![
        request(7, 0x101000, &[0x0004_02C2, 0x100000, 0, 0x1000, 0, 0, 0, 0, 0, 0x101, 1, 0, 0]),
        request(7, 0x101100, &[0x0005_0082, 0x100000, 0]),
        request(9, 0x101200, &[0x0001_00C2, 0x100800, 0x800, 0x300000, 0]),
        request(5, 0x101300, &[0x000A_0000, 1, 2]),
        request(5, 0x101400, &[0x0004_02C2, 0x100800, 0x100800, 0x800, 0, 0, 0, 0, 0, 0x100, 0, 0, 0]),
    ];
    let session = Session { at: 0x100000, window, room: Room::PROGRAM, steps: Vec::new() };
    Requests { session, rounds: vec![round] }
}

#[test]
fn the_worked_example_is_the_rusts() {
    let Some(compared) = compare(&example()) else {
        return println!("the Rust's sources are not at hand: nothing is compared");
    };
    assert_eq!(compared.mismatch, None);
    let turns = compared.answers.iter().map(|(turned, _)| (turned.number, turned.value, turned.served, turned.caller));
    let page = [(0, 0x1000, 1, 7), (9, 0, 1, 9), (0, 0, 2, 5), (0, 1, 1, 7), (1, 0, 1, 5)];
    assert_eq!(turns.collect::<Vec<_>>(), page);
}
