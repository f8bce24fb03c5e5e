//! A table that lies over its own header's counts: a rebase moves the count of indexed exports like a pointer, and the
//! record then has no room. docs/BENCHMARKS.md, "Hostile counts", has two such rows. Without the Rust's sources only the
//! linker's side is run.

use differential::compare::compare;
use differential::under_test::{state, Buffers};
use oracle::Oracle;
use sessions::{Call, Room, Session, Step};

const AT: u32 = 0x1000;
const INDEXED_COUNT: u32 = 0xDC;
const MODULE_ENTRIES: u32 = 0xF0;
const NAMED_IMPORTS: u32 = 0x100;

/// What the records need for a module of so many indexed exports, and nothing else.
fn records(indexed: u32) -> usize {
    32 + 32 + 4 * indexed as usize
}

/// A page with a magic, a name, one indexed export, and one entry in this table. The entry's word at `pointer`, which a
/// rebase moves, is the count of indexed exports.
fn session(table: u32, pointer: u32, records: usize) -> Session {
    let mut window = vec![0; 0x1000];
    let name = [(0xC0, 0x138), (0x138, u32::from(b'm'))];
    let words = [(0x80, u32::from_le_bytes(*b"CRO0")), (INDEXED_COUNT, 1), (table, INDEXED_COUNT - pointer), (table + 4, 1)];
    for (at, word) in words.into_iter().chain(name) {
        window[at as usize..][..4].copy_from_slice(&word.to_le_bytes());
    }
    let load = Step { call: Call::Load, auto_link: 1, ..Step::initialize(AT, 0x1000) };
    Session { at: AT, window, room: Room::Bytes { records, names: 1 }, steps: vec![load] }
}

fn indexed_count(window: &[u8]) -> u32 {
    u32::from_le_bytes(window[INDEXED_COUNT as usize..][..4].try_into().unwrap())
}

/// The call's answer, the count that it left in the header, and the indexed exports recorded.
fn linker(session: &Session) -> ((u32, u32), u32, usize) {
    let mut buffers = Buffers::of(session);
    let answer = buffers.call(&session.steps[0]);
    let modules = state(&buffers.linker().unwrap()).modules;
    (
        (answer.number, answer.value),
        indexed_count(&buffers.window),
        modules.first().map_or(0, |module| module.indexed_exports.len()),
    )
}

fn rust(session: &Session) -> Option<((u32, u32), u32, usize)> {
    let mut oracle = Oracle::new(session.at, session.window.clone())?;
    let answer = oracle.call_within(&session.steps[0], u64::MAX).unwrap();
    let indexed = oracle.state().modules[0].indexed_exports.len();
    Some((answer, indexed_count(oracle.window()), indexed))
}

fn one_entry_moves_the_count(table: u32, pointer: u32) {
    let count = 1 + AT;
    let full = session(table, pointer, records(count) - 1);
    assert_eq!(linker(&full), ((5, 0), count, 0));
    let roomy = session(table, pointer, records(count));
    let done = ((0, 0), count, count as usize);
    assert_eq!(linker(&roomy), done);
    // the Rust has no bound, and takes all of them in
    assert!(rust(&full).is_none_or(|given| given == done));
    for session in [full, roomy] {
        assert!(compare(&session).is_none_or(|compared| compared.mismatch.is_none() && compared.tally.compared() == 1));
    }
}

#[test]
fn a_module_entry_over_the_count_of_indexed_exports() {
    for pointer in [0, 4, 12] {
        one_entry_moves_the_count(MODULE_ENTRIES, pointer);
    }
}

#[test]
fn a_named_import_over_the_count_of_indexed_exports() {
    for pointer in [0, 4] {
        one_entry_moves_the_count(NAMED_IMPORTS, pointer);
    }
}
