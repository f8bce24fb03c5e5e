//! The lines of docs/DIFFERENCES.md, each by its smallest input, on both sides where the Rust has an answer.
//! Without the Rust's sources only the linker's side is run.

use differential::compare::compare;
use differential::under_test::{state, Buffers};
use oracle::Oracle;
use sessions::image::{tag, Image, Relocation};
use sessions::{Call, Room, Session, Step};

const AT: u32 = 0x0010_0000;

fn load(base: u32, size: u32) -> Step {
    Step { call: Call::Load, auto_link: 1, ..Step::initialize(base, size) }
}

fn session(at: u32, image: &Image, pages: usize) -> Session {
    let mut window = image.bytes();
    let size = window.len() as u32;
    assert!(window.len() <= 0x1000 * pages);
    window.resize(0x1000 * pages, 0);
    Session { at, window, room: Room::PROGRAM, steps: vec![load(at, size)] }
}

fn module() -> Image {
    Image { name: b"m".to_vec(), handler: tag(0, 4), sizes: [0x40, 0, 0, 0], ..Image::default() }
}

/// The linker after the session's steps, and each step's number and value.
fn linker(session: &Session) -> (Buffers, Vec<(u32, u32)>) {
    let mut buffers = Buffers::of(session);
    let answers = session.steps.iter().map(|step| called(&mut buffers, step)).collect();
    (buffers, answers)
}

fn called(buffers: &mut Buffers, step: &Step) -> (u32, u32) {
    let answer = buffers.call(step);
    (answer.number, answer.value)
}

/// The Rust after the session's steps, if it is at hand.
fn rust(session: &Session) -> Option<Oracle> {
    let mut oracle = Oracle::new(session.at, session.window.clone())?;
    for step in &session.steps {
        oracle.call_within(step, u64::MAX).unwrap();
    }
    Some(oracle)
}

fn exports(buffers: &Buffers) -> usize {
    state(&buffers.linker().unwrap()).modules[0].exports.len()
}

#[test]
fn line_1_names_that_are_not_utf8() {
    let mut image = module();
    image.exports = vec![(vec![0xFF], tag(0, 0)), (vec![0xFE], tag(0, 4))];
    let session = session(AT, &image, 1);
    assert_eq!(exports(&linker(&session).0), 2);
    if let Some(rust) = rust(&session) {
        assert_eq!(rust.state().modules[0].exports.len(), 1);
        assert!(compare(&session).unwrap().mismatch.is_none());
    }
}

#[test]
fn line_2_a_batch_near_the_top() {
    let at = 0xFFFF_4000;
    let mut image = module();
    image.exports = vec![(b"f".to_vec(), tag(0, 0))];
    let relocation = |offset| Relocation { tag: tag(0, offset), kind: 2, addend: 0 };
    image.imports = vec![(b"f".to_vec(), vec![relocation(8), relocation(12)])];
    let session = session(at, &image, 1);
    // the batch's first entry has no end mark: the Rust stops after it all the same
    let (buffers, _) = linker(&session);
    assert_eq!(buffers.window[0x140..0x144], buffers.window[0x144..0x148]);
    if let Some(rust) = rust(&session) {
        let window = rust.window();
        assert_eq!(window[0x140..0x144], buffers.window[0x140..0x144]);
        assert_eq!(window[0x144..0x148], (at + 0x13C).to_le_bytes());
        assert_eq!(compare(&session).unwrap().tally.high_differences, 1);
    }
}

#[test]
fn line_3_seventeen_segments() {
    let mut session = session(AT, &module(), 1);
    session.window[0xC8..0xCC].copy_from_slice(&0x800u32.to_le_bytes());
    session.window[0xCC] = 17;
    let (buffers, answers) = linker(&session);
    assert_eq!(answers, [(0, 0)]);
    assert_eq!(state(&buffers.linker().unwrap()).modules[0].segments.len(), 16);
    assert!(compare(&session).is_none_or(|compared| compared.mismatch.is_none()));
}

#[test]
fn line_4_the_fixed_size_wraps() {
    // a module at address 0, whose code ends at 0xFFFFF000 or right after it
    let mut session = session(0, &module(), 1);
    session.steps[0] = Step { fix_level: 1, size: u32::MAX, ..session.steps[0] };
    for (end, fixed) in [(0xFFFF_F000u32, 0xFFFF_F000), (0xFFFF_F001, 0), (0xFFFF_FFFF, 0)] {
        session.window[0xB4..0xB8].copy_from_slice(&(end - 0x138).to_le_bytes());
        assert_eq!(linker(&session).1, [(0, fixed)]);
        assert!(compare(&session).is_none_or(|compared| compared.mismatch.is_none()));
    }
}

#[test]
fn line_5_a_window_of_4095() {
    let mut session = session(AT, &module(), 1);
    session.window.pop();
    session.steps.push(Step::unload(AT));
    let (buffers, answers) = linker(&session);
    assert_eq!(answers, [(3, 0), (3, 0)]);
    assert!(buffers.window == session.window);
}

#[test]
fn line_6_a_module_count_of_65() {
    let session = session(AT, &module(), 1);
    let mut buffers = Buffers::new(AT, session.window.clone(), 0x4000, 0x4000);
    buffers.records[0] = 65;
    let before = buffers.clone();
    assert_eq!(called(&mut buffers, &session.steps[0]), (4, 0));
    assert_eq!(called(&mut buffers, &Step::unload(1)), (4, 0));
    assert!(buffers == before);
}

#[test]
fn lines_7_and_8_no_room() {
    let mut session = session(AT, &module(), 1);
    session.room = Room::Bytes { records: 32, names: 0x4000 };
    assert_eq!(linker(&session).1, [(5, 0)]);
    assert!(compare(&session).is_none_or(|compared| compared.mismatch.is_none()));
    // a page of zeros is 1, also where there is no room
    session.window.fill(0);
    assert_eq!(linker(&session).1, [(1, 0)]);
}

#[test]
fn line_10_as_many_exports_as_can_be() {
    let mut session = session(AT, &module(), 1);
    session.window[0xDC..0xE0].fill(0xFF);
    assert_eq!(linker(&session).1, [(5, 0)]);
}

#[test]
fn line_11_auto_link_2_and_the_value_of_unload() {
    let mut session = session(AT, &module(), 1);
    session.steps[0].auto_link = 2;
    let (buffers, _) = linker(&session);
    assert!(state(&buffers.linker().unwrap()).modules[0].auto_link);
    session.steps.extend([Step::unload(AT), Step::unload(AT)]);
    assert_eq!(linker(&session).1, [(0, 0), (0, 1), (0, 0)]);
    assert!(compare(&session).is_none_or(|compared| compared.mismatch.is_none()));
}

#[test]
fn line_12_as_many_segments_as_can_be() {
    let mut session = session(AT, &module(), 1);
    session.window[0xCC..0xD0].fill(0xFF);
    session.steps = vec![Step::initialize(AT, 0x1000)];
    let (buffers, answers) = linker(&session);
    assert_eq!(answers, [(0, 0)]);
    assert_eq!(state(&buffers.linker().unwrap()).modules[0].segments.len(), 16);
}
