//! Calls that are lent a window that breaks its rule (number 3), or buffers that are no register (number 4); and wrong ways to
//! tell a touch, which the comparison has to notice.

use crate::encoding::encode;
use crate::under_test::{state, Buffers};
use fillqhano::raw::{Answer, Turned};
use oracle::memory::{Kind, Outside, Watch};
use sessions::{Random, Step};

/// How a touch is told from what is noted of a call.
pub type Told = fn(&Watch) -> Option<u32>;

/// Wrong ways to tell it.
pub const WRONGLY_TOLD: [(&str, Told); 6] = [
    ("the first byte outside and not the start", |watch| watch.outside.first().map(|access| access.byte)),
    ("a later touch is kept", |watch| watch.outside.last().map(|access| access.start)),
    ("a write is not counted", |watch| first_of(watch, |access| access.kind != Kind::Write)),
    ("a name's byte is not counted", |watch| first_of(watch, |access| access.kind != Kind::NameByte)),
    ("an access that starts inside is not counted", |watch| first_of(watch, |access| access.byte == access.start)),
    ("a touch at address 0 is none", |watch| watch.touch().filter(|&start| start != 0)),
];

fn first_of(watch: &Watch, counts: fn(&Outside) -> bool) -> Option<u32> {
    watch.outside.iter().find(|access| counts(access)).map(|access| access.start)
}

/// Makes the call on a copy with one of eight faults. Gives its number, or what differs from a refusal that changes nothing.
pub fn refused(buffers: &Buffers, step: &Step, random: &mut Random) -> Result<u32, String> {
    // the library's own functions, since the wrapper takes no such register
    let mut broken = Buffers { limit: None, ..buffers.clone() };
    let number = break_one(&mut broken, random);
    let before = broken.clone();
    let given = broken.call(step);
    if given == Answer::new(number, 0, None) && broken == before {
        return Ok(number);
    }
    let changed = broken != before;
    Err(format!("with a bad window or register: {given:x?}, changed: {changed}, and it should be {number}"))
}

/// The same of a turn of the desk, which may not change either.
pub fn turn_refused(buffers: &Buffers, desk: &[u8], random: &mut Random) -> Result<u32, String> {
    let mut broken = (Buffers { limit: None, ..buffers.clone() }, desk.to_vec());
    let number = break_one(&mut broken.0, random);
    let before = broken.clone();
    let given = broken.0.turn(&mut broken.1);
    if given == (Turned { number, ..Turned::default() }) && broken == before {
        return Ok(number);
    }
    let changed = broken != before;
    Err(format!("with a bad window or register: {given:x?}, changed: {changed}, and it should be {number}"))
}

/// Breaks the window (3) or the register (4).
fn break_one(buffers: &mut Buffers, random: &mut Random) -> u32 {
    match random.below(8) {
        0 => buffers.at = buffers.at.wrapping_add(random.from_to(1, 0xFFF)),
        1 => buffers.window.truncate(buffers.window.len() - random.from_to(1, 0xFFF) as usize),
        2 => buffers.window.clear(),
        3 => {
            // 3 comes before 4
            buffers.at = buffers.at.wrapping_add(0x800);
            buffers.missing.truncate(5);
        }
        other => return break_register(buffers, random, other),
    }
    3
}

fn break_register(buffers: &mut Buffers, random: &mut Random, way: u32) -> u32 {
    match way {
        4 => buffers.records[0] = 65,
        5 => buffers.records.truncate(random.below(32) as usize),
        // where no record has two exports the missing list is a byte short
        6 if exchange_exports(buffers, random) => (),
        6 => buffers.missing.truncate(buffers.missing.len() - 1),
        _ => {
            // a byte after the last name, or a zero in one of 512 bytes
            let last = buffers.missing.last_mut().unwrap();
            *last = if *last == 0 { 0xFF } else { 0 };
        }
    }
    4
}

/// Exchanges two named exports of a record, their names too: all but their order is as it should be. False where no record
/// has two.
fn exchange_exports(buffers: &mut Buffers, random: &mut Random) -> bool {
    let mut state = state(&buffers.linker().expect("every call leaves a register"));
    let wide: Vec<usize> = (0..state.modules.len()).filter(|&index| state.modules[index].exports.len() > 1).collect();
    if wide.is_empty() {
        return false;
    }
    let exports = &mut state.modules[random.pick(&wide)].exports;
    let second = random.from_to(1, exports.len() as u32 - 1);
    exports.swap(random.below(second) as usize, second as usize);
    encode(&state, buffers);
    true
}
