//! The seven families of sessions. But for the last, counts are capped so that runs stay fast: a header's count stays below some
//! thousands, unless the session itself changes it; a call that then needs too many accesses is cut.

use fillqhano::Linker;
use sessions::image::{COUNTS, HEADER};
use sessions::modules::Modules;
use sessions::{Call, Random, Room, Session, Step};

#[derive(Debug, Clone, Copy, PartialEq, Eq)]
pub enum Family {
    /// Modules as they should be, loaded and unloaded.
    WellLaid,
    /// The same with bytes, words and arguments changed.
    Damaged,
    /// Images that lie over themselves and each other, at a window's edges.
    Overlapping,
    /// More modules, exports, names and missing names than there is room for.
    Filling,
    /// Modules of which something reaches over an edge of the window.
    Reaching,
    /// Sessions of the other kinds by the host's wrapper, whose buffers grow.
    Growing,
    /// Sessions of the other kinds with counts up to 2^32 - 1.
    Uncapped,
}

impl Family {
    pub const CAPPED: [Family; 6] =
        [Family::WellLaid, Family::Damaged, Family::Overlapping, Family::Filling, Family::Reaching, Family::Growing];
    pub const ALL: [Family; 7] = {
        let [first, second, third, fourth, fifth, sixth] = Family::CAPPED;
        [first, second, third, fourth, fifth, sixth, Family::Uncapped]
    };

    pub fn name(self) -> &'static str {
        match self {
            Family::WellLaid => "well-laid",
            Family::Damaged => "damaged",
            Family::Overlapping => "overlapping",
            Family::Filling => "filling",
            Family::Reaching => "reaching",
            Family::Growing => "growing",
            Family::Uncapped => "uncapped",
        }
    }

    /// The session of a seed and a number.
    pub fn session(self, seed: u64, number: u64) -> Session {
        let mut random = Random::new(seed, self as u64, number);
        match self {
            Family::WellLaid => well_laid(&mut random),
            Family::Damaged => damaged(&mut random),
            Family::Overlapping => overlapping(&mut random),
            Family::Filling => filling(&mut random),
            Family::Reaching => reaching(&mut random),
            Family::Growing => growing(&mut random),
            Family::Uncapped => uncapped(&mut random),
        }
    }
}

fn well_laid(random: &mut Random) -> Session {
    let count = random.from_to(2, 12);
    let modules = Modules::new(random, count);
    let steps = random.from_to(1, 24);
    let steps = (0..steps).map(|index| any_step(random, &modules, index)).collect();
    modules.session(steps)
}

/// A call on a member, mostly the static module first.
fn any_step(random: &mut Random, modules: &Modules, index: u32) -> Step {
    let first = index == 0 && !random.once_in(8);
    let number = if first { 0 } else { random.below(modules.members.len() as u32) };
    let mut step = modules.members[number as usize].step;
    if step.call == Call::Initialize && !first && random.once_in(2) {
        // the static module loaded like any other
        step = Step { call: Call::Load, auto_link: 1, ..step };
    }
    if step.call == Call::Load {
        step.auto_link = random.pick(&[1, 1, 1, 0, 2]);
        step.fix_level = random.pick(&[0, 1, 1, 1, 2, 3, 4, u32::MAX]);
    }
    if !first && random.below(3) == 0 {
        step = Step::unload(step.base);
    }
    step
}

fn damaged(random: &mut Random) -> Session {
    let mut session = well_laid(random);
    for _ in 0..random.from_to(1, 8) {
        damage(random, &mut session);
    }
    if random.once_in(4) {
        damage_step(random, &mut session);
    }
    cap_counts(random, &mut session);
    session
}

/// A value that is likely to mean something: small, an offset, an address, an edge.
pub(crate) fn telling(random: &mut Random, session: &Session, base: u32) -> u32 {
    let length = session.window.len() as u32;
    match random.below(10) {
        0 => 0,
        1 => random.from_to(1, 20),
        2 => random.below(0x400),
        3 => random.below(length),
        4 => session.at.wrapping_add(random.below(length)),
        // becomes an address of the window, or of its edge, when rebased
        5 => session.at.wrapping_add(random.below(length)).wrapping_sub(base),
        6 => session.at.wrapping_add(length).wrapping_sub(base).wrapping_sub(random.below(8)),
        7 => session.at.wrapping_sub(base).wrapping_sub(random.below(8)),
        8 => random.pick(&[u32::MAX, 0x8000_0000, 0xFFFF_FFFC, 0xFFFF_3FF4, 0x7FFF_FFFF]),
        _ => random.word(),
    }
}

fn put(window: &mut [u8], place: u32, word: u32) {
    if let Some(bytes) = window.get_mut(place as usize..place as usize + 4) {
        bytes.copy_from_slice(&word.to_le_bytes());
    }
}

fn word(window: &[u8], place: u32) -> u32 {
    let bytes = window.get(place as usize..place as usize + 4);
    bytes.map_or(0, |bytes| u32::from_le_bytes(bytes.try_into().unwrap()))
}

fn some_base(random: &mut Random, session: &Session) -> u32 {
    session.steps[random.below(session.steps.len() as u32) as usize].base
}

fn damage(random: &mut Random, session: &mut Session) {
    let base = some_base(random, session);
    let place = base.wrapping_sub(session.at);
    let length = session.window.len() as u32;
    let word = telling(random, session, base);
    match random.below(10) {
        // no handler
        9 => put(&mut session.window, place + 0xAC, 0xF),
        8 => many_segments(random, &mut session.window, place),
        6 => damage_segment(random, session, base),
        7 => far_batch(random, session, base),
        // a header's word
        0 | 1 => put(&mut session.window, place + 0x80 + 4 * random.below(46), word),
        // a word behind the header
        2 | 3 => put(&mut session.window, place + HEADER + 4 * random.below(200), word),
        // a byte
        4 => session.window[random.below(length) as usize] = random.word() as u8,
        // a run copied
        _ => {
            let size = random.from_to(1, 64);
            let (from, to) = (random.below(length - size), random.below(length - size));
            session.window.copy_within(from as usize..(from + size) as usize, to as usize);
        }
    }
}

/// Changes a segment: its offset, its size or its kind. Enough is lent for whatever comes of it.
fn damage_segment(random: &mut Random, session: &mut Session, base: u32) {
    for step in session.steps.iter_mut().filter(|step| step.call == Call::Load && step.base == base) {
        (step.data_segment_size, step.bss_segment_size) = (0x1000, 0x1000);
    }
    let place = base.wrapping_sub(session.at);
    let window = &mut session.window;
    let entry = place.wrapping_add(word(window, place + 0xC8)).wrapping_add(12 * random.below(4));
    match random.below(4) {
        0 => put(window, entry, random.below(0x200)),
        1 => put(window, entry + 4, random.below(0x80)),
        _ => put(window, entry + 8, random.pick(&[0, 1, 2, 2, 3, 7])),
    }
}

/// Gives the image a table of 18 segments, more than a tag can reach, at the window's end.
fn many_segments(random: &mut Random, window: &mut [u8], place: u32) {
    let table = window.len() as u32 - 12 * 18;
    put(window, place + 0xC8, table.wrapping_sub(place));
    put(window, place + 0xCC, 18);
    for entry in (table..table + 12 * 18).step_by(12) {
        put(window, entry, random.below(0x140));
        put(window, entry + 4, random.below(0x40));
        put(window, entry + 8, random.pick(&[0, 0, 1, 2]));
    }
}

/// Lets the first named import's batch begin so far below the window that the walk's last entry is the window's first.
fn far_batch(random: &mut Random, session: &mut Session, base: u32) {
    let place = base.wrapping_sub(session.at);
    let imports = word(&session.window, place + 0x100);
    // the 0x1001st, or the one after it, which is not walked
    let walked = 12 * random.from_to(0x1000, 0x1001);
    put(&mut session.window, place.wrapping_add(imports).wrapping_add(4), session.at.wrapping_sub(base).wrapping_sub(walked));
    for (offset, word) in [(0, 8 << 4), (4, 2), (8, random.below(0x100))] {
        put(&mut session.window, offset, word);
    }
}

fn damage_step(random: &mut Random, session: &mut Session) {
    let index = random.below(session.steps.len() as u32) as usize;
    let base = session.steps[index].base;
    let word = telling(random, session, base);
    let step = &mut session.steps[index];
    match (random.below(6), step.call) {
        (0, _) => step.base = word,
        (_, Call::Unload) => step.base = step.base.wrapping_add(4),
        (1, _) => step.size = word,
        (_, Call::Initialize) => step.size = 0,
        (2, _) => step.data_segment = word,
        (3, _) => step.data_segment_size = word,
        (4, _) => step.bss_segment = word,
        _ => step.bss_segment_size = word,
    }
}

/// Makes the counts of every image that a step names small, one in 64 only middling.
fn cap_counts(random: &mut Random, session: &mut Session) {
    for step in session.steps.clone() {
        for field in COUNTS {
            let place = step.base.wrapping_sub(session.at).wrapping_add(field) as usize;
            let Some(bytes) = session.window.get(place..place.wrapping_add(4)) else {
                continue;
            };
            let count = u32::from_le_bytes(bytes.try_into().unwrap());
            let limit = if random.once_in(64) { 4000 } else { 40 };
            if count > limit {
                put(&mut session.window, place as u32, count % limit);
            }
        }
    }
}

fn overlapping(random: &mut Random) -> Session {
    let length = 0x1000 * random.pick(&[1, 1, 1, 2, 4]);
    let top = 0u32.wrapping_sub(length);
    let anywhere = 0x1000 * random.below(0xF_FFF0);
    let at = random.pick(&[0, 0, 0x1000, 0x1000, 0x2000, anywhere, top, top - 0x1000]);
    let mut session = Session { at, window: vec![0; length as usize], room: Room::PROGRAM, steps: Vec::new() };
    let count = random.from_to(1, 4);
    let mut bases = vec![soup_base(random, at, length)];
    while (bases.len() as u32) < count {
        let near = bases[0].wrapping_add(random.below(0x400)).wrapping_sub(0x200);
        let fresh = soup_base(random, at, length);
        bases.push(random.pick(&[near, fresh]));
    }
    // where the window has address 0, something stands there
    session.window[..8].fill_with(|| random.below(4) as u8 * 0x21);
    for &base in &bases {
        soup(random, &mut session, base);
        match random.below(4) {
            0 => rewriting(random, &mut session, base),
            1 => segments_over_header(random, &mut session, base),
            _ => {}
        }
    }
    for index in 0..random.from_to(1, 12) {
        let base = random_base(random, &bases);
        let step = soup_step(random, &session, base, index);
        session.steps.push(step);
    }
    cap_counts(random, &mut session);
    session
}

fn random_base(random: &mut Random, bases: &[u32]) -> u32 {
    let base = random.pick(bases);
    if random.once_in(30) {
        return random.word();
    }
    base
}

/// Where an image may begin: inside, or so that an edge cuts it.
fn soup_base(random: &mut Random, at: u32, length: u32) -> u32 {
    let start = match random.below(8) {
        0 => 0u32.wrapping_sub(random.below(0x80)),
        1 => length - random.from_to(0x84, 0x140),
        2 => random.below(length),
        3 => 0,
        _ => 4 * random.below(0x100),
    };
    at.wrapping_add(start)
}

/// Fills an image's bytes with small numbers and offsets into itself.
fn soup(random: &mut Random, session: &mut Session, base: u32) {
    let start = base.wrapping_sub(session.at);
    for field in (0x80..0x138 + 4 * random.below(0x80)).step_by(4) {
        let word = match random.below(10) {
            0..=3 => random.below(0x300),
            4 | 5 => random.below(6),
            // a relocation's kind, end mark or symbol
            6 => random.pick(&[2, 3, 10]) | random.below(4) << 8,
            7 => 0,
            _ => telling(random, session, base),
        };
        put_wrapped(session, start.wrapping_add(field), word);
    }
    let magic = random.pick(&[*b"CRO0", *b"CRO0", *b"CRS0"]);
    put_wrapped(session, start.wrapping_add(0x80), u32::from_le_bytes(magic));
    // most tables begin behind the magic, some of them in the header
    for field in (0xB0..0x138).step_by(8) {
        let offset = random.pick(&[0, 0x80, 0xB0, 0xC0, 0x100, 0x138, 0x138]) + random.below(0x80);
        put_wrapped(session, start.wrapping_add(field), offset);
        put_wrapped(session, start.wrapping_add(field + 4), random.below(8));
    }
}

/// Lets the offset of a segment lie over the count of segments.
fn segments_over_header(random: &mut Random, session: &mut Session, base: u32) {
    let start = base.wrapping_sub(session.at);
    let before = random.below(4);
    put_wrapped(session, start.wrapping_add(0xC8), 0xCC - 12 * before);
    put_wrapped(session, start.wrapping_add(0xCC), before + random.from_to(1, 3));
    put_wrapped(session, start.wrapping_add(0xD4), random.below(3));
}

/// An image whose relocations, internal ones and those of its import, write small numbers over words of its own header.
fn rewriting(random: &mut Random, session: &mut Session, base: u32) {
    let field = random.pick(&COUNTS) - random.pick(&[0, 0, 0, 4, 8]);
    let (segments, internal, external, imports, exports, name) = (0x140, 0x180, 0x1C0, 0x200, 0x230, 0x220);
    let mut image = vec![(0x80, u32::from_le_bytes(*b"CRO0")), (0xAC, random.pick(&[1, 0x41])), (name, 0x66)];
    let tables = [(0xC8, segments, 2), (0x128, internal, random.from_to(1, 5)), (0xF8, external, random.below(4))];
    let linked = [(0x100, imports, 2), (0xD0, exports, 1), (0xF0, 0, 0), (0xC0, name, 2)];
    for (at, table, count) in tables.into_iter().chain(linked) {
        image.extend([(at, table), (at + 4, count)]);
    }
    image.extend([(segments, field), (segments + 4, 0x40), (segments + 8, 0)]);
    image.extend([(segments + 12, 0x138), (segments + 16, 0x200), (segments + 20, 0)]);
    image.extend([(imports, name), (imports + 4, external), (imports + 8, name), (imports + 12, external + 12)]);
    image.extend([(exports, name), (exports + 4, 0x81)]);
    for entry in (internal..internal + 60).chain(external..external + 48).step_by(12) {
        let symbol = base.wrapping_add(if entry < external { field } else { 0x140 });
        let small = random.pick(&[0, 1, 3, 6, 20, 0x180, 0x240]);
        let kind = random.pick(&[2, 2, 3]) | if entry < external { 0 } else { random.below(2) << 8 };
        image.extend([(entry, random.below(4) << 6), (entry + 4, kind), (entry + 8, (small as u32).wrapping_sub(symbol))]);
    }
    let start = base.wrapping_sub(session.at);
    for (offset, word) in image {
        put_wrapped(session, start.wrapping_add(offset), word);
    }
}

fn put_wrapped(session: &mut Session, place: u32, word: u32) {
    for (index, byte) in word.to_le_bytes().into_iter().enumerate() {
        if let Some(at) = session.window.get_mut(place.wrapping_add(index as u32) as usize) {
            *at = byte;
        }
    }
}

fn soup_step(random: &mut Random, session: &Session, base: u32, index: u32) -> Step {
    let size = random.pick(&[0x138, 0x200, 0x400, 0x1000, 0x2000]);
    let address = |random: &mut Random| session.at.wrapping_add(random.below(session.window.len() as u32));
    match random.below(8) {
        0 | 1 if index > 0 => Step::unload(base),
        2 => Step::initialize(base, size),
        _ => Step {
            call: Call::Load,
            base,
            size,
            data_segment: address(random),
            data_segment_size: random.pick(&[0, 0x10, 0x400, 0x4000, u32::MAX]),
            bss_segment: address(random),
            bss_segment_size: random.pick(&[0, 0x10, 0x400, 0x4000, u32::MAX]),
            auto_link: random.pick(&[1, 1, 1, 0, 7]),
            fix_level: random.pick(&[0, 1, 1, 2, 3, 4]),
        },
    }
}

fn filling(random: &mut Random) -> Session {
    let count = random.from_to(2, 10);
    let modules = Modules::new(random, count);
    let long = random.once_in(6);
    let steps = if long { 120 } else { random.pick(&[6, 12, 30]) };
    let loads = (0..steps).map(|index| any_step(random, &modules, index));
    let loads = loads.filter(|step| step.call != Call::Unload).collect();
    let mut session = modules.session(loads);
    if session.steps.is_empty() {
        session.steps.push(modules.members[0].step);
    }
    for _ in 0..random.below(6) {
        grow(random, &mut session);
    }
    for index in 0..session.steps.len() {
        if random.once_in(40) {
            session.steps[index] = Step::unload(session.steps[index].base);
        }
    }
    if long || random.once_in(4) {
        session.room = Room::Bytes { records: 1 << 16, names: 1 << 16 };
        return session;
    }
    let room = random.pick(&[32, 100, 400, 1000, 3000, 16_384]);
    let records = (room + random.below(room)) as usize;
    let room = random.pick(&[0, 1, 30, 100, 400, 2000, 16_384]);
    let names = (room + random.below(room + 1)) as usize;
    session.room = Room::Bytes { records, names };
    session
}

/// More exports, more imports or longer names than an image has.
fn grow(random: &mut Random, session: &mut Session) {
    let base = some_base(random, session);
    let place = base.wrapping_sub(session.at);
    let length = session.window.len() as u32;
    match random.below(4) {
        0 => put(&mut session.window, place + COUNTS[2], random.below(3000)),
        1 => put(&mut session.window, place + COUNTS[1], random.below(100)),
        // many named imports, most of them of names that nothing provides
        2 => put(&mut session.window, place + COUNTS[5], random.from_to(20, 90)),
        _ => {
            // a long string, as long as a name may be or longer
            let size = random.pick(&[200, 511, 512, 513, 600]);
            let start = random.below(length - size);
            session.window[start as usize..(start + size) as usize].fill(b'x');
            put(&mut session.window, place + 0xC0, start.wrapping_sub(place));
        }
    }
}

fn reaching(random: &mut Random) -> Session {
    let mut session = well_laid(random);
    let length = session.window.len() as u32;
    match random.below(8) {
        0 => move_to(&mut session, 0),
        1 => move_to(&mut session, 0u32.wrapping_sub(length)),
        2 => lists_at_0(random, &mut session),
        3 => drop_page(random, &mut session),
        _ => {}
    }
    for _ in 0..random.from_to(1, 2) {
        reach(random, &mut session);
    }
    if random.once_in(4) {
        // a module whose magic lies at an edge
        let base = edge(random, &session).wrapping_sub(0x80);
        let step = random.pick(&session.steps);
        session.steps.push(Step { base, ..step });
    }
    if random.once_in(4) {
        session.room = Room::Bytes { records: 32 + random.below(400) as usize, names: random.below(100) as usize };
    }
    cap_counts(random, &mut session);
    session
}

/// Puts the window elsewhere, and the modules with it. A static module's segments, which are addresses, stay behind.
fn move_to(session: &mut Session, at: u32) {
    let by = at.wrapping_sub(session.at);
    session.at = at;
    for step in &mut session.steps {
        for address in [&mut step.base, &mut step.data_segment, &mut step.bss_segment] {
            *address = address.wrapping_add(by);
        }
    }
}

/// Has for its static module one at the end of a window at the top, whose list fields lie at address 0, or close to it. Where its
/// record leaves at once, the lists are all that is left of it.
fn lists_at_0(random: &mut Random, session: &mut Session) {
    let length = session.window.len() as u32;
    move_to(session, 0u32.wrapping_sub(length));
    let base = random.pick(&[0xFFFF_FF78, 0xFFFF_FF78, 0xFFFF_FF74, 0xFFFF_FF76]);
    put_wrapped(session, base - session.at + 0x80, u32::from_le_bytes(*b"CRS0"));
    session.steps.retain(|step| step.call != Call::Initialize);
    session.steps.insert(0, Step::initialize(base, 0x138));
    if random.once_in(2) {
        session.steps.insert(1, Step::unload(base));
    }
}

/// Lets the window end a page sooner, or begin a page later, whatever lies there.
fn drop_page(random: &mut Random, session: &mut Session) {
    if random.once_in(2) {
        session.window.truncate(session.window.len() - 0x1000);
    } else {
        session.window.drain(..0x1000);
        session.at += 0x1000;
    }
}

/// An address so close to the window's end, or to its beginning, that what begins there may lie across.
fn edge(random: &mut Random, session: &Session) -> u32 {
    let before = [random.below(5), 4 * random.below(6), random.below(64)];
    let before = random.pick(&before);
    let end = session.at.wrapping_add(session.window.len() as u32);
    random.pick(&[end, end, end, session.at]).wrapping_sub(before)
}

/// Lets a table, an entry's pointer, a name, a segment or a lent area of a module begin at an edge.
fn reach(random: &mut Random, session: &mut Session) {
    let base = some_base(random, session);
    let place = base.wrapping_sub(session.at);
    let edge = edge(random, session);
    let offset = edge.wrapping_sub(base);
    if random.once_in(2) {
        // no zero stands at the end, so that names run over it, and marks are found there
        let end = session.window.len();
        session.window[end - random.below(24) as usize..].fill(random.pick(&[1, b'x']));
    }
    match random.below(11) {
        0 => put_wrapped(session, place.wrapping_add(0xB0 + 8 * random.below(17)), offset),
        1 | 2 => cut_table(random, session, place),
        3 => put_wrapped(session, place.wrapping_add(0xC0), offset),
        4 | 5 => reach_from_entry(random, session, place, offset),
        6 => {
            let entry = entry_of(random, session, place, 0xC8, 12);
            put_wrapped(session, entry, offset);
            put_wrapped(session, entry.wrapping_add(4), random.from_to(1, 0x200));
        }
        7 | 8 => segments_across(random, session, base),
        9 => batch_over_end(random, session, place),
        _ => {
            for step in session.steps.iter_mut().filter(|step| step.call == Call::Load && step.base == base) {
                match random.once_in(2) {
                    true => step.data_segment = edge,
                    false => step.bss_segment = edge,
                }
            }
        }
    }
}

/// Moves a table, often that of module entries, to the window's end, which mostly cuts its last entry.
fn cut_table(random: &mut Random, session: &mut Session, place: u32) {
    let tables = [(0xC8, 12), (0xD0, 8), (0xD8, 4), (0xF8, 12), (0x100, 8), (0x108, 8), (0x110, 8), (0x128, 12)];
    let (field, size) = if random.once_in(4) { (0xF0, 20) } else { random.pick(&tables) };
    let table = place.wrapping_add(word(&session.window, place.wrapping_add(field)));
    let count = word(&session.window, place.wrapping_add(field + 4)).clamp(1, 40);
    let outside = random.pick(&[0, 1, 2, 4, 4, size / 2, size]).min(size);
    let inside = (count * size - outside) as usize;
    let to = session.window.len() - inside;
    if table as usize <= to {
        session.window.copy_within(table as usize..table as usize + inside, to);
        put_wrapped(session, place.wrapping_add(field), (to as u32).wrapping_sub(place));
        put_wrapped(session, place.wrapping_add(field + 4), count);
    }
}

/// The place of one of the entries, of this size, of the table that a header's field points at.
fn entry_of(random: &mut Random, session: &Session, place: u32, field: u32, size: u32) -> u32 {
    let table = word(&session.window, place.wrapping_add(field));
    let count = word(&session.window, place.wrapping_add(field + 4));
    place.wrapping_add(table).wrapping_add(size * random.below(count.clamp(1, 40)))
}

/// Lets a pointer of an entry, to a name, a batch or a run of imports, point there.
fn reach_from_entry(random: &mut Random, session: &mut Session, place: u32, offset: u32) {
    let (field, size, pointer) = random.pick(&[
        (0xD0, 8, 0),
        (0xF0, 20, 0),
        (0xF0, 20, 4),
        (0xF0, 20, 12),
        (0x100, 8, 0),
        (0x100, 8, 4),
        (0x108, 8, 4),
        (0x110, 8, 4),
    ]);
    let entry = entry_of(random, session, place, field, size);
    put_wrapped(session, entry.wrapping_add(pointer), offset);
}

/// Lets the batch of a named import begin so that its second or third entry lies across the window's end; no end mark stands there.
fn batch_over_end(random: &mut Random, session: &mut Session, place: u32) {
    let entry = entry_of(random, session, place, 0x100, 8);
    let length = session.window.len() as u32;
    let batch = length - random.from_to(12, 36);
    session.window[batch as usize..].fill(0);
    put_wrapped(session, entry.wrapping_add(4), batch.wrapping_sub(place));
}

/// Lets the table of segments lie across an edge, with an offset inside so great that it is refused: in the first entry at the
/// window's beginning, or in the one that the end cuts.
fn segments_across(random: &mut Random, session: &mut Session, base: u32) {
    let place = base.wrapping_sub(session.at);
    let before = random.from_to(1, 3);
    let length = session.window.len() as u32;
    let great = if random.once_in(2) { 0 } else { length - 4 };
    put(&mut session.window, great, 0x007A_7A7A);
    put_wrapped(session, place.wrapping_add(0xC8), great.wrapping_sub(12 * before).wrapping_sub(place));
    put_wrapped(session, place.wrapping_add(0xCC), before + random.below(3));
}

/// Where a limit is met it is often a small one: the wrapper's own is far above what these windows can ask for.
fn growing(random: &mut Random) -> Session {
    let mut session = match random.below(4) {
        0 => well_laid(random),
        1 => damaged(random),
        2 => overlapping(random),
        _ => filling(random),
    };
    let small = random.pick(&[0, 0x40, 0x200, 0x800]) + random.below(0x400) as usize;
    session.room = Room::Growing { limit: if random.once_in(4) { small } else { Linker::LIMIT } };
    session
}

fn uncapped(random: &mut Random) -> Session {
    let mut session = match random.below(5) {
        0 | 1 => well_laid(random),
        2 => damaged(random),
        3 => overlapping(random),
        _ => reaching(random),
    };
    for _ in 0..random.from_to(1, 2) {
        uncap(random, &mut session);
    }
    if random.once_in(4) {
        session.room = Room::Growing { limit: Linker::LIMIT };
    }
    session
}

/// Makes a count of an image, or one of a module entry of it, great. Its table often begins near an edge of the window, so that its
/// entries leave the window, or come back to it, anywhere in an entry.
fn uncap(random: &mut Random, session: &mut Session) {
    let base = some_base(random, session);
    let place = base.wrapping_sub(session.at);
    let field = random.pick(&COUNTS);
    let count = if random.once_in(4) {
        let entry = entry_of(random, session, place, 0xF0, 20);
        entry.wrapping_add(random.pick(&[8, 16]))
    } else {
        place.wrapping_add(field)
    };
    let many = great(random);
    put_wrapped(session, count, many);
    if random.once_in(2) {
        let near = edge(random, session).wrapping_sub(random.below(0x400));
        let far = random.word();
        let table = random.pick(&[near, near, near, far]);
        put_wrapped(session, count.wrapping_sub(4), table.wrapping_sub(base));
    }
}

/// A number of 8 to 32 bits, or one of the greatest.
fn great(random: &mut Random) -> u32 {
    if random.once_in(16) {
        return u32::MAX - random.below(16);
    }
    let bits = random.from_to(8, 32);
    (random.word() | 1 << 31) >> (32 - bits)
}
