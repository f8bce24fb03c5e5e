//! The wrapper: what it reads from the register, its refusals, its room, and saved states.

use fillqhano::{Area, Error, Linker, LoadArguments, StateError, Window, MISSING_LENGTH};
use sessions::image::{tag, Image, Relocation};

const AT: u32 = 0x0010_0000;

/// A module of two exports by name, two by index, and an import that nothing provides.
fn memory() -> Vec<u8> {
    let image = Image {
        name: b"module".to_vec(),
        handler: tag(0, 4),
        sizes: [0x40, 0, 8, 16],
        exports: vec![(b"b".to_vec(), tag(0, 8)), (b"a".to_vec(), tag(3, 12))],
        indexed: vec![tag(2, 4), tag(2, 8)],
        imports: vec![(b"nobody's".to_vec(), vec![Relocation { tag: tag(0, 12), kind: 2, addend: 0 }])],
        ..Image::default()
    };
    let mut memory = image.bytes();
    memory.resize(0x2000, 0);
    memory
}

fn window(memory: &mut [u8]) -> Window<'_> {
    Window { at: AT, bytes: memory }
}

const MODULE: LoadArguments = LoadArguments {
    base: AT,
    size: 0x1000,
    data_segment: Area { at: AT + 0x1000, size: 8 },
    bss_segment: Area { at: AT + 0x1100, size: 16 },
    auto_link: true,
    fix_level: 1,
};

fn load(linker: &mut Linker, memory: &mut [u8]) -> Result<u32, Error> {
    linker.load(&mut window(memory), MODULE)
}

/// A linker in which the module stands.
fn loaded() -> Linker {
    let mut linker = Linker::new();
    load(&mut linker, &mut memory()).unwrap();
    linker
}

#[test]
fn modules_are_read() {
    let linker = loaded();
    let module = linker.modules().next().unwrap();
    assert_eq!((module.base(), module.size(), module.auto_link(), module.name()), (AT, 0x1000, true, &b"module"[..]));
    let segments: Vec<u32> = module.segments().collect();
    assert_eq!(segments, [AT + 0x138, AT + 0x178, AT + 0x1000, AT + 0x1100]);
    // the table has them the other way round
    assert_eq!(module.exports().collect::<Vec<_>>(), [(&b"a"[..], AT + 0x110C), (&b"b"[..], AT + 0x140)]);
    assert_eq!(module.export(b"b"), Some(AT + 0x140));
    assert_eq!(module.export(b"a"), Some(AT + 0x110C));
    assert_eq!(module.export(b"c"), None);
    assert_eq!(module.indexed_exports().collect::<Vec<_>>(), [AT + 0x1004, 0]);
    assert_eq!(linker.missing().collect::<Vec<_>>(), [b"nobody's"]);
    assert_eq!((linker.crs(), linker.len()), (None, 1));
    assert_eq!(linker.used(), (32 + 32 + 4 * 4 + 2 * 12 + 2 * 4, 8));
}

#[test]
fn a_static_module_is_known() {
    let mut linker = Linker::new();
    let mut memory = memory();
    memory[0x80..0x84].copy_from_slice(b"CRS0");
    let mut window = window(&mut memory);
    linker.initialize(&mut window, AT, 0x1000).unwrap();
    assert_eq!(linker.crs(), Some(AT));
    assert_eq!(linker.unload(&mut window, AT), Ok(true));
    assert_eq!((linker.crs(), linker.is_empty()), (Some(AT), true));
    assert_eq!(linker.unload(&mut window, AT), Ok(false));
}

#[test]
fn refusals_are_told_apart() {
    let mut linker = Linker::new();
    let fresh = linker.clone();
    let mut memory = memory();
    assert_eq!(linker.unload(&mut window(&mut memory[..0xFFF]), AT), Err(Error::BadWindow));
    assert_eq!(linker.initialize(&mut Window { at: AT + 1, bytes: &mut memory }, AT, 0), Err(Error::BadWindow));
    assert_eq!(linker.initialize(&mut window(&mut memory), AT + 0x1000, 0), Err(Error::NotACro));
    let short = LoadArguments { data_segment: Area { at: 0, size: 7 }, ..MODULE };
    assert_eq!(linker.load(&mut window(&mut memory), short), Err(Error::BadSegment));
    assert!(linker == fresh && linker.buffers() == fresh.buffers());
}

#[test]
fn by_default_nothing_is_lent() {
    let arguments = LoadArguments { base: AT, size: 0x1000, ..Default::default() };
    let mut linker = Linker::new();
    assert_eq!(linker.load(&mut window(&mut page(&[])), arguments), Ok(0));
    assert!(!linker.modules().next().unwrap().auto_link());
    // the module's data needs 8 bytes
    assert_eq!(linker.load(&mut window(&mut memory()), arguments), Err(Error::BadSegment));
}

/// The bytes that the linker has for its records and its names.
fn lengths(linker: &Linker) -> (usize, usize) {
    (linker.buffers().0.len(), linker.buffers().1.len())
}

#[test]
fn a_linker_grows_with_its_modules() {
    let mut linker = Linker::new();
    assert_eq!(lengths(&linker), (32, 0));
    let mut memory = memory();
    load(&mut linker, &mut memory).unwrap();
    // used, the most that the image can need of it (here all, and a module's name has at most 512 bytes), and a page
    assert_eq!(lengths(&linker), (32 + 80 + 0x1000, 512 + 2 + 0x1000));
    // the next one has no names of its own
    let (records, names) = linker.used();
    assert_eq!(linker.initialize(&mut window(&mut page(&[])), AT, 0x1000), Ok(()));
    assert_eq!(lengths(&linker), (records + 32 + 0x1000, names + 512 + 0x1000));
    linker.shrink_to_fit();
    assert_eq!(lengths(&linker), linker.used());
    assert_eq!(linker.len(), 2);
    assert_eq!(linker.unload(&mut window(&mut memory), AT), Ok(true));
}

#[test]
fn sixty_four_modules_are_the_most() {
    let mut linker = Linker::new();
    for _ in 0..64 {
        assert_eq!(load_page(&mut linker, &mut page(&[]), AT, 0), Ok(0));
    }
    let before = lengths(&linker);
    let mut more = page(&[(0xB0, 0x138)]);
    assert_eq!(load_page(&mut linker, &mut more, AT, 0), Err(Error::Full));
    assert_eq!((linker.len(), lengths(&linker)), (64, before));
    // the image has been rebased, so it is another one if it is loaded again
    assert_eq!(more[0xB0..0xB4], (AT + 0x138).to_le_bytes());
}

#[test]
fn a_limit_bounds_what_a_count_asks_for() {
    const LIMIT: usize = 0x8000;
    let mut linker = Linker::with_limit(LIMIT);
    // exports by name, all but 484 of them outside the window, and as many by index as can be counted
    for (field, count, answer) in [(0xD4, 0x10000, Ok(0)), (0xDC, u32::MAX, Err(Error::Full))] {
        assert_eq!(load_page(&mut linker, &mut page(&[(0xD0, 0xE0), (field, count)]), AT, 0), answer);
        assert!(lengths(&linker).0 <= LIMIT && lengths(&linker).1 <= LIMIT);
    }
    // an exact fit passes, and a byte less does not; then a greater limit does
    let (records, _) = loaded().used();
    for (limit, answer) in [(records - 1, Err(Error::Full)), (records, Ok(0x1000)), (0, Err(Error::Full))] {
        assert_eq!(load(&mut Linker::with_limit(limit), &mut memory()), answer, "{limit}");
    }
    let mut linker = Linker::with_limit(0);
    assert_eq!(load(&mut linker, &mut memory()), Err(Error::Full));
    assert_eq!(lengths(&linker), (32, 0));
    linker.set_limit(records);
    // the image's bytes are those of before: the ones that the refused call left are rebased
    assert_eq!(load(&mut linker, &mut memory()), Ok(0x1000));
}

/// A page whose only module entry lies so that a rebase moves the word at this place like a pointer.
fn rewriting(place: u32, words: &[(usize, u32)]) -> Vec<u8> {
    page(&[&[(0xF0, place), (0xF4, 1)], words].concat())
}

#[test]
fn an_image_that_rewrites_its_counts_may_find_no_room() {
    // the count of indexed exports, 1, becomes 0x100001, which no page of bytes has room for
    let image = rewriting(0xDC, &[(0xDC, 1)]);
    let mut linker = Linker::new();
    assert_eq!(load_page(&mut linker, &mut image.clone(), AT, 0), Err(Error::Full));
    assert_eq!(lengths(&linker), (32, 0));
    // all that there is is lent, not only what the count asked for
    let mut roomy = Linker::from_buffers(vec![0; 0x50_0000], Vec::new(), vec![0; MISSING_LENGTH]).unwrap();
    assert_eq!(load_page(&mut roomy, &mut image.clone(), AT, 0), Ok(0));
    assert_eq!(roomy.modules().next().unwrap().indexed_exports().len(), 0x10_0001);
}

#[test]
fn an_image_that_rewrites_its_names_may_find_no_room() {
    // 120 exports whose names are one byte each, a word apart; as named imports these words are moved, and then no zero ends a name
    const BASE: u32 = 0x0101_0101;
    const NAMES: usize = 0x600;
    let tables = [(0xC8, 0x138), (0xCC, 1), (0xD0, 0x200), (0xD4, 120), (0x100, NAMES as u32), (0x104, 60)];
    let segment = [(0x138, 0x138), (0x13C, 0x10)];
    let exports = (0..120).flat_map(|index| {
        let name = NAMES + 4 * index;
        [(0x200 + 8 * index, name as u32), (name, 1 + index as u32)]
    });
    let words: Vec<_> = tables.into_iter().chain(segment).chain(exports).collect();
    let image = [&[0; 0x101][..], &page(&words)[..], &[0; 0xEFF]].concat();
    let arguments = LoadArguments { base: BASE, size: 0x1000, ..Default::default() };
    let load = |linker: &mut Linker| linker.load(&mut Window { at: 0x0101_0000, bytes: &mut image.clone() }, arguments);
    let mut linker = Linker::new();
    assert_eq!((load(&mut linker), lengths(&linker)), (Err(Error::Full), (32, 0)));
    let mut roomy = Linker::from_buffers(vec![0; 0x1000], vec![0; 0x8000], vec![0; MISSING_LENGTH]).unwrap();
    assert_eq!(load(&mut roomy), Ok(0));
    assert!(roomy.used().1 > 120 + 512 + 0x1000);
}

#[test]
fn a_state_is_saved_with_the_bytes_in_use_alone() {
    let linker = loaded();
    let (records, names) = linker.used();
    let bytes = linker.to_bytes();
    // and one missing name
    assert_eq!(bytes.len(), 16 + records + names + 514);
    let again = Linker::from_bytes(&bytes).unwrap();
    assert!(again == linker && again.to_bytes() == bytes);
    assert_eq!(again.missing().collect::<Vec<_>>(), [b"nobody's"]);
    let empty = Linker::from_bytes(&Linker::new().to_bytes()).unwrap();
    assert!(empty == Linker::new() && empty != linker);
}

#[test]
fn a_state_that_is_none_says_why() {
    let bytes = loaded().to_bytes();
    let length = bytes.len();
    let wrong = |found, expected| StateError::WrongLength { found, expected };
    let broken = |at: usize, byte| {
        let mut bytes = bytes.clone();
        bytes[at] = byte;
        Linker::from_bytes(&bytes).unwrap_err()
    };
    assert_eq!(Linker::from_bytes(&[]).unwrap_err(), StateError::NotAState);
    assert_eq!(broken(0, b'X'), StateError::NotAState);
    assert_eq!(broken(4, 2), StateError::UnknownForm(2));
    assert_eq!(Linker::from_bytes(&bytes[..length - 1]).unwrap_err(), wrong(length - 1, length));
    assert_eq!(Linker::from_bytes(&[&bytes[..], &[0]].concat()).unwrap_err(), wrong(length + 1, length));
    assert_eq!(Linker::from_bytes(&bytes[..20]).unwrap_err(), wrong(20, 48));
    // names that claim a byte more; a second missing name; another count of modules
    assert_eq!(broken(16 + 16, bytes[16 + 16] + 1), wrong(length, length + 1));
    assert_eq!(broken(16 + 20, 2), wrong(length, length + 514));
    assert_eq!(broken(16, 65), StateError::Damaged);
    assert_eq!(wrong(1, 2).to_string(), "the saved state has 1 bytes, and its header asks for 2");
}

#[test]
fn no_bit_of_a_saved_state_can_be_changed() {
    let bytes = loaded().to_bytes();
    for bit in 0..8 * bytes.len() {
        let mut bytes = bytes.clone();
        bytes[bit / 8] ^= 1 << (bit % 8);
        assert!(Linker::from_bytes(&bytes).is_err(), "bit {bit}");
    }
}

#[test]
fn buffers_of_the_raw_layer_make_a_linker() {
    let linker = loaded();
    let (records, names, missing) = linker.buffers();
    let (records, names, missing) = (records.to_vec(), names.to_vec(), missing.to_vec());
    let of =
        |records: &[u8], names: &[u8], missing: &[u8]| Linker::from_buffers(records.to_vec(), names.to_vec(), missing.to_vec());
    assert!(of(&records, &names, &missing) == Ok(linker));
    assert_eq!(of(&[0; 31], &names, &missing), Err(StateError::NotARegister));
    assert_eq!(of(&records, &names, &missing[1..]), Err(StateError::NotARegister));
    assert_eq!(of(&records, &[], &missing), Err(StateError::NotARegister));
}

/// A page with these words, and a magic at the page's 0x080.
fn page(words: &[(usize, u32)]) -> Vec<u8> {
    let mut page = vec![0; 0x1000];
    page[0x80..0x84].copy_from_slice(b"CRO0");
    for &(at, word) in words {
        page[at..at + 4].copy_from_slice(&word.to_le_bytes());
    }
    page
}

fn load_page(linker: &mut Linker, memory: &mut [u8], base: u32, fix_level: u32) -> Result<u32, Error> {
    linker.load(&mut window(memory), LoadArguments { base, size: 0x1000, auto_link: true, fix_level, ..Default::default() })
}

#[test]
fn a_module_inside_has_no_touch() {
    let mut linker = Linker::new();
    let mut memory = page(&[(0xB0, 0x138), (0xB4, 0x10)]);
    assert_eq!(linker.touch(), None);
    assert_eq!((linker.unload(&mut window(&mut memory), AT), linker.touch()), (Ok(false), None));
    assert_eq!((load_page(&mut linker, &mut memory, AT + 0x800, 1), linker.touch()), (Err(Error::NotACro), None));
    assert_eq!((load_page(&mut linker, &mut memory, AT, 1), linker.touch()), (Ok(0x1000), None));
    assert_eq!((linker.unload(&mut window(&mut memory), AT), linker.touch()), (Ok(true), None));
}

#[test]
fn a_touch_is_of_the_last_call() {
    let mut linker = Linker::new();
    let mut memory = page(&[]);
    // the magic outside, and half outside: where it starts, not its first byte outside
    assert_eq!((load_page(&mut linker, &mut memory, AT + 0xFFE, 0), linker.touch()), (Err(Error::NotACro), Some(AT + 0x107E)));
    assert_eq!((load_page(&mut linker, &mut memory, AT + 0xF7E, 0), linker.touch()), (Err(Error::NotACro), Some(AT + 0xFFE)));
    assert_eq!((load_page(&mut linker, &mut memory, AT, 0), linker.touch()), (Ok(0), None));
    // a bad window is not accessed
    assert_eq!((load_page(&mut linker, &mut memory, AT + 0xFFE, 0), linker.touch()), (Err(Error::NotACro), Some(AT + 0x107E)));
    assert_eq!((load_page(&mut linker, &mut memory[..0xFFF], AT, 0), linker.touch()), (Err(Error::BadWindow), None));
}

#[test]
fn a_cut_write_is_a_touch() {
    // a segment of the page's last 16 bytes, and a relocated word that begins two bytes before the end
    let segment = [(0xC8, 0x200), (0xCC, 1), (0x200, 0xFF0), (0x204, 0x10)];
    let relocation = [(0x128, 0x210), (0x12C, 1), (0x210, 0xE0), (0x214, 2)];
    let mut linker = Linker::new();
    let mut memory = page(&[segment, relocation].concat());
    assert_eq!((load_page(&mut linker, &mut memory, AT, 0), linker.touch()), (Ok(0), Some(AT + 0xFFE)));
    assert_eq!(memory[0xFFC..], [0, 0, 0xF0, 0x0F]);
}

#[test]
fn a_touch_may_start_at_address_0() {
    // a static module at the top, whose list fields lie at address 0
    const TOP: u32 = 0xFFFF_F000;
    let mut linker = Linker::new();
    let mut memory = page(&[(0xFF8, u32::from_le_bytes(*b"CRS0"))]);
    let mut window = Window { at: TOP, bytes: &mut memory };
    assert_eq!(linker.initialize(&mut window, 0xFFFF_FF78, 0x138), Ok(()));
    assert_eq!(linker.touch(), Some(0x28));
    let arguments = LoadArguments { base: TOP, size: 0x1000, auto_link: true, ..Default::default() };
    assert_eq!(linker.load(&mut window, arguments), Ok(0));
    assert_eq!(linker.touch(), Some(0));
}
