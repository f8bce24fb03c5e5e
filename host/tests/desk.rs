//! The service desk: request 3's worked example and boundary cases, its refusals, any bytes as a desk, and runs against a model of
//! the queues and against the linker's own calls.

use fillqhano::raw::{self, Buffers, Turned};
use fillqhano::{Area, Desk, Error, Linker, LoadArguments, Served, StateError, Window, MISSING_LENGTH};
use sessions::desk::{header, Queues, LENGTH, NOT_LOADED};
use sessions::modules::{Modules, Placed};
use sessions::{Call, Random, Step};

const AT: u32 = 0x0010_0000;

/// All that a turn is lent.
#[derive(Debug, Clone, PartialEq, Eq)]
struct Lent {
    at: u32,
    window: Vec<u8>,
    records: Vec<u8>,
    names: Vec<u8>,
    missing: Vec<u8>,
    desk: Vec<u8>,
}

impl Lent {
    /// The page's example: two pages, a module at the first, an empty register and desk.
    fn new() -> Lent {
        let mut window = vec![0; 0x2000];
        window[0x080..0x084].copy_from_slice(b"CRO0");
        window[0x0B0..0x0B2].copy_from_slice(&[0x38, 0x01]);
        window[0x0B4] = 0x10;
        let (records, names) = (vec![0; 0x400], vec![0; 0x100]);
        Lent { at: AT, window, records, names, missing: vec![0; MISSING_LENGTH], desk: vec![0; LENGTH] }
    }

    /// Words from an address of the window on; those past it are dropped.
    fn put(&mut self, address: u32, words: &[u32]) {
        for (index, byte) in words.iter().flat_map(|word| word.to_le_bytes()).enumerate() {
            let place = address.wrapping_add(index as u32).wrapping_sub(self.at) as usize;
            if let Some(at) = self.window.get_mut(place) {
                *at = byte;
            }
        }
    }

    fn words<const N: usize>(&self, address: u32) -> [u32; N] {
        let start = address.wrapping_sub(self.at) as usize;
        std::array::from_fn(|index| u32::from_le_bytes(self.window[start + 4 * index..][..4].try_into().unwrap()))
    }

    fn send(&mut self, caller: u32, buffer: u32) -> u32 {
        let (number, value) = raw::send(&mut self.desk, caller, buffer);
        assert_eq!(value, 0);
        number
    }

    fn turn(&mut self) -> Turned {
        let Lent { at, window, records, names, missing, desk } = self;
        raw::turn(Buffers { at: *at, window, records, names, missing }, desk)
    }

    /// Sends a buffer with these words and serves it.
    fn served(&mut self, buffer: u32, words: &[u32]) -> Turned {
        self.put(buffer, words);
        assert_eq!(self.send(7, buffer), 0);
        let turned = self.turn();
        assert_eq!((turned.caller, turned.buffer), (7, buffer));
        turned
    }

    fn queues(&self) -> Queues {
        Queues::of(&self.desk).unwrap()
    }

    fn modules(&self) -> u32 {
        u32::from(self.records[0])
    }
}

/// A turn's answer without a touch.
fn turned(number: u32, value: u32, served: u32, caller: u32, buffer: u32) -> Turned {
    Turned { number, value, served, caller, buffer, touched: 0, first: 0 }
}

const IDLE: Turned = Turned { number: 0, value: 0, served: 0, caller: 0, buffer: 0, touched: 0, first: 0 };

/// The words of a load of the module at the window's beginning.
const LOAD: [u32; 11] = [0x0004_02C2, AT, 0, 0x1000, 0, 0, 0, 0, 0, 0x101, 1];

#[test]
fn the_worked_example() {
    let mut lent = Lent::new();
    lent.put(0x101000, &LOAD);
    lent.put(0x101100, &[0x0005_0082, 0x100000, 0]);
    lent.put(0x101200, &[0x0001_00C2, 0x100800, 0x800, 0x300000, 0]);
    lent.put(0x101300, &[0x000A_0000, 1, 2]);
    lent.put(0x101400, &[0x0004_02C2, 0x100800, 0x100800, 0x800, 0, 0, 0, 0, 0, 0x100, 0, 0, 0]);
    for (caller, buffer) in [(7, 0x101000), (7, 0x101100), (9, 0x101200), (5, 0x101300), (5, 0x101400)] {
        assert_eq!(lent.send(caller, buffer), 0);
    }
    let begins = [3, 0, 0, 0, 7, 2, 0x101000, 0x101100].map(u32::to_le_bytes).concat();
    assert_eq!(lent.desk[..32], begins);
    assert_eq!(begins[16..], [7, 0, 0, 0, 2, 0, 0, 0, 0x00, 0x10, 0x10, 0, 0x00, 0x11, 0x10, 0]);

    assert_eq!(lent.turn(), turned(0, 0x1000, 1, 7, 0x101000));
    assert_eq!((lent.words(0x101000), lent.queues().next), ([0x0004_0080, 0, 0x1000], 1));
    assert_eq!(lent.records[32..44], [AT, 0x1000, 1].map(u32::to_le_bytes).concat());

    let last = lent.window.pop().unwrap();
    let before = lent.clone();
    assert_eq!(lent.turn(), turned(3, 0, 0, 0, 0));
    assert!(lent == before && lent.queues().next == 1);
    lent.window.push(last);

    assert_eq!(lent.turn(), turned(9, 0, 1, 9, 0x101200));
    assert_eq!((lent.words(0x101200), lent.queues().next), ([0x0001_0040, NOT_LOADED, 0x800], 2));
    assert_eq!(lent.turn(), turned(0, 0, 2, 5, 0x101300));
    assert_eq!((lent.words(0x101300), lent.queues().next), ([0x000A_0000, 1, 2], 3));
    assert_eq!(lent.turn(), turned(0, 1, 1, 7, 0x101100));
    assert_eq!((lent.words(0x101100), lent.queues().next), ([0x0005_0040, 0, 0], 1));
    assert_eq!(lent.turn(), turned(1, 0, 1, 5, 0x101400));
    assert_eq!((lent.words(0x101400), lent.queues().next), ([0x0004_0040, NOT_LOADED, 0x100800], 3));
    let before = lent.clone();
    assert_eq!(lent.turn(), IDLE);
    assert!(lent == before && lent.queues().next == 3);
}

#[test]
fn the_sixteenth_and_the_seventeenth_buffer() {
    let mut lent = Lent::new();
    for buffer in 0..16 {
        assert_eq!(lent.send(1, buffer), 0);
    }
    let before = lent.clone();
    assert_eq!(lent.send(1, 16), 8);
    assert_eq!(lent, before);
    // another caller has room, and so has the first once it was served
    assert_eq!(lent.send(2, 16), 0);
    assert_eq!(lent.turn(), turned(0, 0, 2, 1, 0));
    assert_eq!(lent.send(1, 17), 0);
    assert_eq!(lent.queues().places[0], (1, (1..16).chain([17]).collect()));
}

#[test]
fn the_eighth_and_the_ninth_caller() {
    let mut lent = Lent::new();
    for caller in 1..=8 {
        assert_eq!(lent.send(caller, caller), 0);
    }
    let before = lent.clone();
    assert_eq!(lent.send(9, 9), 8);
    assert_eq!(lent, before);
    assert_eq!(lent.send(8, 80), 0);
    // an empty queue keeps its place, so there is none for a ninth
    assert_eq!(lent.turn(), turned(0, 0, 2, 1, 1));
    assert!(lent.queues().places[0].1.is_empty());
    let before = lent.clone();
    assert_eq!(lent.send(9, 9), 8);
    assert_eq!(lent, before);
    // and it is served after the seven others
    assert_eq!(lent.send(1, 10), 0);
    let order: Vec<u32> = (0..9).map(|_| lent.turn().caller).collect();
    assert_eq!(order, [2, 3, 4, 5, 6, 7, 8, 1, 8]);
}

#[test]
fn callers_of_any_number() {
    let mut lent = Lent::new();
    for caller in [0, u32::MAX, 0] {
        assert_eq!(lent.send(caller, 0x10), 0);
    }
    let callers: Vec<u32> = lent.queues().places.iter().map(|place| place.0).collect();
    assert_eq!(callers, [0, u32::MAX]);
    let order: Vec<Turned> = (0..4).map(|_| lent.turn()).collect();
    let both = [turned(0, 0, 2, 0, 0x10), turned(0, 0, 2, u32::MAX, 0x10)];
    assert_eq!(order, [both[0], both[1], both[0], IDLE]);
}

#[test]
fn a_newcomer_behind_the_one_served_last_is_next() {
    let mut lent = Lent::new();
    assert_eq!((lent.send(1, 1), lent.send(1, 2)), (0, 0));
    assert_eq!(lent.turn().buffer, 1);
    assert_eq!(lent.send(2, 3), 0);
    assert_eq!((lent.turn().buffer, lent.turn().buffer), (3, 2));
}

#[test]
fn one_address_waits_twice() {
    let mut lent = Lent::new();
    lent.put(0x101000, &[0x0005_0040, 0x100000]);
    assert_eq!((lent.send(1, 0x101000), lent.send(1, 0x101000)), (0, 0));
    assert_eq!(lent.turn(), turned(0, 0, 1, 1, 0x101000));
    // its own reply is what it finds there: an unload of base 0
    assert_eq!(lent.turn(), turned(0, 0, 1, 1, 0x101000));
    assert_eq!(lent.words(0x101000), [0x0005_0040, 0]);
}

#[test]
fn a_buffer_at_the_top_of_the_addresses() {
    // outside the window its id is 0
    let mut lent = Lent::new();
    let before = lent.window.clone();
    assert_eq!(lent.served(0xFFFF_FFFC, &LOAD), turned(0, 0, 2, 7, 0xFFFF_FFFC));
    assert_eq!(lent.window, before);
    // in a window that ends there its other words are outside: an unload of base 0, and a reply of which one word is left
    let mut lent = Lent { at: 0xFFFF_E000, ..Lent::new() };
    assert_eq!(lent.served(0xFFFF_FFFC, &[0x0005_0082, 0x100000]), turned(0, 0, 1, 7, 0xFFFF_FFFC));
    assert_eq!(lent.words(0xFFFF_FFFC), [0x0005_0040]);
    // the words wrap around to address 0 where the window begins there
    let mut lent = Lent { at: 0, ..Lent::new() };
    lent.put(0, &[0x0005_0000, 1]);
    assert_eq!(lent.served(0xFFFF_FFFC, &[]), turned(0, 0, 2, 7, 0xFFFF_FFFC));
    assert_eq!(lent.words(0), [0x0005_0000, 1]);
}

#[test]
fn a_buffer_whose_address_word_lies_outside() {
    // an initialize, whose word 3 is the address: 0, so it is accepted
    let mut lent = Lent::new();
    lent.window[0x080..0x084].copy_from_slice(b"CRS0");
    let answer = lent.served(0x101FF4, &[0x0001_00C2, AT, 0x1000, 0x300000]);
    assert_eq!(answer, turned(0, 0, 1, 7, 0x101FF4));
    assert_eq!((lent.words(0x101FF4), lent.modules()), ([0x0001_0040, 0, 0x1000], 1));
    // a load's is word 2
    let mut lent = Lent::new();
    let answer = lent.served(0x101FF8, &[0x0004_0000, AT, 0x300000]);
    assert_eq!(answer, turned(0, 0, 1, 7, 0x101FF8));
    assert_eq!((lent.words(0x101FF8), lent.modules()), ([0x0004_0080, 0], 1));
}

#[test]
fn a_buffer_below_the_window() {
    // word 0 lies across the edge: its upper half, with the id, is inside
    let mut lent = Lent::new();
    lent.put(0x0F_FFFE, &[0x0005_0082, 0x100000]);
    assert_eq!(lent.served(0x0F_FFFE, &[]), turned(0, 0, 1, 7, 0x0F_FFFE));
    assert_eq!(lent.window[..8], [0x05, 0, 0, 0, 0, 0, 0, 0]);
}

#[test]
fn a_buffer_inside_the_image_loaded() {
    let mut lent = Lent::new();
    let mut direct = Lent::new();
    let buffer = 0x100200;
    direct.put(buffer, &LOAD);
    let Lent { window, records, names, missing, .. } = &mut direct;
    let answer = raw::load(Buffers { at: AT, window, records, names, missing }, AT, 0x1000, 0, 0, 0, 0, 1, 1);
    assert_eq!((answer.number, answer.value), (0, 0x1000));
    assert_eq!(lent.served(buffer, &LOAD), turned(0, 0x1000, 1, 7, buffer));
    // the reply comes after the call, over what the call left
    direct.put(buffer, &[0x0004_0080, 0, 0x1000]);
    direct.desk.clone_from(&lent.desk);
    assert_eq!(lent, direct);
}

#[test]
fn a_buffer_that_the_call_itself_reads() {
    // the module's name is the command's first word
    let mut lent = Lent::new();
    lent.put(AT + 0xC0, &[0x200, 4]);
    assert_eq!(lent.served(0x100200, &LOAD), turned(0, 0x1000, 1, 7, 0x100200));
    assert_eq!(lent.records[44..52], [0, 3].map(|word: u32| word.to_le_bytes()).concat());
    assert_eq!(lent.names[..4], [0xC2, 0x02, 0x04, 0]);
    // the address is the magic, so it is another one
    let mut lent = Lent::new();
    assert_eq!(lent.served(0x100078, &[0x0004_0000, AT]), turned(9, 0, 1, 7, 0x100078));
    assert_eq!((lent.words(0x100078), lent.modules()), ([0x0004_0040, NOT_LOADED, u32::from_le_bytes(*b"CRO0")], 0));
}

#[test]
fn every_id() {
    for id in (0..=10).chain([0x100, 0xFFFF]) {
        let mut lent = Lent::new();
        let before = lent.window.clone();
        // the parameter counts are not looked at
        let head = id << 16 | 0xFFFF;
        let answer = lent.served(0x101000, &[head, 0x100800, 0x100800, 0x100800]);
        let replies = match id {
            1 | 4 | 9 => Some((1, NOT_LOADED)),
            2 | 3 | 5..=8 => Some((0, 0)),
            _ => None,
        };
        let (number, served) = (replies.map_or(0, |reply| reply.0), if replies.is_some() { 1 } else { 2 });
        assert_eq!(answer, turned(number, 0, served, 7, 0x101000), "id {id}");
        let left = replies.map_or([head, 0x100800], |(_, result)| [header(id, 1), result]);
        assert_eq!(lent.words(0x101000), left, "id {id}");
        assert_eq!(lent.words(0x101008), [0x100800, 0x100800], "id {id}");
        let outside = |window: &[u8]| [window[..0x1000].to_vec(), window[0x1010..].to_vec()];
        assert_eq!(outside(&lent.window), outside(&before), "id {id}");
    }
}

#[test]
fn both_ids_of_a_load() {
    for id in [4, 9] {
        let mut lent = Lent::new();
        let mut words = LOAD;
        words[0] = id << 16;
        // an address that is the source's
        words[2] = AT;
        assert_eq!(lent.served(0x101000, &words), turned(0, 0x1000, 1, 7, 0x101000));
        assert_eq!(lent.words(0x101000), [header(id, 2), 0, 0x1000, 0x1000]);
    }
}

#[test]
fn where_a_loads_parameters_are() {
    let steps = [Step { call: Call::Load, ..Step::initialize(AT, 0x1000) }, Step::initialize(AT, 0x1000)];
    for (auto_link, counts) in [(0, 0), (1, 1), (0x80, 1), (0xFF, 1), (0x100, 0), (0x101, 1), (0xFFFF_FF00, 0)] {
        let mut lent = Lent::new();
        let load = Step { auto_link, fix_level: 1, ..steps[0] };
        lent.served(0x101000, &load.command(4, 0));
        assert_eq!(lent.records[40], counts, "auto-link {auto_link:#x}");
    }
    // data of 8 and bss of 16 bytes: the sizes lent are words 6 and 8, and word 5 is not read
    for (sizes, number) in [((8, 16), 0), ((7, 16), 2), ((8, 15), 2)] {
        let mut lent = Lent::new();
        lent.put(AT + 0xC8, &[0x140, 2]);
        lent.put(AT + 0x140, &[0x150, 8, 2, 0, 16, 3]);
        let segments = Step { data_segment: 0x101800, data_segment_size: sizes.0, bss_segment: 0x101900, ..steps[0] };
        let mut words = Step { bss_segment_size: sizes.1, ..segments }.command(4, 0);
        words[5] = u32::MAX;
        assert_eq!(lent.served(0x101000, &words).number, number);
        let segments = if number == 0 { [0x101800, 0x101900] } else { [0, 0] };
        assert_eq!(lent.records[64..72], segments.map(u32::to_le_bytes).concat());
    }
    let mut lent = Lent::new();
    assert_eq!(lent.served(0x101000, &steps[1].command(1, AT)), turned(0, 0, 1, 7, 0x101000));
    assert_eq!(lent.words(0x101000), [0x0001_0040, 0, 0x1000, AT]);
}

#[test]
fn source_0_with_address_0() {
    let mut lent = Lent { at: 0, ..Lent::new() };
    let mut words = LOAD;
    words[1] = 0;
    assert_eq!(lent.served(0x1000, &words), turned(0, 0x1000, 1, 7, 0x1000));
    assert_eq!((lent.words(0x1000), lent.modules()), ([0x0004_0080, 0, 0x1000], 1));
    // outside the window there is no module, and the magic's word is a touch
    let mut lent = Lent::new();
    let touch = Turned { touched: 1, first: 0x80, ..turned(1, 0, 1, 7, 0x101000) };
    assert_eq!(lent.served(0x101000, &words), touch);
    assert_eq!(lent.words(0x101000), [0x0004_0040, NOT_LOADED]);
}

/// What a load that is refused leaves, by the desk and directly.
fn refused_alike(mut lent: Lent, load: Step, number: u32) {
    lent.put(0x101000, &load.command(4, 0));
    let mut direct = lent.clone();
    let Lent { window, records, names, missing, .. } = &mut direct;
    let buffers = Buffers { at: AT, window, records, names, missing };
    let answer = raw::load(buffers, load.base, load.size, 0, load.data_segment_size, 0, 0, load.auto_link, load.fix_level);
    assert_eq!((answer.number, answer.value), (number, 0));
    assert_ne!(lent.window, direct.window);
    assert_eq!(lent.send(7, 0x101000), 0);
    let Turned { touched, first, .. } = lent.turn();
    assert_eq!((touched, first), (answer.touched, answer.first));
    direct.put(0x101000, &[0x0004_0040, NOT_LOADED]);
    direct.desk.clone_from(&lent.desk);
    assert_eq!(lent, direct);
    assert_eq!(lent.queues(), Queues { places: vec![(7, Default::default())], next: 1 });
}

#[test]
fn a_load_refused_by_2_and_by_5() {
    let load = Step { call: Call::Load, fix_level: 1, ..Step::initialize(AT, 0x1000) };
    let mut lent = Lent::new();
    lent.put(AT + 0xC8, &[0x140, 2]);
    lent.put(AT + 0x140, &[0x138, 0x10, 0, 0, 17, 2]);
    refused_alike(lent, Step { data_segment_size: 16, ..load }, 2);
    refused_alike(Lent { records: vec![0; 32], ..Lent::new() }, load, 5);
}

#[test]
fn another_address_changes_two_words() {
    for (id, words) in [(1, [AT, 0x1000, 4]), (1, [AT, 0x1000, AT + 1]), (4, [AT, 4, 0x1000]), (9, [AT, u32::MAX, 0x1000])] {
        let mut lent = Lent::new();
        lent.put(0x101000, &[id << 16]);
        lent.put(0x101004, &words);
        assert_eq!(lent.send(7, 0x101000), 0);
        let mut expected = lent.clone();
        assert_eq!(lent.turn(), turned(9, 0, 1, 7, 0x101000));
        expected.put(0x101000, &[header(id, 1), NOT_LOADED]);
        expected.desk = Queues { places: vec![(7, Default::default())], next: 1 }.bytes();
        assert_eq!(lent, expected);
    }
}

type Spoil = fn(&mut Lent);

/// What breaks the window or the register, and the number that it gives.
const SPOILED: [(u32, Spoil); 8] = [
    (3, |lent| lent.at += 1),
    (3, |lent| lent.window.truncate(0x1FFF)),
    (3, |lent| lent.window.clear()),
    (3, |lent| lent.at = 0xFFFF_F000),
    (3, |lent| {
        lent.at += 1;
        lent.records[0] = 65;
    }),
    (4, |lent| lent.records[0] = 65),
    (4, |lent| lent.missing.truncate(5)),
    (4, |lent| lent.names[0] = 1),
];

#[test]
fn a_bad_window_or_register_changes_nothing() {
    let mut lent = Lent::new();
    lent.put(0x101000, &LOAD);
    for (caller, buffer) in [(1, 0x101000), (2, 0x101000), (1, 0x101000)] {
        assert_eq!(lent.send(caller, buffer), 0);
    }
    for desk in [lent.desk.clone(), vec![0; LENGTH], vec![0xFF; LENGTH], Vec::new()] {
        for (number, spoil) in SPOILED {
            let mut spoiled = Lent { desk: desk.clone(), ..lent.clone() };
            spoil(&mut spoiled);
            let before = spoiled.clone();
            assert_eq!(spoiled.turn(), turned(number, 0, 0, 0, 0));
            assert_eq!(spoiled, before);
        }
    }
    // the buffer still waits, and it is still that caller's turn
    assert_eq!(lent.turn(), turned(0, 0x1000, 1, 1, 0x101000));
}

#[test]
fn desks_of_other_lengths() {
    for (length, byte) in [(0, 0), (1, 0), (591, 0), (591, 0xFF)] {
        let mut lent = Lent { desk: vec![byte; length], ..Lent::new() };
        let before = lent.clone();
        assert_eq!(lent.send(7, 0x101000), 8);
        assert_eq!(lent.turn(), IDLE);
        assert_eq!(lent, before);
    }
    for length in [592, 593, 600] {
        let mut lent = Lent { desk: vec![0; length], ..Lent::new() };
        lent.desk[592..].fill(0xA5);
        assert_eq!(lent.send(7, 0x101000), 0);
        assert_eq!(lent.desk[..24], [1, 0, 0, 0, 7, 1].map(|word: u32| word.to_le_bytes()).concat());
        assert_eq!(lent.turn(), turned(0, 0, 2, 7, 0x101000));
        assert_eq!(lent.turn(), IDLE);
        assert!(lent.desk[592..].iter().all(|&byte| byte == 0xA5));
    }
}

#[test]
fn a_desk_of_ones() {
    let mut lent = Lent { desk: vec![0xFF; LENGTH], ..Lent::new() };
    let full = vec![(u32::MAX, [u32::MAX; 16].into()); 8];
    assert_eq!(lent.queues(), Queues { places: full.clone(), next: 8 });
    let before = lent.clone();
    assert_eq!((lent.send(u32::MAX, 1), lent.send(1, 1)), (8, 8));
    assert_eq!(lent, before);
    // the first place is served, and all is written as it is read
    assert_eq!(lent.turn(), turned(0, 0, 2, u32::MAX, u32::MAX));
    let mut places = full;
    places[0].1.pop_front();
    assert_eq!(lent.desk, Queues { places, next: 1 }.bytes());
    assert_eq!(lent.send(u32::MAX, 1), 0);
    for turn in 0..128 {
        assert_eq!(lent.turn().served, 2, "turn {turn}");
    }
    assert_eq!(lent.turn(), IDLE);
}

/// Words that are likely to mean something at a desk.
fn any_desk(random: &mut Random, length: usize) -> Vec<u8> {
    let small = random.once_in(2);
    let word = |random: &mut Random| match random.below(4) {
        0 => random.word(),
        1 => random.pick(&[7, 8, 9, 15, 16, 17, u32::MAX]),
        _ if small => random.below(4),
        _ => random.below(20),
    };
    let mut bytes: Vec<u8> = (0..length.div_ceil(4)).flat_map(|_| word(random).to_le_bytes()).collect();
    bytes.truncate(length);
    bytes
}

#[test]
fn any_bytes_are_some_desk() {
    let mut lent = Lent::new();
    for number in 0..3000 {
        let mut random = Random::new(3, 0, number);
        let length = random.pick(&[592, 592, 592, 593, 600, 700]);
        lent.desk = any_desk(&mut random, length);
        for _ in 0..8 {
            let (bytes, mut model) = (lent.desk.clone(), lent.queues());
            let written = if random.once_in(2) {
                let (caller, buffer) = (random.pick(&[0, 1, 2, 3, 8, u32::MAX]), random.word());
                let number = model.send(caller, buffer);
                assert_eq!(lent.send(caller, buffer), number);
                number == 0
            } else {
                let taken = model.take();
                let expected = taken.map_or(IDLE, |(_, caller, buffer)| turned(0, 0, 2, caller, buffer));
                assert_eq!(lent.turn(), expected);
                taken.is_some()
            };
            // what is written is written anew, what is refused or idle changes no byte
            let begin = if written { model.bytes() } else { bytes[..LENGTH].to_vec() };
            assert_eq!(lent.desk, [begin, bytes[LENGTH..].to_vec()].concat());
        }
    }
}

/// How long each place has waited, in turns that were not refused, since its oldest buffer is the oldest.
#[derive(Default)]
struct Waits {
    turns: Vec<u32>,
    longest: u32,
}

impl Waits {
    /// Counts a turn that served a place; the queues are those before it.
    fn count(&mut self, before: &Queues, served: usize) {
        self.turns.resize(before.places.len(), 0);
        for (place, (_, waiting)) in before.places.iter().enumerate() {
            self.turns[place] = if waiting.is_empty() { 0 } else { self.turns[place] + 1 };
        }
        self.longest = self.longest.max(self.turns[served]);
        self.turns[served] = 0;
    }
}

/// A run of sends and turns from an empty desk against the model; gives the longest wait.
fn run_against_the_model(lent: &mut Lent, random: &mut Random) -> u32 {
    lent.desk = vec![0; LENGTH];
    let (mut model, mut waits) = (Queues::default(), Waits::default());
    let sends = random.from_to(1, 9);
    let callers = random.from_to(1, 10);
    for _ in 0..120 {
        if random.below(10) < sends {
            // the words at AT + 4 are those of an acknowledged command, elsewhere there is none
            let any = random.word();
            let (caller, buffer) = (random.below(callers), random.pick(&[AT + 4, AT + 0x1000, any]));
            assert_eq!(lent.send(caller, buffer), model.send(caller, buffer));
        } else if random.once_in(8) {
            let before = lent.desk.clone();
            lent.at += 1;
            assert_eq!(lent.turn(), turned(3, 0, 0, 0, 0));
            lent.at -= 1;
            assert_eq!(lent.desk, before);
        } else {
            let before = model.clone();
            let expected = model.take().map_or(IDLE, |(place, caller, buffer)| {
                waits.count(&before, place);
                turned(0, 0, if buffer == AT + 4 { 1 } else { 2 }, caller, buffer)
            });
            assert_eq!(lent.turn(), expected);
        }
        assert_eq!(lent.desk, model.bytes());
        let callers = model.places.iter().map(|place| place.0).collect::<std::collections::BTreeSet<_>>();
        assert!(callers.len() == model.places.len() && model.places.len() <= 8 && model.next <= 8);
        assert!(model.places.iter().all(|place| place.1.len() <= 16));
    }
    waits.longest
}

#[test]
fn random_sends_and_turns_are_the_models() {
    let mut lent = Lent::new();
    lent.window.fill(0);
    lent.put(AT + 4, &[0x0002_0000]);
    let runs = (0..3000).map(|number| run_against_the_model(&mut lent, &mut Random::new(4, 0, number)));
    // no caller waits longer than 8 turns, and some wait so long
    assert_eq!(runs.max(), Some(8));
}

/// A step by the wrapper, directly: the value or the refusal.
fn directly(step: &Step, linker: &mut Linker, window: &mut Window) -> Result<u32, Error> {
    match step.call {
        Call::Initialize => linker.initialize(window, step.base, step.size).map(|()| 0),
        Call::Unload => linker.unload(window, step.base).map(u32::from),
        Call::Load => {
            let data_segment = Area { at: step.data_segment, size: step.data_segment_size };
            let bss_segment = Area { at: step.bss_segment, size: step.bss_segment_size };
            let (auto_link, fix_level) = (step.auto_link != 0, step.fix_level);
            let arguments = LoadArguments { base: step.base, size: step.size, data_segment, bss_segment, auto_link, fix_level };
            linker.load(window, arguments)
        }
    }
}

/// Any step on a module: an unload if it stands, now and then if not, else a load or an initialize, some of which are refused.
fn any_step(random: &mut Random, member: &Placed, linker: &Linker) -> Step {
    let step = member.step;
    if linker.modules().any(|module| module.base() == step.base) || random.once_in(8) {
        return Step::unload(step.base);
    }
    match random.below(8) {
        0 => Step { base: step.base + 4, ..step },
        1 => Step { data_segment_size: 0, ..step },
        _ => step,
    }
}

/// The words that answer a step.
fn reply(step: &Step, result: Result<u32, Error>) -> Vec<u32> {
    match (step.call, result) {
        (_, Err(_)) => vec![header(step.id(), 1), NOT_LOADED],
        (Call::Load, Ok(fixed)) => vec![header(step.id(), 2), 0, fixed],
        _ => vec![header(step.id(), 1), 0],
    }
}

fn write(window: &mut [u8], words: &[u32]) {
    let bytes = words.iter().flat_map(|word| word.to_le_bytes());
    window.iter_mut().zip(bytes).for_each(|(at, byte)| *at = byte);
}

/// The same steps made through the desk and directly, each on a linker and a window of its own. The command buffers have a page behind the
/// modules.
struct Both {
    modules: Modules,
    linkers: [Linker; 2],
    windows: [Vec<u8>; 2],
    desk: Desk,
    made: u32,
    refused: u32,
}

impl Both {
    fn new(random: &mut Random) -> Both {
        let count = random.from_to(2, 10);
        let modules = Modules::new(random, count);
        let limit = random.pick(&[Linker::LIMIT, Linker::LIMIT, 0x100, 0x400, 0x1000]);
        let linker = Linker::with_limit(limit);
        let mut window = modules.window();
        window.resize(window.len() + 0x1000, 0);
        let (linkers, windows) = ([linker.clone(), linker], [window.clone(), window]);
        Both { modules, linkers, windows, desk: Desk::new(), made: 0, refused: 0 }
    }

    fn put(&mut self, address: u32, words: &[u32]) {
        for window in &mut self.windows {
            write(&mut window[(address - self.modules.at) as usize..], words);
        }
    }

    /// Has a step on a member made both ways, its image first read into its place if it does not stand.
    fn step(&mut self, random: &mut Random, caller: u32, buffer: u32) {
        let member = random.below(self.modules.members.len() as u32) as usize;
        let step = any_step(random, &self.modules.members[member], &self.linkers[0]);
        let Placed { bytes, step: Step { base, .. }, .. } = &self.modules.members[member];
        if step.call != Call::Unload {
            let place = (base - self.modules.at) as usize;
            self.windows.iter_mut().for_each(|window| window[place..place + bytes.len()].copy_from_slice(bytes));
        }
        self.put(buffer, &step.command(step.id(), random.pick(&[0, step.base])));
        self.desk.send(caller, buffer).unwrap();
        assert_eq!(self.desk.next_served(), Some((caller, buffer)));
        let [ours, theirs] = &mut self.windows;
        let [through, direct] = &mut self.linkers;
        let served = self.desk.turn(through, &mut Window { at: self.modules.at, bytes: ours }).unwrap();
        let result = directly(&step, direct, &mut Window { at: self.modules.at, bytes: theirs });
        assert_eq!(served, Some(Served { caller, buffer, answered: true, result }));
        write(&mut theirs[(buffer - self.modules.at) as usize..], &reply(&step, result));
        // the room that was made is the same too
        assert!(ours == theirs && through.buffers() == direct.buffers() && through.touch() == direct.touch());
        self.made += 1;
        self.refused += result.is_err() as u32;
    }
}

#[test]
fn a_session_through_the_desk_is_the_same_calls() {
    let (mut made, mut refused) = (0, 0);
    for number in 0..1000 {
        let mut random = Random::new(5, 0, number);
        let mut both = Both::new(&mut random);
        let buffers = both.modules.at + both.modules.length;
        for request in 0..random.from_to(8, 24) {
            both.step(&mut random, request % 8, buffers + 0x40 * request);
        }
        made += both.made;
        refused += both.refused;
    }
    assert!(made > 10_000 && refused > 1_000 && refused < made / 2, "{made} {refused}");
}

/// The example's window with a command at 0x101000.
fn memory(words: &[u32]) -> Vec<u8> {
    let mut lent = Lent::new();
    lent.put(0x101000, words);
    lent.window
}

#[test]
fn the_desk_makes_the_linkers_room() {
    // 3,000 exports by index: more than the page that a linker has to spare
    let module = |words: &[u32]| {
        let mut memory = memory(words);
        memory[0xDC..0xE0].copy_from_slice(&3000u32.to_le_bytes());
        memory
    };
    for (limit, result) in [(Linker::LIMIT, Ok(0x1000)), (32 + 32 + 12_000, Ok(0x1000)), (32 + 32 + 11_999, Err(Error::Full))] {
        let mut linker = Linker::with_limit(limit);
        let fresh = linker.clone();
        let (mut desk, mut memory) = (Desk::new(), module(&LOAD));
        desk.send(1, 0x101000).unwrap();
        let served = desk.turn(&mut linker, &mut Window { at: AT, bytes: &mut memory });
        assert_eq!(served, Ok(Some(Served { caller: 1, buffer: 0x101000, answered: true, result })));
        // what a refused call did not use goes back
        assert!(result.is_ok() || linker.buffers() == fresh.buffers());
    }
    // a module that is not taken in asks for no room
    for words in [[0x0004_0000, AT, AT + 4, 0x1000], [0x0005_0000, AT, 0, 0], [0x0000_0000, AT, 0, 0], [0x0001_0000, AT, 0, 4]] {
        let (mut linker, mut desk, mut memory) = (Linker::new(), Desk::new(), module(&words));
        desk.send(1, 0x101000).unwrap();
        desk.turn(&mut linker, &mut Window { at: AT, bytes: &mut memory }).unwrap().unwrap();
        assert_eq!((linker.buffers().0.len(), linker.buffers().1.len()), (32, 0));
    }
}

#[test]
fn the_wrapper_tells_refusals_apart() {
    let (mut linker, mut desk) = (Linker::new(), Desk::new());
    let mut bytes = memory(&[0x0004_0000, AT, AT + 4, 0x1000]);
    assert_eq!(desk.turn(&mut linker, &mut Window { at: AT, bytes: &mut bytes }), Ok(None));
    for buffer in 0..16 {
        desk.send(1, 0x101000 + 0x100 * buffer).unwrap();
    }
    assert_eq!(desk.send(1, 0), Err(Error::DeskFull));
    let before = desk.clone();
    assert_eq!(desk.turn(&mut linker, &mut Window { at: AT + 1, bytes: &mut bytes }), Err(Error::BadWindow));
    assert_eq!(desk.buffer(), before.buffer());
    let mut turn = || desk.turn(&mut linker, &mut Window { at: AT, bytes: &mut bytes }).unwrap().unwrap();
    let elsewhere = Served { caller: 1, buffer: 0x101000, answered: true, result: Err(Error::Elsewhere) };
    assert_eq!(turn(), elsewhere);
    assert_eq!(turn(), Served { caller: 1, buffer: 0x101100, answered: false, result: Ok(0) });
    assert_eq!((desk.waiting(), desk.next_served()), (14, Some((1, 0x101200))));
}

#[test]
fn what_waits_is_read() {
    let mut desk = Desk::new();
    assert_eq!((desk.waiting(), desk.next_served(), desk.places().len()), (0, None, 0));
    for (caller, buffer) in [(7, 0x10), (9, 0x20), (7, 0x30)] {
        desk.send(caller, buffer).unwrap();
    }
    let places: Vec<(u32, Vec<u32>)> = desk.places().map(|place| (place.caller(), place.waiting().collect())).collect();
    assert_eq!(places, [(7, vec![0x10, 0x30]), (9, vec![0x20])]);
    assert_eq!((desk.waiting(), desk.next_served()), (3, Some((7, 0x10))));
    assert_eq!(desk.buffer()[..], Queues::of(desk.buffer()).unwrap().bytes());
    // desks that read the same are equal, whatever their unused bytes are
    let mut bytes = *desk.buffer();
    bytes[8..16].fill(0xA5);
    bytes[591] = 1;
    assert_eq!(Desk::from_buffer(bytes), desk);
    bytes[4] = 1;
    assert_ne!(Desk::from_buffer(bytes), desk);
    let ones = Desk::from_buffer([0xFF; LENGTH]);
    assert_eq!((ones.places().len(), ones.waiting(), ones.next_served()), (8, 128, Some((u32::MAX, u32::MAX))));
}

#[test]
fn a_desk_is_saved() {
    let mut desk = Desk::new();
    desk.send(7, 0x101000).unwrap();
    let saved = desk.to_bytes();
    assert_eq!((saved.len(), &saved[..4]), (16 + LENGTH, &b"FQHD"[..]));
    assert_eq!(Desk::from_bytes(&saved), Ok(desk));
    assert_eq!(Desk::from_bytes(&Linker::new().to_bytes()), Err(StateError::NotAState));
    let short = Err(StateError::WrongLength { found: saved.len() - 1, expected: saved.len() });
    assert_eq!(Desk::from_bytes(&saved[..saved.len() - 1]), short);
    for (place, error) in [(0, StateError::NotAState), (4, StateError::UnknownForm(0)), (40, StateError::Damaged)] {
        let mut other = saved.clone();
        other[place] ^= 1;
        assert_eq!(Desk::from_bytes(&other), Err(error));
    }
}
