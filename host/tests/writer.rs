//! The writer on descriptions whose answers were worked out by hand: a module of 392 bytes, edits of it, and words past an image's end.

use fillqhano::raw::{read_image, write_image};
use fillqhano::{Description, Export, Import, ImportedModule, InternalRelocation, NotWellLaid, Relocation, Segment, Tag};

/// The parts of the module: name, code, export, import, one word of each table of relocations, and the handler at the code's start.
fn parts() -> Description {
    let relocation = |offset, addend| Relocation { tag: Tag::new(0, offset), kind: 2, addend };
    Description {
        name: b"m".to_vec(),
        segments: vec![Segment::Code((0..16).collect())],
        exports: vec![Export { name: b"f".to_vec(), tag: Tag::new(0, 0) }],
        imports: vec![Import { wanted: b"g".to_vec(), relocations: vec![relocation(4, 0)] }],
        relocations: vec![InternalRelocation { symbol: 0, relocation: relocation(8, 4) }],
        ..Default::default()
    }
}

/// The header's pairs from 0x0C0 on, offset and count.
const PAIRS: [(u32, u32); 15] = [
    (0x148, 2),
    (0x14C, 1),
    (0x158, 1),
    (0x160, 0),
    (0x160, 2),
    (0x164, 0),
    (0x164, 0),
    (0x164, 1),
    (0x170, 1),
    (0x178, 0),
    (0x178, 0),
    (0x178, 2),
    (0x17C, 0),
    (0x17C, 1),
    (0x188, 0),
];

/// The bytes from 0x138 on, as they are stored.
const REST: &str = "00010203 04050607 08090a0b 0c0d0e0f 6d000000 38010000 10000000 00000000 60010000 00000000 66000000 40000000 \
                    02010000 00000000 78010000 64010000 67000000 80000000 02000000 04000000";

/// The description, byte for byte.
fn stored() -> Vec<u8> {
    let mut bytes = vec![0; 0x138];
    put(&mut bytes, 0x084, 0x148);
    put(&mut bytes, 0x0B0, 0x138);
    put(&mut bytes, 0x0B4, 0x10);
    for (number, (offset, count)) in PAIRS.into_iter().enumerate() {
        put(&mut bytes, 0x0C0 + 8 * number, offset);
        put(&mut bytes, 0x0C4 + 8 * number, count);
    }
    let digits: Vec<u8> = REST.bytes().filter(|byte| *byte != b' ').collect();
    let pair = |pair: &[u8]| u8::from_str_radix(std::str::from_utf8(pair).unwrap(), 16).unwrap();
    bytes.extend(digits.chunks(2).map(pair));
    bytes
}

fn put(bytes: &mut [u8], at: usize, word: u32) {
    bytes[at..at + 4].copy_from_slice(&word.to_le_bytes());
}

fn word(bytes: &[u8], at: usize) -> u32 {
    u32::from_le_bytes(bytes[at..at + 4].try_into().unwrap())
}

/// Writes to a buffer of so many bytes, all 0xAA before: the number and the value. With 0 the image is the description with magic, length and
/// zeros, and what is behind it stays; with another number all stays.
fn written_to(description: &[u8], length: usize) -> (u32, u32) {
    let mut buffer = vec![0xAA; length];
    let (number, value) = write_image(description, &mut buffer);
    let mut image = Vec::new();
    if number == 0 {
        image = description.to_vec();
        image.resize(value as usize, 0);
        image[0x80..0x84].copy_from_slice(b"CRO0");
        put(&mut image, 0x90, value);
    }
    image.resize(length, 0xAA);
    assert!(buffer == image, "another buffer beside {number}");
    (number, value)
}

/// The number and the value with a buffer that is long enough; what is written reads back.
fn written(description: &[u8]) -> (u32, u32) {
    let answer = written_to(description, description.len() + 0x2000);
    if answer.0 == 0 {
        let mut image = vec![0; answer.1 as usize];
        write_image(description, &mut image);
        let mut back = vec![0xAA; description.len() + 1];
        assert_eq!(read_image(&image, &mut back), (0, description.len() as u32));
        assert!(back[..description.len()] == *description && back[description.len()] == 0xAA);
    }
    answer
}

/// The number for the stored description with an edit.
fn edited(edit: impl FnOnce(&mut Vec<u8>)) -> u32 {
    let mut description = stored();
    edit(&mut description);
    written(&description).0
}

/// The number for the parts with an edit.
fn changed(edit: impl FnOnce(&mut Description)) -> u32 {
    let mut parts = parts();
    edit(&mut parts);
    written(&parts.to_bytes()).0
}

#[test]
fn the_stored_module_is_its_parts() {
    assert_eq!(parts().to_bytes(), stored());
    assert_eq!(Description::of_bytes(&stored()), Some(parts()));
    assert_eq!(written(&stored()), (0, 0x1000));
    let image = parts().image().unwrap();
    assert_eq!(Description::of_image(&image), Some(parts()));
}

#[test]
fn a_buffer_too_short_is_7_and_6_comes_first() {
    assert_eq!(written_to(&stored(), 4096), (0, 0x1000));
    assert_eq!(written_to(&stored(), 4095), (7, 0));
    assert_eq!(written_to(&stored(), 0), (7, 0));
    let mut undescribed = stored();
    undescribed[0x088] = 1;
    assert_eq!(written_to(&undescribed, 0), (6, 0));
}

#[test]
fn a_description_ends_where_its_parts_do() {
    assert_eq!(edited(|bytes| bytes.push(0)), 6);
    assert_eq!(edited(|bytes| bytes.truncate(391)), 6);
    assert_eq!(edited(|bytes| bytes.resize(4096, 0)), 6);
    for length in 0..0x138 {
        assert_eq!(edited(|bytes| bytes.truncate(length)), 6);
    }
}

#[test]
fn bytes_that_are_not_described_are_0() {
    for at in [0x14A, 0x080, 0x090, 0x098, 0x09C, 0, 0x083, 0x088, 0x093, 0x09F] {
        assert_eq!(edited(|bytes| bytes[at] = 1), 6, "{at:#x}");
    }
    for at in [0x084, 0x094, 0x0A4, 0x0B8, 0x087, 0x097, 0x0A0, 0x0B7, 0x0BF] {
        assert_eq!(edited(|bytes| bytes[at] ^= 1), 0, "{at:#x}");
    }
}

#[test]
fn names_have_at_most_512_bytes() {
    for (length, number) in [(512, 0), (513, 6), (0, 0)] {
        assert_eq!(changed(|parts| parts.name = vec![b'n'; length]), number, "{length}");
        assert_eq!(changed(|parts| parts.exports[0].name = vec![b'n'; length]), number, "{length}");
        assert_eq!(changed(|parts| parts.imports[0].wanted = vec![b'n'; length]), number, "{length}");
    }
    assert_eq!(changed(|parts| parts.exports[0].name = b"x\0y".to_vec()), 6);
    assert_eq!(edited(|bytes| put(bytes, 0x158, 0)), 6);
}

#[test]
fn the_handler_is_in_a_segment() {
    for (tag, number) in [(0x0F0, 0), (0x100, 6), (0x001, 6)] {
        assert_eq!(edited(|bytes| put(bytes, 0x0AC, tag)), number, "{tag:#x}");
    }
    assert_eq!(changed(|parts| parts.segments.clear()), 6);
}

#[test]
fn a_relocated_word_meets_nothing() {
    let internal = |offset: u32| move |bytes: &mut Vec<u8>| put(bytes, 0x17C, offset << 4);
    assert_eq!(edited(internal(12)), 0);
    assert_eq!(edited(internal(13)), 6);
    // one that writes nothing may be anywhere
    for (at, byte) in [(0x180, 6), (0x181, 1)] {
        assert_eq!(edited(|bytes| (internal(13)(bytes), bytes[at] = byte).1), 0);
    }
    assert_eq!(edited(internal(7)), 6);
    assert_eq!(edited(internal(1)), 6);
    assert_eq!(edited(internal(0)), 0);
}

/// A second import, with its batch at this entry of the external table, which has two.
fn two_imports(edit: impl FnOnce(&mut Vec<u8>)) -> u32 {
    let mut parts = parts();
    let second = Relocation { tag: Tag::new(0, 0), kind: 2, addend: 0 };
    parts.imports.push(Import { wanted: b"h".to_vec(), relocations: vec![second] });
    let mut bytes = parts.to_bytes();
    edit(&mut bytes);
    written(&bytes).0
}

#[test]
fn every_import_has_a_batch_of_its_own() {
    let (table, imports) = (0x164, 0x164 + 24);
    assert_eq!(two_imports(|_| {}), 0);
    assert_eq!(two_imports(|bytes| put(bytes, imports + 12, table)), 6);
    assert_eq!(two_imports(|bytes| bytes[table as usize + 17] = 0), 6);
    assert_eq!(two_imports(|bytes| bytes[table as usize + 5] = 0), 6);
    assert_eq!(two_imports(|bytes| put(bytes, imports + 12, table + 24)), 6);
    assert_eq!(two_imports(|bytes| put(bytes, imports + 12, table + 1)), 6);
    assert_eq!(two_imports(|bytes| put(bytes, imports + 12, 0)), 6);
    // batches in another order than their imports
    assert_eq!(two_imports(|bytes| (put(bytes, imports + 4, table + 12), put(bytes, imports + 12, table)).1), 0);
}

#[test]
fn a_batch_has_at_most_4097_entries() {
    let nothing = Relocation { tag: Tag::new(0, 0), kind: 0, addend: 0 };
    for (entries, answer) in [(4097, (0, 0xD000)), (4098, (6, 0))] {
        let mut parts = parts();
        parts.imports[0].relocations = vec![nothing; entries];
        assert_eq!(written(&parts.to_bytes()), answer);
    }
}

/// A module entry with two indexed imports, and one with none.
fn with_runs(edit: impl FnOnce(&mut Vec<u8>, usize)) -> u32 {
    let mut parts = parts();
    let nothing = |offset| vec![Relocation { tag: Tag::new(0, offset), kind: 0, addend: 0 }];
    let indexed = (0..2).map(|wanted| Import { wanted, relocations: nothing(wanted) }).collect();
    parts.modules = vec![ImportedModule { name: b"o".to_vec(), indexed, anonymous: vec![] }, ImportedModule::default()];
    let mut bytes = parts.to_bytes();
    let entries = word(&bytes, 0x0F0) as usize;
    edit(&mut bytes, entries);
    written(&bytes).0
}

#[test]
fn runs_are_entries_of_the_tables_and_share_none() {
    assert_eq!(with_runs(|_, _| {}), 0);
    // one import of a table without any
    assert_eq!(with_runs(|bytes, entries| put(bytes, entries + 16, 1)), 6);
    // empty runs, with any pointers
    assert_eq!(with_runs(|bytes, entries| (put(bytes, entries + 8, 0), put(bytes, entries + 4, 0x12345)).1), 0);
    assert_eq!(with_runs(|bytes, entries| put(bytes, entries + 32, 0xFFFF_FFFF)), 0);
    // one import in two runs, in none, and runs that leave the table
    let table = |bytes: &[u8]| word(bytes, 0x108);
    let second = |bytes: &mut Vec<u8>, entries: usize, pointer: u32, count: u32| {
        put(bytes, entries + 24, pointer);
        put(bytes, entries + 28, count);
    };
    assert_eq!(with_runs(|bytes, entries| (second(bytes, entries, table(bytes), 1), ()).1), 6);
    assert_eq!(with_runs(|bytes, entries| put(bytes, entries + 8, 1)), 0);
    assert_eq!(with_runs(|bytes, entries| (put(bytes, entries + 8, 1), second(bytes, entries, table(bytes) + 8, 1)).1), 0);
    assert_eq!(with_runs(|bytes, entries| (put(bytes, entries + 8, 1), second(bytes, entries, table(bytes) + 8, 2)).1), 6);
    assert_eq!(with_runs(|bytes, entries| (put(bytes, entries + 8, 1), second(bytes, entries, table(bytes) + 4, 1)).1), 6);
}

/// An internal word that is written so many bytes from the start of the only indexed import on, and how many imports its module entry's run has.
fn word_on_import(offset: u32, run: u32) -> u32 {
    let mut parts = parts();
    parts.segments.extend([Segment::Data(vec![0; 0x200]), Segment::Data(vec![0; 4])]);
    let nothing = Relocation { tag: Tag::new(0, 0), kind: 0, addend: 0 };
    let indexed = vec![Import { wanted: 0, relocations: vec![nothing] }];
    parts.modules = vec![ImportedModule { name: b"o".to_vec(), indexed, anonymous: vec![] }];
    let bytes = parts.to_bytes();
    let last_data = word(&bytes, word(&bytes, 0x0C8) as usize + 24);
    parts.relocations[0].relocation.tag = Tag::new(1, word(&bytes, 0x108) + offset - last_data);
    let mut bytes = parts.to_bytes();
    let entry = word(&bytes, 0x0F0) as usize;
    put(&mut bytes, entry + 8, run);
    written(&bytes).0
}

#[test]
fn a_word_may_lie_on_what_an_import_in_no_run_asks_for() {
    assert_eq!(word_on_import(0, 0), 0);
    assert_eq!(word_on_import(0, 1), 6);
    assert_eq!(word_on_import(1, 0), 6);
}

#[test]
fn there_is_a_place() {
    assert_eq!(changed(|parts| parts.segments.push(Segment::Bss(0xFFFF_EFFE))), 0);
    assert_eq!(changed(|parts| parts.segments.push(Segment::Bss(0xFFFF_EFFF))), 6);
}

#[test]
fn a_word_of_bss_lies_in_it() {
    for (offset, number) in [(12, 0), (13, 6)] {
        let mut parts = parts();
        parts.segments.push(Segment::Bss(16));
        parts.imports[0].relocations[0].tag = Tag::new(1, offset);
        let mut bytes = parts.to_bytes();
        // a kind above 3 is Bss too
        let table = word(&bytes, 0x0C8) as usize;
        put(&mut bytes, table + 20, 7);
        assert_eq!(written(&bytes).0, number);
    }
}

#[test]
fn two_data_segments_have_one_lent_area() {
    let two = |edit: &dyn Fn(&mut Description)| {
        changed(|parts| {
            parts.segments.extend([Segment::Data(vec![0; 16]), Segment::Data(vec![0; 4])]);
            edit(parts);
        })
    };
    let at = |segment, offset| Relocation { tag: Tag::new(segment, offset), kind: 2, addend: 0 };
    assert_eq!(two(&|_| {}), 0);
    assert_eq!(two(&|parts| parts.imports[0].relocations = vec![at(1, 0)]), 0);
    assert_eq!(two(&|parts| parts.imports[0].relocations = vec![at(1, 0), at(2, 0)]), 6);
    // an internal word into the first is written from the second on
    assert_eq!(two(&|parts| parts.relocations[0].relocation = at(1, 0)), 0);
    assert_eq!(two(&|parts| parts.relocations[0].relocation = at(1, 12)), 6);
}

/// Two Data segments of 8,192 and 4 bytes, a Bss segment that leaves `room` addresses free, and an internal word at `offset` of the first.
fn far(offset: u32, room: u32) -> u32 {
    let parts = Description {
        segments: vec![
            Segment::Data(vec![0; 0x2000]),
            Segment::Data(vec![0; 4]),
            Segment::Bss(0u32.wrapping_sub(2 + 0x3000 + 0x2000 + room)),
        ],
        relocations: vec![InternalRelocation {
            symbol: 0,
            relocation: Relocation { tag: Tag::new(0, offset), kind: 2, addend: 0 },
        }],
        ..Default::default()
    };
    let (number, value) = written(&parts.to_bytes());
    assert!(number != 0 || value == 0x3000);
    number
}

#[test]
fn a_word_past_the_image_lies_in_what_is_lent_if_little_is_free() {
    assert_eq!(far(0xEC4, 0), 0);
    assert_eq!(far(0xEC5, 0), 6);
    assert_eq!(far(0xEC8, 0), 6);
    assert_eq!(far(0xEC9, 0), 6);
    for room in [0, 1, 2, 100] {
        assert_eq!(far(0xECA, room) == 0, room == 0, "{room}");
        assert_eq!(far(0xECB, room) == 0, room <= 1, "{room}");
    }
    for (room, number) in [(0, 0), (1, 0), (54, 0), (55, 6), (60, 6)] {
        assert_eq!(far(0xF00, room), number, "{room}");
    }
}

#[test]
fn reading_judges_the_length_alone() {
    let image = parts().image().unwrap();
    let read = |image: &[u8], length: usize| {
        let mut buffer = vec![0xAA; length];
        let answer = read_image(image, &mut buffer);
        assert!(answer.0 == 0 || buffer.iter().all(|&byte| byte == 0xAA));
        answer
    };
    assert_eq!(read(&image, 392), (0, 392));
    assert_eq!(read(&image, 391), (7, 0));
    assert_eq!(read(&image[..392], 0x1000), (0, 392));
    assert_eq!(read(&image[..391], 0x1000), (6, 0));
    assert_eq!(read(&image[..0x137], 0x1000), (6, 0));
    assert_eq!(read(&[], 0), (6, 0));
    assert_eq!(read(&[0xFF; 0x1000], 0x1000), (6, 0));
    assert_eq!(read(&[0; 0x138], 0), (0, 0));
}

#[test]
fn what_the_builder_did_not_make_is_none() {
    let mut image = parts().image().unwrap();
    assert_eq!(Description::of_image(&image[..0x100]), None);
    image[0x090] = 1;
    assert_eq!(Description::of_image(&image), None);
    assert_eq!(Description::of_bytes(&[0xFF; 0x400]), None);
    assert_eq!(Description::default().image(), Err(NotWellLaid));
}
