//! Loads of a small module, one of whose counts is 2^24 or 2^32 - 1, and one whose counts nest, all inside the window. Each side does
//! each in a process of its own, which may use a minute and 4 GiB.

use crate::work::AT;
use fillqhano::{Linker, Window};
use oracle::Oracle;
use sessions::image::{tag, FromModule, Image, Internal, Relocation, COUNTS};
use sessions::{Call, Step};
use std::os::unix::process::ExitStatusExt;
use std::process::Command;

const COUNTS_TRIED: [u32; 2] = [1 << 24, u32::MAX];

/// How many module entries nest.
const NESTED_TRIED: [u32; 3] = [1, 16, 255];

/// What is so many.
#[derive(Clone, Copy)]
enum Hostile {
    /// The count in this field of the header. What it counts reads as 0 from the window's end on.
    Header(u32),
    /// The segments, whose table lies outside the window.
    Segments,
    /// The count at this offset of the module entry.
    Entry(u32),
    /// Nothing, but a batch begins where no end mark comes.
    Batch,
    /// Module entries, each with 255 indexed imports of one batch of 0x1001 entries.
    Nested,
}

const CASES: [(&str, Hostile); 13] = [
    ("segments", Hostile::Segments),
    ("named exports", Hostile::Header(COUNTS[1])),
    ("indexed exports", Hostile::Header(COUNTS[2])),
    ("module entries", Hostile::Header(COUNTS[3])),
    ("external relocations", Hostile::Header(COUNTS[4])),
    ("named imports", Hostile::Header(COUNTS[5])),
    ("indexed imports", Hostile::Header(COUNTS[6])),
    ("anonymous imports", Hostile::Header(COUNTS[7])),
    ("internal relocations", Hostile::Header(COUNTS[8])),
    ("a module entry's indexed imports", Hostile::Entry(8)),
    ("a module entry's anonymous imports", Hostile::Entry(16)),
    ("a batch without an end mark", Hostile::Batch),
    ("module entries, 255 walks each", Hostile::Nested),
];
const NESTED: usize = CASES.len() - 1;

pub fn all() {
    for count in COUNTS_TRIED {
        println!("{:<36} {:>18} {:>18}", format!("{count:#x}: number and time"), "linker", "Rust");
        for (case, (name, _)) in CASES[..NESTED].iter().enumerate() {
            println!("{name:<36} {:>18} {:>18}", limited("linker", case, count), limited("rust", case, count));
        }
    }
    for count in NESTED_TRIED {
        let name = format!("{count} {}", CASES[NESTED].0);
        println!("{name:<36} {:>18} {:>18}", limited("linker", NESTED, count), limited("rust", NESTED, count));
    }
}

/// What a process of its own prints, or why it did not.
fn limited(side: &str, case: usize, count: u32) -> String {
    let program = std::env::current_exe().unwrap();
    let output = Command::new("sh")
        .args(["-c", "ulimit -v 4194304; ulimit -t 60; exec \"$0\" --hostile \"$@\""])
        .arg(program)
        .args([side, &case.to_string(), &count.to_string()])
        .output()
        .unwrap();
    // a process that has used its time is killed; one without memory ends itself
    match (output.status.code(), output.status.signal()) {
        (Some(0), _) => String::from_utf8_lossy(&output.stdout).trim().into(),
        (_, Some(KILLED | NO_TIME)) => "over a minute".into(),
        _ => "out of memory".into(),
    }
}

const KILLED: i32 = 9;
const NO_TIME: i32 = 24;

/// The call itself: prints its number and time.
pub fn one(side: &str, case: &str, count: &str) {
    let case = CASES[case.parse::<usize>().unwrap()].1;
    let (mut window, step) = session(case, count.parse().unwrap());
    let start = crate::clock::now();
    let answer = match side {
        "linker" => {
            let answer = step.call(&mut Linker::new(), &mut Window { at: AT, bytes: &mut window });
            (answer.number, answer.value)
        }
        _ => match Oracle::new(AT, window) {
            Some(mut oracle) => oracle.call(&step),
            None => return println!("no sources"),
        },
    };
    println!("{} in {}", answer.0, crate::shown(Some(crate::clock::now() - start)));
}

fn session(hostile: Hostile, count: u32) -> (Vec<u8>, Step) {
    if let Hostile::Nested = hostile {
        return nested(count);
    }
    let mut window = image().bytes();
    let size = window.len() as u32;
    window.resize(0x1000, 0);
    let word = |window: &[u8], at: u32| u32::from_le_bytes(window[at as usize..][..4].try_into().unwrap());
    let (entry, import) = (word(&window, 0xF0), word(&window, 0x100));
    let mut put = |at: u32, word: u32| window[at as usize..][..4].copy_from_slice(&word.to_le_bytes());
    match hostile {
        Hostile::Header(field) => put(field, count),
        Hostile::Segments => {
            put(COUNTS[0] - 4, 0x1000);
            put(COUNTS[0], count);
        }
        Hostile::Entry(offset) => put(entry + offset, count),
        Hostile::Batch => put(import + 4, 0xF00),
        Hostile::Nested => unreachable!("it has a window of its own"),
    }
    (window, Step { call: Call::Load, auto_link: 1, fix_level: 1, ..Step::initialize(AT, size) })
}

/// A module that has one of each, and imports from itself.
fn image() -> Image {
    let mut image = Image { name: b"hostile".to_vec(), handler: tag(0, 4), sizes: [0x100, 0, 0, 0], ..Image::default() };
    let relocation = |offset| Relocation { tag: tag(0, offset), kind: 2, addend: 0 };
    image.exports.push((b"export".to_vec(), tag(0, 0)));
    image.indexed.push(tag(0, 0));
    image.imports.push((b"export".to_vec(), vec![relocation(8)]));
    let (indexed, anonymous) = ((0, vec![relocation(12)]), (tag(0, 0), vec![relocation(16)]));
    image.modules.push(FromModule { name: b"hostile".to_vec(), indexed: vec![indexed], anonymous: vec![anonymous] });
    image.internal.push(Internal { relocation: relocation(20), symbol: 0 });
    image
}

/// A module whose entries all name it, and all have the same 255 imports of its one indexed export. Their batch begins below the window, so
/// its mark is never kept, and each of them walks it anew; no word of the window up to its 0x1001st entry is an end mark.
fn nested(entries: u32) -> (Vec<u8>, Step) {
    let (name, exports, table, imports, length) = (0x10, 0x20, 0x140, 0x1_0000, 0x1_1000);
    let mut window = vec![0; length as usize];
    let mut put = |at: u32, word: u32| window[at as usize..][..4].copy_from_slice(&word.to_le_bytes());
    put(0x80, u32::from_le_bytes(*b"CRO0"));
    put(name, u32::from_le_bytes(*b"n\0\0\0"));
    for (field, offset, count) in [(0xC0, name, 2), (0xD8, exports, 1), (0xF0, table, entries)] {
        put(field, offset);
        put(field + 4, count);
    }
    for entry in (table..).step_by(20).take(entries as usize) {
        put(entry, name);
        put(entry + 4, imports);
        put(entry + 8, 255);
    }
    for import in (imports..).step_by(8).take(255) {
        put(import + 4, AT - 12);
    }
    (window, Step { call: Call::Load, auto_link: 1, ..Step::initialize(AT, length) })
}
