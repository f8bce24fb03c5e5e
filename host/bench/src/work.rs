//! The rows of the benchmark: what stands before, and the calls that are timed.

use crate::clock::now;
use fillqhano::{Linker, Window};
use oracle::Oracle;
use sessions::image::{tag, FromModule, Image, Internal, Relocation, BSS_SEGMENT, CODE_SEGMENT};
use sessions::{Call, Step};
use std::time::Duration;

/// How many times each side does a row's work.
pub const RUNS: usize = 15;

pub const AT: u32 = 0x0010_0000;

/// A row: a window, calls that are made first, and calls that are timed.
pub struct Work {
    pub name: &'static str,
    window: Vec<u8>,
    first: Vec<Step>,
    pub timed: Vec<Step>,
}

impl Work {
    pub fn all() -> Vec<Work> {
        vec![
            large_module(),
            scene_swap(),
            many_small(),
            register_test(),
            table_moves(),
            batch_walks(),
            many_exports("5,000 mixed exports, as many imports", 5_000, mixed),
            many_exports("20,000 mixed exports, as many imports", 20_000, mixed),
            many_exports("5,000 ascending exports, as many imports", 5_000, ascending),
            many_exports("20,000 ascending exports, as many imports", 20_000, ascending),
            cold_session("a cold session: 24 modules, 200 calls", 200),
            in_window("the large module in a window of 4 MiB", 4),
            in_window("the large module in a window of 64 MiB", 64),
        ]
    }

    /// Works that grow: what is counted, so many, and the work of that size.
    pub fn growing() -> Vec<(&'static str, Vec<(u32, Work)>)> {
        let sizes = |from: u32| [from, 3 * from, 10 * from, 30 * from, 100 * from];
        let works = |sizes: &[u32], work: &dyn Fn(u32) -> Work| sizes.iter().map(|&size| (size, work(size))).collect();
        vec![
            ("mixed exports, as many imports", works(&sizes(500), &|size| many_exports("mixed", size, mixed))),
            ("ascending exports, as many imports", works(&sizes(500), &|size| many_exports("ascending", size, ascending))),
            ("calls of a cold session of 24 modules", works(&sizes(40)[..4], &|size| cold_session("cold", size as usize))),
            ("MiB of window around the large module", works(&[4, 16, 64, 256], &|size| in_window("window", size as usize))),
        ]
    }

    /// Those that are done through the desk too.
    pub fn desk() -> [Work; 2] {
        [large_module(), many_small()]
    }

    /// The best time of each side, which take turns.
    pub fn times(&self) -> (Duration, Option<Duration>) {
        let linker = self.linker();
        let mut best = (Duration::MAX, None);
        for _ in 0..RUNS {
            best.0 = best.0.min(self.time_linker(&linker));
            best.1 = self.time_rust().map(|time| time.min(best.1.unwrap_or(time)));
        }
        best
    }

    /// The linker and the window after the calls that come first.
    pub fn linker(&self) -> (Linker, Vec<u8>) {
        let mut linker = Linker::new();
        let mut bytes = self.window.clone();
        let mut window = Window { at: AT, bytes: &mut bytes };
        for step in &self.first {
            assert_eq!(step.call(&mut linker, &mut window).number, 0, "{}: {step:x?}", self.name);
        }
        (linker, bytes)
    }

    pub fn time_linker(&self, ready: &(Linker, Vec<u8>)) -> Duration {
        let (mut linker, mut bytes) = ready.clone();
        let mut window = Window { at: AT, bytes: &mut bytes };
        let start = now();
        for step in &self.timed {
            std::hint::black_box(step.call(&mut linker, &mut window));
        }
        now() - start
    }

    fn time_rust(&self) -> Option<Duration> {
        let mut oracle = Oracle::new(AT, self.window.clone())?;
        for step in &self.first {
            oracle.call(step);
        }
        let start = now();
        for step in &self.timed {
            std::hint::black_box(oracle.call(step));
        }
        Some(now() - start)
    }
}

/// Images in a window, one after the other, each with the call that takes it in.
struct Stage {
    window: Vec<u8>,
    steps: Vec<Step>,
}

impl Stage {
    fn new() -> Stage {
        Stage { window: Vec::new(), steps: Vec::new() }
    }

    /// Adds an image; the first is the static module. Lent data and bss come behind it.
    fn add(&mut self, mut image: Image) {
        let base = AT + self.window.len() as u32;
        let is_static = self.steps.is_empty();
        image.static_base = is_static.then_some(base);
        let bytes = image.bytes();
        let size = bytes.len().next_multiple_of(0x1000) as u32;
        let (data, bss) = (base + size, base + size + image.sizes[2]);
        self.window.extend(bytes);
        let end = self.window.len().next_multiple_of(0x1000) + (image.sizes[2] + image.sizes[3]) as usize;
        self.window.resize(end.next_multiple_of(0x1000), 0);
        let lent = (image.sizes[2], image.sizes[3]);
        self.steps.push(match is_static {
            true => Step::initialize(base, size),
            false => {
                let load = Step { call: Call::Load, base, size, auto_link: 1, fix_level: 1, ..Step::default() };
                Step { data_segment: data, data_segment_size: lent.0, bss_segment: bss, bss_segment_size: lent.1, ..load }
            }
        });
    }

    fn work(self, name: &'static str, first: usize, timed: Vec<Step>) -> Work {
        let first = self.steps[..first].to_vec();
        Work { name, window: self.window, first, timed }
    }
}

/// Export names as C++ has them: long, with a common beginning. Their order in the table is not that of the bytes.
fn export(module: u32, index: u32) -> Vec<u8> {
    name(module, mixed(index))
}

fn name(module: u32, number: u32) -> Vec<u8> {
    format!("_ZN2gf{module:02}Module9component{number:04}EPKcj").into_bytes()
}

/// The number in the name of an export that stands here in its table: each of ten thousand once, in another order.
fn mixed(index: u32) -> u32 {
    index / 10_000 * 10_000 + index.wrapping_mul(7919) % 10_000
}

/// Numbers of five digits, so that the names stand in their order.
fn ascending(index: u32) -> u32 {
    10_000 + index
}

fn relocations(next: &mut u32, count: u32) -> Vec<Relocation> {
    let batch = (0..count).map(|index| Relocation { tag: tag(CODE_SEGMENT, *next + 4 * index), kind: 2, addend: 0 }).collect();
    *next += 4 * count;
    batch
}

fn empty(name: &str, code: u32) -> Image {
    Image { name: name.into(), handler: tag(CODE_SEGMENT, 4), sizes: [code, 0, 0, 0], ..Image::default() }
}

fn with_exports(image: Image, module: u32, count: u32) -> Image {
    with_ordered_exports(image, module, count, mixed)
}

fn with_ordered_exports(mut image: Image, module: u32, count: u32, order: fn(u32) -> u32) -> Image {
    image.exports = (0..count).map(|index| (name(module, order(index)), tag(CODE_SEGMENT, 4 * index))).collect();
    image
}

/// 2,000 named exports, 2,000 named imports of two relocations each, 6,000 internal relocations, 3 MiB of code.
fn large_module() -> Work {
    large("load of a large module")
}

/// The same in a window that has so many MiB in all.
fn in_window(name: &'static str, length: usize) -> Work {
    let mut work = large(name);
    work.window.resize(length << 20, 0);
    work
}

fn large(name: &'static str) -> Work {
    let mut stage = Stage::new();
    stage.add(with_exports(empty("static", 0x4000), 0, 2000));
    let mut image = with_exports(empty("large", 0x30_0000), 1, 2000);
    let mut next = 0x100;
    image.imports = (0..2000).map(|index| (export(0, index), relocations(&mut next, 2))).collect();
    let internal = relocations(&mut next, 6000);
    image.internal = internal.into_iter().map(|relocation| Internal { relocation, symbol: 0 }).collect();
    stage.add(image);
    let timed = vec![stage.steps[1]];
    stage.work(name, 1, timed)
}

/// A module of a scene: exports, imports from its neighbour and from the static module, by name, index and tag.
fn scene_module(number: u32, count: u32) -> Image {
    let mut image = with_exports(empty(&format!("scene{number}"), 0x8000), number, count);
    image.indexed = (0..count / 2).map(|index| tag(CODE_SEGMENT, 4 * index)).collect();
    image.sizes[3] = 0x100;
    let mut next = 0x400;
    let before = number.saturating_sub(1);
    image.imports = (0..count).map(|index| (export(index % 2 * before, index), relocations(&mut next, 2))).collect();
    let mut from = FromModule { name: format!("scene{before}").into(), ..Default::default() };
    from.indexed = (0..count / 4).map(|index| (index, relocations(&mut next, 1))).collect();
    from.anonymous = (0..count / 4).map(|index| (tag(BSS_SEGMENT, index), relocations(&mut next, 1))).collect();
    image.modules.push(from);
    let internal = relocations(&mut next, 2 * count);
    image.internal = internal.into_iter().map(|relocation| Internal { relocation, symbol: 0 }).collect();
    image
}

/// An unload and a load among 24 standing modules, ten times, each of another module.
fn scene_swap() -> Work {
    let mut stage = Stage::new();
    for number in 0..25 {
        stage.add(scene_module(number, 100));
    }
    let swaps = (0..10).flat_map(|swap| {
        let step = stage.steps[1 + 2 * swap];
        [Step::unload(step.base), Step { fix_level: 0, ..step }]
    });
    let timed = swaps.collect();
    // level 0 keeps the tables, so that a module that was unloaded can be loaded again
    stage.steps.iter_mut().for_each(|step| step.fix_level = 0);
    stage.work("ten scene swaps among 24 modules", 25, timed)
}

/// An evening: the static module and 24 others are taken in, then one after another leaves and comes again.
fn cold_session(name: &'static str, calls: usize) -> Work {
    let mut stage = Stage::new();
    for number in 0..25 {
        stage.add(scene_module(number, 100));
    }
    // level 0 keeps the tables, so that a module that was unloaded can be loaded again
    stage.steps.iter_mut().for_each(|step| step.fix_level = 0);
    let swaps = stage.steps[1..].iter().cycle().flat_map(|&step| [Step::unload(step.base), step]);
    let timed = stage.steps.iter().copied().chain(swaps).take(calls).collect();
    stage.work(name, 0, timed)
}

/// 64 modules of 16 exports and 16 imports, the static one among them.
fn many_small() -> Work {
    let mut stage = Stage::new();
    for number in 0..64 {
        stage.add(scene_module(number, 16));
    }
    let timed = stage.steps[1..].to_vec();
    stage.work("63 loads of small modules", 1, timed)
}

/// A call that is refused for its magic: all the linker does is to test the register. The Rust has no such test.
fn register_test() -> Work {
    let mut stage = Stage::new();
    for number in 0..25 {
        stage.add(scene_module(number, 100));
    }
    let timed = vec![Step::initialize(stage.steps[1].base + 0x1000, 0)];
    stage.work("the register's test alone, 25 modules", 25, timed)
}

/// 100,000 entries of import tables whose pointers move, and that no module entry uses.
fn table_moves() -> Work {
    let mut stage = Stage::new();
    stage.add(empty("static", 0x100));
    let mut image = empty("tables", 0x1000);
    let entries = 50_000;
    let mut from = FromModule { name: b"static".to_vec(), ..Default::default() };
    from.indexed = (0..entries).map(|index| (index, Vec::new())).collect();
    from.anonymous = from.indexed.clone();
    image.modules.push(from);
    stage.add(image);
    // the entries stand in the tables, but the module entry that has their runs does not
    let header = (stage.steps[1].base - AT) as usize;
    stage.window[header + 0xF4..header + 0xF8].fill(0);
    let timed = vec![stage.steps[1]];
    stage.work("moves of 100,000 table entries", 1, timed)
}

/// A module leaves and comes from which another imports 50 symbols, each in 4,000 places.
fn batch_walks() -> Work {
    let mut stage = Stage::new();
    stage.add(empty("static", 0x100));
    let mut image = empty("importer", 4 * 4000 * 50 + 0x100);
    let mut next = 0x100;
    image.imports = (0..50).map(|index| (export(2, index), relocations(&mut next, 4000))).collect();
    stage.add(image);
    stage.add(with_exports(empty("exporter", 0x1000), 2, 50));
    stage.steps.iter_mut().for_each(|step| step.fix_level = 0);
    let exporter = stage.steps[2];
    let timed = vec![Step::unload(exporter.base), exporter];
    stage.work("100 walks of batches of 4,000 entries", 3, timed)
}

/// Only names: so many exports, and as many imports of one relocation each, from a static module of as many exports.
fn many_exports(name_of_row: &'static str, count: u32, order: fn(u32) -> u32) -> Work {
    let mut stage = Stage::new();
    stage.add(with_ordered_exports(empty("static", 4 * count), 0, count, order));
    let mut image = with_ordered_exports(empty("exports", 4 * count), 1, count, order);
    let mut next = 0;
    image.imports = (0..count).map(|index| (name(0, order(index)), relocations(&mut next, 1))).collect();
    stage.add(image);
    let timed = vec![stage.steps[1]];
    stage.work(name_of_row, 1, timed)
}
