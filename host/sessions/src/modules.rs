//! A static module and modules that import from each other, well laid and apart from each other in one window.

use crate::image::{tag, FromModule, Image, Internal, Relocation, BSS_SEGMENT, CODE_SEGMENT, DATA_SEGMENT, READ_ONLY_SEGMENT};
use crate::{Call, Random, Room, Session, Step};

/// An image, its bytes, and the call that takes it in.
#[derive(Debug, Clone)]
pub struct Placed {
    pub step: Step,
    pub image: Image,
    pub bytes: Vec<u8>,
}

/// The first is the static module. No module's and no export's name comes twice.
#[derive(Debug, Clone)]
pub struct Modules {
    pub at: u32,
    pub length: u32,
    pub members: Vec<Placed>,
}

/// What others may import from a module.
#[derive(Default)]
struct Offer {
    name: Vec<u8>,
    exports: Vec<Vec<u8>>,
}

impl Modules {
    /// At most `count` members in a window of at most 32 KiB: as many as have room.
    pub fn new(random: &mut Random, count: u32) -> Modules {
        let length = 0x1000 * random.from_to(2, 8);
        // some stand so high that the addresses of batches come close to 2^32, and some have address 0
        let anywhere = 0x1000 * random.from_to(1, 0xF_0000);
        let at = match random.below(16) {
            0 => 0xFFFF_F000 - length,
            1 => 0,
            _ => anywhere,
        };
        let offers: Vec<Offer> = (0..count).map(|number| Offer::new(random, number)).collect();
        let mut modules = Modules { at, length, members: Vec::new() };
        let mut next = at + 4 * random.from_to(1, 16);
        for number in 0..count {
            let image = image(random, &offers, number as usize);
            let placed = place(random, image, number == 0, &mut next);
            if next.wrapping_sub(at) > length {
                break;
            }
            modules.members.push(placed);
        }
        modules
    }

    /// The window with every image at its place, and something that is no name at its beginning.
    pub fn window(&self) -> Vec<u8> {
        let mut window = vec![0; self.length as usize];
        window[..3].fill(b'z');
        for member in &self.members {
            let start = (member.step.base - self.at) as usize;
            window[start..start + member.bytes.len()].copy_from_slice(&member.bytes);
        }
        window
    }

    pub fn session(&self, steps: Vec<Step>) -> Session {
        Session { at: self.at, window: self.window(), room: Room::PROGRAM, steps }
    }
}

impl Offer {
    fn new(random: &mut Random, number: u32) -> Offer {
        let exports = random.below(7);
        let mut offer = Offer { name: name(random, number, 0), exports: Vec::new() };
        offer.exports.extend((0..exports).map(|index| name(random, number, index + 1)));
        random.shuffle(&mut offer.exports);
        offer
    }
}

/// A name that no other member has, often short, some longer, some not ASCII, at most one module's and one export's empty.
fn name(random: &mut Random, number: u32, index: u32) -> Vec<u8> {
    if matches!((number, index), (1, 0) | (2, 1)) && random.once_in(3) {
        return Vec::new();
    }
    let mut name = format!("m{number}e{index}").into_bytes();
    let more = random.pick(&[0, 0, 0, 1, 5, 20, 60]);
    name.extend((0..more).map(|_| b'a' + random.below(26) as u8));
    if random.once_in(16) {
        name.extend("é€".bytes());
    }
    name
}

/// Hands out words of a module's segments, each once.
struct Words {
    sizes: [u32; 4],
    next: [u32; 4],
}

impl Words {
    fn tag(&mut self, random: &mut Random) -> Option<u32> {
        let segment = random.pick(&[CODE_SEGMENT, CODE_SEGMENT, READ_ONLY_SEGMENT, DATA_SEGMENT, BSS_SEGMENT]);
        let next = &mut self.next[segment as usize];
        let offset = *next;
        if offset + 4 > self.sizes[segment as usize] {
            return None;
        }
        *next += 4;
        Some(tag(segment, offset))
    }

    fn relocation(&mut self, random: &mut Random) -> Relocation {
        let kind = random.pick(&[2, 2, 2, 3, 3, 10, 0, 4, 5, 6, 42, 7]);
        // a tag at its segment's end or past it, or of no segment, is not usable and does no harm
        let usable = if random.once_in(12) { None } else { self.tag(random) };
        let segment = random.below(6);
        let end = self.sizes.get(segment as usize).copied().unwrap_or(0);
        let tag = usable.unwrap_or(tag(segment, random.pick(&[end, end, 0x2000])));
        Relocation { tag, kind, addend: random.pick(&[0, 0, 4, 0x20, 0xFFFF_FFFC]) }
    }

    fn batch(&mut self, random: &mut Random) -> Vec<Relocation> {
        (0..random.from_to(1, 3)).map(|_| self.relocation(random)).collect()
    }
}

fn image(random: &mut Random, offers: &[Offer], number: usize) -> Image {
    let sizes = [4 * random.from_to(12, 40), 4 * random.below(10), 4 * random.below(10), 4 * random.below(10)];
    let mut words = Words { sizes, next: [8, 0, 0, 0] };
    let mut image = Image { name: offers[number].name.clone(), handler: tag(CODE_SEGMENT, 4), sizes, ..Image::default() };
    for export in &offers[number].exports {
        image.exports.push((export.clone(), any_tag(random, sizes)));
    }
    image.indexed = (0..random.below(5)).map(|_| any_tag(random, sizes)).collect();
    let imports = if random.once_in(24) { 70 } else { random.below(6) };
    for _ in 0..imports {
        let from = &offers[random.below(offers.len() as u32) as usize].exports;
        let missing = || b"nobody".to_vec();
        let export = if from.is_empty() { missing() } else { from[random.below(from.len() as u32) as usize].clone() };
        let batch = words.batch(random);
        image.imports.push((export, batch));
    }
    for _ in 0..random.below(3) {
        let mut from = FromModule { name: offers[random.below(offers.len() as u32) as usize].name.clone(), ..Default::default() };
        from.indexed.extend((0..random.below(3)).map(|_| (random.below(6), words.batch(random))));
        from.anonymous.extend((0..random.below(3)).map(|_| (tag(random.below(6), random.below(40)), words.batch(random))));
        image.modules.push(from);
    }
    for _ in 0..random.below(5) {
        let relocation = words.relocation(random);
        image.internal.push(Internal { relocation, symbol: random.below(5) as u8 });
    }
    if number == 0 {
        // in a static module these would be written from address 0 on
        image.internal.retain(|internal| internal.relocation.tag % 16 != DATA_SEGMENT);
    }
    image
}

/// A tag of an export, now and then of no place.
fn any_tag(random: &mut Random, sizes: [u32; 4]) -> u32 {
    let segment = random.below(4);
    let size = sizes[segment as usize];
    let inside = random.below(size.max(1));
    tag(segment, random.pick(&[inside, inside, inside, inside, size, size + 0x1000]))
}

/// Puts the image at the next free address, its lent segments behind it.
fn place(random: &mut Random, mut image: Image, is_static: bool, next: &mut u32) -> Placed {
    let base = *next;
    image.static_base = is_static.then_some(base);
    let bytes = image.bytes();
    let size = bytes.len() as u32 + 4 * random.below(4);
    let data_segment = base + size + random.below(8);
    let data_segment_size = image.sizes[2] + random.below(5);
    let bss_segment = data_segment + data_segment_size + random.below(8);
    let bss_segment_size = image.sizes[3] + random.below(5);
    let fix_level = random.pick(&[0, 1, 1, 4]);
    let segments = Step { data_segment, data_segment_size, bss_segment, bss_segment_size, ..Step::default() };
    let load = Step { call: Call::Load, base, size, auto_link: 1, fix_level, ..segments };
    *next = bss_segment + bss_segment_size + random.below(64);
    let step = if is_static { Step::initialize(base, size) } else { load };
    Placed { step, image, bytes }
}
