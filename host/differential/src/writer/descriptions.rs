//! Random descriptions: modules that are mostly as they should be, and those with something changed.

use fillqhano::{Description, Export, Import, ImportedModule, InternalRelocation, Relocation, Segment, Tag};
use sessions::Random;

/// A description, right, nearly right, or with bytes changed; now and then any bytes.
pub fn any(random: &mut Random) -> Vec<u8> {
    if random.once_in(50) {
        let length = random.below(0x400);
        return filled(random, length);
    }
    let mut module = module(random);
    match random.below(8) {
        0 | 1 => fill_the_space(random, &mut module),
        2 => aim_at_tables(random, &mut module),
        _ => {}
    }
    let mut bytes = module.to_bytes();
    if random.once_in(8) {
        empty_a_run(random, &mut bytes);
    }
    for _ in 0..random.pick(&[0, 0, 0, 1, 1, 2]) {
        change(random, &mut bytes);
    }
    bytes
}

fn name(random: &mut Random) -> Vec<u8> {
    let length = random.pick(&[0, 1, 1, 2, 3, 9, 30, 511, 512, 512, 513]);
    let length = if length > 30 && !random.once_in(12) { 4 } else { length };
    let mut name: Vec<u8> = (0..length).map(|_| random.from_to(1, 255) as u8).collect();
    if random.once_in(200) && length > 0 {
        name[0] = 0;
    }
    name
}

fn filled(random: &mut Random, size: u32) -> Vec<u8> {
    (0..size).map(|_| random.word() as u8).collect()
}

/// Words of segments, handed out one after another; now and then one at any offset.
struct Words {
    sizes: Vec<u32>,
    next: Vec<u32>,
}

impl Words {
    fn tag(&mut self, random: &mut Random) -> Tag {
        let segment = random.below(self.sizes.len().max(1) as u32) as usize;
        let size = self.sizes.get(segment).copied().unwrap_or(0);
        if random.once_in(10) || segment >= self.next.len() {
            let near_end = size.saturating_sub(random.below(6));
            let offset = random.pick(&[near_end, size, size.saturating_sub(4)]);
            let any = random.below(size.max(1));
            return Tag::new(random.pick(&[segment, segment, self.sizes.len()]) as u8, random.pick(&[offset, any]));
        }
        let offset = self.next[segment];
        self.next[segment] += random.pick(&[4, 4, 4, 4, 4, 4, 5, 8, 3]);
        Tag::new(segment as u8, offset)
    }

    fn relocation(&mut self, random: &mut Random) -> Relocation {
        let kind = random.pick(&[2, 2, 2, 3, 10, 0, 4, 6]);
        Relocation { tag: self.tag(random), kind, addend: random.pick(&[0, 4, 0xFFFF_FFFC]) }
    }

    fn batch(&mut self, random: &mut Random) -> Vec<Relocation> {
        let count = if random.once_in(40) { 0 } else { random.from_to(1, 3) };
        (0..count).map(|_| self.relocation(random)).collect()
    }
}

fn segment(random: &mut Random) -> Segment {
    let size = random.pick(&[0, 1, 4, 8, 12, 16, 30, 40, 64, 100]);
    match random.below(6) {
        0 | 1 => Segment::Code(filled(random, size)),
        2 => Segment::ReadOnly(filled(random, size)),
        3 | 4 => Segment::Data(filled(random, size)),
        _ => Segment::Bss(size),
    }
}

fn module(random: &mut Random) -> Description {
    let mut segments = vec![Segment::Code(filled(random, 40))];
    segments.extend((0..random.below(5)).map(|_| segment(random)));
    if random.once_in(60) {
        segments.clear();
    }
    let sizes: Vec<u32> = segments.iter().map(Segment::size).collect();
    let mut words = Words { next: vec![0; sizes.len()], sizes };
    let mut description = Description { name: name(random), segments, ..Default::default() };
    description.handler = if random.once_in(30) { words.tag(random) } else { Tag::new(0, 4) };
    description.exports = (0..random.below(4)).map(|_| Export { name: name(random), tag: words.tag(random) }).collect();
    description.indexed_exports = (0..random.below(3)).map(|_| Tag::new(0, random.below(40))).collect();
    description.imports =
        (0..random.below(4)).map(|_| Import { wanted: name(random), relocations: words.batch(random) }).collect();
    for _ in 0..random.below(3) {
        let mut from = ImportedModule { name: name(random), ..Default::default() };
        from.indexed = (0..random.below(3)).map(|_| Import { wanted: 1, relocations: words.batch(random) }).collect();
        from.anonymous =
            (0..random.below(3)).map(|_| Import { wanted: Tag::new(0, 8), relocations: words.batch(random) }).collect();
        description.modules.push(from);
    }
    description.relocations = (0..random.below(4))
        .map(|_| InternalRelocation { symbol: random.pick(&[0, 0, 0, 1, 9]), relocation: words.relocation(random) })
        .collect();
    description
}

/// Two Data segments and a Bss segment that fills the address space nearly whole, with internal relocations that land past the image's end.
fn fill_the_space(random: &mut Random, module: &mut Description) {
    let first = module.segments.len() as u8;
    let size = random.pick(&[0x1000, 0x1400, 0x2000]);
    module.segments.push(Segment::Data(vec![0; size]));
    module.segments.push(Segment::Data(vec![0; 4]));
    module.segments.push(Segment::Bss(0));
    module.relocations.retain(|_| !random.once_in(2));
    let description = module.to_bytes();
    let image = description.len().next_multiple_of(0x1000) as u32;
    let last = offset_of(&description, first + 1);
    for _ in 0..random.from_to(1, 3) {
        let past = random.pick(&[0, 1, 2, 3, 4, 5, 8, 30, 56, 57, 60, 64, 200]) + random.below(4);
        let offset = (image + past).wrapping_sub(last + 4 * random.below(2));
        let relocation = Relocation { tag: Tag::new(first, offset), kind: 2, addend: 0 };
        module.relocations.push(InternalRelocation { symbol: 0, relocation });
    }
    if random.once_in(2) {
        let target = random.pick(&[first, first + 2]);
        let relocation = Relocation { tag: Tag::new(target, random.below(300)), kind: 2, addend: 0 };
        module.imports.push(Import { wanted: b"far".to_vec(), relocations: vec![relocation] });
    }
    let image = module.to_bytes().len().next_multiple_of(0x1000) as u32;
    let filled = (image + size as u32 + 2).wrapping_add(random.pick(&[0, 0, 1, 2, 3, 4, 7, 20, 54, 60]));
    let bss = 0u32.wrapping_sub(filled);
    let any = random.pick(&[bss, bss, bss, bss.wrapping_add(1), 60, 64, 100]);
    *module.segments.last_mut().unwrap() = Segment::Bss(any);
}

/// An internal relocation into a large Data segment that is not the last: its word lands on a table, a string, or between them.
fn aim_at_tables(random: &mut Random, module: &mut Description) {
    let first = module.segments.len() as u8;
    module.segments.push(Segment::Data(vec![0; 0x1400]));
    module.segments.push(Segment::Data(vec![0; 4]));
    if random.once_in(4) {
        // the zero after a name of 512 bytes is not read, and up to three bytes after it are padding
        module.name = vec![b'n'; random.pick(&[511, 512])];
    }
    let symbol = 0;
    let mut relocation = Relocation { tag: Tag::new(first, 0), kind: 2, addend: 0 };
    module.relocations.push(InternalRelocation { symbol, relocation });
    let description = module.to_bytes();
    let field = 0xC0 + 8 * random.pick(&[0, 0, 1, 2, 4, 6, 7, 8, 9, 10, 11, 13]);
    let start = word(&description, field) + random.below(24);
    let target = random.pick(&[start, word(&description, field + 8)]);
    relocation.tag.offset = target.wrapping_sub(offset_of(&description, first + 1)).wrapping_sub(random.below(5)) % 0x1400;
    *module.relocations.last_mut().unwrap() = InternalRelocation { symbol, relocation };
}

/// A module entry's run has fewer entries, so that an import is in none.
fn empty_a_run(random: &mut Random, bytes: &mut [u8]) {
    let (table, count) = (word(bytes, 0xF0), word(bytes, 0xF4));
    if count > 0 {
        let at = (table + 20 * random.below(count)) as usize + random.pick(&[8, 16]);
        bytes[at] = random.pick(&[0, 1]).min(bytes[at]);
    }
}

fn word(bytes: &[u8], at: usize) -> u32 {
    u32::from_le_bytes(bytes[at..at + 4].try_into().unwrap())
}

/// Where a segment's bytes start.
fn offset_of(description: &[u8], segment: u8) -> u32 {
    word(description, word(description, 0xC8) as usize + 12 * segment as usize)
}

/// A byte or a word becomes another, or the end moves.
fn change(random: &mut Random, bytes: &mut Vec<u8>) {
    let length = bytes.len() as u32;
    if length < 0x140 {
        return;
    }
    match random.below(8) {
        0 => bytes.push(random.pick(&[0, 0, 1])),
        1 => {
            let any = random.below(length);
            bytes.truncate(random.pick(&[length - 1, length - 4, 0x137, 0x138, any]) as usize);
        }
        2 | 3 => {
            let at = 4 * random.below(length / 4) as usize;
            let old = word(bytes, at);
            let other = random.pick(&[0, 1, 4, 8, old.wrapping_add(1), old.wrapping_sub(1), old.wrapping_add(4), old ^ 0x10]);
            let any = random.word();
            let new = random.pick(&[other, other, other, old.wrapping_sub(8), old.wrapping_add(12), any]);
            bytes[at..at + 4].copy_from_slice(&new.to_le_bytes());
        }
        4 => bytes[random.below(0x138) as usize] = random.pick(&[0, 1, 2, 0xFF]),
        _ => bytes[(0x138 + random.below(length - 0x138)) as usize] = random.pick(&[0, 1, 2, 3, 4, 0xFF]),
    }
}
