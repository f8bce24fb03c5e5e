//! Demand 3 by running: two sessions that end with the same modules standing, one of them with a history, leave the same
//! bytes in those modules' areas; and after every call every import holds its exporter's address or its handler's, and the
//! register's bytes are the encoding of what is read from them, the named exports of each module ascending. Refused
//! calls come in between in both, also before the static module's `initialize`. No call has a touch: all that well-laid modules
//! point at lies in the window.

use crate::encoding::is_encoded;
use crate::faults;
use crate::under_test::{state, Buffers};
use fillqhano::raw::Answer;
use sessions::image::Relocation;
use sessions::modules::{Modules, Placed};
use sessions::{Call, Random, Step};
use std::ops::Range;

/// What was seen to hold.
#[derive(Debug, Default)]
pub struct Seen {
    pub pairs: u64,
    pub calls: u64,
    pub bytes: u64,
    /// Imports looked at, after every call, and those of them that had an exporter.
    pub imports: u64,
    pub linked: u64,
    /// Calls that were lent a bad window, and those that were lent a bad register.
    pub bad_windows: u64,
    pub bad_registers: u64,
    /// Those of both that came before the static module.
    pub before_crs: u64,
}

/// Runs a pair of sessions; gives what does not hold.
pub fn run_pair(seed: u64, number: u64, seen: &mut Seen) -> Result<(), String> {
    let mut random = Random::new(seed, 100, number);
    let count = random.from_to(3, 14);
    let modules = Modules::new(&mut random, count);
    let (stay, pass) = parts(&mut random, &modules);
    let mut plain = Run::new(&mut random, &modules);
    for member in &pass {
        plain.fill(&mut random, &image_area(member));
    }
    for member in &stay {
        plain.lend_badly(&mut random, seen)?;
        plain.take_in(member, seen)?;
    }
    plain.lend_badly(&mut random, seen)?;
    let mut long = Run::new(&mut random, &modules);
    long.wander(&mut random, &stay, &pass, seen)?;
    for area in stay.iter().flat_map(|member| areas(member)) {
        if plain.bytes(&area) != long.bytes(&area) {
            return Err(format!("pair {number} of seed {seed}: the bytes of {area:x?} differ"));
        }
        seen.bytes += area.len() as u64;
    }
    seen.pairs += 1;
    Ok(())
}

/// Those that stand at the end, the static module first, and those that come and go.
fn parts<'a>(random: &mut Random, modules: &'a Modules) -> (Vec<&'a Placed>, Vec<&'a Placed>) {
    let (first, others) = modules.members.split_first().expect("the static module has room");
    let (mut stay, mut pass): (Vec<_>, Vec<_>) = others.iter().partition(|_| random.once_in(2));
    random.shuffle(&mut stay);
    random.shuffle(&mut pass);
    stay.insert(0, first);
    (stay, pass)
}

fn image_area(member: &Placed) -> Range<u32> {
    member.step.base..member.step.base + member.step.size
}

/// A member's image, data and bss. A static module's are all in its image.
fn areas(member: &Placed) -> impl Iterator<Item = Range<u32>> {
    let step = &member.step;
    let lent = [
        step.data_segment..step.data_segment + step.data_segment_size,
        step.bss_segment..step.bss_segment + step.bss_segment_size,
    ];
    std::iter::once(image_area(member)).chain(lent).filter(|area| !area.is_empty())
}

/// A session as it goes on.
struct Run<'a> {
    buffers: Buffers,
    modules: &'a Modules,
    standing: Vec<&'a Placed>,
}

impl<'a> Run<'a> {
    /// A window with every image at its place and other bytes elsewhere, and a register of any sufficient size.
    fn new(random: &mut Random, modules: &'a Modules) -> Run<'a> {
        let room = 0x4000 + random.below(0x1000) as usize;
        let buffers = Buffers::new(modules.at, modules.window(), room, room);
        let mut run = Run { buffers, modules, standing: Vec::new() };
        run.write_between(random);
        run
    }

    fn place(&self, address: u32) -> usize {
        (address - self.buffers.at) as usize
    }

    fn bytes(&self, area: &Range<u32>) -> &[u8] {
        &self.buffers.window[self.place(area.start)..][..area.len()]
    }

    fn word(&self, address: u32) -> u32 {
        u32::from_le_bytes(self.buffers.window[self.place(address)..][..4].try_into().unwrap())
    }

    fn fill(&mut self, random: &mut Random, area: &Range<u32>) {
        let start = self.place(area.start);
        self.buffers.window[start..start + area.len()].fill_with(|| random.word() as u8);
    }

    /// Others write bytes outside all areas.
    fn write_between(&mut self, random: &mut Random) {
        for _ in 0..random.below(40) {
            let address = self.buffers.at + random.below(self.modules.length);
            if !self.modules.members.iter().flat_map(areas).any(|area| area.contains(&address)) {
                let place = self.place(address);
                self.buffers.window[place] = random.word() as u8;
            }
        }
    }

    /// The long way: those that pass are loaded and unloaded between those that stay.
    fn wander(&mut self, random: &mut Random, stay: &[&'a Placed], pass: &[&'a Placed], seen: &mut Seen) -> Result<(), String> {
        let mut guests: Vec<&Placed> = Vec::new();
        let (mut stay, mut pass) = (stay.iter(), pass.iter());
        self.harmless(random, seen)?;
        self.lend_badly(random, seen)?;
        self.take_in(stay.next().unwrap(), seen)?;
        while stay.len() + pass.len() + guests.len() > 0 {
            self.write_between(random);
            self.lend_badly(random, seen)?;
            match random.below(4) {
                0 => self.harmless(random, seen)?,
                1 => {
                    if let Some(member) = stay.next() {
                        self.take_in(member, seen)?;
                    }
                }
                2 => {
                    if let Some(member) = pass.next() {
                        self.take_in(member, seen)?;
                        guests.push(member);
                    }
                }
                _ => {
                    if let Some(member) = guests.pop() {
                        self.let_go(member, seen)?;
                    }
                    random.shuffle(&mut guests);
                }
            }
        }
        self.lend_badly(random, seen)
    }

    /// A call that is refused or finds nothing, and leaves all as it was.
    fn harmless(&mut self, random: &mut Random, seen: &mut Seen) -> Result<(), String> {
        let before = self.buffers.clone();
        let base = self.standing.first().map_or(self.buffers.at, |first| first.step.base);
        let step = if random.once_in(2) { Step::unload(base + 2) } else { Step::initialize(base + 0x44, 0x138) };
        let expected = if step.call == Call::Unload { 0 } else { 1 };
        let answer = self.buffers.call(&step);
        seen.calls += 1;
        if answer != Answer::new(expected, 0, None) || self.buffers != before {
            return Err(format!("{step:x?} gave {answer:x?}"));
        }
        Ok(())
    }

    /// No, one or two calls on any of the modules, each lent a copy of the buffers that is no window or no register. What
    /// the last call left stands.
    fn lend_badly(&self, random: &mut Random, seen: &mut Seen) -> Result<(), String> {
        for _ in 0..random.below(3) {
            let mut step = self.modules.members[random.below(self.modules.members.len() as u32) as usize].step;
            if random.once_in(3) {
                step = Step::unload(step.base);
            }
            match faults::refused(&self.buffers, &step, random)? {
                3 => seen.bad_windows += 1,
                _ => seen.bad_registers += 1,
            }
            seen.before_crs += self.standing.is_empty() as u64;
        }
        Ok(())
    }

    fn take_in(&mut self, member: &'a Placed, seen: &mut Seen) -> Result<(), String> {
        let answer = self.buffers.call(&member.step);
        if answer != Answer::new(0, answer.value, None) {
            return Err(format!("{:x?} gave {answer:x?}", member.step));
        }
        self.standing.push(member);
        self.all_hold(seen)
    }

    fn let_go(&mut self, member: &'a Placed, seen: &mut Seen) -> Result<(), String> {
        let answer = self.buffers.call(&Step::unload(member.step.base));
        if answer != Answer::new(0, 1, None) {
            return Err(format!("the unload of {:x} gave {answer:x?}", member.step.base));
        }
        self.standing.retain(|standing| standing.step.base != member.step.base);
        self.all_hold(seen)
    }

    /// The register is encoded as it should be, and every import of every standing module holds its address.
    fn all_hold(&self, seen: &mut Seen) -> Result<(), String> {
        seen.calls += 1;
        let linker = self.buffers.linker().ok_or("the buffers are no register")?;
        if !is_encoded(&state(&linker), &self.buffers) {
            return Err("the register is encoded otherwise".into());
        }
        for importer in &self.standing {
            for (exported, batch) in self.imports(importer) {
                seen.imports += 1;
                seen.linked += exported.is_some() as u64;
                let symbol = exported.unwrap_or_else(|| address(importer, importer.image.handler).unwrap());
                self.holds(importer, batch, symbol)?;
            }
        }
        Ok(())
    }

    /// Each import's address, if one of those that stand exports it, and its batch.
    fn imports(&self, importer: &'a Placed) -> Vec<(Option<u32>, &'a [Relocation])> {
        let mut imports = Vec::new();
        for (name, batch) in &importer.image.imports {
            imports.push((self.exported(importer, |other| named(other, name)), &batch[..]));
        }
        for entry in &importer.image.modules {
            let from = |other: &Placed| other.image.name == entry.name;
            for (index, batch) in &entry.indexed {
                let export = |other: &Placed| from(other).then(|| indexed(other, *index)).flatten();
                imports.push((self.exported(importer, export), &batch[..]));
            }
            for (tag, batch) in &entry.anonymous {
                let export = |other: &Placed| from(other).then(|| anonymous(other, *tag)).flatten();
                imports.push((self.exported(importer, export), &batch[..]));
            }
        }
        imports
    }

    /// What one that stands exports. A static module gets nothing from itself.
    fn exported(&self, importer: &Placed, export: impl Fn(&Placed) -> Option<u32>) -> Option<u32> {
        let is_static = importer.image.static_base.is_some();
        let others = self.standing.iter().filter(|other| !is_static || other.step.base != importer.step.base);
        others.copied().find_map(export)
    }

    fn holds(&self, importer: &Placed, batch: &[Relocation], symbol: u32) -> Result<(), String> {
        for relocation in batch {
            let Some(place) = address(importer, relocation.tag) else {
                continue;
            };
            let sum = symbol.wrapping_add(relocation.addend);
            let expected = match relocation.kind {
                2 | 10 => sum,
                3 => sum.wrapping_sub(place),
                _ => continue,
            };
            if self.word(place) != expected {
                return Err(format!("the import's word at {place:x} is {:x} and not {expected:x}", self.word(place)));
            }
        }
        Ok(())
    }
}

fn named(member: &Placed, name: &[u8]) -> Option<u32> {
    member.image.exports.iter().filter(|export| export.0 == name).find_map(|export| address(member, export.1))
}

/// An indexed export with an unusable tag has address 0.
fn indexed(member: &Placed, index: u32) -> Option<u32> {
    member.image.indexed.get(index as usize).map(|&tag| address(member, tag).unwrap_or(0))
}

fn anonymous(member: &Placed, tag: u32) -> Option<u32> {
    Some(segment(member, tag % 16)?.start.wrapping_add(tag / 16))
}

fn address(member: &Placed, tag: u32) -> Option<u32> {
    let segment = segment(member, tag % 16)?;
    (tag / 16 < segment.len() as u32).then(|| segment.start + tag / 16)
}

/// Where a segment is once it is placed, read from the image's own table.
fn segment(member: &Placed, index: u32) -> Option<Range<u32>> {
    let word = |at: usize| u32::from_le_bytes(member.bytes[at..at + 4].try_into().unwrap());
    let entry = word(0xC8) as usize + 12 * index as usize;
    if index >= word(0xCC) {
        return None;
    }
    let (offset, size) = (word(entry), word(entry + 4));
    let start = match index {
        _ if member.image.static_base.is_some() => offset,
        2 if size > 0 => member.step.data_segment,
        3 if size > 0 => member.step.bss_segment,
        _ if offset > 0 => member.step.base + offset,
        _ => 0,
    };
    Some(start..start + size)
}
