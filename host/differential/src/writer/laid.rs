//! "A well-laid image", sentence by sentence (document 01), for an image in a place; and "packed" (document 02, Ask 1). Nothing here is
//! clever: every byte of every part is marked, and every pair of relocated words is compared.

use super::places::Place;
use std::collections::BTreeSet;

const HEADER: u64 = 0x138;
const SEGMENTS: (u64, u64) = (0x0C8, 12);
const NAMED_EXPORTS: (u64, u64) = (0x0D0, 8);
const MODULE_ENTRIES: (u64, u64) = (0x0F0, 20);
const EXTERNALS: (u64, u64) = (0x0F8, 12);
const NAMED_IMPORTS: (u64, u64) = (0x100, 8);
const INDEXED_IMPORTS: (u64, u64) = (0x108, 8);
const ANONYMOUS_IMPORTS: (u64, u64) = (0x110, 8);
const INTERNALS: (u64, u64) = (0x128, 12);

/// The tables that have entries, by where their offset stands and an entry's size; the export tree and the two static tables are not read.
const TABLES: [(u64, u64); 12] = [
    SEGMENTS,
    NAMED_EXPORTS,
    (0x0D8, 4),
    (0x0E8, 8),
    MODULE_ENTRIES,
    EXTERNALS,
    NAMED_IMPORTS,
    INDEXED_IMPORTS,
    ANONYMOUS_IMPORTS,
    (0x120, 8),
    INTERNALS,
    (0x130, 12),
];
const UNREAD: [u64; 3] = [0x0E8, 0x120, 0x130];

/// The header's 15 pairs have entries of these sizes.
const SIZES: [u64; 15] = [1, 12, 8, 4, 1, 8, 20, 12, 8, 8, 8, 1, 8, 12, 12];

/// Bytes by their offset, 0 past the end.
#[derive(Clone, Copy)]
pub struct File<'a>(pub &'a [u8]);

#[derive(Clone, Copy)]
struct Segment {
    offset: u64,
    size: u64,
    kind: u64,
}

impl<'a> File<'a> {
    fn byte(self, at: u64) -> u8 {
        self.0.get(at as usize).copied().unwrap_or(0)
    }

    fn word(self, at: u64) -> u64 {
        (0..4).rev().fold(0, |word, k| word << 8 | self.byte(at + k) as u64)
    }

    fn start(self, table: (u64, u64)) -> u64 {
        self.word(table.0)
    }

    fn count(self, table: (u64, u64)) -> u64 {
        self.word(table.0 + 4)
    }

    fn entry(self, table: (u64, u64), number: u64) -> u64 {
        self.start(table) + number * table.1
    }

    fn segment(self, number: u64) -> Segment {
        let entry = self.entry(SEGMENTS, number);
        Segment { offset: self.word(entry), size: self.word(entry + 4), kind: self.word(entry + 8).min(3) }
    }

    fn segments(self) -> impl Iterator<Item = Segment> + 'a {
        (0..self.count(SEGMENTS)).map(move |number| self.segment(number))
    }

    /// The greatest size of a segment of this kind.
    pub fn greatest(self, kind: u64) -> u64 {
        self.segments().filter(|segment| segment.kind == kind).map(|segment| segment.size).max().unwrap_or(0)
    }

    /// The offset after a name and its zero, if it has at most 512 bytes.
    fn after_name(self, at: u64) -> Option<u64> {
        (0..=512).find(|&k| self.byte(at + k) == 0).map(|k| at + k + 1)
    }

    /// The strings of these pointers fill the area whose pair stands at `field`, one right after another.
    fn strings(self, field: u64, pointers: impl Iterator<Item = u64>) -> bool {
        let mut position = self.word(field);
        for pointer in pointers {
            match self.after_name(pointer) {
                Some(next) if pointer == position => position = next,
                _ => return false,
            }
        }
        position == self.word(field) + self.word(field + 4)
    }

    fn pointers(self, table: (u64, u64)) -> impl Iterator<Item = u64> + 'a {
        (0..self.count(table)).map(move |number| self.word(self.entry(table, number)))
    }

    /// Packed, and named: the form of a description.
    pub fn is_described(self) -> bool {
        let undescribed = (0..0x084).chain(0x088..0x094).chain(0x098..0x0A0);
        if undescribed.into_iter().any(|at| self.byte(at) != 0) || [0x0EC, 0x124, 0x134].iter().any(|&at| self.word(at) != 0) {
            return false;
        }
        let mut position = HEADER;
        let mut part = |offset: u64, size: u64| {
            let start = position.next_multiple_of(4);
            let good = offset == start && (position..start).all(|at| self.byte(at) == 0);
            position = offset + size;
            good
        };
        for number in 0..self.count(SEGMENTS) {
            let segment = self.segment(number);
            if segment.kind < 3 && !part(segment.offset, segment.size) {
                return false;
            }
        }
        if !(0..15).all(|k| part(self.word(0x0C0 + 8 * k), self.word(0x0C4 + 8 * k) * SIZES[k as usize])) {
            return false;
        }
        position == self.0.len() as u64
            && self.strings(0x0C0, std::iter::once(self.word(0x0C0)))
            && self.strings(0x0E0, self.pointers(NAMED_EXPORTS))
            && self.strings(0x118, self.pointers(MODULE_ENTRIES).chain(self.pointers(NAMED_IMPORTS)))
    }

    fn names(self) -> BTreeSet<u64> {
        let tables = [NAMED_EXPORTS, NAMED_IMPORTS, MODULE_ENTRIES];
        tables.into_iter().flat_map(|table| self.pointers(table)).chain([self.word(0x0C0)]).filter(|&p| p != 0).collect()
    }

    /// Which bytes the linker reads or writes; none if parts are not inside or overlap.
    fn parts(self) -> Option<Vec<bool>> {
        let mut used = vec![false; self.0.len()];
        let mut touched = used.clone();
        let mut mark = |from: u64, to: u64, read: &dyn Fn(u64) -> bool| -> Option<()> {
            for at in from..to {
                let used = used.get_mut(at as usize)?;
                if std::mem::replace(used, true) {
                    return None;
                }
                touched[at as usize] = read(at);
            }
            Some(())
        };
        mark(0, HEADER, &|_| true)?;
        for table in TABLES {
            let (start, end) = (self.start(table), self.entry(table, self.count(table)));
            if start == 0 && end != 0 {
                return None;
            }
            mark(start, end, &|at| !UNREAD.contains(&table.0) && self.is_read(table, at))?;
        }
        for pointer in self.names() {
            let end = (pointer..self.0.len() as u64).find(|&at| self.byte(at) == 0)? + 1;
            mark(pointer, end, &|at| at < pointer + 512)?;
        }
        Some(touched)
    }

    /// What an indexed or anonymous import asks for is read only if a run has it.
    fn is_read(self, table: (u64, u64), at: u64) -> bool {
        let run = match table {
            INDEXED_IMPORTS => 4,
            ANONYMOUS_IMPORTS => 12,
            _ => return true,
        };
        let offset = (at - self.start(table)) % 8;
        offset >= 4 || (0..self.count(MODULE_ENTRIES)).any(|j| self.run(run, j).any(|entry| entry == at - offset))
    }

    /// The offsets of the entries in module entry j's run, whose pointer stands at `run`.
    fn run(self, run: u64, j: u64) -> impl Iterator<Item = u64> {
        let at = self.entry(MODULE_ENTRIES, j) + run;
        let (start, count) = (self.word(at), self.word(at + 4));
        // no table has more entries than the file bytes
        (0..count.min(self.0.len() as u64)).map(move |k| start + 8 * k)
    }

    fn runs_are_laid(self, table: (u64, u64), run: u64) -> bool {
        let entries: BTreeSet<u64> = (0..self.count(table)).map(|k| self.entry(table, k)).collect();
        let mut seen = BTreeSet::new();
        (0..self.count(MODULE_ENTRIES)).all(|j| self.run(run, j).all(|entry| entries.contains(&entry) && seen.insert(entry)))
    }

    fn end_mark(self, number: u64) -> bool {
        self.byte(self.entry(EXTERNALS, number) + 5) != 0
    }

    /// A batch: from the table's first entry or one right after an end mark up to the next one, at most 4,097 entries.
    fn is_batch(self, batch: u64) -> bool {
        let externals = self.count(EXTERNALS);
        let Some(first) = (0..externals).find(|&e| self.entry(EXTERNALS, e) == batch) else {
            return false;
        };
        let begins = first == 0 || self.end_mark(first - 1);
        let last = (first..externals).find(|&e| self.end_mark(e));
        batch != 0 && begins && last.is_some_and(|last| last - first <= 0x1000)
    }

    fn batches_are_laid(self) -> bool {
        let mut seen = BTreeSet::new();
        [NAMED_IMPORTS, INDEXED_IMPORTS, ANONYMOUS_IMPORTS].into_iter().all(|table| {
            (0..self.count(table)).all(|number| {
                let batch = self.word(self.entry(table, number) + 4);
                self.is_batch(batch) && seen.insert(batch)
            })
        })
    }

    /// What depends on the image alone; gives which bytes the linker reads or writes.
    pub fn laid_alone(self) -> Option<Vec<bool>> {
        let touched = self.parts()?;
        let good = self.runs_are_laid(INDEXED_IMPORTS, 4) && self.runs_are_laid(ANONYMOUS_IMPORTS, 12) && self.batches_are_laid();
        good.then_some(touched)
    }

    /// Where a load puts a segment.
    fn placed(self, segment: Segment, place: &Place) -> u64 {
        match segment.kind {
            2 if segment.size > 0 => place.data.0,
            3 if segment.size > 0 => place.bss.0,
            _ if segment.offset == 0 => 0,
            _ => (segment.offset + place.base) % (1 << 32),
        }
    }

    /// The segment and the offset of a usable tag.
    fn usable(self, tag: u64) -> Option<(Segment, u64)> {
        let (number, offset) = (tag % 16, tag / 16);
        let segment = (number < self.count(SEGMENTS)).then(|| self.segment(number))?;
        (offset < segment.size).then_some((segment, offset))
    }

    fn address(self, tag: u64, place: &Place) -> Option<u64> {
        let (segment, offset) = self.usable(tag)?;
        Some((self.placed(segment, place) + offset) % (1 << 32))
    }

    /// The addresses of all relocated words.
    fn words(self, place: &Place) -> Vec<u64> {
        let writes = |entry: u64| [2, 3, 10].contains(&self.byte(entry + 4));
        let mut words = Vec::new();
        for entry in (0..self.count(EXTERNALS)).map(|number| self.entry(EXTERNALS, number)).filter(|&entry| writes(entry)) {
            words.extend(self.address(self.word(entry), place));
        }
        let last_data = self.segments().filter(|segment| segment.kind == 2 && segment.size > 0).last();
        let old = last_data.map_or(0, |segment| (segment.offset + place.base) % (1 << 32));
        for entry in (0..self.count(INTERNALS)).map(|number| self.entry(INTERNALS, number)).filter(|&entry| writes(entry)) {
            let tag = self.word(entry);
            let known = (self.byte(entry + 5) as u64) < self.count(SEGMENTS);
            if let (true, Some((segment, offset))) = (known, self.usable(tag)) {
                words.push(if segment.kind == 2 { (old + offset) % (1 << 32) } else { self.address(tag, place).unwrap() });
            }
        }
        words
    }

    /// What depends on the place.
    pub fn laid_in_place(self, touched: &[bool], place: &Place) -> bool {
        let inside = |q: u64| {
            let image = (place.base, self.0.len() as u64);
            [image, place.data, place.bss].iter().any(|&(start, size)| start <= q && q < start + size)
        };
        let met = |q: u64| q >= place.base && touched.get((q - place.base) as usize).copied().unwrap_or(false);
        let words = self.words(place);
        let mut sorted = words.clone();
        sorted.sort_unstable();
        words.iter().all(|&p| (p..p + 4).all(|q| inside(q) && !met(q)))
            && sorted.windows(2).all(|pair| pair[1] - pair[0] >= 4)
            && self.address(self.word(0x0AC), place).is_some_and(|handler| handler != 0)
    }

    /// How many bytes past the image's end each word starts that counts from the image and is past its end, in any place.
    pub fn far_words(self, place: &Place) -> Vec<u64> {
        let last_data = self.segments().filter(|segment| segment.kind == 2 && segment.size > 0).last();
        let (size, offset) = (self.0.len() as u64, last_data.map_or(0, |segment| segment.offset));
        let words = self.words(place);
        let is_word = |past: u64| words.contains(&((place.base + size + past) % (1 << 32)));
        let internal = (0..self.count(INTERNALS)).map(|number| self.word(self.entry(INTERNALS, number)));
        let past = internal.filter_map(|tag| self.usable(tag)).filter(|(segment, _)| segment.kind == 2);
        past.filter_map(|(_, t)| (offset + t).checked_sub(size)).filter(|&past| past > 0 && is_word(past)).collect()
    }

    /// The words of the lent areas by their offset; true for bss.
    pub fn lent_words(self) -> Vec<(bool, u64)> {
        let tags = |table: (u64, u64)| (0..self.count(table)).map(move |number| self.word(self.entry(table, number)));
        let lent = |(segment, offset): (Segment, u64)| (segment.kind >= 2).then_some((segment.kind == 3, offset));
        tags(EXTERNALS).chain(tags(INTERNALS)).filter_map(|tag| self.usable(tag).and_then(lent)).collect()
    }
}
