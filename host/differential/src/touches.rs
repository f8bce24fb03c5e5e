//! A model of how `initialize` and `load` begin, written from `cro/mod.rs` and document 01: the rebase and the external reset
//! over a plain window, which notes where the first access with a byte outside started. It tells what the Rust cannot, the
//! touch and the window of a refusal for want of room, and is a second opinion elsewhere.

use sessions::{Call, Step};

#[derive(Debug, Clone, Copy, PartialEq, Eq)]
pub enum End {
    NotACro,
    BadSegment,
    /// The external reset is made.
    Reset,
}

/// How a call begins: where it ends by itself, what it leaves in the window, and its touch.
pub struct Beginning {
    pub end: End,
    pub window: Vec<u8>,
    pub touch: Option<u32>,
}

impl Beginning {
    /// Of an `initialize` or a `load`.
    pub fn of(at: u32, window: Vec<u8>, step: &Step) -> Beginning {
        let mut module = Module { at, window, touch: None, base: step.base };
        let end = module.begin(step);
        Beginning { end, window: module.window, touch: module.touch }
    }
}

/// A module's image in a window.
struct Module {
    at: u32,
    window: Vec<u8>,
    touch: Option<u32>,
    base: u32,
}

#[derive(Clone, Copy)]
struct Segment {
    offset: u32,
    size: u32,
    kind: u32,
}

const DATA: u32 = 2;
const BSS: u32 = 3;

/// A header's pair of a table and a count, the size of an entry, and where in an entry pointers are.
const POINTERS: [(u32, u32, &[u32]); 5] =
    [(0xD0, 8, &[0]), (0xF0, 20, &[0, 4, 12]), (0x100, 8, &[0, 4]), (0x108, 8, &[4]), (0x110, 8, &[4])];

// the window
impl Module {
    /// The places in the window of an access's bytes, none for one outside. Notes the touch.
    fn places<const N: usize>(&mut self, start: u32) -> [Option<usize>; N] {
        let places = std::array::from_fn(|index| {
            let place = start.wrapping_add(index as u32).wrapping_sub(self.at) as usize;
            (place < self.window.len()).then_some(place)
        });
        if self.touch.is_none() && places.contains(&None) {
            self.touch = Some(start);
        }
        places
    }

    fn read<const N: usize>(&mut self, start: u32) -> [u8; N] {
        self.places(start).map(|place| place.map_or(0, |place| self.window[place]))
    }

    fn word(&mut self, address: u32) -> u32 {
        u32::from_le_bytes(self.read(address))
    }

    fn byte(&mut self, address: u32) -> u8 {
        u8::from_le_bytes(self.read(address))
    }

    /// An ordinary write: the bytes inside.
    fn put<const N: usize>(&mut self, start: u32, bytes: [u8; N]) {
        for (place, byte) in self.places::<N>(start).into_iter().zip(bytes) {
            if let Some(place) = place {
                self.window[place] = byte;
            }
        }
    }

    /// A privileged one: the bytes before the first outside.
    fn put_relocated(&mut self, start: u32, word: u32) {
        for (place, byte) in self.places::<4>(start).into_iter().map_while(|place| place).zip(word.to_le_bytes()) {
            self.window[place] = byte;
        }
    }
}

// the layout
impl Module {
    fn field(&mut self, offset: u32) -> u32 {
        self.word(self.base.wrapping_add(offset))
    }

    fn segment_entry(&mut self, index: u32) -> u32 {
        self.field(0xC8).wrapping_add(index.wrapping_mul(12))
    }

    fn segment(&mut self, index: u32) -> Option<Segment> {
        if index >= self.field(0xCC) {
            return None;
        }
        let entry = self.segment_entry(index);
        let [offset, size, kind] = [0, 4, 8].map(|place| self.word(entry.wrapping_add(place)));
        Some(Segment { offset, size, kind: kind.min(BSS) })
    }

    fn put_segment(&mut self, index: u32, segment: Segment) {
        let entry = self.segment_entry(index);
        for (place, word) in [(0, segment.offset), (4, segment.size), (8, segment.kind)] {
            self.put(entry.wrapping_add(place), word.to_le_bytes());
        }
    }

    fn address(&mut self, tag: u32) -> Option<u32> {
        let segment = self.segment(tag % 16)?;
        (tag / 16 < segment.size).then(|| segment.offset.wrapping_add(tag / 16))
    }

    fn relocate(&mut self, place: u32, kind: u8, value: u32, final_place: u32) {
        match kind {
            2 | 10 => self.put_relocated(place, value),
            3 => self.put_relocated(place, value.wrapping_sub(final_place)),
            _ => {}
        }
    }
}

// the steps
impl Module {
    fn begin(&mut self, step: &Step) -> End {
        let magic: [u8; 4] = self.read(self.base.wrapping_add(0x80));
        if !matches!(&magic, b"CRO0" | b"CRS0") {
            return End::NotACro;
        }
        self.move_word(self.base.wrapping_add(0x84));
        for field in (0xB0..=0x130).step_by(8) {
            self.move_word(self.base.wrapping_add(field));
        }
        let Some(old_data) = self.move_segments(step) else {
            return End::BadSegment;
        };
        for (field, size, pointers) in POINTERS {
            self.move_table(field, size, pointers);
        }
        self.relocate_internal(old_data);
        self.reset_external();
        End::Reset
    }

    /// An offset becomes an address, 0 stays.
    fn move_word(&mut self, place: u32) {
        let offset = self.word(place);
        if offset != 0 {
            self.put(place, offset.wrapping_add(self.base).to_le_bytes());
        }
    }

    /// Gives where the last Data segment was; none if a segment is bad.
    fn move_segments(&mut self, step: &Step) -> Option<u32> {
        let mut old_data = 0;
        for index in 0..self.field(0xCC) {
            let Some(mut segment) = self.segment(index) else {
                continue;
            };
            if step.call == Call::Initialize {
                continue;
            }
            let lent = match segment.kind {
                _ if segment.size == 0 => None,
                DATA => Some((step.data_segment, step.data_segment_size)),
                BSS => Some((step.bss_segment, step.bss_segment_size)),
                _ => None,
            };
            if let Some((address, size)) = lent {
                if segment.size > size {
                    return None;
                }
                if segment.kind == DATA {
                    old_data = segment.offset.wrapping_add(self.base);
                }
                segment.offset = address;
            } else if segment.offset != 0 {
                segment.offset = segment.offset.wrapping_add(self.base);
                if segment.offset > self.base.wrapping_add(step.size) {
                    return None;
                }
            }
            self.put_segment(index, segment);
        }
        Some(old_data)
    }

    fn move_table(&mut self, field: u32, size: u32, pointers: &[u32]) {
        let (table, count) = (self.field(field), self.field(field + 4));
        if table == 0 {
            return;
        }
        for index in 0..count {
            for pointer in pointers {
                self.move_word(table.wrapping_add(index.wrapping_mul(size)).wrapping_add(*pointer));
            }
        }
    }

    fn relocate_internal(&mut self, old_data: u32) {
        let (table, count) = (self.field(0x128), self.field(0x12C));
        for index in 0..count {
            let entry = table.wrapping_add(index.wrapping_mul(12));
            let tag = self.word(entry);
            let (kind, symbol) = (self.byte(entry.wrapping_add(4)), self.byte(entry.wrapping_add(5)));
            let addend = self.word(entry.wrapping_add(8));
            let Some(target) = self.segment(tag % 16).filter(|target| tag / 16 < target.size) else {
                continue;
            };
            let Some(symbol) = self.segment(symbol.into()) else {
                continue;
            };
            let from = if target.kind == DATA { old_data } else { target.offset };
            let value = symbol.offset.wrapping_add(addend);
            self.relocate(from.wrapping_add(tag / 16), kind, value, target.offset.wrapping_add(tag / 16));
        }
    }

    fn reset_external(&mut self) {
        let handler = self.field(0xAC);
        let handler = self.address(handler).unwrap_or(0);
        let (table, count) = (self.field(0xF8), self.field(0xFC));
        for index in 0..count {
            let entry = table.wrapping_add(index.wrapping_mul(12));
            if handler != 0 {
                let tag = self.word(entry);
                let kind = self.byte(entry.wrapping_add(4));
                let addend = self.word(entry.wrapping_add(8));
                if let Some(place) = self.address(tag) {
                    self.relocate(place, kind, handler.wrapping_add(addend), place);
                }
            }
            self.put(entry.wrapping_add(6), [0]);
        }
    }
}
