//! What a module needs of the register's room, by its image as it is: a model of what the wrapper grows to.

/// The counts of an image, and the lengths of its exports' names.
#[derive(Debug, PartialEq, Eq)]
pub struct Needed {
    segments: u32,
    named: u32,
    indexed: u32,
    /// Of the first named exports, as many as differ in such a window; none where not all of them lie inside.
    lengths: Option<Vec<usize>>,
    /// How many that are.
    differing: usize,
}

impl Needed {
    /// Of the image at this base, to whose offsets so much is still to be added: the base, or 0 once it is rebased.
    pub fn of(at: u32, window: &[u8], base: u32, by: u32) -> Needed {
        let memory = Memory { at, window };
        let [table, segments, named, indexed] = [0xD0, 0xCC, 0xD4, 0xDC].map(|field: u32| memory.word(base.wrapping_add(field)));
        let differing = (named as usize).min(window.len() / 8 + 3);
        let table = if table == 0 { 0 } else { table.wrapping_add(by) };
        let by = if table == 0 { 0 } else { by };
        let inside = (table.wrapping_sub(at) as usize) + 8 * differing <= window.len();
        let lengths = inside.then(|| {
            let names = (0..differing).map(|index| memory.word(table.wrapping_add(8 * index as u32)));
            names.map(|name| memory.name_length(if name == 0 { 0 } else { name.wrapping_add(by) })).collect()
        });
        Needed { segments, named, indexed, lengths, differing }
    }

    pub fn records(&self) -> usize {
        32 + 4 * self.segments.min(16) as usize + 12 * self.differing + 4 * self.indexed as usize
    }

    pub fn names(&self) -> usize {
        512 + self.lengths.as_ref().map_or(512 * self.differing, |lengths| lengths.iter().sum())
    }
}

/// A window to read.
pub struct Memory<'a> {
    pub at: u32,
    pub window: &'a [u8],
}

impl Memory<'_> {
    fn byte(&self, address: u32) -> u8 {
        self.window.get(address.wrapping_sub(self.at) as usize).copied().unwrap_or(0)
    }

    pub fn word(&self, address: u32) -> u32 {
        u32::from_le_bytes(std::array::from_fn(|index| self.byte(address.wrapping_add(index as u32))))
    }

    fn name_length(&self, address: u32) -> usize {
        let ends = |index: &u32| address == 0 || self.byte(address.wrapping_add(*index)) == 0;
        (0..512).find(ends).unwrap_or(512) as usize
    }
}
