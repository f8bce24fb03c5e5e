//! What the register's bytes say: its header, its records and its missing names.

/// The bytes of the missing list: 64 slots of a 16-bit length and 512 bytes.
pub const MISSING_LENGTH: usize = 64 * SLOT;
pub(crate) const SLOT: usize = 2 + 512;

/// The bytes of the records' header.
pub(crate) const HEADER: usize = 32;

fn word(bytes: &[u8], at: usize) -> u32 {
    u32::from_le_bytes([bytes[at], bytes[at + 1], bytes[at + 2], bytes[at + 3]])
}

/// How many modules stand.
pub(crate) fn count(records: &[u8]) -> usize {
    word(records, 0) as usize
}

/// The static module's base, if there is one.
pub(crate) fn crs(records: &[u8]) -> Option<u32> {
    (word(records, 4) != 0).then(|| word(records, 8))
}

/// How many bytes of the records and of the names are in use.
pub(crate) fn used(records: &[u8]) -> (usize, usize) {
    ((word(records, 12) as usize).max(HEADER), word(records, 16) as usize)
}

/// How many names are missing.
pub(crate) fn missing_count(records: &[u8]) -> usize {
    word(records, 20) as usize
}

/// How many bytes of a register are saved, by its header: those of the records, the names and the missing names in use.
pub(crate) fn saved_length(records: &[u8]) -> usize {
    if records.len() < HEADER {
        return HEADER;
    }
    let (used, names) = used(records);
    used + names + SLOT * missing_count(records)
}

/// The missing names, oldest first.
pub(crate) fn missing<'a>(records: &[u8], missing: &'a [u8]) -> impl Iterator<Item = &'a [u8]> {
    missing.chunks_exact(SLOT).take(missing_count(records)).map(|slot| {
        let length = u16::from_le_bytes([slot[0], slot[1]]) as usize;
        &slot[2..2 + length]
    })
}

/// A module that stands, read from its record.
#[derive(Clone, Copy)]
pub struct Module<'a> {
    record: &'a [u8],
    names: &'a [u8],
}

impl<'a> Module<'a> {
    const FIXED: usize = 32;

    fn field(&self, index: usize) -> u32 {
        word(self.record, 4 * index)
    }

    /// The address that it was loaded at.
    pub fn base(&self) -> u32 {
        self.field(0)
    }

    /// Its size, as the call that took it in was given it.
    pub fn size(&self) -> u32 {
        self.field(1)
    }

    /// Whether others may use its named exports.
    pub fn auto_link(&self) -> bool {
        self.field(2) != 0
    }

    /// Its name, as raw bytes.
    pub fn name(&self) -> &'a [u8] {
        self.name_at(self.field(3), self.field(4))
    }

    /// The addresses of its segments, at most 16.
    pub fn segments(&self) -> impl ExactSizeIterator<Item = u32> + 'a {
        self.words(Self::FIXED, self.field(5) as usize)
    }

    /// Its named exports, each name once, ascending by name: bytes as unsigned numbers, a name before those that extend it.
    pub fn exports(&self) -> impl ExactSizeIterator<Item = (&'a [u8], u32)> + 'a {
        let module = *self;
        let first = Self::FIXED + 4 * self.field(5) as usize;
        (0..self.field(6) as usize).map(move |index| {
            let at = first + 12 * index;
            let name = module.name_at(word(module.record, at), word(module.record, at + 4));
            (name, word(module.record, at + 8))
        })
    }

    /// The address of the export of this name.
    pub fn export(&self, name: &[u8]) -> Option<u32> {
        self.exports().find(|export| export.0 == name).map(|export| export.1)
    }

    /// The addresses of its exports by index; 0 where there is none.
    pub fn indexed_exports(&self) -> impl ExactSizeIterator<Item = u32> + 'a {
        let first = Self::FIXED + 4 * self.field(5) as usize + 12 * self.field(6) as usize;
        self.words(first, self.field(7) as usize)
    }

    fn words(&self, first: usize, count: usize) -> impl ExactSizeIterator<Item = u32> + 'a {
        let record = self.record;
        (0..count).map(move |index| word(record, first + 4 * index))
    }

    fn name_at(&self, offset: u32, length: u32) -> &'a [u8] {
        &self.names[offset as usize..][..length as usize]
    }

    fn length(&self) -> usize {
        Self::FIXED + 4 * self.field(5) as usize + 12 * self.field(6) as usize + 4 * self.field(7) as usize
    }
}

impl std::fmt::Debug for Module<'_> {
    fn fmt(&self, f: &mut std::fmt::Formatter<'_>) -> std::fmt::Result {
        write!(f, "{} at {:#010x}, {:#x} bytes", self.name().escape_ascii(), self.base(), self.size())
    }
}

/// The modules that stand, oldest first.
pub struct Modules<'a> {
    left: usize,
    rest: &'a [u8],
    names: &'a [u8],
}

impl<'a> Modules<'a> {
    pub(crate) fn new(records: &'a [u8], names: &'a [u8]) -> Self {
        Modules { left: count(records), rest: &records[HEADER..], names }
    }
}

impl<'a> Iterator for Modules<'a> {
    type Item = Module<'a>;

    fn next(&mut self) -> Option<Module<'a>> {
        self.left = self.left.checked_sub(1)?;
        let module = Module { record: self.rest, names: self.names };
        self.rest = &self.rest[module.length()..];
        Some(module)
    }

    fn size_hint(&self) -> (usize, Option<usize>) {
        (self.left, Some(self.left))
    }
}

impl ExactSizeIterator for Modules<'_> {}
