//! The window, and how much room the register needs for a module that lies in it.

/// The part of the guest's memory that modules and their segments lie in: the address of its first byte, a multiple of 4,096,
/// and its bytes, whole pages, none past 2^32.
#[derive(Debug)]
pub struct Window<'a> {
    /// The address of the first byte.
    pub at: u32,
    /// The guest's own bytes, in a row. A call works on them in place.
    pub bytes: &'a mut [u8],
}

/// Where a header's fields are.
const MAGIC: u32 = 0x080;
const SEGMENT_COUNT: u32 = 0x0CC;
const NAMED_EXPORTS: u32 = 0x0D0;
const NAMED_EXPORT_COUNT: u32 = 0x0D4;
const INDEXED_EXPORT_COUNT: u32 = 0x0DC;

/// The bytes of a named export in its table, and the greatest length of a name.
const NAMED_EXPORT: usize = 8;
const NAME: usize = 512;

/// What is added, for an image that makes its names or counts a little greater while it is rebased.
const SPARE: usize = 0x1000;

impl Window<'_> {
    /// The bytes from an address on; none if it lies outside.
    fn bytes_from(&self, address: u32) -> &[u8] {
        self.bytes.get(address.wrapping_sub(self.at) as usize..).unwrap_or(&[])
    }

    /// The word at an address; bytes outside are 0.
    pub(crate) fn word(&self, address: u32) -> u32 {
        let byte = |index| self.bytes_from(address.wrapping_add(index)).first().copied().unwrap_or(0);
        u32::from_le_bytes([byte(0), byte(1), byte(2), byte(3)])
    }

    /// The most bytes that the record and the names of the module at this base can take, by its counts and names as they are
    /// now; none where there is no module. What is above the limit need not be exact.
    ///
    /// A record has 32 bytes, 4 for each of at most 16 segments and each indexed export, and 12 for each named one, of which no
    /// two have the same name. Entries of the table that lie all outside are one empty name, so the names are no more than the
    /// entries that the window can hold, those at its edges, and that one.
    pub(crate) fn most_room(&self, base: u32, limit: usize) -> (usize, usize) {
        let word = |field| self.word(base.wrapping_add(field));
        if !matches!(&word(MAGIC).to_le_bytes(), b"CRO0" | b"CRS0") {
            return (0, 0);
        }
        let count = |field| word(field) as usize;
        let named = count(NAMED_EXPORT_COUNT).min(self.bytes.len() / NAMED_EXPORT + 3);
        let records = 32 + 4 * count(SEGMENT_COUNT).min(16) + 12 * named + 4 * count(INDEXED_EXPORT_COUNT);
        let names = NAME + self.export_names(base, named, limit).unwrap_or(NAME * named);
        (records + SPARE, names + SPARE)
    }

    /// The bytes of the names of so many exports, or a number from the limit on; none where their table is not all inside.
    fn export_names(&self, base: u32, named: usize, limit: usize) -> Option<usize> {
        // an offset of 0 is not moved by the base, and neither are the names of a table at address 0
        let moved = |offset: u32, by: u32| if offset == 0 { 0 } else { offset.wrapping_add(by) };
        let table = moved(self.word(base.wrapping_add(NAMED_EXPORTS)), base);
        let names_by = if table == 0 { 0 } else { base };
        let entries = self.bytes_from(table).get(..NAMED_EXPORT * named)?;
        let mut sum = 0;
        for entry in entries.chunks_exact(NAMED_EXPORT) {
            let name = moved(u32::from_le_bytes([entry[0], entry[1], entry[2], entry[3]]), names_by);
            sum += self.name_length(name);
            if sum >= limit {
                break;
            }
        }
        Some(sum)
    }

    /// The length of the name at an address; the one at 0 is empty.
    fn name_length(&self, address: u32) -> usize {
        let bytes = if address == 0 { &[] } else { self.bytes_from(address) };
        length_before_zero(&bytes[..bytes.len().min(NAME)])
    }
}

/// How many bytes come before the first 0; eight are looked at a time.
fn length_before_zero(bytes: &[u8]) -> usize {
    let words = bytes.chunks_exact(8);
    let rest = words.remainder();
    for (index, word) in words.enumerate() {
        let word = u64::from_le_bytes(word.try_into().unwrap());
        // a byte's highest bit stands here if the byte is 0, and none below the first such byte
        let zeros = word.wrapping_sub(0x0101_0101_0101_0101) & !word & 0x8080_8080_8080_8080;
        if zeros != 0 {
            return 8 * index + zeros.trailing_zeros() as usize / 8;
        }
    }
    bytes.len() - rest.len() + rest.iter().position(|&byte| byte == 0).unwrap_or(rest.len())
}

#[cfg(test)]
mod tests {
    use super::length_before_zero;

    #[test]
    fn a_zero_is_found_wherever_it_stands() {
        for length in 0..40 {
            let bytes: Vec<u8> = (0..length).map(|index| [1, 0x80, 0xFF, 0x7F, 0x81][index % 5]).collect();
            assert_eq!(length_before_zero(&bytes), length);
            for at in 0..length {
                let mut bytes = bytes.clone();
                bytes[at] = 0;
                assert_eq!(length_before_zero(&bytes), at);
            }
        }
    }
}
