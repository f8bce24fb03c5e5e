//! What stands after a call, in the form in which the two sides are compared.

/// A module as it is compared: the first 16 segments, all that a tag can reach, and the named exports in their order.
#[derive(Debug, Clone, PartialEq, Eq)]
pub struct Module {
    pub name: Vec<u8>,
    pub base: u32,
    pub size: u32,
    pub auto_link: bool,
    pub segments: Vec<u32>,
    pub exports: Vec<(Vec<u8>, u32)>,
    pub indexed_exports: Vec<u32>,
}

impl Module {
    /// The bytes of its record, and of its names.
    pub fn room(&self) -> (usize, usize) {
        let words = 8 + self.segments.len() + 3 * self.exports.len() + self.indexed_exports.len();
        let names = self.name.len() + self.exports.iter().map(|export| export.0.len()).sum::<usize>();
        (4 * words, names)
    }

    /// Whether its named exports ascend: bytes as unsigned numbers, a name before those that extend it, none twice.
    pub fn ascends(&self) -> bool {
        self.exports.windows(2).all(|pair| pair[0].0 < pair[1].0)
    }
}

/// What stands between calls, but for the window.
#[derive(Debug, Clone, Default, PartialEq, Eq)]
pub struct State {
    pub crs: Option<u32>,
    pub modules: Vec<Module>,
    pub missing: Vec<Vec<u8>>,
}

impl State {
    /// One number (FNV-1a) of everything that is compared after a call.
    pub fn digest(&self, window: &[u8]) -> u64 {
        let mut digest = Digest(0xCBF2_9CE4_8422_2325);
        digest.bytes(window);
        digest.words(&[self.crs.is_some() as u32, self.crs.unwrap_or(0), self.modules.len() as u32]);
        for module in &self.modules {
            digest.words(&[module.base, module.size, module.auto_link as u32, module.exports.len() as u32]);
            digest.bytes(&module.name);
            digest.words(&module.segments);
            for (name, address) in &module.exports {
                digest.bytes(name);
                digest.words(&[*address]);
            }
            digest.words(&module.indexed_exports);
        }
        for name in &self.missing {
            digest.bytes(name);
        }
        digest.0
    }
}

struct Digest(u64);

impl Digest {
    fn bytes(&mut self, bytes: &[u8]) {
        self.words(&[bytes.len() as u32]);
        for chunk in bytes.chunks(4) {
            let mut word = [0; 4];
            word[..chunk.len()].copy_from_slice(chunk);
            self.word(u32::from_le_bytes(word));
        }
    }

    fn words(&mut self, words: &[u32]) {
        self.word(words.len() as u32);
        words.iter().for_each(|&word| self.word(word));
    }

    fn word(&mut self, word: u32) {
        self.0 = (self.0 ^ word as u64).wrapping_mul(0x0000_0100_0000_01B3);
        self.0 ^= self.0 >> 29;
    }
}
