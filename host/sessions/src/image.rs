//! Images of modules. They are laid out by the host's `Description`, and written by the writer where it takes them.

use fillqhano::{Description, Export, Import, ImportedModule, InternalRelocation, Segment, Tag};

/// The header's size, and where its fields are.
pub const HEADER: u32 = 0x138;
const MAGIC: usize = 0x080;
const FILE_SIZE: usize = 0x090;
const MODULE_NAME: usize = 0x0C0;
const SEGMENTS: u32 = 0x0C8;
const NAMED_EXPORTS: u32 = 0x0D0;
const INDEXED_EXPORTS: u32 = 0x0D8;
const IMPORT_MODULES: u32 = 0x0F0;
const EXTERNAL_RELOCATIONS: u32 = 0x0F8;
const NAMED_IMPORTS: u32 = 0x100;
const INDEXED_IMPORTS: u32 = 0x108;
const ANONYMOUS_IMPORTS: u32 = 0x110;
const INTERNAL_RELOCATIONS: u32 = 0x128;

/// The header's counts, whose greatness decides how long a call takes.
pub const COUNTS: [u32; 9] = [
    SEGMENTS + 4,
    NAMED_EXPORTS + 4,
    INDEXED_EXPORTS + 4,
    IMPORT_MODULES + 4,
    EXTERNAL_RELOCATIONS + 4,
    NAMED_IMPORTS + 4,
    INDEXED_IMPORTS + 4,
    ANONYMOUS_IMPORTS + 4,
    INTERNAL_RELOCATIONS + 4,
];

/// A module's four segments, by their place in its table.
pub const CODE_SEGMENT: u32 = 0;
pub const READ_ONLY_SEGMENT: u32 = 1;
pub const DATA_SEGMENT: u32 = 2;
pub const BSS_SEGMENT: u32 = 3;

/// A place in a segment.
pub const fn tag(segment: u32, offset: u32) -> u32 {
    offset << 4 | segment
}

/// An external relocation: where, of which kind, and what is added.
#[derive(Debug, Clone, Copy)]
pub struct Relocation {
    pub tag: u32,
    pub kind: u8,
    pub addend: u32,
}

/// A relocation within the module: its symbol is a segment.
#[derive(Debug, Clone, Copy)]
pub struct Internal {
    pub relocation: Relocation,
    pub symbol: u8,
}

/// What a module imports from another that it names.
#[derive(Debug, Clone, Default)]
pub struct FromModule {
    pub name: Vec<u8>,
    /// An index of the other's indexed exports, and the batch.
    pub indexed: Vec<(u32, Vec<Relocation>)>,
    /// A tag in the other, and the batch.
    pub anonymous: Vec<(u32, Vec<Relocation>)>,
}

/// What an image holds.
#[derive(Debug, Clone, Default)]
pub struct Image {
    pub name: Vec<u8>,
    /// A static module: its magic is CRS0 and its segments are addresses, from this base on.
    pub static_base: Option<u32>,
    /// The tag of the handler for imports that nothing provides.
    pub handler: u32,
    /// The sizes of the four segments.
    pub sizes: [u32; 4],
    pub exports: Vec<(Vec<u8>, u32)>,
    pub indexed: Vec<u32>,
    pub imports: Vec<(Vec<u8>, Vec<Relocation>)>,
    pub modules: Vec<FromModule>,
    pub internal: Vec<Internal>,
}

impl Relocation {
    fn described(&self) -> fillqhano::Relocation {
        fillqhano::Relocation { tag: place(self.tag), kind: self.kind, addend: self.addend }
    }
}

fn place(tag: u32) -> Tag {
    Tag::new((tag % 16) as u8, tag / 16)
}

fn import<T>(wanted: T, batch: &[Relocation]) -> Import<T> {
    Import { wanted, relocations: batch.iter().map(Relocation::described).collect() }
}

impl FromModule {
    fn described(&self) -> ImportedModule {
        let indexed = self.indexed.iter().map(|(index, batch)| import(*index, batch)).collect();
        let anonymous = self.anonymous.iter().map(|(tag, batch)| import(place(*tag), batch)).collect();
        ImportedModule { name: self.name.clone(), indexed, anonymous }
    }
}

impl Image {
    /// The image without the zeros at its end, so that many fit in a small window. Empty names are at 0, as they may be.
    pub fn bytes(&self) -> Vec<u8> {
        let description = self.description();
        let mut bytes = description.to_bytes();
        match (self.static_base, description.image()) {
            (None, Ok(image)) => {
                let end = bytes.len();
                bytes.copy_from_slice(&image[..end]);
            }
            (None, Err(_)) => self.put_magic(&mut bytes, b"CRO0"),
            (Some(base), _) => {
                self.make_static(&mut bytes, base);
                self.put_magic(&mut bytes, b"CRS0");
            }
        }
        clear_empty_names(&mut bytes);
        bytes
    }

    fn description(&self) -> Description {
        let [code, read_only, data, bss] = self.sizes;
        Description {
            name: self.name.clone(),
            segments: vec![
                Segment::Code(filled(code)),
                Segment::ReadOnly(filled(read_only)),
                Segment::Data(filled(data)),
                Segment::Bss(bss),
            ],
            tags: [0; 3],
            handler: place(self.handler),
            exports: self.exports.iter().map(|(name, tag)| Export { name: name.clone(), tag: place(*tag) }).collect(),
            indexed_exports: self.indexed.iter().map(|&tag| place(tag)).collect(),
            imports: self.imports.iter().map(|(name, batch)| import(name.clone(), batch)).collect(),
            modules: self.modules.iter().map(FromModule::described).collect(),
            relocations: (self.internal.iter())
                .map(|internal| InternalRelocation { symbol: internal.symbol, relocation: internal.relocation.described() })
                .collect(),
        }
    }

    /// What the writer would put in.
    fn put_magic(&self, bytes: &mut [u8], magic: &[u8; 4]) {
        let size = bytes.len() as u32;
        bytes[MAGIC..MAGIC + 4].copy_from_slice(magic);
        put(bytes, FILE_SIZE, size);
    }

    /// A static module's segments are addresses, and its bss lies in its image.
    fn make_static(&self, bytes: &mut Vec<u8>, base: u32) {
        let table = word(bytes, SEGMENTS as usize) as usize;
        let bss = bytes.len() as u32;
        bytes.resize((bss + self.sizes[3]).next_multiple_of(4) as usize, 0);
        put(bytes, table + 36, bss);
        for entry in (table..table + 48).step_by(12) {
            let offset = word(bytes, entry);
            put(bytes, entry, base + offset);
        }
    }
}

/// Makes the pointers of empty names 0.
fn clear_empty_names(bytes: &mut [u8]) {
    let mut pointers = vec![MODULE_NAME];
    for (field, width) in [(NAMED_EXPORTS, 8), (IMPORT_MODULES, 20), (NAMED_IMPORTS, 8)] {
        let (table, count) = (word(bytes, field as usize), word(bytes, field as usize + 4));
        pointers.extend((0..count).map(|number| (table + width * number) as usize));
    }
    for pointer in pointers {
        if bytes[word(bytes, pointer) as usize] == 0 {
            put(bytes, pointer, 0);
        }
    }
}

/// Bytes that stand for code or data.
fn filled(size: u32) -> Vec<u8> {
    (0..size).map(|at| (at % 251) as u8 ^ 0xA5).collect()
}

fn word(bytes: &[u8], at: usize) -> u32 {
    u32::from_le_bytes(bytes[at..at + 4].try_into().unwrap())
}

fn put(bytes: &mut [u8], at: usize, word: u32) {
    bytes[at..at + 4].copy_from_slice(&word.to_le_bytes());
}
