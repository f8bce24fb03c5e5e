//! Modules made from their parts, and taken apart again: the writer of images.

use crate::raw;

const HEADER: usize = 0x138;
const NAME: usize = 0x084;
const BSS: usize = 0x094;
const TAGS: usize = 0x0A0;
const HANDLER: usize = 0x0AC;
const CODE: usize = 0x0B0;
const DATA: usize = 0x0B8;
const MODULE_NAME: usize = 0x0C0;
const SEGMENTS: usize = 0x0C8;
const EXPORTS: usize = 0x0D0;
const INDEXED_EXPORTS: usize = 0x0D8;
const EXPORT_STRINGS: usize = 0x0E0;
const EXPORT_TREE: usize = 0x0E8;
const IMPORTED_MODULES: usize = 0x0F0;
const EXTERNAL: usize = 0x0F8;
const IMPORTS: usize = 0x100;
const INDEXED_IMPORTS: usize = 0x108;
const ANONYMOUS_IMPORTS: usize = 0x110;
const IMPORT_STRINGS: usize = 0x118;
const STATIC_ANONYMOUS: usize = 0x120;
const INTERNAL: usize = 0x128;
const STATIC_RELOCATIONS: usize = 0x130;

const LONGEST_BATCH: u32 = 0x1001;

/// A place in a module: a segment, of which there are at most 16 that a tag can name, and an offset in it, below 2^28.
#[derive(Debug, Clone, Copy, PartialEq, Eq, Hash, Default)]
pub struct Tag {
    /// The segment's number, 0 to 15.
    pub segment: u8,
    /// The offset in it.
    pub offset: u32,
}

impl Tag {
    /// The tag of this segment and offset.
    pub fn new(segment: u8, offset: u32) -> Tag {
        Tag { segment, offset }
    }

    fn word(self) -> u32 {
        self.offset << 4 | self.segment as u32 & 15
    }

    fn of(word: u32) -> Tag {
        Tag { segment: (word & 15) as u8, offset: word >> 4 }
    }
}

/// A segment, with its bytes if the image has them.
#[derive(Debug, Clone, PartialEq, Eq)]
pub enum Segment {
    /// Code.
    Code(Vec<u8>),
    /// Read-only data.
    ReadOnly(Vec<u8>),
    /// Data: at a load its place is lent.
    Data(Vec<u8>),
    /// So many bytes that the image has not; at a load their place is lent.
    Bss(u32),
}

/// A word that an import or the module itself patches.
#[derive(Debug, Clone, Copy, PartialEq, Eq, Hash)]
pub struct Relocation {
    /// Where the word is.
    pub tag: Tag,
    /// What is written: 2 and 10 the symbol, 3 the symbol less the word's own address; others write nothing.
    pub kind: u8,
    /// What is added to the symbol.
    pub addend: u32,
}

/// A word that the module patches itself: the symbol is the start of one of its segments.
#[derive(Debug, Clone, Copy, PartialEq, Eq, Hash)]
pub struct InternalRelocation {
    /// The segment whose start is the symbol.
    pub symbol: u8,
    /// Where and what.
    pub relocation: Relocation,
}

/// A named export.
#[derive(Debug, Clone, PartialEq, Eq)]
pub struct Export {
    /// Its name, of at most 512 bytes, none of them 0.
    pub name: Vec<u8>,
    /// Its place.
    pub tag: Tag,
}

/// An import: what it asks for, and the words that it patches, 1 to 4,097.
#[derive(Debug, Clone, PartialEq, Eq)]
pub struct Import<T> {
    /// The name, the index or the place in the other module.
    pub wanted: T,
    /// The words that it patches.
    pub relocations: Vec<Relocation>,
}

/// What a module imports from another that it names.
#[derive(Debug, Clone, PartialEq, Eq, Default)]
pub struct ImportedModule {
    /// The other's name.
    pub name: Vec<u8>,
    /// Imports by the number of the other's indexed export.
    pub indexed: Vec<Import<u32>>,
    /// Imports by a place in the other.
    pub anonymous: Vec<Import<Tag>>,
}

/// A module by its parts. [`Description::image`] makes a CRO image of it, which is well laid wherever it is loaded;
/// [`Description::of_image`] gives the parts back.
///
/// ```
/// use fillqhano::{Description, Export, Segment, Tag};
///
/// let module = Description {
///     name: b"m".to_vec(),
///     segments: vec![Segment::Code(vec![0; 16])],
///     exports: vec![Export { name: b"f".to_vec(), tag: Tag::new(0, 8) }],
///     ..Default::default()
/// };
/// let image = module.image().unwrap();
/// assert_eq!(image.len(), 0x1000);
/// assert_eq!(Description::of_image(&image), Some(module));
/// ```
#[derive(Debug, Clone, PartialEq, Eq, Default)]
pub struct Description {
    /// The module's name, of at most 512 bytes, none of them 0.
    pub name: Vec<u8>,
    /// Its segments. At least one has to have bytes, since every module has a handler.
    pub segments: Vec<Segment>,
    /// What the console calls: the words of three tags, at 0x0A0, 0x0A4 and 0x0A8, that the linker does not read.
    pub tags: [u32; 3],
    /// The function that every import points at while nothing provides it; it has to lie in a segment.
    pub handler: Tag,
    /// Named exports.
    pub exports: Vec<Export>,
    /// Indexed exports.
    pub indexed_exports: Vec<Tag>,
    /// Imports by name.
    pub imports: Vec<Import<Vec<u8>>>,
    /// Imports by module.
    pub modules: Vec<ImportedModule>,
    /// The module's own relocations.
    pub relocations: Vec<InternalRelocation>,
}

/// Why no image was made: the parts make none that is well laid in every place. A name is longer than 512 bytes or has a zero; the
/// handler is in no segment; an import has no relocation, or more than 4,097; two relocated words overlap, or one leaves its segment's
/// area or lies on a table; or the image and what is to be lent to it do not fit between 0 and 2^32 - 1.
#[derive(Debug, Clone, Copy, PartialEq, Eq)]
pub struct NotWellLaid;

impl std::fmt::Display for NotWellLaid {
    fn fmt(&self, f: &mut std::fmt::Formatter<'_>) -> std::fmt::Result {
        f.write_str("these parts make no image that is well laid in every place")
    }
}

impl std::error::Error for NotWellLaid {}

impl Description {
    /// The CRO image, whose length is a multiple of 4,096.
    pub fn image(&self) -> Result<Vec<u8>, NotWellLaid> {
        let description = self.to_bytes();
        let mut image = vec![0; description.len().next_multiple_of(0x1000)];
        match raw::write_image(&description, &mut image) {
            (0, size) => {
                image.truncate(size as usize);
                Ok(image)
            }
            (6, _) => Err(NotWellLaid),
            (number, _) => panic!("the writer answered {number}, which this wrapper does not know"),
        }
    }

    /// The parts of an image that [`Description::image`] made; none for other bytes. An image that another tool made may be as well
    /// laid and still not be one of these: its parts would not all come back.
    pub fn of_image(image: &[u8]) -> Option<Description> {
        let mut description = vec![0; image.len()];
        match raw::read_image(image, &mut description) {
            (0, length) => description.truncate(length as usize),
            _ => return None,
        }
        let parts = Description::of_bytes(&description)?;
        (parts.image().ok()?.as_slice() == image).then_some(parts)
    }

    /// The description as the writer takes it: a header, and the parts packed from 0x138 on. `include/fillqhano.h` has its form.
    pub fn to_bytes(&self) -> Vec<u8> {
        let mut packer = Packer { bytes: vec![0; HEADER] };
        let offsets: Vec<u32> = self.segments.iter().map(|segment| packer.segment(segment)).collect();
        self.put_header(&mut packer, &offsets);
        let name = packer.part(MODULE_NAME, 1, self.name.len() + 1);
        packer.bytes[name..name + self.name.len()].copy_from_slice(&self.name);
        packer.put(NAME, name as u32);
        let table = packer.part(SEGMENTS, 12, self.segments.len());
        for (number, (segment, &offset)) in self.segments.iter().zip(&offsets).enumerate() {
            packer.words(table + 12 * number, &[offset, segment.size(), segment.kind()]);
        }
        self.put_exports(&mut packer);
        self.put_imports(&mut packer);
        packer.part(STATIC_ANONYMOUS, 8, 0);
        let table = packer.part(INTERNAL, 12, self.relocations.len());
        for (number, internal) in self.relocations.iter().enumerate() {
            packer.relocation(table + 12 * number, &internal.relocation, internal.symbol);
        }
        packer.part(STATIC_RELOCATIONS, 12, 0);
        packer.bytes
    }

    /// Tags, and the pairs of the first code and data segment; the bss size is that of the first Bss segment.
    fn put_header(&self, packer: &mut Packer, offsets: &[u32]) {
        packer.words(TAGS, &self.tags);
        packer.put(HANDLER, self.handler.word());
        for (segment, &offset) in self.segments.iter().zip(offsets).rev() {
            match segment {
                Segment::Code(bytes) => packer.words(CODE, &[offset, bytes.len() as u32]),
                Segment::Data(bytes) => packer.words(DATA, &[offset, bytes.len() as u32]),
                Segment::Bss(size) => packer.put(BSS, *size),
                Segment::ReadOnly(_) => {}
            }
        }
    }

    fn put_exports(&self, packer: &mut Packer) {
        let table = packer.part(EXPORTS, 8, self.exports.len());
        let indexed = packer.part(INDEXED_EXPORTS, 4, self.indexed_exports.len());
        let tags: Vec<u32> = self.indexed_exports.iter().map(|tag| tag.word()).collect();
        packer.words(indexed, &tags);
        let names: Vec<&[u8]> = self.exports.iter().map(|export| &export.name[..]).collect();
        let pointers = packer.strings(EXPORT_STRINGS, &names);
        for (number, (export, pointer)) in self.exports.iter().zip(pointers).enumerate() {
            packer.words(table + 8 * number, &[pointer, export.tag.word()]);
        }
        packer.part(EXPORT_TREE, 8, 0);
    }

    fn put_imports(&self, packer: &mut Packer) {
        let indexed: Vec<&Import<u32>> = self.modules.iter().flat_map(|module| &module.indexed).collect();
        let anonymous: Vec<&Import<Tag>> = self.modules.iter().flat_map(|module| &module.anonymous).collect();
        let batches: Vec<&[Relocation]> = (self.imports.iter().map(|import| &import.relocations[..]))
            .chain(indexed.iter().map(|import| &import.relocations[..]))
            .chain(anonymous.iter().map(|import| &import.relocations[..]))
            .collect();
        let modules = packer.part(IMPORTED_MODULES, 20, self.modules.len());
        let external = packer.part(EXTERNAL, 12, batches.iter().map(|batch| batch.len()).sum());
        let named = packer.part(IMPORTS, 8, self.imports.len());
        let by_index = packer.part(INDEXED_IMPORTS, 8, indexed.len());
        let by_tag = packer.part(ANONYMOUS_IMPORTS, 8, anonymous.len());
        let names: Vec<&[u8]> = (self.modules.iter().map(|module| &module.name[..]))
            .chain(self.imports.iter().map(|import| &import.wanted[..]))
            .collect();
        let pointers = packer.strings(IMPORT_STRINGS, &names);
        self.put_modules(packer, modules, by_index, by_tag, &pointers);
        let wanted = (pointers[self.modules.len()..].iter().copied())
            .chain(indexed.iter().map(|import| import.wanted))
            .chain(anonymous.iter().map(|import| import.wanted.word()));
        let mut at = external;
        for ((number, wanted), batch) in wanted.enumerate().zip(batches) {
            // the three tables stand right after each other, with 8 bytes an entry
            packer.words(named + 8 * number, &[wanted, at as u32]);
            for (number, relocation) in batch.iter().enumerate() {
                packer.relocation(at, relocation, (number + 1 == batch.len()) as u8);
                at += 12;
            }
        }
    }

    /// The module entries, each with its runs of the tables of indexed and anonymous imports.
    fn put_modules(&self, packer: &mut Packer, at: usize, indexed: usize, anonymous: usize, pointers: &[u32]) {
        let (mut indexed, mut anonymous) = (indexed as u32, anonymous as u32);
        for (number, module) in self.modules.iter().enumerate() {
            let counts = (module.indexed.len() as u32, module.anonymous.len() as u32);
            packer.words(at + 20 * number, &[pointers[number], indexed, counts.0, anonymous, counts.1]);
            indexed += 8 * counts.0;
            anonymous += 8 * counts.1;
        }
    }

    /// The parts of a description that [`Description::to_bytes`] made; none for other bytes.
    pub fn of_bytes(bytes: &[u8]) -> Option<Description> {
        let parts = Unpacker { bytes }.parts()?;
        (parts.to_bytes() == bytes).then_some(parts)
    }
}

impl Segment {
    fn kind(&self) -> u32 {
        match self {
            Segment::Code(_) => 0,
            Segment::ReadOnly(_) => 1,
            Segment::Data(_) => 2,
            Segment::Bss(_) => 3,
        }
    }

    /// How many bytes it has.
    pub fn size(&self) -> u32 {
        match self {
            Segment::Code(bytes) | Segment::ReadOnly(bytes) | Segment::Data(bytes) => bytes.len() as u32,
            Segment::Bss(size) => *size,
        }
    }
}

/// A description as it is packed.
struct Packer {
    bytes: Vec<u8>,
}

impl Packer {
    fn put(&mut self, at: usize, word: u32) {
        self.bytes[at..at + 4].copy_from_slice(&word.to_le_bytes());
    }

    fn words(&mut self, at: usize, words: &[u32]) {
        for (number, &word) in words.iter().enumerate() {
            self.put(at + 4 * number, word);
        }
    }

    /// So many bytes from the next multiple of 4 on.
    fn room(&mut self, size: usize) -> usize {
        let start = self.bytes.len().next_multiple_of(4);
        self.bytes.resize(start + size, 0);
        start
    }

    /// A table or string area, with its offset and count in the header.
    fn part(&mut self, field: usize, width: usize, count: usize) -> usize {
        let start = self.room(width * count);
        self.words(field, &[start as u32, count as u32]);
        start
    }

    /// A segment's bytes; a Bss segment has none.
    fn segment(&mut self, segment: &Segment) -> u32 {
        match segment {
            Segment::Code(bytes) | Segment::ReadOnly(bytes) | Segment::Data(bytes) => {
                let start = self.room(bytes.len());
                self.bytes[start..].copy_from_slice(bytes);
                start as u32
            }
            Segment::Bss(_) => 0,
        }
    }

    /// An area of strings, one right after another; gives where each starts.
    fn strings(&mut self, field: usize, strings: &[&[u8]]) -> Vec<u32> {
        let mut at = self.part(field, 1, strings.iter().map(|string| string.len() + 1).sum());
        let place = |string: &&[u8]| {
            let start = at;
            self.bytes[start..start + string.len()].copy_from_slice(string);
            at += string.len() + 1;
            start as u32
        };
        strings.iter().map(place).collect()
    }

    fn relocation(&mut self, at: usize, relocation: &Relocation, byte: u8) {
        let second = relocation.kind as u32 | (byte as u32) << 8;
        self.words(at, &[relocation.tag.word(), second, relocation.addend]);
    }
}

/// A description as it is read; what lies outside is none.
struct Unpacker<'a> {
    bytes: &'a [u8],
}

impl<'a> Unpacker<'a> {
    fn part(&self, at: u32, size: u32) -> Option<&'a [u8]> {
        self.bytes.get(at as usize..)?.get(..size as usize)
    }

    fn word(&self, at: u32) -> Option<u32> {
        Some(u32::from_le_bytes(self.part(at, 4)?.try_into().ok()?))
    }

    fn tag(&self, at: u32) -> Option<Tag> {
        Some(Tag::of(self.word(at)?))
    }

    /// The entries of a table, by their offsets.
    fn table(&self, field: usize, width: u32) -> Option<impl Iterator<Item = u32>> {
        let (start, count) = (self.word(field as u32)?, self.word(field as u32 + 4)?);
        self.part(start, width.checked_mul(count)?)?;
        Some((0..count).map(move |number| start + width * number))
    }

    /// The bytes before the first zero.
    fn string(&self, at: u32) -> Option<Vec<u8>> {
        let rest = self.bytes.get(at as usize..)?;
        Some(rest[..rest.iter().position(|&byte| byte == 0)?].to_vec())
    }

    fn segment(&self, entry: u32) -> Option<Segment> {
        let (offset, size) = (self.word(entry)?, self.word(entry + 4)?);
        let bytes = || Some(self.part(offset, size)?.to_vec());
        Some(match self.word(entry + 8)? {
            0 => Segment::Code(bytes()?),
            1 => Segment::ReadOnly(bytes()?),
            2 => Segment::Data(bytes()?),
            _ => Segment::Bss(size),
        })
    }

    fn relocation(&self, entry: u32) -> Option<(Relocation, u8)> {
        let second = self.part(entry + 4, 2)?;
        let (tag, addend) = (self.tag(entry)?, self.word(entry + 8)?);
        Some((Relocation { tag, kind: second[0], addend }, second[1]))
    }

    /// The relocations up to the first end mark; none where a batch would be too long.
    fn batch(&self, start: u32) -> Option<Vec<Relocation>> {
        let mut batch = Vec::new();
        for number in 0..LONGEST_BATCH {
            let (relocation, mark) = self.relocation(start.checked_add(12 * number)?)?;
            batch.push(relocation);
            if mark != 0 {
                return Some(batch);
            }
        }
        None
    }

    fn import<T>(&self, entry: u32, wanted: T) -> Option<Import<T>> {
        Some(Import { wanted, relocations: self.batch(self.word(entry + 4)?)? })
    }

    /// The entries of a module entry's run.
    fn run(&self, at: u32) -> Option<impl Iterator<Item = u32>> {
        let (start, count) = (self.word(at)?, self.word(at + 4)?);
        self.part(start, count.checked_mul(8)?)?;
        Some((0..count).map(move |number| start + 8 * number))
    }

    fn module(&self, entry: u32) -> Option<ImportedModule> {
        let name = self.string(self.word(entry)?)?;
        let indexed = self.run(entry + 4)?.map(|at| self.import(at, self.word(at)?)).collect::<Option<_>>()?;
        let anonymous = self.run(entry + 12)?.map(|at| self.import(at, self.tag(at)?)).collect::<Option<_>>()?;
        Some(ImportedModule { name, indexed, anonymous })
    }

    fn parts(&self) -> Option<Description> {
        let export = |entry| Some(Export { name: self.string(self.word(entry)?)?, tag: self.tag(entry + 4)? });
        let import = |entry| self.import(entry, self.string(self.word(entry)?)?);
        let internal = |entry| {
            let (relocation, symbol) = self.relocation(entry)?;
            Some(InternalRelocation { symbol, relocation })
        };
        let word = |number: u32| self.word(TAGS as u32 + 4 * number);
        Some(Description {
            name: self.string(self.word(MODULE_NAME as u32)?)?,
            segments: self.table(SEGMENTS, 12)?.map(|entry| self.segment(entry)).collect::<Option<_>>()?,
            tags: [word(0)?, word(1)?, word(2)?],
            handler: self.tag(HANDLER as u32)?,
            exports: self.table(EXPORTS, 8)?.map(export).collect::<Option<_>>()?,
            indexed_exports: self.table(INDEXED_EXPORTS, 4)?.map(|entry| self.tag(entry)).collect::<Option<_>>()?,
            imports: self.table(IMPORTS, 8)?.map(import).collect::<Option<_>>()?,
            modules: self.table(IMPORTED_MODULES, 20)?.map(|entry| self.module(entry)).collect::<Option<_>>()?,
            relocations: self.table(INTERNAL, 12)?.map(internal).collect::<Option<_>>()?,
        })
    }
}
