//! The proved linker of CRO and CRS modules, for Rust hosts.
//!
//! A [`Linker`] stands where an emulator kept its manager of modules: it owns the register of loaded modules and has the
//! three calls of `ldr:ro`. It works in place on a *window*, the part of the guest's memory that modules and their
//! segments lie in: the address of its first byte, and its bytes. A read outside the window gives 0, and a write outside
//! is dropped, so the window has to hold everything that modules may point at. A relocated word begun outside, as two
//! bytes below the window, is dropped whole, and one that runs off the window's end keeps its bytes inside; of any other
//! word the bytes inside are written.
//!
//! The calls are proved to end on any bytes, to touch nothing but the buffers lent, and to do what their definition says. A count,
//! however great, costs no more than what of its table lies in the window; but counts that nest there multiply: module entries, their
//! imports, the entries of a batch. A host that takes images from anywhere calls on a thread that it can spare.
//!
//! An access with a byte outside the window is a *touch*: [`Linker::touch`] says whether the last call had one, and where the
//! first of them started.
//!
//! ```
//! use fillqhano::{Error, Linker, LoadArguments, Window};
//!
//! // One page at 0x100000 with the smallest module: a header whose code is 0x10 bytes from 0x138 on.
//! let mut memory = vec![0u8; 0x1000];
//! memory[0x80..0x84].copy_from_slice(b"CRO0");
//! memory[0xB0..0xB4].copy_from_slice(&0x138u32.to_le_bytes());
//! memory[0xB4..0xB8].copy_from_slice(&0x10u32.to_le_bytes());
//!
//! let mut linker = Linker::new();
//! let mut window = Window { at: 0x100000, bytes: &mut memory };
//! let module = LoadArguments { base: 0x100000, size: 0x1000, auto_link: true, fix_level: 1, ..Default::default() };
//! let nothing = LoadArguments { base: 0x100800, size: 0x800, ..module };
//! assert_eq!(linker.load(&mut window, nothing), Err(Error::NotACro));
//! assert_eq!(linker.load(&mut window, module), Ok(0x1000));
//! assert_eq!(linker.modules().next().unwrap().base(), 0x100000);
//! assert_eq!(linker.touch(), None);
//! assert_eq!(linker.unload(&mut window, 0x100000), Ok(true));
//! assert!(linker.is_empty());
//! ```
//!
//! A [`Desk`] stands above the linker: titles send it command buffers as they send them to `ldr:ro`, and it serves one a turn.
//!
//! A [`Description`] makes a module's image from its parts, and gives them back: for tests, tools and patches.
//!
//! Guest memory that is kept in pages becomes a window by being in a row: the host keeps the pages of the area that modules
//! lie in one after another in one buffer, or copies them there before a call and back after it. Each call is lent a window anew; it
//! may be another one, as long as all that stands lies in it.

#![deny(missing_docs)]

mod description;
mod desk;
mod error;
pub mod raw;
mod register;
mod state;
mod window;

use raw::{Answer, Buffers};

pub use description::{Description, Export, Import, ImportedModule, InternalRelocation, NotWellLaid, Relocation, Segment, Tag};
pub use desk::{Desk, Place, Served};
pub use error::Error;
pub use register::{Module, Modules, MISSING_LENGTH};
pub use state::StateError;
pub use window::Window;

/// A part of the guest's address space.
#[derive(Debug, Clone, Copy, PartialEq, Eq, Hash, Default)]
pub struct Area {
    /// The address of its first byte.
    pub at: u32,
    /// Its bytes.
    pub size: u32,
}

/// What a load is asked for. By default everything is 0, and nothing is linked to the module by name.
#[derive(Debug, Clone, Copy, PartialEq, Eq, Hash, Default)]
pub struct LoadArguments {
    /// Where the module's image lies.
    pub base: u32,
    /// The image's bytes.
    pub size: u32,
    /// What is lent to its data segment, which must not be larger.
    pub data_segment: Area,
    /// What is lent to its bss segment, which must not be larger.
    pub bss_segment: Area,
    /// Whether later modules may import its named exports.
    pub auto_link: bool,
    /// Which tables are dropped once it is linked: more with each of the levels 1, 2 and 3, none with any other.
    pub fix_level: u32,
}

/// The modules that are linked in, and the three calls that change them. Linkers are equal if the same stands in them.
///
/// It begins small and grows: before a call that takes a module in, there is room for the most that the module's counts and names
/// ask for, up to a limit. Bytes that a refused call did not use go back; what a module that was taken in did not use stays
/// for the next one, until [`Linker::shrink_to_fit`]. Every call looks at all the bytes that there are.
#[derive(Clone)]
pub struct Linker {
    records: Vec<u8>,
    names: Vec<u8>,
    missing: Vec<u8>,
    limit: usize,
    touch: Option<u32>,
}

impl PartialEq for Linker {
    fn eq(&self, other: &Linker) -> bool {
        self.standing() == other.standing()
    }
}

impl Eq for Linker {}

impl Default for Linker {
    fn default() -> Self {
        Linker::new()
    }
}

impl Linker {
    /// The limit of [`Linker::new`], 4 MiB: some 100,000 exports with names of 40 bytes.
    pub const LIMIT: usize = 0x40_0000;

    /// A linker without modules.
    pub fn new() -> Linker {
        Linker::with_limit(Self::LIMIT)
    }

    /// A linker without modules that takes at most so many bytes for its records, and as many for its names. A module whose
    /// record or names would pass that is refused by [`Error::Full`], whatever its header asks for.
    ///
    /// A record takes 32 bytes, 4 a segment and indexed export, and 12 a named export; the records' header takes 32 more, which
    /// are there whatever the limit and count towards it. Names take their bytes.
    pub fn with_limit(limit: usize) -> Linker {
        let records = vec![0; register::HEADER];
        Linker { records, names: Vec::new(), missing: vec![0; MISSING_LENGTH], limit, touch: None }
    }

    /// Sets the limit of the calls that follow. What stands is kept.
    pub fn set_limit(&mut self, limit: usize) {
        self.limit = limit;
    }

    /// Gives back the bytes that no module uses.
    pub fn shrink_to_fit(&mut self) {
        let (records, names) = self.used();
        self.cut(records, names);
        self.records.shrink_to_fit();
        self.names.shrink_to_fit();
    }

    /// What stands: the static module's base, the records without their header, the names, and the missing names.
    fn standing(&self) -> (Option<u32>, &[u8], &[u8], &[u8]) {
        let (records, names) = self.used();
        let missing = register::SLOT * register::missing_count(&self.records);
        (self.crs(), &self.records[register::HEADER..records], &self.names[..names], &self.missing[..missing])
    }

    /// Drops the bytes from these on, which no module uses.
    fn cut(&mut self, records: usize, names: usize) {
        self.records.truncate(records);
        self.names.truncate(names);
    }

    fn lend<'a>(&'a mut self, window: &'a mut Window) -> Buffers<'a> {
        let Linker { records, names, missing, .. } = self;
        Buffers { at: window.at, window: window.bytes, records, names, missing }
    }

    /// Keeps the call's touch; gives its value, or its refusal.
    fn value_of(&mut self, answer: Answer) -> Result<u32, Error> {
        self.touch = answer.touch();
        match answer.number {
            0 => Ok(answer.value),
            number => Err(Error::of(number)),
        }
    }

    /// Grows to what is used and the most that the module at this base can take, or to the limit.
    fn make_room(&mut self, window: &Window, base: u32) {
        let (records, names) = self.used();
        let (more_records, more_names) = window.most_room(base, self.limit);
        grow(&mut self.records, self.limit.min(records + more_records));
        grow(&mut self.names, self.limit.min(names + more_names));
    }

    /// Makes a call, with room for the module that it takes in, if it does. It is lent all bytes that there are, and not only as many as
    /// the image asks for, since an image may make its counts and names greater while it is rebased.
    fn call(&mut self, window: &mut Window, taken_in: Option<u32>, call: impl FnOnce(Buffers) -> Answer) -> Result<u32, Error> {
        let (records, names) = (self.records.len(), self.names.len());
        if let Some(base) = taken_in {
            self.make_room(window, base);
        }
        let answer = call(self.lend(window));
        if answer.number != 0 {
            self.cut(records, names);
        }
        self.value_of(answer)
    }

    /// Takes in the static module, whose exports every other module links against. Refused by [`Error::BadWindow`],
    /// [`Error::NotACro`] or [`Error::Full`].
    pub fn initialize(&mut self, window: &mut Window, base: u32, size: u32) -> Result<(), Error> {
        self.call(window, Some(base), |buffers| raw::initialize(buffers, base, size)).map(|_| ())
    }

    /// Rebases, relocates and links a module. Gives how much of it is left after fixing, 0 where the level fixes nothing. Refused by
    /// [`Error::BadWindow`], [`Error::NotACro`], [`Error::BadSegment`] or [`Error::Full`], tested in this order.
    pub fn load(&mut self, window: &mut Window, arguments: LoadArguments) -> Result<u32, Error> {
        let LoadArguments { base, size, data_segment, bss_segment, auto_link, fix_level } = arguments;
        let (data, bss) = (data_segment, bss_segment);
        self.call(window, Some(base), |buffers| {
            raw::load(buffers, base, size, data.at, data.size, bss.at, bss.size, auto_link as u32, fix_level)
        })
    }

    /// Takes out the first module at this base. Gives whether there was one. Refused by [`Error::BadWindow`] alone.
    pub fn unload(&mut self, window: &mut Window, base: u32) -> Result<bool, Error> {
        self.call(window, None, |buffers| raw::unload(buffers, base)).map(|value| value != 0)
    }

    /// Where the last call's first access with a byte outside the window started, in the order of accesses of the emulator that the
    /// linker was ported from; none if all lay inside, and before the first call.
    ///
    /// A word is one access, wherever its bytes lie; so is each byte of a name, the zero's included. A write counts even where
    /// it is dropped or cut. A refused call has the touches of what it did: none with [`Error::BadWindow`] and
    /// [`Error::BadRegister`], the magic with [`Error::NotACro`], what comes before the bad segment with
    /// [`Error::BadSegment`], and what comes before the module's record with [`Error::Full`].
    pub fn touch(&self) -> Option<u32> {
        self.touch
    }

    /// The static module's base, if there is one.
    pub fn crs(&self) -> Option<u32> {
        register::crs(&self.records)
    }

    /// The modules that stand, oldest first, the static one among them.
    pub fn modules(&self) -> Modules<'_> {
        Modules::new(&self.records, &self.names)
    }

    /// The names that no module provided when they were asked for, oldest first, at most 64.
    pub fn missing(&self) -> impl Iterator<Item = &[u8]> {
        register::missing(&self.records, &self.missing)
    }

    /// How many modules stand.
    pub fn len(&self) -> usize {
        register::count(&self.records)
    }

    /// Whether no module stands.
    pub fn is_empty(&self) -> bool {
        self.len() == 0
    }

    /// How many bytes of the records and of the names are in use.
    pub fn used(&self) -> (usize, usize) {
        register::used(&self.records)
    }
}

/// Makes a buffer at least so long; what is new is 0.
fn grow(buffer: &mut Vec<u8>, length: usize) {
    if buffer.len() < length {
        buffer.resize(length, 0);
    }
}

impl std::fmt::Debug for Linker {
    fn fmt(&self, f: &mut std::fmt::Formatter<'_>) -> std::fmt::Result {
        let crs = self.crs().map(|base| format!("{base:#010x}"));
        f.debug_struct("Linker").field("crs", &crs).field("modules", &self.modules().collect::<Vec<_>>()).finish()
    }
}
