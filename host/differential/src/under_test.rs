//! The linker under test: the three calls over a window and a register, by the library's own functions or, where the register
//! grows, by the host's wrapper.

use crate::needed::Needed;
use fillqhano::raw::{self, Answer, Turned};
use fillqhano::{Desk, Linker, Window, MISSING_LENGTH};
use sessions::{Call, Module, Room, Session, State, Step};

/// The buffers that a session lends.
#[derive(Clone, PartialEq, Eq)]
pub struct Buffers {
    pub at: u32,
    pub window: Vec<u8>,
    pub records: Vec<u8>,
    pub names: Vec<u8>,
    pub missing: Vec<u8>,
    /// The wrapper's limit, where it makes the calls.
    pub limit: Option<usize>,
}

impl Buffers {
    pub fn new(at: u32, window: Vec<u8>, records: usize, names: usize) -> Buffers {
        let missing = vec![0; MISSING_LENGTH];
        Buffers { at, window, records: vec![0; records], names: vec![0; names], missing, limit: None }
    }

    /// Those that a session begins with.
    pub fn of(session: &Session) -> Buffers {
        let (at, window) = (session.at, session.window.clone());
        match session.room {
            Room::Bytes { records, names } => Buffers::new(at, window, records, names),
            Room::Growing { limit } => Buffers { limit: Some(limit), ..Buffers::new(at, window, 32, 0) },
        }
    }

    pub fn call(&mut self, step: &Step) -> Answer {
        match self.limit {
            None => self.call_library(step),
            Some(limit) => self.call_wrapper(step, limit),
        }
    }

    fn call_library(&mut self, step: &Step) -> Answer {
        let lent = self.lend();
        let &Step { base, size, data_segment, data_segment_size, bss_segment, bss_segment_size, .. } = step;
        let (data, bss) = ((data_segment, data_segment_size), (bss_segment, bss_segment_size));
        match step.call {
            Call::Initialize => raw::initialize(lent, base, size),
            Call::Load => raw::load(lent, base, size, data.0, data.1, bss.0, bss.1, step.auto_link, step.fix_level),
            Call::Unload => raw::unload(lent, base),
        }
    }

    fn call_wrapper(&mut self, step: &Step, limit: usize) -> Answer {
        self.by_wrapper(limit, |linker, window| step.call(linker, window))
    }

    fn lend(&mut self) -> raw::Buffers<'_> {
        let Buffers { at, window, records, names, missing, .. } = self;
        raw::Buffers { at: *at, window, records, names, missing }
    }

    fn by_wrapper<T>(&mut self, limit: usize, call: impl FnOnce(&mut Linker, &mut Window) -> T) -> T {
        let mut linker = self.linker().expect("every call leaves a register");
        linker.set_limit(limit);
        let answer = call(&mut linker, &mut Window { at: self.at, bytes: &mut self.window });
        let (records, names, missing) = linker.buffers();
        (self.records, self.names, self.missing) = (records.to_vec(), names.to_vec(), missing.to_vec());
        answer
    }

    /// A turn of the desk.
    pub fn turn(&mut self, desk: &mut [u8]) -> Turned {
        match self.limit {
            None => raw::turn(self.lend(), desk),
            Some(limit) => self.turn_wrapper(desk, limit),
        }
    }

    fn turn_wrapper(&mut self, bytes: &mut [u8], limit: usize) -> Turned {
        let mut desk = Desk::from_buffer((&*bytes).try_into().expect("a desk has so many bytes"));
        let turned = self.by_wrapper(limit, |linker, window| {
            let served = desk.turn(linker, window).expect("the window is one");
            served.map_or(Turned::default(), |served| {
                let (number, value) = served.result.map_or_else(|error| (error.number(), 0), |value| (0, value));
                let Answer { touched, first, .. } = Answer::new(number, value, linker.touch());
                let answered = if served.answered { 1 } else { 2 };
                Turned { number, value, served: answered, caller: served.caller, buffer: served.buffer, touched, first }
            })
        });
        bytes.copy_from_slice(desk.buffer());
        turned
    }

    /// The bytes of records and of names that a call is lent. Where they grow: to what is used, the most that the module needs,
    /// and a page.
    pub fn lent(&self, step: &Step) -> (usize, usize) {
        let (records, names) = (self.records.len(), self.names.len());
        let Some(limit) = self.limit else {
            return (records, names);
        };
        let used = self.linker().expect("every call leaves a register").used();
        let needed = Needed::of(self.at, &self.window, step.base, step.base);
        let grown = |used: usize, more: usize| limit.min(used + more + 0x1000);
        (records.max(grown(used.0, needed.records())), names.max(grown(used.1, needed.names())))
    }

    pub fn register(&self) -> (&[u8], &[u8], &[u8]) {
        (&self.records, &self.names, &self.missing)
    }

    /// The host's wrapper over a copy of the register; none if it is no register.
    pub fn linker(&self) -> Option<Linker> {
        Linker::from_buffers(self.records.clone(), self.names.clone(), self.missing.clone()).ok()
    }
}

/// What the wrapper reads.
pub fn state(linker: &Linker) -> State {
    let modules = linker.modules().map(|module| Module {
        name: module.name().to_vec(),
        base: module.base(),
        size: module.size(),
        auto_link: module.auto_link(),
        segments: module.segments().collect(),
        exports: module.exports().map(|(name, address)| (name.to_vec(), address)).collect(),
        indexed_exports: module.indexed_exports().collect(),
    });
    State { crs: linker.crs(), modules: modules.collect(), missing: linker.missing().map(<[u8]>::to_vec).collect() }
}
