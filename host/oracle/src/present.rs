//! The oracle where the sources are at hand.

use crate::cro::CroError;
use crate::kernel::ipc::CommandBuffer;
use crate::memory::Memory;
use crate::services::ldr_ro;
use crate::System;
use sessions::{Call, Module, State, Step};
use std::collections::BTreeMap;

pub struct Oracle {
    system: System,
}

impl Oracle {
    /// An oracle over a window, or none without the sources.
    pub fn new(at: u32, window: Vec<u8>) -> Option<Oracle> {
        Some(Oracle { system: System { memory: Memory::new(at, window), ..System::default() } })
    }

    /// Makes the call; gives the number and the value. An unload's value is told from the number of modules.
    pub fn call(&mut self, step: &Step) -> (u32, u32) {
        let (manager, memory) = (&mut self.system.cro, &mut self.system.memory);
        let modules = manager.len();
        let done = match step.call {
            Call::Initialize => manager.initialize(memory, step.base, step.size).map(|()| 0),
            Call::Load => manager.load(
                memory,
                step.base,
                step.size,
                step.data_segment,
                step.data_segment_size,
                step.bss_segment,
                step.bss_segment_size,
                step.auto_link != 0,
                step.fix_level,
            ),
            Call::Unload => {
                manager.unload(memory, step.base);
                Ok((modules - manager.len()) as u32)
            }
        };
        match done {
            Ok(value) => (0, value),
            Err(CroError::NotACro) => (1, 0),
            Err(CroError::BadSegment) => (2, 0),
            Err(CroError::Truncated) => unreachable!("the Rust never gives it"),
        }
    }

    /// Handles the command buffer at this address, which must not ask for a module at another address than its bytes. Gives whether its id
    /// is known.
    pub fn handle(&mut self, buffer: u32) -> bool {
        let command = CommandBuffer::new(buffer);
        let header = command.header(&mut self.system.memory);
        ldr_ro::handle(&mut self.system, &command, header)
    }

    pub fn window(&self) -> &[u8] {
        &self.system.memory.bytes
    }

    /// Others write the window.
    pub fn window_mut(&mut self) -> &mut [u8] {
        &mut self.system.memory.bytes
    }

    /// What stands, the names by `name`. The Rust's named exports have no order, and are sorted.
    fn state_by(&self, name: impl Fn(&str) -> Vec<u8>) -> State {
        let exports = |module: &crate::cro::Module| -> BTreeMap<Vec<u8>, u32> {
            module.exports.iter().map(|(export, &address)| (name(export), address)).collect()
        };
        let module = |module: &crate::cro::Module| Module {
            name: name(&module.name),
            base: module.base,
            size: module.size,
            auto_link: module.auto_link,
            segments: module.segments.iter().copied().take(16).collect(),
            exports: exports(module).into_iter().collect(),
            indexed_exports: module.indexed_exports.clone(),
        };
        State {
            crs: self.system.cro.crs,
            modules: self.system.cro.modules.iter().map(module).collect(),
            missing: self.system.cro.unresolved.iter().map(|missing| name(missing)).collect(),
        }
    }
}

#[cfg(not(feature = "watched"))]
impl Oracle {
    pub fn state(&self) -> State {
        self.state_by(|name| name.as_bytes().to_vec())
    }
}

#[cfg(feature = "watched")]
mod watched {
    use super::*;
    use crate::memory::{Cut, Watch};
    use std::panic::{catch_unwind, resume_unwind, AssertUnwindSafe};

    impl Oracle {
        /// Makes the call with at most so many accesses; none if it needs more. The oracle is then of no more use.
        pub fn call_within(&mut self, step: &Step, accesses: u64) -> Option<(u32, u32)> {
            self.within(accesses, |oracle| oracle.call(step))
        }

        /// The same of a command buffer.
        pub fn handle_within(&mut self, buffer: u32, accesses: u64) -> Option<bool> {
            self.within(accesses, |oracle| oracle.handle(buffer))
        }

        fn within<T>(&mut self, accesses: u64, call: impl FnOnce(&mut Oracle) -> T) -> Option<T> {
            let watch = &mut self.system.memory.watch;
            *watch = Watch { raw_names: watch.raw_names, left: accesses, ..Watch::default() };
            match catch_unwind(AssertUnwindSafe(|| call(self))) {
                Ok(answer) => Some(answer),
                Err(cause) if cause.is::<Cut>() => None,
                Err(cause) => resume_unwind(cause),
            }
        }

        /// Names are raw bytes from here on.
        pub fn keep_raw_names(&mut self) {
            self.system.memory.watch.raw_names = true;
        }

        /// What was noted of the last call.
        pub fn watch(&self) -> &Watch {
            &self.system.memory.watch
        }

        pub fn state(&self) -> State {
            match self.system.memory.watch.raw_names {
                true => self.state_by(|name| name.chars().map(|char| char as u8).collect()),
                false => self.state_by(|name| name.as_bytes().to_vec()),
            }
        }

        /// Takes back the module that the last call added, as a refusal for want of room leaves it: the window as after
        /// the external reset, all else as it was.
        pub fn refuse_last(&mut self, crs: Option<u32>, missing: usize, window: Vec<u8>) {
            self.system.memory.bytes = window;
            self.system.cro.modules.pop();
            self.system.cro.crs = crs;
            self.system.cro.unresolved.truncate(missing);
        }
    }
}
