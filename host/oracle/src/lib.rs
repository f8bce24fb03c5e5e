//! The Rust linker and `ldr_ro::handle` above it, compiled from their unchanged sources where they stand, over stand-ins for what they use
//! of other crates: `zakuro_common` (addresses, rounding), `zakuro_cpu` (the bus), `serde` (derives), `log` (macros), and of their own:
//! `crate::memory` and `crate::System`. Without the sources there is no oracle, and [`Oracle::new`] says so.

extern crate self as log;
extern crate self as serde;
extern crate self as zakuro_common;
extern crate self as zakuro_cpu;

pub mod memory;
mod pages;

#[cfg(sources)]
include!(concat!(env!("OUT_DIR"), "/rust.rs"));

#[cfg(sources)]
mod system;
#[cfg(sources)]
pub use system::System;

#[cfg(sources)]
#[path = "present.rs"]
mod oracle;
#[cfg(not(sources))]
#[path = "absent.rs"]
mod oracle;

pub use oracle::Oracle;

/// Whether the sources are at hand.
pub const AT_HAND: bool = cfg!(sources);

/// Whether accesses are counted and noted, which takes time.
pub const WATCHED: bool = cfg!(feature = "watched");

// zakuro_common

pub type VAddr = u32;

pub mod bits {
    pub const fn align_up(value: u32, align: u32) -> u32 {
        value.wrapping_add(align - 1) & !(align - 1)
    }
}

/// Where a thread's command buffer lies in its local storage. With 0 a command buffer's address is its own, as a request gives it.
pub mod memory_map {
    pub const TLS_IPC_COMMAND_BUFFER: u32 = 0;
    pub const TLS_IPC_STATIC_BUFFERS: u32 = 0x100;
}

// zakuro_cpu

pub trait Bus {
    fn read8(&mut self, addr: u32) -> u8;
    fn read32(&mut self, addr: u32) -> u32;
    fn write8(&mut self, addr: u32, value: u8);
    fn write32(&mut self, addr: u32, value: u32);
}

// serde: two derives that do no harm

pub use std::cmp::{Eq as Deserialize, PartialEq as Serialize};

// log: nothing is enabled, and no argument is evaluated

pub enum Level {
    Debug,
}

#[macro_export]
macro_rules! log_enabled {
    ($level:expr) => {
        matches!($level, $crate::Level::Debug) && false
    };
}

#[macro_export]
macro_rules! error {
    ($($arg:tt)*) => {
        if false {
            let _ = format_args!($($arg)*);
        }
    };
}

pub use crate::{error as debug, error as info, error as trace, error as warn};
