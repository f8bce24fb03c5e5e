//! What `ldr_ro` uses of pages and physical memory for a module that is to run at another address than its bytes. The runs ask for none, so none of
//! this is reached; it is here so that the unchanged source compiles.

use crate::memory::Memory;
use std::ops::BitOr;

pub mod physical {
    #[derive(Debug, Clone, Copy, PartialEq, Eq)]
    pub struct PhysicalBlock {
        pub addr: u32,
        pub size: u32,
    }

    #[derive(Default)]
    pub struct PhysicalMemory;

    impl PhysicalMemory {
        pub fn allocate(&mut self, _: super::MemoryRegion, _: u32) -> Option<PhysicalBlock> {
            super::not_reached()
        }

        pub fn free(&mut self, _: PhysicalBlock) {
            super::not_reached()
        }
    }
}

pub enum MemoryRegion {
    System,
}

pub enum MemoryState {
    Code,
}

pub struct Permission;

impl Permission {
    pub const RW: Permission = Permission;
    pub const EXECUTE: Permission = Permission;
}

impl BitOr for Permission {
    type Output = Permission;

    fn bitor(self, _: Permission) -> Permission {
        self
    }
}

impl Memory {
    pub fn map(&mut self, _: u32, _: u32, _: u32, _: Permission, _: MemoryState) {
        not_reached()
    }

    pub fn unmap(&mut self, _: u32, _: u32) {
        not_reached()
    }

    pub fn mirror(&mut self, _: u32, _: u32, _: u32) -> bool {
        not_reached()
    }

    pub fn write_bytes(&mut self, _: u32, _: &[u8]) {
        not_reached()
    }

    pub fn write_physical(&mut self, _: u32, _: &[u8]) -> bool {
        not_reached()
    }
}

fn not_reached() -> ! {
    unreachable!("no module is asked to run at another address")
}
