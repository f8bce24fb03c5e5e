//! Of the Rust's system what `ldr_ro` uses.

use crate::cro::CroManager;
use crate::memory::Memory;

/// Nothing is recompiled.
#[derive(Default)]
pub struct System {
    pub memory: Memory,
    pub cro: CroManager,
    pub recompiled: Option<Library>,
}

/// The recompiled code of a title: there is none.
pub enum Library {}

impl Library {
    pub fn place(&mut self, _: &str, _: u32, _: &mut Memory) {
        match *self {}
    }
}
