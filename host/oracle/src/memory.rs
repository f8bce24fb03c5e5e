//! Memory by document 01's rules of the window: a flat run of readable and writable pages. Bytes outside read as 0, an
//! ordinary write drops them, a privileged one stops at the first.

use crate::Bus;

pub use crate::pages::{physical, MemoryRegion, MemoryState, Permission};

#[derive(Default)]
pub struct Memory {
    at: u32,
    pub(crate) bytes: Vec<u8>,
    pub phys: physical::PhysicalMemory,
    #[cfg(feature = "watched")]
    pub(crate) watch: Watch,
}

/// What is noted of a call.
#[cfg(feature = "watched")]
#[derive(Default)]
pub struct Watch {
    /// Names are kept as raw bytes, a character a byte, as document 01 has them.
    pub raw_names: bool,
    /// How many accesses are left before the call is cut.
    pub left: u64,
    /// A name was not valid UTF-8.
    pub odd_name: bool,
    /// A 0 was read, right after the byte before it, where the end mark of the first entry of a batch from 0xFFFF3FF4 up would
    /// be, so that such a batch may have been walked further.
    pub high_batch: bool,
    /// Where the last single byte, not of a name, was read.
    pub last_byte: Option<u32>,
    /// The window when the first name was read. A load reads its exports' names and its own first, and nothing is written
    /// between the external reset and them.
    pub after_reset: Option<Vec<u8>>,
    /// The accesses with a byte outside the window, in their order. The lines that go to a log make none: no argument of
    /// theirs is evaluated (see `log` in lib.rs).
    pub outside: Vec<Outside>,
}

#[cfg(feature = "watched")]
impl Watch {
    /// The call's touch: where the first access outside started.
    pub fn touch(&self) -> Option<u32> {
        self.outside.first().map(|access| access.start)
    }
}

/// An access with a byte outside the window: where it starts, and its first byte outside.
#[cfg(feature = "watched")]
#[derive(Debug, Clone, Copy)]
pub struct Outside {
    pub start: u32,
    pub byte: u32,
    pub kind: Kind,
}

/// What an access does.
#[derive(Debug, Clone, Copy, PartialEq, Eq)]
pub enum Kind {
    Read,
    NameByte,
    Write,
}

/// What a call is ended with when no access is left.
#[cfg(feature = "watched")]
pub struct Cut;

#[cfg(feature = "watched")]
impl Memory {
    /// Counts an access, and notes it if one of its bytes is outside.
    fn access(&mut self, start: u32, bytes: usize, kind: Kind) {
        if self.watch.left == 0 {
            std::panic::resume_unwind(Box::new(Cut));
        }
        self.watch.left -= 1;
        let mut addresses = (0..bytes).map(|index| start.wrapping_add(index as u32));
        if let Some(byte) = addresses.find(|&address| self.place(address) >= self.bytes.len()) {
            self.watch.outside.push(Outside { start, byte, kind });
        }
    }

    fn note_byte(&mut self, addr: u32, byte: u8) {
        let next = self.watch.last_byte.replace(addr) == Some(addr.wrapping_sub(1));
        self.watch.high_batch |= next && byte == 0 && addr.wrapping_sub(5) >= 0xFFFF_3FF4;
    }

    fn note_name(&mut self) {
        if self.watch.after_reset.is_none() {
            self.watch.after_reset = Some(self.bytes.clone());
        }
    }

    fn text(&mut self, bytes: &[u8]) -> String {
        self.watch.odd_name |= std::str::from_utf8(bytes).is_err();
        if self.watch.raw_names {
            return bytes.iter().map(|&byte| byte as char).collect();
        }
        String::from_utf8_lossy(bytes).into_owned()
    }
}

#[cfg(not(feature = "watched"))]
impl Memory {
    #[inline(always)]
    fn access(&mut self, _: u32, _: usize, _: Kind) {}

    #[inline(always)]
    fn note_byte(&mut self, _: u32, _: u8) {}

    #[inline(always)]
    fn note_name(&mut self) {}

    fn text(&mut self, bytes: &[u8]) -> String {
        String::from_utf8_lossy(bytes).into_owned()
    }
}

impl Memory {
    pub fn new(at: u32, bytes: Vec<u8>) -> Memory {
        Memory {
            at,
            bytes,
            phys: physical::PhysicalMemory,
            #[cfg(feature = "watched")]
            watch: Watch::default(),
        }
    }

    #[inline(always)]
    fn place(&self, addr: u32) -> usize {
        addr.wrapping_sub(self.at) as usize
    }

    /// The four bytes of a word that lies inside.
    #[inline(always)]
    fn whole(&mut self, addr: u32) -> Option<&mut [u8; 4]> {
        let place = self.place(addr);
        self.bytes.get_mut(place..place + 4)?.try_into().ok()
    }

    fn byte(&mut self, addr: u32) -> Option<&mut u8> {
        let place = self.place(addr);
        self.bytes.get_mut(place)
    }

    #[inline(always)]
    fn byte_or_0(&mut self, addr: u32) -> u8 {
        self.byte(addr).map_or(0, |byte| *byte)
    }

    /// One access, as a word is.
    pub fn read_bytes(&mut self, vaddr: u32, out: &mut [u8]) {
        self.access(vaddr, out.len(), Kind::Read);
        for (i, byte) in out.iter_mut().enumerate() {
            *byte = self.byte_or_0(vaddr.wrapping_add(i as u32));
        }
    }

    /// An access a byte, the zero's among them.
    pub fn read_cstring(&mut self, vaddr: u32, max: usize) -> String {
        self.note_name();
        let mut bytes = Vec::new();
        for i in 0..max {
            let addr = vaddr.wrapping_add(i as u32);
            self.access(addr, 1, Kind::NameByte);
            let b = self.byte_or_0(addr);
            if b == 0 {
                break;
            }
            bytes.push(b);
        }
        self.text(&bytes)
    }

    pub fn write32_privileged(&mut self, vaddr: u32, value: u32) -> bool {
        self.access(vaddr, 4, Kind::Write);
        if let Some(word) = self.whole(vaddr) {
            *word = value.to_le_bytes();
            return true;
        }
        for (i, byte) in value.to_le_bytes().into_iter().enumerate() {
            let Some(place) = self.byte(vaddr.wrapping_add(i as u32)) else {
                return false;
            };
            *place = byte;
        }
        true
    }
}

impl Bus for Memory {
    #[inline(always)]
    fn read8(&mut self, addr: u32) -> u8 {
        self.access(addr, 1, Kind::Read);
        let byte = self.byte_or_0(addr);
        self.note_byte(addr, byte);
        byte
    }

    #[inline(always)]
    fn read32(&mut self, addr: u32) -> u32 {
        self.access(addr, 4, Kind::Read);
        if let Some(word) = self.whole(addr) {
            return u32::from_le_bytes(*word);
        }
        u32::from_le_bytes(std::array::from_fn(|i| self.byte_or_0(addr.wrapping_add(i as u32))))
    }

    #[inline(always)]
    fn write8(&mut self, addr: u32, value: u8) {
        self.access(addr, 1, Kind::Write);
        if let Some(byte) = self.byte(addr) {
            *byte = value;
        }
    }

    #[inline(always)]
    fn write32(&mut self, addr: u32, value: u32) {
        self.access(addr, 4, Kind::Write);
        if let Some(word) = self.whole(addr) {
            *word = value.to_le_bytes();
            return;
        }
        for (i, byte) in value.to_le_bytes().into_iter().enumerate() {
            if let Some(place) = self.byte(addr.wrapping_add(i as u32)) {
                *place = byte;
            }
        }
    }
}
