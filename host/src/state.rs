//! Saved states: a linker's register as bytes, and a linker from them; and the same of a desk.

use crate::register::{self, HEADER, MISSING_LENGTH};
use crate::{raw, Desk, Error, Linker, Window};

/// What a saved state begins with: four bytes, the number of its form, and a checksum of the bytes behind them.
const LINKER: [u8; 4] = *b"FQHS";
const DESK: [u8; 4] = *b"FQHD";
const FORM: u32 = 1;
const START: usize = 16;

/// Why bytes are no saved state.
#[derive(Debug, Clone, Copy, PartialEq, Eq)]
#[non_exhaustive]
pub enum StateError {
    /// They do not begin as a saved state does.
    NotAState,
    /// They are in a form that this version does not know.
    UnknownForm(u32),
    /// Their own header asks for another number of bytes.
    WrongLength {
        /// How many there are.
        found: usize,
        /// How many there should be.
        expected: usize,
    },
    /// They are not those that were saved: their checksum is another.
    Damaged,
    /// The register in them is none, as where a module count is above 64 or the named exports of a module do not ascend.
    NotARegister,
}

impl std::fmt::Display for StateError {
    fn fmt(&self, f: &mut std::fmt::Formatter<'_>) -> std::fmt::Result {
        match self {
            StateError::NotAState => f.write_str("the bytes do not begin as a saved state does"),
            StateError::UnknownForm(form) => write!(f, "the saved state has form {form}, which is not known here"),
            StateError::WrongLength { found, expected } => {
                write!(f, "the saved state has {found} bytes, and its header asks for {expected}")
            }
            StateError::Damaged => f.write_str("the saved state is damaged: its checksum is another"),
            StateError::NotARegister => f.write_str("the saved state holds no register"),
        }
    }
}

impl std::error::Error for StateError {}

/// FNV-1a, which notices a changed bit; it is no protection against somebody who means to change one.
fn checksum(bytes: &[u8]) -> u64 {
    bytes.iter().fold(0xCBF2_9CE4_8422_2325, |sum: u64, &byte| (sum ^ byte as u64).wrapping_mul(0x0000_0100_0000_01B3))
}

/// These bytes, to be saved.
fn sealed(magic: [u8; 4], bytes: &[u8]) -> Vec<u8> {
    [&magic[..], &FORM.to_le_bytes(), &checksum(bytes).to_le_bytes(), bytes].concat()
}

/// The bytes that were saved, as many as they ask for themselves.
fn opened(magic: [u8; 4], saved: &[u8], asked: fn(&[u8]) -> usize) -> Result<&[u8], StateError> {
    if saved.len() < START || saved[..4] != magic {
        return Err(StateError::NotAState);
    }
    let (start, bytes) = saved.split_at(START);
    let form = u32::from_le_bytes([start[4], start[5], start[6], start[7]]);
    if form != FORM {
        return Err(StateError::UnknownForm(form));
    }
    let expected = asked(bytes);
    if bytes.len() != expected {
        return Err(StateError::WrongLength { found: saved.len(), expected: START + expected });
    }
    if start[8..] != checksum(bytes).to_le_bytes() {
        return Err(StateError::Damaged);
    }
    Ok(bytes)
}

impl Linker {
    /// The whole state as bytes, only those in use: what [`Linker::from_bytes`] takes. The limit and the last touch are not
    /// part of it, and neither is the window, which the host saves with the guest's memory.
    pub fn to_bytes(&self) -> Vec<u8> {
        let (_, records, names, missing) = self.standing();
        sealed(LINKER, &[&self.records[..HEADER], records, names, missing].concat())
    }

    /// A linker from the bytes of a saved state, with the limit of [`Linker::new`]. That the window is the one that it was saved
    /// with is for the host to see to.
    pub fn from_bytes(bytes: &[u8]) -> Result<Linker, StateError> {
        let register = opened(LINKER, bytes, register::saved_length)?;
        let (records, names) = register::used(register);
        let (records, rest) = register.split_at(records);
        let (names, missing) = rest.split_at(names);
        let mut list = missing.to_vec();
        list.resize(MISSING_LENGTH.max(list.len()), 0);
        Linker::from_buffers(records.to_vec(), names.to_vec(), list)
    }

    /// A linker over the three buffers of a register, as a host of the [`raw`] layer has them.
    pub fn from_buffers(records: Vec<u8>, names: Vec<u8>, missing: Vec<u8>) -> Result<Linker, StateError> {
        let mut linker = Linker { records, names, missing, limit: Linker::LIMIT, touch: None };
        // a page of zeros is no module, so this call tests the register and changes nothing
        let answer = raw::initialize(linker.lend(&mut Window { at: 0, bytes: &mut [0; 0x1000] }), 0, 0);
        if answer.number != Error::NotACro.number() {
            return Err(StateError::NotARegister);
        }
        Ok(linker)
    }

    /// The three buffers: records, names, missing names. Those of [`Linker::from_buffers`], as the calls left them.
    pub fn buffers(&self) -> (&[u8], &[u8], &[u8]) {
        (&self.records, &self.names, &self.missing)
    }
}

impl Desk {
    /// What waits as bytes: what [`Desk::from_bytes`] takes. The command buffers themselves are the guest's memory.
    pub fn to_bytes(&self) -> Vec<u8> {
        sealed(DESK, self.buffer())
    }

    /// A desk from the bytes of a saved state.
    pub fn from_bytes(bytes: &[u8]) -> Result<Desk, StateError> {
        let desk = opened(DESK, bytes, |_| Desk::LENGTH)?;
        Ok(Desk::from_buffer(desk.try_into().expect("they are as many")))
    }
}
