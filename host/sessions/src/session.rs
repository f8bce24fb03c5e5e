//! A session: a window, a register's room, and calls. As a file it is what the session program reads.

#[derive(Debug, Clone, Copy, PartialEq, Eq, Default)]
pub enum Call {
    #[default]
    Initialize,
    Load,
    Unload,
}

#[derive(Debug, Clone, Copy, PartialEq, Eq, Default)]
pub struct Step {
    pub call: Call,
    pub base: u32,
    pub size: u32,
    pub data_segment: u32,
    pub data_segment_size: u32,
    pub bss_segment: u32,
    pub bss_segment_size: u32,
    pub auto_link: u32,
    pub fix_level: u32,
}

impl Step {
    pub fn initialize(base: u32, size: u32) -> Step {
        Step { call: Call::Initialize, base, size, ..Step::default() }
    }

    pub fn unload(base: u32) -> Step {
        Step { call: Call::Unload, base, ..Step::default() }
    }

    fn words(&self) -> [u32; 9] {
        let call = match self.call {
            Call::Initialize => 1,
            Call::Load => 2,
            Call::Unload => 3,
        };
        [
            call,
            self.base,
            self.size,
            self.data_segment,
            self.data_segment_size,
            self.bss_segment,
            self.bss_segment_size,
            self.auto_link,
            self.fix_level,
        ]
    }

    fn of(words: [u32; 9]) -> Option<Step> {
        let call = match words[0] {
            1 => Call::Initialize,
            2 => Call::Load,
            3 => Call::Unload,
            _ => return None,
        };
        let [_, base, size, data_segment, data_segment_size, bss_segment, bss_segment_size, auto_link, fix_level] = words;
        Some(Step { call, base, size, data_segment, data_segment_size, bss_segment, bss_segment_size, auto_link, fix_level })
    }
}

/// What the register has room for.
#[derive(Debug, Clone, Copy, PartialEq, Eq)]
pub enum Room {
    /// So many bytes of records and of names.
    Bytes { records: usize, names: usize },
    /// What each module needs: the calls are made by the host's wrapper, which grows its buffers up to this limit.
    Growing { limit: usize },
}

impl Room {
    /// What the session program gives.
    pub const PROGRAM: Room = Room::Bytes { records: 16_384, names: 16_384 };
}

#[derive(Debug, Clone, PartialEq, Eq)]
pub struct Session {
    /// The window's address and bytes.
    pub at: u32,
    pub window: Vec<u8>,
    pub room: Room,
    pub steps: Vec<Step>,
}

impl Session {
    /// The session as the session program's input: five words, the steps, the window. The register's room is not in it.
    pub fn to_file(&self) -> Vec<u8> {
        let steps = self.steps.len() as u32;
        let head = [steps, 20, self.at, self.window.len() as u32, 20 + 36 * steps];
        let words = head.into_iter().chain(self.steps.iter().flat_map(Step::words));
        words.flat_map(u32::to_le_bytes).chain(self.window.iter().copied()).collect()
    }

    /// A session from such a file.
    pub fn from_file(file: &[u8]) -> Option<Session> {
        let word = |at: usize| Some(u32::from_le_bytes(file.get(at..at + 4)?.try_into().ok()?));
        let (count, table) = (word(0)? as usize, word(4)? as usize);
        let (at, length, bytes) = (word(8)?, word(12)? as usize, word(16)? as usize);
        let mut steps = Vec::new();
        for step in 0..count {
            let mut words = [0; 9];
            for (index, value) in words.iter_mut().enumerate() {
                *value = word(table + 36 * step + 4 * index)?;
            }
            steps.push(Step::of(words)?);
        }
        let window = file.get(bytes..bytes + length)?.to_vec();
        Some(Session { at, window, room: Room::PROGRAM, steps })
    }
}

#[cfg(test)]
mod tests {
    use super::*;

    #[test]
    fn a_session_is_read_back() {
        let load = Step { call: Call::Load, base: 0x10_0000, size: 0x1000, fix_level: 1, auto_link: 1, ..Step::initialize(0, 0) };
        let steps = vec![Step::unload(0x10_0000), load];
        let window = (0..0x1000).map(|at| at as u8).collect();
        let session = Session { at: 0x10_0000, window, room: Room::PROGRAM, steps };
        let file = session.to_file();
        assert_eq!(file.len(), 20 + 2 * 36 + 0x1000);
        assert_eq!(file[..8], [2, 0, 0, 0, 20, 0, 0, 0]);
        assert_eq!(Session::from_file(&file), Some(session));
        assert_eq!(Session::from_file(&file[..file.len() - 1]), None);
    }
}
