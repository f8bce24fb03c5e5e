//! Why a call is refused.

/// Why a call was refused. The register is then as it was.
#[derive(Debug, Clone, Copy, PartialEq, Eq, Hash)]
#[non_exhaustive]
pub enum Error {
    /// The magic is neither CRO0 nor CRS0. Nothing has changed.
    NotACro,
    /// A segment does not fit its place. The window has been written up to there, so before another try the host has to put the
    /// image's bytes back as they were: else it may be accepted, with offsets that were moved twice.
    BadSegment,
    /// The window's address or length is no multiple of 4,096, or it is empty or passes 2^32. Nothing has changed.
    BadWindow,
    /// The register's buffers are no register. Nothing has changed. A [`Linker`](crate::Linker)'s own are always one.
    BadRegister,
    /// One of three: 64 modules stand; the module's record or its names would pass the linker's
    /// [limit](crate::Linker::with_limit); or the image rewrites its own counts, or the names of its exports, while it is
    /// rebased, so that it needs more room than the linker had seen to. A module as it should be does not do that.
    ///
    /// The window has been written: the module is rebased and its imports are reset, but it is not linked. So before the call
    /// is made again, as with a greater limit or after an unload, the host has to put the image's bytes back as they were, and
    /// those of its data if a relocation lies there: else it may be accepted, with offsets that were moved twice.
    Full,
    /// A command buffer was sent by a ninth caller, or by one with 16 waiting. The desk has not changed.
    DeskFull,
    /// A command asks for a module at another address than that of its bytes. No call was made; it was answered with the error word,
    /// and its buffer waits no more.
    Elsewhere,
}

impl Error {
    /// The number of this refusal.
    pub fn number(self) -> u32 {
        match self {
            Error::NotACro => 1,
            Error::BadSegment => 2,
            Error::BadWindow => 3,
            Error::BadRegister => 4,
            Error::Full => 5,
            Error::DeskFull => 8,
            Error::Elsewhere => 9,
        }
    }

    /// The refusal of a number that is not 0. Panics if there is none: the library is then of another version.
    pub(crate) fn of(number: u32) -> Error {
        match number {
            1 => Error::NotACro,
            2 => Error::BadSegment,
            3 => Error::BadWindow,
            4 => Error::BadRegister,
            5 => Error::Full,
            8 => Error::DeskFull,
            9 => Error::Elsewhere,
            _ => panic!("the linker answered {number}, which this wrapper does not know"),
        }
    }
}

impl std::fmt::Display for Error {
    fn fmt(&self, f: &mut std::fmt::Formatter<'_>) -> std::fmt::Result {
        f.write_str(match self {
            Error::NotACro => "no CRO or CRS module",
            Error::BadSegment => "a segment does not fit its place",
            Error::BadWindow => "the window is not whole pages",
            Error::BadRegister => "the buffers are no register",
            Error::Full => "64 modules stand, or there is no room for the module's record or its names",
            Error::DeskFull => "8 others have the desk's places, or 16 buffers of the caller wait",
            Error::Elsewhere => "the module is to run at another address",
        })
    }
}

impl std::error::Error for Error {}

#[cfg(test)]
mod tests {
    use super::*;

    #[test]
    fn a_number_is_that_of_its_refusal() {
        for number in [1, 2, 3, 4, 5, 8, 9] {
            assert_eq!(Error::of(number).number(), number);
        }
    }

    #[test]
    #[should_panic(expected = "the linker answered 6,")]
    fn an_unknown_number_is_no_refusal() {
        Error::of(6);
    }
}
