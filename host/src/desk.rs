//! The service desk: callers' queues of command buffers, of which a turn serves one.

use crate::raw::{self, Turned};
use crate::{Error, Linker, Window};

/// The words of a desk's bytes before its places, and those of a place: its caller, how many buffers wait, their addresses.
const FIRST_PLACE: usize = 4;
const PLACE_WORDS: usize = 2 + Desk::WAITING;

/// Titles' commands to the linker, waiting: up to 8 callers, each with up to 16 command buffers. Desks are equal if the same waits at them, in
/// the same turn.
///
/// A caller is any number that the host tells titles apart by. It gets a place when it first sends, and keeps it. A command buffer is an
/// address in the window. Its words are those that a title hands to `ldr:ro` (a header with the id 1 to 9, then parameters), they are read in
/// its turn and not when it is sent, and the reply is written over them.
///
/// ```
/// use fillqhano::{Desk, Error, Linker, Window};
///
/// // A module at 0x100000, and at 0x101000 the command that loads it: auto-link, fix level 1.
/// let mut memory = vec![0u8; 0x2000];
/// memory[0x80..0x84].copy_from_slice(b"CRO0");
/// memory[0xB0..0xB4].copy_from_slice(&0x138u32.to_le_bytes());
/// memory[0xB4..0xB8].copy_from_slice(&0x10u32.to_le_bytes());
/// let command = [0x0004_02C2u32, 0x100000, 0, 0x1000, 0, 0, 0, 0, 0, 1, 1];
/// for (word, place) in command.iter().zip(memory[0x1000..].chunks_mut(4)) {
///     place.copy_from_slice(&word.to_le_bytes());
/// }
///
/// let mut linker = Linker::new();
/// let mut window = Window { at: 0x100000, bytes: &mut memory };
/// let mut desk = Desk::new();
/// desk.send(7, 0x101000)?;
/// let served = desk.turn(&mut linker, &mut window)?.expect("a buffer waits");
/// assert_eq!((served.caller, served.buffer, served.result), (7, 0x101000, Ok(0x1000)));
/// assert_eq!(window.bytes[0x1000..0x1004], 0x0004_0080u32.to_le_bytes());
/// assert!(desk.turn(&mut linker, &mut window)?.is_none());
/// # Ok::<(), Error>(())
/// ```
#[derive(Clone)]
pub struct Desk {
    bytes: [u8; Desk::LENGTH],
}

/// A caller's place at a desk.
#[derive(Clone, Copy)]
pub struct Place<'a> {
    words: &'a [u8],
}

/// What a turn served.
#[derive(Debug, Clone, Copy, PartialEq, Eq)]
pub struct Served {
    /// Whose buffer it was: whom the host wakes.
    pub caller: u32,
    /// Where it is.
    pub buffer: u32,
    /// Whether a reply was written. To an id outside 1 to 9 none is.
    pub answered: bool,
    /// A load's fixed size, 1 for an unload that took a module out, else 0. Or why an initialize or load was refused: by [`Error::NotACro`],
    /// [`Error::BadSegment`] or [`Error::Full`], with what the call itself leaves then, or by [`Error::Elsewhere`]. The reply has the
    /// error word 0xD9012402 then.
    pub result: Result<u32, Error>,
}

impl Desk {
    /// A desk's bytes.
    pub const LENGTH: usize = 592;
    /// The most callers that have a place.
    pub const PLACES: usize = 8;
    /// The most buffers of one caller that wait.
    pub const WAITING: usize = 16;

    /// A desk at which nobody has a place.
    pub fn new() -> Desk {
        Desk::from_buffer([0; Desk::LENGTH])
    }

    /// A desk over its bytes, as a host of the [`raw`] layer has them. Any bytes are some desk: a count above its limit is the limit.
    pub fn from_buffer(bytes: [u8; Desk::LENGTH]) -> Desk {
        Desk { bytes }
    }

    /// Its bytes: those of [`Desk::from_buffer`], as the calls left them.
    pub fn buffer(&self) -> &[u8; Desk::LENGTH] {
        &self.bytes
    }

    /// Puts a command buffer at the end of its caller's queue. Nothing of it is looked at, and it may wait twice. Refused by
    /// [`Error::DeskFull`] alone.
    pub fn send(&mut self, caller: u32, buffer: u32) -> Result<(), Error> {
        match raw::send(&mut self.bytes, caller, buffer).0 {
            0 => Ok(()),
            number => Err(Error::of(number)),
        }
    }

    /// Serves one command buffer, the oldest of the caller whose turn it is: callers take turns in the order of their first sending, and
    /// those with nothing waiting are passed over, so a waiting one is served within 8 turns that are not refused. Gives whom to wake, or nothing where no
    /// buffer waits. Refused by [`Error::BadWindow`] alone: the buffer then waits on, and it is still that caller's turn.
    ///
    /// The linker makes room for a module as in its own calls, and its [`touch`](Linker::touch) is that of the call that was made, none
    /// without one; the desk's accesses to the command buffer are no touches.
    pub fn turn(&mut self, linker: &mut Linker, window: &mut Window) -> Result<Option<Served>, Error> {
        let taken_in = self.next_served().and_then(|(_, buffer)| module_taken_in(window, buffer));
        let mut turned = Turned::default();
        let result = linker.call(window, taken_in, |buffers| {
            turned = raw::turn(buffers, &mut self.bytes);
            turned.answer()
        });
        let Turned { served, caller, buffer, .. } = turned;
        match served {
            0 => result.map(|_| None),
            _ => Ok(Some(Served { caller, buffer, answered: served == 1, result })),
        }
    }

    /// Whom the next turn serves: the caller, and its buffer; none where nothing waits.
    pub fn next_served(&self) -> Option<(u32, u32)> {
        let waiting = |place: Place<'_>| Some((place.caller(), place.waiting().next()?));
        self.places().skip(self.next()).find_map(waiting).or_else(|| self.places().find_map(waiting))
    }

    /// The callers that have a place, in the order of their first sending.
    pub fn places(&self) -> impl ExactSizeIterator<Item = Place<'_>> {
        let taken = (word(&self.bytes, 0) as usize).min(Desk::PLACES);
        self.bytes[4 * FIRST_PLACE..].chunks_exact(4 * PLACE_WORDS).take(taken).map(|words| Place { words })
    }

    /// How many command buffers wait, of all callers.
    pub fn waiting(&self) -> usize {
        self.places().map(|place| place.waiting().len()).sum()
    }

    /// The place that the next turn looks at first.
    fn next(&self) -> usize {
        (word(&self.bytes, 1) as usize).min(Desk::PLACES)
    }
}

impl<'a> Place<'a> {
    /// Whose it is.
    pub fn caller(&self) -> u32 {
        word(self.words, 0)
    }

    /// The addresses of the command buffers that wait, the oldest first.
    pub fn waiting(&self) -> impl ExactSizeIterator<Item = u32> + 'a {
        let words = self.words;
        (2..2 + (word(words, 1) as usize).min(Desk::WAITING)).map(move |index| word(words, index))
    }
}

fn word(bytes: &[u8], index: usize) -> u32 {
    u32::from_le_bytes(std::array::from_fn(|byte| bytes[4 * index + byte]))
}

/// The base of the module that the command there would take in, if it is an initialize or a load of one that runs where its bytes are.
fn module_taken_in(window: &Window, buffer: u32) -> Option<u32> {
    let word = |index: u32| window.word(buffer.wrapping_add(4 * index));
    let address = match word(0) >> 16 {
        1 => word(3),
        4 | 9 => word(2),
        _ => return None,
    };
    let source = word(1);
    (address == 0 || address == source).then_some(source)
}

impl Default for Desk {
    fn default() -> Self {
        Desk::new()
    }
}

impl PartialEq for Desk {
    fn eq(&self, other: &Desk) -> bool {
        self.next() == other.next() && self.places().eq(other.places())
    }
}

impl Eq for Desk {}

impl PartialEq for Place<'_> {
    fn eq(&self, other: &Place) -> bool {
        self.caller() == other.caller() && self.waiting().eq(other.waiting())
    }
}

impl Eq for Place<'_> {}

impl std::fmt::Debug for Place<'_> {
    fn fmt(&self, f: &mut std::fmt::Formatter<'_>) -> std::fmt::Result {
        write!(f, "caller {}: {:x?}", self.caller(), self.waiting().collect::<Vec<_>>())
    }
}

impl std::fmt::Debug for Desk {
    fn fmt(&self, f: &mut std::fmt::Formatter<'_>) -> std::fmt::Result {
        f.debug_struct("Desk").field("next", &self.next_served()).field("places", &self.places().collect::<Vec<_>>()).finish()
    }
}
