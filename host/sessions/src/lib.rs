//! Sessions of calls, for the runs that compare and time the linker: images of modules, sessions, and what stands after a
//! call in a form that both sides can give.

pub mod desk;
pub mod image;
mod linker;
pub mod modules;
mod random;
mod session;
mod state;

pub use random::Random;
pub use session::{Call, Room, Session, Step};
pub use state::{Module, State};
