//! The linker and the Rust on the same sessions, all that they leave compared call by call; the desk and the Rust on the same requests; and the
//! writer against its text.

pub mod cases;
pub mod compare;
pub mod desk;
pub mod encoding;
pub mod families;
pub mod faults;
pub mod history;
mod needed;
pub mod shrink;
pub mod stored;
pub mod text;
mod touches;
pub mod under_test;
pub mod writer;
