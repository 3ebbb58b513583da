//! The text form of images, for people who write guests by hand: text to image (`asm`), image to
//! text (`dis`), and the bench program's lines to sentences (`explain`).
//!
//! Instructions, image rules and names of calls and errors come from the reference; nothing of
//! them is decided here.

pub mod asm;
pub mod dis;
pub mod explain;
pub mod names;
pub mod numbers;
pub mod operands;
pub mod program;
pub mod samples;
mod spelling;
pub mod statements;
pub mod values;
