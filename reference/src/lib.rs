//! An independent second implementation of the machine that the scope document describes,
//! written in plain Rust over a machine lent by `&mut`.
//!
//! The modules, in the order of the scope document's sections: `machine` and `sound`, `answers` and `entries`,
//! `instructions` and `step`, `calls`, `image`, `bench`. `generate` stands beside them: it makes images.

pub mod answers;
pub mod bench;
pub mod calls;
pub mod entries;
pub mod generate;
pub mod image;
pub mod instructions;
pub mod machine;
pub mod sound;
pub mod step;

pub use answers::Answer;
pub use bench::{bench, bench_text};
pub use calls::{call_name, error_name};
pub use entries::{call, check, message, run, step};
pub use image::{judge, load, Broken, Judged, Loaded, Rule};
pub use instructions::{decode, encode, Instruction};
pub use machine::{
    Deal, Guest, Handle, Inbox, Kind, Machine, Mode, PageId, PageRecord, Registers, Transaction, VmId, VmSet,
};
pub use sound::is_sound;
pub use step::{advance, Did, Fault, Miss};
