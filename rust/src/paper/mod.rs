//! The paper and its requests in plain Rust, in the order of its headings. Nothing here was taken from the proved code.

#![forbid(unsafe_code)]

pub mod address;
pub mod change;
pub mod checksum;
pub mod class;
pub mod extended;
pub mod groups;
pub mod hear;
pub mod lamp;
pub mod links;
pub mod load;
pub mod message;
pub mod module;
pub mod reply;
pub mod sockets;
pub mod standard;
pub mod step;

pub use address::Address;
pub use class::class_step;
pub use module::{Identity, Load, Module, ModuleKind, BENCH};
pub use step::{step, Outcome};

/// "The program": the longest reply, an ACK and 256 records.
pub const LONGEST_REPLY: usize = 5897;
