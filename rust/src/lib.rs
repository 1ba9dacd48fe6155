//! The paper "The bench dimmer" read a second time, apart from the proved code, and what it takes to hold the two side by side.
//!
//! - `paper`: the second reading, from the paper's words and what was decided on its open points
//! - `library`, `program`: the proved code, as a call and as programs `bench` and `classroom`
//! - `random`, `messages`, `tally`: what is sent to both, and how often what came up
//! - `left`: all that a call leaves behind
//! - `framing`: modem frames, for the tests of the program
//! - `example`, `class_example`: a message to a module or to a class, and all that it must come to
//!
//! `cargo test` compares, `cargo run --release --bin speed` measures; both in this folder.

#![deny(unsafe_code)]

pub mod class_example;
pub mod example;
pub mod framing;
pub mod left;
pub mod library;
pub mod messages;
pub mod paper;
pub mod program;
pub mod random;
pub mod tally;
