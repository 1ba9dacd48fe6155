//! Random scenes and classes, and random messages that suit them, so that every result and every command comes up often.

mod class;
mod direct;
mod groups;
mod message;
mod modules;
mod people;
mod room;
mod scene;
mod seat;
mod stream;

pub use class::Class;
pub use message::message;
pub use room::room_length;
pub use scene::Scene;
pub use seat::Seat;
pub use stream::{pieces, stream, that_fits};
