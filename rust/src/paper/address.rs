//! "Message bytes": who sends, and to whom.

pub type Address = [u8; 3];
