//! The rules in plain Rust, the library behind its C interface, and circuits to hold one against the other.

pub mod images;
pub mod independent;
pub mod known;
pub mod linked;
pub mod texts;
pub mod written;
