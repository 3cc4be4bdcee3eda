//! The questions, by what they are about.

pub mod both;
pub mod far_too_long;
pub mod pairs;
pub mod presses;
pub mod program;
pub mod records;
pub mod text;
pub mod values;
pub mod verify;
