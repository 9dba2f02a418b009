//! The driver of the helpers on numbers.
pub mod bench;
pub mod compare;
pub mod digits;
pub mod list;
pub mod patterns;
