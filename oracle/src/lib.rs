//! What the drivers share: the calls of the proved functions, random numbers, and a module for each driver.
pub mod calls;
/// Left out where the given Rust is not at hand.
#[cfg(given)]
pub mod geometry;
pub mod random;
pub mod root;
