//! The given Rust, where it is at hand: its own module tree, over a stand-in for glam. The files are those that were
//! given, unchanged; what they name and was not given, or is not compiled here, stops the run if it is reached.
#![cfg(given)]
#![allow(clippy::all)]

mod not_given;

include!(concat!(env!("OUT_DIR"), "/tree.rs"));
