//! The given Rust's `algo` once more, with the distance to the segment where it has that to the endless line (document 02,
//! §4). The build script edits copies of two files; types and shapes are those of the given crate itself.
#![cfg(given)]
#![allow(clippy::all)]

pub mod segment;

include!(concat!(env!("OUT_DIR"), "/tree.rs"));
