//! The given Rust's `algo` once more, with the distance to the segment in x, y and z where it has that to the endless line in x
//! and y, and with no arc trial (document 02, §14). The build script edits copies of two files; types and shapes are those of the
//! given crate itself.
#![cfg(given)]
#![allow(clippy::all)]
// the differences in x and y of which the given chord squared is made
#![allow(unused_variables)]

pub mod hills;

include!(concat!(env!("OUT_DIR"), "/tree.rs"));
