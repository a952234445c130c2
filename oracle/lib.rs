//! The original position solve as a library: solve.rs, linalg.rs and geo.rs with the replacements of prepare.rs, and around them document 01's way from the bytes of
//! the four inputs to the answer and the 176 bytes of the record, the problems to run it on, and its parts one by one. Built by oracle/build.

#![allow(dead_code)]

// taken from the folder of the Rust by prepare.rs
pub mod clock;
pub mod geo;
pub mod linalg;
pub mod obs;
pub mod solve;

// standing in for what solve.rs takes from elsewhere
pub mod modes;

pub use at_least::AtLeast;
mod at_least;

mod climb;
pub mod corrections;
pub mod damage;
pub mod edges;
pub mod identities;
pub mod input;
pub mod kept;
pub mod kinds;
pub mod parts;
pub mod random;
pub mod record;
pub mod scene;
pub mod sky;
pub mod steep;
pub mod ties;
pub mod trace;
mod tune;
pub mod why;
