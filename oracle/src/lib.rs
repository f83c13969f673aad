//! The Rust compositor as an oracle: composite.rs, deep.rs, exec.rs and gravity_translate.rs compiled as they are
//! but for the weights of the gray (build.rs), a model of document 01's refusals and jobs and of document 02's windows
//! and job numbers above them, document 02's card, and what compares a port with all of it.

mod stubs;
include!(concat!(env!("OUT_DIR"), "/modules.rs"));
// The Rust files look for these at the root of their crate.
pub use stubs::extent::Extent;
pub use stubs::*;

pub mod account;
pub mod card;
pub mod cases;
pub mod compare;
pub mod lines;
pub mod model;
pub mod name_texts;
pub mod ours;
pub mod random;
pub mod random_cards;
pub mod reference;
pub mod request;
pub mod restated;
pub mod shrink;
pub mod window;
