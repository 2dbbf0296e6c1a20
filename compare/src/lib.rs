//! The original Rust and this library side by side: tables, calls, rules, random maps.
#![allow(dead_code)] // of the original, only what is compared is called
include!(concat!(env!("OUT_DIR"), "/original.rs"));
pub mod both;
pub mod calls;
pub mod damage;
pub mod form;
pub mod lookups;
pub mod maps;
pub mod measures;
pub mod original;
pub mod ours;
pub mod places;
pub mod raw;
pub mod readings;
pub mod renamed;
pub mod reversal;
pub mod rules;
mod shim;
pub mod tables;
pub mod turned;
pub use shim::{Direction, Lane, LaneId};
pub mod road {
    pub use crate::shim::Road;
}
