//! A deterministic generator of sheets, scripts, memories and whole calls.
//!
//! Where a sheet, script or memory is to be valid it is built along its meaning, so that acceptance
//! is common; damage comes after.

pub mod alike;
pub mod case;
pub mod damage;
pub mod damage_pairs;
pub mod damage_rule;
pub mod expression;
pub mod groups;
pub mod memory;
pub mod pool;
pub mod prng;
pub mod program_input;
pub mod round;
pub mod script;
pub mod sheet;
pub mod trust;
