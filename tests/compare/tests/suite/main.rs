//! The tests of the reference, and of the lean version and the library against it, in one program.

mod alone;
mod bounds;
mod buttons;
mod cases;
mod common;
mod coverage;
mod differential;
mod fenced;
mod groups;
mod hostile;
mod noninterference;
mod pair_values;
mod paired;
mod pairs;
#[cfg(feature = "programs")]
mod program;
mod refusals;
mod rounds;
mod show;
mod steps;
mod tampering;
mod trust;
mod twice;
mod unpacks;
mod unseen;
mod views;
mod workloads;
