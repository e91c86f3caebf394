//! What the tests compare the library with: the reference, and a lean version as one would ship it
//! unproved; a generator of cases; and the workloads of the benchmark.

pub mod generate;
pub mod implementation;
pub mod lean;
pub mod parts;
pub mod show;
pub mod workload;
