//! The tool as a program, and in this process where a library that lies stands in.

mod alone;
mod buttons;
mod desk;
mod disagreement;
mod folder;
mod generated;
mod generated_pairs;
mod json;
mod messages;
mod names;
mod output;
mod pairs;
mod readers;
mod readme;
mod round;
mod samples;
mod statuses;
mod tool;
mod trust;
mod writing;
