//! The bench's tool: runs, draws and compares the console reference model.
#![forbid(unsafe_code)]

pub mod behaviour;
pub mod cli;
pub mod commands;
pub mod demo;
pub mod eye;
pub mod failure;
pub mod faults;
pub mod files;
pub mod inputs;
pub mod interrupt;
pub mod judge;
pub mod lot;
pub mod pictures;
pub mod plan;
pub mod programs;
pub mod report;
pub mod reports;
pub mod running;
pub mod selftest;
pub mod version;
