//! What a command is given: memories, records, captures, traces, schedules, and numbers as they are typed.

pub mod capture;
pub mod changes;
pub mod number;
pub mod overlay;
pub mod requests;
pub mod scene;
pub mod schedule;
pub mod setup;
pub mod state;
pub mod table;
pub mod trace;
