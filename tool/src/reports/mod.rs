//! What a command prints: JSON, the progress line, argument errors, and commands to type next.

pub mod arguments;
pub mod invocation;
pub mod json;
pub mod progress;
