//! Running a program: step by step, what is watched for, and how it ended.

pub mod follow;
pub mod outcome;
pub mod replay;
pub mod session;
pub mod watch;
pub mod waves;
