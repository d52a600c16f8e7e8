//! Why a command did not do what was asked.

use serde::Serialize;
use vb::Refusal;

/// Exit status 2: refused, or bad input.
#[derive(Clone, Debug, Serialize)]
pub struct Failure {
    /// Paper 01's number, where the library refused.
    #[serde(skip_serializing_if = "Option::is_none")]
    pub refusal: Option<u32>,
    #[serde(rename = "error")]
    pub message: String,
}

impl Failure {
    pub fn bad(message: impl Into<String>) -> Failure {
        Failure { message: message.into(), refusal: None }
    }

    /// A signal came; the command ends with the status of one that was stopped.
    pub fn stopped() -> Failure {
        Failure::bad("stopped by a signal")
    }

    /// A refusal of the library, its message made by the caller.
    pub fn refused(refusal: &Refusal, message: String) -> Failure {
        Failure { message, refusal: Some(refusal.number()) }
    }
}
