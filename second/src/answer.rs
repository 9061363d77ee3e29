//! What a call answers.

use crate::refusal::Refusal;

/// The answer to one call.
#[derive(Clone, Copy, Debug, PartialEq, Eq)]
pub enum Answer {
    /// The call was done; its value, 0 where document 01 names none.
    Accepted(u64),
    /// The call was refused and nothing was written.
    Refused(Refusal),
}

impl Answer {
    /// The SBI error: 0 for an accepted call, else the refusal's.
    pub fn error(self) -> i64 {
        match self {
            Answer::Accepted(_) => 0,
            Answer::Refused(refusal) => refusal.error(),
        }
    }

    /// The value: "a refusal returns the error and, as value, the number".
    pub fn value(self) -> u64 {
        match self {
            Answer::Accepted(value) => value,
            Answer::Refused(refusal) => refusal.number(),
        }
    }

    pub fn is_accepted(self) -> bool {
        matches!(self, Answer::Accepted(_))
    }
}

impl From<Result<u64, Refusal>> for Answer {
    fn from(result: Result<u64, Refusal>) -> Self {
        match result {
            Ok(value) => Answer::Accepted(value),
            Err(refusal) => Answer::Refused(refusal),
        }
    }
}
