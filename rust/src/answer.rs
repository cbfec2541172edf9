//! The answer of a call: cause 0 and the number returned, or the number of the
//! cause and what is returned with it.
//!
//! Decision: document 01 numbers the causes from 1; "accepted" is given the
//! number 0 here.

#[derive(Clone, Copy, Debug, PartialEq, Eq)]
pub struct Answer {
    pub cause: u64,
    pub value: u64,
}

pub const ACCEPTED: u64 = 0;
pub const IDENTIFIER_LENGTH: u64 = 1;
pub const BYTE_NOT_ALLOWED: u64 = 2;
pub const BUCKET_NUMBERS: u64 = 3;
pub const TABLE_LENGTH: u64 = 4;
pub const TABLE_NOT_SOUND: u64 = 5;
pub const WORD_LIVE: u64 = 6;
pub const WORD_NOT_LIVE: u64 = 7;
pub const BASE_FULL: u64 = 8;
pub const OUTPUT_SHORT: u64 = 9;
pub const PLANE_WRONG: u64 = 10;
pub const PLANES_UNLIKE: u64 = 11;
pub const PATCH_WRONG: u64 = 12;
pub const SUM_WRONG: u64 = 13;
pub const DESK_PLAN_GIVEN: u64 = 14;
pub const KIND_WRONG: u64 = 15;

impl Answer {
    pub const fn accepted(value: u64) -> Answer {
        Answer {
            cause: ACCEPTED,
            value,
        }
    }

    pub const fn refused(cause: u64, value: u64) -> Answer {
        Answer { cause, value }
    }

    pub const fn is_accepted(self) -> bool {
        self.cause == ACCEPTED
    }
}

/// Inside the crate a call is a `Result` whose error is the refusal, so that
/// the first cause met ends it; outside, both cases are one `Answer`.
impl From<Result<u64, Answer>> for Answer {
    fn from(result: Result<u64, Answer>) -> Answer {
        match result {
            Ok(value) => Answer::accepted(value),
            Err(refusal) => refusal,
        }
    }
}
