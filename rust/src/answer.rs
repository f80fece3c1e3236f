//! What a call answers.

use core::error::Error;
use core::fmt;

/// What a call answers: document 01's table. Further answers may be added to it.
///
/// ```
/// use lidrumak::Answer;
///
/// assert_eq!(Answer::from_number(-14), Some(Answer::OutcomesSpent));
/// assert_eq!(Answer::try_from(-14), Ok(Answer::OutcomesSpent));
/// assert_eq!(Answer::OutcomesSpent.to_string(), "outcomes spent");
/// assert_eq!(Answer::ErrorTimeout.number(), -8);
/// assert_eq!(Answer::from_number(-17), None);
/// assert!(Answer::BusFull.result().is_err());
/// ```
#[derive(Debug, Clone, Copy, PartialEq, Eq, Hash)]
#[repr(i32)]
#[non_exhaustive]
pub enum Answer {
    /// 0: done.
    Ok = 0,
    /// −1: an undisclosed failure.
    ErrorGeneral = -1,
    /// −2: a bad input. Also a refusal at entry: a store of another length, a
    /// root speed above 3, no such hub, child or port. Also a child reset or
    /// check of a device that is not the hub's child; see
    /// [`Reply::has_ended`].
    ErrorArgument = -2,
    /// −3: a temporary failure.
    ErrorRetry = -3,
    /// −4: a device's failure. Also a refusal at entry: the root hub is
    /// already attached.
    ErrorDevice = -4,
    /// −5: a device that the driver doesn't support.
    ErrorIncompatible = -5,
    /// −6: unusable code. Also what a number outside the table becomes in a
    /// [`Reply`], so that only a library other than the proved one gives it
    /// without a transfer's submit code of 6.
    ErrorCompiler = -6,
    /// −7: memory is exhausted.
    ErrorMemory = -7,
    /// −8: a transfer, or the wait for a reset, took too long.
    ErrorTimeout = -8,
    /// −9: a device was disconnected in a transfer.
    ErrorDisconnected = -9,
    /// −10: a configuration's descriptors break the walk's rules.
    GarbledConfiguration = -10,
    /// −11: a child is due and all 32 places are used.
    BusFull = -11,
    /// −12: the root speed is 3.
    RootSpeed = -12,
    /// −13: an outcome has a submit code or an error outside its table.
    GarbledOutcome = -13,
    /// −14: a request is logged and no whole outcome is left.
    OutcomesSpent = -14,
    /// −15: an action is due and under 16 bytes of the log are left.
    LogFull = -15,
    /// −16: the old store is not sound.
    StoreDamaged = -16,
}

impl Answer {
    /// The answer of a number in document 01's table.
    pub const fn from_number(number: i32) -> Option<Answer> {
        Some(match number {
            0 => Answer::Ok,
            -1 => Answer::ErrorGeneral,
            -2 => Answer::ErrorArgument,
            -3 => Answer::ErrorRetry,
            -4 => Answer::ErrorDevice,
            -5 => Answer::ErrorIncompatible,
            -6 => Answer::ErrorCompiler,
            -7 => Answer::ErrorMemory,
            -8 => Answer::ErrorTimeout,
            -9 => Answer::ErrorDisconnected,
            -10 => Answer::GarbledConfiguration,
            -11 => Answer::BusFull,
            -12 => Answer::RootSpeed,
            -13 => Answer::GarbledOutcome,
            -14 => Answer::OutcomesSpent,
            -15 => Answer::LogFull,
            -16 => Answer::StoreDamaged,
            _ => return None,
        })
    }

    /// The number in document 01's table.
    pub const fn number(self) -> i32 {
        self as i32
    }

    /// Document 01's word; for −1 to −9 the name in the Rust's `ResultCode`.
    pub const fn word(self) -> &'static str {
        match self {
            Answer::Ok => "OK",
            Answer::ErrorGeneral => "ErrorGeneral",
            Answer::ErrorArgument => "ErrorArgument",
            Answer::ErrorRetry => "ErrorRetry",
            Answer::ErrorDevice => "ErrorDevice",
            Answer::ErrorIncompatible => "ErrorIncompatible",
            Answer::ErrorCompiler => "ErrorCompiler",
            Answer::ErrorMemory => "ErrorMemory",
            Answer::ErrorTimeout => "ErrorTimeout",
            Answer::ErrorDisconnected => "ErrorDisconnected",
            Answer::GarbledConfiguration => "garbled configuration",
            Answer::BusFull => "bus full",
            Answer::RootSpeed => "root speed",
            Answer::GarbledOutcome => "garbled outcome",
            Answer::OutcomesSpent => "outcomes spent",
            Answer::LogFull => "log full",
            Answer::StoreDamaged => "store damaged",
        }
    }

    /// Is this 0?
    pub const fn is_ok(self) -> bool {
        matches!(self, Answer::Ok)
    }

    /// Did the whole call stop (−13 to −15)? It is repeated from the old store.
    pub const fn is_stop(self) -> bool {
        matches!(
            self,
            Answer::GarbledOutcome | Answer::OutcomesSpent | Answer::LogFull
        )
    }

    /// The answer as a `Result`, for `?`.
    pub const fn result(self) -> Result<(), Failure> {
        match self {
            Answer::Ok => Ok(()),
            failing => Err(Failure(failing)),
        }
    }
}

impl fmt::Display for Answer {
    fn fmt(&self, f: &mut fmt::Formatter<'_>) -> fmt::Result {
        f.write_str(self.word())
    }
}

impl TryFrom<i32> for Answer {
    type Error = Unlisted;

    fn try_from(number: i32) -> Result<Answer, Unlisted> {
        Answer::from_number(number).ok_or(Unlisted(number))
    }
}

/// A number that is no answer.
#[derive(Debug, Clone, Copy, PartialEq, Eq, Hash)]
pub struct Unlisted(i32);

impl Unlisted {
    /// The number.
    pub const fn number(self) -> i32 {
        self.0
    }
}

impl fmt::Display for Unlisted {
    fn fmt(&self, f: &mut fmt::Formatter<'_>) -> fmt::Result {
        write!(f, "{} is no answer", self.0)
    }
}

impl Error for Unlisted {}

/// An answer other than [`Answer::Ok`], as an error.
#[derive(Debug, Clone, Copy, PartialEq, Eq, Hash)]
pub struct Failure(Answer);

impl Failure {
    /// The answer.
    pub const fn answer(self) -> Answer {
        self.0
    }
}

impl fmt::Display for Failure {
    fn fmt(&self, f: &mut fmt::Formatter<'_>) -> fmt::Result {
        f.write_str(self.0.word())
    }
}

impl Error for Failure {}

/// What a call hands back.
#[derive(Debug, Clone, Copy, PartialEq, Eq, Hash)]
pub struct Reply {
    /// The answer.
    pub answer: Answer,
    /// How many requests the call logged.
    pub requests: u64,
}

impl Reply {
    /// The reply of an exported call's two numbers. A number outside document
    /// 01's table becomes [`Answer::ErrorCompiler`]; the library is proved
    /// never to give one.
    pub const fn from_numbers(answer: i32, requests: u64) -> Reply {
        let answer = match Answer::from_number(answer) {
            Some(answer) => answer,
            None => Answer::ErrorCompiler,
        };
        Reply { answer, requests }
    }

    /// The answer as a `Result`, for `?`.
    pub const fn result(self) -> Result<(), Failure> {
        self.answer.result()
    }

    /// Did the call run to its end, so that the new store takes the old one's
    /// place? Not so after a stop, nor after a refusal at entry. Of the other
    /// answers only two kinds come without a request: a refusal, and the −2 of
    /// a child reset or check, which changes nothing either. It is given for a
    /// device that is not the hub's child, and for a child whose parent byte is
    /// 0 or whose port is at or above the hub's MaxChildren.
    pub const fn has_ended(self) -> bool {
        !self.answer.is_stop() && (self.answer.is_ok() || self.requests > 0)
    }
}
