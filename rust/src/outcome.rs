//! What the transfers did: the input of a call.

use core::error::Error;
use core::fmt;
use core::iter::FusedIterator;

use crate::Answer;

/// The error that a transfer left, by the names of the Rust's
/// `UsbTransferError`.
#[derive(Debug, Clone, Copy, PartialEq, Eq, Hash)]
#[repr(u8)]
pub enum TransferError {
    /// None.
    NoError = 0,
    /// The device answered with STALL.
    Stall = 1,
    /// The controller's buffers were too slow.
    BufferError = 2,
    /// The device sent more than was asked for.
    Babble = 3,
    /// No answer.
    NoAcknowledge = 4,
    /// A check sum was wrong.
    CrcError = 5,
    /// A bit was stuffed wrongly.
    BitError = 6,
    /// The connection failed.
    ConnectionError = 7,
    /// The controller's own bus failed.
    AhbError = 8,
    /// The device was not ready yet.
    NotYetError = 9,
    /// The transfer was still under way when its time was over.
    Processing = 31,
}

impl TransferError {
    /// The error of an outcome's byte 1, which is the bit number.
    pub const fn from_number(number: u8) -> Option<TransferError> {
        Some(match number {
            0 => TransferError::NoError,
            1 => TransferError::Stall,
            2 => TransferError::BufferError,
            3 => TransferError::Babble,
            4 => TransferError::NoAcknowledge,
            5 => TransferError::CrcError,
            6 => TransferError::BitError,
            7 => TransferError::ConnectionError,
            8 => TransferError::AhbError,
            9 => TransferError::NotYetError,
            31 => TransferError::Processing,
            _ => return None,
        })
    }

    /// An outcome's byte 1.
    pub const fn number(self) -> u8 {
        self as u8
    }
}

/// The name.
impl fmt::Display for TransferError {
    fn fmt(&self, f: &mut fmt::Formatter<'_>) -> fmt::Result {
        f.write_str(match self {
            TransferError::NoError => "NoError",
            TransferError::Stall => "Stall",
            TransferError::BufferError => "BufferError",
            TransferError::Babble => "Babble",
            TransferError::NoAcknowledge => "NoAcknowledge",
            TransferError::CrcError => "CrcError",
            TransferError::BitError => "BitError",
            TransferError::ConnectionError => "ConnectionError",
            TransferError::AhbError => "AhbError",
            TransferError::NotYetError => "NotYetError",
            TransferError::Processing => "Processing",
        })
    }
}

/// What one transfer did.
#[derive(Debug, Clone, Copy, PartialEq, Eq, Hash)]
pub struct Outcome<'a> {
    /// The code with which the controller took the transfer: [`Answer::Ok`] to
    /// [`Answer::ErrorDisconnected`].
    pub submit: Answer,
    /// The error that the transfer left.
    pub error: TransferError,
    /// The data that arrived.
    pub data: &'a [u8],
}

impl<'a> Outcome<'a> {
    /// A transfer that the controller took, with the error that it left, which
    /// may be none, and the bytes that it brought.
    pub const fn new(error: TransferError, data: &'a [u8]) -> Outcome<'a> {
        Outcome {
            submit: Answer::Ok,
            error,
            data,
        }
    }

    /// A transfer that succeeded and brought these bytes.
    pub const fn done(data: &'a [u8]) -> Outcome<'a> {
        Outcome::new(TransferError::NoError, data)
    }

    /// A transfer that the controller didn't take, and why:
    /// [`Answer::ErrorGeneral`] to [`Answer::ErrorDisconnected`].
    pub const fn not_submitted(submit: Answer) -> Outcome<'a> {
        Outcome {
            submit,
            error: TransferError::NoError,
            data: &[],
        }
    }

    /// The transfer's result, as `UsbControlMessage` gives it. A request is
    /// acknowledged when this is [`Answer::Ok`].
    pub const fn result(&self) -> Answer {
        match (self.submit, self.error) {
            (Answer::Ok, TransferError::NoError) => Answer::Ok,
            (Answer::Ok, TransferError::Processing) => Answer::ErrorTimeout,
            (Answer::Ok, _) => Answer::ErrorDevice,
            (submit, _) => submit,
        }
    }

    /// The four bytes before the data.
    fn header(&self) -> Result<[u8; 4], Refused> {
        let submit = match self.submit.number() {
            number @ -9..=0 => number.unsigned_abs(),
            _ => return Err(Refused::Garbled),
        };
        let submit = u8::try_from(submit).map_err(|_| Refused::Garbled)?;
        let length = u16::try_from(self.data.len()).map_err(|_| Refused::TooLong)?;
        let [low, high] = length.to_le_bytes();
        Ok([submit, self.error.number(), low, high])
    }
}

/// Why an outcome was not written.
#[derive(Debug, Clone, Copy, PartialEq, Eq, Hash)]
pub enum Refused {
    /// The submit code is not one of 0 to −9.
    Garbled,
    /// There are more than 65,535 bytes of data.
    TooLong,
    /// The buffer has no room for it.
    Full,
}

impl fmt::Display for Refused {
    fn fmt(&self, f: &mut fmt::Formatter<'_>) -> fmt::Result {
        f.write_str(match self {
            Refused::Garbled => "the submit code is not one of 0 to -9",
            Refused::TooLong => "over 65,535 bytes of data",
            Refused::Full => "no room for the outcome",
        })
    }
}

impl Error for Refused {}

/// Outcomes, written one after another into a lent buffer.
///
/// ```
/// use lidrumak::{Outcome, Outcomes, Refused, TransferError};
///
/// let mut buffer = [0; 10];
/// let mut outcomes = Outcomes::new(&mut buffer);
/// assert_eq!(outcomes.push(Outcome::done(&[7, 8])), Ok(()));
/// assert_eq!(outcomes.push(Outcome::new(TransferError::Stall, &[])), Ok(()));
/// assert_eq!(outcomes.push(Outcome::done(&[])), Err(Refused::Full));
/// assert_eq!(outcomes.as_bytes(), [0, 0, 2, 0, 7, 8, 0, 1, 0, 0]);
/// assert_eq!(outcomes.iter().count(), 2);
/// ```
#[derive(Debug)]
pub struct Outcomes<'a> {
    buffer: &'a mut [u8],
    length: usize,
}

impl<'a> Outcomes<'a> {
    /// No outcomes yet.
    pub const fn new(buffer: &'a mut [u8]) -> Outcomes<'a> {
        Outcomes { buffer, length: 0 }
    }

    /// Writes an outcome after the others. A refused one leaves all as it was.
    pub fn push(&mut self, outcome: Outcome<'_>) -> Result<(), Refused> {
        let header = outcome.header()?;
        let room = self.buffer.get_mut(self.length..).ok_or(Refused::Full)?;
        let (head, room) = room.split_first_chunk_mut().ok_or(Refused::Full)?;
        let data = room.get_mut(..outcome.data.len()).ok_or(Refused::Full)?;
        *head = header;
        for (to, from) in data.iter_mut().zip(outcome.data) {
            *to = *from;
        }
        let written = outcome.data.len().saturating_add(header.len());
        self.length = self.length.saturating_add(written);
        Ok(())
    }

    /// The bytes written so far: what a call takes.
    pub const fn as_bytes(&self) -> &[u8] {
        match self.buffer.split_at_checked(self.length) {
            Some((written, _)) => written,
            None => &[],
        }
    }

    /// The outcomes written so far.
    pub const fn iter(&self) -> OutcomesIter<'_> {
        OutcomesIter::new(self.as_bytes())
    }

    /// Forgets the outcomes, for the next call.
    pub const fn clear(&mut self) {
        self.length = 0;
    }
}

impl<'a> IntoIterator for &'a Outcomes<'_> {
    type Item = Outcome<'a>;
    type IntoIter = OutcomesIter<'a>;

    fn into_iter(self) -> OutcomesIter<'a> {
        self.iter()
    }
}

/// An iterator over the outcomes in some bytes. It ends at one that is garbled
/// or cut off.
#[derive(Debug, Clone)]
pub struct OutcomesIter<'a> {
    rest: &'a [u8],
}

impl<'a> OutcomesIter<'a> {
    /// The outcomes at the start of these bytes.
    pub const fn new(bytes: &'a [u8]) -> OutcomesIter<'a> {
        OutcomesIter { rest: bytes }
    }
}

fn first(bytes: &[u8]) -> Option<(Outcome<'_>, &[u8])> {
    let (&[submit, error, low, high], rest) = bytes.split_first_chunk()?;
    let submit = match submit {
        0..=9 => Answer::from_number(i32::from(submit).checked_neg()?)?,
        _ => return None,
    };
    let error = TransferError::from_number(error)?;
    let length = usize::from(u16::from_le_bytes([low, high]));
    let (data, rest) = rest.split_at_checked(length)?;
    let outcome = Outcome {
        submit,
        error,
        data,
    };
    Some((outcome, rest))
}

impl<'a> Iterator for OutcomesIter<'a> {
    type Item = Outcome<'a>;

    fn next(&mut self) -> Option<Outcome<'a>> {
        let read = first(self.rest);
        self.rest = read.map_or(&[], |(_, rest)| rest);
        read.map(|(outcome, _)| outcome)
    }
}

impl FusedIterator for OutcomesIter<'_> {}
