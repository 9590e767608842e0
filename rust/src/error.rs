//! Refusals.
use crate::{MAX_INPUT, MAX_LENGTH, MAX_LETTERS};
use std::fmt;

/// A refusal: its number, and the position that it names (0 where it names none).
///
/// ```
/// let error = lyndon::reconstruct(&[1, 0]).unwrap_err();
/// assert_eq!((error.number, error.position), (6, 1));
/// assert_eq!(error.to_string(), "the entry at position 1 is 0 (refusal 6)");
/// ```
#[derive(Clone, Copy, Debug, PartialEq, Eq, Hash)]
pub struct Error {
    /// The number of the refusal, from 1.
    pub number: u32,
    /// The position that it names.
    pub position: u32,
}

impl fmt::Display for Error {
    fn fmt(&self, f: &mut fmt::Formatter<'_>) -> fmt::Result {
        let at = self.position;
        match self.number {
            1 => write!(f, "the text or array is empty"),
            2 => write!(f, "the text or array is longer than {MAX_LENGTH}"),
            3 => write!(f, "the order number is not one that the call takes"),
            4 => write!(f, "an output buffer is shorter than needed"),
            5 => write!(f, "the work buffer is shorter than twice the text"),
            6 => write!(f, "the entry at position {at} is 0"),
            7 => write!(f, "the entry at position {at} reaches past the end of the array"),
            8 => write!(f, "the span at position {at} crosses the end of an earlier span"),
            9 => write!(f, "the input does not start with '>'"),
            10 => write!(f, "the record's name is empty, longer than 60 bytes or holds an unfit byte: byte {at}"),
            11 => write!(f, "byte {at} is unfit for a sequence line"),
            12 => write!(f, "a second record starts at byte {at}"),
            13 => write!(f, "the input holds no letter (it ends at byte {at})"),
            14 => write!(f, "byte {at} is a letter past the {MAX_LETTERS} that are read"),
            15 => write!(f, "the input is longer than {MAX_INPUT} bytes"),
            16 => write!(f, "the rank table does not have 256 entries"),
            17 => write!(f, "the text is not a Lyndon word in rising order"),
            21 => write!(f, "there is no such group, or it has no table of that number"),
            22 => write!(f, "the group's table is not written yet"),
            _ => write!(f, "refused at position {at}"),
        }?;
        write!(f, " (refusal {})", self.number)
    }
}

impl std::error::Error for Error {}
