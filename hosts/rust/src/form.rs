//! Why a state has no byte form, or bytes are the form of no state.

use std::error;
use std::fmt;

/// Why a state has no byte form, or bytes are the form of no state. Where several are true, docs/STATE-FORMAT.md says
/// which it is.
#[derive(Clone, Copy, Debug, Eq, PartialEq)]
pub enum FormError {
    /// The bytes end too early.
    TooShort,
    /// More bytes follow the form.
    TrailingBytes,
    /// The form has a version that is not known.
    Version,
    /// More bytes wait in a port than its size.
    TooManyBytes,
    /// A spare byte of a port or a spare word of a clock is not 0. A state of this crate has none of these; who calls the
    /// library directly meets this.
    Spare,
    /// A port has a size that the state cannot tell: of [`SerialState`](crate::SerialState) any but 64, of
    /// [`FullSerialState`](crate::FullSerialState) one with which no port is made. The library itself reads such a form.
    Size,
}

impl fmt::Display for FormError {
    fn fmt(&self, f: &mut fmt::Formatter) -> fmt::Result {
        f.write_str(match self {
            FormError::TooShort => "the form ends too early",
            FormError::TrailingBytes => "bytes follow the form",
            FormError::Version => "the form has a version that is not known",
            FormError::TooManyBytes => "more bytes wait in a port than its size",
            FormError::Spare => "a spare byte or word is not 0",
            FormError::Size => "the port has a size that the state cannot tell",
        })
    }
}

impl error::Error for FormError {}
