//! Why a call failed.
use crate::ffi;
use std::fmt;

/// Why a call failed. Errors in a text are no failure: see [`ParseError`](crate::ParseError).
#[derive(Clone, Copy, Debug, PartialEq, Eq)]
#[non_exhaustive]
pub enum Error {
    /// The text has more than 4294967295 bytes.
    TooLong,
    /// There is not enough memory.
    OutOfMemory,
    /// The library that is linked has another interface than this crate was written for.
    WrongVersion,
}

/// Refuses a text of this many bytes if it is too long, and a library with another interface. Comes
/// before anything is allocated.
pub(crate) fn check_call(len: usize) -> Result<(), Error> {
    if ffi::squawk_version() >> 16 != ffi::VERSION >> 16 {
        return Err(Error::WrongVersion);
    }
    if len > u32::MAX as usize {
        return Err(Error::TooLong);
    }
    Ok(())
}

impl Error {
    /// The error of a status other than 0, of a call whose arguments were good.
    pub(crate) fn of_status(status: u32) -> Error {
        match status {
            ffi::TOO_LONG => Error::TooLong,
            ffi::OUT_OF_MEMORY => Error::OutOfMemory,
            _ => Error::WrongVersion,
        }
    }
}

impl fmt::Display for Error {
    fn fmt(&self, f: &mut fmt::Formatter<'_>) -> fmt::Result {
        f.write_str(match self {
            Error::TooLong => "too long",
            Error::OutOfMemory => "out of memory",
            Error::WrongVersion => "the library has another version",
        })
    }
}

impl std::error::Error for Error {}
