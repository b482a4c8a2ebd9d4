//! What can go wrong with a volume and its files.
use crate::refusal::Refusal;
use std::fmt;
use std::io;

/// Its text tells everything, the cause included.
#[derive(Debug)]
pub enum Error {
    /// The library declined a call.
    Refused(Refusal),
    /// A file or folder could not be read or written.
    Io(io::Error),
    /// The tool does not take such a command line.
    Usage(String),
    /// A volume's file has other bytes than its extents ask for.
    Length { bytes: u64, extents: [u32; 3], right: u64 },
    /// A record is that of another block.
    OtherBlock,
    /// A file has another length than its job states.
    NoJob,
    /// There are more components than a table can have entries.
    TooMany,
    /// There is something already where the result is to go.
    Exists,
    /// One of these, with what it happened to: a file, a block, a step.
    At(String, Box<Error>),
}

impl Error {
    /// The refusal behind it, if there is one.
    pub fn refusal(&self) -> Option<Refusal> {
        match self {
            Error::Refused(refusal) => Some(*refusal),
            Error::At(_, cause) => cause.refusal(),
            _ => None,
        }
    }
}

/// Tells what an error happened to.
pub fn at<E: Into<Error>>(what: impl fmt::Display) -> impl FnOnce(E) -> Error {
    move |cause| Error::At(what.to_string(), Box::new(cause.into()))
}

impl From<Refusal> for Error {
    fn from(refusal: Refusal) -> Error {
        Error::Refused(refusal)
    }
}

impl From<io::Error> for Error {
    fn from(cause: io::Error) -> Error {
        Error::Io(cause)
    }
}

impl fmt::Display for Error {
    fn fmt(&self, f: &mut fmt::Formatter) -> fmt::Result {
        match self {
            Error::Refused(refusal) => refusal.fmt(f),
            Error::Io(cause) => cause.fmt(f),
            Error::Usage(what) => f.write_str(what),
            Error::Length { bytes, extents: [nx, ny, nz], right } => write!(f, "has {bytes} bytes, and {nx} × {ny} × {nz} codes have {right}"),
            Error::OtherBlock => f.write_str("is the record of another block"),
            Error::NoJob => f.write_str("is no file of a closed job"),
            Error::TooMany => f.write_str("the volume has more components than a table can have entries"),
            Error::Exists => f.write_str("exists already"),
            Error::At(what, cause) => write!(f, "{what}: {cause}"),
        }
    }
}

impl std::error::Error for Error {}
