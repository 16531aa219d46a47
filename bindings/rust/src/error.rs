//! Why a call has done nothing.

use crate::raw;
use std::fmt;

/// Why a call has done nothing. The module is then unchanged.
#[derive(Clone, Copy, Debug, PartialEq, Eq)]
#[non_exhaustive]
pub enum Error {
    /// The bytes are no module that can be read. The fault is at this offset.
    NotAModule(u64),
    /// An object file, whose relocations name places in its code.
    LinkableObject,
    /// None of the functions that may be rewritten can be read.
    Unreadable,
    /// No rule or change applies in them.
    NothingApplies,
    /// The module has no function of its own with that index, or an import isn't known.
    NoFunction,
    /// No edit that was tried fits, or makes the module smaller if it has to.
    TooLarge,
    /// No memory is left.
    NoMemory,
    /// The module is larger than the new one may be, or the options name no rule, or something that the library doesn't know.
    BadOptions,
    /// The call doesn't report the reason.
    NothingDone,
    /// An outcome of a library of a later version, by its number.
    Other(u32),
}

impl Error {
    /// The reason that the library has reported; none if it has done something.
    pub(crate) fn of_report(report: &raw::Report) -> Option<Error> {
        Some(match report.outcome {
            0 => return None,
            1 => Error::NotAModule(report.offset),
            2 => Error::LinkableObject,
            3 => Error::Unreadable,
            4 => Error::NothingApplies,
            5 => Error::NoFunction,
            6 => Error::TooLarge,
            7 => Error::NoMemory,
            8 => Error::BadOptions,
            other => Error::Other(other),
        })
    }
}

impl fmt::Display for Error {
    fn fmt(&self, f: &mut fmt::Formatter<'_>) -> fmt::Result {
        match self {
            Error::NotAModule(offset) => write!(f, "no module, by its byte {offset}"),
            Error::LinkableObject => f.pad("a linkable object"),
            Error::Unreadable => f.pad("no function can be read"),
            Error::NothingApplies => f.pad("nothing applies"),
            Error::NoFunction => f.pad("no function with that index"),
            Error::TooLarge => f.pad("nothing fits"),
            Error::NoMemory => f.pad("no memory"),
            Error::BadOptions => f.pad("bad options"),
            Error::NothingDone => f.pad("nothing done"),
            Error::Other(number) => write!(f, "outcome {number}"),
        }
    }
}

impl std::error::Error for Error {}
