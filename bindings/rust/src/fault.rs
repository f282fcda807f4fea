//! Why a call gives nothing.

use std::collections::TryReserveError;
use std::error::Error as StandardError;
use std::fmt;

/// Why there is no report, no verdict, or no transaction.
///
/// Printed it is the line that the program writes: its number, and ` at ` with its offset if it has a place.
#[derive(Clone, Copy, Debug, PartialEq, Eq, Hash)]
#[non_exhaustive]
pub struct Fault {
    /// Its number, such as 302; docs/ERRORS.md lists them.
    pub code: u16,
    /// What kind of fault it is.
    pub kind: FaultKind,
    /// Where it is, if it has a place.
    pub place: Option<Place>,
}

/// What kind of fault it is.
#[derive(Clone, Copy, Debug, PartialEq, Eq, Hash)]
#[non_exhaustive]
pub enum FaultKind {
    /// The input, a script or a call is refused, or a report is too long to be checked.
    Refused,
    /// Memory ran out. Nothing is lost, and the call can be made again.
    OutOfMemory,
}

/// Where a fault is in its text.
#[derive(Clone, Copy, Debug, PartialEq, Eq, Hash)]
pub struct Place {
    /// Bytes from the text's start.
    pub offset: usize,
    /// The line, from 1.
    pub line: usize,
    /// The column in characters, from 1.
    pub column: usize,
}

impl Fault {
    /// E900.
    pub(crate) const OUT_OF_MEMORY: Fault = Fault { code: 900, kind: FaultKind::OutOfMemory, place: None };
}

impl From<TryReserveError> for Fault {
    /// There is no memory: E900.
    fn from(_: TryReserveError) -> Self {
        Fault::OUT_OF_MEMORY
    }
}

impl fmt::Display for Fault {
    fn fmt(&self, f: &mut fmt::Formatter<'_>) -> fmt::Result {
        write!(f, "E{}", self.code)?;
        match self.place {
            Some(place) => write!(f, " at {}", place.offset),
            None => Ok(()),
        }
    }
}

impl StandardError for Fault {}

/// Why a call of a driver does nothing.
///
/// Printed it is a sentence. Its [source](StandardError::source) is the fault, if it has one: its line has the number.
#[derive(Clone, Copy, Debug, PartialEq, Eq, Hash)]
#[non_exhaustive]
pub enum Error {
    /// The text that was handed in is refused, it isn't there, or memory ran out.
    Fault(Fault),
    /// The driver is closed; or, for a report or a renewal, it isn't.
    State,
}

impl Error {
    /// The fault, if there is one.
    pub fn fault(self) -> Option<Fault> {
        match self {
            Error::Fault(fault) => Some(fault),
            Error::State => None,
        }
    }
}

impl From<Fault> for Error {
    fn from(fault: Fault) -> Self {
        Error::Fault(fault)
    }
}

impl From<TryReserveError> for Error {
    /// There is no memory: E900.
    fn from(error: TryReserveError) -> Self {
        Error::Fault(error.into())
    }
}

impl fmt::Display for Error {
    fn fmt(&self, f: &mut fmt::Formatter<'_>) -> fmt::Result {
        let Error::Fault(fault) = self else {
            return f.write_str("the driver is closed; or, for a report or a renewal, it isn't");
        };
        if let Some(Place { line, column, .. }) = fault.place {
            return write!(f, "the text is refused at line {line}, column {column}");
        }
        f.write_str(match fault.code {
            401 => "no script has this number, or no table this name",
            405 => "a run is on, or a transaction waits for one",
            406 => "10,000 scripts were submitted",
            407 => "the tables have more than 65,536 rows together",
            900 => "memory ran out",
            _ => "the call is refused",
        })
    }
}

impl StandardError for Error {
    fn source(&self) -> Option<&(dyn StandardError + 'static)> {
        match self {
            Error::Fault(fault) => Some(fault),
            Error::State => None,
        }
    }
}
