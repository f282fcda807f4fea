//! Why a call of a room does nothing.

use crate::fault::{Fault, FaultKind, Place};
use std::collections::TryReserveError;
use std::error::Error as StandardError;
use std::fmt;

/// Why a call of a [`Room`](crate::Room) does nothing.
///
/// Printed it is a sentence. Its [source](StandardError::source) is the fault, if it has a number of docs/ERRORS.md.
#[derive(Clone, Debug, PartialEq, Eq)]
#[non_exhaustive]
pub enum RoomError {
    /// The text has this fault: it is its first one. [`Room::explain`](crate::Room::explain) says more of a script's.
    Faulty(Fault),
    /// Memory ran out (E900). Nothing is lost, and the call can be made again.
    OutOfMemory,
    /// As many scripts wait as there may be.
    Full,
    /// A value isn't bound to a host variable.
    NotBound {
        /// The variable's name, without the `@`.
        variable: String,
        /// Why.
        fault: BindingFault,
    },
    /// A row can't be one of its table.
    NotARow {
        /// The table's name.
        table: String,
        /// Which row of those that were given for the table, from 0.
        row: usize,
        /// Why.
        fault: RowFault,
    },
    /// A script waits for 1 to 1,000 batches, and not for as many as this.
    NoPatience,
    /// The ticket can't come in again: it isn't of an earlier process, or one that is no less came in before.
    Used,
    /// Nobody waits under this ticket.
    NobodyWaits,
    /// The ticket was never given out, or how it ended isn't kept any more.
    UnknownTicket,
    /// No table has this name (E401).
    NoSuchTable,
    /// The ticket is in a batch that isn't over, or a batch is on, since memory ran out. The next step goes on with it.
    Busy,
    /// The tables have more than 65,536 rows together (E407). If an epoch can't end for it, to drain tables is the
    /// cure.
    TooManyRows,
    /// The epoch, or the next group, has the greatest number that there is.
    NoNumber,
    /// The room is closed.
    Closed,
}

/// Why a value isn't bound to a host variable of a script.
#[derive(Clone, Copy, Debug, PartialEq, Eq, Hash)]
#[non_exhaustive]
pub enum BindingFault {
    /// No script can spell the number, which is [`i64::MIN`].
    LeastNumber,
    /// The text can't be a value.
    Value(ValueFault),
    /// An earlier one has the same name.
    Twice,
    /// The script itself gives the variable a value, by SET or by the AS of an entangled item.
    SetByScript,
    /// The script doesn't use the variable.
    Unused,
    /// The name is none that a host variable can have.
    NoName,
}

/// Why a row can't be one of its table.
#[derive(Clone, Copy, Debug, PartialEq, Eq, Hash)]
#[non_exhaustive]
pub enum RowFault {
    /// There is no such table (E301).
    NoSuchTable,
    /// It has another number of values than the table has columns (E303).
    OtherLength,
    /// A value is of another kind than its column (E304).
    OtherKind,
    /// A text can't be a value, of whichever table.
    Value {
        /// Which value of the row, from 0.
        column: usize,
        /// What is wrong with it.
        fault: ValueFault,
    },
}

/// Why a text can't be a value.
#[derive(Clone, Copy, Debug, PartialEq, Eq, Hash)]
#[non_exhaustive]
pub enum ValueFault {
    /// The text has more than 255 bytes.
    TooLong,
    /// A control character, U+0000 to U+001F or U+007F, stands in the text.
    ControlCharacter {
        /// Bytes from the text's start to the first one.
        offset: usize,
    },
}

/// A refusal of this number, without a place.
const fn refusal(code: u16) -> Fault {
    Fault { code, kind: FaultKind::Refused, place: None }
}

const NO_TABLE_OF_ROW: Fault = refusal(301);
const OTHER_LENGTH: Fault = refusal(303);
const OTHER_KIND: Fault = refusal(304);
const NO_SUCH_TABLE: Fault = refusal(401);
const TOO_MANY_ROWS: Fault = refusal(407);

impl RowFault {
    /// The fault of a row that doesn't fit its table.
    pub(crate) fn numbered(code: u16) -> Self {
        match code {
            301 => RowFault::NoSuchTable,
            303 => RowFault::OtherLength,
            304 => RowFault::OtherKind,
            other => unreachable!("a row doesn't fit its table for one of three faults, and E{other} isn't one"),
        }
    }

    fn number(self) -> Option<&'static Fault> {
        match self {
            RowFault::NoSuchTable => Some(&NO_TABLE_OF_ROW),
            RowFault::OtherLength => Some(&OTHER_LENGTH),
            RowFault::OtherKind => Some(&OTHER_KIND),
            RowFault::Value { .. } => None,
        }
    }
}

impl RoomError {
    /// The fault, if it has a number.
    pub fn fault(&self) -> Option<Fault> {
        self.numbered().copied()
    }

    fn numbered(&self) -> Option<&Fault> {
        match self {
            RoomError::Faulty(fault) => Some(fault),
            RoomError::OutOfMemory => Some(&Fault::OUT_OF_MEMORY),
            RoomError::NotARow { fault, .. } => fault.number(),
            RoomError::NoSuchTable => Some(&NO_SUCH_TABLE),
            RoomError::TooManyRows => Some(&TOO_MANY_ROWS),
            _ => None,
        }
    }
}

impl From<Fault> for RoomError {
    fn from(fault: Fault) -> Self {
        match fault.kind {
            FaultKind::OutOfMemory => RoomError::OutOfMemory,
            FaultKind::Refused => RoomError::Faulty(fault),
        }
    }
}

impl From<TryReserveError> for RoomError {
    /// There is no memory: E900.
    fn from(_: TryReserveError) -> Self {
        RoomError::OutOfMemory
    }
}

impl fmt::Display for RoomError {
    fn fmt(&self, f: &mut fmt::Formatter<'_>) -> fmt::Result {
        f.write_str(match self {
            RoomError::Faulty(Fault { place: Some(Place { line, column, .. }), .. }) => {
                return write!(f, "the text is refused at line {line}, column {column}");
            }
            RoomError::NotBound { variable, fault } => return write!(f, "@{variable} isn't bound: {fault}"),
            RoomError::NotARow { table, row, fault } => {
                if let RowFault::Value { column, .. } = fault {
                    write!(f, "value {column} of ")?;
                }
                return write!(f, "row {row} of {table}: {fault}");
            }
            RoomError::Faulty(_) => "the text is refused",
            RoomError::OutOfMemory => "memory ran out",
            RoomError::Full => "as many scripts wait as there may be",
            RoomError::NoPatience => "a script waits for 1 to 1,000 batches, or until it is withdrawn",
            RoomError::Used => "the ticket can't come in again",
            RoomError::NobodyWaits => "nobody waits under this ticket",
            RoomError::UnknownTicket => "the ticket was never given out, or how it ended isn't kept any more",
            RoomError::NoSuchTable => "no table has this name",
            RoomError::Busy => "a batch isn't over",
            RoomError::TooManyRows => "the tables have more than 65,536 rows together",
            RoomError::NoNumber => "the epoch, or the next group, has the greatest number that there is",
            RoomError::Closed => "the room is closed",
        })
    }
}

impl StandardError for RoomError {
    fn source(&self) -> Option<&(dyn StandardError + 'static)> {
        self.numbered().map(|fault| fault as &(dyn StandardError + 'static))
    }
}

impl fmt::Display for BindingFault {
    fn fmt(&self, f: &mut fmt::Formatter<'_>) -> fmt::Result {
        f.write_str(match self {
            BindingFault::LeastNumber => return write!(f, "no script can spell the number {}", i64::MIN),
            BindingFault::Value(fault) => return fault.fmt(f),
            BindingFault::Twice => "it is bound twice",
            BindingFault::SetByScript => "the script gives it a value itself",
            BindingFault::Unused => "the script doesn't use it",
            BindingFault::NoName => "no host variable can have this name",
        })
    }
}

impl fmt::Display for RowFault {
    fn fmt(&self, f: &mut fmt::Formatter<'_>) -> fmt::Result {
        f.write_str(match self {
            RowFault::NoSuchTable => "there is no such table",
            RowFault::OtherLength => "it has another number of values than the table has columns",
            RowFault::OtherKind => "a value is of another kind than its column",
            RowFault::Value { fault, .. } => return fault.fmt(f),
        })
    }
}

impl fmt::Display for ValueFault {
    fn fmt(&self, f: &mut fmt::Formatter<'_>) -> fmt::Result {
        match self {
            ValueFault::TooLong => f.write_str("the text has more than 255 bytes"),
            ValueFault::ControlCharacter { offset } => {
                write!(f, "a control character stands at byte {offset} of the text")
            }
        }
    }
}
