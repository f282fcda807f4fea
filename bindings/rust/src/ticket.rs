//! Tickets of a room, and how they stand.

use crate::driver::Failure;
use std::fmt;

/// The ticket of a script that was put into a [`Room`](crate::Room). One with a greater number was given out later, and
/// none is given out twice.
///
/// A caller who keeps tickets outside the process keeps their numbers, and gives them to
/// [`Room::restore`](crate::Room::restore) again.
#[derive(Clone, Copy, Debug, PartialEq, Eq, PartialOrd, Ord, Hash)]
pub struct Ticket(u64);

impl Ticket {
    /// The ticket of a number.
    pub const fn new(number: u64) -> Self {
        Ticket(number)
    }

    /// Its number.
    pub const fn number(self) -> u64 {
        self.0
    }
}

/// Its number.
impl fmt::Display for Ticket {
    fn fmt(&self, f: &mut fmt::Formatter<'_>) -> fmt::Result {
        self.0.fmt(f)
    }
}

/// How a script ended that waits no more.
#[derive(Clone, Copy, Debug, PartialEq, Eq, Hash)]
#[non_exhaustive]
pub enum Ending {
    /// It committed.
    Committed {
        /// In this epoch.
        epoch: u64,
        /// The number of the commit in that epoch, from 1.
        number: u64,
    },
    /// It ends with ROLLBACK.
    RolledBack,
    /// A statement failed.
    Failed(Failure),
    /// It was in as many batches as its [`Patience`](crate::Patience) allows.
    GaveUp,
    /// It was withdrawn.
    Withdrawn,
}

/// How a ticket stands.
#[derive(Clone, Copy, Debug, PartialEq, Eq, Hash)]
#[non_exhaustive]
pub enum TicketState {
    /// It waits.
    Waits {
        /// In how many batches it was that count against its patience.
        batches: u64,
    },
    /// It waits, and nobody else who waits may offer one of its demands.
    Lonely {
        /// Which demand, from 0, in the order of the script's text.
        demand: u64,
    },
    /// It waits, and each of its demands may be met by somebody, but no meeting of it was found.
    NoMeeting,
    /// It waits, and a bound was reached: there may be more meetings of it. It goes on once something changes for it,
    /// or after [`Room::further`](crate::Room::further).
    Cut,
    /// It is in a batch that isn't over, since memory ran out. The next step goes on with it.
    InBatch,
    /// It waits no more.
    Ended(Ending),
    /// The ticket was never given out, or how it ended isn't kept any more.
    Unknown,
}

impl TicketState {
    /// How it ended, if it has.
    pub fn ending(self) -> Option<Ending> {
        match self {
            TicketState::Ended(ending) => Some(ending),
            _ => None,
        }
    }
}

/// A transaction that a script was: one that isn't answered is another one in each batch.
#[derive(Clone, Copy, Debug, PartialEq, Eq, Hash)]
pub struct Submission {
    /// The epoch.
    pub epoch: u64,
    /// The number of the transaction in the report of that epoch, from 1.
    pub tx: u64,
}
