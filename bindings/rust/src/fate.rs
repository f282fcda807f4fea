//! The futures of tickets.

use crate::counted::Counted;
use crate::refusal::RoomError;
use crate::room::Inner;
use crate::ticket::{Ending, Ticket};
use crate::waits::{Bed, Sleeper, WaitId};
use std::fmt;
use std::future::Future;
use std::pin::Pin;
use std::task::{Context, Poll};
use std::time::Instant;

/// How a ticket of a [`Room`](crate::Room) ends, once it has: see [`Room::fate`](crate::Room::fate).
#[must_use = "a future does nothing unless it is awaited"]
pub struct FutureFate {
    room: Counted<Inner>,
    ticket: Ticket,
    /// Its number among those who wait.
    id: Option<WaitId>,
}

impl fmt::Debug for FutureFate {
    fn fmt(&self, f: &mut fmt::Formatter<'_>) -> fmt::Result {
        f.debug_struct("FutureFate").field("ticket", &self.ticket).finish_non_exhaustive()
    }
}

impl FutureFate {
    pub(crate) fn new(room: Counted<Inner>, ticket: Ticket) -> Self {
        FutureFate { room, ticket, id: None }
    }

    /// How the ticket ended. If it hasn't, this sleeper is woken when it does.
    fn look(&mut self, sleeper: Sleeper) -> Option<Result<Ending, RoomError>> {
        let Some(id) = self.id else { return self.begin(sleeper).transpose() };
        let heard = self.room.waits().hear(self.ticket, id, sleeper);
        let told = heard.ok()?; // a sleeper that was there before is dropped here, where no lock is held
        self.id = None;
        Some(told.result())
    }

    /// The same, if nothing waits for it yet.
    fn begin(&mut self, sleeper: Sleeper) -> Result<Option<Ending>, RoomError> {
        let (room, ticket) = (&self.room, self.ticket);
        let id = &mut self.id;
        room.with(|kept| match kept.told(ticket) {
            Some(told) => told.result().map(Some),
            None => {
                *id = Some(room.waits().add(ticket, sleeper)?);
                Ok(None)
            }
        })
    }

    /// How the ticket ended, if it has by this time; if there is none, as soon as it has.
    pub(crate) fn wait_until(mut self, deadline: Option<Instant>) -> Result<Option<Ending>, RoomError> {
        let bed = Counted::new(Bed::default()).ok_or(RoomError::OutOfMemory)?;
        loop {
            if let Some(told) = self.look(Sleeper::Thread(bed.clone())) {
                return told.map(Some);
            }
            if !bed.sleep(deadline) {
                return self.look(Sleeper::Thread(bed)).transpose();
            }
        }
    }
}

impl Future for FutureFate {
    type Output = Result<Ending, RoomError>;

    fn poll(mut self: Pin<&mut Self>, context: &mut Context<'_>) -> Poll<Self::Output> {
        match self.look(Sleeper::Task(context.waker().clone())) {
            Some(told) => Poll::Ready(told),
            None => Poll::Pending,
        }
    }
}

impl Drop for FutureFate {
    fn drop(&mut self) {
        if let Some(id) = self.id {
            let sleeper = self.room.waits().forget(self.ticket, id);
            drop(sleeper); // what it runs may call the room: no lock is held
        }
    }
}
