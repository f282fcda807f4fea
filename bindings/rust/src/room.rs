//! Rooms: scripts wait until those whom they need are there.

use crate::Version;
use crate::answer::table_in;
use crate::call::room::{First, RoomHandle};
use crate::call::{Limits, TicketPosition};
use crate::counted::Counted;
use crate::driver::{Failure, read};
use crate::fate::FutureFate;
use crate::given::{bound, error_of_rows, error_of_values, given};
use crate::group::{Group, groups_in};
use crate::refusal::RoomError;
use crate::ticket::{Ending, Submission, Ticket, TicketState};
use crate::value::{Row, Value};
use crate::waits::{News, Waits};
use std::fmt;
use std::sync::{Mutex, MutexGuard, PoisonError};
use std::time::{Duration, Instant};

/// How a room begins.
///
/// ```
/// use entangle::{Room, RoomOptions, Ticket};
///
/// let options = RoomOptions::default().next_ticket(Ticket::new(18)).most_waiters(1_000);
/// let room = Room::open_with("CREATE TABLE Flights (fno INT);", options)?;
/// # Ok::<(), entangle::RoomError>(())
/// ```
#[derive(Clone, Copy, Debug, PartialEq, Eq)]
#[must_use]
pub struct RoomOptions {
    epoch: u64,
    next_ticket: Ticket,
    next_group: u64,
    most_waiters: u64,
    most_ended: u64,
}

impl Default for RoomOptions {
    /// The first epoch, the first ticket and the first group have the number 1, 100,000 scripts may wait, and of the
    /// last 1,024 that ended it is kept how.
    fn default() -> Self {
        RoomOptions { epoch: 1, next_ticket: Ticket::new(1), next_group: 1, most_waiters: 100_000, most_ended: 1_024 }
    }
}

impl RoomOptions {
    /// The first epoch has this number.
    pub fn epoch(self, epoch: u64) -> Self {
        RoomOptions { epoch, ..self }
    }

    /// The first script that is put gets this ticket. Those below it are of an earlier process: [`Room::restore`].
    pub fn next_ticket(self, next_ticket: Ticket) -> Self {
        RoomOptions { next_ticket, ..self }
    }

    /// The first group has this number. Those below it are of an earlier process.
    pub fn next_group(self, next_group: u64) -> Self {
        RoomOptions { next_group, ..self }
    }

    /// So many scripts may wait at once.
    pub fn most_waiters(self, most_waiters: u64) -> Self {
        RoomOptions { most_waiters, ..self }
    }

    /// Of the last so many that ended it is kept how. A step ends 128 at most: with fewer than these, a wait may be
    /// told that how its ticket ended isn't kept.
    pub fn most_ended(self, most_ended: u64) -> Self {
        RoomOptions { most_ended, ..self }
    }
}

/// For how long a script waits.
#[derive(Clone, Copy, Debug, Default, PartialEq, Eq, Hash)]
#[non_exhaustive]
pub enum Patience {
    /// For as many batches as its WITHIN says: 8 if it has none.
    #[default]
    AsWritten,
    /// For so many batches that count, from 1 to 1,000. A script that meets nobody is in no batch.
    Batches(u32),
    /// Until it is withdrawn.
    UntilWithdrawn,
}

impl Patience {
    /// As `include/entangle.h` has it.
    fn number(self) -> Result<i64, RoomError> {
        match self {
            Patience::AsWritten => Ok(-1),
            Patience::Batches(0) => Err(RoomError::NoPatience),
            Patience::Batches(batches) => Ok(batches.into()),
            Patience::UntilWithdrawn => Ok(0),
        }
    }
}

/// What a step did.
#[derive(Clone, Copy, Debug, PartialEq, Eq, Hash)]
#[non_exhaustive]
pub enum Stepped {
    /// There was nothing to do, and there is nothing until a script is put or restored.
    Idle,
    /// No run was made, and there is more to look at.
    Searched,
    /// At least one run was made.
    Ran,
}

/// The report of an epoch.
#[derive(Clone, Debug, PartialEq, Eq, Hash)]
pub struct EpochReport {
    /// The number of the epoch.
    pub epoch: u64,
    /// The report.
    pub text: String,
}

/// Tables, and scripts that wait. A script comes into a run only together with those whom it needs.
///
/// Two friends fly on one flight, whichever it is. Each puts the same script, with values of their own:
///
/// ```
/// use entangle::{Ending, Patience, Room, Stepped};
///
/// let room = Room::open(
///     "CREATE TABLE Flights (fno INT, dest TEXT); CREATE TABLE Bookings (who TEXT, fno INT);
///      INSERT INTO Flights VALUES (122, 'LA'); INSERT INTO Flights VALUES (136, 'Paris');",
/// )?;
/// let trip = "BEGIN TRANSACTION;
///     SELECT @me, fno AS @fno INTO ANSWER Trip
///       WHERE fno IN (SELECT fno FROM Flights WHERE dest = @dest) AND (@friend, fno) IN ANSWER Trip CHOOSE 1;
///     INSERT INTO Bookings VALUES (@me, @fno);
///     COMMIT;";
/// let values = |me: &str, friend: &str| [("me", me.into()), ("friend", friend.into()), ("dest", "LA".into())];
///
/// let mickey = room.put(trip, &values("Mickey", "Minnie"), Patience::UntilWithdrawn)?;
/// while room.step()? != Stepped::Idle {} // Minnie isn't there: Mickey waits, and is in nobody's way
///
/// let minnie = room.put(trip, &values("Minnie", "Mickey"), Patience::UntilWithdrawn)?;
/// while room.step()? != Stepped::Idle {}
/// assert!(matches!(room.wait(mickey)?, Ending::Committed { .. }));
/// assert!(matches!(room.wait(minnie)?, Ending::Committed { .. }));
/// assert!(room.table("Bookings")?.iter().all(|booking| booking[1] == 122));
/// # Ok::<(), entangle::RoomError>(())
/// ```
///
/// Threads may share a room: a lock inside gives it to one call at a time. So one thread makes steps, and others put
/// scripts and wait for their ends, by [`Room::wait`] or by the futures of [`Room::fate`]. Each end is told by the call
/// that brings it; nothing polls.
///
/// [`Room::groups`] tells what the steps did. It stays in memory until [`Room::settled_through`] says that it stands
/// elsewhere, also if nobody asks for it.
pub struct Room {
    inner: Counted<Inner>,
}

/// What a room and its futures share. Who takes both locks takes that of the room first.
pub(crate) struct Inner {
    /// Nothing once the room is closed.
    kept: Mutex<Option<Kept>>,
    waits: Mutex<Waits>,
}

/// What is behind the lock of a room.
pub(crate) struct Kept {
    handle: RoomHandle,
    most_ended: u64,
    /// The ticket that ended last, of those whose waits were told.
    last_ended: Option<u64>,
}

/// What a lock guards, once no other thread has it.
pub(crate) fn locked<T>(mutex: &Mutex<T>) -> MutexGuard<'_, T> {
    // a thread that panicked over it has left it whole: each call leaves it so
    mutex.lock().unwrap_or_else(PoisonError::into_inner)
}

impl Inner {
    pub(crate) fn waits(&self) -> MutexGuard<'_, Waits> {
        locked(&self.waits)
    }

    /// Makes a call of the room, if it isn't closed.
    pub(crate) fn with<T>(&self, call: impl FnOnce(&mut Kept) -> Result<T, RoomError>) -> Result<T, RoomError> {
        call(locked(&self.kept).as_mut().ok_or(RoomError::Closed)?)
    }

    /// Makes a call that may end tickets, and tells those who wait for them.
    fn telling<T>(&self, call: impl FnOnce(&mut RoomHandle) -> Result<T, RoomError>) -> Result<T, RoomError> {
        let answer = self.with(|kept| {
            let answer = call(&mut kept.handle);
            kept.tell_ended(&mut self.waits());
            answer
        });
        self.wake();
        answer
    }

    /// Wakes those who were told, one after the other, with no lock held: what wakes one may call the room.
    fn wake(&self) {
        loop {
            let Some(sleeper) = self.waits().woken() else { break };
            sleeper.wake();
        }
    }

    /// Frees the room, and tells all who wait that it is closed.
    fn close(&self) {
        let kept = locked(&self.kept).take();
        self.waits().tell_each(|_| Some(News::Closed));
        self.wake();
        drop(kept);
    }
}

impl Kept {
    pub(crate) fn state(&mut self, ticket: Ticket) -> TicketState {
        state_of(self.handle.state(ticket.number()))
    }

    /// What is told of a ticket that waits no more.
    pub(crate) fn told(&mut self, ticket: Ticket) -> Option<News> {
        match self.state(ticket) {
            TicketState::Ended(ending) => Some(News::Ended(ending)),
            TicketState::Unknown => Some(News::NotKept),
            _ => None,
        }
    }

    /// Tells those who wait for tickets that ended since it was last told: these are the last ones that ended.
    fn tell_ended(&mut self, waits: &mut Waits) {
        let before = self.last_ended;
        let mut back = 0;
        while let Some(ticket) = self.handle.ended(back).filter(|ticket| Some(*ticket) != before) {
            if back == 0 {
                self.last_ended = Some(ticket);
            }
            let ticket = Ticket::new(ticket);
            waits.tell(ticket, || self.told(ticket).unwrap_or(News::NotKept));
            back += 1;
        }
        if back >= self.most_ended {
            // more may have ended than are kept
            waits.tell_each(|ticket| self.told(ticket));
        }
    }
}

fn state_of(position: TicketPosition) -> TicketState {
    let TicketPosition { batches, demand, epoch, number, kind, failure } = position;
    TicketState::Ended(match kind {
        0 => return TicketState::Unknown,
        1 => return TicketState::Waits { batches },
        2 => return TicketState::Lonely { demand },
        3 => return TicketState::NoMeeting,
        10 => return TicketState::Cut,
        4 => return TicketState::InBatch,
        5 => Ending::Committed { epoch, number },
        6 => Ending::RolledBack,
        7 => Ending::Failed(Failure::numbered(failure)),
        8 => Ending::GaveUp,
        9 => Ending::Withdrawn,
        other => unreachable!("a ticket stands in one of eleven ways, and {other} isn't one"),
    })
}

impl fmt::Debug for Room {
    fn fmt(&self, f: &mut fmt::Formatter<'_>) -> fmt::Result {
        f.debug_struct("Room").finish_non_exhaustive()
    }
}

impl Room {
    /// Opens a room over an input: its tables with their rows. Scripts that it has are put in order, to wait for as
    /// long as they say.
    ///
    /// # Errors
    ///
    /// The first fault of the input; or that memory ran out.
    pub fn open(opening: &str) -> Result<Self, RoomError> {
        Room::open_with(opening, RoomOptions::default())
    }

    /// As [`Room::open`], with other options.
    ///
    /// # Errors
    ///
    /// As [`Room::open`]; or that the input has more scripts than may wait.
    pub fn open_with(opening: &str, options: RoomOptions) -> Result<Self, RoomError> {
        Room::open_rows(opening, &[], options)
    }

    /// As [`Room::open_with`], over an input and further rows of its tables, as [`Room::table`] gives them.
    ///
    /// ```
    /// use entangle::{Room, RoomOptions};
    ///
    /// let flights = [vec![122.into(), "LA".into()], vec![136.into(), "L'Aquila".into()]];
    /// let declarations = "CREATE TABLE Flights (fno INT, dest TEXT);";
    /// let room = Room::open_rows(declarations, &[("Flights", &flights)], RoomOptions::default())?;
    /// assert_eq!(room.table("Flights")?, flights);
    /// # Ok::<(), entangle::RoomError>(())
    /// ```
    ///
    /// # Errors
    ///
    /// The first row that can't be one of any table ([`RoomError::NotARow`]); else the first fault of the input; that
    /// there are more than 65,536 rows together (E407); the first row that doesn't fit its table; that the input has
    /// more scripts than may wait; or that memory ran out.
    pub fn open_rows(opening: &str, tables: &[(&str, &[Row])], options: RoomOptions) -> Result<Self, RoomError> {
        let RoomOptions { epoch, next_ticket, next_group, most_waiters, most_ended } = options;
        let first = First { epoch, ticket: next_ticket.number(), group: next_group };
        let limits = Limits { most_waiters, most_ended };
        let opened = RoomHandle::open(opening.as_bytes(), given(tables)?, first, limits);
        let mut handle = opened.map_err(|not_done| error_of_rows(not_done, tables))?;
        let last_ended = handle.ended(0);
        let kept = Mutex::new(Some(Kept { handle, most_ended, last_ended }));
        let inner = Counted::new(Inner { kept, waits: Mutex::default() }).ok_or(RoomError::OutOfMemory)?;
        Ok(Room { inner })
    }

    /// Puts the script of a text that has this script alone, with values bound to its host variables, which are named
    /// without the `@`. It waits from then on. A bound value is a value wherever it stands: nothing has to be quoted.
    ///
    /// # Errors
    ///
    /// A value that can't be bound; else the script's first fault, with its place in this text; that as many wait as
    /// there may be; or that memory ran out. Nothing has changed then.
    pub fn put(&self, script: &str, values: &[(&str, Value)], patience: Patience) -> Result<Ticket, RoomError> {
        let (mut bound, patience) = (bound(values)?, patience.number()?);
        self.inner.with(|kept| {
            let put = kept.handle.put(script.as_bytes(), &mut bound, patience);
            put.map(Ticket::new).map_err(|not_done| error_of_values(not_done, values))
        })
    }

    /// Puts a script again that waited in an earlier process: under its ticket, and after so many batches that count.
    /// They come in the order of their tickets, which are less than [`RoomOptions::next_ticket`].
    ///
    /// # Errors
    ///
    /// As [`Room::put`]; or that the ticket can't come in again.
    pub fn restore(
        &self,
        ticket: Ticket,
        script: &str,
        values: &[(&str, Value)],
        patience: Patience,
        batches: u64,
    ) -> Result<(), RoomError> {
        let (mut bound, patience) = (bound(values)?, patience.number()?);
        self.inner.with(|kept| {
            let restored = kept.handle.restore(ticket.number(), script.as_bytes(), &mut bound, patience, batches);
            restored.map_err(|not_done| error_of_values(not_done, values))
        })
    }

    /// What is said of the fault of a script with these values, as [`explain`](crate::explain) says it of an input, in
    /// the lines of this text. `None` if [`Room::put`] would refuse neither the script nor its values. Nothing is put;
    /// so ask if that answered [`RoomError::Faulty`].
    ///
    /// ```
    /// use entangle::{Patience, Room};
    ///
    /// let room = Room::open("CREATE TABLE Flights (fno INT);")?;
    /// let script = "BEGIN TRANSACTION;\nINSERT INTO Flight VALUES (@fno);\nCOMMIT;";
    /// let values = [("fno", 122.into())];
    /// assert!(room.put(script, &values, Patience::AsWritten).is_err());
    /// let said = "E301 at 31\n\
    ///     line 2, column 13: there is no table Flight\n  \
    ///     INSERT INTO Flight VALUES (@fno);\n              ^^^^^^\n\
    ///     did you mean Flights?\n";
    /// assert_eq!(room.explain(script, &values)?.as_deref(), Some(said));
    /// # Ok::<(), entangle::RoomError>(())
    /// ```
    ///
    /// # Errors
    ///
    /// A value that no host variable can have, or a name that none can have ([`RoomError::NotBound`]); that the room is
    /// closed; or that memory ran out.
    pub fn explain(&self, script: &str, values: &[(&str, Value)]) -> Result<Option<String>, RoomError> {
        let mut bound = bound(values)?;
        self.inner.with(|kept| kept.handle.explain(script.as_bytes(), &mut bound))
    }

    /// A script waits no more, and will never commit.
    ///
    /// # Errors
    ///
    /// Nobody waits under this ticket; it is in a batch that isn't over, since memory ran out; or memory ran out.
    pub fn withdraw(&self, ticket: Ticket) -> Result<(), RoomError> {
        self.inner.telling(|handle| handle.withdraw(ticket.number()))
    }

    /// Makes runs, each of a script that needs nobody or of scripts that may meet, as many as a step's work allows. To
    /// have all done that can be done, make steps until one is [`Stepped::Idle`].
    ///
    /// # Errors
    ///
    /// The epoch would have to end, and its tables have too many rows together, or its number is the greatest: nothing
    /// has changed then. Or there is no number for a further group: what was done stands, and isn't told. Or memory ran
    /// out: what was done stands, and the next step goes on.
    pub fn step(&self) -> Result<Stepped, RoomError> {
        let step = self.inner.telling(RoomHandle::step)?;
        Ok(match step {
            1 => Stepped::Idle,
            2 => Stepped::Searched,
            3 => Stepped::Ran,
            other => unreachable!("a step does one of three things, and {other} isn't one"),
        })
    }

    /// Has those go on who are cut ([`TicketState::Cut`]): each may try as many meetings again, in the next steps.
    /// Without it they go on once something changes for them.
    ///
    /// # Errors
    ///
    /// Memory ran out: some of them go on.
    pub fn further(&self) -> Result<(), RoomError> {
        self.inner.with(|kept| kept.handle.further())
    }

    /// How a ticket stands.
    ///
    /// # Errors
    ///
    /// The room is closed.
    pub fn state(&self, ticket: Ticket) -> Result<TicketState, RoomError> {
        self.inner.with(|kept| Ok(kept.state(ticket)))
    }

    /// How a ticket stands, in words.
    ///
    /// # Errors
    ///
    /// The room is closed; or memory ran out.
    pub fn why(&self, ticket: Ticket) -> Result<String, RoomError> {
        let mut line = self.inner.with(|kept| kept.handle.why(ticket.number()))?;
        line.truncate(line.trim_end().len());
        Ok(line)
    }

    /// The tickets under which somebody waits, ascending.
    ///
    /// # Errors
    ///
    /// The room is closed; or memory ran out.
    pub fn waiting(&self) -> Result<Vec<Ticket>, RoomError> {
        self.inner.with(|kept| {
            let (mut tickets, mut from) = (Vec::new(), Some(0));
            while let Some(ticket) = from.and_then(|from| kept.handle.waiting(from)) {
                tickets.try_reserve(1)?;
                tickets.push(Ticket::new(ticket));
                from = ticket.checked_add(1);
            }
            Ok(tickets)
        })
    }

    /// The transactions that the script of a ticket was, in order: each is in the report of its epoch.
    ///
    /// # Errors
    ///
    /// The room is closed; or memory ran out.
    pub fn submissions(&self, ticket: Ticket) -> Result<Vec<Submission>, RoomError> {
        self.inner.with(|kept| {
            let mut submissions = Vec::new();
            while let Some(seen) = kept.handle.submission(ticket.number(), submissions.len() as u64) {
                submissions.try_reserve(1)?;
                submissions.push(Submission { epoch: seen.epoch, tx: seen.tx });
            }
            Ok(submissions)
        })
    }

    /// The rows of a table, ascending.
    ///
    /// # Errors
    ///
    /// No table has this name (E401); or memory ran out.
    pub fn table(&self, name: &str) -> Result<Vec<Row>, RoomError> {
        let lines = self.inner.with(|kept| kept.handle.table(name.as_bytes()))?;
        read(table_in(&lines))
    }

    /// The number of the present epoch.
    ///
    /// # Errors
    ///
    /// The room is closed.
    pub fn epoch(&self) -> Result<u64, RoomError> {
        self.inner.with(|kept| Ok(kept.handle.epoch()))
    }

    /// Ends the present epoch, whose number it gives: [`Room::report`] has its report then. The next one begins with
    /// the same tables, but that these are empty. Who waits goes on waiting.
    ///
    /// A step that needs a new epoch ends the present one by itself. So turn to have its report, or to drain tables
    /// that only collect.
    ///
    /// # Errors
    ///
    /// A name that no table has (E401); that the other tables have more than 65,536 rows together (E407); that a batch
    /// isn't over, since memory ran out; that the epoch has the greatest number; or that memory ran out. Nothing has
    /// changed then.
    pub fn turn(&self, drained: &[&str]) -> Result<u64, RoomError> {
        let mut names = String::new();
        for name in drained {
            // names go behind one another with spaces between: one with a space would be two
            if name.is_empty() || name.contains(' ') {
                return Err(RoomError::NoSuchTable);
            }
            names.try_reserve(name.len() + 1)?;
            names.push_str(name);
            names.push(' ');
        }
        self.inner.with(|kept| {
            let epoch = kept.handle.epoch();
            kept.handle.turn(&names).map(|()| epoch)
        })
    }

    /// The report of the last epoch that ended, by a turn or by a step. `None` if none ended yet.
    ///
    /// # Errors
    ///
    /// The room is closed; or memory ran out.
    pub fn report(&self, version: Version) -> Result<Option<EpochReport>, RoomError> {
        let report = self.inner.with(|kept| kept.handle.report(version.number()))?;
        Ok(report.map(|(epoch, text)| EpochReport { epoch, text }))
    }

    /// The groups from this number on that are kept: in order, what was committed and what changed, and who else ended;
    /// but not who was withdrawn, nor rows that a turn drained. After a step without an error they tell all that was
    /// done. They are kept until [`Room::settled_through`] says that they stand elsewhere.
    ///
    /// ```
    /// # use entangle::{Patience, Room, Row, Stepped};
    /// # fn write(table: &str, removed: &[Row], added: &[Row]) {}
    /// # let room = Room::open("CREATE TABLE T (a INT);")?;
    /// # room.put("BEGIN TRANSACTION; INSERT INTO T VALUES (@a); COMMIT;", &[("a", 1.into())], Patience::AsWritten)?;
    /// while room.step()? != Stepped::Idle {}
    /// for group in room.groups(0)? {
    ///     for change in &group.changes {
    ///         write(&change.table, &change.removed, &change.added); // all of a group in one transaction
    ///     }
    ///     room.settled_through(group.number)?;
    /// }
    /// # assert_eq!((room.groups(0)?.len(), room.next_group()?), (0, 2));
    /// # Ok::<(), entangle::RoomError>(())
    /// ```
    ///
    /// # Errors
    ///
    /// The room is closed; or memory ran out.
    pub fn groups(&self, first: u64) -> Result<Vec<Group>, RoomError> {
        let lines = self.inner.with(|kept| kept.handle.groups(first))?;
        read(groups_in(&lines))
    }

    /// The number of the next group.
    ///
    /// # Errors
    ///
    /// The room is closed.
    pub fn next_group(&self) -> Result<u64, RoomError> {
        self.inner.with(|kept| Ok(kept.handle.next_group()))
    }

    /// The groups up to this number are kept no longer, which frees their memory. Numbers go on as before.
    ///
    /// # Errors
    ///
    /// The room is closed.
    pub fn settled_through(&self, number: u64) -> Result<(), RoomError> {
        self.inner.with(|kept| {
            kept.handle.settled_through(number);
            Ok(())
        })
    }

    /// Waits until a ticket has ended, and tells how.
    ///
    /// # Errors
    ///
    /// The ticket was never given out, or how it ended isn't kept; the room is closed, maybe meanwhile; or memory ran
    /// out.
    pub fn wait(&self, ticket: Ticket) -> Result<Ending, RoomError> {
        let ending = self.fate(ticket).wait_until(None)?;
        Ok(ending.expect("without a deadline there is an end or an error"))
    }

    /// As [`Room::wait`], for so long at most. `None` if it hasn't ended by then, and waits on.
    ///
    /// # Errors
    ///
    /// As [`Room::wait`].
    pub fn wait_timeout(&self, ticket: Ticket, timeout: Duration) -> Result<Option<Ending>, RoomError> {
        self.fate(ticket).wait_until(Instant::now().checked_add(timeout))
    }

    /// A future of how a ticket ends, with the errors of [`Room::wait`]. It may outlive the room, whose end it tells as
    /// [`RoomError::Closed`]. To drop it withdraws nothing.
    ///
    /// ```
    /// # use entangle::{Patience, Room, RoomError};
    /// async fn booked(room: &Room, trip: &str) -> Result<bool, RoomError> {
    ///     let ticket = room.put(trip, &[("me", "Mickey".into())], Patience::UntilWithdrawn)?;
    ///     Ok(matches!(room.fate(ticket).await?, entangle::Ending::Committed { .. }))
    /// }
    /// ```
    pub fn fate(&self, ticket: Ticket) -> FutureFate {
        FutureFate::new(self.inner.clone(), ticket)
    }

    /// Closes the room and gives its memory back. All that wait for a ticket are told so, and so is each later call.
    /// Dropping a room closes it too.
    pub fn close(&self) {
        self.inner.close();
    }
}

impl Drop for Room {
    fn drop(&mut self) {
        self.inner.close();
    }
}
