//! The calls of rooms, and those of what rooms are given: bound values and rows.

use super::ent_c_room_groups;
use super::{DONE, Limits, MISUSED, OUT_OF_MEMORY, Opaque, REFUSED, SubmissionSeen, TicketPosition, Told};
use super::{buffered, fault_of};
use super::{ent_c_room_ended, ent_c_room_epoch, ent_c_room_explain, ent_c_room_free, ent_c_room_further};
use super::{ent_c_room_next_group, ent_c_room_open, ent_c_room_put, ent_c_room_report, ent_c_room_restore};
use super::{ent_c_room_settled_through, ent_c_room_state, ent_c_room_step, ent_c_room_submission};
use super::{ent_c_room_table, ent_c_room_turn, ent_c_room_waiting, ent_c_room_why, ent_c_room_withdraw};
use super::{ent_c_rows_begin, ent_c_rows_free, ent_c_rows_int, ent_c_rows_text};
use super::{ent_c_values_free, ent_c_values_int, ent_c_values_text};
use crate::fault::FaultKind;
use crate::library::fits;
use crate::refusal::{BindingFault, RoomError, RowFault, ValueFault};
use std::ptr::null_mut;

/// Why a name or a value isn't taken.
pub(crate) enum NotTaken {
    /// It is no name.
    NoName,
    /// No script can spell the number.
    LeastNumber,
    /// The text can't be a value.
    Text(ValueFault),
    /// The row has as many values as a table may have columns.
    TooMany,
    OutOfMemory,
}

/// What the status of a call says that takes a name or a value, which is this text if it is one.
fn taken(status: i32, refusal: u32, text: &str) -> Result<(), NotTaken> {
    Err(match (status, refusal) {
        (DONE, _) => return Ok(()),
        (OUT_OF_MEMORY, _) => NotTaken::OutOfMemory,
        (REFUSED, 3) => NotTaken::LeastNumber,
        (REFUSED, 4) => NotTaken::Text(ValueFault::TooLong),
        (REFUSED, 6) => {
            let offset = text.bytes().position(|byte| byte.is_ascii_control()).unwrap_or_default();
            NotTaken::Text(ValueFault::ControlCharacter { offset })
        }
        (REFUSED, 10) => NotTaken::NoName,
        (REFUSED, 17) => NotTaken::TooMany,
        other => unreachable!("a text of this crate is UTF-8, and no value is refused by {other:?}"),
    })
}

/// Values that are bound to host variables, for one call.
pub(crate) struct BoundValues {
    at: *mut Opaque,
}

// What is said of the calls of a driver holds for those of values, of rows and of a room: each passes the place of a
// pointer that is null or was written by the archive, and which `&mut` keeps from every other call.
impl BoundValues {
    pub(crate) fn new() -> Self {
        BoundValues { at: null_mut() }
    }

    pub(crate) fn add_int(&mut self, name: &str, number: i64) -> Result<(), NotTaken> {
        let mut refusal = 0;
        // SAFETY: as said above.
        let status = unsafe { ent_c_values_int(&mut self.at, name.as_ptr(), name.len(), number, &mut refusal) };
        taken(status, refusal, "")
    }

    pub(crate) fn add_text(&mut self, name: &str, text: &str) -> Result<(), NotTaken> {
        let mut refusal = 0;
        let (from, length) = (text.as_ptr(), text.len());
        // SAFETY: as said above.
        let status = unsafe { ent_c_values_text(&mut self.at, name.as_ptr(), name.len(), from, length, &mut refusal) };
        taken(status, refusal, text)
    }
}

impl Drop for BoundValues {
    fn drop(&mut self) {
        // SAFETY: as said above; it is dropped once, and the call leaves the pointer null.
        unsafe { ent_c_values_free(&mut self.at) }
    }
}

/// Rows of tables, for one room that is opened over them.
pub(crate) struct GivenRows {
    at: *mut Opaque,
}

impl GivenRows {
    /// None yet. A room is opened over these first: so here it is seen whether the library is the one of this crate.
    pub(crate) fn new() -> Self {
        fits();
        GivenRows { at: null_mut() }
    }

    /// Begins a row of the table of this name.
    pub(crate) fn begin(&mut self, table: &str) -> Result<(), NotTaken> {
        let mut refusal = 0;
        // SAFETY: as said above.
        let status = unsafe { ent_c_rows_begin(&mut self.at, table.as_ptr(), table.len(), &mut refusal) };
        taken(status, refusal, "")
    }

    /// Adds a value to the row that was begun last: there is one.
    pub(crate) fn add_int(&mut self, number: i64) -> Result<(), NotTaken> {
        let mut refusal = 0;
        // SAFETY: as said above.
        let status = unsafe { ent_c_rows_int(&mut self.at, number, &mut refusal) };
        taken(status, refusal, "")
    }

    /// The same with a text.
    pub(crate) fn add_text(&mut self, text: &str) -> Result<(), NotTaken> {
        let mut refusal = 0;
        // SAFETY: as said above.
        let status = unsafe { ent_c_rows_text(&mut self.at, text.as_ptr(), text.len(), &mut refusal) };
        taken(status, refusal, text)
    }
}

impl Drop for GivenRows {
    fn drop(&mut self) {
        // SAFETY: as said above; it is dropped once, and the call leaves the pointer null.
        unsafe { ent_c_rows_free(&mut self.at) }
    }
}

/// Why a call of a room does nothing.
pub(crate) enum NotDone {
    /// The variable of this place, in the order in which they were added, isn't bound.
    NotBound(usize, BindingFault),
    /// The row of this place, in the order in which they were begun, doesn't fit its table.
    NotARow(usize, RowFault),
    Error(RoomError),
}

/// For calls that bind nothing and take no rows.
impl From<NotDone> for RoomError {
    fn from(not_done: NotDone) -> Self {
        match not_done {
            NotDone::Error(error) => error,
            NotDone::NotBound(..) | NotDone::NotARow(..) => unreachable!("this call takes no values and no rows"),
        }
    }
}

/// What a status of a room's call says, whose room is open.
fn room_said(status: i32, refusal: u32, told: Told) -> Result<(), NotDone> {
    Err(match status {
        DONE => return Ok(()),
        REFUSED => refused(refusal, told),
        // a room that is there is open, and no pointer is null: so it is how long the script waits
        MISUSED => NotDone::Error(RoomError::NoPatience),
        OUT_OF_MEMORY => NotDone::Error(RoomError::OutOfMemory),
        other => unreachable!("no call with these arguments answers {other}"),
    })
}

/// The refusal of a number of `enum entangle_room_refusal`.
fn refused(number: u32, told: Told) -> NotDone {
    NotDone::Error(match number {
        1 => RoomError::Faulty(fault_of(FaultKind::Refused, told)),
        2 => RoomError::Full,
        7 => return NotDone::NotBound(told.offset, BindingFault::Twice),
        8 => return NotDone::NotBound(told.offset, BindingFault::SetByScript),
        9 => return NotDone::NotBound(told.offset, BindingFault::Unused),
        11 => RoomError::Used,
        12 if told.code == 0 => RoomError::NobodyWaits,
        12 => RoomError::NoSuchTable,
        13 => RoomError::Busy,
        14 => RoomError::TooManyRows,
        15 => RoomError::NoNumber,
        16 => return NotDone::NotARow(told.offset, RowFault::numbered(told.code)),
        other => unreachable!("no call of a room is refused by {other}"),
    })
}

/// The numbers from which a room counts on.
pub(crate) struct First {
    pub(crate) epoch: u64,
    pub(crate) ticket: u64,
    pub(crate) group: u64,
}

/// The one owner of what stands behind a room's pointer.
pub(crate) struct RoomHandle {
    at: *mut Opaque,
}

// SAFETY: as said of a driver's handle.
unsafe impl Send for RoomHandle {}

impl RoomHandle {
    /// Opens a room over an input and rows, which it takes.
    pub(crate) fn open(input: &[u8], mut rows: GivenRows, first: First, limits: Limits) -> Result<Self, NotDone> {
        let (mut handle, mut refusal, mut told) = (RoomHandle { at: null_mut() }, 0, Told::default());
        let (from, length, rows) = (input.as_ptr(), input.len(), &mut rows.at);
        // SAFETY: as said above.
        let status = unsafe {
            let First { epoch, ticket, group } = first;
            ent_c_room_open(&mut handle.at, from, length, rows, epoch, ticket, group, &limits, &mut refusal, &mut told)
        };
        room_said(status, refusal, told).map(|()| handle)
    }

    pub(crate) fn put(&mut self, script: &[u8], values: &mut BoundValues, patience: i64) -> Result<u64, NotDone> {
        let (mut ticket, mut refusal, mut told) = (0, 0, Told::default());
        let (from, length, values) = (script.as_ptr(), script.len(), &mut values.at);
        // SAFETY: as said above.
        let status = unsafe {
            ent_c_room_put(&mut self.at, from, length, values, patience, &mut ticket, &mut refusal, &mut told)
        };
        room_said(status, refusal, told).map(|()| ticket)
    }

    pub(crate) fn restore(
        &mut self,
        ticket: u64,
        script: &[u8],
        values: &mut BoundValues,
        patience: i64,
        batches: u64,
    ) -> Result<(), NotDone> {
        let (mut refusal, mut told) = (0, Told::default());
        let (from, length, values) = (script.as_ptr(), script.len(), &mut values.at);
        // SAFETY: as said above.
        let status = unsafe {
            ent_c_room_restore(&mut self.at, ticket, from, length, values, patience, batches, &mut refusal, &mut told)
        };
        room_said(status, refusal, told)
    }

    /// What is said of the fault of a script with these values, if there is one.
    pub(crate) fn explain(&mut self, script: &[u8], values: &mut BoundValues) -> Result<Option<String>, RoomError> {
        let (status, text, told) = buffered(&mut self.at, |at, buffer, told| {
            let (from, length, values) = (script.as_ptr(), script.len(), &mut values.at);
            // SAFETY: as said above.
            unsafe { ent_c_room_explain(at, from, length, values, buffer.as_mut_ptr(), buffer.len(), told) }
        })?;
        match status {
            REFUSED => Ok(Some(text)),
            status => Ok(room_said(status, 0, told).map(|()| None)?),
        }
    }

    pub(crate) fn withdraw(&mut self, ticket: u64) -> Result<(), RoomError> {
        let mut refusal = 0;
        // SAFETY: as said above.
        let status = unsafe { ent_c_room_withdraw(&mut self.at, ticket, &mut refusal) };
        Ok(room_said(status, refusal, Told::default())?)
    }

    pub(crate) fn step(&mut self) -> Result<u32, RoomError> {
        let (mut step, mut refusal) = (0, 0);
        // SAFETY: as said above.
        let status = unsafe { ent_c_room_step(&mut self.at, &mut step, &mut refusal) };
        Ok(room_said(status, refusal, Told::default()).map(|()| step)?)
    }

    pub(crate) fn further(&mut self) -> Result<(), RoomError> {
        let mut refusal = 0;
        // SAFETY: as said above.
        let status = unsafe { ent_c_room_further(&mut self.at, &mut refusal) };
        Ok(room_said(status, refusal, Told::default())?)
    }

    pub(crate) fn state(&mut self, ticket: u64) -> TicketPosition {
        let mut state = TicketPosition::default();
        // SAFETY: as said above.
        let status = unsafe { ent_c_room_state(&mut self.at, ticket, &mut state) };
        assert_eq!(status, DONE, "each ticket of an open room has a state");
        state
    }

    /// How a ticket stands, in a line.
    pub(crate) fn why(&mut self, ticket: u64) -> Result<String, RoomError> {
        let (status, text, told) = buffered(&mut self.at, |at, buffer, told| {
            // SAFETY: as said above.
            unsafe { ent_c_room_why(at, ticket, buffer.as_mut_ptr(), buffer.len(), told) }
        })?;
        Ok(room_said(status, 0, told).map(|()| text)?)
    }

    /// The first ticket from this one on under which somebody waits.
    pub(crate) fn waiting(&mut self, from: u64) -> Option<u64> {
        let mut ticket = 0;
        // SAFETY: as said above.
        let status = unsafe { ent_c_room_waiting(&mut self.at, from, &mut ticket) };
        (status == DONE).then_some(ticket)
    }

    /// The ticket that ended last but so many, if it is kept.
    pub(crate) fn ended(&mut self, back: u64) -> Option<u64> {
        let mut ticket = 0;
        // SAFETY: as said above.
        let status = unsafe { ent_c_room_ended(&mut self.at, back, &mut ticket) };
        (status == DONE).then_some(ticket)
    }

    /// The transaction that the script of a ticket was at this place of the order, if it was one.
    pub(crate) fn submission(&mut self, ticket: u64, place: u64) -> Option<SubmissionSeen> {
        let mut submission = SubmissionSeen::default();
        // SAFETY: as said above.
        let status = unsafe { ent_c_room_submission(&mut self.at, ticket, place, &mut submission) };
        (status == DONE).then_some(submission)
    }

    pub(crate) fn table(&mut self, name: &[u8]) -> Result<String, RoomError> {
        let (status, text, _) = buffered(&mut self.at, |at, buffer, told| {
            // SAFETY: as said above.
            unsafe { ent_c_room_table(at, name.as_ptr(), name.len(), buffer.as_mut_ptr(), buffer.len(), told) }
        })?;
        match status {
            REFUSED => Err(RoomError::NoSuchTable),
            status => Ok(room_said(status, 0, Told::default()).map(|()| text)?),
        }
    }

    /// The lines of the groups from a number on that are kept.
    pub(crate) fn groups(&mut self, number: u64) -> Result<String, RoomError> {
        let (status, lines, told) = buffered(&mut self.at, |at, buffer, told| {
            // SAFETY: as said above.
            unsafe { ent_c_room_groups(at, number, buffer.as_mut_ptr(), buffer.len(), told) }
        })?;
        Ok(room_said(status, 0, told).map(|()| lines)?)
    }

    pub(crate) fn next_group(&mut self) -> u64 {
        let mut number = 0;
        // SAFETY: as said above.
        let status = unsafe { ent_c_room_next_group(&mut self.at, &mut number) };
        assert_eq!(status, DONE, "an open room has a feed");
        number
    }

    pub(crate) fn settled_through(&mut self, number: u64) {
        // SAFETY: as said above.
        let status = unsafe { ent_c_room_settled_through(&mut self.at, number) };
        assert_eq!(status, DONE, "an open room has a feed");
    }

    pub(crate) fn epoch(&mut self) -> u64 {
        let mut epoch = 0;
        // SAFETY: as said above.
        let status = unsafe { ent_c_room_epoch(&mut self.at, &mut epoch) };
        assert_eq!(status, DONE, "an open room is in an epoch");
        epoch
    }

    pub(crate) fn turn(&mut self, drained: &str) -> Result<(), RoomError> {
        let (mut refusal, mut told) = (0, Told::default());
        // SAFETY: as said above.
        let status = unsafe { ent_c_room_turn(&mut self.at, drained.as_ptr(), drained.len(), &mut refusal, &mut told) };
        Ok(room_said(status, refusal, told)?)
    }

    /// The report of the last epoch that ended, with its number, if one ended.
    pub(crate) fn report(&mut self, version: u32) -> Result<Option<(u64, String)>, RoomError> {
        let mut epoch = 0;
        let (status, text, told) = buffered(&mut self.at, |at, buffer, told| {
            // SAFETY: as said above.
            unsafe { ent_c_room_report(at, version, buffer.as_mut_ptr(), buffer.len(), &mut epoch, told) }
        })?;
        match status {
            REFUSED => Ok(None),
            status => Ok(room_said(status, 0, told).map(|()| Some((epoch, text)))?),
        }
    }
}

impl Drop for RoomHandle {
    fn drop(&mut self) {
        // SAFETY: as said of a driver's handle.
        unsafe { ent_c_room_free(&mut self.at) }
    }
}
