//! The calls of the archive, made safely: those of drivers and those without one; `room` has those of rooms.

pub(crate) mod room;

use crate::fault::{Error, Fault, FaultKind, Place};
use crate::library::fits;
use std::collections::TryReserveError;
use std::ptr::null_mut;
use std::str::from_utf8;

/// What a call tells beside its text: `struct entangle_told` of `include/entangle.h`.
#[repr(C)]
#[derive(Clone, Copy, Default)]
struct Told {
    needed: usize,
    offset: usize,
    line: usize,
    column: usize,
    code: u16,
    has_place: bool,
}

/// Where a transaction stands: `struct entangle_position`.
#[repr(C)]
#[derive(Clone, Copy, Default)]
pub(crate) struct Position {
    pub(crate) runs: u64,
    pub(crate) number: u64,
    pub(crate) kind: u32,
    pub(crate) failure: u32,
}

/// How many may wait in a room, and of how many that ended it is kept how: `struct entangle_limits`.
#[repr(C)]
#[derive(Clone, Copy)]
pub(crate) struct Limits {
    pub(crate) most_waiters: u64,
    pub(crate) most_ended: u64,
}

/// How a ticket stands: `struct entangle_ticket_state`.
#[repr(C)]
#[derive(Clone, Copy, Default)]
pub(crate) struct TicketPosition {
    pub(crate) batches: u64,
    pub(crate) demand: u64,
    pub(crate) epoch: u64,
    pub(crate) number: u64,
    pub(crate) kind: u32,
    pub(crate) failure: u32,
}

/// A transaction that a script was: `struct entangle_submission`.
#[repr(C)]
#[derive(Clone, Copy, Default)]
pub(crate) struct SubmissionSeen {
    pub(crate) epoch: u64,
    pub(crate) tx: u64,
}

/// What stands behind the pointer of a driver, a room, bound values or rows: nothing looks there.
#[repr(C)]
struct Opaque {
    _private: [u8; 0],
}

const DONE: i32 = 0;
const REFUSED: i32 = 1;
const MISUSED: i32 = 2;
const OUT_OF_MEMORY: i32 = 3;

/// How many bytes a text is given at first.
const FIRST_CAPACITY: usize = 4096;

// The functions that the archive defines, as `include/entangle.h` declares them. `tools/check bindings` compares their
// names, and `about` the sizes of the structs; nothing compares the arguments.
unsafe extern "C" {
    fn ent_c_version(buffer: *mut u8, capacity: usize, told: *mut Told) -> i32;
    fn ent_c_size_of_told() -> usize;
    fn ent_c_size_of_position() -> usize;

    fn ent_c_report(
        input: *const u8,
        length: usize,
        version: u32,
        buffer: *mut u8,
        capacity: usize,
        told: *mut Told,
    ) -> i32;

    fn ent_c_explain(input: *const u8, length: usize, buffer: *mut u8, capacity: usize, told: *mut Told) -> i32;

    fn ent_c_check(report: *const u8, length: usize, buffer: *mut u8, capacity: usize, told: *mut Told) -> i32;

    fn ent_c_open(driver: *mut *mut Opaque, input: *const u8, length: usize, told: *mut Told) -> i32;

    fn ent_c_submit(
        driver: *mut *mut Opaque,
        script: *const u8,
        length: usize,
        number: *mut u64,
        told: *mut Told,
    ) -> i32;

    fn ent_c_explain_script(
        driver: *mut *mut Opaque,
        script: *const u8,
        length: usize,
        buffer: *mut u8,
        capacity: usize,
        told: *mut Told,
    ) -> i32;

    fn ent_c_run(driver: *mut *mut Opaque) -> i32;

    fn ent_c_make(driver: *mut *mut Opaque, step: u32, number: u64, reply: *mut u32) -> i32;

    fn ent_c_why(driver: *mut *mut Opaque, number: u64, buffer: *mut u8, capacity: usize, told: *mut Told) -> i32;

    fn ent_c_standing(driver: *mut *mut Opaque, number: u64, position: *mut Position) -> i32;

    fn ent_c_answers(driver: *mut *mut Opaque, number: u64, buffer: *mut u8, capacity: usize, told: *mut Told) -> i32;

    fn ent_c_table(
        driver: *mut *mut Opaque,
        name: *const u8,
        length: usize,
        buffer: *mut u8,
        capacity: usize,
        told: *mut Told,
    ) -> i32;

    fn ent_c_close(driver: *mut *mut Opaque) -> i32;
    fn ent_c_renew(driver: *mut *mut Opaque) -> i32;

    fn ent_c_closed_report(
        driver: *mut *mut Opaque,
        version: u32,
        buffer: *mut u8,
        capacity: usize,
        told: *mut Told,
    ) -> i32;

    fn ent_c_free(driver: *mut *mut Opaque);

    fn ent_c_size_of_limits() -> usize;
    fn ent_c_size_of_ticket_state() -> usize;
    fn ent_c_size_of_submission() -> usize;

    fn ent_c_values_int(
        values: *mut *mut Opaque,
        name: *const u8,
        name_length: usize,
        number: i64,
        refusal: *mut u32,
    ) -> i32;

    fn ent_c_values_text(
        values: *mut *mut Opaque,
        name: *const u8,
        name_length: usize,
        text: *const u8,
        length: usize,
        refusal: *mut u32,
    ) -> i32;

    fn ent_c_values_free(values: *mut *mut Opaque);

    fn ent_c_rows_begin(rows: *mut *mut Opaque, table: *const u8, length: usize, refusal: *mut u32) -> i32;
    fn ent_c_rows_int(rows: *mut *mut Opaque, number: i64, refusal: *mut u32) -> i32;
    fn ent_c_rows_text(rows: *mut *mut Opaque, text: *const u8, length: usize, refusal: *mut u32) -> i32;
    fn ent_c_rows_free(rows: *mut *mut Opaque);

    fn ent_c_room_open(
        room: *mut *mut Opaque,
        input: *const u8,
        length: usize,
        rows: *mut *mut Opaque,
        epoch: u64,
        next: u64,
        next_group: u64,
        limits: *const Limits,
        refusal: *mut u32,
        told: *mut Told,
    ) -> i32;

    fn ent_c_room_put(
        room: *mut *mut Opaque,
        script: *const u8,
        length: usize,
        values: *mut *mut Opaque,
        patience: i64,
        ticket: *mut u64,
        refusal: *mut u32,
        told: *mut Told,
    ) -> i32;

    fn ent_c_room_explain(
        room: *mut *mut Opaque,
        script: *const u8,
        length: usize,
        values: *mut *mut Opaque,
        buffer: *mut u8,
        capacity: usize,
        told: *mut Told,
    ) -> i32;

    fn ent_c_room_restore(
        room: *mut *mut Opaque,
        ticket: u64,
        script: *const u8,
        length: usize,
        values: *mut *mut Opaque,
        patience: i64,
        batches: u64,
        refusal: *mut u32,
        told: *mut Told,
    ) -> i32;

    fn ent_c_room_withdraw(room: *mut *mut Opaque, ticket: u64, refusal: *mut u32) -> i32;
    fn ent_c_room_step(room: *mut *mut Opaque, step: *mut u32, refusal: *mut u32) -> i32;
    fn ent_c_room_further(room: *mut *mut Opaque, refusal: *mut u32) -> i32;
    fn ent_c_room_state(room: *mut *mut Opaque, ticket: u64, state: *mut TicketPosition) -> i32;
    fn ent_c_room_why(room: *mut *mut Opaque, ticket: u64, buffer: *mut u8, capacity: usize, told: *mut Told) -> i32;
    fn ent_c_room_waiting(room: *mut *mut Opaque, from: u64, ticket: *mut u64) -> i32;
    fn ent_c_room_ended(room: *mut *mut Opaque, back: u64, ticket: *mut u64) -> i32;

    fn ent_c_room_submission(room: *mut *mut Opaque, ticket: u64, place: u64, submission: *mut SubmissionSeen) -> i32;

    fn ent_c_room_groups(room: *mut *mut Opaque, number: u64, buffer: *mut u8, capacity: usize, told: *mut Told)
    -> i32;

    fn ent_c_room_next_group(room: *mut *mut Opaque, number: *mut u64) -> i32;
    fn ent_c_room_settled_through(room: *mut *mut Opaque, number: u64) -> i32;

    fn ent_c_room_table(
        room: *mut *mut Opaque,
        name: *const u8,
        length: usize,
        buffer: *mut u8,
        capacity: usize,
        told: *mut Told,
    ) -> i32;

    fn ent_c_room_epoch(room: *mut *mut Opaque, epoch: *mut u64) -> i32;

    fn ent_c_room_turn(
        room: *mut *mut Opaque,
        drained: *const u8,
        length: usize,
        refusal: *mut u32,
        told: *mut Told,
    ) -> i32;

    fn ent_c_room_report(
        room: *mut *mut Opaque,
        version: u32,
        buffer: *mut u8,
        capacity: usize,
        epoch: *mut u64,
        told: *mut Told,
    ) -> i32;

    fn ent_c_room_free(room: *mut *mut Opaque);
}

/// What the library answers when it is asked what it is.
pub(crate) struct About {
    text: [u8; 256],
    length: usize,
    /// Whether its structs are of the sizes that they have here.
    pub(crate) has_these_sizes: bool,
}

impl About {
    /// Its version; nothing, if it has none.
    pub(crate) fn version(&self) -> &str {
        from_utf8(&self.text[..self.length]).unwrap_or_default()
    }
}

/// Asks the library what it is, for which no memory is asked.
pub(crate) fn about() -> About {
    let (mut text, mut told) = ([0; 256], Told::default());
    // SAFETY: these calls take nothing.
    let sizes = unsafe {
        [
            ent_c_size_of_told(),
            ent_c_size_of_position(),
            ent_c_size_of_limits(),
            ent_c_size_of_ticket_state(),
            ent_c_size_of_submission(),
        ]
    };
    let has_these_sizes = sizes
        == [
            size_of::<Told>(),
            size_of::<Position>(),
            size_of::<Limits>(),
            size_of::<TicketPosition>(),
            size_of::<SubmissionSeen>(),
        ];
    if has_these_sizes {
        // SAFETY: the buffer's pointer and capacity are those of an array, and `told` is a struct of its own, of the
        // size that the library writes. A call keeps no pointer.
        unsafe { ent_c_version(text.as_mut_ptr(), text.len(), &mut told) };
    }
    About { text, length: told.needed.min(text.len()), has_these_sizes }
}

/// A buffer of so many bytes, if there is memory for it.
fn buffer_of(length: usize) -> Result<Vec<u8>, TryReserveError> {
    let mut buffer = Vec::new();
    buffer.try_reserve_exact(length)?;
    buffer.resize(length, 0);
    Ok(buffer)
}

/// A call of the archive.
#[derive(Clone, Copy)]
pub(crate) enum Call {
    /// The report of this version.
    Report(u32),
    Explain,
    Check,
}

/// What a call answers: its text, if it has one, and its fault.
pub(crate) enum Outcome {
    Done(String),
    /// The fault has the number 0 if the text is a verdict.
    Refused(String, Fault),
}

impl Call {
    /// Makes the call, again with a larger buffer if the first one was too short.
    pub(crate) fn answer(self, input: &[u8]) -> Result<Outcome, Fault> {
        fits();
        let mut text = buffer_of(FIRST_CAPACITY.max(input.len().saturating_mul(2)))?;
        loop {
            let (status, told) = self.make(input, &mut text);
            if told.needed > text.len() {
                drop(text);
                text = buffer_of(told.needed)?;
                continue;
            }
            text.truncate(told.needed);
            return outcome_of(status, text, told);
        }
    }

    fn make(self, input: &[u8], buffer: &mut [u8]) -> (i32, Told) {
        let mut told = Told::default();
        let (from, length) = (input.as_ptr(), input.len());
        let (to, capacity) = (buffer.as_mut_ptr(), buffer.len());
        let status = match self {
            // SAFETY: `from` and `length` are those of a slice, and so are `to` and `capacity` of one that is borrowed
            // for this call alone; `told` is a struct of its own, laid out as in C. Neither is null, and no slice has
            // 2^63 bytes. Rust's own allocator isn't asked for anything by the archive, which calls malloc. A call
            // keeps no pointer. A version of another number would be answered.
            Call::Report(version) => unsafe { ent_c_report(from, length, version, to, capacity, &mut told) },
            // SAFETY: as above.
            Call::Explain => unsafe { ent_c_explain(from, length, to, capacity, &mut told) },
            // SAFETY: as above.
            Call::Check => unsafe { ent_c_check(from, length, to, capacity, &mut told) },
        };
        (status, told)
    }
}

/// The fault that is told.
fn fault_of(kind: FaultKind, told: Told) -> Fault {
    let place = told.has_place.then_some(Place { offset: told.offset, line: told.line, column: told.column });
    Fault { code: told.code, kind, place }
}

fn outcome_of(status: i32, text: Vec<u8>, told: Told) -> Result<Outcome, Fault> {
    let text = String::from_utf8(text).expect("each text of the archive is UTF-8");
    match status {
        DONE => Ok(Outcome::Done(text)),
        REFUSED => Ok(Outcome::Refused(text, fault_of(FaultKind::Refused, told))),
        OUT_OF_MEMORY => Err(Fault::OUT_OF_MEMORY),
        other => unreachable!("no call with these arguments answers {other}"),
    }
}

/// What a status says, if what is told has the fault.
fn status_said(status: i32, told: Told) -> Result<(), Error> {
    match status {
        DONE => Ok(()),
        REFUSED => Err(fault_of(FaultKind::Refused, told).into()),
        MISUSED => Err(Error::State),
        OUT_OF_MEMORY => Err(Fault::OUT_OF_MEMORY.into()),
        other => unreachable!("no call with these arguments answers {other}"),
    }
}

/// The one owner of what stands behind a driver's pointer.
pub(crate) struct Handle {
    at: *mut Opaque,
}

// SAFETY: a handle owns all that is behind its pointer, which no other handle reaches, and the archive keeps nothing of
// a thread: it has no thread locals and takes no lock. So it may move to another thread. That one thread calls at a
// time is what `&mut` says of each call below.
unsafe impl Send for Handle {}

// Each call below passes the place of `at`, which is null or was written by the archive, and which `&mut self` keeps
// from every other call; slices by their pointers and lengths, none of which is null or has 2^63 bytes; and structs of
// its own frame, laid out as in C. No call keeps a pointer of what it is passed.
impl Handle {
    pub(crate) fn open(input: &[u8]) -> Result<Self, Error> {
        fits();
        let (mut handle, mut told) = (Handle { at: null_mut() }, Told::default());
        // SAFETY: as said above.
        let status = unsafe { ent_c_open(&mut handle.at, input.as_ptr(), input.len(), &mut told) };
        status_said(status, told).map(|()| handle)
    }

    pub(crate) fn submit(&mut self, script: &[u8]) -> Result<u64, Error> {
        let (mut number, mut told) = (0, Told::default());
        // SAFETY: as said above.
        let status = unsafe { ent_c_submit(&mut self.at, script.as_ptr(), script.len(), &mut number, &mut told) };
        status_said(status, told).map(|()| number)
    }

    /// What is said of the fault of a script, if it has one.
    pub(crate) fn explain(&mut self, script: &[u8]) -> Result<Option<String>, Error> {
        let (status, text, _) = buffered(&mut self.at, |at, buffer, told| {
            // SAFETY: as said above.
            unsafe { ent_c_explain_script(at, script.as_ptr(), script.len(), buffer.as_mut_ptr(), buffer.len(), told) }
        })?;
        match status {
            REFUSED => Ok(Some(text)),
            status => status_said(status, Told::default()).map(|()| None),
        }
    }

    pub(crate) fn run(&mut self) -> Result<(), Error> {
        // SAFETY: as said above.
        status_said(unsafe { ent_c_run(&mut self.at) }, Told::default())
    }

    pub(crate) fn make(&mut self, step: u32, number: u64) -> Result<u32, Error> {
        let mut reply = 0;
        // SAFETY: as said above.
        let status = unsafe { ent_c_make(&mut self.at, step, number, &mut reply) };
        status_said(status, Told::default()).map(|()| reply)
    }

    pub(crate) fn why(&mut self, number: u64) -> Result<String, Error> {
        self.text(|at, buffer, told| {
            // SAFETY: as said above.
            unsafe { ent_c_why(at, number, buffer.as_mut_ptr(), buffer.len(), told) }
        })
    }

    pub(crate) fn standing(&mut self, number: u64) -> Result<Position, Error> {
        let mut position = Position::default();
        // SAFETY: as said above.
        let status = unsafe { ent_c_standing(&mut self.at, number, &mut position) };
        status_said(status, Told { code: 401, ..Told::default() }).map(|()| position)
    }

    pub(crate) fn close(&mut self) -> Result<(), Error> {
        // SAFETY: as said above.
        status_said(unsafe { ent_c_close(&mut self.at) }, Told { code: 405, ..Told::default() })
    }

    pub(crate) fn renew(&mut self) -> Result<(), Error> {
        // SAFETY: as said above.
        status_said(unsafe { ent_c_renew(&mut self.at) }, Told { code: 407, ..Told::default() })
    }

    pub(crate) fn answers(&mut self, number: u64) -> Result<String, Error> {
        self.text(|at, buffer, told| {
            // SAFETY: as said above.
            unsafe { ent_c_answers(at, number, buffer.as_mut_ptr(), buffer.len(), told) }
        })
    }

    pub(crate) fn table(&mut self, name: &[u8]) -> Result<String, Error> {
        self.text(|at, buffer, told| {
            // SAFETY: as said above.
            unsafe { ent_c_table(at, name.as_ptr(), name.len(), buffer.as_mut_ptr(), buffer.len(), told) }
        })
    }

    pub(crate) fn report(&mut self, version: u32) -> Result<String, Error> {
        self.text(|at, buffer, told| {
            // SAFETY: as said above.
            unsafe { ent_c_closed_report(at, version, buffer.as_mut_ptr(), buffer.len(), told) }
        })
    }

    /// The text that a call hands out.
    fn text(&mut self, call: impl Fn(&mut *mut Opaque, &mut [u8], &mut Told) -> i32) -> Result<String, Error> {
        let (status, text, told) = buffered(&mut self.at, call)?;
        status_said(status, told).map(|()| text)
    }
}

impl Drop for Handle {
    fn drop(&mut self) {
        // SAFETY: as said above; a handle is dropped once, and the call leaves its pointer null.
        unsafe { ent_c_free(&mut self.at) }
    }
}

/// The status of a call, its text and what is told. It is made again if the first buffer was too short.
fn buffered(
    at: &mut *mut Opaque,
    mut call: impl FnMut(&mut *mut Opaque, &mut [u8], &mut Told) -> i32,
) -> Result<(i32, String, Told), TryReserveError> {
    let mut text = buffer_of(FIRST_CAPACITY)?;
    loop {
        let mut told = Told::default();
        let status = call(at, &mut text, &mut told);
        if told.needed > text.len() {
            drop(text);
            text = buffer_of(told.needed)?;
            continue;
        }
        text.truncate(told.needed);
        let text = String::from_utf8(text).expect("each text of the archive is UTF-8");
        return Ok((status, text, told));
    }
}
