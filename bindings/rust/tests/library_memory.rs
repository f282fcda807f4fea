//! Where memory runs out in the library: each of its allocations for a call of a room fails in turn. The call says
//! E900, a step goes on where it stopped, and who waits is told once. (`memory.rs` has the allocations of this crate.)

use entangle::{Ending, Group, Patience, Room, RoomError, RoomOptions, Row, Stepped, TableChange, Ticket, TicketState};
use entangle::{Value, Verdict, Version};
use std::alloc::{GlobalAlloc, Layout};
use std::cell::Cell;
use std::ffi::c_void;
use std::future::Future;
use std::pin::pin;
use std::ptr::null_mut;
use std::task::{Context, Poll, Waker};

unsafe extern "C" {
    fn __libc_malloc(size: usize) -> *mut c_void;
    fn __libc_realloc(block: *mut c_void, size: usize) -> *mut c_void;
    fn aligned_alloc(align: usize, size: usize) -> *mut c_void;
    fn free(block: *mut c_void);
}

thread_local! {
    /// How many allocations of the library succeed in this thread before one fails, if one is to fail.
    static UNTIL: Cell<Option<usize>> = const { Cell::new(None) };
}

/// Whether this allocation is the one that fails.
fn fails() -> bool {
    let until = UNTIL.get();
    UNTIL.set(until.and_then(|count| count.checked_sub(1)));
    until == Some(0)
}

/// The malloc that the library calls.
#[unsafe(no_mangle)]
extern "C" fn malloc(size: usize) -> *mut c_void {
    // SAFETY: it takes any size.
    if fails() { null_mut() } else { unsafe { __libc_malloc(size) } }
}

/// The realloc that the library calls.
///
/// # Safety
///
/// As C has it.
#[unsafe(no_mangle)]
unsafe extern "C" fn realloc(block: *mut c_void, size: usize) -> *mut c_void {
    // SAFETY: as the caller promises; all blocks are of glibc.
    if fails() { null_mut() } else { unsafe { __libc_realloc(block, size) } }
}

/// Rust's own allocations, none of which fails here.
struct Unfailing;

// SAFETY: each call is glibc's.
unsafe impl GlobalAlloc for Unfailing {
    unsafe fn alloc(&self, layout: Layout) -> *mut u8 {
        // SAFETY: an alignment is a power of two.
        unsafe { aligned_alloc(layout.align().max(size_of::<usize>()), layout.size()).cast() }
    }

    unsafe fn dealloc(&self, block: *mut u8, _: Layout) {
        // SAFETY: as the caller promises.
        unsafe { free(block.cast()) }
    }
}

#[global_allocator]
static ALLOCATOR: Unfailing = Unfailing;

/// Makes a call in which the allocation behind so many fails; what it gives, and whether one failed.
fn with_refusal<T>(count: usize, call: impl FnOnce() -> T) -> (T, bool) {
    UNTIL.set(Some(count));
    let given = call();
    (given, UNTIL.take().is_none())
}

/// Makes a call with each of its allocations failing in turn, which changes nothing then; what it gives when none does.
fn refused<T>(mut call: impl FnMut() -> Result<T, RoomError>) -> (T, usize) {
    for count in 0.. {
        match with_refusal(count, &mut call) {
            (Ok(given), false) => return (given, count),
            (Err(RoomError::OutOfMemory), true) => (),
            (given, was_refused) => panic!("allocation {count}, refused {was_refused}: {:?}", given.err()),
        }
    }
    unreachable!("some number of allocations is enough");
}

const TABLES: &str = "CREATE TABLE T (a INT); CREATE TABLE U (b TEXT, a INT); INSERT INTO T VALUES (1);";

fn put(room: &Room, me: &str, friend: &str) -> Result<Ticket, RoomError> {
    let script = "BEGIN TRANSACTION;
        SELECT @me, a AS @a INTO ANSWER R WHERE a IN (SELECT a FROM T) AND (@friend, a) IN ANSWER R CHOOSE 1;
        INSERT INTO U VALUES (@me, @a); COMMIT;";
    room.put(script, &[("me", me.into()), ("friend", friend.into())], Patience::UntilWithdrawn)
}

fn settle(room: &Room) {
    while room.step().expect("memory is there") != Stepped::Idle {}
}

#[test]
fn calls_that_find_no_memory_change_nothing() {
    let (room, count) = refused(|| Room::open(TABLES));
    assert!(count > 0);
    let rows: Vec<Row> = (0..3).map(|number| vec!["it's".into(), number.into()]).collect();
    let (over_rows, more) = refused(|| Room::open_rows(TABLES, &[("U", &rows)], RoomOptions::default()));
    assert!(more > count + rows.len() && over_rows.table("U").is_ok_and(|table| table == rows));
    let (ann, count) = refused(|| put(&room, "Ann", "Bob"));
    assert!(count > 0);
    let options = RoomOptions::default().next_ticket(Ticket::new(7));
    let later = Room::open_with(TABLES, options).expect("the tables are right");
    let script = "BEGIN TRANSACTION; INSERT INTO T VALUES (@a); COMMIT;";
    let values = [("a", Value::Int(5))];
    assert!(refused(|| later.restore(Ticket::new(3), script, &values, Patience::AsWritten, 0)).1 > 0);
    assert_eq!(later.waiting(), Ok(vec![Ticket::new(3)]));
    assert!(refused(|| room.explain("BEGIN", &[])).0.is_some());
    let (said, count) = refused(|| room.explain(script, &[("a", "x".into())]));
    assert!(said.is_some_and(|said| said.starts_with("E304 at ")) && count > 0);
    assert_eq!(refused(|| room.table("T")).0, [[Value::Int(1)]]);
    assert!(refused(|| room.why(ann)).0.starts_with("waits"));
    let other = put(&room, "Eve", "Finn").expect("memory is there");
    refused(|| room.withdraw(other));
    let bob = put(&room, "Bob", "Ann").expect("memory is there");
    settle(&room);
    let (groups, count) = refused(|| room.groups(0));
    assert!(groups.len() == 1 && groups[0].commits.len() == 2 && count > 0);
    assert!(refused(|| room.turn(&["U"])).1 > 0);
    let (report, count) = refused(|| room.report(Version::Two));
    let report = report.expect("an epoch ended");
    assert!(count > 0 && entangle::check(&report.text) == Ok(Verdict::Yes));
    for ticket in [ann, bob] {
        assert!(matches!(refused(|| room.wait(ticket)).0, Ending::Committed { epoch: 1, .. }));
    }
}

/// Makes steps of a room in which two friends wait and one who is lonely, of which one allocation fails. Whether one
/// did, whether the step told it, and whether that was in the midst of a batch. It isn't told of what a run notes for
/// the feed: without it one group tells all that the run committed.
fn stepped(count: usize) -> (bool, bool, bool) {
    let room = Room::open(TABLES).expect("the tables are right");
    let friends = [("Ann", "Bob"), ("Bob", "Ann"), ("Eve", "Finn")];
    let [ann, bob, eve] = friends.map(|(me, friend)| put(&room, me, friend).expect("the script is right"));
    let mut fates = [ann, bob, eve].map(|ticket| Box::pin(room.fate(ticket)));
    let mut polled = |which: usize| fates[which].as_mut().poll(&mut Context::from_waker(Waker::noop()));
    assert!([0, 1, 2].into_iter().all(|which| polled(which).is_pending()));
    let (step, was_refused) = with_refusal(count, || room.step());
    let was_told = step == Err(RoomError::OutOfMemory);
    assert!(if was_told { was_refused } else { step == Ok(Stepped::Ran) }, "{step:?}");
    let in_batch = room.state(ann) == Ok(TicketState::InBatch);
    if in_batch {
        assert_eq!((room.withdraw(ann), room.turn(&[])), (Err(RoomError::Busy), Err(RoomError::Busy)));
        put(&room, "Zoe", "Ann").expect("a script is put as ever");
    }
    settle(&room);
    for (which, ticket) in [ann, bob].into_iter().enumerate() {
        let Poll::Ready(Ok(ending @ Ending::Committed { epoch: 1, .. })) = polled(which) else { panic!("{ticket}") };
        assert_eq!(room.state(ticket), Ok(TicketState::Ended(ending)));
    }
    assert!(polled(2).is_pending() && room.state(eve) == Ok(TicketState::Lonely { demand: 0 }));
    let rows: Vec<_> = ["Ann", "Bob"].map(|who| vec![who.into(), Value::Int(1)]).into();
    let groups = room.groups(0).expect("memory is there");
    let [Group { number: 1, commits, changes, ended, .. }] = &groups[..] else { panic!("{groups:?}") };
    assert!(commits.iter().map(|commit| commit.ticket).eq([ann, bob]) && ended.is_empty());
    assert_eq!(changes[..], [TableChange { table: "U".into(), removed: vec![], added: rows.clone() }]);
    assert_eq!((room.table("U"), room.turn(&[])), (Ok(rows), Ok(1)));
    let report = room.report(Version::Two).expect("memory is there").expect("an epoch ended");
    assert_eq!(entangle::check(&report.text), Ok(Verdict::Yes));
    (was_refused, was_told, in_batch)
}

#[test]
fn a_step_goes_on_where_it_found_no_memory() {
    let steps: Vec<_> = (0..).map(stepped).take_while(|(was_refused, ..)| *was_refused).collect();
    let told = steps.iter().filter(|(_, was_told, _)| *was_told).count();
    let in_batch = steps.iter().filter(|(.., in_batch)| *in_batch).count();
    println!("{} allocations of a step, {told} told, {in_batch} in the midst of a batch", steps.len());
    assert!(in_batch > 0 && in_batch < told && steps.len() < told + 20);
}

#[test]
fn a_wait_goes_on_over_a_step_that_found_no_memory() {
    let room = Room::open(TABLES).expect("the tables are right");
    let ann = put(&room, "Ann", "Bob").expect("the script is right");
    put(&room, "Bob", "Ann").expect("the script is right");
    let mut fate = pin!(room.fate(ann));
    let mut context = Context::from_waker(Waker::noop());
    let mut count = 0;
    // each step stops one allocation later than the one before, until one comes to the end
    while fate.as_mut().poll(&mut context).is_pending() {
        let (step, was_refused) = with_refusal(count, || room.step());
        assert!(step.is_ok() || was_refused, "{step:?}");
        count += 1;
    }
    assert!(count > 1);
}
