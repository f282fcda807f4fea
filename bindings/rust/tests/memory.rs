//! Where a call promises E900, it gives E900: each allocation that this crate makes for a call fails in turn, and the
//! process goes on. (The library's own allocations fail in turn in `bindings/c/calls.c`.)

use entangle::{Answer, Driver, Ending, Error, Fault, FaultKind, Patience, Room, RoomError, RoomOptions, Row, Stepped};
use entangle::{Ticket, Value, Verdict, Version};
use std::alloc::{GlobalAlloc, Layout, System};
use std::cell::Cell;
use std::fmt::Debug;
use std::future::Future;
use std::pin::pin;
use std::ptr::null_mut;
use std::task::{Context, Poll, Waker};
use std::time::Duration;

thread_local! {
    /// How many allocations of this thread succeed before one fails, if one is to fail.
    static UNTIL: Cell<Option<usize>> = const { Cell::new(None) };
}

/// The system's allocator, of which one allocation fails.
struct Failing;

/// Whether this allocation is the one that fails.
fn fails() -> bool {
    let until = UNTIL.get();
    UNTIL.set(until.and_then(|count| count.checked_sub(1)));
    until == Some(0)
}

// SAFETY: each call is the system allocator's, or null, which says that there is no memory.
unsafe impl GlobalAlloc for Failing {
    unsafe fn alloc(&self, layout: Layout) -> *mut u8 {
        // SAFETY: as the caller promises.
        if fails() { null_mut() } else { unsafe { System.alloc(layout) } }
    }

    unsafe fn dealloc(&self, block: *mut u8, layout: Layout) {
        // SAFETY: as the caller promises.
        unsafe { System.dealloc(block, layout) }
    }

    unsafe fn realloc(&self, block: *mut u8, layout: Layout, size: usize) -> *mut u8 {
        // SAFETY: as the caller promises.
        if fails() { null_mut() } else { unsafe { System.realloc(block, layout, size) } }
    }
}

#[global_allocator]
static ALLOCATOR: Failing = Failing;

/// Makes a call with each of its allocations failing in turn; what it gives when none does, and how many there are.
fn refused<T: Debug>(mut call: impl FnMut() -> Result<T, Error>) -> (T, usize) {
    for count in 0.. {
        UNTIL.set(Some(count));
        let given = call();
        let was_refused = UNTIL.take().is_none();
        match given {
            Ok(value) if !was_refused => return (value, count),
            Err(Error::Fault(Fault { code: 900, kind: FaultKind::OutOfMemory, place: None, .. })) if was_refused => (),
            other => panic!("allocation {count}: {other:?}"),
        }
    }
    unreachable!("some number of allocations is enough");
}

#[test]
fn calls_without_a_driver_tell_that_memory_ran_out() {
    let input = format!("CREATE TABLE T (a INT);\n{}", "INSERT INTO T VALUES (1);\n".repeat(200));
    let (report, count) = refused(|| Ok(entangle::report(&input, Version::Two)?));
    assert!(report.ends_with("end\n") && count > 0);
    assert_eq!(refused(|| Ok(entangle::check(&report)?)).0, Verdict::Yes);
    assert_eq!(refused(|| Ok(entangle::explain(&input)?)).0, None);
    let (said, count) = refused(|| Ok(entangle::explain("CREATE TABLE T (a INTEGER);")?));
    assert!(said.is_some_and(|said| said.starts_with("E201 at 18\n")) && count > 0);
}

#[test]
fn calls_of_a_driver_tell_that_memory_ran_out() {
    let mut driver = Driver::open("CREATE TABLE T (a INT, b TEXT);").expect("the table is right");
    let inserts: String = (0..20).map(|number| format!("INSERT INTO T VALUES ({number}, 'it''s');\n")).collect();
    for number in 0..5 {
        let script = format!("BEGIN TRANSACTION;\n{}COMMIT;", inserts.replace("it", &format!("{number}it")));
        driver.submit(&script).expect("the script is right");
    }
    let pair = |who: &str, friend: &str| {
        format!(
            "BEGIN TRANSACTION; SELECT '{who}', a INTO ANSWER R WHERE a IN (SELECT a FROM T WHERE b = '0it''s')
               AND ('{friend}', a) IN ANSWER R CHOOSE 1; SELECT * FROM T; SET @d = 'it''s'; COMMIT;"
        )
    };
    let tx = driver.submit(&pair("Ann", "Bob")).expect("the script is right");
    driver.submit(&pair("Bob", "Ann")).expect("the script is right");
    driver.run().expect("memory is there");
    let (rows, count) = refused(|| driver.table("T"));
    assert!(rows.len() == 100 && rows[99][1] == "4it's" && count > 100);
    let (answers, count) = refused(|| driver.answers(tx));
    assert!(matches!(&answers[..], [Answer::Entangled(_), Answer::Rows(_), Answer::Set(_)]) && count > 100);
    assert!(refused(|| driver.answer_lines(tx)).1 > 0);
    assert_eq!(refused(|| driver.why(tx)).0, "committed 6 after 1");
    assert!(refused(|| driver.explain("BEGIN")).0.is_some());
    refused(|| driver.standing(tx));
    refused(|| driver.close());
    let (report, _) = refused(|| driver.report(Version::Two));
    assert!(matches!(entangle::check(&report), Ok(Verdict::Yes)));
}

/// As [`refused`], of a call of a room.
fn refused_of_room<T: Debug>(mut call: impl FnMut() -> Result<T, RoomError>) -> (T, usize) {
    refused(|| call().map_err(|error| error.fault().map_or(Error::State, Error::Fault)))
}

#[test]
fn calls_of_a_room_tell_that_memory_ran_out() {
    let tables = "CREATE TABLE T (a INT, b TEXT);";
    let rows: Vec<Row> = (0..200).map(|number| vec![Value::Int(number), "it's".into()]).collect();
    let (room, count) = refused_of_room(|| Room::open_rows(tables, &[("T", &rows)], RoomOptions::default()));
    assert_eq!(count, 1); // what its owners share; the rows are kept in the library
    let values = |me: &str, friend: &str| [("me", me.into()), ("friend", friend.into())];
    let script = "BEGIN TRANSACTION; SELECT @me, a INTO ANSWER R WHERE a IN (SELECT a FROM T)
        AND (@friend, a) IN ANSWER R CHOOSE 1; COMMIT;";
    let [ann, bob] = [values("Ann", "Bob"), values("Bob", "Ann")]
        .map(|values| refused_of_room(|| room.put(script, &values, Patience::AsWritten)).0);
    assert_eq!((ann, bob), (Ticket::new(1), Ticket::new(2)));
    let newline = [("me", "\n".into())];
    let error = refused(|| match room.put(script, &newline, Patience::AsWritten) {
        Err(RoomError::OutOfMemory) => Err(Error::Fault(RoomError::OutOfMemory.fault().expect("it is E900"))),
        other => Ok(other),
    });
    assert!(matches!(error, (Err(RoomError::NotBound { .. }), 1)));

    let waker = Waker::noop();
    let mut fate = pin!(room.fate(ann));
    let (_, count) = refused_of_room(|| match fate.as_mut().poll(&mut Context::from_waker(waker)) {
        Poll::Ready(told) => told.map(|_| ()),
        Poll::Pending => Ok(()),
    });
    assert!(count > 0);
    assert!(refused_of_room(|| room.waiting()).1 > 0);
    let (waited, count) = refused_of_room(|| room.wait_timeout(bob, Duration::ZERO));
    assert!(waited.is_none() && count > 1);
    let (stepped, count) = refused_of_room(|| room.step());
    assert_eq!((stepped, count), (Stepped::Ran, 0)); // who waits is told without memory
    let told = fate.as_mut().poll(&mut Context::from_waker(waker));
    assert!(matches!(told, Poll::Ready(Ok(Ending::Committed { .. }))), "{told:?}");

    assert!(matches!(refused_of_room(|| room.wait(bob)), (Ending::Committed { .. }, 1)));
    let (groups, count) = refused_of_room(|| room.groups(0));
    assert!(groups.len() == 1 && groups[0].commits.len() == 2 && count > 10);
    assert_eq!(refused_of_room(|| room.settled_through(1)).1, 0);
    assert!(refused_of_room(|| room.submissions(ann)).1 > 0);
    assert!(refused_of_room(|| room.why(ann)).1 > 0);
    let (wrong, friends) = (script.replace("FROM T", "FROM U"), values("Ann", "Bob"));
    let (said, count) = refused_of_room(|| room.explain(&wrong, &friends));
    assert!(said.is_some_and(|said| said.starts_with("E301 at ")) && count > 0);
    let (table, count) = refused_of_room(|| room.table("T"));
    assert!(table == rows && count > 200);
    let (epoch, count) = refused_of_room(|| room.turn(&["T"]));
    assert!(epoch == 1 && count > 0);
    let (report, count) = refused_of_room(|| room.report(Version::Two));
    assert!(count > 0 && report.is_some_and(|report| matches!(entangle::check(&report.text), Ok(Verdict::Yes))));
    assert!(refused_of_room(|| room.state(bob)).0.ending().is_some());
    let withdrawn = room.put(script, &values("Eve", "Finn"), Patience::AsWritten).expect("the script is right");
    assert_eq!(refused_of_room(|| room.withdraw(withdrawn)).1, 0);
}

#[test]
fn openings_over_rows_tell_that_memory_ran_out() {
    for wrong in [vec!["a\n".into(), 1.into()], vec!["a".into()]] {
        let rows: Vec<Row> = vec![vec!["it's".into(), i64::MIN.into()], wrong];
        let tables = "CREATE TABLE T (a TEXT, b INT);";
        let opened = refused(|| match Room::open_rows(tables, &[("T", &rows)], RoomOptions::default()) {
            Err(RoomError::OutOfMemory) => Err(Error::Fault(RoomError::OutOfMemory.fault().expect("it is E900"))),
            other => Ok(other.map(|_| ())),
        });
        // the name of the table is copied
        assert!(matches!(opened, (Err(RoomError::NotARow { row: 1, .. }), 1)), "{opened:?}");
    }
}
