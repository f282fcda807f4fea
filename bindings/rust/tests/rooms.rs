//! What rooms promise.

use entangle::{BindingFault, Ending, EpochReport, Failure, Fault, FaultKind, FutureFate, Patience, Place, Room};
use entangle::{RoomError, RoomOptions, Row, RowFault, Stepped, Submission, Ticket, TicketState, Value, ValueFault};
use entangle::{Verdict, Version, check};
use std::error::Error as StandardError;
use std::future::Future;
use std::pin::pin;
use std::slice;
use std::sync::Arc;
use std::sync::atomic::{AtomicUsize, Ordering};
use std::sync::mpsc::{Sender, channel};
use std::task::{Context, Poll, Wake, Waker};
use std::thread;
use std::time::{Duration, Instant};

const TABLES: &str = "CREATE TABLE Flights (fno INT, dest TEXT); CREATE TABLE Bookings (who TEXT, fno INT);
INSERT INTO Flights VALUES (122, 'LA'); INSERT INTO Flights VALUES (123, 'LA');
INSERT INTO Flights VALUES (136, 'Paris');";

/// Somebody flies where a friend does.
const TRIP: &str = "BEGIN TRANSACTION WITHIN 3 RUNS;
SELECT @me, fno AS @fno INTO ANSWER Trip
  WHERE fno IN (SELECT fno FROM Flights WHERE dest = @dest) AND (@friend, fno) IN ANSWER Trip CHOOSE 1;
INSERT INTO Bookings VALUES (@me, @fno);
COMMIT;";

const FLIGHT: &str = "BEGIN TRANSACTION; INSERT INTO Flights VALUES (@fno, @dest); COMMIT;";

fn room() -> Room {
    Room::open(TABLES).expect("the tables are right")
}

fn trip<'a>(me: &str, friend: &str, dest: &str) -> [(&'a str, Value); 3] {
    [("me", me.into()), ("friend", friend.into()), ("dest", dest.into())]
}

/// Puts the trip of somebody to LA, who waits until it is withdrawn.
fn put(room: &Room, me: &str, friend: &str) -> Ticket {
    room.put(TRIP, &trip(me, friend, "LA"), Patience::UntilWithdrawn).expect("the script is right")
}

/// Makes steps until there is nothing to do.
fn settle(room: &Room) {
    while room.step().expect("memory is there") != Stepped::Idle {}
}

fn state(room: &Room, ticket: Ticket) -> TicketState {
    room.state(ticket).expect("the room is open")
}

fn has_committed(room: &Room, ticket: Ticket) -> bool {
    matches!(state(room, ticket).ending(), Some(Ending::Committed { .. }))
}

fn row(who: &str, fno: i64) -> Row {
    vec![who.into(), fno.into()]
}

fn bookings(room: &Room) -> Vec<Row> {
    room.table("Bookings").expect("there is this table")
}

#[test]
fn friends_meet_whenever_they_come() {
    let room = room();
    let mickey = put(&room, "Mickey", "Minnie");
    assert_eq!(state(&room, mickey), TicketState::Waits { batches: 0 });
    settle(&room);
    assert_eq!(state(&room, mickey), TicketState::Lonely { demand: 0 });
    assert!(room.why(mickey).is_ok_and(|why| why.starts_with("lonely")), "{:?}", room.why(mickey));
    assert_eq!((room.submissions(mickey), room.waiting()), (Ok(vec![]), Ok(vec![mickey])));

    let minnie = put(&room, "Minnie", "Mickey");
    assert!(mickey < minnie);
    assert_eq!(room.step(), Ok(Stepped::Ran));
    let numbers = [mickey, minnie].map(|ticket| match state(&room, ticket) {
        TicketState::Ended(Ending::Committed { epoch: 1, number }) => number,
        other => panic!("{other:?}"),
    });
    assert_eq!(numbers.iter().sum::<u64>(), 3);
    assert_eq!(bookings(&room), [row("Mickey", 122), row("Minnie", 122)]);
    assert_eq!(room.submissions(mickey), Ok(vec![Submission { epoch: 1, tx: 1 }]));
    assert_eq!(room.submissions(minnie), Ok(vec![Submission { epoch: 1, tx: 2 }]));
    assert_eq!((room.waiting(), room.step()), (Ok(vec![]), Ok(Stepped::Idle)));
}

#[test]
fn bound_values_are_values_wherever_they_stand() {
    let room = room();
    let (first, second) = ("O'Hara '); DELETE FROM Flights; --", "東 @me ''");
    let tickets = [put(&room, first, second), put(&room, second, first)];
    settle(&room);
    assert!(tickets.iter().all(|ticket| has_committed(&room, *ticket)));
    assert_eq!(bookings(&room), [row(first, 122), row(second, 122)]);
    let numbers = [i64::MAX, -i64::MAX, 0];
    for number in numbers {
        let values = [("fno", number.into()), ("dest", "".into())];
        room.put(FLIGHT, &values, Patience::AsWritten).expect("the script is right");
    }
    settle(&room);
    let flights = room.table("Flights").expect("there is this table");
    assert!(numbers.iter().all(|number| flights.contains(&vec![Value::Int(*number), "".into()])), "{flights:?}");
}

#[test]
fn values_that_cannot_be_bound_are_refused() {
    let room = room();
    let refused = |values: &[(&str, Value)]| match room.put(TRIP, values, Patience::AsWritten) {
        Err(RoomError::NotBound { variable, fault }) => (variable, fault),
        other => panic!("{other:?}"),
    };
    let with = |name, value: Value| {
        let mut values = trip("Mickey", "Minnie", "LA").to_vec();
        values.retain(|(other, _)| *other != name);
        values.push((name, value));
        refused(&values)
    };
    let value = |fault| ("me".to_string(), BindingFault::Value(fault));
    assert_eq!(with("me", i64::MIN.into()), ("me".into(), BindingFault::LeastNumber));
    assert_eq!(with("me", "東".repeat(86).into()), value(ValueFault::TooLong));
    assert_eq!(with("me", "東\n\t".into()), value(ValueFault::ControlCharacter { offset: 3 }));
    assert_eq!(with("fno", 1.into()), ("fno".into(), BindingFault::SetByScript));
    assert_eq!(with("nobody", 1.into()), ("nobody".into(), BindingFault::Unused));
    for name in ["@me", "", "a b", "1", &"a".repeat(64)] {
        assert_eq!(with(name, 1.into()), (name.into(), BindingFault::NoName));
    }
    let twice = [("friend", 1.into()), ("me", 1.into()), ("dest", 1.into()), ("me", 2.into())];
    assert_eq!(refused(&twice), ("me".into(), BindingFault::Twice));
    let unbound = room.put(TRIP, &[("me", 1.into()), ("friend", 2.into())], Patience::AsWritten).unwrap_err();
    assert_eq!(unbound.fault().map(|fault| fault.code), Some(306));
    assert_eq!(room.waiting(), Ok(vec![]));
    assert_eq!(put(&room, "Mickey", "Minnie"), Ticket::new(1));
}

#[test]
fn a_faulty_script_is_refused_and_explained() {
    let room = room();
    let script = "BEGIN TRANSACTION;\n-- 東\nSELECT fno FROM Flights WHERE dst = 'LA';\nCOMMIT;";
    let error = room.put(script, &[], Patience::AsWritten).unwrap_err();
    let place = Place { offset: 56, line: 3, column: 31 };
    let RoomError::Faulty(fault) = error.clone() else { panic!("{error}") };
    assert_eq!((fault.code, fault.kind, fault.place), (302, FaultKind::Refused, Some(place)));
    assert_eq!(error.to_string(), "the text is refused at line 3, column 31");
    assert_eq!(error.source().map(ToString::to_string).as_deref(), Some("E302 at 56"));
    let said = room.explain(script, &[]).expect("memory is there").expect("it has a fault");
    assert!(said.starts_with("E302 at 56\nline 3, column 31: Flights has no column dst\n"), "{said}");
    assert!(said.ends_with("\ndid you mean dest?\n"), "{said}");
    assert_eq!(room.explain("BEGIN TRANSACTION; COMMIT;", &[]), Ok(None));
    for (script, code) in [("COMMIT;", 201), ("BEGIN TRANSACTION; COMMIT; BEGIN TRANSACTION; COMMIT;", 201)] {
        let error = room.put(script, &[], Patience::AsWritten).unwrap_err();
        assert_eq!(error.fault().map(|fault| fault.code), Some(code));
    }
    let opening = Room::open("CREATE TABLE T (a INTEGER);").unwrap_err();
    assert_eq!(opening.fault().map(|fault| fault.to_string()).as_deref(), Some("E201 at 18"));
    assert_eq!(room.waiting(), Ok(vec![]));
}

#[test]
fn a_script_is_explained_with_its_values() {
    let room = room();
    let values = trip("Mickey", "Minnie", "LA");
    let said = |script: &str, values: &[(&str, Value)]| room.explain(script, values).expect("memory is there");
    assert_eq!(said(TRIP, &values), None);
    let misspelt = TRIP.replace("dest =", "dst =");
    let wrong_kind = [("me", "Mickey".into()), ("friend", "Minnie".into()), ("dest", 5.into())];
    for (script, values, code, place, words) in [
        (misspelt.as_str(), &values[..], 302, misspelt.find("dst"), "Flights has no column dst"),
        (TRIP, &values[..2], 306, TRIP.find("@dest"), "@dest"),
        (TRIP, &wrong_kind[..], 304, TRIP.find("@dest"), "TEXT"),
    ] {
        let fault = room.put(script, values, Patience::AsWritten).unwrap_err().fault().expect("it is of the script");
        assert_eq!((fault.code, fault.place.map(|place| place.offset)), (code, place));
        let said = said(script, values).expect("it has a fault");
        assert!(said.starts_with(&format!("{fault}\nline 3, column ")) && said.contains(words), "{said}");
    }
    for (values, unbound) in [(&values[..0], "@dest"), (&values[2..], "@me")] {
        let said = said(TRIP, values).expect("a variable that nobody binds is a fault");
        assert!(said.starts_with(&format!("E306 at {}\n", TRIP.find(unbound).expect("it is there"))), "{said}");
    }
    for (name, why) in [
        ("nobody", "isn't used by the script, so no value is bound to it"),
        ("fno", "is set by the script itself, so no value is bound to it"),
        ("me", "is bound twice"),
    ] {
        let said = said(TRIP, &[&values[..], &[(name, 1.into())]].concat());
        assert_eq!(said, Some(format!("@{name} {why}\n")));
    }
    for (name, value) in [("me", "a\nb".into()), ("me", i64::MIN.into()), ("@me", 1.into())] {
        assert!(matches!(room.explain(TRIP, &[(name, value)]), Err(RoomError::NotBound { .. })), "{name}");
    }
    assert_eq!(room.waiting(), Ok(vec![]));
}

#[test]
fn patience_ends() {
    let room = room();
    let pair = |patience: [Patience; 2], names: [&str; 2]| {
        let values = [trip(names[0], names[1], "Rome"), trip(names[1], names[0], "Rome")];
        [0, 1].map(|one| room.put(TRIP, &values[one], patience[one]).expect("the script is right"))
    };
    // their meetings bring nothing: nothing flies to Rome
    let [eve, finn] = pair([Patience::Batches(1), Patience::UntilWithdrawn], ["Eve", "Finn"]);
    let [ann, bob] = pair([Patience::AsWritten, Patience::Batches(1_000)], ["Ann", "Bob"]);
    settle(&room);
    assert_eq!(state(&room, eve), TicketState::Ended(Ending::GaveUp));
    assert_eq!(state(&room, finn), TicketState::Lonely { demand: 0 });
    // each meeting is tried once, for one of its members
    assert_eq!([ann, bob].map(|ticket| state(&room, ticket)), [1, 0].map(|batches| TicketState::Waits { batches }));
    for fno in 2..7 {
        // what they read changes, and so they are tried again, for him or for her
        assert!(fno >= 4 || state(&room, ann).ending().is_none(), "{fno}");
        let values = [("fno", fno.into()), ("dest", "Oslo".into())];
        room.put(FLIGHT, &values, Patience::AsWritten).expect("the script is right");
        settle(&room);
    }
    assert_eq!(state(&room, ann), TicketState::Ended(Ending::GaveUp));
    assert_eq!(state(&room, bob), TicketState::Lonely { demand: 0 });
    for batches in [0, 1_001, u32::MAX] {
        let refused = room.put("BEGIN TRANSACTION; COMMIT;", &[], Patience::Batches(batches));
        assert_eq!(refused, Err(RoomError::NoPatience));
    }
}

#[test]
fn scripts_end_as_they_say() {
    let room = room();
    let put = |script: &str| room.put(script, &[], Patience::AsWritten).expect("the script is right");
    let rolled_back = put("BEGIN TRANSACTION; INSERT INTO Bookings VALUES ('x', 1); ROLLBACK;");
    let failed = put("BEGIN TRANSACTION; SET @d = 9223372036854775807 + 1; COMMIT;");
    let committed = put("BEGIN TRANSACTION; INSERT INTO Bookings VALUES ('y', 2); COMMIT;");
    assert_eq!(room.step(), Ok(Stepped::Ran));
    assert_eq!(room.wait(rolled_back), Ok(Ending::RolledBack));
    assert_eq!(room.wait(failed), Ok(Ending::Failed(Failure::Overflow)));
    assert_eq!(room.wait(committed), Ok(Ending::Committed { epoch: 1, number: 1 }));
    assert_eq!(bookings(&room), [row("y", 2)]);
}

#[test]
fn who_is_withdrawn_waits_no_more() {
    let room = room();
    let mickey = put(&room, "Mickey", "Minnie");
    assert_eq!(room.withdraw(mickey), Ok(()));
    assert_eq!(state(&room, mickey), TicketState::Ended(Ending::Withdrawn));
    let minnie = put(&room, "Minnie", "Mickey");
    settle(&room);
    assert_eq!(state(&room, minnie), TicketState::Lonely { demand: 0 });
    for ticket in [mickey, Ticket::new(3), Ticket::new(u64::MAX)] {
        assert_eq!(room.withdraw(ticket), Err(RoomError::NobodyWaits));
    }
    assert_eq!(room.wait(mickey), Ok(Ending::Withdrawn));
}

#[test]
fn who_is_lonely_is_told_which_demand_nobody_offers() {
    let room = room();
    let script = "BEGIN TRANSACTION;
        SELECT 'Mickey', fno INTO ANSWER Trip WHERE fno IN (SELECT fno FROM Flights)
          AND ('Minnie', fno) IN ANSWER Trip AND ('Goofy', fno) IN ANSWER Trip CHOOSE 1;
        COMMIT;";
    let mickey = room.put(script, &[], Patience::UntilWithdrawn).expect("the script is right");
    put(&room, "Minnie", "Mickey");
    settle(&room);
    assert_eq!(state(&room, mickey), TicketState::Lonely { demand: 1 });
    assert_eq!(state(&room, Ticket::new(99)), TicketState::Unknown);
}

#[test]
fn who_waited_in_an_earlier_process_comes_in_again() {
    let options = RoomOptions::default().epoch(7).next_ticket(Ticket::new(10));
    let room = Room::open_with(TABLES, options).expect("the tables are right");
    let restore = |number, values: &[(&str, Value)], batches| {
        room.restore(Ticket::new(number), TRIP, values, Patience::Batches(2), batches)
    };
    assert_eq!(restore(3, &trip("Eve", "Finn", "Rome"), 1), Ok(()));
    for used in [2, 3, 10] {
        assert_eq!(restore(used, &trip("Ann", "Bob", "LA"), 0), Err(RoomError::Used));
    }
    assert!(matches!(restore(5, &[("me", i64::MIN.into())], 0), Err(RoomError::NotBound { .. })));
    assert_eq!(restore(5, &[], 0).unwrap_err().fault().map(|fault| fault.code), Some(306));
    assert_eq!(restore(7, &trip("Finn", "Eve", "Rome"), 0), Ok(()));
    assert_eq!(put(&room, "Ann", "Bob"), Ticket::new(10));
    assert_eq!(room.waiting(), Ok([3, 7, 10].map(Ticket::new).to_vec()));
    settle(&room);
    assert_eq!(state(&room, Ticket::new(3)), TicketState::Ended(Ending::GaveUp));
    assert_eq!(room.submissions(Ticket::new(3)), Ok(vec![Submission { epoch: 7, tx: 1 }]));
    assert_eq!((state(&room, Ticket::new(5)), room.epoch()), (TicketState::Unknown, Ok(7)));
}

#[test]
fn a_turn_gives_a_report_and_drains_tables() {
    let room = room();
    assert_eq!((room.epoch(), room.report(Version::Two)), (Ok(1), Ok(None)));
    put(&room, "Mickey", "Minnie");
    put(&room, "Minnie", "Mickey");
    let eve = put(&room, "Eve", "Finn");
    settle(&room);
    let flights = room.table("Flights");
    for names in [&["Bookings", "Nobody"][..], &["Bookings Flights"], &[""], &["Bookings;"]] {
        assert_eq!(room.turn(names), Err(RoomError::NoSuchTable));
    }
    assert_eq!((room.epoch(), bookings(&room).len()), (Ok(1), 2));

    assert_eq!(room.turn(&["Bookings"]), Ok(1));
    assert_eq!((room.epoch(), room.table("Flights"), bookings(&room)), (Ok(2), flights, vec![]));
    let EpochReport { epoch, text } = room.report(Version::Two).expect("memory is there").expect("an epoch ended");
    assert_eq!((epoch, check(&text)), (1, Ok(Verdict::Yes)));
    assert!(text.contains("\n('Mickey', 122)\n('Minnie', 122)\n"), "{text}");
    assert!(room.report(Version::One).is_ok_and(|report| {
        report.is_some_and(|report| report.text.starts_with("report 1\n") && report.text.contains("joint 1 1.1 2.1\n"))
    }));

    let finn = put(&room, "Finn", "Eve");
    settle(&room);
    assert!(matches!(room.wait(eve), Ok(Ending::Committed { epoch: 2, .. })));
    assert_eq!(room.submissions(finn).map(|all| all.iter().map(|one| one.epoch).collect()), Ok(vec![2]));
    assert_eq!(room.turn(&[]), Ok(2));
    assert_eq!(bookings(&room).len(), 2);
    let report = room.report(Version::Two).expect("memory is there").expect("an epoch ended");
    assert_eq!((report.epoch, check(&report.text)), (2, Ok(Verdict::Yes)));
    assert_eq!(
        (room.turn(&["Bookings", "Flights"]), room.table("Flights"), bookings(&room)),
        (Ok(3), Ok(vec![]), vec![])
    );
}

#[test]
fn a_step_ends_an_epoch_by_itself() {
    let room = room();
    let mickey = put(&room, "Mickey", "Minnie");
    for _ in 0..10_001 {
        room.put("BEGIN TRANSACTION; COMMIT;", &[], Patience::AsWritten).expect("the script is right");
    }
    settle(&room);
    let EpochReport { epoch, text } = room.report(Version::Two).expect("memory is there").expect("an epoch ended");
    assert_eq!((epoch, check(&text), room.epoch()), (1, Ok(Verdict::Yes), Ok(2)));
    put(&room, "Minnie", "Mickey");
    settle(&room);
    assert!(matches!(room.wait(mickey), Ok(Ending::Committed { epoch: 2, .. })));
}

#[test]
fn there_is_a_last_epoch() {
    let room = Room::open_with(TABLES, RoomOptions::default().epoch(u64::MAX)).expect("the tables are right");
    assert_eq!(
        (room.turn(&[]), room.epoch(), room.report(Version::One)),
        (Err(RoomError::NoNumber), Ok(u64::MAX), Ok(None))
    );
}

#[test]
fn tables_with_too_many_rows_are_drained() {
    let rows: Vec<Row> = (0..65_536).map(|row| vec![Value::Int(row)]).collect();
    let tables = "CREATE TABLE T (a INT); CREATE TABLE U (a INT);";
    let room = Room::open_rows(tables, &[("T", &rows)], RoomOptions::default()).expect("there are just few enough");
    let insert = "BEGIN TRANSACTION; INSERT INTO U VALUES (1); COMMIT;";
    room.put(insert, &[], Patience::AsWritten).expect("the script is right");
    settle(&room);
    let error = room.turn(&[]).unwrap_err();
    assert_eq!(error, RoomError::TooManyRows);
    assert_eq!(error.fault().map(|fault| fault.to_string()).as_deref(), Some("E407"));
    assert_eq!((room.epoch(), room.turn(&["T"]), room.epoch()), (Ok(1), Ok(1), Ok(2)));
    assert_eq!((room.table("T"), room.table("U")), (Ok(vec![]), Ok(vec![vec![Value::Int(1)]])));
}

#[test]
fn rows_are_given_as_values() {
    let mut rows = vec![row("it's", 1), row("東", i64::MIN), row("", 0), row("'); DELETE FROM U; --", i64::MAX)];
    rows.extend([row("東\u{1f600}\u{85}", 7), row(&"東".repeat(85), 3), row(&"'".repeat(255), 4)]);
    let tables = "CREATE TABLE T (a TEXT, b INT); CREATE TABLE U (a INT); INSERT INTO U VALUES (6); -- and no more";
    let numbers = [5, 6].map(|number| vec![Value::Int(number)]);
    let given: [(&str, &[Row]); 2] = [("T", &rows), ("U", &numbers)];
    let room = Room::open_rows(tables, &given, RoomOptions::default()).expect("all is right");
    rows.sort();
    assert_eq!((room.table("T"), room.table("U")), (Ok(rows.clone()), Ok(numbers.to_vec())));
    let again = Room::open_rows(tables, &[("T", &rows), ("U", &[])], RoomOptions::default()).expect("all is right");
    assert_eq!((again.table("T"), again.table("U")), (Ok(rows), Ok(vec![vec![Value::Int(6)]])));
}

#[test]
fn rows_may_have_more_bytes_than_an_input() {
    let rows: Vec<Row> = (0..65_536).map(|number| vec![format!("{number:0255}").into()]).collect();
    let tables = "CREATE TABLE T (a TEXT); CREATE TABLE U (a INT);";
    let opened = |tables: &str, given: &[(&str, &[Row])]| Room::open_rows(tables, given, RoomOptions::default());
    let room = opened(tables, &[("T", &rows)]).expect("there are just few enough");
    assert!(room.table("T").is_ok_and(|table| table == rows));
    let one = [vec![Value::Int(1)]];
    assert_eq!(opened(tables, &[("U", &one), ("T", &rows)]).unwrap_err(), RoomError::TooManyRows);
    let inserted = format!("{tables} INSERT INTO U VALUES (1);");
    assert_eq!(opened(&inserted, &[("T", &rows)]).unwrap_err(), RoomError::TooManyRows);
}

/// The error of an opening over two tables, and rows of them.
fn refused(tables: &[(&str, &[Row])]) -> RoomError {
    let declarations = "CREATE TABLE T (a TEXT, b INT); CREATE TABLE U (a INT);";
    Room::open_rows(declarations, tables, RoomOptions::default()).unwrap_err()
}

#[test]
fn rows_that_do_not_fit_their_tables_are_refused() {
    let int = |number| vec![Value::Int(number)];
    let (good, two) = ([row("a", 1)], [int(5), int(6)]);
    let not_a_row = |table: &str, row, fault| RoomError::NotARow { table: table.into(), row, fault };
    let kind = RowFault::OtherKind;
    assert_eq!(refused(&[("T", &[row("a", 1), vec![1.into(), 1.into()]])]), not_a_row("T", 1, kind));
    assert_eq!(refused(&[("U", &two), ("T", &[row("a", 1), vec!["b".into(), "2".into()]])]), not_a_row("T", 1, kind));
    let length = RowFault::OtherLength;
    assert_eq!(refused(&[("T", &good), ("U", &[int(1), row("b", 3), int(2)])]), not_a_row("U", 1, length));
    assert_eq!(refused(&[("T", &[]), ("U", &two), ("U", &[int(7), vec![]])]), not_a_row("U", 1, length));
    assert_eq!(refused(&[("U", &[vec![Value::Int(0); 17]])]), not_a_row("U", 0, length));
    let absent = RowFault::NoSuchTable;
    assert_eq!(refused(&[("T", &good), ("V", &good), ("U", &[vec![]])]), not_a_row("V", 0, absent));
    for name in ["", "T U", "T VALUES ('x', 1); --", "1T", "_T", "T-", "Tä", &"T".repeat(64)] {
        assert_eq!(refused(&[("T", &good), (name, &good)]), not_a_row(name, 0, absent), "{name}");
    }
    for (fault, code, sentence) in [
        (absent, 301, "row 2 of T: there is no such table"),
        (length, 303, "row 2 of T: it has another number of values than the table has columns"),
        (kind, 304, "row 2 of T: a value is of another kind than its column"),
    ] {
        let error = not_a_row("T", 2, fault);
        assert_eq!((error.to_string().as_str(), error.fault().map(|fault| fault.code)), (sentence, Some(code)));
        assert_eq!(error.source().and_then(|source| source.downcast_ref()), error.fault().as_ref());
    }
}

#[test]
fn rows_with_values_that_no_table_can_have_are_refused() {
    let fault = |text: &str| match refused(&[("U", &[]), ("T", &[row("a", 1), vec![7.into(), text.into()]])]) {
        RoomError::NotARow { table, row: 1, fault: RowFault::Value { column: 1, fault } } if table == "T" => fault,
        other => panic!("{other:?}"),
    };
    assert_eq!(fault(&"a".repeat(256)), ValueFault::TooLong);
    assert_eq!(fault(&"東".repeat(86)), ValueFault::TooLong);
    for (text, offset) in [("\n", 0), ("a\r\n", 1), ("東\u{7f}", 3), ("a\0", 1), ("'\t", 1)] {
        assert_eq!(fault(text), ValueFault::ControlCharacter { offset }, "{text:?}");
    }
    let error = refused(&[("T", &[row("a\nb", 1)])]);
    assert_eq!(error.to_string(), "value 0 of row 0 of T: a control character stands at byte 1 of the text");
    assert!(error.source().is_none() && error.fault().is_none());
}

#[test]
fn an_opening_is_refused_for_its_first_fault() {
    let opened = |input: &str, rows: &[Row], options| Room::open_rows(input, &[("T", rows)], options).unwrap_err();
    let (options, text) = (RoomOptions::default(), vec![Value::from("x")]);
    let faulty = opened("CREATE TABLE T (a INTEGER);", slice::from_ref(&text), options);
    assert_eq!(faulty.fault().map(|fault| fault.to_string()).as_deref(), Some("E201 at 18"));
    let tables = "CREATE TABLE T (a INT);";
    let many: Vec<Row> = (0..65_537).map(|_| text.clone()).collect();
    assert_eq!(opened(tables, &many, options), RoomError::TooManyRows);
    let scripts = format!("{tables} BEGIN TRANSACTION; COMMIT; BEGIN TRANSACTION; COMMIT;");
    let options = options.most_waiters(1);
    assert!(matches!(opened(&scripts, &[text], options), RoomError::NotARow { row: 0, .. }));
    assert_eq!(opened(&scripts, &[vec![Value::Int(1)]], options), RoomError::Full);
}

#[test]
fn scripts_of_an_opening_are_put_in_order() {
    let scripts = "BEGIN TRANSACTION; INSERT INTO T VALUES (1); COMMIT; BEGIN TRANSACTION; ROLLBACK;";
    let options = RoomOptions::default().next_ticket(Ticket::new(5)).most_waiters(2);
    let room = Room::open_with(&format!("CREATE TABLE T (a INT); {scripts}"), options).expect("the input is right");
    assert_eq!(room.waiting(), Ok(vec![Ticket::new(5), Ticket::new(6)]));
    settle(&room);
    assert_eq!(room.wait(Ticket::new(6)), Ok(Ending::RolledBack));
    let few = options.most_waiters(1);
    assert_eq!(Room::open_with(&format!("CREATE TABLE T (a INT); {scripts}"), few).unwrap_err(), RoomError::Full);
}

#[test]
fn a_full_room_takes_nobody() {
    let room = Room::open_with(TABLES, RoomOptions::default().most_waiters(1)).expect("the tables are right");
    let eve = put(&room, "Eve", "Finn");
    let full = room.put(TRIP, &trip("Finn", "Eve", "LA"), Patience::AsWritten);
    assert_eq!(full, Err(RoomError::Full));
    assert_eq!(room.withdraw(eve), Ok(()));
    assert_eq!(put(&room, "Finn", "Eve"), Ticket::new(2));
}

#[test]
fn how_a_ticket_ended_is_kept_for_a_while() {
    let room = Room::open_with(TABLES, RoomOptions::default().most_ended(1)).expect("the tables are right");
    let tickets = [put(&room, "Mickey", "Minnie"), put(&room, "Minnie", "Mickey")];
    let mut fates = tickets.map(|ticket| Polled::new(&room, ticket));
    assert!(fates.iter_mut().all(|fate| fate.poll().is_pending()));
    settle(&room);
    let told = fates.map(|mut fate| (fate.woken(), fate.poll()));
    assert!(told.iter().all(|(woken, told)| *woken == 1 && told.is_ready()), "{told:?}");
    let lost = Poll::Ready(Err(RoomError::UnknownTicket));
    assert_eq!(told.iter().filter(|(_, told)| *told == lost).count(), 1);
    assert_eq!(tickets.iter().filter(|ticket| state(&room, **ticket) == TicketState::Unknown).count(), 1);

    let none = Room::open_with(TABLES, RoomOptions::default().most_ended(0)).expect("the tables are right");
    let mut fate = Polled::new(&none, put(&none, "Eve", "Finn"));
    assert!(fate.poll().is_pending());
    settle(&none);
    assert!(fate.poll().is_pending());
    assert_eq!(none.withdraw(Ticket::new(1)), Ok(()));
    assert_eq!((fate.woken(), fate.poll()), (1, Poll::Ready(Err(RoomError::UnknownTicket))));
}

/// Makes steps whenever it is told that something was put, until nobody is left who tells.
fn stepping(room: &Room) -> (Sender<()>, impl FnOnce() + Send + '_) {
    let (put, is_put) = channel();
    (put, move || is_put.iter().for_each(|()| settle(room)))
}

#[test]
fn threads_share_a_room() {
    let room = room();
    let (told, steps) = stepping(&room);
    thread::scope(|scope| {
        scope.spawn(steps);
        for pair in 0..16 {
            for (me, friend) in [(2 * pair, 2 * pair + 1), (2 * pair + 1, 2 * pair)] {
                let (room, told) = (&room, told.clone());
                scope.spawn(move || {
                    let ticket = put(room, &format!("p{me}"), &format!("p{friend}"));
                    told.send(()).expect("the other thread listens");
                    assert!(matches!(room.wait(ticket), Ok(Ending::Committed { .. })));
                });
            }
        }
        drop(told);
    });
    assert_eq!((bookings(&room).len(), room.waiting()), (32, Ok(vec![])));
}

#[test]
fn a_wait_has_a_deadline() {
    let room = room();
    let mickey = put(&room, "Mickey", "Minnie");
    settle(&room);
    let begun = Instant::now();
    assert_eq!(room.wait_timeout(mickey, Duration::from_millis(50)), Ok(None));
    assert!(begun.elapsed() >= Duration::from_millis(50));
    assert_eq!(room.wait_timeout(mickey, Duration::ZERO), Ok(None));
    assert_eq!(state(&room, mickey), TicketState::Lonely { demand: 0 });
    thread::scope(|scope| {
        let waits = scope.spawn(|| room.wait_timeout(mickey, Duration::MAX));
        put(&room, "Minnie", "Mickey");
        settle(&room);
        assert!(matches!(waits.join(), Ok(Ok(Some(Ending::Committed { .. })))));
    });
    assert_eq!(room.wait(Ticket::new(3)), Err(RoomError::UnknownTicket));
}

/// A future that is polled by hand, with a count of how often it was woken.
struct Polled {
    fate: FutureFate,
    count: Arc<Count>,
}

#[derive(Default)]
struct Count(AtomicUsize);

impl Wake for Count {
    fn wake(self: Arc<Self>) {
        self.0.fetch_add(1, Ordering::Relaxed);
    }
}

impl Polled {
    fn new(room: &Room, ticket: Ticket) -> Self {
        Polled { fate: room.fate(ticket), count: Arc::default() }
    }

    fn poll(&mut self) -> Poll<Result<Ending, RoomError>> {
        let waker = Waker::from(self.count.clone());
        pin!(&mut self.fate).poll(&mut Context::from_waker(&waker))
    }

    fn woken(&self) -> usize {
        self.count.0.load(Ordering::Relaxed)
    }
}

#[test]
fn a_future_is_woken_by_the_end_of_its_ticket_alone() {
    let room = room();
    let tickets = [put(&room, "Mickey", "Minnie"), put(&room, "Eve", "Finn")];
    let mut fates = tickets.map(|ticket| Polled::new(&room, ticket));
    let mut second = Polled::new(&room, tickets[0]);
    for fate in fates.iter_mut().chain([&mut second]) {
        assert!(fate.poll().is_pending() && fate.poll().is_pending());
    }
    settle(&room);
    put(&room, "Minnie", "Mickey");
    assert_eq!([fates[0].woken(), fates[1].woken(), second.woken()], [0; 3]);
    thread::scope(|scope| scope.spawn(|| settle(&room)).join()).expect("the steps are made");
    assert_eq!([fates[0].woken(), fates[1].woken(), second.woken()], [1, 0, 1]);
    let ended = state(&room, tickets[0]).ending().map(Ok).expect("it ended");
    assert_eq!((fates[0].poll(), second.poll()), (Poll::Ready(ended.clone()), Poll::Ready(ended.clone())));
    assert_eq!(Polled::new(&room, tickets[0]).poll(), Poll::Ready(ended));
    assert!(fates[1].poll().is_pending());
    room.withdraw(tickets[1]).expect("it waits");
    assert_eq!((fates[1].woken(), fates[1].poll()), (1, Poll::Ready(Ok(Ending::Withdrawn))));
    assert_eq!(Polled::new(&room, Ticket::new(99)).poll(), Poll::Ready(Err(RoomError::UnknownTicket)));
}

#[test]
fn a_future_wakes_the_task_that_polled_it_last() {
    let room = room();
    let mut fate = Polled::new(&room, put(&room, "Eve", "Finn"));
    assert!(fate.poll().is_pending());
    let before = std::mem::take(&mut fate.count);
    assert!(fate.poll().is_pending());
    assert_eq!(Arc::strong_count(&before), 1);
    room.withdraw(Ticket::new(1)).expect("it waits");
    assert_eq!((before.0.load(Ordering::Relaxed), fate.woken()), (0, 1));
}

#[test]
fn a_future_that_is_dropped_withdraws_nothing() {
    let room = room();
    let mickey = put(&room, "Mickey", "Minnie");
    drop(room.fate(mickey));
    let mut dropped = Polled::new(&room, mickey);
    assert!(dropped.poll().is_pending());
    let count = dropped.count.clone();
    drop(dropped);
    assert_eq!(Arc::strong_count(&count), 1);
    put(&room, "Minnie", "Mickey");
    settle(&room);
    assert_eq!(count.0.load(Ordering::Relaxed), 0);
    assert!(has_committed(&room, mickey));
}

/// Ends a future on this thread.
fn block_on<T>(future: impl Future<Output = T>) -> T {
    struct Unpark(thread::Thread);
    impl Wake for Unpark {
        fn wake(self: Arc<Self>) {
            self.0.unpark();
        }
    }
    let waker = Waker::from(Arc::new(Unpark(thread::current())));
    let mut future = pin!(future);
    loop {
        match future.as_mut().poll(&mut Context::from_waker(&waker)) {
            Poll::Ready(value) => return value,
            Poll::Pending => thread::park(),
        }
    }
}

#[test]
fn a_future_is_awaited() {
    let room = Arc::new(room());
    let (told, is_told) = channel();
    let steps = {
        let room = room.clone();
        thread::spawn(move || is_told.iter().for_each(|()| settle(&room)))
    };
    let booked = |me: &'static str, friend: &'static str| {
        let (room, told) = (room.clone(), told.clone());
        thread::spawn(move || {
            block_on(async {
                let ticket = put(&room, me, friend);
                told.send(()).expect("the other thread listens");
                room.fate(ticket).await
            })
        })
    };
    for booked in [booked("Mickey", "Minnie"), booked("Minnie", "Mickey")] {
        assert!(matches!(booked.join(), Ok(Ok(Ending::Committed { .. }))));
    }
    drop(told);
    steps.join().expect("the steps are made");
}

#[test]
fn a_closed_room_ends_all_waits() {
    let room = room();
    let mickey = put(&room, "Mickey", "Minnie");
    let mut polled = Polled::new(&room, mickey);
    assert!(polled.poll().is_pending());
    let unpolled = room.fate(mickey);
    thread::scope(|scope| {
        let waits = [scope.spawn(|| room.wait(mickey)), scope.spawn(|| room.wait(mickey))];
        thread::sleep(Duration::from_millis(20));
        room.close();
        for wait in waits {
            assert!(matches!(wait.join(), Ok(Err(RoomError::Closed))));
        }
    });
    assert_eq!((polled.woken(), polled.poll()), (1, Poll::Ready(Err(RoomError::Closed))));
    assert_eq!(block_on(unpolled), Err(RoomError::Closed));
    room.close();
    let put = room.put(TRIP, &trip("Mickey", "Minnie", "LA"), Patience::AsWritten);
    assert_eq!((put, room.withdraw(mickey)), (Err(RoomError::Closed), Err(RoomError::Closed)));
    assert_eq!((room.step(), room.turn(&[]), room.epoch()), {
        (Err(RoomError::Closed), Err(RoomError::Closed), Err(RoomError::Closed))
    });
    assert_eq!((room.state(mickey), room.wait(mickey)), (Err(RoomError::Closed), Err(RoomError::Closed)));
    assert_eq!((room.table("Flights"), room.waiting()), (Err(RoomError::Closed), Err(RoomError::Closed)));
    assert_eq!((room.explain("BEGIN", &[]), room.why(mickey)), (Err(RoomError::Closed), Err(RoomError::Closed)));
    assert_eq!(room.report(Version::Two), Err(RoomError::Closed));
    assert_eq!(RoomError::Closed.to_string(), "the room is closed");
}

#[test]
fn a_future_may_outlive_its_room() {
    let room = room();
    let mut fate = Polled::new(&room, put(&room, "Mickey", "Minnie"));
    assert!(fate.poll().is_pending());
    drop(room);
    assert_eq!((fate.woken(), fate.poll()), (1, Poll::Ready(Err(RoomError::Closed))));
}

#[test]
fn each_error_says_what_it_is() {
    let room = room();
    let absent = room.table("Nobody").unwrap_err();
    assert_eq!((absent.to_string().as_str(), &absent), ("no table has this name", &RoomError::NoSuchTable));
    assert_eq!(absent.source().and_then(|source| source.downcast_ref()), absent.fault().as_ref());
    assert_eq!(absent.fault().map(|fault| fault.to_string()).as_deref(), Some("E401"));
    let bound = room.put(TRIP, &[("me", "\0".into())], Patience::AsWritten).unwrap_err();
    assert_eq!(bound.to_string(), "@me isn't bound: a control character stands at byte 0 of the text");
    assert!(bound.source().is_none() && bound.fault().is_none());
    let fault = entangle::report("CREATE", Version::One).unwrap_err();
    assert_eq!(RoomError::from(fault), RoomError::Faulty(fault));
    assert_eq!(RoomError::OutOfMemory.fault().map(|fault: Fault| fault.code), Some(900));
    let checked = || -> Result<Verdict, RoomError> { Ok(check("report 3\n")?) };
    assert!(matches!(checked(), Ok(Verdict::No { .. })));
    let sentences = [
        RoomError::Full,
        RoomError::NoPatience,
        RoomError::Used,
        RoomError::NobodyWaits,
        RoomError::UnknownTicket,
        RoomError::Busy,
        RoomError::TooManyRows,
        RoomError::NoNumber,
        RoomError::OutOfMemory,
    ]
    .map(|error| error.to_string());
    assert!(sentences.iter().all(|sentence| !sentence.is_empty()));
    assert_eq!(sentences.iter().collect::<std::collections::HashSet<_>>().len(), sentences.len());
}

#[test]
fn what_may_be_shared_is_shared() {
    fn is_shared<T: Send + Sync + 'static>() {}
    is_shared::<Room>();
    is_shared::<FutureFate>();
    is_shared::<Ticket>();
    is_shared::<RoomError>();
}

#[test]
fn a_thousand_rooms_come_and_go() {
    for number in 0..1000 {
        let room = room();
        let mickey = put(&room, "Mickey", "Minnie");
        let mut fate = Polled::new(&room, mickey);
        assert!(fate.poll().is_pending());
        if number % 2 == 0 {
            put(&room, "Minnie", "Mickey");
            settle(&room);
            assert!(room.turn(&["Bookings"]).is_ok() && fate.poll().is_ready());
        }
    }
}
