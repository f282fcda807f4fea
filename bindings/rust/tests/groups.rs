//! What the feed of a room promises.

use entangle::{Answer, EndedTicket, Ending, Fact, Failure, Group, GroupCommit, Patience, Room, RoomError};
use entangle::{RoomOptions, Row, Stepped, TableChange, Ticket, TicketState, Value};
use std::collections::{BTreeMap, BTreeSet};

const TABLES: &str = "CREATE TABLE Flights (fno INT, dest TEXT); CREATE TABLE Bookings (who TEXT, fno INT);
INSERT INTO Flights VALUES (122, 'LA'); INSERT INTO Flights VALUES (136, 'Paris');";

/// Somebody flies where a friend does.
const TRIP: &str = "BEGIN TRANSACTION;
SELECT @me, fno AS @fno INTO ANSWER Trip
  WHERE fno IN (SELECT fno FROM Flights WHERE dest = @dest) AND (@friend, fno) IN ANSWER Trip CHOOSE 1;
INSERT INTO Bookings VALUES (@me, @fno);
COMMIT;";

const FLIGHT: &str = "BEGIN TRANSACTION; INSERT INTO Flights VALUES (@fno, 'Oslo'); COMMIT;";

fn room(options: RoomOptions) -> Room {
    Room::open_with(TABLES, options).expect("the tables are right")
}

/// Puts the trip of somebody, who takes part in this many batches at most.
fn put(room: &Room, me: &str, friend: &str, dest: &str, patience: Patience) -> Ticket {
    let values = [("me", me.into()), ("friend", friend.into()), ("dest", dest.into())];
    room.put(TRIP, &values, patience).expect("the script is right")
}

/// Makes steps until there is nothing to do.
fn settle(room: &Room) {
    while room.step().expect("memory is there") != Stepped::Idle {}
}

fn groups(room: &Room) -> Vec<Group> {
    room.groups(0).expect("memory is there")
}

/// Adds a flight, and nothing else.
fn fly(room: &Room, fno: i64) {
    room.put(FLIGHT, &[("fno", fno.into())], Patience::AsWritten).expect("the script is right");
    settle(room);
}

fn row(who: &str, fno: i64) -> Row {
    vec![who.into(), fno.into()]
}

#[test]
fn friends_are_one_group() {
    let room = room(RoomOptions::default().next_group(7).epoch(3));
    let [first, second] = ["it's \"quoted\" \\", "東\u{85}\u{2028}"];
    let ann = put(&room, first, second, "LA", Patience::UntilWithdrawn);
    settle(&room);
    assert_eq!((groups(&room), room.next_group()), (vec![], Ok(7)));
    let bob = put(&room, second, first, "LA", Patience::UntilWithdrawn);
    settle(&room);
    let rows = [row(first, 122), row(second, 122)];
    let fact = |row: &Row| Answer::Entangled(vec![Fact { relation: "Trip".into(), values: row.clone() }]);
    let commits = [(ann, 1), (bob, 2)].into_iter().zip(&rows).map(|((ticket, number), row)| GroupCommit {
        ticket,
        number,
        answers: vec![fact(row), Answer::Count(1)],
    });
    let change = TableChange { table: "Bookings".into(), removed: vec![], added: rows.to_vec() };
    let group = Group { number: 7, epoch: 3, commits: commits.collect(), changes: vec![change], ended: vec![] };
    assert_eq!((room.groups(7), room.groups(8)), (Ok(vec![group.clone()]), Ok(vec![])));
    assert_eq!((groups(&room), room.next_group()), (vec![group], Ok(8)));
}

#[test]
fn who_ends_otherwise_is_told_and_who_is_withdrawn_is_not() {
    let room = room(RoomOptions::default());
    let script = |end: &str| format!("BEGIN TRANSACTION; INSERT INTO Bookings VALUES ('x', 1); {end};");
    let [undone, failed] = ["ROLLBACK", "SET @d = 9223372036854775807 + 1; COMMIT"]
        .map(|end| room.put(&script(end), &[], Patience::AsWritten).expect("the script is right"));
    // nothing flies to Rome
    let eve = put(&room, "Eve", "Finn", "Rome", Patience::Batches(1));
    put(&room, "Finn", "Eve", "Rome", Patience::UntilWithdrawn);
    let mickey = put(&room, "Mickey", "Minnie", "LA", Patience::UntilWithdrawn);
    settle(&room);
    room.withdraw(mickey).expect("it waits");
    settle(&room);
    assert_eq!(room.state(mickey), Ok(TicketState::Ended(Ending::Withdrawn)));
    let told = groups(&room);
    assert!(told.iter().all(|group| group.commits.is_empty() && group.changes.is_empty()), "{told:?}");
    let endings = [(undone, Ending::RolledBack), (failed, Ending::Failed(Failure::Overflow)), (eve, Ending::GaveUp)];
    let mut ended: Vec<_> = told.into_iter().flat_map(|group| group.ended).collect();
    ended.sort_by_key(|one| one.ticket);
    assert_eq!(ended, endings.map(|(ticket, ending)| EndedTicket { ticket, ending }));
}

#[test]
fn settled_groups_are_kept_no_longer() {
    let room = room(RoomOptions::default().next_group(5));
    for fno in 0..3 {
        fly(&room, fno);
        room.turn(&["Bookings"]).expect("nothing is in its way");
    }
    let told = groups(&room);
    assert_eq!(told.iter().map(|group| (group.number, group.epoch)).collect::<Vec<_>>(), [(5, 1), (6, 2), (7, 3)]);
    for (settled, kept) in [(4, 0), (6, 2), (5, 2), (u64::MAX, 3)] {
        assert_eq!((room.settled_through(settled), groups(&room)), (Ok(()), told[kept..].to_vec()));
    }
    fly(&room, 9);
    assert_eq!((groups(&room)[0].number, room.next_group()), (8, Ok(9)));
}

#[test]
fn the_groups_give_the_tables() {
    let room = room(RoomOptions::default());
    let rows = |name: &str| room.table(name).expect("there is this table").into_iter().collect::<BTreeSet<Row>>();
    let names = ["Flights", "Bookings"];
    let mut tables: BTreeMap<String, BTreeSet<Row>> = names.map(|name| (name.to_string(), rows(name))).into();
    let mut commits = 0;
    for number in 0..60_i64 {
        let (me, friend) = if number % 2 == 0 { ("p", "q") } else { ("q", "p") };
        let [me, friend] = [me, friend].map(|name| format!("{name}{}", number / 2 % 20));
        put(&room, &me, &friend, "LA", Patience::AsWritten);
        let values = [("fno", Value::from(number % 7))];
        let script =
            if number % 3 == 0 { FLIGHT } else { "BEGIN TRANSACTION; DELETE FROM Flights WHERE fno = @fno; COMMIT;" };
        room.put(script, &values, Patience::AsWritten).expect("the script is right");
        if number % 8 != 7 && number != 59 {
            continue;
        }
        settle(&room);
        for group in groups(&room) {
            for TableChange { table, removed, added } in group.changes {
                let rows = tables.get_mut(&table).expect("there is this table");
                assert!(removed.iter().all(|row| rows.remove(row)) && added.into_iter().all(|row| rows.insert(row)));
            }
            for commit in group.commits {
                commits += 1;
                assert_eq!(commit.number, commits);
                let ending = Ending::Committed { epoch: group.epoch, number: commits };
                assert_eq!(room.state(commit.ticket), Ok(TicketState::Ended(ending)));
            }
            room.settled_through(group.number).expect("the room is open");
        }
    }
    assert!(commits > 60 && names.into_iter().all(|name| tables[name] == rows(name)), "{commits} {tables:?}");
}

#[test]
fn there_is_a_last_group() {
    let room = room(RoomOptions::default().next_group(u64::MAX));
    settle(&room);
    room.put(FLIGHT, &[("fno", 7.into())], Patience::AsWritten).expect("the script is right");
    for _ in 0..2 {
        assert_eq!((room.step(), room.next_group()), (Err(RoomError::NoNumber), Ok(u64::MAX)));
    }
    assert_eq!((groups(&room), room.turn(&[])), (vec![], Err(RoomError::Busy)));
}

#[test]
fn a_closed_room_has_no_feed() {
    let room = room(RoomOptions::default());
    room.close();
    assert_eq!((room.groups(0), room.next_group()), (Err(RoomError::Closed), Err(RoomError::Closed)));
    assert_eq!(room.settled_through(1), Err(RoomError::Closed));
}
