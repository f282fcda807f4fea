//! What calls cost: the least time of several calls, over inputs of more and more pairs of friends; of a room's calls,
//! over more and more people who wait for somebody who doesn't come; and of a driver's calls, over more and more
//! scripts that wait.
//!
//! ```sh
//! cargo run --offline --release --example costs
//! ```

use entangle::{Driver, Patience, Room, RoomOptions, Stepped, Ticket, Value, Version, check, report};
use std::time::{Duration, Instant};

const TABLES: &str = "CREATE TABLE Flights (fno INT, dest TEXT);
CREATE TABLE Bookings (who TEXT, fno INT);
INSERT INTO Flights VALUES (122, 'LA');
INSERT INTO Flights VALUES (123, 'LA');
";

fn script(who: usize, friend: usize) -> String {
    format!(
        "BEGIN TRANSACTION;
SELECT 'p{who}', fno AS @fno INTO ANSWER Trip
  WHERE fno IN (SELECT fno FROM Flights WHERE dest = 'LA') AND ('p{friend}', fno) IN ANSWER Trip CHOOSE 1;
INSERT INTO Bookings VALUES ('p{who}', @fno);
COMMIT;
"
    )
}

/// An input of so many pairs.
fn pairs(count: usize) -> String {
    let mut input = String::from(TABLES);
    for pair in 0..count {
        input += &script(2 * pair, 2 * pair + 1);
        input += &script(2 * pair + 1, 2 * pair);
    }
    input
}

/// The least time of so many calls.
fn least(calls: usize, call: impl Fn()) -> Duration {
    let time = |_| {
        let begun = Instant::now();
        call();
        begun.elapsed()
    };
    (0..calls).map(time).min().unwrap_or_default()
}

/// The values of somebody who flies where a friend does.
fn values(who: usize, friend: usize) -> [(&'static str, Value); 2] {
    [("me", format!("p{who}").into()), ("friend", format!("p{friend}").into())]
}

/// The trip of somebody, which waits in a room.
fn put(room: &Room, who: usize, friend: usize) -> Ticket {
    const TRIP: &str = "BEGIN TRANSACTION;
SELECT @me, fno AS @fno INTO ANSWER Trip
  WHERE fno IN (SELECT fno FROM Flights WHERE dest = 'LA') AND (@friend, fno) IN ANSWER Trip CHOOSE 1;
INSERT INTO Bookings VALUES (@me, @fno);
COMMIT;
";
    room.put(TRIP, &values(who, friend), Patience::UntilWithdrawn).expect("the script is right")
}

fn settle(room: &Room) {
    while room.step().expect("memory is there") != Stepped::Idle {}
}

/// The least times of a put, of the step that books two, and of a wait for one who has ended, behind so many who wait.
fn least_of_room(count: usize, calls: usize) -> [Duration; 3] {
    let options = RoomOptions::default().most_waiters(1_000_000);
    let room = Room::open_with(TABLES, options).expect("the tables are right");
    for who in 0..count {
        put(&room, who, count + who);
    }
    settle(&room);
    let mut least = [Duration::MAX; 3];
    for call in 0..calls {
        let (first, second) = (2 * (count + call), 2 * (count + call) + 1);
        put(&room, first, second);
        settle(&room);
        let mut times = [Duration::ZERO; 3];
        let mut time = |place: usize, begun: Instant| times[place] = begun.elapsed();
        let begun = Instant::now();
        let ticket = put(&room, second, first);
        time(0, begun);
        let begun = Instant::now();
        assert_eq!(room.step(), Ok(Stepped::Ran));
        time(1, begun);
        let begun = Instant::now();
        room.wait(ticket).expect("it committed");
        time(2, begun);
        least.iter_mut().zip(times).for_each(|(least, time)| *least = time.min(*least));
    }
    least
}

/// A driver over which so many scripts wait, each for a friend who doesn't come, behind one run of them.
fn waiting(count: usize) -> Driver {
    let mut driver = Driver::open(TABLES).expect("the tables are right");
    for who in 0..count {
        let waits = script(who, count + who).replace("BEGIN TRANSACTION", "BEGIN TRANSACTION WITHIN 1000 RUNS");
        driver.submit(&waits).expect("the script is right");
    }
    driver.run().expect("memory is there");
    driver
}

/// The least times of a submit, and of the run behind it, of so many.
fn least_of_driver(count: usize, calls: usize) -> (Duration, Duration) {
    let mut driver = waiting(count);
    let mut least = (Duration::MAX, Duration::MAX);
    for _ in 0..calls {
        let alone = "BEGIN TRANSACTION; INSERT INTO Bookings VALUES ('alone', 1); COMMIT;";
        let begun = Instant::now();
        driver.submit(alone).expect("the script is right");
        least.0 = least.0.min(begun.elapsed());
        let begun = Instant::now();
        driver.run().expect("memory is there");
        least.1 = least.1.min(begun.elapsed());
    }
    least
}

fn main() {
    println!("scripts  bytes of input  report     report 2   check");
    for (count, calls) in [(0, 1000), (1, 1000), (10, 300), (100, 100), (500, 20), (1000, 20)] {
        let input = pairs(count);
        let told = report(&input, Version::Two).expect("the input is right");
        let first = least(calls, || drop(report(&input, Version::One)));
        let second = least(calls, || drop(report(&input, Version::Two)));
        let checked = least(calls, || assert!(check(&told).is_ok()));
        println!("{:>7}  {:>14}  {first:>9.1?}  {second:>9.1?}  {checked:>9.1?}", 2 * count, input.len());
    }
    println!("waiting  put        step       wait, in a room");
    for count in [0, 1, 100, 10_000, 100_000] {
        let [put, step, wait] = least_of_room(count, 50);
        println!("{count:>7}  {put:>9.1?}  {step:>9.1?}  {wait:>9.1?}");
    }
    println!("waiting  submit     run, of a driver");
    for count in [0, 1, 10, 64, 100, 1000] {
        let (submit, run) = least_of_driver(count, 20);
        println!("{count:>7}  {submit:>9.1?}  {run:>9.1?}");
    }
}
