//! Two friends book one flight together: each waits in a thread of its own until the other is there. Prints how each
//! ended, what a check of the epoch's report says, and what is said of a faulty script.
//!
//! ```sh
//! cargo run --offline --example friends
//! ```

use entangle::{Patience, Room, RoomError, RoomOptions, Stepped, Verdict, Version, check};
use std::error::Error;
use std::sync::mpsc::channel;
use std::thread;

const TABLES: &str = "CREATE TABLE Flights (fno INT, dest TEXT);
CREATE TABLE Bookings (who TEXT, fno INT);
";

/// Somebody flies where a friend does.
const TRIP: &str = "BEGIN TRANSACTION;
SELECT @me, fno AS @fno INTO ANSWER Trip
  WHERE fno IN (SELECT fno FROM Flights WHERE dest = 'LA') AND (@friend, fno) IN ANSWER Trip CHOOSE 1;
INSERT INTO Bookings VALUES (@me, @fno);
COMMIT;
";

fn main() -> Result<(), Box<dyn Error>> {
    let flights = [122, 123].map(|fno| vec![fno.into(), "LA".into()]);
    let room = Room::open_rows(TABLES, &[("Flights", &flights)], RoomOptions::default())?;
    let (is_put, put) = channel();
    thread::scope(|scope| {
        let friends = [("Mickey", "Minnie"), ("Minnie", "Mickey")].map(|(me, friend)| {
            let (room, is_put) = (&room, is_put.clone());
            scope.spawn(move || -> Result<_, RoomError> {
                let values = [("me", me.into()), ("friend", friend.into())];
                let ticket = room.put(TRIP, &values, Patience::UntilWithdrawn)?;
                // who listens goes away at an error alone, and then the room is closed
                let _ = is_put.send(());
                Ok((me, room.wait(ticket)?))
            })
        });
        drop(is_put);
        for () in put {
            if let Err(error) = settle(&room) {
                room.close();
                return Err(error);
            }
        }
        for friend in friends {
            let (who, ending) = friend.join().expect("nobody panics")?;
            println!("{who}: {ending:?}");
        }
        Ok(())
    })?;
    for booking in room.table("Bookings")? {
        println!("{} flies with {}", booking[0], booking[1]);
    }

    room.turn(&["Bookings"])?;
    let report = room.report(Version::Two)?.expect("an epoch ended");
    assert_eq!(check(&report.text)?, Verdict::Yes);

    let (wrong, values) = (TRIP.replace("dest = 'LA'", "dest = LA"), [("me", "Eve".into()), ("friend", "Finn".into())]);
    match room.put(&wrong, &values, Patience::AsWritten) {
        Ok(ticket) => println!("ticket {ticket}"),
        Err(error) => print!("{}", room.explain(&wrong, &values)?.unwrap_or(format!("{error}\n"))),
    }
    Ok(())
}

/// Makes steps until there is nothing to do.
fn settle(room: &Room) -> Result<(), RoomError> {
    while room.step()? != Stepped::Idle {}
    Ok(())
}
