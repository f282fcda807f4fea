//! What the calls promise beside the rows: places, long reports, errors, conversions and many threads.

use entangle::{Driver, Error, Failure, Fate, FaultKind, Place, Reply, Shared, Standing, Step, Value, Version};
use entangle::{WrongKind, check, check_bytes, explain, explain_bytes, report, report_of_bytes};
use std::error::Error as StandardError;
use std::thread;

#[test]
fn a_fault_has_its_place() {
    let fault = report("CREATE TABLE T (a INT);\nINSERT INTO T VALUES ('東', b);", Version::One).unwrap_err();
    assert_eq!((fault.code, fault.kind), (201, FaultKind::Refused));
    assert_eq!(fault.place, Some(Place { offset: 53, line: 2, column: 28 }));
    let error: Box<dyn StandardError + Send + Sync> = Box::new(fault);
    assert_eq!(error.to_string(), "E201 at 53");
}

#[test]
fn bytes_that_are_no_text_are_refused() {
    let fault = report_of_bytes(b"-- \xff", Version::One).unwrap_err();
    assert_eq!((fault.code, fault.place.map(|place| place.offset)), (100, Some(3)));
}

#[test]
fn an_input_that_is_too_long_has_no_place() {
    let fault = report(&" ".repeat(16_777_217), Version::One).unwrap_err();
    assert_eq!((fault.code, fault.kind, fault.place), (105, FaultKind::Refused, None));
}

#[test]
fn a_report_longer_than_the_first_buffer_comes_whole() {
    let mut input = String::from("CREATE TABLE T (a INT);\n");
    (0..500).for_each(|number| input += &format!("INSERT INTO T VALUES ({number});\n"));
    let script = "BEGIN TRANSACTION;\nSELECT a FROM T;\nCOMMIT;\n";
    (0..20).for_each(|_| input += script);
    let told = report(&input, Version::One).expect("the input is right");
    assert!(told.len() > 2 * input.len());
    assert!(told.ends_with("end\n"));
    assert_eq!(told.matches("\n(499)\n").count(), 21);
}

#[test]
fn an_input_without_a_fault_has_nothing_to_explain() {
    assert_eq!(explain("").expect("memory is there"), None);
}

#[test]
fn calls_may_be_made_from_many_threads() {
    let input = "CREATE TABLE T (a INT);\nBEGIN TRANSACTION;\nINSERT INTO T VALUES (1);\nCOMMIT;\n";
    let alone = report(input, Version::Two).expect("the input is right");
    thread::scope(|scope| {
        for _ in 0..8 {
            scope.spawn(|| {
                for _ in 0..100 {
                    assert_eq!(report(input, Version::Two).as_deref(), Ok(alone.as_str()));
                }
            });
        }
    });
    assert!(check(&alone).is_ok());
}

const TABLE: &str = "CREATE TABLE T (a INT);";

/// The number of the fault of an error.
fn code_of(error: Error) -> u16 {
    error.fault().map_or(0, |fault| fault.code)
}

#[test]
fn a_script_ends_as_it_says() {
    let mut driver = Driver::open(TABLE).expect("the table is right");
    let mut ended = |script: &str| {
        let tx = driver.submit(script).expect("the script is right");
        driver.run().expect("memory is there");
        driver.standing(tx).expect("it was submitted").fate()
    };
    let rolled_back = ended("BEGIN TRANSACTION; INSERT INTO T VALUES (1); ROLLBACK;");
    assert_eq!(rolled_back, Some(Fate::RolledBack { runs: 1 }));
    let failed = ended("BEGIN TRANSACTION; SET @d = 9223372036854775807 + 1; COMMIT;");
    assert_eq!(failed, Some(Fate::Failed { failure: Failure::Overflow, runs: 1 }));
    let committed = ended("BEGIN TRANSACTION; INSERT INTO T VALUES (2); COMMIT;");
    assert_eq!(committed, Some(Fate::Committed { number: 1, runs: 1 }));
    assert_eq!(driver.table("T"), Ok(vec![vec![Value::Int(2)]]));
    assert_eq!(driver.answer_lines(3).as_deref(), Ok("1 count 1\n"));
    assert_eq!(driver.answers(2), Ok(Vec::new()));
}

#[test]
fn a_refused_call_changes_nothing() {
    let mut driver = Driver::open(TABLE).expect("the table is right");
    let error = driver.submit("BEGIN TRANSACTION;\n INSERT INTO U VALUES (1); COMMIT;").unwrap_err();
    let Error::Fault(fault) = error else { panic!("{error}") };
    assert_eq!((fault.code, fault.place), (301, Some(Place { offset: 32, line: 2, column: 14 })));
    assert_eq!(driver.standing(1).map_err(code_of), Err(401));
    assert_eq!(driver.table("U").map_err(code_of), Err(401));
    assert_eq!(driver.report(Version::One), Err(Error::State));
    assert_eq!(driver.submit("BEGIN TRANSACTION; COMMIT;"), Ok(1));
    assert_eq!(driver.close().map_err(code_of), Err(405));
    assert_eq!(driver.standing(1), Ok(Standing::Waiting { runs: 0 }));
    driver.run().expect("memory is there");
    driver.close().expect("all have their fates");
    assert_eq!(driver.run(), Err(Error::State));
    assert!(driver.report(Version::Two).is_ok_and(|told| check(&told).is_ok()));
}

#[test]
fn a_refused_script_is_explained_in_its_own_lines() {
    let mut driver = Driver::open("CREATE TABLE Flights (fno INT, dest TEXT);").expect("the table is right");
    let said = |driver: &mut Driver, script: &str| {
        let fault = driver.submit(script).unwrap_err().fault().expect("the script is refused");
        let said = driver.explain(script).expect("memory is there").expect("the script has a fault");
        assert_eq!(said.lines().next(), Some(fault.to_string().as_str()));
        let Place { line, column, .. } = fault.place.expect("it has a place");
        assert!(said.contains(&format!("\nline {line}, column {column}: ")), "{said}");
        said
    };
    let wrong_column =
        said(&mut driver, "BEGIN TRANSACTION;\n-- 東\nSELECT fno FROM Flights WHERE dst = 'LA';\nCOMMIT;");
    assert!(wrong_column.starts_with("E302 at 56\nline 3, column 31: Flights has no column dst\n"), "{wrong_column}");
    assert!(wrong_column.ends_with("\n                                ^^^\ndid you mean dest?\n"), "{wrong_column}");
    let two = said(&mut driver, "BEGIN TRANSACTION; COMMIT;\nBEGIN TRANSACTION; COMMIT;");
    assert!(two.contains("line 2, column 1: BEGIN can't stand here: expected the end of the script\n"), "{two}");
    let open = said(&mut driver, "BEGIN TRANSACTION");
    assert!(open.contains("line 1, column 18: the script ends here, and ; or WITHIN is missing\n"), "{open}");
    assert_eq!(driver.explain("BEGIN TRANSACTION; COMMIT;"), Ok(None));
    assert!(
        driver.explain_bytes(b"BEGIN \xff").is_ok_and(|said| said.is_some_and(|said| said.starts_with("E100 at 6")))
    );
    assert_eq!(driver.submit_bytes(b"BEGIN \xff").map_err(code_of), Err(100));
    assert_eq!(driver.submit("BEGIN TRANSACTION; COMMIT;"), Ok(1));
    driver.run().expect("memory is there");
    driver.close().expect("all have their fates");
    assert_eq!(driver.explain("BEGIN"), Err(Error::State));
}

#[test]
fn each_error_says_what_it_is() {
    let mut driver = Driver::open(TABLE).expect("the table is right");
    let refused = driver.submit("BEGIN TRANSACTION;\n INSERT INTO U VALUES (1); COMMIT;").unwrap_err();
    assert_eq!(refused.to_string(), "the text is refused at line 2, column 14");
    assert_eq!(refused.source().map(ToString::to_string).as_deref(), Some("E301 at 32"));
    assert_eq!(refused.source().and_then(|source| source.downcast_ref()), refused.fault().as_ref());
    let absent = driver.table("U").unwrap_err();
    assert_eq!(
        (absent.to_string().as_str(), code_of(absent)),
        ("no script has this number, or no table this name", 401)
    );
    assert_eq!(driver.report(Version::One).unwrap_err().to_string(), Error::State.to_string());
    assert!(Error::State.source().is_none() && Error::State.fault().is_none());
    for _ in 0..10_000 {
        driver.submit("BEGIN TRANSACTION; COMMIT;").expect("there are few scripts");
    }
    let full = driver.submit("BEGIN TRANSACTION; COMMIT;").unwrap_err();
    assert_eq!((full.to_string().as_str(), code_of(full)), ("10,000 scripts were submitted", 406));
    let busy = driver.close().unwrap_err();
    assert_eq!((busy.to_string().as_str(), code_of(busy)), ("a run is on, or a transaction waits for one", 405));
    let long = Driver::open(&" ".repeat(16_777_217)).unwrap_err();
    assert_eq!((long.to_string().as_str(), code_of(long)), ("the call is refused", 105));
    let fault = report("CREATE", Version::One).unwrap_err();
    assert_eq!(Error::from(fault), Error::Fault(fault));
    let asked = || -> Result<String, Error> { Ok(report("CREATE", Version::One)?) };
    assert_eq!(asked().map_err(code_of), Err(201));
}

#[test]
fn tables_with_too_many_rows_are_not_renewed() {
    let rows = |table: &str| (0..32_768).map(|row| format!("INSERT INTO {table} VALUES ({row});")).collect::<String>();
    let tables = format!("CREATE TABLE T (a INT); CREATE TABLE U (a INT);{}{}", rows("T"), rows("U"));
    let mut driver = Driver::open(&tables).expect("there are just few enough rows");
    driver.submit("BEGIN TRANSACTION; INSERT INTO T VALUES (-1); COMMIT;").expect("the script is right");
    driver.run().expect("memory is there");
    driver.close().expect("all have their fates");
    let error = driver.renew().unwrap_err();
    assert_eq!((error.to_string().as_str(), code_of(error)), ("the tables have more than 65,536 rows together", 407));
}

#[test]
#[allow(clippy::cmp_owned, clippy::op_ref)] // each comparison is tried
fn values_are_made_and_compared() {
    assert_eq!([Value::from(1), Value::from(1_i64), Value::from(1_u32)], [Value::Int(1), Value::Int(1), Value::Int(1)]);
    assert_eq!([Value::from("a"), Value::from(String::from("a"))], [Value::Text("a".into()), Value::Text("a".into())]);
    let (number, text) = (Value::from(7), Value::from("it's"));
    let equal = [number == 7, 7 == number, text == "it's", "it's" == text, text == *"it's", *"it's" == text];
    let unequal = [number == 8, 8 == number, number == "7", "7" == number, text == 7, 7 == text, text == "its"];
    assert_eq!((equal, unequal), ([true; 6], [false; 7]));
    assert_eq!([text == String::from("it's"), String::from("it's") == text], [true; 2]);
    assert!(Value::Int(i64::MAX) < Value::from("") && Value::from("a") < Value::from("b"));
    assert_eq!((number.as_int(), number.as_text(), text.as_int(), text.as_text()), (Some(7), None, None, Some("it's")));
    assert_eq!((i64::try_from(&number), i64::try_from(number.clone())), (Ok(7), Ok(7)));
    assert_eq!((<&str>::try_from(&text), String::try_from(text.clone())), (Ok("it's"), Ok("it's".to_string())));
    let wrong: [Result<(), WrongKind>; 4] = [
        i64::try_from(&text).map(|_| ()),
        i64::try_from(text.clone()).map(|_| ()),
        <&str>::try_from(&number).map(|_| ()),
        String::try_from(number.clone()).map(|_| ()),
    ];
    let words = wrong.map(|wrong| wrong.unwrap_err().to_string());
    assert_eq!(
        words[0..2],
        ["the value is a text, and a number is wanted", "the value is a text, and a number is wanted"]
    );
    assert_eq!(
        words[2..4],
        ["the value is a number, and a text is wanted", "the value is a number, and a text is wanted"]
    );
    assert_eq!((number.to_string(), text.to_string()), ("7".to_string(), "'it''s'".to_string()));
}

#[test]
fn bytes_are_taken_as_texts_are() {
    assert_eq!(
        explain_bytes(b"-- \xff").map(|said| said.is_some_and(|said| said.starts_with("E100 at 3\n"))),
        Ok(true)
    );
    assert!(check_bytes(b"\xff").is_ok_and(|verdict| verdict != entangle::Verdict::Yes));
    assert!(matches!(Driver::open_bytes(b"\xff").map_err(code_of), Err(100)));
}

#[test]
fn what_may_be_shared_is_shared() {
    fn moves<T: Send>() {}
    fn is_shared<T: Send + Sync>() {}
    moves::<Driver>();
    is_shared::<Shared>();
    is_shared::<Error>();
    is_shared::<Value>();
}

#[test]
fn a_closed_driver_goes_on_with_its_tables() {
    let mut driver = Driver::open(TABLE).expect("the table is right");
    assert_eq!(driver.renew(), Err(Error::State));
    let insert = |number: i64| format!("BEGIN TRANSACTION; INSERT INTO T VALUES ({number}); COMMIT;");
    for number in 0..3 {
        assert_eq!(driver.submit(&insert(number)), Ok(1));
        driver.run().expect("memory is there");
        driver.close().expect("all have their fates");
        driver.renew().expect("there are few rows");
        assert_eq!(driver.standing(1).map_err(code_of), Err(401));
    }
    assert_eq!(driver.table("T"), Ok((0..3).map(|number| vec![Value::Int(number)]).collect()));
}

#[test]
fn events_are_made_one_at_a_time() {
    let mut driver = Driver::open(TABLE).expect("the table is right");
    let alone = "BEGIN TRANSACTION WITHIN 1 RUNS;
        SELECT 'Eve', a INTO ANSWER R WHERE a IN (SELECT a FROM T) AND ('Finn', a) IN ANSWER R CHOOSE 1; COMMIT;";
    let eve = driver.submit(alone).expect("the script is right");
    let writer = driver.submit("BEGIN TRANSACTION; INSERT INTO T VALUES (1); COMMIT;").expect("so is this");
    assert_eq!(driver.why(eve).as_deref(), Ok("dormant after 0, and waits for a run"));
    let steps = [
        (Step::EndRun, Reply::NotNow),
        (Step::StartRun, Reply::Started),
        (Step::Begin(3), Reply::Absent),
        (Step::Begin(writer), Reply::Stepped),
        (Step::Begin(eve), Reply::Blocked),
        (Step::EndRun, Reply::Busy),
        (Step::Begin(writer), Reply::Committed),
        (Step::Begin(eve), Reply::Posted),
        (Step::Pick, Reply::Nothing),
        (Step::BreakCycle, Reply::NoCycle),
    ];
    for (step, reply) in steps {
        assert_eq!(driver.step(step), Ok(reply), "{step:?}");
    }
    let why = driver.why(eve).expect("it was submitted");
    assert!(why.starts_with("posted") && why.contains("('Finn', _) IN ANSWER R"), "{why}");
    assert_eq!(driver.step(Step::EndRun), Ok(Reply::Ended));
    assert_eq!(driver.why(eve).as_deref(), Ok("gave up after 1"));
    assert_eq!(driver.why(3).map_err(code_of), Err(401));
}

#[test]
fn a_driver_moves_between_threads() {
    let shared = Shared::new(Driver::open(TABLE).expect("the table is right"));
    thread::scope(|scope| {
        for number in 0..16 {
            let shared = &shared;
            scope.spawn(move || {
                let script = format!("BEGIN TRANSACTION; INSERT INTO T VALUES ({number}); COMMIT;");
                shared.lock().submit(&script).expect("the script is right");
                shared.lock().run().expect("memory is there");
            });
        }
    });
    let mut driver = shared.into_inner();
    thread::spawn(move || assert_eq!(driver.table("T").map(|rows| rows.len()), Ok(16))).join().expect("it is right");
}

#[test]
fn a_thousand_drivers_come_and_go() {
    for number in 0..1000 {
        let mut driver = Driver::open(TABLE).expect("the table is right");
        driver.submit("BEGIN TRANSACTION; INSERT INTO T VALUES (1); COMMIT;").expect("the script is right");
        if number % 2 == 0 {
            driver.run().expect("memory is there");
        }
    }
}
