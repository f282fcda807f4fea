//! The worked rows of the program, byte for byte: those whose command line is a run without threads, or a check.

use entangle::{Driver, Error, Fault, Verdict, Version, check_bytes, explain_bytes, report_of_bytes};
use std::fs;
use std::path::PathBuf;

/// A row: an input, and how a command line ends with it.
struct Row {
    name: String,
    arguments: String,
    status: String,
    line: String,
    input: Vec<u8>,
    output: Vec<u8>,
}

fn folder() -> PathBuf {
    PathBuf::from(env!("CARGO_MANIFEST_DIR")).join("../../crates/ent_rows/data/rows")
}

fn rows() -> Vec<Row> {
    let index = fs::read_to_string(folder().join("INDEX.tsv")).expect("the rows have an index");
    let row = |entry: &str| {
        let mut fields = entry.split('\t').map(String::from);
        let mut next = || fields.next().expect("a row has four fields");
        let (name, arguments, status, line) = (next(), next(), next(), next());
        let read = |ending: &str| fs::read(folder().join(format!("{name}.{ending}"))).expect("a row has its files");
        Row { input: read("in"), output: read("out"), name, arguments, status, line }
    };
    index.lines().skip(1).map(row).collect()
}

/// The report of a driver that is opened over an input and run until it can be closed.
fn driven(input: &[u8], version: Version) -> Result<String, Error> {
    let mut driver = Driver::open_bytes(input)?;
    while let Err(error) = driver.close() {
        assert!(matches!(error, Error::Fault(Fault { code: 405, place: None, .. })), "{error}");
        driver.run()?;
    }
    driver.report(version)
}

/// What a run of this version gives: its status, its report and the line on standard error.
fn ran(row: &Row, version: Version) {
    let report = report_of_bytes(&row.input, version);
    assert_eq!(driven(&row.input, version), report.clone().map_err(Error::Fault), "{}", row.name);
    let (status, output, line) = match report {
        Ok(report) => ("0", report, String::new()),
        Err(fault) => ("1", String::new(), fault.to_string()),
    };
    assert_eq!((status, output.as_bytes()), (row.status.as_str(), row.output.as_slice()), "{}", row.name);
    assert!(row.line == "*" || row.line == line, "{}: {line}", row.name);
}

#[test]
fn runs_are_those_of_the_program() {
    let (mut plain, mut second) = (0, 0);
    for row in rows() {
        match row.arguments.as_str() {
            "run" => (ran(&row, Version::One), plain += 1).1,
            "run --report 2" => (ran(&row, Version::Two), second += 1).1,
            _ => (),
        }
    }
    println!("{plain} rows of a plain run, {second} of a report of version 2");
    assert!(plain > 100 && second > 0);
}

#[test]
fn explanations_of_faults_are_those_of_the_program() {
    let mut count = 0;
    let is_wanted = |row: &&Row| row.arguments == "run --explain" && row.status == "1" && row.line == "@";
    for row in rows().iter().filter(is_wanted) {
        let wanted = fs::read_to_string(folder().join(format!("{}.err", row.name))).expect("the row has its lines");
        assert_eq!(explain_bytes(&row.input).expect("memory is there").unwrap_or_default(), wanted, "{}", row.name);
        count += 1;
    }
    println!("{count} rows of an explanation");
    assert!(count > 0);
}

#[test]
fn checks_are_those_of_the_program() {
    let mut count = 0;
    for row in rows().iter().filter(|row| row.arguments == "check") {
        let said = match check_bytes(&row.input).expect("memory is there") {
            Verdict::Yes => "yes\n".to_string(),
            Verdict::No { line, rule } => format!("no {line} {}\n", format!("{rule:?}").to_lowercase()),
        };
        assert_eq!(said.as_bytes(), row.output, "{}", row.name);
        count += 1;
    }
    println!("{count} rows of a check");
    assert!(count > 0);
}
