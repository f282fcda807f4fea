//! What the steps of a room brought: groups, read from the lines of JSON in which the library tells them.

use crate::answer::{Answer, Fact, Read, Unread, push, push_text};
use crate::driver::Failure;
use crate::ticket::{Ending, Ticket};
use crate::value::{Row, Value};
use std::str::FromStr;

/// Scripts that ended together: what a database takes in as one transaction.
#[derive(Clone, Debug, PartialEq, Eq, Hash)]
pub struct Group {
    /// Numbers count up by one over all epochs, so a group is told once, and none is left out.
    pub number: u64,
    /// The epoch of the commits.
    pub epoch: u64,
    /// The scripts that committed together, by their numbers.
    pub commits: Vec<GroupCommit>,
    /// What they changed: the tables in which a row went or came, in the order of their declaration.
    pub changes: Vec<TableChange>,
    /// The scripts that ended without a commit, and weren't withdrawn.
    pub ended: Vec<EndedTicket>,
}

/// A script that committed with its group.
#[derive(Clone, Debug, PartialEq, Eq, Hash)]
pub struct GroupCommit {
    /// Its ticket.
    pub ticket: Ticket,
    /// The number of the commit in the epoch, from 1.
    pub number: u64,
    /// What its statements were answered, in order.
    pub answers: Vec<Answer>,
}

/// What a group changed in a table as a whole. No row both went and came.
#[derive(Clone, Debug, PartialEq, Eq, Hash)]
pub struct TableChange {
    /// The table's name.
    pub table: String,
    /// The rows that went, ascending.
    pub removed: Vec<Row>,
    /// The rows that came, ascending.
    pub added: Vec<Row>,
}

/// A script that ended without a commit.
#[derive(Clone, Copy, Debug, PartialEq, Eq, Hash)]
pub struct EndedTicket {
    /// Its ticket.
    pub ticket: Ticket,
    /// How it ended.
    pub ending: Ending,
}

/// The rest of some lines of JSON, from which one thing after the other is read. The library writes no space between
/// things, and the members of an object always in the same order.
struct Json<'a> {
    rest: &'a str,
}

impl<'a> Json<'a> {
    /// Whether this stands in front, which is then behind.
    fn has(&mut self, word: &str) -> bool {
        match self.rest.strip_prefix(word) {
            Some(rest) => (self.rest = rest, true).1,
            None => false,
        }
    }

    /// Reads this.
    fn word(&mut self, word: &str) -> Read<()> {
        if self.has(word) { Ok(()) } else { Err(Unread::Strange) }
    }

    fn number<T: FromStr>(&mut self) -> Read<T> {
        let end = self.rest.find(|c: char| c != '-' && !c.is_ascii_digit()).ok_or(Unread::Strange)?;
        let (number, rest) = self.rest.split_at(end);
        self.rest = rest;
        number.parse().map_err(|_| Unread::Strange)
    }

    /// Reads a number behind a word.
    fn numbered(&mut self, word: &str) -> Read<u64> {
        self.word(word)?;
        self.number()
    }

    /// Reads a text in quotes. No text has control characters, so none is escaped by its number.
    fn text(&mut self) -> Read<String> {
        let mut text = String::new();
        self.word("\"")?;
        loop {
            let (piece, rest) = self.rest.split_at(self.rest.find(['"', '\\']).ok_or(Unread::Strange)?);
            self.rest = rest;
            push_text(&mut text, piece)?;
            if self.has("\"") {
                return Ok(text);
            }
            let escaped = if self.has("\\\"") { "\"" } else { self.word("\\\\").map(|()| "\\")? };
            push_text(&mut text, escaped)?;
        }
    }

    /// Reads things with commas between them, between two brackets.
    fn list<T>(&mut self, open: &str, close: &str, mut thing: impl FnMut(&mut Self) -> Read<T>) -> Read<Vec<T>> {
        let mut list = Vec::new();
        self.word(open)?;
        while !self.has(close) {
            if !list.is_empty() {
                self.word(",")?;
            }
            push(&mut list, thing(self)?)?;
        }
        Ok(list)
    }

    fn value(&mut self) -> Read<Value> {
        if self.rest.starts_with('"') { self.text().map(Value::Text) } else { self.number().map(Value::Int) }
    }

    fn row(&mut self) -> Read<Row> {
        self.list("[", "]", Json::value)
    }

    fn rows(&mut self) -> Read<Vec<Row>> {
        self.list("[", "]", Json::row)
    }

    fn fact(&mut self) -> Read<Fact> {
        let relation = self.text()?;
        self.word(":")?;
        Ok(Fact { relation, values: self.row()? })
    }

    fn answer(&mut self) -> Read<Answer> {
        let answer = if self.has("{\"count\":") {
            Answer::Count(self.number()?)
        } else if self.has("{\"set\":") {
            Answer::Set(self.value()?)
        } else if self.has("{\"rows\":") {
            Answer::Rows(self.rows()?)
        } else {
            self.word("{\"answer\":")?;
            Answer::Entangled(self.list("{", "}", Json::fact)?)
        };
        self.word("}")?;
        Ok(answer)
    }

    fn commit(&mut self) -> Read<GroupCommit> {
        let (ticket, number) = (Ticket::new(self.numbered("{\"ticket\":")?), self.numbered(",\"number\":")?);
        let answers = self.list(",\"answers\":[", "]", Json::answer)?;
        self.word("}")?;
        Ok(GroupCommit { ticket, number, answers })
    }

    fn change(&mut self) -> Read<TableChange> {
        let table = self.text()?;
        self.word(":{\"removed\":")?;
        let removed = self.rows()?;
        self.word(",\"added\":")?;
        let added = self.rows()?;
        self.word("}")?;
        Ok(TableChange { table, removed, added })
    }

    fn ended(&mut self) -> Read<EndedTicket> {
        let ticket = Ticket::new(self.numbered("{\"ticket\":")?);
        let ending = if self.has(",\"ending\":\"rolled back\"") {
            Ending::RolledBack
        } else if self.has(",\"ending\":\"gave up\"") {
            Ending::GaveUp
        } else {
            let failure = self.numbered(",\"ending\":\"failed\",\"failure\":\"F")?;
            self.word("\"")?;
            Ending::Failed(Failure::numbered(failure.try_into().map_err(|_| Unread::Strange)?))
        };
        self.word("}")?;
        Ok(EndedTicket { ticket, ending })
    }

    fn group(&mut self) -> Read<Group> {
        let (number, epoch) = (self.numbered("{\"group\":")?, self.numbered(",\"epoch\":")?);
        let commits = self.list(",\"commits\":[", "]", Json::commit)?;
        let changes = self.list(",\"changes\":{", "}", Json::change)?;
        let ended = self.list(",\"ended\":[", "]", Json::ended)?;
        self.word("}\n")?;
        Ok(Group { number, epoch, commits, changes, ended })
    }
}

/// The groups that lines of JSON say.
pub(crate) fn groups_in(lines: &str) -> Read<Vec<Group>> {
    let (mut groups, mut json) = (Vec::new(), Json { rest: lines });
    while !json.rest.is_empty() {
        push(&mut groups, json.group()?)?;
    }
    Ok(groups)
}

#[cfg(test)]
mod tests {
    use super::*;

    const LINES: &str = "{\"group\":41,\"epoch\":3,\"commits\":[\
        {\"ticket\":10,\"number\":1,\"answers\":[{\"answer\":{\"R\":[\"x\",1],\"S\":[2]}},{\"count\":1}]},\
        {\"ticket\":18446744073709551615,\"number\":2,\"answers\":[{\"set\":-7},{\"rows\":[[1,\"a\"],[2,\"\"]]},\
        {\"rows\":[]},{\"answer\":{}}]}],\
        \"changes\":{\"T\":{\"removed\":[[-9223372036854775808]],\"added\":[]},\
        \"U\":{\"removed\":[],\"added\":[[\"\\\"\\\\],[東\"],[\"}\"]]}},\"ended\":[]}\n\
        {\"group\":42,\"epoch\":3,\"commits\":[],\"changes\":{},\"ended\":[{\"ticket\":1,\"ending\":\"rolled back\"},\
        {\"ticket\":2,\"ending\":\"gave up\"},{\"ticket\":3,\"ending\":\"failed\",\"failure\":\"F1\"},\
        {\"ticket\":4,\"ending\":\"failed\",\"failure\":\"F2\"}]}\n";

    fn change(table: &str, removed: &[&[Value]], added: &[&[Value]]) -> TableChange {
        let [removed, added] = [removed, added].map(|rows| rows.iter().map(|row| row.to_vec()).collect());
        TableChange { table: table.into(), removed, added }
    }

    #[test]
    fn lines_are_read_back() {
        let fact = |relation: &str, values: &[Value]| Fact { relation: relation.into(), values: values.to_vec() };
        let facts = vec![fact("R", &["x".into(), 1.into()]), fact("S", &[2.into()])];
        let rows = vec![vec![1.into(), "a".into()], vec![2.into(), "".into()]];
        let others =
            vec![Answer::Set((-7).into()), Answer::Rows(rows), Answer::Rows(vec![]), Answer::Entangled(vec![])];
        let booked = vec![Answer::Entangled(facts), Answer::Count(1)];
        let commits = [(10, 1, booked), (u64::MAX, 2, others)];
        let commits = commits.map(|(ticket, number, answers)| {
            let ticket = Ticket::new(ticket);
            GroupCommit { ticket, number, answers }
        });
        let changes =
            vec![change("T", &[&[i64::MIN.into()]], &[]), change("U", &[], &[&["\"\\],[東".into()], &["}".into()]])];
        let endings =
            [Ending::RolledBack, Ending::GaveUp, Ending::Failed(Failure::Overflow), Ending::Failed(Failure::TableFull)];
        let ended = (1..).zip(endings).map(|(ticket, ending)| EndedTicket { ticket: Ticket::new(ticket), ending });
        let first = Group { number: 41, epoch: 3, commits: commits.to_vec(), changes, ended: vec![] };
        let second = Group { number: 42, epoch: 3, commits: vec![], changes: vec![], ended: ended.collect() };
        assert_eq!(groups_in(LINES), Ok(vec![first, second]));
        assert_eq!(groups_in(""), Ok(vec![]));
    }

    #[test]
    fn other_lines_are_strange() {
        for (from, to) in [
            ("41", "x"),
            ("\"epoch\"", "\"day\""),
            (",\"number\":1", ""),
            ("},{\"count\"", "}{\"count\""),
            ("\"count\":1}", "\"count\":1"),
            ("\"S\":[2]", "\"S\":2"),
            ("\\\\]", "\\x]"),
            ("gave up", "left"),
            ("\"F1\"", "\"F\""),
            ("[[1,", "[[1,,"),
        ] {
            let lines = LINES.replacen(from, to, 1);
            assert_ne!(lines, LINES);
            assert_eq!(groups_in(&lines), Err(Unread::Strange), "{lines}");
        }
        assert!((1..LINES.len()).all(|end| match LINES.get(..end) {
            Some(lines) => lines.ends_with("]}\n") || groups_in(lines) == Err(Unread::Strange),
            None => true,
        }));
    }
}
