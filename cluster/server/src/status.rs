//! What the coordinator tells of servers and tablets: a line for each, written and read here alone. A rolling restart goes
//! on by what it reads. So a line of these that can't be read makes the whole text none, and so does a text without its
//! last line.

use sevunthi::Id;
use std::fmt::{self, Display, Formatter};

/// How the last line begins.
pub const LAST_LINE: &str = "journal ";

/// What the coordinator does with a server.
#[derive(Clone, Copy, Debug, PartialEq, Eq)]
pub enum State {
    /// It is up by the list.
    Up,
    /// It is not, and is not let in for a while.
    LeftOut,
    /// It is not.
    Crashed,
}

const STATES: [(State, &str); 3] = [(State::Up, "up"), (State::LeftOut, "left out"), (State::Crashed, "crashed")];

/// A server.
#[derive(Clone, Debug, PartialEq, Eq)]
pub struct Server {
    /// Its id.
    pub id: Id,
    /// What the coordinator does with it.
    pub state: State,
    /// How many milliseconds ago it was heard, if it was.
    pub heard: Option<u128>,
}

/// A tablet, with the keys that clients name.
#[derive(Clone, Debug, PartialEq, Eq)]
pub struct Tablet {
    /// The table.
    pub table: u32,
    /// The first key and the last one.
    pub keys: (u64, u64),
    /// Whether its owner has crashed, and nobody owns it since.
    pub is_recovering: bool,
    /// Who owns it, or owned it.
    pub owner: Id,
    /// The term of that.
    pub term: u32,
}

impl Display for Server {
    fn fmt(&self, out: &mut Formatter<'_>) -> fmt::Result {
        let state = STATES.iter().find(|(state, _)| *state == self.state).map_or("", |(_, word)| word);
        write!(out, "server {} {state} ", self.id)?;
        match self.heard {
            Some(ago) => write!(out, "heard {ago} ms ago"),
            None => write!(out, "not heard"),
        }
    }
}

const RECOVERING: &str = "is being recovered from";
const OWNED: &str = "is owned by";

impl Display for Tablet {
    fn fmt(&self, out: &mut Formatter<'_>) -> fmt::Result {
        let Tablet { table, keys: (lo, hi), is_recovering, owner, term } = self;
        let state = if *is_recovering { RECOVERING } else { OWNED };
        write!(out, "table {table} keys {lo} to {hi} {state} {owner} term {term}")
    }
}

/// What a coordinator has told.
#[derive(Clone, Debug, PartialEq, Eq)]
pub struct Status {
    /// The servers, in the order of enlisting.
    pub servers: Vec<Server>,
    /// The tablets.
    pub tablets: Vec<Tablet>,
}

impl Status {
    /// What this text says; none where one of its lines can't be read, or its end is missing.
    pub fn read(text: &str) -> Option<Status> {
        if !text.lines().any(|line| line.starts_with(LAST_LINE)) {
            return None;
        }
        let rest = |word: &'static str| text.lines().filter_map(move |line| line.strip_prefix(word));
        Some(Status {
            servers: rest("server ").map(server).collect::<Option<_>>()?,
            tablets: rest("table ").map(tablet).collect::<Option<_>>()?,
        })
    }

    /// The servers that are up and were heard.
    pub fn heard(&self) -> impl Iterator<Item = Id> {
        self.servers.iter().filter(|server| server.state == State::Up && server.heard.is_some()).map(|server| server.id)
    }

    /// Whether a tablet's owner has crashed, and nobody owns it since.
    pub fn is_recovering(&self) -> bool {
        self.tablets.iter().any(|tablet| tablet.is_recovering)
    }
}

fn id(text: &str) -> Option<Id> {
    let (index, generation) = text.split_once('.')?;
    Some(Id { index: index.parse().ok()?, generation: generation.parse().ok()? })
}

fn server(rest: &str) -> Option<Server> {
    let (name, rest) = rest.split_once(' ')?;
    let (state, heard) = STATES.iter().find_map(|(state, word)| Some((*state, rest.strip_prefix(word)?)))?;
    let heard = match heard.strip_prefix(" heard ") {
        Some(ago) => Some(ago.strip_suffix(" ms ago")?.parse().ok()?),
        None => (heard == " not heard").then_some(None)?,
    };
    Some(Server { id: id(name)?, state, heard })
}

fn tablet(rest: &str) -> Option<Tablet> {
    let (table, rest) = rest.split_once(" keys ")?;
    let (is_recovering, (keys, owned)) = match rest.split_once(RECOVERING) {
        Some(parts) => (true, parts),
        None => (false, rest.split_once(OWNED)?),
    };
    let (lo, hi) = keys.trim_end().split_once(" to ")?;
    let (owner, term) = owned.trim_start().split_once(" term ")?;
    let keys = (lo.parse().ok()?, hi.parse().ok()?);
    Some(Tablet { table: table.parse().ok()?, keys, is_recovering, owner: id(owner)?, term: term.parse().ok()? })
}

#[cfg(test)]
mod tests {
    use super::*;

    #[test]
    fn what_is_written_is_read() {
        let id = |index, generation| Id { index, generation };
        let states = [(State::Up, Some(9)), (State::LeftOut, None), (State::Crashed, Some(80_000))];
        let server = |(index, (state, heard))| Server { id: id(index, 7), state, heard };
        let status = Status {
            servers: (0..).zip(states).map(server).collect(),
            tablets: [false, true]
                .map(|is_recovering| Tablet {
                    table: 3,
                    keys: (0, u64::MAX / 2),
                    is_recovering,
                    owner: id(2, 1),
                    term: 5,
                })
                .to_vec(),
        };
        let lines = status.servers.iter().map(Server::to_string).chain(status.tablets.iter().map(Tablet::to_string));
        let text: String = lines.map(|line| line + "\n").collect();
        assert_eq!(Status::read(&format!("leads since 3 s\n{text}journal 9 bytes\n")), Some(status.clone()));
        assert_eq!(Status::read(&text), None);
        assert_eq!(status.heard().collect::<Vec<_>>(), [id(0, 7)]);
        assert!(status.is_recovering());
    }

    #[test]
    fn what_cant_be_read_is_no_status() {
        for line in
            ["server 0.1 fine heard 9 ms ago", "server 0.1 up heard lately", "table 1 keys 0 to 9 is had by 1.3 term 1"]
        {
            assert_eq!(Status::read(&format!("{line}\njournal 9 bytes\n")), None, "{line}");
        }
    }
}
