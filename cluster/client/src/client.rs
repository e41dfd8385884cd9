//! A client: it finds the owner of a key, and asks again where that is of use.

use crate::addresses;
use crate::bytes::framed;
use crate::channel::Channel;
use crate::connection::Connection;
use crate::dial::{CONNECTING, connect, dial};
use crate::error::{Error, Found, Lost, Missing};
use crate::hello::{self, Hello, NotLetIn, Refused, Role};
use crate::protocol::{
    ANY_HOST, DONE, IN_CLEAR, MISMATCH, MISMATCH_NO_VALUE, MOST_VALUE, NO_HINT, NO_VALUE, NOT_LEADING, Op, Reply,
    Request, UNKNOWN, WRONG,
};
use crate::refusal::{NO_TABLE, RECOVERING, Refusal};
use crate::secret::Secret;
use crate::target::Target;
use std::collections::HashMap;
use std::io::{self, ErrorKind, Read, Write};
use std::net::TcpStream;
use std::thread;
use std::time::{Duration, Instant};

/// How long the coordinator's answer is waited for, where only the owner of a key is asked for.
const PATIENCE_WITH_COORDINATOR: Duration = Duration::from_millis(300);

/// How the state begins of a coordinator that does not lead.
pub const STANDS_BY: &str = "stands by";

/// After so long one asks again: who has refused; and the coordinator, where nobody owns the key.
const PAUSE: Duration = Duration::from_millis(10);
const LONG_PAUSE: Duration = Duration::from_millis(20);

/// After so long one asks again who leads.
const LEADERS_PAUSE: Duration = Duration::from_millis(50);

/// The host that owned a table's keys when the coordinator was asked.
#[derive(Clone, Copy)]
struct Owner {
    index: u8,
    /// It has not answered since, or has refused.
    is_doubted: bool,
}

/// How a client operates the cluster.
#[derive(Clone)]
enum Operates {
    /// It does not.
    Not,
    /// It proves that it has this secret.
    Proves(Secret),
    /// In clear, where the cluster has no security at all.
    InClear,
}

/// A client. It asks one thing at a time, finds the owner of each key, and waits where that is of use: while a head is
/// rolled, or an owner is recovered from. A write that is asked again is a new write: so a write whose answer is lost
/// is not asked again, and is [`Error::Unknown`]. A read is asked again.
pub struct Client {
    target: Target,
    connections: HashMap<u8, Channel<TcpStream>>,
    owners: HashMap<u32, Owner>,
    number: u64,
    operates: Operates,
    /// The coordinator that has led last, as far as it has answered.
    leads: u8,
    /// The host that is tried next, where the coordinator does not answer, and no owner is known.
    guess: u8,
    /// For how long a request is tried.
    pub patience: Duration,
    /// How long one answer is waited for.
    pub wait: Duration,
}

impl Client {
    /// A client of this cluster, which tries each request for ten seconds, and waits three for an answer.
    pub fn new(target: Target) -> Client {
        Client {
            target,
            connections: HashMap::new(),
            owners: HashMap::new(),
            number: 0,
            operates: Operates::Not,
            leads: 0,
            guess: 0,
            patience: Duration::from_secs(10),
            wait: Duration::from_secs(3),
        }
    }

    /// Where its cluster is.
    pub fn target(&self) -> &Target {
        &self.target
    }

    /// From now on it operates the cluster, by this secret: that of the file `operator` in the folder of `up`.
    pub fn operate_with(&mut self, secret: Secret) {
        self.operates = Operates::Proves(secret);
    }

    /// From now on it operates the cluster, which has no security: who is on its machine may.
    pub fn operate_in_clear(&mut self) {
        self.operates = Operates::InClear;
    }

    /// Writes a value, and gives its version.
    ///
    /// # Errors
    ///
    /// That it was not done, or that nobody knows.
    pub fn put(&mut self, table: u32, key: u64, value: &[u8]) -> Result<u64, Error> {
        self.ask(Op::Put, table, key, value).map(|found| found.version)
    }

    /// Deletes a value, and gives the version of that.
    ///
    /// # Errors
    ///
    /// That it was not done, or that nobody knows.
    pub fn delete(&mut self, table: u32, key: u64) -> Result<u64, Error> {
        self.ask(Op::Delete, table, key, &[]).map(|found| found.version)
    }

    /// Writes a value, if the version of the key's newest write is this one; 0 where there was none. The version that
    /// it gives is the next one: nothing was written between.
    ///
    /// # Errors
    ///
    /// [`Error::Mismatch`] with what is there, where that is another version; else that it was not done, or that nobody
    /// knows.
    pub fn put_if(&mut self, table: u32, key: u64, version: u64, value: &[u8]) -> Result<u64, Error> {
        check(key, value)?;
        let written = self.ask(Op::PutIf, table, key, &[&version.to_le_bytes(), value].concat())?;
        next(version, written)
    }

    /// Writes a value, if there is none: nobody has written one, or it was deleted.
    ///
    /// # Errors
    ///
    /// [`Error::Mismatch`] with what is there, where there is a value; else that it was not done, or that nobody knows.
    pub fn put_if_absent(&mut self, table: u32, key: u64, value: &[u8]) -> Result<u64, Error> {
        self.ask(Op::PutIfAbsent, table, key, value).map(|found| found.version)
    }

    /// Deletes a value, if the version of the key's newest write is this one.
    ///
    /// # Errors
    ///
    /// As of [`put_if`](Client::put_if).
    pub fn delete_if(&mut self, table: u32, key: u64, version: u64) -> Result<u64, Error> {
        let written = self.ask(Op::DeleteIf, table, key, &version.to_le_bytes())?;
        next(version, written)
    }

    /// Reads a value, confirmed: no write is missed that was answered before this was asked.
    ///
    /// # Errors
    ///
    /// That it was not read.
    pub fn get(&mut self, table: u32, key: u64) -> Result<Found, Error> {
        self.ask(Op::Get, table, key, &[])
    }

    /// Makes a table, at this host or at the one that owns least.
    ///
    /// # Errors
    ///
    /// That it was not done, or that nobody knows. A table that may have been made is made once: where it is there,
    /// [`Refusal::TableExists`] says so.
    pub fn create(&mut self, table: u32, host: Option<u8>) -> Result<(), Error> {
        self.operate(Op::Create, table, host.map_or(ANY_HOST, u64::from))
    }

    /// Splits a table before a key: what is owned together is recovered together, and can be owned by two hosts then.
    ///
    /// # Errors
    ///
    /// That it was not done, or that nobody knows.
    pub fn split(&mut self, table: u32, key: u64) -> Result<(), Error> {
        self.operate(Op::Split, table, key)
    }

    /// What whoever has this place says of itself: hosts first, and then the coordinators.
    ///
    /// # Errors
    ///
    /// That nobody answers there.
    pub fn status(&mut self, place: u8) -> Result<String, Error> {
        match self.call(place, Op::Status, 0, 0, &[]) {
            Ok(Reply { code: IN_CLEAR, .. }) => Err(Error::Unasked(Missing::NotLetIn(place, NotLetIn::InClear))),
            Ok(reply) => Ok(String::from_utf8_lossy(&reply.value).into_owned()),
            Err(lost) => Err(self.missing(place, lost)),
        }
    }

    /// Who was asked in vain.
    fn missing(&self, place: u8, lost: Lost) -> Error {
        Error::Unasked(match lost {
            Lost::NotLetIn(why) => Missing::NotLetIn(place, why),
            Lost::Before | Lost::After if self.target.hosts <= place => Missing::Coordinator,
            Lost::Before | Lost::After => Missing::Host(place),
        })
    }

    /// A connection to the host that owns this key now, for many requests at once.
    ///
    /// # Errors
    ///
    /// Why nobody is reached.
    pub fn connect(&mut self, table: u32, key: u64) -> Result<Connection, Error> {
        // of a table that was split what is known may be of another key
        if let Some(owner) = self.owners.get_mut(&table) {
            owner.is_doubted = true;
        }
        let owner = self.await_owner(table, key).map_err(Error::Unasked)?;
        Connection::open(&self.target, owner).map_err(|refused| self.missing(owner, Lost::of(&refused)))
    }

    /// Asks the owner, and whoever is the owner then, until it is done, is unknown, or one has waited long enough.
    pub(crate) fn ask(&mut self, op: Op, table: u32, key: u64, value: &[u8]) -> Result<Found, Error> {
        check(key, if op == Op::PutIf { &[] } else { value })?;
        let began = Instant::now();
        let mut last = Error::Unasked(Missing::Coordinator);
        // of a table that was split another host may own the key: that is asked at once
        let mut hurries = true;
        while began.elapsed() < self.patience {
            let pause = match self.owner(table, key) {
                Ok(owner) => {
                    last = match self.ask_at(owner, op, table, key, value) {
                        Err(error) => error,
                        done => return done,
                    };
                    if let Some(owner) = self.owners.get_mut(&table) {
                        owner.is_doubted = true;
                    }
                    PAUSE
                }
                Err(missing @ (Missing::Coordinator | Missing::Leader)) => {
                    last = match self.ask_any(op, table, key, value) {
                        Err(Error::Unasked(_)) => Error::Unasked(missing),
                        Err(error) => error,
                        done => return done,
                    };
                    LONG_PAUSE
                }
                Err(missing) => {
                    last = Error::Unasked(missing);
                    LONG_PAUSE
                }
            };
            if !passes(&last, op) {
                break;
            }
            if last != Error::Refused(Refusal::NotOwner) || !std::mem::take(&mut hurries) {
                thread::sleep(pause);
            }
        }
        Err(last)
    }

    /// Nobody says who owns the key: asks one host after another. Those that do not own it refuse, and do nothing.
    fn ask_any(&mut self, op: Op, table: u32, key: u64, value: &[u8]) -> Result<Found, Error> {
        let index = self.guess % self.target.hosts.max(1);
        let said = self.ask_at(index, op, table, key, value);
        match said {
            Ok(_) | Err(Error::Mismatch(_)) => _ = self.owners.insert(table, Owner { index, is_doubted: false }),
            Err(_) => self.guess = (index + 1) % self.target.hosts.max(1),
        }
        match said {
            Err(Error::Refused(Refusal::NotOwner) | Error::Unasked(_)) => Err(Error::Unasked(Missing::Coordinator)),
            said => said,
        }
    }

    /// Asks a host once.
    fn ask_at(&mut self, owner: u8, op: Op, table: u32, key: u64, value: &[u8]) -> Result<Found, Error> {
        match self.call(owner, op, table, key, value) {
            Ok(Reply { code: WRONG, .. }) => Err(Error::Unasked(Missing::NoHost(owner))),
            Ok(Reply { code: IN_CLEAR, .. }) => Err(Error::Unasked(Missing::NotLetIn(owner, NotLetIn::InClear))),
            Ok(reply) => judge(op, reply),
            Err(Lost::After) => Err(Error::Unknown),
            Err(lost @ (Lost::Before | Lost::NotLetIn(_))) => Err(self.missing(owner, lost)),
        }
    }

    /// The host that owns the key, as the coordinator said last. Where it is in doubt the coordinator is asked again;
    /// where that does not answer, the last one is tried once more.
    ///
    /// # Errors
    ///
    /// Why that is not known.
    pub fn owner(&mut self, table: u32, key: u64) -> Result<u8, Missing> {
        let known = self.owners.get(&table).copied();
        if let Some(Owner { index, is_doubted: false }) = known {
            return Ok(index);
        }
        let reply = self.ask_coordinators(Op::Owner, table, key, PATIENCE_WITH_COORDINATOR);
        match reply.map(|reply| (reply.code, reply.version as u8)) {
            Ok((DONE, index)) => {
                self.learn_of(index)?;
                self.owners.insert(table, Owner { index, is_doubted: false });
                Ok(index)
            }
            Ok((NO_TABLE, _)) => Err(Missing::Table),
            Ok((WRONG, _)) => Err(Missing::NoCoordinator),
            Ok((IN_CLEAR, _)) => Err(Missing::NotLetIn(self.leading(), NotLetIn::InClear)),
            Ok((NOT_LEADING, _)) => known.map(|owner| owner.index).ok_or(Missing::Leader),
            Ok(_) => Err(Missing::Owner),
            Err(lost) => match known {
                Some(owner) => Ok(owner.index),
                None => Err(self.silent(lost)),
            },
        }
    }

    /// A host that came since this client has read where all are is in the file by now.
    fn learn_of(&mut self, index: u8) -> Result<(), Missing> {
        if index < self.target.hosts {
            return Ok(());
        }
        let later = self.target.read_again().ok().filter(|later| index < later.hosts);
        self.target = later.ok_or(Missing::NoHost(index))?;
        // (coordinators have other places here now)
        self.connections.clear();
        Ok(())
    }

    /// The same, tried until it is known, or it is of no use to wait, or one has waited long enough.
    ///
    /// # Errors
    ///
    /// Why that is not known.
    pub fn await_owner(&mut self, table: u32, key: u64) -> Result<u8, Missing> {
        let began = Instant::now();
        loop {
            match self.owner(table, key) {
                Err(missing) if !missing.stays() && began.elapsed() < self.patience => thread::sleep(LONG_PAUSE),
                known => return known,
            }
        }
    }

    /// What is known where the coordinator does not answer. Where nobody listens at its port it may have another one.
    fn silent(&mut self, lost: Lost) -> Missing {
        match lost {
            Lost::After => return Missing::Coordinator,
            Lost::NotLetIn(why) => return Missing::NotLetIn(self.leading(), why),
            Lost::Before => {}
        }
        let refuses = |place| {
            if self.target.is_gone(place) {
                return true;
            }
            let stream = addresses::connect(&self.target.at(place), CONNECTING);
            stream.is_err_and(|error| error.kind() == ErrorKind::ConnectionRefused)
        };
        if (0..self.target.places()).all(refuses) {
            return Missing::Cluster;
        }
        let asked: Vec<u8> = (1..self.target.hosts).rev().collect();
        let is_coordinator = |place: &u8| {
            let reply = self.ask_briefly(*place, 0, 0);
            reply.is_ok_and(|reply| matches!(reply.code, DONE | NO_TABLE | RECOVERING))
        };
        asked.into_iter().find(is_coordinator).map_or(Missing::Coordinator, Missing::Elsewhere)
    }

    /// Asks whoever has this place who owns a key, as one asks the coordinator.
    fn ask_briefly(&mut self, place: u8, table: u32, key: u64) -> Result<Reply, Lost> {
        let wait = self.wait;
        self.wait = wait.min(PATIENCE_WITH_COORDINATOR);
        let reply = self.call(place, Op::Owner, table, key, &[]);
        self.wait = wait;
        reply
    }

    /// The place of the coordinator that has led last, as far as it has answered.
    pub fn leading(&self) -> u8 {
        self.target.hosts + self.leads
    }

    /// Asks the coordinator that has led last, and then the others, so long each. Where none leads one may have a hint
    /// of who owns the key: whoever does not own it refuses.
    fn ask_coordinators(&mut self, op: Op, table: u32, key: u64, most: Duration) -> Result<Reply, Lost> {
        let (wait, mut last) = (self.wait, Err(Lost::Before));
        for _ in 0..self.target.coordinators {
            self.wait = wait.min(most);
            let reply = self.call(self.leading(), op, table, key, &[]);
            self.wait = wait;
            match (reply, &last) {
                (Ok(reply), _) if reply.code != NOT_LEADING => return Ok(reply),
                (Ok(reply), _) if reply.version != NO_HINT => last = Ok(Reply { code: DONE, ..reply }),
                (Ok(reply), Err(_)) => last = Ok(reply),
                (Err(lost @ (Lost::After | Lost::NotLetIn(_))), Err(_)) => last = Err(lost),
                (Ok(_), Ok(_)) | (Err(_), _) => {}
            }
            self.leads = (self.leads + 1) % self.target.coordinators;
        }
        last
    }

    /// What the coordinator that leads says of all, if one does.
    pub fn leaders_status(&mut self) -> Option<String> {
        for _ in 0..self.target.coordinators {
            if let Some(text) = self.status(self.leading()).ok().filter(|text| !text.starts_with(STANDS_BY)) {
                return Some(text);
            }
            self.leads = (self.leads + 1) % self.target.coordinators;
        }
        None
    }

    /// Asks the coordinator that leads for what only who operates the cluster may ask for. Where none does one is waited
    /// for, as long as for an answer.
    fn operate(&mut self, op: Op, table: u32, key: u64) -> Result<(), Error> {
        let began = Instant::now();
        loop {
            let mut last = None;
            for _ in 0..self.target.coordinators {
                match self.operate_at(self.leading(), op, table, key) {
                    Err(Error::Unasked(_)) => {}
                    Err(Error::Refused(Refusal::NotLeading)) => last = Some(Error::Refused(Refusal::NotLeading)),
                    said => return said,
                }
                self.leads = (self.leads + 1) % self.target.coordinators;
            }
            let Some(refused) = last else { return Err(Error::Unasked(self.silent(Lost::Before))) };
            if self.wait < began.elapsed() {
                return Err(refused);
            }
            thread::sleep(LEADERS_PAUSE);
        }
    }

    /// Asks the coordinator of this place for that.
    fn operate_at(&mut self, place: u8, op: Op, table: u32, key: u64) -> Result<(), Error> {
        let secret = match self.operates.clone() {
            Operates::Not => return Err(Error::Refused(Refusal::NotAllowed)),
            Operates::Proves(secret) => Some(secret),
            Operates::InClear => None,
        };
        self.number += 1;
        let mut channel = match self.dial_operator(place, secret.as_ref()) {
            Ok(channel) => channel,
            Err(Refused::NotLetIn(why)) => return Err(Error::NotLetIn(why)),
            Err(Refused::Broken(_)) => return Err(Error::Unasked(Missing::Coordinator)),
        };
        let mut request = Vec::new();
        Request { op, number: self.number, table, key, value: Default::default() }.put(&mut request);
        match exchange(&mut channel, &request, self.number, self.wait) {
            Ok(Reply { code: DONE, .. }) => Ok(()),
            Ok(Reply { code, .. }) => Err(Error::Refused(Refusal::of(code))),
            Err(_) => Err(Error::Unknown),
        }
    }

    fn dial_operator(&self, place: u8, secret: Option<&Secret>) -> Result<Channel<TcpStream>, Refused> {
        let mut channel = dial(&self.target, place, Role::Operator, secret)?;
        channel.stream().set_read_timeout(Some(self.wait))?;
        let seat = self.target.seat(place);
        hello::say(&mut channel, Hello { role: Role::Operator, from: seat, to: seat })?;
        Ok(channel)
    }

    /// Asks whoever has this place, once: hosts first, and then the coordinators.
    ///
    /// # Errors
    ///
    /// That there is no answer, and whether the request was sent.
    pub fn call(&mut self, place: u8, op: Op, table: u32, key: u64, value: &[u8]) -> Result<Reply, Lost> {
        self.number += 1;
        let request = Request { op, number: self.number, table, key, value: value.into() };
        let mut bytes = Vec::new();
        request.put(&mut bytes);
        let mut channel = match self.connections.remove(&place) {
            Some(channel) if is_open(channel.stream()) && !channel.is_worn() => channel,
            Some(_) | None => connect(&self.target, place).map_err(|refused| Lost::of(&refused))?,
        };
        let reply = exchange(&mut channel, &bytes, self.number, self.wait).map_err(|_| Lost::After)?;
        self.connections.insert(place, channel);
        Ok(reply)
    }
}

/// What no host takes is not asked for: who asks for more than a request may have is not answered.
pub(crate) fn check(key: u64, value: &[u8]) -> Result<(), Error> {
    if key >> 63 != 0 {
        return Err(Error::Refused(Refusal::Wrong));
    }
    if MOST_VALUE < value.len() {
        return Err(Error::Refused(Refusal::ValueTooLong));
    }
    Ok(())
}

/// Whether it is of use to ask again. A write of which nobody knows is not: that would be another write.
fn passes(error: &Error, op: Op) -> bool {
    match error {
        Error::Unknown => op.is_read(),
        Error::Refused(refusal) => refusal.passes(),
        Error::Unasked(missing) => !missing.stays(),
        Error::Mismatch(_) | Error::NotLetIn(_) => false,
    }
}

/// A conditional write that was done stands directly behind what it was compared with.
fn next(version: u64, written: Found) -> Result<u64, Error> {
    if written.version == version.wrapping_add(1) { Ok(written.version) } else { Err(Error::Unknown) }
}

/// What an answer says of a request for this.
pub(crate) fn judge(op: Op, reply: Reply) -> Result<Found, Error> {
    let Reply { code, version, value, .. } = reply;
    match code {
        DONE => Ok(Found { version, value: op.is_read().then_some(value) }),
        NO_VALUE => Ok(Found { version, value: None }),
        UNKNOWN => Err(Error::Unknown),
        MISMATCH => Err(Error::Mismatch(Found { version, value: Some(value) })),
        MISMATCH_NO_VALUE => Err(Error::Mismatch(Found { version, value: None })),
        code => Err(Error::Refused(Refusal::of(code))),
    }
}

/// Whether a connection on which nothing is awaited has not been ended by its other side: one that asks nothing makes
/// room for others.
fn is_open(stream: &TcpStream) -> bool {
    let peeked = stream.set_nonblocking(true).map(|()| match stream.peek(&mut [0]) {
        Ok(count) => 0 < count,
        Err(error) => error.kind() == ErrorKind::WouldBlock,
    });
    peeked.unwrap_or(false) && stream.set_nonblocking(false).is_ok()
}

fn exchange(channel: &mut Channel<TcpStream>, request: &[u8], number: u64, wait: Duration) -> io::Result<Reply> {
    let end = Instant::now() + wait;
    channel.stream().set_read_timeout(Some(wait))?;
    channel.write_all(request)?;
    let mut bytes = Vec::new();
    loop {
        for piece in framed(&bytes) {
            if let Some(reply) = Reply::read(piece).filter(|reply| reply.number == number) {
                return Ok(reply);
            }
        }
        let mut more = [0; 8192];
        match channel.read(&mut more)? {
            0 => return Err(ErrorKind::UnexpectedEof.into()),
            count => bytes.extend_from_slice(&more[..count]),
        }
        if end < Instant::now() {
            return Err(ErrorKind::TimedOut.into());
        }
    }
}

#[cfg(test)]
mod tests {
    use super::*;
    use crate::refusal::NOT_OWNER;
    use std::net::TcpListener;
    use std::sync::Arc;
    use std::sync::atomic::{AtomicUsize, Ordering};

    /// A cluster at an address of loopback that only this process and this test use.
    fn target(test: u8, hosts: u8) -> Target {
        let [.., high, low] = std::process::id().to_be_bytes();
        Target::on(&format!("127.{}.{high}.{low}", 100 + test), 7300, hosts)
    }

    /// Answers each request at this place with this code.
    fn answer(target: &Target, place: u8, code: u8) -> io::Result<()> {
        answer_by(target, place, move |_| (code, 0))
    }

    /// Answers each request at this place with a code and a version.
    fn answer_by(
        target: &Target,
        place: u8,
        by: impl Fn(&Request) -> (u8, u64) + Copy + Send + 'static,
    ) -> io::Result<()> {
        let listener = TcpListener::bind(target.at(place))?;
        thread::spawn(move || {
            for mut stream in listener.incoming().flatten() {
                thread::spawn(move || -> io::Result<()> {
                    stream.read_exact(&mut [0])?;
                    loop {
                        let mut length = [0; 4];
                        stream.read_exact(&mut length)?;
                        let mut request = vec![0; u32::from_le_bytes(length) as usize];
                        stream.read_exact(&mut request)?;
                        let request = Request::read(&request).expect("it is one");
                        let (code, version) = by(&request);
                        let mut out = Vec::new();
                        Reply { code, number: request.number, version, value: Vec::new() }.put(&mut out);
                        stream.write_all(&out)?;
                    }
                });
            }
        });
        Ok(())
    }

    /// What becomes of a read, at once.
    fn get(target: &Target) -> Result<Found, Error> {
        let began = Instant::now();
        let outcome = Client::new(target.clone()).get(9, 5);
        assert!(began.elapsed() < Duration::from_secs(5), "{outcome:?}");
        outcome
    }

    #[test]
    fn where_nobody_listens_that_is_said() {
        let target = target(0, 4);
        assert_eq!(get(&target), Err(Error::Unasked(Missing::Cluster)));
        let told = target.told(Missing::Cluster, 9);
        assert!(told.ends_with(":7304 does not answer: nothing listens on ports 7300 to 7304"), "{told}");
    }

    #[test]
    fn a_table_that_is_not_there_is_not_waited_for() -> io::Result<()> {
        let target = target(1, 2);
        answer(&target, 2, NO_TABLE)?;
        assert_eq!(get(&target), Err(Error::Unasked(Missing::Table)));
        assert_eq!(target.told(Missing::Table, 9), "there is no table 9");
        Ok(())
    }

    #[test]
    fn who_is_at_another_place_is_told_apart() -> io::Result<()> {
        let target = target(2, 3);
        (0..3).try_for_each(|host| answer(&target, host, WRONG))?;
        answer(&target, 3, NO_TABLE)?;
        assert_eq!(get(&Target { hosts: 2, ..target.clone() }), Err(Error::Unasked(Missing::NoCoordinator)));
        assert_eq!(get(&Target { hosts: 5, ..target.clone() }), Err(Error::Unasked(Missing::Elsewhere(3))));
        Ok(())
    }

    #[test]
    fn the_coordinator_that_leads_is_found() -> io::Result<()> {
        let target = target(10, 1).with_coordinators(3);
        answer_by(&target, 1, |_| (NOT_LEADING, NO_HINT))?;
        assert_eq!(Client::new(target.clone()).owner(9, 5), Err(Missing::Leader));
        // the one between does not listen
        answer(&target, 3, NO_TABLE)?;
        let mut client = Client::new(target.clone());
        assert_eq!((client.owner(9, 5), client.leading()), (Err(Missing::Table), 3));
        assert_eq!(get(&target), Err(Error::Unasked(Missing::Table)));
        Ok(())
    }

    #[test]
    fn an_owner_that_is_no_host_is_told_apart() -> io::Result<()> {
        // the coordinator names host 0
        let target = target(3, 1);
        answer(&target, 0, WRONG)?;
        answer(&target, 1, DONE)?;
        assert_eq!(get(&target), Err(Error::Unasked(Missing::NoHost(0))));
        Ok(())
    }

    /// Takes requests at this place and ends each connection without an answer; says how many came.
    fn swallow(target: &Target, place: u8) -> io::Result<Arc<AtomicUsize>> {
        let (listener, count) = (TcpListener::bind(target.at(place))?, Arc::new(AtomicUsize::new(0)));
        let counted = Arc::clone(&count);
        thread::spawn(move || {
            for mut stream in listener.incoming().flatten() {
                if stream.read_exact(&mut [0; 26]).is_ok() {
                    counted.fetch_add(1, Ordering::Relaxed);
                }
            }
        });
        Ok(count)
    }

    #[test]
    fn a_write_whose_answer_is_lost_is_unknown_and_a_read_is_asked_again() -> io::Result<()> {
        let target = target(4, 1);
        let count = swallow(&target, 0)?;
        answer(&target, 1, DONE)?;
        let mut client = Client::new(target);
        client.patience = Duration::from_millis(300);
        assert_eq!(client.put(9, 5, b""), Err(Error::Unknown));
        assert_eq!(count.load(Ordering::Relaxed), 1);
        assert_eq!(client.get(9, 5), Err(Error::Unknown));
        assert!(2 < count.load(Ordering::Relaxed));
        Ok(())
    }

    #[test]
    fn who_operates_says_so() -> io::Result<()> {
        let target = target(5, 1);
        let listener = TcpListener::bind(target.at(1))?;
        let server = thread::spawn(move || -> io::Result<Vec<u8>> {
            for verdict in [hello::IN_CLEAR, hello::TAKEN] {
                let (mut stream, mut said) = (listener.accept()?.0, [0; 4]);
                stream.read_exact(&mut said)?;
                assert_eq!(said, [b'A', hello::VERSION, 64, 64]);
                stream.write_all(&[hello::ANSWER, hello::VERSION, verdict])?;
                if verdict == hello::TAKEN {
                    let mut request = vec![0; 25];
                    stream.read_exact(&mut request)?;
                    let mut out = Vec::new();
                    Reply::bare(DONE, 2).put(&mut out);
                    stream.write_all(&out)?;
                    return Ok(request);
                }
            }
            Ok(Vec::new())
        });
        let mut client = Client::new(target);
        assert_eq!(client.create(3, None), Err(Error::Refused(Refusal::NotAllowed)));
        client.operate_in_clear();
        assert_eq!(client.create(3, None), Err(Error::NotLetIn(NotLetIn::InClear)));
        assert_eq!(client.create(3, Some(2)), Ok(()));
        let asked = server.join().expect("it has not panicked")?;
        let request = Request::read(&asked[4..]).expect("it is one");
        assert_eq!((request.op, request.table, request.key), (Op::Create, 3, 2));
        Ok(())
    }

    #[test]
    fn a_client_in_clear_is_told_that_a_proof_is_wanted() -> io::Result<()> {
        let target = target(11, 1);
        (0..2).try_for_each(|place| answer(&target, place, IN_CLEAR))?;
        assert_eq!(get(&target), Err(Error::Unasked(Missing::NotLetIn(1, NotLetIn::InClear))));
        let told = target.told(Missing::NotLetIn(1, NotLetIn::InClear), 9);
        assert!(told.contains(":7301: a proof of the secret is wanted") && told.contains("--client-secret"), "{told}");
        Ok(())
    }

    #[test]
    fn who_does_not_own_a_key_costs_no_pause() -> io::Result<()> {
        // each host owns the keys that are its index, or that and an even number
        let target = target(6, 2);
        answer_by(&target, 0, |request| if request.key % 2 == 0 { (DONE, 7) } else { (NOT_OWNER, 0) })?;
        answer_by(&target, 1, |request| if request.key % 2 == 1 { (DONE, 7) } else { (NOT_OWNER, 0) })?;
        answer_by(&target, 2, |request| (DONE, request.key % 2))?;
        let (mut client, began) = (Client::new(target), Instant::now());
        (0..100).for_each(|key| assert_eq!(client.put(9, key, b""), Ok(7)));
        assert!(began.elapsed() < 99 * PAUSE);
        Ok(())
    }

    #[test]
    fn a_conditional_write_that_is_done_has_the_next_version() -> io::Result<()> {
        let target = target(7, 1);
        answer_by(&target, 0, |request| match request.op {
            Op::PutIf => (DONE, 8),
            Op::PutIfAbsent => (MISMATCH, 8),
            _ => (MISMATCH_NO_VALUE, 8),
        })?;
        answer(&target, 1, DONE)?;
        let mut client = Client::new(target);
        assert_eq!(client.put_if(9, 5, 7, b""), Ok(8));
        assert_eq!(client.put_if(9, 5, 6, b""), Err(Error::Unknown));
        let there = |value| Err(Error::Mismatch(Found { version: 8, value }));
        assert_eq!(client.put_if_absent(9, 5, b""), there(Some(Vec::new())));
        assert_eq!(client.delete_if(9, 5, 7), there(None));
        Ok(())
    }

    #[test]
    fn where_the_coordinator_does_not_answer_hosts_are_tried() -> io::Result<()> {
        let target = target(8, 3);
        let host = |target: &Target, place, code| {
            answer_by(target, place, move |request| (if request.op == Op::Owner { WRONG } else { code }, 3))
        };
        [(0, NOT_OWNER), (1, NOT_OWNER), (2, DONE)]
            .iter()
            .try_for_each(|(place, code)| host(&target, *place, *code))?;
        let mut client = Client::new(target);
        assert_eq!(client.put(9, 5, b""), Ok(3));
        assert_eq!(client.owners.get(&9).map(|owner| owner.index), Some(2));
        let nobodys = self::target(9, 2);
        (0..2).try_for_each(|place| host(&nobodys, place, NOT_OWNER))?;
        let mut client = Client::new(nobodys);
        client.patience = Duration::from_millis(100);
        assert_eq!(client.put(9, 5, b""), Err(Error::Unasked(Missing::Coordinator)));
        Ok(())
    }
}
