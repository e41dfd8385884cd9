//! A session over a stream.

#[cfg(feature = "security")]
use crate::security::Session;
use std::io::{self, ErrorKind, Read, Write};
use std::sync::{Arc, Mutex, MutexGuard};

/// Where this is built without security there is no session.
#[cfg(not(feature = "security"))]
enum Session {}

#[cfg(not(feature = "security"))]
impl Session {
    fn is_worn(&self) -> bool {
        match *self {}
    }

    fn seal(&mut self, _: &[u8], _: &mut Vec<u8>) -> io::Result<()> {
        match *self {}
    }

    fn add(&mut self, _: &[u8]) {
        match *self {}
    }

    fn open(&mut self, _: &mut [u8]) -> io::Result<Option<usize>> {
        match *self {}
    }
}

/// So much is read of the stream at once.
const ROOM: usize = 32 << 10;

/// What is sealed may leave so much room behind.
const MOST_ROOM: usize = 1 << 18;

/// A connection: a stream, and a session over it, or none where the connection is plain. Who reads and who writes have
/// one each, and lock the session only to open or to seal.
pub struct Channel<S> {
    stream: S,
    session: Option<Arc<Mutex<Session>>>,
    /// What was read and is not opened yet, or what is sealed.
    room: Vec<u8>,
}

impl<S> Channel<S> {
    /// A connection without security.
    pub fn plain(stream: S) -> Channel<S> {
        Channel { stream, session: None, room: Vec::new() }
    }

    /// A connection with this session.
    #[cfg(feature = "security")]
    pub fn secured(stream: S, session: Session) -> Channel<S> {
        Channel { stream, session: Some(Arc::new(Mutex::new(session))), room: Vec::new() }
    }

    /// The same connection for another thread, by another stream to the same socket.
    pub fn beside<T>(&self, stream: T) -> Channel<T> {
        Channel { stream, session: self.session.clone(), room: Vec::new() }
    }

    /// The stream below.
    pub fn stream(&self) -> &S {
        &self.stream
    }

    /// Whether it has a session.
    pub fn is_secured(&self) -> bool {
        self.session.is_some()
    }

    /// Whether so much has gone through it that it is better made anew.
    pub fn is_worn(&self) -> bool {
        self.session.as_ref().and_then(|session| session.lock().ok()).is_some_and(|session| session.is_worn())
    }

    /// Adds what has to be sent for these bytes.
    ///
    /// # Errors
    ///
    /// That the session is of no more use.
    pub fn seal(&self, bytes: &[u8], out: &mut Vec<u8>) -> io::Result<()> {
        match &self.session {
            Some(session) => lock(session)?.seal(bytes, out),
            None => {
                out.extend_from_slice(bytes);
                Ok(())
            }
        }
    }
}

fn lock(session: &Mutex<Session>) -> io::Result<MutexGuard<'_, Session>> {
    session.lock().map_err(|_| ErrorKind::Other.into())
}

impl<S: Read> Read for Channel<S> {
    fn read(&mut self, to: &mut [u8]) -> io::Result<usize> {
        let Some(session) = &self.session else { return self.stream.read(to) };
        loop {
            if let Some(count) = lock(session)?.open(to)? {
                return Ok(count);
            }
            if self.room.len() < ROOM {
                self.room.resize(ROOM, 0);
            }
            let count = self.stream.read(&mut self.room)?;
            if count == 0 {
                return Ok(0);
            }
            lock(session)?.add(&self.room[..count]);
        }
    }
}

impl<S: Write> Write for Channel<S> {
    fn write(&mut self, bytes: &[u8]) -> io::Result<usize> {
        let Some(session) = &self.session else { return self.stream.write(bytes) };
        self.room.clear();
        lock(session)?.seal(bytes, &mut self.room)?;
        self.stream.write_all(&self.room)?;
        self.room.clear();
        self.room.shrink_to(MOST_ROOM);
        Ok(bytes.len())
    }

    fn flush(&mut self) -> io::Result<()> {
        self.stream.flush()
    }
}
