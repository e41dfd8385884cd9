//! The two queues of a session, in place of a socket: what has come and was not taken yet, and what has to be sent.

use std::io::{self, ErrorKind, Read, Write};

#[derive(Default)]
pub(super) struct Queues {
    came: Vec<u8>,
    taken: usize,
    pub(super) out: Vec<u8>,
}

impl Queues {
    /// Adds what has come.
    pub(super) fn add(&mut self, bytes: &[u8]) {
        self.came.extend_from_slice(bytes);
    }

    /// Whether something has come that was not taken yet.
    pub(super) fn has_more(&self) -> bool {
        !self.came.is_empty()
    }
}

impl Read for Queues {
    fn read(&mut self, to: &mut [u8]) -> io::Result<usize> {
        let rest = &self.came[self.taken..];
        let count = to.len().min(rest.len());
        if count == 0 {
            return Err(ErrorKind::WouldBlock.into());
        }
        to[..count].copy_from_slice(&rest[..count]);
        self.taken += count;
        if self.taken == self.came.len() {
            self.came.clear();
            self.taken = 0;
        }
        Ok(count)
    }
}

impl Write for Queues {
    fn write(&mut self, bytes: &[u8]) -> io::Result<usize> {
        self.out.extend_from_slice(bytes);
        Ok(bytes.len())
    }

    fn flush(&mut self) -> io::Result<()> {
        Ok(())
    }
}
