//! Puts to an etcd server, for a comparison: as much of HTTP/2 and of gRPC as a put takes, and no more.

use crate::bench::{Talk, WAIT};
use crate::protocol::{DONE, UNKNOWN};
use std::io::{self, ErrorKind, Read, Write};
use std::net::TcpStream;

/// What a client says first: the preface, settings with the largest window for each stream, and the same for the
/// connection.
const HELLO: &[u8] = b"PRI * HTTP/2.0\r\n\r\nSM\r\n\r\n\
    \x00\x00\x06\x04\x00\x00\x00\x00\x00\x00\x04\x7f\xff\xff\xff\
    \x00\x00\x04\x08\x00\x00\x00\x00\x00\x7f\xff\x00\x00";

/// `POST`, `http`, the path, the authority, and what a gRPC call has beside: literals, none of which is indexed.
const HEADERS: &[u8] =
    b"\x83\x86\x04\x14/etcdserverpb.KV/Put\x01\x09localhost\x0f\x10\x10application/grpc\x00\x02te\x08trailers";

/// Kinds of frames.
const DATA: u8 = 0;
const WITH_HEADERS: u8 = 1;
const RESET: u8 = 3;
const SETTINGS: u8 = 4;
const PING: u8 = 6;
const GO_AWAY: u8 = 7;
const WINDOW: u8 = 8;

/// Flags of frames.
const ENDS_STREAM: u8 = 1;
const IS_ACK: u8 = 1;
const ENDS_HEADERS: u8 = 4;

/// One connection to an etcd server. The stream of a request is twice its number, and one.
pub struct Etcd {
    stream: TcpStream,
    /// What was not sent yet, and what has come and was not taken yet.
    out: Vec<u8>,
    came: Vec<u8>,
    value: Vec<u8>,
    /// How many bytes of requests the server takes before it says so again.
    window: i64,
    /// Bytes of answers since the server was told that they were taken.
    taken: u32,
    /// The streams that have had a message.
    answered: std::collections::HashSet<u32>,
}

impl Etcd {
    /// Puts of this value, to the server at this address.
    ///
    /// # Errors
    ///
    /// Why it is not reached.
    pub fn connect(address: &str, value: Vec<u8>) -> io::Result<Etcd> {
        let stream = TcpStream::connect(address)?;
        stream.set_nodelay(true)?;
        stream.set_read_timeout(Some(WAIT))?;
        let (out, came, answered) = (HELLO.to_vec(), Vec::new(), std::collections::HashSet::new());
        Ok(Etcd { stream, out, came, value, window: 65_535, taken: 0, answered })
    }

    /// Takes what has come: adds the numbers of what was answered, with the codes of the answers.
    fn take(&mut self, answers: &mut Vec<(u64, u8)>) -> io::Result<()> {
        let (came, mut out) = (std::mem::take(&mut self.came), std::mem::take(&mut self.out));
        let used = self.take_frames(&came, answers, &mut out)?;
        (self.came, self.out) = (came, out);
        self.came.drain(..used);
        Ok(())
    }
}

fn put_frame(kind: u8, flags: u8, stream: u32, body: &[u8], out: &mut Vec<u8>) {
    out.extend_from_slice(&(body.len() as u32).to_be_bytes()[1..]);
    out.extend_from_slice(&[kind, flags]);
    out.extend_from_slice(&stream.to_be_bytes());
    out.extend_from_slice(body);
}

/// A field of bytes in a message of Protocol Buffers.
fn put_field(number: u8, bytes: &[u8], out: &mut Vec<u8>) {
    out.push(number << 3 | 2);
    let mut length = bytes.len();
    while 0x80 <= length {
        out.push(length as u8 | 0x80);
        length >>= 7;
    }
    out.push(length as u8);
    out.extend_from_slice(bytes);
}

fn number_at(bytes: &[u8], at: usize) -> Option<u32> {
    Some(u32::from_be_bytes(bytes.get(at..at + 4)?.try_into().ok()?))
}

impl Talk for Etcd {
    fn ask(&mut self, number: u64, key: u64) {
        let stream = 2 * number as u32 + 1;
        put_frame(WITH_HEADERS, ENDS_HEADERS, stream, HEADERS, &mut self.out);
        let mut message = vec![0; 5];
        put_field(1, format!("{key:016}").as_bytes(), &mut message);
        put_field(2, &self.value, &mut message);
        let length = message.len() as u32 - 5;
        message[1..5].copy_from_slice(&length.to_be_bytes());
        self.window -= message.len() as i64;
        put_frame(DATA, ENDS_STREAM, stream, &message, &mut self.out);
    }

    fn wait(&mut self, answers: &mut Vec<(u64, u8)>) -> io::Result<()> {
        self.stream.write_all(&self.out)?;
        self.out.clear();
        let mut room = [0; 1 << 16];
        match self.stream.read(&mut room)? {
            0 => Err(ErrorKind::UnexpectedEof.into()),
            count => {
                self.came.extend_from_slice(&room[..count]);
                self.take(answers)
            }
        }
    }
}

impl Etcd {
    /// Takes frames, and says how many bytes they had; what has to be sent for it is added to `out`.
    fn take_frames(&mut self, bytes: &[u8], answers: &mut Vec<(u64, u8)>, out: &mut Vec<u8>) -> io::Result<usize> {
        let mut used = 0;
        while let Some(head) = bytes.get(used..used + 9) {
            let length = usize::from(head[0]) << 16 | usize::from(head[1]) << 8 | usize::from(head[2]);
            let Some(body) = bytes.get(used + 9..used + 9 + length) else { break };
            let (kind, flags, stream) = (head[3], head[4], number_at(head, 5).unwrap_or(0));
            let mut ends = kind <= WITH_HEADERS && flags & ENDS_STREAM != 0;
            match kind {
                DATA => {
                    self.answered.insert(stream);
                    self.taken += length as u32;
                }
                RESET => ends = true,
                SETTINGS if flags & IS_ACK == 0 => put_frame(SETTINGS, IS_ACK, 0, &[], out),
                PING if flags & IS_ACK == 0 => put_frame(PING, IS_ACK, 0, body, out),
                WINDOW if stream == 0 => self.window += i64::from(number_at(body, 0).unwrap_or(0)),
                GO_AWAY => return Err(io::Error::new(ErrorKind::InvalidData, "etcd ends the connection")),
                _ => {}
            }
            if ends {
                let code = if self.answered.remove(&stream) { DONE } else { UNKNOWN };
                answers.push((u64::from(stream / 2), code));
            }
            used += 9 + length;
        }
        if 1 << 20 <= self.taken {
            put_frame(WINDOW, 0, 0, &self.taken.to_be_bytes(), out);
            self.taken = 0;
        }
        if self.window < 0 {
            return Err(io::Error::new(ErrorKind::InvalidData, "more is on its way than etcd takes at once"));
        }
        Ok(used)
    }
}
