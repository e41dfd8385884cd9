//! Why a call has done nothing.

use std::error::Error;
use std::fmt;

/// Why a call of a node has done nothing. After each the node is as before; but where
/// [`Node::start`](crate::Node::start) fails the server may be stopped.
#[derive(Clone, Copy, Debug, PartialEq, Eq)]
pub enum Fault {
    /// Memory was refused.
    NoMemory,
    /// The bytes are no work, or no message.
    Malformed,
    /// It can't be done now.
    Refused,
    /// The node's numbers are used up.
    UsedUp,
    /// A number is out of its range.
    OutOfRange,
    /// The file begins with no save: this node has forgotten what others know, and must not start.
    NoSave,
    /// Bytes of the file are missing that were safe: this node must not start.
    TooShort,
}

impl Fault {
    /// The fault of a number that an export answers.
    pub(crate) fn of(number: u32) -> Result<(), Fault> {
        Err(match number {
            0 => return Ok(()),
            1 => Fault::NoMemory,
            3 => Fault::Malformed,
            5 => Fault::UsedUp,
            7 => Fault::OutOfRange,
            9 => Fault::NoSave,
            10 => Fault::TooShort,
            _ => Fault::Refused,
        })
    }
}

impl fmt::Display for Fault {
    fn fmt(&self, f: &mut fmt::Formatter<'_>) -> fmt::Result {
        f.write_str(match self {
            Fault::NoMemory => "memory was refused",
            Fault::Malformed => "the bytes are malformed",
            Fault::Refused => "it can't be done now",
            Fault::UsedUp => "the node's numbers are used up",
            Fault::OutOfRange => "a number is out of its range",
            Fault::NoSave => "the file begins with no save",
            Fault::TooShort => "bytes of the file are missing that were safe",
        })
    }
}

impl Error for Fault {}
