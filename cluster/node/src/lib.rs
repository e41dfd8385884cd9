//! Nodes of a replicated log for a transport and a disk of your own.
//!
//! A [`Node`] takes works and coded messages, and says in [`Ready`] what has to be written, and what may leave. It is a
//! safe shell over a static library, whose contracts say that it follows the protocol; the shell itself is plain Rust.
//!
//! `examples/one_write.rs` has a coordinator and three hosts in one process.

mod fault;
pub mod message;
mod node;
mod raw;
pub mod trace;
mod work;

pub use fault::Fault;
pub use message::{Address, Answer, Envelope, Id};
pub use node::{Info, Node, Ready, Shape, Tablet, mac};
pub use work::{Due, Work};
