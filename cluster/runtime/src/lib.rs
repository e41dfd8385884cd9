//! What a process does for its node: a service that runs beside the nodes, on what they own, needs no more than this.
//!
//! [`serve`](serve::serve) runs a host with a [`Service`](service::Service), [`coordinate`](serve::coordinate) the
//! coordinator, both over a [`Transport`](service::Transport): [`Sockets`](sockets::Sockets) is one.
//! `examples/lockd.rs` is a lock service with fencing tokens. The cluster's server stands on the same parts, one by one.
//!
//! # The duties
//!
//! Whoever has a node has duties, which these do:
//!
//! | Duty | Who does it |
//! |---|---|
//! | write what you are given at the end of the journal's file, in that order, and nothing else | [`Kept`](kept::Kept) |
//! | say what is safe, and no more; a write or a sync that fails ends the process | `Kept`, and who calls it ends |
//! | cut the file on coming back where its good bytes end, write what the node adds, and sync | [`Kept::open`](kept::Kept::open) |
//! | lock the file before it is read | [`find`](journal::find) |
//! | keep elsewhere how many bytes were safe | [`Journal`](journal::Journal), in the file `known` |
//! | let nothing leave before it may | [`Kept::leave`](kept::Kept::leave) |
//! | make a journal short, by a save | [`Kept::shorten`](kept::Kept::shorten) |
//! | deliver each of a client's Writes at most once, and say which answer is whose | [`Owner::ask`](owner::Owner::ask) |
//! | confirm reads by a later write | [`Owner::confirm`](owner::Owner::confirm) |
//! | say whom to suspect, and when to decide | [`Suspicion`](suspicion::Suspicion) |
//! | begin a server anew that was replaced | `serve` |
//! | let no message be forged | the transport |
//!
//! Yours are a folder for each node that no other node ever had, one coordinator that keeps its folder for good, hosts
//! that are all made with the same numbers, and never an older copy of a folder. (The cluster's server has a guard
//! against those, which this has not.)

mod ahead;
pub mod awake;
mod base;
pub mod cut_off;
#[doc(hidden)]
pub mod dice;
pub mod disk;
pub mod failing;
pub mod hearing;
pub mod journal;
pub mod kept;
mod keys;
pub mod line;
pub mod listening;
pub mod log;
pub mod owner;
pub mod pace;
pub mod sectors;
pub mod segments;
pub mod serve;
pub mod service;
pub mod sockets;
pub mod superseded;
pub mod suspicion;
mod turns;
pub mod version;
pub mod waits;
