//! A client of a cluster. It needs neither the library of nodes nor what builds that: only the standard library and,
//! with the feature `security`, the crate `openssl`.
//!
//! A [`Client`] asks one thing after another, finds owners, and waits where that is of use. A [`Connection`] has many
//! requests under way at once, at one host. Both say the same of each request:
//!
//! - `Ok`: it was done, and is durable; what a read shows is confirmed.
//! - [`Error::Refused`], [`Error::Mismatch`], [`Error::Unasked`], [`Error::NotLetIn`]: it was not done.
//! - [`Error::Unknown`]: nobody knows. The answer of a write was lost: it may have been done, or may still be done. It
//!   is not asked again by itself, since that would be another write.
//!
//! ```no_run
//! use sevunthi_client::{Client, Error, Target};
//!
//! let mut client = Client::new(Target::on("127.0.0.1", 7300, 4));
//! let version = client.put(1, 5, b"hello")?;
//! assert_eq!(client.get(1, 5)?.value.as_deref(), Some(&b"hello"[..]));
//! # Ok::<(), Error>(())
//! ```
//!
//! [`Client::entries`] reads a range of keys, in pages ([`scan`]).
//!
//! Over these stand [`names`], a table whose keys are byte strings, and [`large`], values of up to 1 MiB.
//!
//! What goes over the wire stands in [`protocol`] and [`hello`]; `docs/WIRE.md` has it byte by byte. Where the cluster's
//! processes want security, [`Target::with_secret`] names the file of the clients' secret: all is said over
//! [`security`] then.

pub mod addresses;
mod bytes;
mod channel;
mod client;
mod connection;
mod dial;
mod error;
pub mod hello;
pub mod large;
pub mod names;
pub mod protocol;
pub mod refusal;
pub mod scan;
pub mod secret;
#[cfg(feature = "security")]
pub mod security;
mod sha256;
mod store;
mod target;

pub use bytes::framed;
pub use channel::Channel;
pub use client::{Client, STANDS_BY};
pub use connection::{Answer, Connection};
pub use error::{Error, Found, Lost, Missing};
pub use hello::NotLetIn;
pub use refusal::Refusal;
pub use secret::{Secret, SecretFile};
pub use store::Store;
pub use target::Target;
