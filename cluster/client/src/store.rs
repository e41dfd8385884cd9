//! What is asked of a cluster by what stands over it: a read, and conditional writes.

use crate::client::Client;
use crate::error::{Error, Found};

/// A store of values under tables and keys, as a [`Client`] is one. What stands over it is tried over one in memory.
pub trait Store {
    /// As [`Client::get`].
    ///
    /// # Errors
    ///
    /// As there.
    fn get(&mut self, table: u32, key: u64) -> Result<Found, Error>;

    /// As [`Client::put_if`].
    ///
    /// # Errors
    ///
    /// As there.
    fn put_if(&mut self, table: u32, key: u64, version: u64, value: &[u8]) -> Result<u64, Error>;

    /// As [`Client::put_if_absent`].
    ///
    /// # Errors
    ///
    /// As there.
    fn put_if_absent(&mut self, table: u32, key: u64, value: &[u8]) -> Result<u64, Error>;

    /// As [`Client::delete_if`].
    ///
    /// # Errors
    ///
    /// As there.
    fn delete_if(&mut self, table: u32, key: u64, version: u64) -> Result<u64, Error>;
}

impl Store for Client {
    fn get(&mut self, table: u32, key: u64) -> Result<Found, Error> {
        Client::get(self, table, key)
    }

    fn put_if(&mut self, table: u32, key: u64, version: u64, value: &[u8]) -> Result<u64, Error> {
        Client::put_if(self, table, key, version, value)
    }

    fn put_if_absent(&mut self, table: u32, key: u64, value: &[u8]) -> Result<u64, Error> {
        Client::put_if_absent(self, table, key, value)
    }

    fn delete_if(&mut self, table: u32, key: u64, version: u64) -> Result<u64, Error> {
        Client::delete_if(self, table, key, version)
    }
}

impl<S: Store + ?Sized> Store for &mut S {
    fn get(&mut self, table: u32, key: u64) -> Result<Found, Error> {
        (**self).get(table, key)
    }

    fn put_if(&mut self, table: u32, key: u64, version: u64, value: &[u8]) -> Result<u64, Error> {
        (**self).put_if(table, key, version, value)
    }

    fn put_if_absent(&mut self, table: u32, key: u64, value: &[u8]) -> Result<u64, Error> {
        (**self).put_if_absent(table, key, value)
    }

    fn delete_if(&mut self, table: u32, key: u64, version: u64) -> Result<u64, Error> {
        (**self).delete_if(table, key, version)
    }
}

#[cfg(test)]
pub(crate) mod memory {
    use super::*;
    use crate::error::Missing;
    use std::cell::RefCell;
    use std::collections::BTreeMap;
    use std::rc::Rc;

    /// All values of a store in memory.
    pub(crate) type Values = BTreeMap<(u32, u64), Found>;

    /// What another client does.
    pub(crate) type Meanwhile = Box<dyn FnOnce(Memory)>;

    /// What goes wrong with a call.
    #[derive(Clone, Copy, Debug, PartialEq, Eq)]
    pub(crate) enum Fault {
        /// It is done, and its answer is lost.
        AnswerLost,
        /// It is not done, and its answer is lost.
        NeverDone,
        /// It is not done, and no later one is: who asks has ended.
        Ends,
        /// It is done, later ones are not, and all their answers are lost.
        Silence,
    }

    /// One client's hold of a store in memory, with what goes wrong, and what others do, at one of its calls.
    #[derive(Default)]
    pub(crate) struct Memory {
        pub values: Rc<RefCell<Values>>,
        pub calls: usize,
        pub fault: Option<(usize, Fault)>,
        pub meanwhile: Option<(usize, Meanwhile)>,
    }

    impl Memory {
        /// Another client's hold of the same store.
        pub(crate) fn other(&self) -> Memory {
            Memory { values: Rc::clone(&self.values), ..Memory::default() }
        }

        /// How many keys of a table have a value.
        pub(crate) fn count(&self, table: u32) -> usize {
            let is_there = |((of, _), found): &(&(u32, u64), &Found)| *of == table && found.value.is_some();
            self.values.borrow().iter().filter(is_there).count()
        }

        /// A call: what others do before it, then what it does, then what goes wrong.
        fn call(&mut self, does: impl FnOnce(&mut Values) -> Result<Found, Error>) -> Result<Found, Error> {
            if let Some((_, meanwhile)) = self.meanwhile.take_if(|(at, _)| *at == self.calls) {
                meanwhile(self.other());
            }
            self.calls += 1;
            let fault = self.fault.filter(|(at, fault)| match fault {
                Fault::AnswerLost | Fault::NeverDone => *at + 1 == self.calls,
                Fault::Ends | Fault::Silence => *at < self.calls,
            });
            let mut values = self.values.borrow_mut();
            match fault {
                None => does(&mut values),
                Some((at, Fault::AnswerLost | Fault::Silence)) if at + 1 == self.calls => {
                    let _ = does(&mut values);
                    Err(Error::Unknown)
                }
                Some((_, Fault::AnswerLost | Fault::NeverDone | Fault::Silence)) => Err(Error::Unknown),
                Some((_, Fault::Ends)) => Err(Error::Unasked(Missing::Cluster)),
            }
        }

        /// A conditional write.
        fn write(
            &mut self,
            at: (u32, u64),
            holds: impl FnOnce(&Found) -> bool,
            value: Option<&[u8]>,
        ) -> Result<u64, Error> {
            let written = self.call(|values| {
                let found = values.entry(at).or_default();
                if !holds(found) {
                    return Err(Error::Mismatch(found.clone()));
                }
                *found = Found { version: found.version + 1, value: value.map(<[u8]>::to_vec) };
                Ok(found.clone())
            });
            written.map(|found| found.version)
        }
    }

    impl Store for Memory {
        fn get(&mut self, table: u32, key: u64) -> Result<Found, Error> {
            self.call(|values| Ok(values.get(&(table, key)).cloned().unwrap_or_default()))
        }

        fn put_if(&mut self, table: u32, key: u64, version: u64, value: &[u8]) -> Result<u64, Error> {
            self.write((table, key), |found| found.version == version, Some(value))
        }

        fn put_if_absent(&mut self, table: u32, key: u64, value: &[u8]) -> Result<u64, Error> {
            self.write((table, key), |found| found.value.is_none(), Some(value))
        }

        fn delete_if(&mut self, table: u32, key: u64, version: u64) -> Result<u64, Error> {
            self.write((table, key), |found| found.version == version, None)
        }
    }
}
