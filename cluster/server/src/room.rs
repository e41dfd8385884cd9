//! Room on disks. A host whose disk has less than a reserve says so, and goes on: what was acknowledged has to stay
//! whole, and what others need of it has its room. Where fewer hosts than a segment needs have room, no writes are
//! taken.

use crate::guard::COORDINATOR;
use std::path::{Path, PathBuf};
use std::time::{Duration, Instant};

/// So often one looks how much room there is.
const LOOK: Duration = Duration::from_millis(250);

/// The room that this node's disk has, and what is known of others.
#[derive(Debug)]
pub struct Room {
    folder: PathBuf,
    /// So many bytes are to be left.
    reserve: u64,
    looked: Option<Instant>,
    free: Option<u64>,
    lacks: bool,
    /// Hosts that have said that they lack room, by bit.
    others: u64,
    /// The coordinator has said that no writes are to be taken.
    is_refusing: bool,
}

impl Room {
    /// Of the disk of this folder, on which so many bytes are to be left.
    pub fn new(folder: &Path, reserve: u64) -> Room {
        Room { folder: folder.into(), reserve, looked: None, free: None, lacks: false, others: 0, is_refusing: false }
    }

    /// Looks how much room there is, where it is time to. Says so in words where the node lacks room from now on, or no
    /// longer does.
    pub fn look(&mut self) -> Option<String> {
        if self.looked.is_some_and(|looked| looked.elapsed() < LOOK) {
            return None;
        }
        self.looked = Some(Instant::now());
        self.found(sevunthi_system::free_bytes(&self.folder).ok())
    }

    /// So much room was found. Once it was too little, there has to be a quarter more.
    fn found(&mut self, free: Option<u64>) -> Option<String> {
        self.free = free;
        let free = free?;
        let needed = if self.lacks { self.reserve.saturating_add(self.reserve / 4) } else { self.reserve };
        let lacks = free < needed;
        if lacks == self.lacks {
            return None;
        }
        self.lacks = lacks;
        let reserve = self.reserve;
        Some(match lacks {
            true => format!("the disk has {free} bytes left, fewer than the reserve of {reserve}"),
            false => format!("the disk has {free} bytes left, and room again"),
        })
    }

    /// How many bytes are free, if that is known.
    #[cfg(test)]
    fn free(&self) -> Option<u64> {
        self.free
    }

    /// Whether this node's disk has little room.
    pub fn lacks(&self) -> bool {
        self.lacks
    }

    /// What another has said.
    pub fn hear(&mut self, from: u8, lacks_room: bool) {
        match from {
            COORDINATOR => self.is_refusing = lacks_room,
            host => {
                let bit = 1u64.checked_shl(u32::from(host)).unwrap_or(0);
                self.others = if lacks_room { self.others | bit } else { self.others & !bit };
            }
        }
    }

    /// Whether this host takes no writes of clients, since the coordinator has said so.
    pub fn is_refusing(&self) -> bool {
        self.is_refusing
    }

    /// At the coordinator: whether no writes are to be taken, where these hosts are up and so many are needed.
    pub fn is_scarce(&self, up: impl Iterator<Item = u8>, needed: usize) -> bool {
        let has_room = |host: &u8| self.others.checked_shr(u32::from(*host)).is_none_or(|bits| bits & 1 == 0);
        self.others != 0 && up.filter(has_room).count() < needed
    }
}

#[cfg(test)]
mod tests {
    use super::*;

    #[test]
    fn room_is_lacking_until_there_is_a_quarter_more() {
        let mut room = Room::new(Path::new("/"), 1000);
        let found: Vec<_> = [1000, 999, 1100, 1249, 1250, 1000].map(|free| room.found(Some(free)).is_some()).into();
        assert_eq!(found, [false, true, false, false, true, false]);
        assert!(room.found(None).is_none() && !room.lacks());
        assert!(room.look().is_none() && room.free().is_some_and(|free| 0 < free));
    }

    #[test]
    fn no_writes_are_taken_where_too_few_hosts_have_room() {
        let mut room = Room::new(Path::new("/"), 0);
        let is_scarce = |room: &Room| room.is_scarce(0..4, 3);
        assert!(!room.is_scarce(0..2, 3), "nobody lacks room");
        room.hear(1, true);
        assert!(!is_scarce(&room));
        room.hear(3, true);
        assert!(is_scarce(&room));
        room.hear(1, false);
        assert!(!is_scarce(&room) && !room.is_refusing());
        room.hear(COORDINATOR, true);
        assert!(room.is_refusing());
    }
}
