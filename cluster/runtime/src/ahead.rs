//! Zeros ahead of a journal's sectors. A sync takes half of the time where the file has not grown since the last one.
//! So a thread lets it grow, by many zeros at once, beside.

use crate::failing::Failing;
use crate::sectors::Sectors;
use std::fs::{self, File};
use std::ops::Range;
use std::path::PathBuf;
use std::sync::mpsc::{Receiver, TryRecvError, channel};
use std::thread::{self, JoinHandle};
use std::time::Duration;

/// So many zeros are written at once where sectors would reach a file's end.
pub const AHEAD: usize = 1 << 20;

/// A thread writes them in pieces of so many bytes, since all syncs of the disk wait for each.
const PIECE: usize = 1 << 17;

/// That thread goes on until the file has a quarter as many ahead as are written, but `AHEAD` at least, and so many at
/// most.
const MOST_AHEAD: usize = 32 << 20;

/// With such a pause behind each piece a file is filled slowly, so that syncs of the disk wait for few of them.
const PAUSE: Duration = Duration::from_millis(4);

/// Zeros as they are written past the page cache.
#[repr(align(4096))]
struct Aligned([u8; AHEAD]);

static ALIGNED: Aligned = Aligned([0; AHEAD]);

/// So many zeros.
static ZEROS: &[u8; AHEAD] = &ALIGNED.0;

/// How far a file has been written once, with zeros or with all else. All here are numbers of bytes of the file, and
/// whole blocks.
pub struct Ahead {
    /// Up to here.
    filled: usize,
    /// The thread that fills it beside, if there is one.
    beside: Option<Beside>,
    /// No other begins before the file is written up to here: where the disk is full each would fail.
    next: usize,
}

/// A thread that fills a file, and says after each piece how far it has come. It ends where nobody hears that.
struct Beside {
    told: Receiver<usize>,
    thread: JoinHandle<()>,
}

impl Beside {
    /// Fills these bytes of a file, piece by piece, with such a pause behind each. Where the disk has no room for one
    /// the thread does something else, and ends.
    fn begin(
        file: File,
        bytes: Range<usize>,
        pause: Duration,
        failing: &Failing,
        without_room: impl FnOnce() + Send + 'static,
    ) -> Option<Beside> {
        let failing = failing.clone();
        let (tell, told) = channel();
        let begun = thread::Builder::new().name("zeros".into()).spawn(move || {
            for at in bytes.step_by(PIECE) {
                if failing.write_ahead(&file, &ZEROS[..PIECE], at as u64).is_err() {
                    return without_room();
                }
                if tell.send(at + PIECE).is_err() {
                    return;
                }
                if !pause.is_zero() {
                    thread::sleep(pause);
                }
            }
        });
        begun.ok().map(|thread| Beside { told, thread })
    }
}

impl Ahead {
    /// Of a file that has so many bytes.
    pub fn new(filled: usize) -> Ahead {
        Ahead { filled, beside: None, next: 0 }
    }

    /// Fills this file, which is new, up to so many bytes, slowly, beside all else, until this is dropped. Where the
    /// disk has no room for them the file goes.
    pub fn slowly(path: PathBuf, file: &File, length: usize, failing: &Failing) -> Ahead {
        let begin = |file| Beside::begin(file, 0..length, PAUSE, failing, || _ = fs::remove_file(path));
        Ahead { filled: 0, beside: file.try_clone().ok().and_then(begin), next: 0 }
    }

    /// The file will be written up to this end. Where that reaches what it has, zeros are written first. Where it comes
    /// near that, a thread writes some, if that is past the page cache: else the next sync would have to write them
    /// all. Nothing comes where a thread still writes zeros.
    pub fn make_room(&mut self, end: usize, sectors: &Sectors, failing: &Failing) {
        self.wait_for(end);
        if self.filled < end {
            self.fill(end, sectors.file(), failing);
        } else if sectors.is_direct() {
            self.fill_beside(end, sectors.file(), failing);
        }
    }

    /// Takes how far the thread has come. Where that is not so far, it waits for that, or for the thread's end.
    fn wait_for(&mut self, end: usize) {
        while let Some(Beside { told, .. }) = &self.beside {
            let next =
                if end <= self.filled { told.try_recv() } else { told.recv().map_err(|_| TryRecvError::Disconnected) };
            match next {
                Ok(filled) => self.filled = filled,
                Err(TryRecvError::Empty) => return,
                Err(TryRecvError::Disconnected) => self.beside = None,
            }
        }
    }

    /// Fills the file with zeros, `AHEAD` behind this end. Where that fails, as on a full disk, what is to be written
    /// may still have its place. The next zeros begin behind that.
    fn fill(&mut self, end: usize, file: &File, failing: &Failing) {
        while self.filled < end + AHEAD {
            let zeros = &ZEROS[..AHEAD.min(end + AHEAD - self.filled)];
            if failing.write_ahead(file, zeros, self.filled as u64).is_err() {
                self.filled = self.filled.max(end);
                return;
            }
            self.filled += zeros.len();
        }
    }

    /// Has a thread fill the file, if it has less than half of the zeros behind this end that it should have.
    fn fill_beside(&mut self, end: usize, file: &File, failing: &Failing) {
        let ahead = (end / 4).clamp(AHEAD, MOST_AHEAD).next_multiple_of(PIECE);
        let is_far = end + ahead / 2 <= self.filled || end < self.next;
        if is_far || self.beside.is_some() {
            return;
        }
        let Ok(file) = file.try_clone() else { return };
        self.next = end + AHEAD / 4;
        self.beside = Beside::begin(file, self.filled..end + ahead, Duration::ZERO, failing, || {});
    }
}

impl Drop for Ahead {
    /// Has the thread end, and waits for that: the file may be another's then.
    fn drop(&mut self) {
        if let Some(Beside { told, thread }) = self.beside.take() {
            drop(told);
            let _ = thread.join();
        }
    }
}
