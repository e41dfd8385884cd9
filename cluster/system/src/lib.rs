//! The calls of the C library that a server needs and the standard library lacks, on 64-bit Linux. A page of code
//! builds without a registry; and the server itself forbids unsafe code.

use std::ffi::{CString, c_char, c_int, c_void};
use std::io;
use std::net::{TcpListener, TcpStream};
use std::os::fd::AsRawFd;
use std::os::unix::ffi::OsStrExt;
use std::path::Path;
use std::time::Duration;

// the numbers are those of Linux's <sys/socket.h> and <netinet/tcp.h>, on all machines but MIPS and SPARC
const SOL_SOCKET: c_int = 1;
const SO_KEEPALIVE: c_int = 9;
const IPPROTO_TCP: c_int = 6;
const TCP_KEEPIDLE: c_int = 4;
const TCP_KEEPINTVL: c_int = 5;
const TCP_KEEPCNT: c_int = 6;
const TCP_USER_TIMEOUT: c_int = 18;

/// `struct statvfs`: eleven words of eight bytes, and then what nobody uses. There is room for more.
#[repr(C)]
#[derive(Default)]
struct FileSystem {
    words: [u64; 16],
}

/// The places of `f_frsize` and `f_bavail` in it.
const BLOCK: usize = 1;
const AVAILABLE: usize = 4;

unsafe extern "C" {
    fn setsockopt(socket: c_int, level: c_int, name: c_int, value: *const c_void, length: u32) -> c_int;
    fn listen(socket: c_int, backlog: c_int) -> c_int;
    fn statvfs(path: *const c_char, room: *mut FileSystem) -> c_int;
}

fn set_option(stream: &TcpStream, level: c_int, name: c_int, value: c_int) -> io::Result<()> {
    // SAFETY: the socket is open, and the pointer and the length are the number's
    let said =
        unsafe { setsockopt(stream.as_raw_fd(), level, name, (&raw const value).cast(), size_of::<c_int>() as u32) };
    if said == 0 { Ok(()) } else { Err(io::Error::last_os_error()) }
}

/// Ends a connection whose other side is silent for so long: what was sent is not acknowledged, or, where nothing is
/// sent, three questions of the kernel are not answered. The kernel alone tries for a quarter of an hour, and less and
/// less often. The time is whole seconds, 4 to 3,600.
///
/// # Errors
///
/// What the kernel says.
pub fn end_when_silent(stream: &TcpStream, after: Duration) -> io::Result<()> {
    let seconds = c_int::try_from(after.as_secs()).unwrap_or(c_int::MAX).clamp(4, 3600);
    let interval = seconds / 4;
    set_option(stream, SOL_SOCKET, SO_KEEPALIVE, 1)?;
    set_option(stream, IPPROTO_TCP, TCP_KEEPIDLE, interval)?;
    set_option(stream, IPPROTO_TCP, TCP_KEEPINTVL, interval)?;
    set_option(stream, IPPROTO_TCP, TCP_KEEPCNT, 3)?;
    set_option(stream, IPPROTO_TCP, TCP_USER_TIMEOUT, 1000 * seconds)
}

/// So many connections may wait to be accepted, or as many as the kernel allows (`net.core.somaxconn`). The standard
/// library has 128 wait: what comes beyond that is tried again by who connects, a second later.
///
/// # Errors
///
/// What the kernel says.
pub fn set_backlog(listener: &TcpListener, count: u16) -> io::Result<()> {
    // SAFETY: the socket is open, and listens; Linux takes a second call as the new number
    let said = unsafe { listen(listener.as_raw_fd(), c_int::from(count)) };
    if said == 0 { Ok(()) } else { Err(io::Error::last_os_error()) }
}

/// How many bytes the file system of this path has left for this process.
///
/// # Errors
///
/// What the kernel says, as where the path is not there.
pub fn free_bytes(path: &Path) -> io::Result<u64> {
    let path = CString::new(path.as_os_str().as_bytes())?;
    let mut room = FileSystem::default();
    // SAFETY: the text ends in a zero, and the room is larger than what is written
    if unsafe { statvfs(path.as_ptr(), &raw mut room) } != 0 {
        return Err(io::Error::last_os_error());
    }
    Ok(room.words[BLOCK].saturating_mul(room.words[AVAILABLE]))
}

#[cfg(test)]
mod tests {
    use super::*;
    use std::net::TcpListener;
    use std::process::Command;
    use std::time::Instant;

    #[test]
    fn a_connection_takes_its_times() -> io::Result<()> {
        let listener = TcpListener::bind("127.0.0.1:0")?;
        let stream = TcpStream::connect(listener.local_addr()?)?;
        end_when_silent(&stream, Duration::from_secs(4))?;
        end_when_silent(&stream, Duration::MAX)?;
        end_when_silent(&stream, Duration::ZERO)
    }

    #[test]
    fn more_connections_wait_than_the_standard_library_lets() -> io::Result<()> {
        let listener = TcpListener::bind("127.0.0.1:0")?;
        set_backlog(&listener, 600)?;
        let (address, began) = (listener.local_addr()?, Instant::now());
        let held: io::Result<Vec<TcpStream>> = (0..400).map(|_| TcpStream::connect(address)).collect();
        assert_eq!(held?.len(), 400);
        assert!(began.elapsed() < Duration::from_secs(1));
        Ok(())
    }

    #[test]
    fn free_bytes_are_those_that_df_tells() -> io::Result<()> {
        let said = Command::new("df").args(["--output=avail", "-B1", "/"]).output()?;
        let said: u64 =
            String::from_utf8_lossy(&said.stdout).split_whitespace().last().map_or(0, |word| word.parse().unwrap_or(0));
        let free = free_bytes(Path::new("/"))?;
        // others write meanwhile
        assert!(free.abs_diff(said) < 1 << 30, "{free} {said}");
        assert!(free_bytes(Path::new("/nobody/made/this")).is_err());
        Ok(())
    }
}
