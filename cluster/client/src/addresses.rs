//! Where each process of a cluster listens: on one address at consecutive ports, or where a file says.

use std::collections::BTreeMap;
use std::fs;
use std::io::{self, ErrorKind};
use std::net::{IpAddr, TcpStream, ToSocketAddrs};
use std::path::Path;
use std::time::Duration;

/// The most hosts that a cluster has. The coordinators' places come behind those of as many, on the wire.
pub const MOST_HOSTS: u8 = 64;

/// And the most coordinators, of which one leads.
pub const MOST_COORDINATORS: u8 = 7;

/// What becomes of a host that does not stay.
#[derive(Clone, Copy, Debug, PartialEq, Eq)]
pub enum Going {
    /// What it owns and keeps is to be elsewhere; it listens as long as that takes.
    Leaves,
    /// It is not there any more.
    Gone,
}

/// Where each listens.
#[derive(Clone, Debug, Default, PartialEq, Eq)]
pub struct Listed {
    /// By its place: hosts first, and then the coordinators. Nothing stands for a host that is gone.
    pub all: Vec<String>,
    /// How many of them are coordinators.
    pub coordinators: u8,
    /// The hosts that do not stay.
    pub going: BTreeMap<u8, Going>,
}

/// Where each listens.
///
/// On each line of the file stand the index of a host, or `coordinator`, and where it listens: a name, a number or, in
/// brackets, an IPv6 number, with a port. What stands behind `#` is left out. There may be several coordinators. Behind
/// one host may stand `leaves`; a host that has left has `gone` in place of where it listens.
///
/// # Errors
///
/// What is wrong with the file, in words.
pub fn of_file(file: &Path) -> Result<Listed, String> {
    let told = |why: &dyn std::fmt::Display| format!("{}: {why}", file.display());
    of_words(&fs::read_to_string(file).map_err(|error| told(&error))?).map_err(|why| told(&why))
}

/// The same of what such a file has.
///
/// # Errors
///
/// What is wrong with it, in words.
pub fn of_words(text: &str) -> Result<Listed, String> {
    let mut hosts: BTreeMap<u8, (String, Option<Going>)> = BTreeMap::new();
    let mut coordinators = Vec::new();
    for (number, line) in text.lines().enumerate() {
        let told = |why: String| format!("line {}: {why}", number + 1);
        let words: Vec<&str> = line.split('#').next().unwrap_or_default().split_whitespace().collect();
        let (who, at, going) = match words[..] {
            [] => continue,
            ["coordinator", at] => {
                check(at).map_err(told)?;
                coordinators.push(at.to_string());
                continue;
            }
            [who, "gone"] => (who, "", Some(Going::Gone)),
            [who, at, "leaves"] => (who, at, Some(Going::Leaves)),
            [who, at] => (who, at, None),
            _ => return Err(told("a line has a host's index, or `coordinator`, and where it listens".to_string())),
        };
        if going != Some(Going::Gone) {
            check(at).map_err(told)?;
        }
        let index = who.parse().ok().filter(|index| *index < MOST_HOSTS);
        let index = index.ok_or_else(|| told(format!("{who} is neither `coordinator` nor a number below 64")))?;
        if hosts.insert(index, (at.to_string(), going)).is_some() {
            return Err(told(format!("{who} is there twice")));
        }
    }
    whole(hosts, coordinators)
}

/// What stands on all lines, if it is a cluster.
fn whole(hosts: BTreeMap<u8, (String, Option<Going>)>, coordinators: Vec<String>) -> Result<Listed, String> {
    if let Some(missing) = (0..hosts.len() as u8).find(|index| !hosts.contains_key(index)) {
        return Err(format!("host {missing} is missing"));
    }
    if hosts.is_empty() {
        return Err("there is no host".to_string());
    }
    let count = match u8::try_from(coordinators.len()) {
        Ok(0) => return Err("the coordinator is missing".to_string()),
        Ok(count) if count <= MOST_COORDINATORS => count,
        _ => return Err(format!("there are more than {MOST_COORDINATORS} coordinators")),
    };
    let going: BTreeMap<u8, Going> = hosts.iter().filter_map(|(index, (_, going))| Some((*index, (*going)?))).collect();
    if 1 < going.values().filter(|going| **going == Going::Leaves).count() {
        return Err("one host leaves after another, and here several do".to_string());
    }
    let all: Vec<String> = hosts.into_values().map(|(at, _)| at).chain(coordinators).collect();
    match all.iter().enumerate().find(|(place, at)| !at.is_empty() && all[..*place].contains(at)) {
        Some((_, twice)) => Err(format!("two listen at {twice}")),
        None => Ok(Listed { all, coordinators: count, going }),
    }
}

/// A file that says that these listen, the coordinators last.
pub fn file_of(listed: &Listed) -> String {
    let hosts = listed.all.len().saturating_sub(usize::from(listed.coordinators));
    let line = |place: usize, at: &String| {
        let going = u8::try_from(place).ok().and_then(|index| listed.going.get(&index)).filter(|_| place < hosts);
        match going {
            _ if hosts <= place => format!("coordinator {at}\n"),
            None => format!("{place} {at}\n"),
            Some(Going::Leaves) => format!("{place} {at} leaves\n"),
            Some(Going::Gone) => format!("{place} gone\n"),
        }
    };
    listed.all.iter().enumerate().map(|(place, at)| line(place, at)).collect()
}

/// What is wrong with a place to listen at.
pub fn check(at: &str) -> Result<(), String> {
    let (name, port) = at.rsplit_once(':').ok_or(format!("{at} has no port"))?;
    if !port.parse::<u16>().is_ok_and(|port| 0 < port) {
        return Err(format!("{port} is no port"));
    }
    if name.is_empty() || name.contains(':') && !name.starts_with('[') {
        return Err(format!("{at}: a name, a number or, in brackets, an IPv6 number stands before the port"));
    }
    Ok(())
}

/// An address with a port.
pub fn with_port(address: &str, port: u16) -> String {
    match address.parse() {
        Ok(IpAddr::V6(_)) => format!("[{address}]:{port}"),
        _ => format!("{address}:{port}"),
    }
}

/// Connects to whoever listens at a place, whose name is looked up now: who has it may have moved. Each address that it
/// has is waited for so long.
///
/// # Errors
///
/// What came of the last address, or that there is none.
pub fn connect(at: &str, wait: Duration) -> io::Result<TcpStream> {
    let mut last = Err(ErrorKind::NotFound.into());
    for address in at.to_socket_addrs()? {
        last = TcpStream::connect_timeout(&address, wait);
        if last.is_ok() {
            break;
        }
    }
    last
}

#[cfg(test)]
mod tests {
    use super::*;
    use std::net::TcpListener;

    #[test]
    fn a_file_says_where_each_listens() {
        let text = "# three hosts\n1 host-b:7300 # in the other room\ncoordinator [fe80::1]:7000\n\n0 10.0.0.1:7300\n";
        let all = ["10.0.0.1:7300", "host-b:7300", "[fe80::1]:7000"].map(String::from).to_vec();
        let listed = Listed { all: all.clone(), coordinators: 1, ..Listed::default() };
        assert_eq!(of_words(text), Ok(listed.clone()));
        assert_eq!(of_words(&file_of(&listed)), Ok(listed));
        let more = Listed { all: [all, vec!["b:1".to_string()]].concat(), coordinators: 2, ..Listed::default() };
        assert_eq!(of_words(&format!("{text}coordinator b:1")), Ok(more.clone()));
        assert_eq!(of_words(&file_of(&more)), Ok(more));
    }

    #[test]
    fn a_host_leaves_and_is_gone() {
        let going = of_words("0 gone\n1 a:1 leaves\n2 a:2\n3 gone\ncoordinator a:3\n").expect("it is one");
        assert_eq!(going.all, ["", "a:1", "a:2", "", "a:3"]);
        assert_eq!(going.going, BTreeMap::from([(0, Going::Gone), (1, Going::Leaves), (3, Going::Gone)]));
        assert_eq!(of_words(&file_of(&going)), Ok(going));
    }

    #[test]
    fn a_file_that_is_wrong_says_how() {
        for (text, why) in [
            ("", "there is no host"),
            ("0 a:1", "the coordinator is missing"),
            ("coordinator a:1\n1 b:1", "host 0 is missing"),
            ("0 a:1\n0 b:1", "line 2: 0 is there twice"),
            ("0 a:1\ncoordinator b:1\ncoordinator b:1", "two listen at b:1"),
            (&("0 a:1\n".to_string() + &"coordinator b:1\n".repeat(8)), "there are more than 7 coordinators"),
            ("64 a:1", "line 1: 64 is neither `coordinator` nor a number below 64"),
            ("x a:1", "line 1: x is neither `coordinator` nor a number below 64"),
            ("0", "line 1: a line has a host's index, or `coordinator`, and where it listens"),
            ("0 a", "line 1: a has no port"),
            ("0 a:0", "line 1: 0 is no port"),
            ("0 a:99999", "line 1: 99999 is no port"),
            ("0 ::1:7300", "line 1: ::1:7300: a name, a number or, in brackets, an IPv6 number stands before the port"),
            ("0 a:1\ncoordinator a:1", "two listen at a:1"),
            (
                "0 a:1 stays\ncoordinator b:1",
                "line 1: a line has a host's index, or `coordinator`, and where it listens",
            ),
            ("0 a:1 leaves\n1 a:2 leaves\ncoordinator b:1", "one host leaves after another, and here several do"),
        ] {
            assert_eq!(of_words(text), Err(why.to_string()), "{text}");
        }
    }

    #[test]
    fn names_and_numbers_are_reached() -> io::Result<()> {
        let listener = TcpListener::bind("127.0.0.1:0")?;
        let port = listener.local_addr()?.port();
        // a name may have an address on which nobody listens, before the one that is meant
        for address in ["127.0.0.1", "localhost"] {
            connect(&with_port(address, port), Duration::from_secs(2))?;
        }
        assert_eq!([with_port("::1", 7), with_port("a", 7)], ["[::1]:7", "a:7"]);
        if let Ok(listener) = TcpListener::bind("[::1]:0") {
            connect(&with_port("::1", listener.local_addr()?.port()), Duration::from_secs(2))?;
        }
        Ok(())
    }
}
