//! Who has to prove to a process what it is, and by which secret. Secrets stand in files that nobody else reads, and in
//! no log.

use crate::disk;
use crate::options::Options;
use sevunthi_client::secret::LEAST;
pub use sevunthi_client::{Secret, SecretFile};
use std::fs::File;
use std::io::{self, Read};
use std::net::{IpAddr, ToSocketAddrs};
use std::os::unix::fs::PermissionsExt;
use std::path::Path;

/// The files of a folder of `up`: what peers share, what clients have, and what who operates the cluster has.
pub const PEERS: &str = "secret";
pub const CLIENTS: &str = "client-secret";
pub const OPERATOR: &str = "operator";

/// Where a client's program finds the name of the clients' file, if no option says it.
const CLIENTS_OF_ENVIRONMENT: &str = "SEVUNTHI_CLIENT_SECRET";

/// The secrets of a process.
#[derive(Clone, Debug, Default, PartialEq, Eq)]
pub struct Secrets {
    /// What peers share. Where there is none all is said in clear, on loopback.
    pub peers: Option<SecretFile>,
    /// What clients have. Where there is none they are taken in clear, from this machine.
    pub clients: Option<SecretFile>,
    /// What who operates the cluster has. Where there is none, and there is security, nobody operates it here.
    pub operator: Option<SecretFile>,
    /// Whether pages are shown in clear to who is on another machine.
    pub has_open_pages: bool,
}

impl Secrets {
    /// Those of a process that is started with these options. Each has to be there by now.
    pub fn of(options: &Options) -> Result<Secrets, String> {
        let file = |name: &str| options.given(name).map(SecretFile::new);
        let is_insecure = options.has("--insecure");
        let peers = if is_insecure { None } else { Some(SecretFile::new(options.needed("--secret")?)) };
        let [clients, operator] = ["--client-secret", "--operator"].map(|name| file(name).filter(|_| !is_insecure));
        if is_insecure && options.given("--client-secret").is_some() {
            return Err("--insecure is without --client-secret".to_string());
        }
        for file in [&peers, &clients, &operator].into_iter().flatten() {
            file.shown()?;
        }
        Ok(Secrets { peers, clients, operator, has_open_pages: options.has("--open-pages") })
    }

    /// Those of the files that others can read or write.
    pub fn open_files(&self) -> impl Iterator<Item = &SecretFile> {
        [&self.peers, &self.clients, &self.operator].into_iter().flatten().filter(|file| is_open_to_others(file.path()))
    }
}

fn is_open_to_others(file: &Path) -> bool {
    file.metadata().is_ok_and(|found| found.permissions().mode() & 0o077 != 0)
}

/// The file of the clients' secret that a client's program is given, if it is.
pub fn of_client(options: &Options) -> Option<SecretFile> {
    let given = options.given("--client-secret").map(String::from);
    let file = given.or_else(|| std::env::var(CLIENTS_OF_ENVIRONMENT).ok()).filter(|file| !file.is_empty());
    file.map(SecretFile::new)
}

/// Draws a secret into this file, where there is none. It stands there whole and safe, or not at all.
pub fn draw(file: &Path) -> io::Result<()> {
    if file.try_exists()? {
        return Ok(());
    }
    let mut bytes = [0; LEAST];
    File::open("/dev/urandom")?.read_exact(&mut bytes)?;
    disk::write_whole(file, &bytes)
}

/// Whether an address is of this machine alone.
pub fn is_loopback(address: IpAddr) -> bool {
    address.to_canonical().is_loopback()
}

/// Whether whoever listens at this place, a name or a number with a port, is reached from its own machine alone.
pub fn is_on_loopback(at: &str) -> bool {
    at.to_socket_addrs().is_ok_and(|all| all.into_iter().all(|address| is_loopback(address.ip())))
}

#[cfg(test)]
mod tests {
    use super::*;
    use crate::options::Command;
    use std::fs;

    #[test]
    fn a_secret_is_drawn_once() -> io::Result<()> {
        let file = std::env::temp_dir().join(format!("sevunthi-secret-{}", std::process::id()));
        let _ = fs::remove_file(&file);
        draw(&file)?;
        let first = fs::read(&file)?;
        draw(&file)?;
        assert_eq!((first.len(), fs::read(&file)?), (LEAST, first));
        assert_eq!(fs::metadata(&file)?.permissions().mode() & 0o777, disk::OWN_FILE);
        assert!(!is_open_to_others(&file));
        fs::set_permissions(&file, fs::Permissions::from_mode(0o640))?;
        assert!(is_open_to_others(&file));
        fs::remove_file(&file)
    }

    #[test]
    fn what_a_process_is_given_is_there_or_it_does_not_begin() -> Result<(), String> {
        let file = std::env::temp_dir().join(format!("sevunthi-given-{}", std::process::id()));
        fs::write(&file, [7; LEAST]).map_err(|error| error.to_string())?;
        let of = |line: &str| {
            let line = line.replace("FILE", &file.to_string_lossy());
            let words = line.split_whitespace().map(String::from);
            Secrets::of(&Options::read(Command::named("serve")?, words)?)
        };
        let given = Some(SecretFile::new(&file));
        let peers = Secrets { peers: given.clone(), ..Secrets::default() };
        assert_eq!(of("--secret FILE"), Ok(peers.clone()));
        let all = Secrets { clients: given.clone(), operator: given, has_open_pages: true, ..peers };
        assert_eq!(of("--secret FILE --client-secret FILE --operator FILE --open-pages"), Ok(all));
        assert_eq!(of("--insecure --secret FILE"), Ok(Secrets::default()));
        assert_eq!(of("--folder x"), Err("--secret is missing".to_string()));
        assert_eq!(of("--insecure --client-secret FILE"), Err("--insecure is without --client-secret".to_string()));
        assert!(of("--secret FILE --operator FILE.no").is_err_and(|why| why.contains(".no: ")));
        fs::remove_file(&file).map_err(|error| error.to_string())
    }

    #[test]
    fn loopback_is_told_apart() {
        for at in ["127.0.0.1:7300", "127.9.9.9:1", "[::1]:7300", "[::ffff:127.0.0.1]:7300", "localhost:7300"] {
            assert!(is_on_loopback(at), "{at}");
        }
        for at in ["0.0.0.0:7300", "10.0.0.1:7300", "[::]:7300", "[fe80::1]:7300", "no.such.name.invalid:1"] {
            assert!(!is_on_loopback(at), "{at}");
        }
    }
}
