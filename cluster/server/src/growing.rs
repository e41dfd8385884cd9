//! Hosts come, and leave, while the cluster runs: the file that says who is where is changed, and all follow it.

use crate::client::{Client, Target};
use crate::disk;
use crate::options::Options;
use crate::rolling;
use crate::secret;
use crate::status::{State, Status};
use crate::supervisor::CLUSTER;
use crate::up::status_text;
use sevunthi_client::addresses::{self, Going};
use std::fs;
use std::path::PathBuf;
use std::thread;
use std::time::{Duration, Instant};

/// For so long one waits until a host has come, or has left.
const PATIENCE: Duration = Duration::from_secs(120);

/// A host has left when all has been well without it for so long.
const STEADY: Duration = Duration::from_secs(1);

const LOOK: Duration = Duration::from_millis(100);

/// What masters tell of replicas that are not there yet.
const MISSING: &str = "sevunthi_replicas_missing";

/// The file that says who is where, of the folder of `up` or of several machines, and what it says.
struct Place {
    file: PathBuf,
    is_of_up: bool,
}

impl Place {
    fn of(options: &Options) -> Result<Place, String> {
        if let Some(file) = options.given("--cluster") {
            return Ok(Place { file: file.into(), is_of_up: false });
        }
        let folder: PathBuf = options.get("--folder", "cluster-data".to_string())?.into();
        let told = |error: std::io::Error| format!("{}: {error}", folder.display());
        if !rolling::runs(&folder).map_err(told)? {
            return Err(format!("{}: no cluster runs in this folder", folder.display()));
        }
        Ok(Place { file: folder.join(CLUSTER), is_of_up: true })
    }

    fn target(&self, options: &Options) -> Result<Target, String> {
        Ok(Target { secret: secret::of_client(options), ..Target::of_file(&self.file)? })
    }

    /// Changes the lines of the file, if it is one of a cluster afterwards too.
    fn change(&self, lines: impl FnOnce(Vec<String>) -> Vec<String>) -> Result<(), String> {
        let told = |error: std::io::Error| format!("{}: {error}", self.file.display());
        let text = fs::read_to_string(&self.file).map_err(told)?;
        let text = lines(text.lines().map(String::from).collect()).join("\n") + "\n";
        addresses::of_words(&text)?;
        disk::write_whole(&self.file, text.as_bytes()).map_err(told)
    }
}

/// A host more, behind the others: of `up`, which starts it. Says whether it has come.
pub fn add(options: &Options) -> Result<bool, String> {
    let place = Place::of(options)?;
    let target = place.target(options)?;
    let index = target.hosts;
    let at = options.given("--at").map_or_else(|| next_port(&target), |at| Ok(at.to_string()))?;
    place.change(|lines| [lines, vec![format!("{index} {at}")]].concat())?;
    say!("host {index} is to listen at {at}");
    let target = place.target(options)?;
    let is_up = |status: &Status| status.heard().any(|id| id.index == index);
    await_status(&target, is_up, || format!("host {index} has not come"))?;
    say!("host {index} has come");
    Ok(true)
}

/// The port behind all that are in use at the coordinator's address.
fn next_port(target: &Target) -> Result<String, String> {
    let all = (0..target.places()).map(|place| target.at(place));
    let parts =
        |at: &str| at.rsplit_once(':').and_then(|(name, port)| Some((name.to_string(), port.parse::<u16>().ok()?)));
    let last = all.filter_map(|at| parts(&at)).max_by_key(|(_, port)| *port);
    let (name, port) = last.ok_or("nobody listens anywhere")?;
    port.checked_add(1).map(|port| format!("{name}:{port}")).ok_or("there is no port left: --at says which".to_string())
}

/// A host leaves: what it owns is recovered by others, and what it keeps is made elsewhere. Says whether it has left.
pub fn leave(options: &Options) -> Result<bool, String> {
    let place = Place::of(options)?;
    let target = place.target(options)?;
    let word = options.word(0).unwrap_or_default();
    let host = word.parse().ok().filter(|host| *host < target.hosts && !target.is_gone(*host));
    let host: u8 = host.ok_or(format!("there is no host {word}"))?;
    if place.is_of_up {
        place.change(|lines| with_line(lines, host, |at| format!("{host} {at} leaves")))?;
    } else if target.going.get(&host) != Some(&Going::Leaves) {
        return Err(format!(
            "its line has to end in `leaves`, in the file of each machine, before host {host} can leave"
        ));
    }
    await_left(&place.target(options)?, host)?;
    if place.is_of_up {
        place.change(|lines| with_line(lines, host, |_| format!("{host} gone")))?;
        say!("host {host} has left");
    } else {
        say!("host {host} has left: end its process, and write `{host} gone` in its line, in the file of each machine");
    }
    Ok(true)
}

/// The lines, where that of this host is another.
fn with_line(lines: Vec<String>, host: u8, line: impl Fn(&str) -> String) -> Vec<String> {
    let words = |text: &str| text.split_whitespace().map(String::from).collect::<Vec<_>>();
    let changed = |text: String| match &words(&text)[..] {
        [who, at, ..] if *who == host.to_string() => line(at),
        _ => text,
    };
    lines.into_iter().map(changed).collect()
}

/// Waits until the coordinator tells this.
fn await_status(target: &Target, holds: impl Fn(&Status) -> bool, why: impl Fn() -> String) -> Result<(), String> {
    let end = Instant::now() + PATIENCE;
    while !status_text(target).and_then(|text| Status::read(&text)).is_some_and(|status| holds(&status)) {
        if end < Instant::now() {
            return Err(format!("{} within {} s: `sevunthi status` shows all", why(), PATIENCE.as_secs()));
        }
        thread::sleep(LOOK);
    }
    Ok(())
}

/// Waits until a host is not up any more, owns nothing, and no other lacks a replica, for a while.
fn await_left(target: &Target, host: u8) -> Result<(), String> {
    let end = Instant::now() + PATIENCE;
    let mut since = None;
    while since.is_none_or(|since: Instant| since.elapsed() < STEADY) {
        match why_not(target, host) {
            None => since = since.or(Some(Instant::now())),
            Some(why) if end < Instant::now() => {
                return Err(format!("host {host} has not left within {} s: {why}", PATIENCE.as_secs()));
            }
            Some(_) => since = None,
        }
        thread::sleep(LOOK);
    }
    Ok(())
}

/// Why a host has not left yet.
fn why_not(target: &Target, host: u8) -> Option<String> {
    let Some(status) = status_text(target).and_then(|text| Status::read(&text)) else {
        return Some("no coordinator leads".to_string());
    };
    if status.servers.iter().any(|server| server.id.index == host && server.state == State::Up) {
        return Some("it is up: fewer than a segment needs would stay, or something is being recovered".to_string());
    }
    if status.is_recovering() || status.tablets.iter().any(|tablet| tablet.owner.index == host) {
        return Some("what it owned is being recovered".to_string());
    }
    let mut client = Client::new(target.clone());
    client.wait = Duration::from_secs(1);
    let others = (0..target.hosts).filter(|other| *other != host && !target.is_gone(*other));
    let lacking: Vec<String> =
        others.filter(|other| missing(&mut client, *other) != Some(0)).map(|host| host.to_string()).collect();
    (!lacking.is_empty()).then(|| format!("replicas of host {} are not made elsewhere yet", lacking.join(", ")))
}

/// How many replicas a host lacks, if it answers.
fn missing(client: &mut Client, host: u8) -> Option<u64> {
    let text = client.status(host).ok()?;
    text.lines().find(|line| line.starts_with(MISSING))?.rsplit(' ').next()?.parse().ok()
}

#[cfg(test)]
mod tests {
    use super::*;

    #[test]
    fn one_line_is_changed_and_the_next_port_is_behind_all() {
        let lines = ["# a comment", "0 a:1", "1 a:2 leaves", "coordinator a:3"].map(String::from).to_vec();
        let changed = with_line(lines.clone(), 1, |_| "1 gone".to_string());
        assert_eq!(changed, ["# a comment", "0 a:1", "1 gone", "coordinator a:3"]);
        assert_eq!(with_line(lines, 0, |at| format!("0 {at} leaves"))[1], "0 a:1 leaves");
        let target = Target::on("127.0.0.1", 7300, 4);
        assert_eq!(next_port(&target).as_deref(), Ok("127.0.0.1:7305"));
    }
}
