//! A whole cluster of processes on this machine: what `up` does.

use crate::client::{Client, Target};
use crate::core::Config;
use crate::disk;
use crate::options::{self, Options};
use crate::restarts::Restarts;
use crate::rolling::Rolling;
use crate::secret::Secrets;
use crate::supervisor::{Cluster, Safety, config};
use std::fs;
use std::io::ErrorKind;
use std::path::{Path, PathBuf};
use std::thread;
use std::time::{Duration, Instant};

/// What a folder's cluster has again where nothing else is said.
const KEPT: [&str; 3] = ["--hosts", "--factor", "--segment"];

/// What is for each process.
const PASSED_ON: [&str; 11] = [
    "--factor",
    "--segment",
    "--tick",
    "--silence",
    "--slow",
    "--long",
    "--beside",
    "--hear",
    "--reserve",
    "--store",
    "--store-name",
];
const FLAGS_PASSED_ON: [&str; 3] = ["--record", "--faults", "--open-pages"];

/// The file of the folder that keeps it.
const KEPT_IN: &str = "options";

/// How often one looks at the processes.
const LOOK: Duration = Duration::from_millis(250);

/// What was said of the cluster in this folder. A folder from before that was kept has as many hosts as have a folder
/// there.
fn kept_options(folder: &Path) -> Result<Options, String> {
    let file = folder.join(KEPT_IN);
    let told = |why: &dyn std::fmt::Display| format!("{}: {why}", file.display());
    let text = match fs::read_to_string(&file) {
        Ok(text) => text,
        Err(error) if error.kind() == ErrorKind::NotFound => {
            let last = (0..64).rev().find(|host| folder.join(format!("host{host}")).exists());
            last.map_or(String::new(), |last| format!("--hosts {}", last + 1))
        }
        Err(error) => return Err(told(&error)),
    };
    let words: Vec<String> = text.split_whitespace().map(String::from).collect();
    if let Some(other) = words.iter().step_by(2).find(|word| !KEPT.contains(&word.as_str())) {
        return Err(told(&format!("{other} is nothing that is kept here")));
    }
    let read = || {
        let kept = Options::read(options::Command::named("up")?, words)?;
        config(&kept, crate::target(&kept)?, PathBuf::new(), None, Secrets::default())?;
        Ok(kept)
    };
    read().map_err(|why: String| told(&why))
}

/// Keeps how many hosts the cluster in this folder has; and of the first time what its hosts are made with.
fn keep_options(folder: &Path, kept: &Options, config: &Config) -> Result<(), String> {
    let factor = kept.get("--factor", config.factor)?;
    let segment = kept.get("--segment", config.segment)?;
    let text = format!("--hosts {}\n--factor {factor}\n--segment {segment}\n", config.members.hosts());
    let file = folder.join(KEPT_IN);
    if fs::read_to_string(&file).is_ok_and(|kept| kept == text) {
        return Ok(());
    }
    disk::write_whole(&file, text.as_bytes()).map_err(|error| format!("{}: {error}", file.display()))
}

/// Whether what is for a new folder is as it was for this one: hosts have to be made with the same, and the coordinator
/// has to hear so many of them.
fn stays(options: &Options, kept: &Options) -> Result<(), String> {
    for name in ["--factor", "--segment"] {
        match (kept.given(name), options.given(name)) {
            (Some(kept), Some(given)) if kept != given => {
                return Err(format!("{name} is {kept} in this folder, and stays so: {given} is for a new one"));
            }
            (None | Some(_), None | Some(_)) => {}
        }
    }
    Ok(())
}

/// Runs a cluster: starts it, shows what changes, and starts again what ends.
pub fn up(options: &Options) -> Result<(), String> {
    let folder: PathBuf = options.get("--folder", "cluster-data".to_string())?.into();
    let kept = kept_options(&folder)?;
    let options = &options.with_defaults(&kept);
    let target = crate::target(options)?;
    stays(options, &kept)?;
    let config = config(options, target.clone(), PathBuf::new(), None, Secrets::default())?;
    let factor = config.factor;
    if target.hosts <= factor {
        let (least, hosts) = (factor + 1, target.hosts);
        return Err(format!(
            "factor {factor} needs {least} hosts, a master and {factor} backups, and --hosts is {hosts}"
        ));
    }
    let mut more = Vec::new();
    for name in PASSED_ON {
        more.extend(options.given(name).iter().flat_map(|value| [name.to_string(), value.to_string()]));
    }
    more.extend(FLAGS_PASSED_ON.iter().filter(|flag| options.has(flag)).map(|flag| flag.to_string()));
    let safety = Safety::of(options, &target)?;
    let mut cluster = Cluster::new(target, &folder, safety, more)?;
    cluster.try_ports()?;
    keep_options(&folder, &kept, &config)?;
    cluster.start_all()?;
    (0..cluster.places()).filter(|place| !cluster.is_gone(*place)).for_each(|place| show_process(&cluster, place));
    Keeper::new(cluster).keep()
}

/// Whoever keeps a cluster running.
pub struct Keeper {
    pub cluster: Cluster,
    restarts: Vec<Restarts>,
    /// What was shown last of all.
    shown: String,
}

impl Keeper {
    fn new(cluster: Cluster) -> Keeper {
        let now = Instant::now();
        let restarts = (0..cluster.places()).map(|_| Restarts::new(now)).collect();
        Keeper { cluster, restarts, shown: String::new() }
    }

    /// Starts again what ends, restarts all where that is asked for, and shows what changes. For ever.
    fn keep(mut self) -> Result<(), String> {
        let mut rolling = Rolling::of(self.cluster.whole_folder());
        loop {
            thread::sleep(LOOK);
            self.follow();
            self.take_ended();
            self.start_due();
            rolling.go_on(&mut self);
            let now = glance(&self.cluster.target);
            if now != self.shown {
                say!("{now}");
                self.shown = now;
            }
        }
    }

    /// Starts hosts that have come, and ends those that have left, as the folder's file says.
    fn follow(&mut self) {
        let came = self.cluster.follow();
        if !came.is_empty() {
            let hosts = came.end;
            let kept = fs::read_to_string(self.cluster.whole_folder().join(KEPT_IN)).unwrap_or_default();
            let lines = kept.lines().filter(|line| !line.starts_with("--hosts ")).map(|line| format!("{line}\n"));
            let text = format!("--hosts {hosts}\n") + &lines.collect::<String>();
            if let Err(error) = disk::write_whole(&self.cluster.whole_folder().join(KEPT_IN), text.as_bytes()) {
                say!("how many hosts there are can't be kept: {error}");
            }
        }
        for place in came {
            self.restarts.insert(place, Restarts::new(Instant::now()));
            self.start(place);
        }
        let gone: Vec<usize> = (0..self.cluster.places()).filter(|place| self.cluster.is_gone(*place)).collect();
        gone.into_iter().for_each(|place| self.cluster.kill(place));
    }

    fn take_ended(&mut self) {
        for (place, status) in self.cluster.ended() {
            if self.cluster.is_gone(place) {
                continue;
            }
            let (folder, last) = (self.cluster.folder(place), self.cluster.last_line(place));
            let again = match self.restarts[place].ended(status.code(), &folder, Instant::now()) {
                Some(pause) => format!("is started again in {} ms", pause.as_millis()),
                None => "stays down until its folder is another".to_string(),
            };
            say!("{} has ended ({status}), and {again}; its log ends: {last}", folder.display());
        }
    }

    fn start_due(&mut self) {
        for place in 0..self.cluster.places() {
            if !self.cluster.is_gone(place) && self.restarts[place].is_due(&self.cluster.folder(place), Instant::now())
            {
                self.start(place);
            }
        }
    }

    /// Starts the process of a node. Where that fails it is tried again after a pause.
    fn start(&mut self, place: usize) {
        let folder = self.cluster.folder(place);
        match self.cluster.start(place) {
            Ok(()) => {
                self.restarts[place].started(Instant::now());
                show_process(&self.cluster, place);
            }
            Err(why) => {
                let pause = self.restarts[place].ended(None, &folder, Instant::now()).unwrap_or_default();
                say!("{} did not start, and is tried again in {} ms: {why}", folder.display(), pause.as_millis());
            }
        }
    }

    /// Ends a process, and starts it anew.
    pub fn restart(&mut self, place: usize) {
        self.cluster.kill(place);
        self.start(place);
    }
}

fn show_process(cluster: &Cluster, place: usize) {
    say!("process {} is {}", cluster.process(place).unwrap_or(0), cluster.folder(place).display());
}

/// What the coordinator says of all, if it answers.
pub fn status_text(target: &Target) -> Option<String> {
    let mut client = Client::new(target.clone());
    client.wait = Duration::from_millis(500);
    client.leaders_status()
}

/// Who is up, and who owns what.
fn glance(target: &Target) -> String {
    let Some(text) = status_text(target) else {
        let says = if target.coordinators == 1 { "the coordinator does not answer" } else { "no coordinator leads" };
        return says.to_string();
    };
    if let Some(waits) = text.lines().find(|line| line.starts_with("waits ")) {
        return format!("the coordinator {waits}");
    }
    let up = text.lines().filter(|line| line.contains(" up ")).filter_map(|line| line.split(' ').nth(1));
    let mut now = format!("up: {}", up.collect::<Vec<_>>().join(" "));
    for line in text.lines().filter(|line| line.starts_with("table ")) {
        now = format!("{now}; {line}");
    }
    now
}

#[cfg(test)]
mod tests {
    use super::*;
    use crate::options::Command as Words;
    use std::net::TcpListener;

    /// Why `up` does not begin with these words.
    fn why(line: &str) -> String {
        let words = line.split(' ').map(String::from);
        let begun = Words::named("up").and_then(|command| Options::read(command, words)).and_then(|words| up(&words));
        begun.expect_err("it begins")
    }

    #[test]
    fn a_cluster_that_cannot_begin_says_why() -> Result<(), String> {
        for (words, said) in [
            ("--hosts 2", "factor 2 needs 3 hosts, a master and 2 backups, and --hosts is 2"),
            ("--factor 9", "--factor is a number of 1 to 5, and not 9"),
            ("--segment 0", "--segment is a number of 1 to 1024, and not 0"),
            ("--tick abc", "--tick is a number of 1 to 60000, and not abc"),
            ("--address localhost", "--address is one such as 127.0.0.1, and not localhost"),
            ("--port 65535", "--port is a number of 1 to 65531, and not 65535"),
            ("--secure --insecure", "--insecure and --secure exclude one another"),
            ("--insecure --address 0.0.0.0", "--insecure is for loopback alone, and 0.0.0.0:7300 is not there"),
        ] {
            assert_eq!(why(words), said);
        }
        let folder = std::env::temp_dir().join(format!("sevunthi-up-{}", std::process::id()));
        let taken = TcpListener::bind("127.0.0.1:0").and_then(|listener| Ok((listener.local_addr()?.port(), listener)));
        let (port, _listener) = taken.map_err(|error| error.to_string())?;
        let line = format!("--folder {} --port {}", folder.display(), port.min(u16::MAX - 4));
        assert!(why(&line).starts_with("nobody can listen at 127.0.0.1:"));
        let target = Target::on("127.0.0.1", port, 4);
        let _other = Cluster::new(target, &folder, Safety::Peers, Vec::new())?;
        assert!(why(&line).ends_with(": a cluster runs in this folder already"));
        fs::remove_dir_all(&folder).map_err(|error| error.to_string())
    }

    #[test]
    fn what_was_said_of_a_folder_is_kept() -> Result<(), String> {
        let folder = std::env::temp_dir().join(format!("sevunthi-kept-{}", std::process::id()));
        let told = |error: std::io::Error| error.to_string();
        fs::create_dir_all(folder.join("host5")).map_err(told)?;
        let read = |line: &str| {
            let words = line.split_whitespace().map(String::from);
            Options::read(Words::named("up")?, words)
        };
        let kept = kept_options(&folder)?;
        assert_eq!(kept.given("--hosts"), Some("6"));
        let said = |line: &str| -> Result<String, String> {
            let kept = kept_options(&folder)?;
            let options = read(line)?.with_defaults(&kept);
            let config = config(&options, crate::target(&options)?, PathBuf::new(), None, Secrets::default())?;
            keep_options(&folder, &kept, &config)?;
            fs::read_to_string(folder.join(KEPT_IN)).map_err(told)
        };
        assert!(stays(&read("--factor 3")?, &kept).is_ok());
        assert_eq!(said("--factor 1")?, "--hosts 6\n--factor 1\n--segment 1024\n");
        let refused = stays(&read("--factor 3")?, &kept_options(&folder)?);
        assert!(refused.is_err_and(|why| why == "--factor is 1 in this folder, and stays so: 3 is for a new one"));
        assert!(stays(&read("--hosts 9 --segment 1024")?, &kept_options(&folder)?).is_ok());
        assert_eq!(said("--factor 3 --hosts 7")?, "--hosts 7\n--factor 1\n--segment 1024\n");
        assert_eq!(said("")?, "--hosts 7\n--factor 1\n--segment 1024\n");
        for (text, why) in [
            ("--hots 4", "options: --hots is nothing that is kept here"),
            ("--hosts 4 --port 7", "options: --port is nothing that is kept here"),
            ("--hosts 99", "options: --hosts is a number of 1 to 64, and not 99"),
        ] {
            fs::write(folder.join(KEPT_IN), text).map_err(told)?;
            let refused = kept_options(&folder).err().unwrap_or_default();
            assert!(refused.ends_with(why), "{refused}");
        }
        fs::remove_dir_all(&folder).map_err(told)
    }
}
