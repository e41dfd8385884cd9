//! A replicated log on sockets and disks: one process for each node, clients, and a supervisor.

#![forbid(unsafe_code)]

/// Prints a line. Where nobody reads any more the program ends. A line for which a disk has no room is lost.
macro_rules! say {
    ($($words:tt)*) => {
        match std::io::Write::write_fmt(&mut std::io::stdout(), format_args!("{}\n", format_args!($($words)*))) {
            Err(error) if error.kind() == std::io::ErrorKind::BrokenPipe => std::process::exit(0),
            _ => {}
        }
    };
}

mod bench;
mod budget;
mod coordinator;
mod core;
mod dialer;
mod door;
mod etcd;
mod events;
mod faults;
mod growing;
mod guard;
mod histogram;
mod host;
mod http;
mod members;
mod metrics;
mod moving;
mod net;
mod options;
mod places;
mod record;
mod restarts;
mod rolling;
mod room;
mod secret;
mod seldom;
mod standby;
mod status;
mod store;
mod storm;
mod supervisor;
mod trace;
mod up;
mod wire;

use hello::NotLetIn;
use options::{Command, Options};
use secret::Secret;
use sevunthi_client::addresses::MOST_COORDINATORS;
use sevunthi_client::scan::{Entry, LAST_KEY};
use sevunthi_client::{self as client, addresses, hello, protocol, refusal as reasons};
use sevunthi_client::{Client, Error, Found, Missing, Refusal, STANDS_BY, Target};
use sevunthi_runtime::{
    awake, dice, disk, hearing, journal, line, listening, log, pace, sectors, segments, superseded, version, waits,
};
use std::path::Path;
use std::process::ExitCode;
use std::time::Duration;

const USAGE: &str = "usage: sevunthi COMMAND ..
  up                      runs a cluster; Ctrl-C ends it
      --folder cluster-data, and what `serve` takes, but no secrets and no --index; --hosts, --factor and --segment are
      those that the folder has, unless given; --secure: clients prove that they have its file client-secret (on
      loopback they need not, else); --insecure: nobody proves anything
  restart                 has each process of `up` begin anew, one after another, while the cluster goes on
      --folder cluster-data
  add                     a host more; in the folder of `up`, which starts it
      --folder cluster-data, --at ADDRESS:PORT (else the next port)
  leave HOST              a host leaves: what it owns and keeps is made elsewhere
      --folder cluster-data; or --cluster FILE, where its line ends in `leaves`: then it waits until that is done
  move etcd, move file    moves the coordinator's journal into etcd, or back into its folder, while nothing runs
      --store etcd=URL,.., --folder cluster-data/coordinator, --secret cluster-data/secret, --store-name NAME
  create TABLE [HOST]     makes a table, at this host or at the one that owns least
  split TABLE KEY         splits a table before a key
      --operator cluster-data/operator: the file with the secret of who operates the cluster, in the folder of `up`; or
      --insecure, where the cluster is so
  put TABLE KEY VALUE, get TABLE KEY, delete TABLE KEY
      --patience 10000 (milliseconds for which it is tried). `--` ends the options: put 1 5 -- --value
      put and delete: --if-version N, done only where the newest version is N; put: --if-absent, where there is no value
  scan TABLE [FIRST [LAST]]   the values of these keys, in order: a line with key, version and value for each
      --most N (lines), --patience 10000
  status                  the state of all
  bench                   how fast writes are; it overwrites keys 0 to 9,999 of the table
      --clients 64, --seconds 5, --size 100 (bytes of a value, at most 1,024), --table 1, --op put (or get, or put-if),
      --keys 10000, --most N (requests), --processes PID,PID (whose time is told), --etcd ADDRESS (asks that)
  trace FILE..            records, as a trace that `ramseg audit` reads
  storm                   drawn faults on a cluster of its own, of four hosts
      --folder F, --seed 1, --seconds 60, --gap 3000 (milliseconds), --only kill,pair, --port 7600, --coordinators 1
      (more have an etcd of three members, which has faults too; the program `etcd` has to be there), --secure,
      --insecure
  serve                   one node; `up` starts these
      --folder F, --secret FILE (that of all peers), --client-secret FILE (none: clients of this machine need none, and
      others are refused), --operator FILE (none: no table is made or split), --insecure (without any of these, on
      loopback alone), --open-pages (shown to other machines too), --index I (none is the coordinator),
      --factor 2 (replicas, 1 to 5), --segment 1024 (entries, 1 to 1,024), --tick 200 and --silence 1000
      (milliseconds), --long 268435456 (bytes of journal until a save), --beside 24 (works since the last sync for
      which a thread does the next), --record, --faults,
      --hear (hosts that a coordinator that begins has to hear before it acts; all but as many as --factor),
      --reserve 268435456 (bytes that are to be left on a disk: where too few hosts have them no writes are taken),
      --listen ADDRESS:PORT (where it listens, if that is not where others reach it), --supervised (it ends with its
      input), --slow 30000 (milliseconds after which a slow backup is given up, 0 for never), --store file (or
      etcd=URL,..: where the coordinators' journal is), --store-name NAME (what its keys begin with there),
      --coordinator 0 (which of several it is)
  help, version           this text, and which program it is
Clients take --client-secret FILE, else that of SEVUNTHI_CLIENT_SECRET, where clients have to prove themselves.
All but trace, storm, restart, add, leave and move take --address 127.0.0.1, --port 7300, the port of host 0, --hosts 4,
and --coordinators 1, of which one leads: clients those of `up`. All but these and up take --cluster FILE in their place:
its lines have a host's index, or `coordinator`, and where it listens, as in `0 10.0.0.1:7300`. An option's value may also
stand behind a sign, as in --port=7300.";

fn main() -> ExitCode {
    let words: Result<Vec<String>, _> = std::env::args_os().skip(1).map(std::ffi::OsString::into_string).collect();
    let Ok(mut words) = words else {
        eprintln!("sevunthi: words have to be UTF-8");
        return ExitCode::from(2);
    };
    if words.is_empty() {
        eprintln!("{USAGE}");
        return ExitCode::from(2);
    }
    let command = words.remove(0);
    let asks_for_help = words.iter().take_while(|word| *word != "--").any(|word| word == "--help");
    if ["version", "--version", "-V"].contains(&command.as_str()) {
        say!("sevunthi {}, of which peers speak version {}", env!("CARGO_PKG_VERSION"), hello::VERSION);
        return ExitCode::SUCCESS;
    }
    if ["help", "--help", "-h"].contains(&command.as_str()) || asks_for_help {
        say!("{USAGE}");
        return ExitCode::SUCCESS;
    }
    match run(&command, words) {
        Ok(true) => ExitCode::SUCCESS,
        Ok(false) => ExitCode::FAILURE,
        Err(why) => {
            eprintln!("sevunthi: {why}");
            ExitCode::from(2)
        }
    }
}

fn target(options: &Options) -> Result<Target, String> {
    if let Some(file) = options.given("--cluster") {
        if let Some(other) =
            ["--address", "--port", "--hosts", "--coordinators"].iter().find(|name| options.given(name).is_some())
        {
            return Err(format!("--cluster says where all are: {other} has no place beside it"));
        }
        return Target::of_file(Path::new(file));
    }
    let hosts = options.between("--hosts", 4, 1, 64)?;
    let coordinators = options.between("--coordinators", 1, 1, MOST_COORDINATORS)?;
    let port = options.between("--port", 7300, 1, u16::MAX - u16::from(hosts + coordinators - 1))?;
    let address = options.get("--address", "127.0.0.1".to_string())?;
    if address.parse::<std::net::IpAddr>().is_err() {
        return Err(format!("--address is one such as 127.0.0.1, and not {address}"));
    }
    Ok(Target::on(&address, port, hosts).with_coordinators(coordinators))
}

/// The cluster that a client's program asks.
fn asked(options: &Options) -> Result<Target, String> {
    Ok(Target { secret: secret::of_client(options), ..target(options)? })
}

fn run(command: &str, words: Vec<String>) -> Result<bool, String> {
    let options = &Options::read(Command::named(command)?, words)?;
    match command {
        "serve" => supervisor::serve(options).map(|()| true),
        "restart" => rolling::ask(options),
        "add" => growing::add(options),
        "leave" => growing::leave(options),
        "move" => moving::run(options),
        "up" => up::up(options).map(|()| true),
        "put" | "get" | "delete" => ask(command, options),
        "scan" => scan(options),
        "create" | "split" => change(command, options),
        "status" => status(&asked(options)?),
        "bench" => bench::run(options, &asked(options)?),
        "trace" => trace::run(options),
        _ => storm::run(options),
    }
}

/// Tells why nothing was done.
fn not_done(why: &str) -> Result<bool, String> {
    eprintln!("sevunthi: {why}");
    Ok(false)
}

fn number<T: std::str::FromStr>(options: &Options, place: usize, what: &str) -> Result<T, String> {
    let word = options.word(place).unwrap_or_default();
    word.parse().map_err(|_| format!("{what}, and not {word}"))
}

fn table_of(options: &Options) -> Result<u32, String> {
    number(options, 0, "a table is a number below 2^32")
}

fn key_of(options: &Options, place: usize) -> Result<u64, String> {
    let key: u64 = number(options, place, "a key is a number below 2^63")?;
    if key >> 63 == 0 { Ok(key) } else { Err(format!("keys are below 2^63, and {key} is not")) }
}

fn ask(command: &str, options: &Options) -> Result<bool, String> {
    let target = asked(options)?;
    let mut client = Client::new(target.clone());
    client.patience = Duration::from_millis(options.between("--patience", 10_000, 1, 3_600_000)?);
    client.wait = client.wait.min(client.patience);
    let (table, key) = (table_of(options)?, key_of(options, 1)?);
    let done = match command {
        "get" => {
            return match client.get(table, key) {
                Ok(Found { version, value: Some(value) }) => {
                    say!("{} (version {version})", String::from_utf8_lossy(&value));
                    Ok(true)
                }
                Ok(Found { version, value: None }) => {
                    say!("no value (version {version})");
                    Ok(true)
                }
                Err(Error::Unknown) => not_done("no answer"),
                Err(error) => tell_error(&target, table, &error),
            };
        }
        _ => write(&mut client, command, (table, key), options)?,
    };
    match done {
        Ok(version) => {
            say!("version {version}");
            Ok(true)
        }
        Err(error) => tell_error(&target, table, &error),
    }
}

/// Shows the values of a range of keys.
fn scan(options: &Options) -> Result<bool, String> {
    let target = target(options)?;
    let mut client = Client::new(target.clone());
    client.patience = Duration::from_millis(options.between("--patience", 10_000, 1, 3_600_000)?);
    client.wait = client.wait.min(client.patience);
    let table = table_of(options)?;
    let first = if options.word(1).is_some() { key_of(options, 1)? } else { 0 };
    let last = if options.word(2).is_some() { key_of(options, 2)? } else { LAST_KEY };
    let most: usize = options.between("--most", usize::MAX, 0, usize::MAX)?;
    for entry in client.entries(table, first..=last).take(most) {
        match entry {
            Ok(Entry { key, version, value }) => say!("{key} {version} {}", String::from_utf8_lossy(&value)),
            Err(Error::Unknown) => return not_done("no answer"),
            Err(error) => return tell_error(&target, table, &error),
        }
    }
    Ok(true)
}

/// Puts or deletes, on the condition that is given.
fn write(
    client: &mut Client,
    command: &str,
    (table, key): (u32, u64),
    options: &Options,
) -> Result<Result<u64, Error>, String> {
    let value = options.word(2).unwrap_or_default().as_bytes();
    let version = match options.given("--if-version") {
        Some(_) => Some(options.between("--if-version", 0, 0, u64::MAX)?),
        None => None,
    };
    Ok(match (command, version, options.has("--if-absent")) {
        (_, Some(_), true) => return Err("--if-version and --if-absent exclude one another".to_string()),
        ("delete", Some(version), false) => client.delete_if(table, key, version),
        ("delete", None, _) => client.delete(table, key),
        (_, Some(version), false) => client.put_if(table, key, version, value),
        (_, None, true) => client.put_if_absent(table, key, value),
        (_, None, false) => client.put(table, key, value),
    })
}

/// Tells why something of this table was not done.
fn tell_error(target: &Target, table: u32, error: &Error) -> Result<bool, String> {
    not_done(&match error {
        Error::Unasked(missing) => target.told(*missing, table),
        Error::NotLetIn(NotLetIn::Secret) => "refused: the secret of --operator is another one".to_string(),
        Error::NotLetIn(NotLetIn::InClear) => {
            "refused: a proof is wanted there: without --insecure it is given".to_string()
        }
        Error::NotLetIn(NotLetIn::NoSecurity) => {
            "refused: the coordinator has no file --operator, or no security: --insecure asks it in clear then"
                .to_string()
        }
        Error::NotLetIn(why) => format!("refused: {why}"),
        other => other.to_string(),
    })
}

/// What who operates the cluster has: `up` draws it.
fn operator_secret(options: &Options) -> Result<Secret, String> {
    let file = options.get("--operator", format!("cluster-data/{}", secret::OPERATOR))?;
    let hint = "; --operator names the file `operator` in the folder of `up`";
    Secret::read(Path::new(&file)).map_err(|why| format!("{why}{hint}"))
}

fn change(command: &str, options: &Options) -> Result<bool, String> {
    let target = asked(options)?;
    let mut client = Client::new(target.clone());
    let table = table_of(options)?;
    let host = match options.word(1).filter(|_| command == "create") {
        Some(_) => Some(number::<u8>(options, 1, "a host is a number below 64")?),
        None => None,
    };
    let key = if command == "split" { key_of(options, 1)? } else { 0 };
    if let Some(host) = host.filter(|host| target.hosts <= *host) {
        return Err(format!("there is no host {host}: they are 0 to {}", target.hosts - 1));
    }
    if options.has("--insecure") {
        client.operate_in_clear();
    } else {
        client.operate_with(operator_secret(options)?);
    }
    // a host would say of either that it is no request
    if let Err(missing) = client.owner(table, 0)
        && missing.stays()
        && missing != Missing::Table
    {
        return not_done(&target.told(missing, table));
    }
    let done = if command == "create" { client.create(table, host) } else { client.split(table, key) };
    match (done, host) {
        (Ok(()), _) => Ok(true),
        (Err(Error::Refused(Refusal::NotReady)), Some(host)) => {
            not_done(&format!("refused: F11: host {host} is not up and ready"))
        }
        (Err(Error::Refused(Refusal::Wrong)), _) => {
            not_done(&format!("refused: there is nothing to {command} by the number {}", host.map_or(key, u64::from)))
        }
        (Err(Error::Unknown), _) => not_done("unknown: the coordinator has not answered, and it may have been done"),
        (Err(error), _) => tell_error(&target, table, &error),
    }
}

/// Shows the state of each coordinator, and of each host.
fn status(target: &Target) -> Result<bool, String> {
    let mut client = Client::new(target.clone());
    client.wait = Duration::from_secs(1);
    let mut all = true;
    let mut leads = false;
    for place in (0..target.places()).rev().filter(|place| !target.is_gone(*place)) {
        let is_coordinator = target.hosts <= place;
        let label = metrics::label(usize::from(place), usize::from(target.hosts));
        let name = if is_coordinator { label } else { format!("host {label}") };
        let text = client.status(place);
        let is_host = |text: &String| text.starts_with("sevunthi_");
        let text = match text {
            Ok(text) if is_host(&text) != is_coordinator => {
                leads |= is_coordinator && !text.starts_with(STANDS_BY);
                indented(&text)
            }
            Ok(_) => {
                format!("  who is at {} is another; {}", target.at(place), target.hint())
            }
            Err(Error::Unasked(missing @ Missing::NotLetIn(..))) => format!("  {}", target.told(missing, 0)),
            Err(_) => "  does not answer".to_string(),
        };
        all &= !["  who ", "  not let in", "  does not answer"].iter().any(|why| text.starts_with(why));
        say!("{name}\n{text}");
    }
    if !leads && 1 < target.coordinators {
        return not_done("no coordinator leads");
    }
    Ok(all)
}

fn indented(text: &str) -> String {
    text.lines().map(|line| format!("  {line}\n")).collect::<String>().trim_end().to_string()
}
