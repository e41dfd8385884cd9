//! Drawn faults on a cluster of its own, of four hosts with factor 2, while six clients write and read, also on
//! conditions. A conditional write is noted as a write and a read, of which one was done: the read is what a mismatch
//! showed. Every other seed leaves all syncs of hosts to threads. In two of four seeds each journal that has grown by
//! 60,000 bytes is replaced by a save, over the file of an older one.
//!
//! At the end journals that were damaged where they were safe, cut or taken away have to be refused, six of them, or
//! three where the coordinators' journal is in etcd; and the cluster has to go on with them as they were. No client may
//! wait longer than the gap; the time after its last answer counts. Time in which the machine kept a thread or a sync
//! waiting is left out, and told.
//!
//! Three coordinators have an etcd of three members, and a pack of their own. Then tables are made ten times a second:
//! none that was acknowledged may be gone, and none be there that was refused.

mod clients;
mod disk;
mod machine;
mod noise;
mod older;
mod orders;
mod stores;

use crate::client::{Client, Error, Refusal, Target};
use crate::dice::Dice;
use crate::faults::{FULL, NEARLY_FULL, Wrong, bit};
use crate::options::Options;
use crate::protocol::Op;
use crate::secret::{OPERATOR, Secret};
use crate::status::Status;
use crate::store::head::SEEN;
use crate::supervisor::{Cluster, Safety};
use clients::{CLIENTS, Lived, TABLE, live};
use disk::Spoilt;
use machine::Machine;
use orders::{Ordered, Orders};
use std::collections::{BTreeMap, HashSet};
use std::fs;
use std::path::{Path, PathBuf};
use std::sync::atomic::{AtomicBool, Ordering};
use std::sync::{Arc, Mutex};
use std::thread;
use std::time::{Duration, Instant};
use stores::Stores;

/// What may happen. A pack of these is shuffled, and dealt to its end, again and again.
const PACK: [Fault; 28] = [
    Fault::Kill,
    Fault::Kill,
    Fault::KillCoordinator,
    Fault::Stop,
    Fault::Stop,
    Fault::StopCoordinator,
    Fault::Power,
    Fault::Power,
    Fault::PowerCoordinator,
    Fault::Save,
    Fault::SavePower,
    Fault::SavePower,
    Fault::Pair,
    Fault::OneWay,
    Fault::FromCoordinator,
    Fault::Mangle,
    Fault::Mangle,
    Fault::Noise,
    Fault::Full,
    Fault::FullCoordinator,
    Fault::FullInSave,
    Fault::NearlyFull,
    Fault::FailingSync,
    Fault::FailingSync,
    Fault::DiskStands,
    Fault::Clock,
    Fault::Older,
    Fault::OlderCoordinator,
];

/// The same, where several coordinators have their journal in etcd.
const PACK_OF_SEVERAL: [Fault; 28] = [
    Fault::Kill,
    Fault::Stop,
    Fault::Power,
    Fault::Save,
    Fault::Pair,
    Fault::OneWay,
    Fault::Mangle,
    Fault::Noise,
    Fault::FailingSync,
    Fault::Clock,
    Fault::KillCoordinator,
    Fault::KillCoordinator,
    Fault::KillCoordinator,
    Fault::StopCoordinator,
    Fault::StopCoordinator,
    Fault::StopCoordinator,
    Fault::CutCoordinator,
    Fault::CutCoordinator,
    Fault::CutCoordinator,
    Fault::SaveOfCoordinator,
    Fault::SaveOfCoordinator,
    Fault::FromCoordinator,
    Fault::KillMember,
    Fault::KillMember,
    Fault::StopMember,
    Fault::StopMember,
    Fault::StopMembers,
    Fault::OlderStore,
];

#[derive(Clone, Copy, Debug, PartialEq, Eq, PartialOrd, Ord)]
enum Fault {
    /// A host's process is killed, and started after up to 1.5 s.
    Kill,
    KillCoordinator,
    /// A host's process stands still for 1 to 5 s; a coordinator's only while no recovery waits for it.
    Stop,
    StopCoordinator,
    /// A host's process is killed and has no power: what was not synced is cut off, or damaged, or zeros, and an older
    /// journal stands behind.
    Power,
    PowerCoordinator,
    /// A process ends in a save, after any of its steps: opened, written, synced, number noted, renamed, folder synced.
    Save,
    /// So does its machine's power. The rename may be lost then.
    SavePower,
    /// Two hosts do not hear each other for 0.5 to 5 s.
    Pair,
    /// One process does not hear another, which hears it, for as long; with the coordinator for up to 2 s.
    OneWay,
    /// A host and the coordinator do not hear each other for up to 2 s.
    FromCoordinator,
    /// Of the frames of a process a tenth is repeated, reordered, cut and damaged, and there are bytes that are none.
    Mangle,
    /// Strangers connect, and talk nonsense.
    Noise,
    /// A host's disk is full: writes fail after a half, for 0.2 to 1.5 s, over restarts too.
    Full,
    FullCoordinator,
    /// A disk is full in a save.
    FullInSave,
    /// A host begins while its disk has no room for zeros ahead of its journal, and loses its power after 1 to 2 s.
    NearlyFull,
    /// A sync fails by `EIO`: the process ends, and some of what it should have made safe is cut or damaged.
    FailingSync,
    /// A host's disk stands still: no sync ends for 1 to 5 s.
    DiskStands,
    /// The clock of what is sent jumps by up to 20 s, ahead or back.
    Clock,
    /// A copy of a host's folder is put back when others were told of more: it has to be refused.
    Older,
    OlderCoordinator,
    /// The coordinator that leads is cut off from etcd for 0.5 to 4 s.
    CutCoordinator,
    /// It ends in a save, after any of its steps.
    SaveOfCoordinator,
    /// A member of etcd is killed.
    KillMember,
    /// It stands still.
    StopMember,
    /// All do, for up to 1.5 s.
    StopMembers,
    /// A coordinator has seen more than etcd has, and has to say so.
    OlderStore,
}

impl Fault {
    /// Those of these names, with commas between them; all of a pack where there is none.
    fn deck(names: &str, pack: &[Fault]) -> Result<Vec<Fault>, String> {
        if names.is_empty() {
            return Ok(pack.to_vec());
        }
        let named = |name| pack.iter().copied().find(|fault| fault.name() == name).ok_or(format!("no fault is {name}"));
        names.split(',').map(named).collect()
    }

    fn name(self) -> &'static str {
        match self {
            Fault::Kill => "kill",
            Fault::KillCoordinator => "kill-coordinator",
            Fault::Stop => "stop",
            Fault::StopCoordinator => "stop-coordinator",
            Fault::Power => "power",
            Fault::PowerCoordinator => "power-coordinator",
            Fault::Save => "save",
            Fault::SavePower => "save-power",
            Fault::Pair => "pair",
            Fault::OneWay => "one-way",
            Fault::FromCoordinator => "from-coordinator",
            Fault::Mangle => "mangle",
            Fault::Noise => "noise",
            Fault::Full => "full",
            Fault::FullCoordinator => "full-coordinator",
            Fault::FullInSave => "full-in-save",
            Fault::NearlyFull => "nearly-full",
            Fault::FailingSync => "failing-sync",
            Fault::DiskStands => "disk-stands",
            Fault::Clock => "clock",
            Fault::Older => "older",
            Fault::OlderCoordinator => "older-coordinator",
            Fault::CutCoordinator => "cut-coordinator",
            Fault::SaveOfCoordinator => "save-of-coordinator",
            Fault::KillMember => "kill-member",
            Fault::StopMember => "stop-member",
            Fault::StopMembers => "stop-members",
            Fault::OlderStore => "older-store",
        }
    }
}

/// The cluster of a storm.
fn target(options: &Options) -> Result<Target, String> {
    Ok(Target {
        address: "127.0.0.1".into(),
        port: options.between("--port", 7600, 1, u16::MAX - 30)?,
        hosts: 4,
        coordinators: options.between("--coordinators", 1, 1, 3)?,
        ..Target::default()
    })
}

/// Runs a storm: prints each fault, and leaves the records and the clients' history in the folder.
pub fn run(options: &Options) -> Result<bool, String> {
    let folder: PathBuf = options.needed("--folder")?.into();
    let seed: u64 = options.get("--seed", 1)?;
    let seconds: u64 = options.get("--seconds", 60)?;
    let most = Duration::from_millis(options.get("--gap", 3000)?);
    let target = target(options)?;
    let pack = if target.coordinators == 1 { &PACK } else { &PACK_OF_SEVERAL };
    let deck = Fault::deck(&options.get("--only", String::new())?, pack)?;
    let safety = Safety::of(options, &target)?;
    let mut storm = Storm::begin(seed, target, folder.clone(), safety, deck)?;
    let target = storm.cluster.target.clone();
    let orders =
        (1 < target.coordinators).then(|| operating(&target, &folder, safety).map(Orders::begin)).transpose()?;
    let (ends, history) = (Arc::new(AtomicBool::new(false)), Arc::new(Mutex::new(String::new())));
    let machine = Machine::new(&folder).map_err(|error| error.to_string())?;
    let clients: Vec<_> = (0..CLIENTS)
        .map(|number| {
            let (target, ends, history) = (target.clone(), Arc::clone(&ends), Arc::clone(&history));
            thread::spawn(move || live(number, seed, target, &ends, &history))
        })
        .collect();
    while storm.began.elapsed() < Duration::from_secs(seconds) {
        storm.one_fault()?;
    }
    storm.calm()?;
    thread::sleep(Duration::from_secs(3));
    ends.store(true, Ordering::Relaxed);
    let ordered = orders.map(Orders::end);
    let mut done = Lived::default();
    for client in clients {
        done.add(client.join().map_err(|_| "a client has failed")?);
    }
    fs::write(folder.join("history"), history.lock().map_err(|_| "no history")?.as_str())
        .map_err(|error| error.to_string())?;
    let refused = storm.start_spoilt()?;
    let is_right = storm.tell(seed, &done, &machine, most, refused)?;
    Ok(is_right & ordered.is_none_or(|ordered| storm.keeps(&ordered)))
}

/// A client that operates the cluster in this folder.
fn operating(target: &Target, folder: &Path, safety: Safety) -> Result<Client, String> {
    let mut client = Client::new(target.clone());
    match safety {
        Safety::None => client.operate_in_clear(),
        Safety::Peers | Safety::All => client.operate_with(Secret::read(&folder.join(OPERATOR))?),
    }
    Ok(client)
}

struct Storm {
    cluster: Cluster,
    /// The etcd of several coordinators.
    stores: Option<Stores>,
    dice: Dice,
    client: Client,
    began: Instant,
    /// What may happen, and what of it is still to be dealt.
    deck: Vec<Fault>,
    pack: Vec<Fault>,
    counts: BTreeMap<&'static str, u64>,
    /// Those whose disk loses what was not safe when their process ends by itself.
    losing: HashSet<usize>,
    /// Bytes that were not safe and are lost.
    lost: u64,
}

impl Storm {
    /// A cluster in this folder, with its table.
    fn begin(seed: u64, target: Target, folder: PathBuf, safety: Safety, deck: Vec<Fault>) -> Result<Storm, String> {
        // every other cluster leaves all its syncs to threads
        let beside = if seed.is_multiple_of(2) { "24" } else { "0" };
        // and in two of four each journal is replaced by a save again and again, over the file of an older one
        let long = if seed % 4 < 2 { "60000" } else { "268435456" };
        let more = ["--record", "--faults", "--factor", "2", "--segment", "64", "--tick", "100"];
        let more = more.into_iter().chain(["--beside", beside, "--long", long]).map(String::from);
        let mut cluster = Cluster::new(target, &folder, safety, more.collect())?;
        let target = cluster.target.clone();
        let stores = (1 < target.coordinators).then(|| Stores::start(&folder, target.port, target.coordinators));
        let stores = stores.transpose()?;
        for coordinator in 0..target.coordinators {
            // a journal there is not long, and is often replaced by a save
            let own = stores.iter().flat_map(|stores| ["--store".to_string(), stores.option(coordinator)]);
            let own = own.chain(stores.iter().flat_map(|_| ["--long", "3000"].map(String::from)));
            cluster.own.insert(usize::from(target.hosts + coordinator), own.collect());
        }
        cluster.start_all()?;
        let counts = deck.iter().map(|fault| (fault.name(), 0)).collect();
        let mut storm = Storm {
            cluster,
            stores,
            dice: Dice::new(seed ^ 0x5eed),
            client: operating(&target, &folder, safety)?,
            began: Instant::now(),
            deck,
            pack: Vec::new(),
            counts,
            losing: HashSet::new(),
            lost: 0,
        };
        while !matches!(storm.client.create(TABLE, Some(0)), Ok(()) | Err(Error::Refused(Refusal::TableExists))) {
            if Duration::from_secs(10) < storm.began.elapsed() {
                return Err("the table was not made".into());
            }
            thread::sleep(Duration::from_millis(100));
        }
        storm.began = Instant::now();
        Ok(storm)
    }

    fn say(&self, what: &str) {
        say!("{:6} ms: {what}", self.began.elapsed().as_millis());
    }

    /// The place that processes know whoever has this one here by.
    fn seat(&self, place: usize) -> usize {
        usize::from(self.cluster.target.seat(place as u8))
    }

    fn coordinator(&self) -> usize {
        usize::from(self.cluster.target.hosts)
    }

    /// The place of the coordinator that leads, or did so last.
    fn leading(&mut self) -> usize {
        if self.stores.is_some() {
            self.client.wait = Duration::from_millis(300);
            let _ = self.client.leaders_status();
        }
        usize::from(self.client.leading())
    }

    /// Waits for a drawn time between these, in milliseconds.
    fn wait(&mut self, least: u64, most: u64) {
        thread::sleep(Duration::from_millis(self.dice.between(least, most)));
    }

    fn one_fault(&mut self) -> Result<(), String> {
        self.wait(300, 1800);
        self.start_ended()?;
        let fault = self.pack.pop().unwrap_or_else(|| {
            self.pack.clone_from(&self.deck);
            self.dice.shuffle(&mut self.pack);
            self.pack.pop().unwrap_or(Fault::Kill)
        });
        *self.counts.entry(fault.name()).or_default() += u64::from(self.happen(fault)?);
        Ok(())
    }

    /// Has a fault happen, and says whether it has.
    fn happen(&mut self, fault: Fault) -> Result<bool, String> {
        let coordinator = self.coordinator();
        let host = self.dice.below(coordinator as u64) as usize;
        let any = self.dice.below(coordinator as u64 + 1) as usize;
        let leading = self.leading();
        let or_leading = |place| if place == coordinator { leading } else { place };
        let any_or_leading = or_leading(any);
        match fault {
            Fault::Kill => self.end(host, false)?,
            Fault::KillCoordinator => self.end(leading, false)?,
            Fault::Power => self.end(host, true)?,
            Fault::PowerCoordinator => self.end(coordinator, true)?,
            Fault::Stop => self.stand_still(host),
            Fault::StopCoordinator => {
                // (one that was cut off may be left out)
                self.wait_until_served(5, coordinator - 1)?;
                let leading = self.leading();
                self.stand_still(leading);
            }
            Fault::Save => return self.end_in_save(any_or_leading, false),
            Fault::SaveOfCoordinator => return self.end_in_save(leading, false),
            Fault::SavePower => return self.end_in_save(any, true),
            Fault::Pair => self.cut_off(host, (host + 1 + any % (coordinator - 1)) % coordinator, true),
            Fault::OneWay => self.cut_off(any_or_leading, or_leading((any + 1 + host) % (coordinator + 1)), false),
            Fault::FromCoordinator => self.cut_off(host, leading, true),
            Fault::Mangle => self.mangle(any_or_leading),
            Fault::Noise => {
                self.say(&format!("strangers talk to {any}"));
                noise::make(&self.cluster.target, any, &mut self.dice);
            }
            Fault::Clock => self.jump_clock(any_or_leading),
            Fault::Older => return self.put_back_older(host, any % coordinator),
            Fault::OlderCoordinator => return self.put_back_older(coordinator, host),
            Fault::Full
            | Fault::FullCoordinator
            | Fault::FullInSave
            | Fault::NearlyFull
            | Fault::FailingSync
            | Fault::DiskStands => return self.happen_to_disk(fault, host, any_or_leading),
            Fault::CutCoordinator | Fault::KillMember | Fault::StopMember | Fault::StopMembers | Fault::OlderStore => {
                return self.happen_to_store(fault, leading);
            }
        }
        Ok(true)
    }

    /// Has a fault of etcd happen, or one between it and the coordinator that leads, and says whether it has.
    fn happen_to_store(&mut self, fault: Fault, leading: usize) -> Result<bool, String> {
        let coordinator = self.coordinator();
        let Some(stores) = &mut self.stores else { return Ok(false) };
        let said = match fault {
            Fault::CutCoordinator => {
                let pause = self.dice.between(500, 4000);
                stores.cut(leading - coordinator, true);
                thread::sleep(Duration::from_millis(pause));
                stores.cut(leading - coordinator, false);
                format!("{leading}, which led, was cut off from etcd for {pause} ms")
            }
            Fault::KillMember => stores.kill_member(&mut self.dice)?,
            Fault::StopMember => stores.stop_members(false, &mut self.dice),
            Fault::StopMembers => stores.stop_members(true, &mut self.dice),
            _ => return self.see_more(leading),
        };
        self.say(&said);
        Ok(true)
    }

    /// A coordinator that does not lead begins anew in a folder that has seen more than etcd has: it has to say so, and
    /// leave the lead alone. Then it gets its own folder's knowledge back.
    fn see_more(&mut self, leading: usize) -> Result<bool, String> {
        let coordinators = usize::from(self.cluster.target.coordinators);
        let place = self.coordinator() + (leading - self.coordinator() + 1) % coordinators;
        let folder = self.cluster.folder(place);
        let seen = folder.join(SEEN);
        let told = |error: std::io::Error| format!("the folder of {place}: {error}");
        self.cluster.kill(place);
        self.say(&format!("{place} is killed, and has seen more than etcd has"));
        let logged = fs::read(folder.join("log")).map_or(0, |log| log.len());
        fs::write(&seen, "999999 1 1 1\n").map_err(told)?;
        self.cluster.start(place)?;
        let began = Instant::now();
        let mut has_refused = false;
        while !has_refused && began.elapsed() < Duration::from_secs(5) {
            thread::sleep(Duration::from_millis(50));
            self.start_ended()?;
            let log = fs::read(folder.join("log")).unwrap_or_default();
            has_refused = String::from_utf8_lossy(&log[logged..]).contains("does not take the lead: etcd has an older");
        }
        self.cluster.kill(place);
        fs::remove_file(&seen).map_err(told)?;
        self.start(place)?;
        if has_refused { Ok(true) } else { Err(format!("{place} has not refused an older etcd")) }
    }

    /// Has a fault of a disk happen, and says whether it has.
    fn happen_to_disk(&mut self, fault: Fault, host: usize, any: usize) -> Result<bool, String> {
        match fault {
            Fault::Full => self.fill_disk(host)?,
            Fault::FullCoordinator => self.fill_disk(self.coordinator())?,
            Fault::FullInSave => {
                self.say(&format!("the disk of {any} is full in a save"));
                self.ask(any, Wrong::FullInSave);
                return self.await_end(any);
            }
            Fault::NearlyFull => self.nearly_fill_disk(host)?,
            Fault::FailingSync => {
                self.say(&format!("a sync of {any} fails"));
                self.losing.insert(any);
                self.ask(any, Wrong::Sync);
                return self.await_end(any);
            }
            Fault::DiskStands => self.let_disk_stand(host),
            _ => return Ok(false),
        }
        Ok(true)
    }

    fn mangle(&mut self, place: usize) {
        self.say(&format!("frames of {place} are repeated, reordered, cut and damaged"));
        self.ask(place, Wrong::Mangle(100));
        self.wait(500, 1500);
        self.ask(place, Wrong::Mangle(0));
    }

    fn let_disk_stand(&mut self, place: usize) {
        let pause = self.dice.between(1000, 5000);
        self.say(&format!("the disk of {place} stands still for {pause} ms"));
        self.ask(place, Wrong::DiskStands(pause));
        thread::sleep(Duration::from_millis(pause));
    }

    fn jump_clock(&mut self, place: usize) {
        let ahead = self.dice.between(1, 20) as i64;
        let seconds = if self.dice.below(2) == 0 { ahead } else { -ahead };
        self.say(&format!("the clock of {place} jumps by {seconds} s"));
        self.ask(place, Wrong::Jump(seconds * 1_000_000_000));
    }

    /// Asks a process to do something wrong; again, where it has been started since the last time.
    fn ask(&mut self, place: usize, wrong: Wrong) {
        let (what, how) = wrong.code();
        self.client.wait = Duration::from_millis(300);
        for _ in 0..3 {
            if self.client.call(place as u8, Op::Fail, what, how, &[]).is_ok() {
                return;
            }
        }
    }

    /// A process ends, and comes back after a while. Without power some of what was not safe is lost, and some damaged.
    fn end(&mut self, place: usize, power: bool) -> Result<(), String> {
        self.cluster.kill(place);
        self.say(&format!("{place} is killed"));
        if power && (self.stores.is_none() || place < self.coordinator()) {
            self.cut_power(place)?;
        }
        self.wait(0, 1500);
        self.start(place)
    }

    fn cut_power(&mut self, place: usize) -> Result<(), String> {
        let lost = disk::cut_power(&self.cluster.folder(place), &mut self.dice);
        let lost = lost.map_err(|error| format!("the folder of {place}: {error}"))?;
        self.lost += lost.bytes;
        self.say(&format!("its power is cut: {lost:?}"));
        Ok(())
    }

    fn stand_still(&mut self, place: usize) {
        let pause = self.dice.between(1000, 5000);
        self.say(&format!("{place} stands still for {pause} ms"));
        self.cluster.signal(place, "-STOP");
        thread::sleep(Duration::from_millis(pause));
        self.cluster.signal(place, "-CONT");
    }

    fn end_in_save(&mut self, place: usize, power: bool) -> Result<bool, String> {
        let step = self.dice.below(6) as u8;
        self.say(&format!("{place} ends in a save, after step {step}"));
        self.ask(place, Wrong::EndInSave(step));
        if power {
            self.losing.insert(place);
        }
        self.await_end(place)
    }

    /// One sends nothing to the other, for a while, nor that to it, where it is for both. Hosts that do not hear each
    /// other go on without one of them; what does not hear the coordinator has to wait.
    fn cut_off(&mut self, one: usize, other: usize, both: bool) {
        let longest = if one.max(other) >= self.coordinator() { 2000 } else { 5000 };
        let pause = self.dice.between(500, longest);
        self.say(&format!(
            "{one} sends nothing to {other}{} for {pause} ms",
            if both { ", nor that to it," } else { "" }
        ));
        self.ask(one, Wrong::Deaf(bit(self.seat(other))));
        if both {
            self.ask(other, Wrong::Deaf(bit(self.seat(one))));
        }
        thread::sleep(Duration::from_millis(pause));
        [one, other].into_iter().for_each(|place| self.ask(place, Wrong::Deaf(0)));
    }

    /// The disk is full for a while. Whoever starts then ends again.
    fn fill_disk(&mut self, place: usize) -> Result<(), String> {
        self.say(&format!("the disk of {place} is full"));
        let full = self.cluster.folder(place).join(FULL);
        fs::write(&full, []).map_err(|error| error.to_string())?;
        let until = Instant::now() + Duration::from_millis(self.dice.between(200, 1500));
        while Instant::now() < until {
            thread::sleep(Duration::from_millis(100));
            self.start_ended()?;
        }
        fs::remove_file(&full).map_err(|error| error.to_string())
    }

    /// A host comes back to a disk that is nearly full, goes on there for a while, and loses its power.
    fn nearly_fill_disk(&mut self, place: usize) -> Result<(), String> {
        self.cluster.kill(place);
        self.say(&format!("{place} is killed, and its disk is nearly full"));
        let nearly_full = self.cluster.folder(place).join(NEARLY_FULL);
        fs::write(&nearly_full, []).map_err(|error| error.to_string())?;
        self.start(place)?;
        self.wait(1000, 2000);
        fs::remove_file(&nearly_full).map_err(|error| error.to_string())?;
        self.end(place, true)
    }

    /// Waits for a process to end by itself, and starts it again. One that has not ended after a second is not to any
    /// more: it may have had nothing to sync.
    fn await_end(&mut self, place: usize) -> Result<bool, String> {
        let began = Instant::now();
        while began.elapsed() < Duration::from_secs(1) {
            if self.start_ended()?.contains(&place) {
                return Ok(true);
            }
            thread::sleep(Duration::from_millis(20));
        }
        self.ask(place, Wrong::Nothing);
        self.losing.remove(&place);
        Ok(self.start_ended()?.contains(&place))
    }

    /// Starts a process. What a test kept beside its journal is of no use any more.
    fn start(&mut self, place: usize) -> Result<(), String> {
        disk::forget_save(&self.cluster.folder(place));
        self.cluster.start(place)
    }

    /// Starts those that have ended by themselves, and says which.
    fn start_ended(&mut self) -> Result<Vec<usize>, String> {
        let ended = self.cluster.ended();
        for (place, how) in &ended {
            self.say(&format!("{place} has ended: {how}"));
            if self.losing.remove(place) && (self.stores.is_none() || *place < self.coordinator()) {
                self.cut_power(*place)?;
            }
            self.start(*place)?;
        }
        Ok(ended.into_iter().map(|(place, _)| place).collect())
    }

    /// Waits until so many hosts are up and were heard, and nothing is being recovered, for so many seconds at most.
    fn wait_until_served(&mut self, seconds: u64, hosts: usize) -> Result<bool, String> {
        let began = Instant::now();
        while began.elapsed() < Duration::from_secs(seconds) {
            self.start_ended()?;
            self.client.wait = Duration::from_millis(300);
            if let Some(text) = self.client.leaders_status() {
                let is_served = |status: &Status| hosts <= status.heard().count() && !status.is_recovering();
                if Status::read(&text).is_some_and(|status| is_served(&status)) {
                    return Ok(true);
                }
            }
            thread::sleep(Duration::from_millis(50));
        }
        Ok(false)
    }

    /// No more faults.
    fn calm(&mut self) -> Result<(), String> {
        self.say("calm");
        for _ in 0..10 {
            self.start_ended()?;
            thread::sleep(Duration::from_millis(300));
        }
        for place in 0..self.cluster.places() {
            self.ask(place, Wrong::Deaf(0));
            self.ask(place, Wrong::Mangle(0));
        }
        Ok(())
    }
}

/// How many writes a second have to be acknowledged at least, on average.
const LEAST_WRITES: u64 = 10;

/// How a process that must not start says so.
const REFUSES: &str = "must not start";

impl Storm {
    /// With journals that were spoilt among the bytes that were safe no node starts; with its own it does. Says how
    /// many have refused.
    fn start_spoilt(&mut self) -> Result<u64, String> {
        let host = self.dice.below(self.coordinator() as u64) as usize;
        let mut refused = 0;
        let spoilt = if self.stores.is_none() { vec![host, self.coordinator()] } else { vec![host] };
        for place in spoilt {
            let folder = self.cluster.folder(place);
            self.cluster.kill(place);
            for how in [Spoilt::Damaged, Spoilt::Cut, Spoilt::Gone] {
                let bytes = disk::spoil(&folder, how, &mut self.dice);
                let bytes = bytes.map_err(|error| format!("the journal of {place}: {error}"))?;
                let logged = fs::read(folder.join("log")).map_or(0, |log| log.len());
                self.cluster.start(place)?;
                refused += u64::from(self.has_refused(place, logged));
                self.cluster.kill(place);
                fs::write(folder.join("journal"), bytes).map_err(|error| error.to_string())?;
            }
            self.cluster.start(place)?;
        }
        if self.wait_until_served(30, self.coordinator())? {
            return Ok(refused);
        }
        Err("the cluster is not served with the journals as they were".into())
    }

    /// Whether the process ends by itself, and has said that it must not start.
    fn has_refused(&mut self, place: usize, logged: usize) -> bool {
        let began = Instant::now();
        while began.elapsed() < Duration::from_secs(30) {
            if self.cluster.ended().iter().any(|(other, _)| *other == place) {
                let log = fs::read(self.cluster.folder(place).join("log")).unwrap_or_default();
                return String::from_utf8_lossy(log.get(logged..).unwrap_or_default()).contains(REFUSES);
            }
            thread::sleep(Duration::from_millis(20));
        }
        false
    }

    /// Tells what has happened, and whether it is as it should be.
    fn tell(&self, seed: u64, done: &Lived, machine: &Machine, most: Duration, refused: u64) -> Result<bool, String> {
        let gap = done.gap(machine);
        let from = gap.from.map_or(0, |from| (from - self.began).as_millis());
        let counts = self.counts.iter().map(|(name, count)| format!(" {name}={count}")).collect::<String>();
        say!("faults:{counts}");
        say!(
            "seed {seed}: {} faults, {} writes, {} reads, {} mismatches, {} unknown, longest gap {} ms (from {from}), \
             {} bytes lost that were not safe",
            self.counts.values().sum::<u64>(),
            done.writes,
            done.reads,
            done.mismatches,
            done.unknown,
            gap.whole.as_millis(),
            self.lost
        );
        if most < gap.whole {
            let (thread, sync) = machine.longest();
            say!(
                "busy: {} ms without what the machine kept waiting: a thread that was due up to {} ms, \
                 a sync up to {} ms",
                gap.served.as_millis(),
                thread.as_millis(),
                sync.as_millis()
            );
        }
        let least = LEAST_WRITES * self.began.elapsed().as_secs();
        if done.writes < least {
            say!("wrong: fewer than {least} writes were acknowledged, too few to tell anything");
        }
        let spoilt = if self.stores.is_none() { 6 } else { 3 };
        if refused != spoilt {
            say!("wrong: {refused} of {spoilt} spoilt journals were refused");
        }
        Ok(gap.served <= most && least <= done.writes && refused == spoilt)
    }

    /// Whether each table that was acknowledged is there, and none that was refused.
    fn keeps(&mut self, ordered: &Ordered) -> bool {
        self.client.wait = Duration::from_secs(1);
        let status = (0..50).find_map(|_| {
            thread::sleep(Duration::from_millis(100));
            self.client.leaders_status()
        });
        let wrong = ordered.wrong(&status.unwrap_or_default());
        wrong.iter().for_each(|wrong| say!("wrong: {wrong}"));
        let logs = (self.coordinator()..self.cluster.places()).map(|place| self.cluster.folder(place).join("log"));
        let logs: String = logs.filter_map(|log| fs::read_to_string(log).ok()).collect();
        let count = |words: &str| logs.lines().filter(|line| line.contains(words)).count();
        let (terms, fenced) = (count(", which was silent for "), count("another coordinator leads: "));
        say!("{} tables were acknowledged, in {terms} terms; {fenced} coordinators were fenced", ordered.done.len());
        wrong.is_empty() && !ordered.done.is_empty()
    }
}
