//! A coordinator's node whose journal is in etcd. One transaction is under way at a time, and the node goes on meanwhile.
//!
//! Nothing leaves but behind a transaction of this process's term that was asked for after the step which sends it. What
//! is written down leaves behind the transaction that has its record. A Tick writes nothing down: it is only given while
//! no transaction is under way, and one is asked for at once, though it may have nothing to change. So whatever may
//! leave when a transaction has ended was sent by steps before it was asked for; and nothing is let go at other times.

use super::Core;
use crate::log::{failed, tell};
use crate::metrics::{Kind as Sort, Metrics};
use crate::store::Store;
use crate::store::gateway::Counts;
use crate::store::lead::count_fenced;
use crate::store::remote::{Kind, Remote};
use sevunthi::Answer;
use sevunthi_runtime::kept::Log;
use std::sync::atomic::Ordering;
use std::time::Duration;

impl Core {
    /// The journal in etcd, if it is there.
    pub fn remote(&self) -> Option<&Remote> {
        match &self.kept.log {
            Store::File(_) => None,
            Store::Etcd(remote) => Some(remote),
        }
    }

    /// Whether this process was the one that leads, not longer ago than one waits for another.
    pub fn leads(&self) -> bool {
        let silence = Duration::from_millis(self.config.silence);
        self.remote().is_none_or(|remote| remote.lead.unconfirmed() < silence)
    }

    /// Where the transaction that was under way has ended, what was sent before it was asked for is put together, to
    /// leave now. Says whether it has.
    pub fn end_transaction(&mut self, answer: impl FnMut(Answer)) -> bool {
        let Store::Etcd(remote) = &mut self.kept.log else { return false };
        let Some(ended) = remote.poll() else { return false };
        self.kept.syncing += ended.took.as_nanos() as u64;
        let noted = match ended.kind {
            Kind::Append => self.kept.node.synced(ended.safe),
            Kind::Save => {
                self.counts.saves += 1;
                self.kept.node.saved()
            }
            Kind::Guard => Ok(()),
        };
        noted.unwrap_or_else(|fault| failed("a transaction was not taken note of", fault));
        self.route(answer);
        true
    }

    /// Whether a transaction is under way.
    pub fn is_transacting(&self) -> bool {
        self.remote().is_some_and(Remote::is_busy)
    }

    /// Whether the node may be given a Tick now, behind which a transaction is asked for.
    pub fn may_tick(&self) -> bool {
        self.remote().is_none_or(|remote| !remote.is_busy() && self.leads())
    }

    /// A turn of the loop has ended.
    pub fn turn(&mut self) {
        self.awake.turn();
        if let Some(remote) = self.remote() {
            remote.lead.turn();
        }
    }

    /// Asks for a transaction, where something waits for one, and none is under way. Says whether it does so.
    pub fn begin_transaction(&mut self) -> bool {
        if self.kept.log.under_way() != 0 {
            return false;
        }
        if self.begin_save() {
            return true;
        }
        let taken = self.kept.collect_written();
        taken.unwrap_or_else(|fault| failed("the journal can't be taken", fault));
        let kind = if self.kept.has_written() {
            Kind::Append
        } else if self.kept.node.info().is_waiting {
            Kind::Guard
        } else {
            return false;
        };
        self.note_clock();
        let bytes = self.kept.take_written();
        let clock = self.clock;
        if let Store::Etcd(remote) = &mut self.kept.log {
            remote.begin(kind, bytes, clock);
        }
        true
    }

    /// Where the journal is long, and all that was written is there, a save of it is begun. Says whether one is.
    fn begin_save(&mut self) -> bool {
        let info = self.kept.node.info();
        let has_more = self.kept.has_written() || info.untaken != 0 || info.safe < info.written;
        if self.config.long > self.kept.log.grown() || has_more {
            return false;
        }
        match self.kept.node.save() {
            Ok(save) => {
                let clock = self.clock;
                if let Store::Etcd(remote) = &mut self.kept.log {
                    remote.begin(Kind::Save, save, clock);
                }
                true
            }
            Err(fault) => {
                tell(format_args!("a save was refused: {fault}"));
                false
            }
        }
    }

    /// Whether it leads, in words, where the journal is in etcd.
    pub fn lead_text(&self) -> String {
        let Some(remote) = self.remote() else { return String::new() };
        let (term, unconfirmed) = (remote.lead.leader.term, remote.lead.unconfirmed().as_millis());
        match self.leads() {
            true => format!("leads, term {term}\n"),
            false => format!("does not know whether it leads, for {unconfirmed} ms, term {term}\n"),
        }
    }

    /// What there is to tell of etcd.
    pub fn add_store_metrics(&self, metrics: &mut Metrics) {
        let Some(remote) = self.remote() else { return };
        metrics.add(
            Sort::Gauge,
            "sevunthi_coordinator_leads",
            "1 where the coordinator leads, as far as it knows.",
            u8::from(self.leads()),
        );
        let help = "The term of the coordinator that leads: each that takes the lead has the next one.";
        metrics.add(Sort::Gauge, "sevunthi_coordinator_term", help, remote.lead.leader.term);
        let help = "Transactions that have only asked whether the coordinator leads.";
        metrics.add(Sort::Counter, "sevunthi_store_guards_total", help, remote.guards);
        add_counts(metrics, &remote.counts);
        add_fenced(metrics, count_fenced(&self.config.folder));
    }
}

/// How often a coordinator was fenced.
pub fn add_fenced(metrics: &mut Metrics, count: u64) {
    let help = "How often the coordinator with this folder has ended since another one led.";
    metrics.add(Sort::Counter, "sevunthi_coordinator_fenced_total", help, count);
}

/// What whoever asks etcd has counted.
pub fn add_counts(metrics: &mut Metrics, counts: &Counts) {
    for (name, help, counter) in [
        ("transactions", "Transactions that etcd has answered.", &counts.done),
        ("answers_lost", "Requests to etcd without an answer, which were asked again.", &counts.lost),
        ("recognised", "Transactions that were done though their answer was lost, and seen to be.", &counts.recognised),
        ("no_space", "Requests that etcd has refused since its space is used up.", &counts.no_space),
        ("compactions", "How often etcd's history was compacted.", &counts.compactions),
    ] {
        let value = counter.load(Ordering::Relaxed);
        metrics.add(Sort::Counter, &format!("sevunthi_store_{name}_total"), help, value);
    }
}

#[cfg(test)]
mod tests {
    use super::*;
    use crate::options::{Command, Options};
    use crate::secret::Secrets;
    use crate::store::stub::{Stub, empty_folder};
    use crate::{standby, supervisor};
    use sevunthi::{Node, Ready, Shape, Work};
    use std::path::Path;
    use std::thread;
    use std::time::Instant;

    /// A coordinator that leads, of one host.
    fn leading(stub: &Stub, folder: &Path) -> Result<Core, String> {
        let store = format!("etcd=http://{}", stub.address());
        let port = (20_000 + std::process::id() % 10_000).to_string();
        let words = ["--hosts", "1", "--factor", "1", "--port", &port, "--store", &store].map(String::from);
        let options = Options::read(Command::named("up")?, words)?;
        let target = crate::target(&options)?;
        let config = supervisor::config(&options, target, folder.into(), None, Secrets::default())?;
        standby::run(config).map(|(core, _, _)| core).map_err(|error| error.to_string())
    }

    /// Asks for transactions until nothing waits for one.
    fn settle(core: &mut Core) {
        while core.begin_transaction() {
            while !core.end_transaction(|_| ()) {
                thread::sleep(Duration::from_millis(1));
            }
        }
    }

    #[test]
    fn a_tick_leaves_behind_a_transaction_that_was_asked_for_afterwards() -> Result<(), String> {
        let (stub, folder) = (Stub::start().map_err(|error| error.to_string())?, empty_folder("tick"));
        let mut core = leading(&stub, &folder)?;
        let told = |fault: sevunthi::Fault| fault.to_string();
        let mut host = Node::host(Shape { index: 0, factor: 1, segment: 8, free: true }).map_err(told)?;
        let mut ready = Ready::default();
        host.start().and_then(|()| host.ready(&mut ready)).map_err(told)?;
        host.synced(ready.journal.len()).and_then(|()| host.ready(&mut ready)).map_err(told)?;
        let enlists: Vec<Vec<u8>> = ready.messages().map(<[u8]>::to_vec).collect();
        enlists.iter().try_for_each(|message| core.kept.node.deliver(message)).map_err(told)?;
        // what is written down leaves when a transaction has it
        stub.stand_still(true);
        assert!(core.begin_transaction() && !core.may_tick());
        thread::sleep(Duration::from_millis(50));
        assert!(!core.end_transaction(|_| ()) && core.counts.messages == 0);
        stub.stand_still(false);
        let began = Instant::now();
        while !core.end_transaction(|_| ()) {
            assert!(began.elapsed() < Duration::from_secs(5));
        }
        settle(&mut core);
        let (before, guards) = (core.counts.messages, core.remote().map(|remote| remote.guards));
        assert!(0 < before && guards == Some(0));
        // all is safe, and a Tick writes nothing: it waits all the same
        stub.stand_still(true);
        core.kept.node.step(Work::Tick).map_err(told)?;
        assert!(core.begin_transaction());
        thread::sleep(Duration::from_millis(50));
        assert!(!core.end_transaction(|_| ()) && core.counts.messages == before);
        stub.stand_still(false);
        settle(&mut core);
        while !core.end_transaction(|_| ()) {
            assert!(began.elapsed() < Duration::from_secs(5));
        }
        assert!(before < core.counts.messages && core.remote().map(|remote| remote.guards) == Some(1));
        std::fs::remove_dir_all(folder).map_err(|error| error.to_string())
    }
}
