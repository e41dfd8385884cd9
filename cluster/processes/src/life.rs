//! The life of a cluster, as its seed draws it.

use crate::client::{KEYS, TABLE, read_of};
use crate::cluster::{COORDINATOR, Cluster, HOSTS, NODES};
use sevunthi::{Fault, Id, Work};

/// How many steps are drawn.
const STEPS: usize = 2_000;

/// The most deliveries that bring all to rest.
const MOST: usize = 2_000;

/// So many messages are on their way in a run that has fallen behind.
const MANY: usize = 12;

/// How often all is tried again in the end.
const ROUNDS: usize = 2;

/// A cluster that has come to rest: hosts are started and a table is made; then so much happens as is drawn; in the end
/// all processes come back, what was begun is done, and all keys are read.
pub fn run(seed: u64) -> Result<Cluster, Fault> {
    let mut cluster = Cluster::new(seed)?;
    begin(&mut cluster)?;
    cluster.is_calm = false;
    for _ in 0..STEPS {
        step(&mut cluster)?;
    }
    cluster.is_calm = true;
    for _ in 0..ROUNDS {
        try_again(&mut cluster)?;
    }
    look(&mut cluster)?;
    Ok(cluster)
}

/// The hosts are started, and a table is made.
fn begin(cluster: &mut Cluster) -> Result<(), Fault> {
    for host in 0..HOSTS {
        cluster.start(host)?;
    }
    settle(cluster)?;
    let owner = cluster.newest(0);
    cluster.give(COORDINATOR, Work::Create { table: TABLE, owner })?;
    settle(cluster)
}

/// Delivers what is on its way.
fn settle(cluster: &mut Cluster) -> Result<(), Fault> {
    for _ in 0..MOST {
        if cluster.flying() == 0 {
            break;
        }
        cluster.deliver()?;
    }
    Ok(())
}

/// One step that is drawn.
fn step(cluster: &mut Cluster) -> Result<(), Fault> {
    if cluster.flying() > MANY && !cluster.dice.once_in(8) {
        return cluster.deliver();
    }
    let host = cluster.dice.below(HOSTS);
    match cluster.dice.below(200) {
        0..=89 => cluster.deliver()?,
        90..=109 => write(cluster),
        110..=117 => read(cluster),
        118..=141 => cluster.give(host, Work::Tick)?,
        142..=148 => cluster.give(COORDINATOR, Work::Tick)?,
        149 => cluster.crash(host),
        150 => cluster.crash(COORDINATOR),
        151..=160 => cluster.come_back(host)?,
        161..=168 => cluster.come_back(COORDINATOR)?,
        169..=172 => suspect(cluster, host)?,
        173..=178 => {
            let place = cluster.dice.below(NODES);
            cluster.sync(place)?;
        }
        179..=180 => cluster.start(host)?,
        _ => decide(cluster, host)?,
    }
    Ok(())
}

/// The outside asks for a write.
fn write(cluster: &mut Cluster) {
    let to = asked(cluster);
    let message = cluster.client.write(to, &mut cluster.dice);
    cluster.send(&message);
}

/// The outside asks for a read.
fn read(cluster: &mut Cluster) {
    let to = asked(cluster);
    let key = cluster.dice.below(KEYS as usize) as u64;
    cluster.send(&read_of(to, key));
}

/// Whom the outside asks.
fn asked(cluster: &mut Cluster) -> Id {
    let host = cluster.dice.below(HOSTS);
    cluster.client.asked(cluster.newest(host))
}

/// A server is believed dead whose process has ended; now and then one that lives.
fn suspect(cluster: &mut Cluster, host: usize) -> Result<(), Fault> {
    if cluster.is_down(host) || cluster.dice.once_in(30) {
        let id = cluster.newest(host);
        cluster.give(COORDINATOR, Work::Suspect(id))?;
    }
    Ok(())
}

/// The recovery of one of the last servers of a host is to be decided. Most of these come too early or too late, which
/// does no harm.
fn decide(cluster: &mut Cluster, host: usize) -> Result<(), Fault> {
    let Id { index, generation } = cluster.newest(host);
    let back = cluster.dice.below(3) as u32;
    cluster.give(COORDINATOR, Work::Decide(Id { index, generation: generation.saturating_sub(back) }))
}

/// All processes are back, what was lost is sent again, and then the hosts are begun anew, one after another: also
/// those whose servers were replaced and do not know it.
fn try_again(cluster: &mut Cluster) -> Result<(), Fault> {
    cluster.come_back(COORDINATOR)?;
    for host in 0..HOSTS {
        cluster.come_back(host)?;
    }
    for host in 0..HOSTS {
        renew(cluster, host)?;
    }
    for _ in 0..MANY {
        write(cluster);
        tick(cluster)?;
    }
    Ok(())
}

/// A host is begun anew, and what has crashed meanwhile is recovered.
fn renew(cluster: &mut Cluster, host: usize) -> Result<(), Fault> {
    settle(cluster)?;
    cluster.crash(host);
    cluster.come_back(host)?;
    settle(cluster)?;
    tick(cluster)?;
    for crashed in 0..HOSTS {
        recover(cluster, crashed)?;
    }
    Ok(())
}

/// Delivers what is on its way, and lets all timers go off: what has come in a wrong order is sent again.
fn tick(cluster: &mut Cluster) -> Result<(), Fault> {
    settle(cluster)?;
    for place in 0..NODES {
        cluster.give(place, Work::Tick)?;
        settle(cluster)?;
    }
    Ok(())
}

/// The former servers of a host are recovered, if they still own something.
fn recover(cluster: &mut Cluster, host: usize) -> Result<(), Fault> {
    let Id { index, generation: newest } = cluster.newest(host);
    for generation in 1..newest {
        let id = Id { index, generation };
        cluster.give(COORDINATOR, Work::Suspect(id))?;
        settle(cluster)?;
        cluster.give(COORDINATOR, Work::Decide(id))?;
        tick(cluster)?;
    }
    Ok(())
}

/// All keys are read, from every host. Where the owner has crashed the coordinator says why nothing can be read.
fn look(cluster: &mut Cluster) -> Result<(), Fault> {
    cluster.client.forget();
    for owner in cluster.crashed_owners()? {
        cluster.give(COORDINATOR, Work::Suspect(owner))?;
        tick(cluster)?;
        cluster.give(COORDINATOR, Work::Decide(owner))?;
        tick(cluster)?;
    }
    for host in 0..HOSTS {
        let to = cluster.newest(host);
        for key in 0..KEYS {
            cluster.send(&read_of(to, key));
        }
        settle(cluster)?;
    }
    Ok(())
}
