//! Where a cluster is.

use crate::addresses::{self, Going, Listed, MOST_HOSTS};
use crate::error::Missing;
use crate::hello::NotLetIn;
use crate::refusal::Refusal;
use crate::secret::SecretFile;
use std::collections::BTreeMap;
use std::path::{Path, PathBuf};

/// Where a cluster is.
#[derive(Clone, Debug, Default, PartialEq, Eq)]
pub struct Target {
    /// The address that all listen on.
    pub address: String,
    /// The port of host 0; the others follow, and then the coordinators.
    pub port: u16,
    /// How many hosts there are.
    pub hosts: u8,
    /// How many coordinators there are, of which one leads.
    pub coordinators: u8,
    /// Where each listens, by its place, where a file says that; else all do on the one address.
    pub listed: Vec<String>,
    /// The hosts that do not stay, where a file says that.
    pub going: BTreeMap<u8, Going>,
    /// That file.
    pub file: Option<PathBuf>,
    /// The file of the clients' secret, where its processes want a proof of it; else all is said in clear.
    pub secret: Option<SecretFile>,
}

impl Target {
    /// A cluster of so many hosts that all listen on this address: host 0 at this port, the others at those that
    /// follow, and then the one coordinator.
    pub fn on(address: &str, port: u16, hosts: u8) -> Target {
        Target { address: address.to_string(), port, hosts, coordinators: 1, ..Target::default() }
    }

    /// The same with so many coordinators, at least one, at ports one behind the other.
    pub fn with_coordinators(self, coordinators: u8) -> Target {
        Target { coordinators: coordinators.max(1), ..self }
    }

    /// The same, where clients prove that they have the secret of this file. It is read as often as one connects.
    pub fn with_secret(self, file: SecretFile) -> Target {
        Target { secret: Some(file), ..self }
    }

    /// How many processes there are: hosts first, and then the coordinators.
    pub fn places(&self) -> u8 {
        self.hosts + self.coordinators
    }

    /// The cluster of this file, on each line of which stands a host's index, or `coordinator`, and where it listens.
    ///
    /// # Errors
    ///
    /// What is wrong with the file, in words.
    pub fn of_file(file: &Path) -> Result<Target, String> {
        let Listed { all: listed, coordinators, going } = addresses::of_file(file)?;
        let hosts = listed.len() as u8 - coordinators;
        Ok(Target { hosts, coordinators, listed, going, file: Some(file.into()), ..Target::default() })
    }

    /// The same cluster as its file says now: hosts may have come, and gone.
    ///
    /// # Errors
    ///
    /// What is wrong with the file, or that there is none, in words.
    pub fn read_again(&self) -> Result<Target, String> {
        let file = self.file.as_ref().ok_or("no file says where the cluster is")?;
        Ok(Target { secret: self.secret.clone(), ..Target::of_file(file)? })
    }

    /// The place, as the wire has it, of whoever has this one here: the coordinators' are behind those of all hosts that
    /// there may be, and stay so where hosts come.
    pub fn seat(&self, place: u8) -> u8 {
        place.checked_sub(self.hosts).map_or(place, |coordinator| MOST_HOSTS + coordinator)
    }

    /// Whether a host does not stay, or is not there any more.
    pub fn is_gone(&self, place: u8) -> bool {
        self.going.get(&place) == Some(&Going::Gone)
    }

    /// Where whoever has this place listens: hosts first, and then the coordinators.
    pub fn at(&self, place: u8) -> String {
        let listed = self.listed.get(usize::from(place)).cloned();
        listed.unwrap_or_else(|| addresses::with_port(&self.address, self.port.saturating_add(u16::from(place))))
    }

    /// What to look at where somebody else listens than was wanted.
    pub fn hint(&self) -> &'static str {
        if self.listed.is_empty() {
            "--port and --hosts have to be those of `up`"
        } else {
            "--cluster has to name the cluster's own file"
        }
    }

    /// In words, why nobody was asked for something in this table.
    pub fn told(&self, missing: Missing, table: u32) -> String {
        let coordinator = self.at(self.hosts);
        let hint = format!("; {}", self.hint());
        match missing {
            Missing::Cluster if !self.listed.is_empty() => {
                format!("the coordinator at {coordinator} does not answer, nor does any host of the file")
            }
            Missing::Cluster => {
                let (first, last) = (self.port, self.port + u16::from(self.places()) - 1);
                format!("the coordinator at {coordinator} does not answer: nothing listens on ports {first} to {last}")
            }
            Missing::Coordinator => format!("the coordinator at {coordinator} does not answer{hint}"),
            Missing::Leader => format!("refused: {}", Refusal::NotLeading),
            Missing::NoCoordinator => format!("who is at {coordinator} is no coordinator{hint}"),
            Missing::Elsewhere(place) => {
                format!("the coordinator is at {}, and not at {coordinator}{hint}", self.at(place))
            }
            Missing::NoHost(index) => format!("who is at {} is not host {index}{hint}", self.at(index)),
            Missing::Table => format!("there is no table {table}"),
            Missing::Owner => format!("refused: {}", Refusal::Recovering),
            Missing::Host(index) => format!("host {index} at {} does not answer", self.at(index)),
            Missing::NotLetIn(place, why) => format!("not let in at {}: {why}{}", self.at(place), of_secret(why)),
        }
    }
}

/// What to look at where a client was not let in.
fn of_secret(why: NotLetIn) -> &'static str {
    match why {
        NotLetIn::InClear | NotLetIn::Secret => {
            "; --client-secret has to name the cluster's own file: `client-secret` in the folder of `up`"
        }
        NotLetIn::NoSecurity => "; without --client-secret clients are let in there",
        NotLetIn::Version(_) | NotLetIn::Place | NotLetIn::Stranger => "",
    }
}
