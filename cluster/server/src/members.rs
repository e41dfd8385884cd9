//! Who is of the cluster, and where each listens. The file that says so is read again when it is another: hosts come,
//! and leave, while the cluster runs.

use crate::client::Target;
use crate::core::tell;
use sevunthi_client::addresses::{Going, MOST_HOSTS};
use std::sync::{Arc, PoisonError, RwLock};
use std::thread;
use std::time::Duration;

/// The coordinators' places come behind those of all hosts that there may be: so hosts can come.
pub const COORDINATORS: usize = MOST_HOSTS as usize;

/// How often one looks whether the file is another.
const LOOK: Duration = Duration::from_millis(500);

/// Who is of the cluster now.
#[derive(Clone, Debug)]
pub struct Members(Arc<RwLock<Target>>);

impl Members {
    /// Those of this cluster.
    pub fn new(target: Target) -> Members {
        Members(Arc::new(RwLock::new(target)))
    }

    fn with<T>(&self, what: impl FnOnce(&Target) -> T) -> T {
        what(&self.0.read().unwrap_or_else(PoisonError::into_inner))
    }

    /// How many hosts there are, with those that are gone.
    pub fn hosts(&self) -> u8 {
        self.with(|target| target.hosts)
    }

    /// The hosts that are there.
    pub fn there(&self) -> Vec<u8> {
        self.with(|target| (0..target.hosts).filter(|host| !target.is_gone(*host)).collect())
    }

    /// The hosts that do not stay.
    pub fn going(&self) -> Vec<u8> {
        self.with(|target| target.going.keys().copied().collect())
    }

    /// Where whoever has this place listens, if there is anybody.
    pub fn at(&self, place: usize) -> String {
        self.with(|target| {
            let coordinator = place.checked_sub(COORDINATORS).map(|number| usize::from(target.hosts) + number);
            coordinator.map_or_else(
                || {
                    u8::try_from(place)
                        .ok()
                        .filter(|host| *host < target.hosts)
                        .map_or(String::new(), |host| target.at(host))
                },
                |place| target.at(place as u8),
            )
        })
    }

    /// Looks at the file again and again, and takes what it says, where that can follow what it said before.
    pub fn watch(&self) {
        let members = self.clone();
        if self.with(|target| target.file.is_none()) {
            return;
        }
        thread::spawn(move || {
            let mut told = String::new();
            loop {
                thread::sleep(LOOK);
                let why = members.look().err().unwrap_or_default();
                if why != told && !why.is_empty() {
                    tell(format_args!("the cluster's file is not taken: {why}"));
                }
                told = why;
            }
        });
    }

    /// Takes what the file says now.
    fn look(&self) -> Result<(), String> {
        let before = self.with(Target::clone);
        let later = before.read_again()?;
        if later == before {
            return Ok(());
        }
        follows(&before, &later)?;
        tell(format_args!("the cluster's file is taken: {}", said(&later)));
        *self.0.write().unwrap_or_else(PoisonError::into_inner) = later;
        Ok(())
    }
}

/// Whether this may come after that: hosts come behind the others, and none is left out.
fn follows(before: &Target, later: &Target) -> Result<(), String> {
    if later.hosts < before.hosts {
        let last = later.hosts;
        return Err(format!("host {last} is missing: one that has left has `{last} gone` there"));
    }
    if later.coordinators != before.coordinators {
        return Err("coordinators neither come nor go while the cluster runs".to_string());
    }
    Ok(())
}

/// Who is there, in words.
fn said(target: &Target) -> String {
    let going: String = target
        .going
        .iter()
        .map(|(host, going)| match going {
            Going::Leaves => format!(", of which {host} leaves"),
            Going::Gone => format!(", of which {host} is gone"),
        })
        .collect();
    format!("{} hosts{going}", target.hosts)
}

#[cfg(test)]
mod tests {
    use super::*;
    use std::fs;

    #[test]
    fn hosts_come_and_go_and_coordinators_keep_their_places() -> Result<(), String> {
        let file = std::env::temp_dir().join(format!("sevunthi-members-{}", std::process::id()));
        let say = |text: &str| fs::write(&file, text).map_err(|error| error.to_string());
        say("0 a:1\n1 a:2\ncoordinator a:3\n")?;
        let members = Members::new(Target::of_file(&file)?);
        assert_eq!(
            (members.hosts(), members.at(1), members.at(2), members.at(COORDINATORS)),
            (2, "a:2".to_string(), String::new(), "a:3".to_string())
        );
        say("0 a:1\n1 a:2 leaves\n2 a:4\ncoordinator a:3\n")?;
        members.look()?;
        assert_eq!(
            (members.hosts(), members.at(2), members.at(COORDINATORS)),
            (3, "a:4".to_string(), "a:3".to_string())
        );
        assert_eq!((members.there(), members.going()), (vec![0, 1, 2], vec![1]));
        say("0 a:1\n1 gone\n2 a:4\ncoordinator a:3\n")?;
        members.look()?;
        assert_eq!((members.there(), members.going(), members.at(1)), (vec![0, 2], vec![1], String::new()));
        for (text, why) in [
            ("0 a:1\ncoordinator a:3\n", "host 1 is missing: one that has left has `1 gone` there"),
            (
                "0 a:1\n1 gone\n2 a:4\ncoordinator a:3\ncoordinator a:5\n",
                "coordinators neither come nor go while the cluster runs",
            ),
        ] {
            say(text)?;
            assert_eq!(members.look(), Err(why.to_string()));
        }
        assert_eq!(members.there(), [0, 2]);
        fs::remove_file(&file).map_err(|error| error.to_string())
    }
}
