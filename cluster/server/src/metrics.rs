//! What a process tells who watches it: Prometheus' text, with seconds and bytes as units. A name that ends in `_total`
//! rises until the process ends.

use crate::histogram::Histogram;
use crate::places::Count;
use std::fmt::{Display, Write as _};
use std::fs;
use std::path::Path;
use std::time::{SystemTime, UNIX_EPOCH};

/// The kind of page by which it goes.
pub const KIND: &str = "text/plain; version=0.0.4; charset=utf-8";

/// A number that is told.
#[derive(Clone, Copy, Debug, PartialEq, Eq)]
pub enum Kind {
    /// It rises and falls.
    Gauge,
    /// It rises.
    Counter,
}

/// A text of metrics, of which each has the node's name.
pub struct Metrics {
    host: String,
    text: String,
}

/// A name for who has this place, where there are so many hosts: the index of a host, or `coordinator`, of which those
/// behind the first one have a number.
pub fn label(place: usize, hosts: usize) -> String {
    match place.checked_sub(hosts) {
        None => place.to_string(),
        Some(0) => "coordinator".to_string(),
        Some(number) => format!("coordinator{number}"),
    }
}

impl Metrics {
    /// None yet.
    pub fn of(host: &str) -> Metrics {
        Metrics { host: host.to_string(), text: String::new() }
    }

    fn head(&mut self, name: &str, kind: &str, help: &str) {
        let _ = write!(self.text, "# HELP {name} {help}\n# TYPE {name} {kind}\n");
    }

    /// One number.
    pub fn add(&mut self, kind: Kind, name: &str, help: &str, value: impl Display) {
        self.add_rows(kind, name, help, [(String::new(), value)]);
    }

    /// A number for each of these, by labels such as `peer="3"`.
    pub fn add_rows<V: Display>(
        &mut self,
        kind: Kind,
        name: &str,
        help: &str,
        rows: impl IntoIterator<Item = (String, V)>,
    ) {
        self.head(name, if kind == Kind::Gauge { "gauge" } else { "counter" }, help);
        for (labels, value) in rows {
            let comma = if labels.is_empty() { "" } else { "," };
            let _ = writeln!(self.text, "{name}{{host=\"{}\"{comma}{labels}}} {value}", self.host);
        }
    }

    /// How long something took.
    pub fn add_histogram(&mut self, name: &str, help: &str, times: &Histogram) {
        self.head(name, "histogram", help);
        let (host, count) = (&self.host, times.count());
        for (end, up_to) in times.up_to() {
            let _ = writeln!(self.text, "{name}_bucket{{host=\"{host}\",le=\"{end}\"}} {up_to}");
        }
        let _ = writeln!(self.text, "{name}_bucket{{host=\"{host}\",le=\"+Inf\"}} {count}");
        let _ = writeln!(self.text, "{name}_sum{{host=\"{host}\"}} {}", times.seconds());
        let _ = writeln!(self.text, "{name}_count{{host=\"{host}\"}} {count}");
    }

    /// All of it.
    pub fn text(self) -> String {
        self.text
    }
}

/// Of a text of metrics the lines that a person reads.
pub fn brief(text: &str) -> String {
    text.lines().filter(|line| !line.starts_with('#')).map(|line| format!("{line}\n")).collect()
}

/// What the process tells of itself, its connections and its folder's disk.
pub fn of_process(host: &str, count: &Count, times: &Histogram, folder: &Path) -> String {
    let mut metrics = Metrics::of(host);
    let kinds = [("unproved", count.unproved), ("peer", count.peers), ("client", count.clients)];
    let kinds = kinds.map(|(kind, count)| (format!("kind=\"{kind}\""), count));
    metrics.add_rows(Kind::Gauge, "sevunthi_connections", "Connections that have come in, by kind.", kinds);
    let help = "Connections that were refused or ended for want of places.";
    metrics.add(Kind::Counter, "sevunthi_connections_crowded_out_total", help, count.crowded_out);
    let help = "From when a client's request was read to when its answer was written.";
    metrics.add_histogram("sevunthi_request_duration_seconds", help, times);
    if let Ok(free) = sevunthi_system::free_bytes(folder) {
        metrics.add(Kind::Gauge, "sevunthi_disk_free_bytes", "Free bytes of the file system of the folder.", free);
    }
    let version = [(format!("version=\"{}\"", env!("CARGO_PKG_VERSION")), 1)];
    metrics.add_rows(Kind::Gauge, "sevunthi_build_info", "1, with the version of the program.", version);
    metrics.add(Kind::Gauge, "process_start_time_seconds", "When the process began, since 1970.", start_time());
    if let Some(memory) = resident_bytes() {
        metrics.add(Kind::Gauge, "process_resident_memory_bytes", "Memory of the process.", memory);
    }
    if let Some(seconds) = processor_seconds() {
        metrics.add(Kind::Counter, "process_cpu_seconds_total", "Processor time of the process.", seconds);
    }
    if let Ok(files) = fs::read_dir("/proc/self/fd") {
        metrics.add(Kind::Gauge, "process_open_fds", "Files that the process has open.", files.count());
    }
    metrics.text()
}

/// Of a machine with pages of 4,096 bytes.
fn resident_bytes() -> Option<u64> {
    let text = fs::read_to_string("/proc/self/statm").ok()?;
    text.split(' ').nth(1)?.parse::<u64>().ok().map(|pages| 4096 * pages)
}

/// The fields of `/proc/self/stat` behind the name, the first of which is the third of all.
fn stat() -> Option<Vec<f64>> {
    let text = fs::read_to_string("/proc/self/stat").ok()?;
    Some(text.rsplit(") ").next()?.split(' ').map(|word| word.parse().unwrap_or(0.0)).collect())
}

/// In user and system mode, by a clock of 100 ticks a second.
fn processor_seconds() -> Option<f64> {
    let fields = stat()?;
    Some((fields.get(11)? + fields.get(12)?) / 100.0)
}

/// When the process began: it is told in ticks since the machine was started.
fn start_time() -> f64 {
    let began = stat().and_then(|fields| fields.get(19).copied()).unwrap_or(0.0) / 100.0;
    let uptime = fs::read_to_string("/proc/uptime").unwrap_or_default();
    let uptime: f64 = uptime.split(' ').next().and_then(|word| word.parse().ok()).unwrap_or(0.0);
    let now = SystemTime::now().duration_since(UNIX_EPOCH).unwrap_or_default().as_secs_f64();
    ((now - uptime + began) * 100.0).round() / 100.0
}

#[cfg(test)]
mod tests {
    use super::*;
    use std::time::Duration;

    #[test]
    fn a_text_has_help_and_type_once_for_each_name() {
        let mut metrics = Metrics::of("3");
        metrics.add(Kind::Gauge, "a_bytes", "Bytes of a.", 7);
        let rows = [1, 2].map(|peer| (format!("peer=\"{peer}\""), 0.5));
        metrics.add_rows(Kind::Counter, "b_seconds_total", "Seconds of b.", rows);
        let text = metrics.text();
        assert_eq!(
            text,
            "# HELP a_bytes Bytes of a.\n# TYPE a_bytes gauge\na_bytes{host=\"3\"} 7\n\
             # HELP b_seconds_total Seconds of b.\n# TYPE b_seconds_total counter\n\
             b_seconds_total{host=\"3\",peer=\"1\"} 0.5\nb_seconds_total{host=\"3\",peer=\"2\"} 0.5\n"
        );
        assert_eq!(brief(&text).lines().count(), 3);
    }

    #[test]
    fn a_histogram_ends_in_all() {
        let (mut metrics, times) = (Metrics::of("0"), Histogram::default());
        times.add(Duration::from_millis(30), 2);
        metrics.add_histogram("c_seconds", "C.", &times);
        let text = metrics.text();
        assert!(
            text.contains("c_seconds_bucket{host=\"0\",le=\"0.025\"} 0\nc_seconds_bucket{host=\"0\",le=\"0.05\"} 2\n")
        );
        assert!(text.ends_with(
            "c_seconds_bucket{host=\"0\",le=\"+Inf\"} 2\nc_seconds_sum{host=\"0\"} 0.06\nc_seconds_count{host=\"0\"} 2\n"
        ));
    }

    #[test]
    fn a_process_tells_of_itself() {
        let text = of_process("1", &Count::default(), &Histogram::default(), Path::new("/"));
        let value = |name: &str| {
            let line = text.lines().find(|line| line.starts_with(&format!("{name}{{")))?;
            line.split(' ').next_back()?.parse::<f64>().ok()
        };
        let now = SystemTime::now().duration_since(UNIX_EPOCH).map_or(0.0, |since| since.as_secs_f64());
        assert!(value("process_start_time_seconds").is_some_and(|start| (now - start).abs() < 3600.0), "{text}");
        assert!(value("process_resident_memory_bytes").is_some_and(|bytes| bytes > 1e5));
        for name in ["sevunthi_disk_free_bytes", "process_open_fds", "sevunthi_build_info", "process_cpu_seconds_total"]
        {
            assert!(value(name).is_some(), "{name}");
        }
    }
}
