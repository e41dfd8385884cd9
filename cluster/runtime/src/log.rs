//! A node's log: a line for each event, behind its date and time (UTC). A line that can't be written is dropped.

use std::fmt::Display;
use std::io::Write;
use std::process::exit;
use std::time::{Duration, SystemTime, UNIX_EPOCH};

/// With this status a process ends that must not be started again before somebody has changed something.
pub const MUST_NOT_START: i32 = 4;

/// Writes a line to the node's log. Where the disk has no room for it, it is lost.
pub fn tell(what: impl Display) {
    let since = SystemTime::now().duration_since(UNIX_EPOCH).unwrap_or_default();
    // one write for the line, so that those of two threads do not mix
    let line = line(since, &what.to_string());
    let _ = std::io::stderr().write_all(line.as_bytes());
}

/// The line, with its end: what is told takes one line, whatever stands in it.
fn line(since: Duration, what: &str) -> String {
    let what = what.trim_end().replace(['\n', '\r'], " ");
    let (day, second) = (since.as_secs() / 86_400, since.as_secs() % 86_400);
    let (year, month, day) = date(day);
    let thousandths = since.subsec_millis();
    let (hour, minute, second) = (second / 3600, second / 60 % 60, second % 60);
    format!("{year:04}-{month:02}-{day:02} {hour:02}:{minute:02}:{second:02}.{thousandths:03} {what}\n")
}

/// Year, month and day of the day of this number, where 1970-01-01 is 0. Years begin in March here, so that a leap day
/// is a year's last day, and the months are as long as five in a row of 153 days.
fn date(day: u64) -> (u64, u64, u64) {
    let day = day + 719_468;
    let (era, of_era) = (day / 146_097, day % 146_097);
    let year = (of_era - of_era / 1460 + of_era / 36_524 - of_era / 146_096) / 365;
    let of_year = of_era - (365 * year + year / 4 - year / 100);
    let from_march = (5 * of_year + 2) / 153;
    let of_month = of_year - (153 * from_march + 2) / 5 + 1;
    let month = if from_march < 10 { from_march + 3 } else { from_march - 9 };
    (400 * era + year + u64::from(month <= 2), month, of_month)
}

/// Why a process ends.
pub fn failed(what: &str, error: impl Display) -> ! {
    tell(format_args!("{what}: {error}"));
    exit(3)
}

/// Why a process ends, and may not be started again before its folder is another.
pub fn must_not_start(why: impl Display) -> ! {
    tell(format_args!("this node must not start: {why}"));
    exit(MUST_NOT_START)
}

#[cfg(test)]
mod tests {
    use super::*;

    #[test]
    fn a_line_has_its_date_and_takes_one_line() {
        for (seconds, text) in [
            (0, "1970-01-01 00:00:00.007"),
            (951_782_400, "2000-02-29 00:00:00.007"),
            (1_709_251_199, "2024-02-29 23:59:59.007"),
            (1_709_251_200, "2024-03-01 00:00:00.007"),
            (1_798_761_599, "2026-12-31 23:59:59.007"),
            (4_107_542_400, "2100-03-01 00:00:00.007"),
        ] {
            let since = Duration::new(seconds, 7_000_000);
            assert_eq!(line(since, "two\nlines\n"), format!("{text} two lines\n"));
        }
    }
}
