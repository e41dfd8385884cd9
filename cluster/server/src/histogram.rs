//! How long something took, how often: counts that threads add to at once.

use std::sync::atomic::{AtomicU64, Ordering};
use std::time::Duration;

/// The upper ends of the buckets, in microseconds.
const ENDS: [u64; 15] = [
    250, 500, 1_000, 2_500, 5_000, 10_000, 25_000, 50_000, 100_000, 250_000, 500_000, 1_000_000, 2_500_000, 5_000_000,
    10_000_000,
];

/// Counts by how long it took.
#[derive(Debug, Default)]
pub struct Histogram {
    /// How many took up to the end of each bucket, and longer than that of the one before; last, how many took longer.
    counts: [AtomicU64; ENDS.len() + 1],
    nanoseconds: AtomicU64,
}

impl Histogram {
    /// So many took this long.
    pub fn add(&self, took: Duration, count: u64) {
        let bucket = ENDS.partition_point(|end| u128::from(*end) < took.as_micros());
        self.counts[bucket].fetch_add(count, Ordering::Relaxed);
        let nanoseconds = u64::try_from(took.as_nanos()).unwrap_or(u64::MAX);
        self.nanoseconds.fetch_add(nanoseconds.saturating_mul(count), Ordering::Relaxed);
    }

    /// How many there were.
    pub fn count(&self) -> u64 {
        self.counts.iter().map(|count| count.load(Ordering::Relaxed)).sum()
    }

    /// How long all took together, in seconds.
    pub fn seconds(&self) -> f64 {
        self.nanoseconds.load(Ordering::Relaxed) as f64 / 1e9
    }

    /// The end of each bucket in seconds, with how many took no longer.
    pub fn up_to(&self) -> impl Iterator<Item = (f64, u64)> {
        ENDS.iter().zip(&self.counts).scan(0, |sum, (end, count)| {
            *sum += count.load(Ordering::Relaxed);
            Some((*end as f64 / 1e6, *sum))
        })
    }
}

#[cfg(test)]
mod tests {
    use super::*;

    #[test]
    fn each_time_is_counted_in_all_buckets_from_its_own_on() {
        let histogram = Histogram::default();
        for (milliseconds, count) in [(0, 2), (1, 1), (3, 1), (99, 1), (20_000, 1)] {
            histogram.add(Duration::from_millis(milliseconds), count);
        }
        let up_to: Vec<(f64, u64)> = histogram.up_to().collect();
        assert_eq!(up_to[0], (0.000_25, 2));
        assert_eq!((up_to[2], up_to[4], up_to[8], up_to[14]), ((0.001, 3), (0.005, 4), (0.1, 5), (10.0, 5)));
        assert_eq!(histogram.count(), 6);
        assert!((histogram.seconds() - 20.103).abs() < 1e-9);
    }
}
