//! Blocks of work, shared out among threads.

use std::sync::atomic::{AtomicU64, Ordering};
use std::thread;

use texts::random::Random;

use crate::report::Report;

pub struct Work {
    /// How many items there are; they are made by their numbers.
    pub count: u64,
    /// How many of them a thread takes at a time.
    pub block: u64,
    pub seed: u64,
    pub threads: usize,
}

/// Compares all items and counts into a report with these rows. Each block draws from a generator of
/// its own, so the texts do not depend on which thread makes them.
pub fn share(
    work: &Work,
    rows: &[&'static str],
    compare: impl Fn(u64, &mut Random, &mut Report) + Sync,
) -> Report {
    let next = AtomicU64::new(0);
    let one_thread = || {
        let mut report = Report::new(rows);
        loop {
            let block = next.fetch_add(1, Ordering::Relaxed);
            let numbers = block * work.block..work.count.min((block + 1) * work.block);
            if numbers.is_empty() {
                return report;
            }
            let mut random = Random::new((work.seed << 32) ^ block);
            for number in numbers {
                compare(number, &mut random, &mut report);
            }
        }
    };
    thread::scope(|scope| {
        let threads: Vec<_> = (0..work.threads).map(|_| scope.spawn(one_thread)).collect();
        let mut whole = Report::new(rows);
        for thread in threads {
            whole.add(thread.join().expect("the reference panics on no text"));
        }
        whole
    })
}
