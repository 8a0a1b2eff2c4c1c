//! Takes samples of the three versions in turn, so that drift of the machine
//! hits all alike.

use std::hint::black_box;
use std::time::{Duration, Instant};

use crate::versions::{VERSIONS, Version};

const SAMPLES: usize = 101;
const SAMPLE: Duration = Duration::from_millis(1);
/// Buffers of one batch stay within a first-level cache.
const BATCH_BYTES: usize = 24 * 1024;
const MOST_BUFFERS: usize = 256;

/// What the caller lends beside the book.
#[derive(Clone, PartialEq, Debug)]
pub struct Lent {
    pub number: u32,
    pub record: [u32; 163],
    /// A ticket's number, pile and tonnes; its kind and desk.
    pub ticket: ([u32; 3], [u8; 2]),
    /// Tickets alike, differing, only at the bridge, only at the desk.
    pub counts: [u32; 4],
}

/// Nanoseconds a call.
pub struct Timing {
    pub median: f64,
    /// The interquartile range, as a part of the median.
    pub spread: f64,
}

pub struct Timings {
    pub each: [Timing; 3],
    /// The first version's time by the second's and by the third's: medians of
    /// the ratios within a round, so that a machine which changes its speed
    /// between rounds does not change them.
    pub ratios: [f64; 2],
}

fn percentile(samples: &[f64], percent: usize) -> f64 {
    let mut sorted = samples.to_vec();
    sorted.sort_by(f64::total_cmp);
    sorted[(sorted.len() - 1) * percent / 100]
}

impl Timing {
    fn of(samples: &[f64]) -> Timing {
        let median = percentile(samples, 50);
        let range = percentile(samples, 75) - percentile(samples, 25);
        Timing {
            median,
            spread: range / median,
        }
    }
}

fn ratio(samples: &[f64], others: &[f64]) -> f64 {
    let ratios: Vec<_> = samples.iter().zip(others).map(|(a, b)| a / b).collect();
    percentile(&ratios, 50)
}

/// The buffers on which every version is timed.
pub struct Clock<'a, F> {
    book: &'a [u8],
    lent: Lent,
    changes: bool,
    call: F,
    buffers: Vec<Vec<u8>>,
    /// What reading the clock twice costs.
    reading: Duration,
}

impl<'a, F: Fn(&Version, &mut [u8], &mut Lent) -> u8> Clock<'a, F> {
    /// `changes` says that the call changes the book, which is then restored
    /// before each call, outside of the timed part.
    pub fn new(book: &'a [u8], lent: Lent, changes: bool, call: F) -> Self {
        let count = (BATCH_BYTES / book.len()).clamp(1, MOST_BUFFERS);
        let mut readings: Vec<_> = (0..1_001).map(|_| Instant::now().elapsed()).collect();
        readings.sort();
        Clock {
            book,
            lent,
            changes,
            call,
            buffers: vec![book.to_vec(); count],
            reading: readings[500],
        }
    }

    /// Times one call on each buffer.
    fn batch(&mut self, version: &Version) -> Duration {
        if self.changes {
            for buffer in &mut self.buffers {
                buffer.copy_from_slice(self.book);
            }
        }
        let version = black_box(version);
        let start = Instant::now();
        for buffer in &mut self.buffers {
            black_box((self.call)(version, black_box(buffer), &mut self.lent));
        }
        start.elapsed().saturating_sub(self.reading)
    }

    fn sample(&mut self, version: &Version, batches: usize) -> Duration {
        (0..batches).map(|_| self.batch(version)).sum()
    }

    /// Doubles the batches until they fill a sample, which warms up as well.
    fn batches(&mut self, version: &Version) -> usize {
        let mut batches = 1;
        while self.sample(version, batches) < SAMPLE {
            batches *= 2;
        }
        let full = self.sample(version, batches).as_secs_f64();
        let wanted = batches as f64 * SAMPLE.as_secs_f64() / full;
        wanted.ceil() as usize
    }

    pub fn time(mut self) -> Timings {
        let batches = VERSIONS.each_ref().map(|version| self.batches(version));
        let mut samples = [const { Vec::new() }; 3];
        for round in 0..SAMPLES {
            // Another version begins each round, so that none always follows
            // the same one.
            for turn in 0..3 {
                let which = (round + turn) % 3;
                let time = self.sample(&VERSIONS[which], batches[which]);
                let calls = batches[which] * self.buffers.len();
                samples[which].push(time.as_secs_f64() * 1e9 / calls as f64);
            }
        }
        let [ours, plain, specialised] = &samples;
        Timings {
            each: samples.each_ref().map(|samples| Timing::of(samples)),
            ratios: [ratio(ours, plain), ratio(ours, specialised)],
        }
    }
}
