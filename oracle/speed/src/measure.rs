//! How long a call takes: the best of several rounds, each long enough for the clock.

use std::hint::black_box;
use std::time::Duration;

use library::Answer;
use reference::context::PlPgSqlContext;
use reference::preprocessor::PlPgSqlPreprocessor;
use reference::scanner::Scanner;
use sizes::{BUFFER_SIZE, RECORD_NUMBERS};

use crate::clock;

/// The most rounds, and how long they may take together.
const ROUNDS: usize = 300;
const TOGETHER: Duration = Duration::from_millis(600);

/// The least time of a round. A call that takes longer than `SLOW` is made once and no more.
const ROUND: Duration = Duration::from_millis(2);
const SLOW: Duration = Duration::from_millis(40);

/// Microseconds that the proved library takes for a body; its buffers are lent again and again.
pub fn ours(text: &str) -> f64 {
    let [mut output, mut work, mut spare] = [0; 3].map(|_| vec![0; BUFFER_SIZE]);
    best(|| -> Answer {
        library::transform_body(black_box(text).as_bytes(), &mut output, &mut work, &mut spare)
    })
}

/// The same under a table of levels, which the reference does not have.
pub fn ours_by_levels(text: &str, table: &str) -> f64 {
    let [mut output, mut work, mut spare] = [0; 3].map(|_| vec![0; BUFFER_SIZE]);
    best(|| -> Answer {
        let (text, table) = (black_box(text).as_bytes(), black_box(table).as_bytes());
        library::transform_body_by_levels(text, table, &mut output, &mut work, &mut spare)
    })
}

/// Microseconds that the reference takes.
pub fn reference(text: &str) -> f64 {
    best(|| PlPgSqlPreprocessor::transform_body(black_box(text), &PlPgSqlContext::new()))
}

/// The same for a function.
pub fn our_function(text: &str) -> f64 {
    let [mut output, mut work, mut spare, mut declared] = [0; 4].map(|_| vec![0; BUFFER_SIZE]);
    let mut records = vec![0; RECORD_NUMBERS];
    best(|| -> Answer {
        let (o, w, s, d) = (&mut output, &mut work, &mut spare, &mut declared);
        library::preprocess(black_box(text).as_bytes(), o, w, s, d, &mut records)
    })
}

pub fn reference_function(text: &str) -> f64 {
    best(|| PlPgSqlPreprocessor::preprocess(black_box(text)))
}

/// Requoting into an output of just its result's length.
pub fn our_requoting(text: &str) -> f64 {
    let mut output = vec![0; library::requoted_length(text.as_bytes())[3] as usize];
    best(|| library::requote_dollar_literals(black_box(text).as_bytes(), &mut output))
}

/// The call that tells this length, alone.
pub fn requoted_length(text: &str) -> f64 {
    best(|| library::requoted_length(black_box(text).as_bytes()))
}

pub fn reference_requoting(text: &str) -> f64 {
    best(|| Scanner::new(black_box(text)).requote_dollar_literals())
}

fn best<T>(mut call: impl FnMut() -> T) -> f64 {
    let once = time(1, &mut call);
    if once > SLOW {
        return micros(once, 1);
    }
    let calls = (ROUND.as_nanos() / once.as_nanos().max(1)).max(1) as u32;
    let (mut together, mut least) = (Duration::ZERO, Duration::MAX);
    for _ in 0..ROUNDS {
        let round = time(calls, &mut call);
        least = least.min(round);
        together += round;
        if together > TOGETHER {
            break;
        }
    }
    micros(least, calls)
}

fn time<T>(calls: u32, call: &mut impl FnMut() -> T) -> Duration {
    let started = clock::now();
    for _ in 0..calls {
        black_box(call());
    }
    clock::now() - started
}

fn micros(time: Duration, calls: u32) -> f64 {
    time.as_secs_f64() * 1e6 / f64::from(calls)
}
