//! Two ways to the same answer, timed in turns: the time of this thread on the processor, so that what else
//! the machine does counts little.

use std::hint::black_box;

const ROUNDS: usize = 15;
/// How long one way is repeated in a round, in seconds.
const SPELL: f64 = 0.02;

#[repr(C)]
struct TimeSpec {
    seconds: i64,
    nanoseconds: i64,
}

extern "C" {
    fn clock_gettime(clock: i32, time: *mut TimeSpec) -> i32;
}

/// Linux's number of the clock that counts a thread's time.
const THREAD_TIME: i32 = 3;

fn now() -> f64 {
    let mut time = TimeSpec {
        seconds: 0,
        nanoseconds: 0,
    };
    // SAFETY: the call writes one timespec.
    let status = unsafe { clock_gettime(THREAD_TIME, &mut time) };
    assert_eq!(status, 0, "the thread's clock");
    time.seconds as f64 + time.nanoseconds as f64 * 1e-9
}

/// The seconds of one call, over so many.
fn per_call(calls: usize, work: &mut dyn FnMut() -> u64) -> f64 {
    let started = now();
    for _ in 0..calls {
        black_box(work());
    }
    (now() - started) / calls as f64
}

fn calls_for_a_spell(work: &mut dyn FnMut() -> u64) -> usize {
    let mut calls = 1;
    loop {
        let each = per_call(calls, work);
        if each * calls as f64 > SPELL / 4.0 {
            return ((SPELL / each) as usize).max(1);
        }
        calls *= 4;
    }
}

/// Medians in seconds, and how many times as fast the first is: the median over the rounds, the least and the greatest.
pub struct Compared {
    pub first: f64,
    pub other: f64,
    pub times: [f64; 3],
}

/// Times both ways in turns, each first in every other round. Their answers must be equal.
pub fn compare(first: &mut dyn FnMut() -> u64, other: &mut dyn FnMut() -> u64) -> Compared {
    assert_eq!(first(), other(), "the answers");
    let calls = [calls_for_a_spell(first), calls_for_a_spell(other)];
    let (mut firsts, mut others, mut ratios) = (Vec::new(), Vec::new(), Vec::new());
    for round in 0..ROUNDS {
        let (a, b);
        if round % 2 == 0 {
            a = per_call(calls[0], first);
            b = per_call(calls[1], other);
        } else {
            b = per_call(calls[1], other);
            a = per_call(calls[0], first);
        }
        firsts.push(a);
        others.push(b);
        ratios.push(b / a);
    }
    let [_, first, _] = spread(firsts);
    let [_, other, _] = spread(others);
    Compared {
        first,
        other,
        times: spread(ratios),
    }
}

/// The median of one way's time.
pub fn alone(work: &mut dyn FnMut() -> u64) -> f64 {
    let calls = calls_for_a_spell(work);
    let [_, median, _] = spread((0..ROUNDS).map(|_| per_call(calls, work)).collect());
    median
}

/// Least, median, greatest.
fn spread(mut values: Vec<f64>) -> [f64; 3] {
    values.sort_by(f64::total_cmp);
    [
        values[0],
        values[values.len() / 2],
        values[values.len() - 1],
    ]
}

/// The head of a table of times.
pub fn head(title: &str) {
    println!("\n{title}");
    println!(
        "{:<40} {:>12} {:>12} {:>7}  least to greatest",
        "", "proved", "second", "times"
    );
}

/// A row of it.
pub fn row(name: &str, it: &Compared) {
    let [least, median, greatest] = it.times;
    let (first, other) = (it.first * 1e6, it.other * 1e6);
    println!(
        "{name:<40} {first:>9.2} us {other:>9.2} us {median:>7.2}  {least:.2} to {greatest:.2}"
    );
}
