//! Times of things to compare, measured in many short rounds in each of which every one has its turn.
use std::thread;
use std::time::{Duration, Instant};

const WARM_UP: Duration = Duration::from_millis(50);
const ROUND: Duration = Duration::from_millis(2);
const ROUNDS: usize = 150;
const STACK: usize = 64 << 20;

/// In a thread with room for the records of a volume on its stack, which begins at the same place of a page in every run: records by value lie there,
/// and by where they lie beside the tables a call's time was seen to change by a third.
pub fn on_own_stack(measure: fn()) {
    let measuring = thread::Builder::new().stack_size(STACK).spawn(measure);
    measuring.unwrap().join().unwrap();
}

/// Bytes with no pattern.
pub fn noise(length: usize) -> Vec<u8> {
    let mut state = 1u64;
    let mut next = || {
        state = state
            .wrapping_mul(6364136223846793005)
            .wrapping_add(1442695040888963407);
        (state >> 56) as u8
    };
    (0..length).map(|_| next()).collect()
}

/// How many calls of `work` make a round, found in the warm-up.
fn calls_in_a_round(work: &mut dyn FnMut()) -> u32 {
    let started = Instant::now();
    let mut calls = 0;
    while started.elapsed() < WARM_UP {
        work();
        calls += 1;
    }
    calls * ROUND.as_millis() as u32 / WARM_UP.as_millis() as u32 + 1
}

/// Seconds that a call takes, over one round.
fn round(work: &mut dyn FnMut(), calls: u32) -> f64 {
    let started = Instant::now();
    (0..calls).for_each(|_| work());
    started.elapsed().as_secs_f64() / calls as f64
}

/// Seconds that a call of each takes: the best of all rounds.
pub fn best_of_all<const W: usize>(mut works: [&mut dyn FnMut(); W]) -> [f64; W] {
    let calls = works.each_mut().map(|work| calls_in_a_round(work));
    let mut best = [f64::INFINITY; W];
    for _ in 0..ROUNDS {
        for i in 0..W {
            best[i] = best[i].min(round(works[i], calls[i]));
        }
    }
    best
}

/// The same of two.
pub fn best_of(mut one: impl FnMut(), mut other: impl FnMut()) -> [f64; 2] {
    best_of_all([&mut one, &mut other])
}

/// A line that says what was measured beside its aim, and MISSED where it is.
pub fn met(what: &str, measured: f64, aim: &str, is_met: bool) {
    let met = if is_met { "met" } else { "MISSED" };
    println!("{what}: {measured:.2}, aim {aim}: {met}");
}
