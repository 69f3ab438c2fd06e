//! Timing by turns, in processor time: what else the machine does is not counted, and what it does to caches falls on all alike.

use std::cell::Cell;
use std::time::Duration;

extern "C" {
    fn clock_gettime(clock: i32, time: *mut [i64; 2]) -> i32;
}

/// Linux's number for the processor time of the calling thread.
const THREAD_TIME: i32 = 3;

/// The processor time of this thread.
fn now() -> Duration {
    let mut time = [0; 2];
    // SAFETY: the time is two words, seconds and nanoseconds.
    assert_eq!(unsafe { clock_gettime(THREAD_TIME, &mut time) }, 0, "clock_gettime");
    Duration::new(time[0] as u64, time[1] as u32)
}

/// One way to do a piece of work, by its name.
pub struct Way<'a> {
    pub name: &'static str,
    pub call: Box<dyn FnMut() + 'a>,
}

pub fn way<'a>(name: &'static str, call: impl FnMut() + 'a) -> Way<'a> {
    Way { name, call: Box::new(call) }
}

/// How long something is measured: each run has so many rounds, each of at least that time; a way that is slow gets fewer rounds, but two.
#[derive(Clone, Copy)]
pub struct Plan {
    runs: u32,
    rounds: u32,
    least: Duration,
    most: Duration,
}

/// For a row of a table.
pub const ONCE: Plan = Plan { runs: 1, rounds: 20, least: Duration::from_millis(5), most: Duration::from_secs(4) };
/// For a ratio with its spread.
#[cfg(before)]
pub const SPREAD: Plan = Plan { runs: 5, rounds: 30, least: Duration::from_millis(1), most: Duration::from_secs(4) };

/// The least times of one call over the rounds in nanoseconds, one for each run, of each way. The rounds go by turns.
pub fn runs(plan: Plan, ways: &mut [Way]) -> Vec<Vec<f64>> {
    let counts: Vec<(u64, u32)> = ways.iter_mut().map(|way| calls(plan, &mut way.call)).collect();
    let mut all = vec![Vec::new(); ways.len()];
    for _ in 0..plan.runs {
        let mut least = vec![Duration::MAX; ways.len()];
        for turn in 0..plan.rounds {
            for (way, (least, &(calls, rounds))) in ways.iter_mut().zip(least.iter_mut().zip(&counts)) {
                if turn < rounds {
                    *least = (*least).min(round(&mut way.call, calls));
                }
            }
        }
        for (all, (least, (calls, _))) in all.iter_mut().zip(least.iter().zip(&counts)) {
            all.push(least.as_secs_f64() * 1e9 / *calls as f64);
        }
    }
    all
}

/// The least times of one call in nanoseconds, by the names of the ways.
pub fn by_turns(mut ways: Vec<Way>) -> Vec<(&'static str, f64)> {
    let times = runs(ONCE, &mut ways);
    ways.iter().zip(times).map(|(way, times)| (way.name, times[0])).collect()
}

fn round(call: &mut impl FnMut(), calls: u64) -> Duration {
    APART.set(Duration::ZERO);
    let start = now();
    for _ in 0..calls {
        call();
    }
    now() - start - APART.get()
}

thread_local! {
    /// What is left out of a round.
    static APART: Cell<Duration> = const { Cell::new(Duration::ZERO) };
}

/// Does what belongs to no measured call, within one: its time is left out. The two looks at the clock cost some hundred nanoseconds, some of which stay.
#[cfg(libsqlite3)]
pub fn apart<T>(work: impl FnOnce() -> T) -> T {
    let start = now();
    let done = work();
    APART.set(APART.get() + (now() - start));
    done
}

/// How many calls a round has, to last as long as it must, and how many rounds there are.
fn calls(plan: Plan, call: &mut impl FnMut()) -> (u64, u32) {
    let mut calls = 1;
    loop {
        let taken = round(call, calls);
        if taken >= plan.least {
            let rounds = (plan.most.as_secs_f64() / taken.as_secs_f64()) as u32;
            return (calls, rounds.clamp(2, plan.rounds));
        }
        calls = (calls * 2).max((calls as f64 * 1.2 * plan.least.as_secs_f64() / taken.as_secs_f64().max(1e-9)) as u64).min(calls * 100);
    }
}
