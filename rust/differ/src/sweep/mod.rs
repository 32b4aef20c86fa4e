//! Cases in order, before the random ones: each family goes through all that one rule may meet.
//!
//! Each case is compared as a random one is, and each group states what its cases must meet ([`must::Must`]), so that
//! a group that makes no calls, or whose calls are all refused alike, fails the run. Where what a case has to answer
//! is plain from document 01 alone, the case states it too.

mod group;
mod judging;
mod manual;
mod must;
mod reading;
mod reads;
mod report;
mod sweeper;
mod tables;

pub use report::Report;

use crate::run::THREADS;
use std::thread;
use sweeper::Sweeper;

/// Goes through all groups.
pub fn run() -> Report {
    thread::scope(|scope| {
        let threads: Vec<_> = (0..THREADS as u64).map(|own| scope.spawn(move || part(own))).collect();
        let ended = threads.into_iter().map(|thread| thread.join().expect("a thread that sweeps ends"));
        ended.reduce(Report::merge).expect("there are threads")
    })
}

fn part(own: u64) -> Report {
    let mut sweeper = Sweeper::new(own, THREADS as u64);
    reads::sweep(&mut sweeper);
    tables::sweep(&mut sweeper);
    Report { groups: sweeper.groups }
}
