//! One call in a process of its own, for an instruction counter to watch.

use crate::case::{Case, Side};
use crate::work::Work;

/// The function inside which instructions are counted.
pub const MEASURED: &str = "bench_measured";

/// Prepares the memory, then makes the one call that is counted.
pub fn once(case: Case, side: Side) -> Result<(), String> {
    let mut work = Work::new(case, side)?;
    let number = bench_measured(&mut work, side == Side::Oracle);
    println!("{} {}: answer {number}, {} bytes", case.words().join(" "), side.name(), work.bytes());
    Ok(())
}

/// Not inlined and with a plain name, so that the counter finds it; it holds exactly one call.
#[no_mangle]
#[inline(never)]
extern "C" fn bench_measured(work: &mut Work, oracle: bool) -> u32 {
    work.run(if oracle { Side::Oracle } else { Side::Archive })
}
