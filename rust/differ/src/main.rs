//! Calls the functions of libstructural.a and holds each call against `oracle`, the rules written a second time: the value
//! returned, the answer's words, and all memory that was lent, with guards around every slice. A sweep goes through cases in
//! order ([`sweep`]); then come random ones ([`run`]).
#![deny(unsafe_code)]

#[allow(unsafe_code)]
mod abi;
mod call;
mod check;
mod compare;
mod lent;
mod pair;
mod print;
mod read;
mod run;
mod sweep;
mod table;
mod tallies;
mod tally;

use std::ffi::OsString;
use std::process::ExitCode;

const SEED: u64 = 1;
const CASES: u64 = 200_000;

/// The word for the sweep alone.
const SWEEP: &str = "sweep";

/// Exit status of a wrong call.
const WRONG_CALL: u8 = 2;

/// What is asked for.
#[derive(Debug, PartialEq, Eq)]
enum Work {
    All,
    Sweep,
    Random { seed: u64, cases: u64 },
}

fn main() -> ExitCode {
    let Some(work) = work(std::env::args_os().skip(1)) else {
        eprintln!("usage: differ [{SWEEP} | SEED [CASES]]");
        eprintln!("The sweep and random cases, by default {CASES} from seed {SEED} on; or one of the two alone. CASES is at least 1.");
        return ExitCode::from(WRONG_CALL);
    };
    // Both are run where both are asked for, also if the first fails.
    let fine = match work {
        Work::All => sweep() & random(SEED, CASES),
        Work::Sweep => sweep(),
        Work::Random { seed, cases } => random(seed, cases),
    };
    if fine {
        ExitCode::SUCCESS
    } else {
        ExitCode::FAILURE
    }
}

/// What the words of the call ask for, if it is something.
fn work(words: impl Iterator<Item = OsString>) -> Option<Work> {
    let words: Vec<OsString> = words.collect();
    if words == [SWEEP] {
        return Some(Work::Sweep);
    }
    let numbers: Option<Vec<u64>> = words.iter().map(|word| word.to_str()?.parse().ok()).collect();
    match numbers?[..] {
        [] => Some(Work::All),
        [seed] => Some(Work::Random { seed, cases: CASES }),
        [seed, cases] if cases > 0 => Some(Work::Random { seed, cases }),
        _ => None,
    }
}

/// Whether no call of the sweep differs, and all came up that had to.
fn sweep() -> bool {
    let report = sweep::run();
    let missed = report.missed();
    eprint!("{}{missed}", report.differences());
    print!("{report}");
    report.differ() == 0 && missed.is_empty()
}

/// Whether no random call differs, and all numbers came up. Few cases need not have all.
fn random(seed: u64, cases: u64) -> bool {
    let report = run::run(seed, cases);
    let idle = if cases < CASES { String::new() } else { report.idle() };
    eprint!("{}{idle}", report.differences());
    print!("{report}");
    report.differ() == 0 && idle.is_empty()
}

#[cfg(test)]
mod tests {
    use super::*;

    fn parsed(words: &[&str]) -> Option<Work> {
        work(words.iter().map(OsString::from))
    }

    #[test]
    fn words_of_a_call() {
        assert_eq!(parsed(&[]), Some(Work::All));
        assert_eq!(parsed(&["sweep"]), Some(Work::Sweep));
        assert_eq!(parsed(&["7"]), Some(Work::Random { seed: 7, cases: CASES }));
        assert_eq!(parsed(&["7", "30"]), Some(Work::Random { seed: 7, cases: 30 }));
        for words in [
            &["x"] as &[&str],
            &["-1"],
            &["7", "0"],
            &["7", "x"],
            &["7", "30", "1"],
            &[""],
            &["--help"],
            &["sweep", "7"],
            &["7", "sweep"],
        ] {
            assert_eq!(parsed(words), None, "{words:?}");
        }
    }
}
