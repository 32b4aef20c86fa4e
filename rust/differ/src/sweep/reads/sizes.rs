//! Widths and heights: every number of five digits, and digits around five.

use super::frame::{expect, framed, Frame};
use crate::sweep::must::Must;
use crate::sweep::sweeper::Sweeper;

const IMAGE: Frame = [
    "[document [title A] [section [title B] [paragraph [image [target u] [size @]]]]]",
    "[document [title A]] [section [title B]] [paragraph] [image [target u] [size @]]",
];

pub fn sweep(sweeper: &mut Sweeper) {
    widths(sweeper);
    heights(sweeper);
    digits(sweeper);
    zeros(sweeper);
}

/// All numbers from 0 to 99,999, without leading zeros.
fn widths(sweeper: &mut Sweeper) {
    let must = Must::meet(100_000, 65_536, &[0, 10]);
    sweeper.reads("widths", must, |reads| {
        for width in 0..100_000 {
            let number = if width > 65_535 { 10 } else { 0 };
            reads.expect(number, false, &framed(IMAGE, false, format!("{width} 1").as_bytes()));
        }
    });
}

/// All numbers of five digits, with leading zeros.
fn heights(sweeper: &mut Sweeper) {
    let must = Must::meet(100_000, 65_536, &[0, 10]);
    sweeper.reads("heights", must, |reads| {
        for height in 0..100_000 {
            let number = if height > 65_535 { 10 } else { 0 };
            reads.expect(number, true, &framed(IMAGE, true, format!("1 {height:05}").as_bytes()));
        }
    });
}

/// A digit from one to seven times: 66,666 and 99,999 are above 65,535, and six are too many digits.
fn digits(sweeper: &mut Sweeper) {
    let must = Must::meet(2 * 2 * 4 * 7, 2 * 2 * (5 + 5 + 4 + 4), &[0, 10]);
    sweeper.reads("numbers of digits", must, |reads| {
        for (digit, count) in
            ["0", "1", "6", "9"].into_iter().flat_map(|digit| (1..=7).map(move |count| (digit, count)))
        {
            let measure = digit.repeat(count);
            let number = if count > 5 || measure == "99999" || measure == "66666" { 10 } else { 0 };
            expect(reads, number, IMAGE, format!("{measure} 0").as_bytes());
            expect(reads, number, IMAGE, format!("65535 {measure}").as_bytes());
        }
    });
}

/// Numbers with leading zeros, of up to eight digits: 7 of them, from 1, 1, 2, 3, 4, 5 and 5 digits on.
fn zeros(sweeper: &mut Sweeper) {
    let (all, up_to_five) = (8 + 8 + 7 + 6 + 5 + 4 + 4, 5 + 5 + 4 + 3 + 2 + 1 + 1);
    let must = Must::meet(2 * 2 * all, 2 * 2 * up_to_five, &[0, 10]);
    sweeper.reads("leading zeros", must, |reads| {
        for measure in [0, 9, 10, 999, 1_000, 65_534, 65_535] {
            for digits in measure.to_string().len()..=8 {
                let number = if digits > 5 { 10 } else { 0 };
                expect(reads, number, IMAGE, format!("{measure:0digits$} 1").as_bytes());
                expect(reads, number, IMAGE, format!("1 {measure:0digits$}").as_bytes());
            }
        }
    });
}
