//! Instructions a byte of the archive by the size of the manual: where they rise with it, the work is not linear in the
//! text.

use super::{call, figure, per_byte};
use crate::case::{Action, Case, Side, SIZES};
use crate::sort::Sort;
use crate::target::target;
use structural::Spelling;

pub const HEAD: &str = "| manual | call | 8 KiB i/B | 16 KiB i/B | 32 KiB i/B | 64 KiB i/B | target i/B |
|---|---|--:|--:|--:|--:|--:|";

/// Figures of one row, by size; none where instructions cannot be counted.
type Figures = [Option<f64>; SIZES.len()];

/// What an ordinary text takes: the figures of all rows.
pub struct Ordinary {
    rows: Vec<(Action, Figures)>,
}

impl Ordinary {
    /// The highest figure of a call among the manuals of the size that is nearest to so many bytes.
    pub fn highest(&self, action: Action, bytes: usize) -> Option<f64> {
        let nearest = (0..SIZES.len()).min_by_key(|&index| bytes.abs_diff(SIZES[index] * 1024))?;
        let figures = self.rows.iter().filter(|row| row.0 == action).filter_map(|row| row.1[nearest]);
        figures.max_by(f64::total_cmp)
    }
}

pub fn table() -> Result<Ordinary, String> {
    println!("{HEAD}");
    let mut rows = Vec::new();
    for sort in Sort::ALL {
        for action in Action::ALL {
            rows.push((action, row(sort, action)?));
        }
    }
    Ok(Ordinary { rows })
}

fn row(sort: Sort, action: Action) -> Result<Figures, String> {
    let case = |kib| Case::manual(sort, Spelling::Nested, kib, action);
    let mut figures = [None; SIZES.len()];
    for (index, kib) in SIZES.into_iter().enumerate() {
        figures[index] = per_byte(case(kib), Side::Archive)?;
    }
    let target = figure(target(sort, Spelling::Nested, action));
    println!("| {} | {} | {} | {target} |", sort.name(), call(case(64)), figures.map(figure).join(" | "));
    Ok(figures)
}

#[cfg(test)]
mod tests {
    use super::*;

    #[test]
    fn the_highest_of_the_nearest_size() {
        let rows = vec![
            (Action::Read, [Some(4.0), Some(3.0), Some(2.0), Some(1.0)]),
            (Action::Read, [Some(1.0), Some(2.0), Some(3.0), Some(4.0)]),
            (Action::Print, [Some(9.0), None, None, None]),
        ];
        let ordinary = Ordinary { rows };
        for (bytes, highest) in [(100, 4.0), (12_000, 4.0), (13_000, 3.0), (45_000, 3.0), (65_536, 4.0)] {
            assert_eq!(ordinary.highest(Action::Read, bytes), Some(highest));
        }
        assert_eq!(ordinary.highest(Action::Print, 65_536), None);
    }
}
