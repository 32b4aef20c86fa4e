//! Every byte at every place of a pool.

use super::table_of;
use crate::sweep::manual;
use crate::sweep::must::Must;
use crate::sweep::sweeper::Sweeper;
use oracle::random::TableCase;

pub fn sweep(sweeper: &mut Sweeper) {
    // Strings of two bytes each. By sort, an id has 65 of them, a type 63, a target 94 and a text 128.
    let sorts = table_of(
        "[document [title gh] [id ab] [type cd] [section [title] [paragraph [image [target ef]] [link-ext [target ij]]]]]",
    );
    everywhere(sweeper, "bytes of a pool", &sorts, Must::meet(10 * 256, 2 * (65 + 63 + 94 + 94 + 128), &[0, 20]));
    // U+00E9, U+20AC, U+1F600. C2 to DF for C3, 80 to BF for A9; E1 to EF for E2, 80 to BF for each of the others;
    // F0 to F3 for F0, 90 to BF for 9F, 80 to BF for each of the others.
    let long = table_of("[document [title \u{e9}\u{20ac}\u{1f600}]]");
    let well = 30 + 64 + 15 + 64 + 64 + 4 + 48 + 64 + 64;
    everywhere(sweeper, "bytes of long characters", &long, Must::meet(9 * 256, well, &[0, 20]));
    let manual = table_of(manual::NESTED);
    let places = manual.pool.len() as u64;
    let must = Must::meet_some(256 * places, 40 * places, &[0, 16, 17, 18, 20]);
    everywhere(sweeper, "bytes of a manual's pool", &manual, must);
}

fn everywhere(sweeper: &mut Sweeper, name: &str, table: &TableCase, must: Must) {
    sweeper.tables(name, must, |tables| {
        for (place, byte) in (0..table.pool.len()).flat_map(|place| (0..=255).map(move |byte| (place, byte))) {
            let mut changed = table.clone();
            changed.pool[place] = byte;
            tables.table(&changed);
        }
    });
}
