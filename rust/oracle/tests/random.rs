//! Random documents and cases. ORACLE_CASES says how many; the default takes seconds.

mod common;

use std::collections::HashMap;

use common::plain::plain_check;
use common::{cases, printed, read_alone, read_amply};
use oracle::names::{MOST_BYTES, RECORD_LENGTH};
use oracle::random::{grow, render, spell, tally, Counts, PrintCase, Random, ReadCase, TableCase, Wanted};
use oracle::{check, Checked};

fn wanted(random: &mut Random) -> Wanted {
    Wanted {
        nodes: random.pick(&[3, 20, 60, 200]),
        bad_rows: random.chance(20),
        repeated_ids: random.chance(20),
        loose_links: random.chance(20),
        loose_references: random.chance(20),
    }
}

#[test]
fn every_spelling_reads_as_the_document() {
    let mut seen = HashMap::new();
    for seed in 0..cases() {
        let random = &mut Random::new(seed);
        let wanted = wanted(random);
        let document = grow(random, wanted);
        let imperative = random.chance(50);
        let run = spell(random, &document, imperative);
        let (text, places) = render(random, &run);
        let (read, pair) = (read_alone(&text, imperative), read_amply(&text, imperative));
        let Checked { number, node } = plain_check(&document);
        let place = if number == 0 { 0 } else { places[node as usize] };
        assert_eq!((read.answer.number, read.answer.place), (0, 0), "seed {seed}");
        assert_eq!((pair.answer.number, pair.answer.place), (number, place), "seed {seed}");
        let checked = check(&read.nodes, read.answer.nodes, &read.pool, read.answer.pool);
        assert_eq!(checked, Checked { number, node }, "seed {seed}");
        let table = document.table();
        assert_eq!((&read.nodes, &read.pool, &read.places), (&table.nodes, &table.pool, &places), "seed {seed}");
        assert_eq!((&read.nodes, &read.pool, &read.places), (&pair.nodes, &pair.pool, &pair.places), "seed {seed}");
        document.visit(&mut |element| *seen.entry(element.kind.number()).or_insert(0) += 1);
    }
    assert_eq!(seen.len(), 25, "all kinds come up: {seen:?}");
}

#[test]
fn documents_without_wanted_faults_are_well_formed() {
    for seed in 0..cases() {
        let random = &mut Random::new(seed);
        let wanted = Wanted { nodes: random.pick(&[3, 20, 60, 200]), ..Wanted::default() };
        assert_eq!(plain_check(&grow(random, wanted)).number, 0, "seed {seed}");
    }
}

/// With faults 15 to 18 or without.
#[test]
fn documents_print_and_read_back() {
    for seed in 0..cases() {
        let random = &mut Random::new(seed);
        let wanted = wanted(random);
        let case = PrintCase { table: TableCase::of(grow(random, wanted).table()), out: 1 << 20 };
        let outcome = case.run();
        assert_eq!(outcome.printed.number, 0, "seed {seed}");
        let text = &outcome.out[..outcome.printed.length as usize];
        let again = read_alone(text, false);
        let TableCase { nodes, pool, .. } = &case.table;
        assert_eq!((again.answer.number, &again.nodes, &again.pool), (0, nodes, pool), "seed {seed}");
        assert_eq!(printed(&again), text, "seed {seed}");
    }
}

#[test]
fn refusals_keep_lent_memory_and_fills_keep_the_rest() {
    for seed in 0..cases() {
        let case = ReadCase::new(seed);
        let after = case.run();
        let before = case.run_with(|_, _, _, _, _| after.answer);
        let filled = after.answer.number == 0;
        let (nodes, pool) = match filled {
            true => (after.answer.nodes as usize, after.answer.pool as usize),
            false => (0, 0),
        };
        assert_eq!(after.nodes[nodes * RECORD_LENGTH..], before.nodes[nodes * RECORD_LENGTH..], "seed {seed}");
        assert_eq!(after.places[nodes..], before.places[nodes..], "seed {seed}");
        assert_eq!(after.pool[pool..], before.pool[pool..], "seed {seed}");
        assert!(filled || after == before, "seed {seed}");
    }
}

/// A table is printed just if it is the table of its own spelling.
#[test]
fn printed_tables_are_those_of_their_spelling() {
    for seed in 0..cases() {
        let mut case = PrintCase::new(seed);
        let before = case.run();
        let kept = if before.printed.number == 0 { before.printed.length as usize } else { 0 };
        let untouched = case.run_with(|_, _, _, _, _| before.printed);
        assert_eq!(before.out[kept..], untouched.out[kept..], "seed {seed}");
        case.out = 1 << 20;
        let outcome = case.run();
        assert_ne!(outcome.printed.number, 21, "seed {seed}");
        let text = &outcome.out[..outcome.printed.length as usize];
        if outcome.printed.number == 0 && text.len() <= MOST_BYTES {
            let (again, table) = (read_alone(text, false), &case.table);
            assert_eq!((again.answer.number, again.answer.nodes), (0, table.node_count), "seed {seed}");
            assert_eq!(again.nodes, table.nodes[..table.node_count as usize * RECORD_LENGTH], "seed {seed}");
            assert_eq!(again.pool, table.pool[..table.pool_count as usize], "seed {seed}");
        }
    }
}

/// 19 does not come up: 59 levels under five blocks are 64. Reading alone does not answer 15 to 18.
#[test]
fn every_number_comes_up_and_no_other() {
    let count = cases().max(2_000);
    let tally = tally(1, count);
    println!("{count} reads, checks and prints: {tally:?}");
    let numbers = |counts: &Counts| counts.keys().copied().collect::<Vec<u32>>();
    assert_eq!(numbers(&tally.read), (0..=14).collect::<Vec<u32>>());
    assert_eq!(numbers(&tally.paired), (0..=18).collect::<Vec<u32>>());
    assert_eq!(numbers(&tally.checked), [0, 15, 16, 17, 18, 20]);
    assert_eq!(numbers(&tally.printed), [0, 20, 21]);
}
