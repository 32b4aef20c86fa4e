//! Goes through the cases, group by group, and makes the calls that are one thread's.

use super::group::{Cases, Group};
use super::judging::Tables;
use super::must::Must;
use super::reading::Reads;
use crate::call::Call;
use crate::compare::Compared;

/// The groups so far. Threads go through the same cases, and each makes every so many-th call.
pub struct Sweeper {
    own: u64,
    threads: u64,
    next: u64,
    pub groups: Vec<Group>,
}

impl Sweeper {
    pub fn new(own: u64, threads: u64) -> Sweeper {
        Sweeper { own, threads, next: 0, groups: vec![] }
    }

    /// A group of reads.
    pub fn reads(&mut self, name: &str, must: Must, make: impl FnOnce(&mut Reads)) {
        let mut reads = Reads::new(self, Group::new(name, Cases::Reads, must));
        make(&mut reads);
        let group = reads.end();
        self.groups.push(group);
    }

    /// A group of tables, which states what the check of them meets.
    pub fn tables(&mut self, name: &str, must: Must, make: impl FnOnce(&mut Tables)) {
        self.judged(Group::new(name, Cases::Tables, must), make);
    }

    /// A group of tables and outputs, which states what printing meets.
    pub fn prints(&mut self, name: &str, must: Must, make: impl FnOnce(&mut Tables)) {
        self.judged(Group::new(name, Cases::Prints, must), make);
    }

    fn judged(&mut self, group: Group, make: impl FnOnce(&mut Tables)) {
        let mut tables = Tables::new(self, group);
        make(&mut tables);
        let group = tables.end();
        self.groups.push(group);
    }

    /// The number of the next case, if its call is this thread's.
    pub fn turn(&mut self) -> Option<u64> {
        let case = self.next;
        self.next += 1;
        (case % self.threads == self.own).then_some(case)
    }
}

/// What is chosen by turns changes from every fourth case to the next: neighbours are often one text in both spellings.
pub fn slowly(turn: u64) -> usize {
    (turn / 4) as usize
}

/// A call also differs if it does not return the number that its case states.
pub fn stated<C: Call>(number: Option<u32>, compared: Compared, call: &C) -> Compared {
    let odd = |number| number != compared.number && compared.difference.is_none();
    match number {
        Some(number) if odd(number) => {
            let difference = format!("{}, and the sweep states {number}; {}", compared.number, call.input());
            Compared { difference: Some(difference), ..compared }
        }
        _ => compared,
    }
}

#[cfg(test)]
mod tests {
    use super::*;
    use oracle::random::TableCase;

    const TEXTS: [(&str, u32); 5] = [
        ("[document [title A]]", 0),
        ("", 7),
        ("[document]", 9),
        ("[document [title \"\"]]", 4),
        ("[document [title A] [id x] [section [title B] [id x]]]", 16),
    ];

    /// One group, as one of so many threads makes it; each text states that number, or its own.
    fn group(own: u64, threads: u64, stated: Option<u32>) -> Group {
        let mut sweeper = Sweeper::new(own, threads);
        sweeper.reads("some", Must::meet(50, 20, &[0, 4, 7, 9, 16]).sound(10), |reads| {
            for (text, number) in TEXTS.repeat(10) {
                reads.expect(stated.unwrap_or(number), false, text.as_bytes());
            }
        });
        sweeper.groups.remove(0)
    }

    #[test]
    fn threads_make_each_call_once() {
        let whole = group(0, 1, None);
        assert_eq!(whole.tallies.named().map(|(_, tally)| tally.calls()), [50, 50, 0, 20]);
        assert_eq!(whole.differ(), 0);
        assert_eq!(group(0, 3, None).merge(group(1, 3, None)).merge(group(2, 3, None)), whole);
        let (mut all, mut part) = (String::new(), String::new());
        whole.missed(&mut all);
        group(0, 3, None).missed(&mut part);
        assert!(all.is_empty() && part.starts_with("sweep, some: "), "{all}{part}");
    }

    #[test]
    fn another_number_than_stated_differs() {
        let odd = group(0, 1, Some(9));
        assert_eq!(odd.differ(), 40);
        let mut lines = String::new();
        odd.differences(&mut lines);
        assert!(lines.starts_with("sweep, some, pair, case 0: 0, and the sweep states 9; nested"), "{lines}");
    }

    #[test]
    fn tables_state_numbers_and_nodes_too() {
        let mut sweeper = Sweeper::new(0, 1);
        sweeper.tables("none", Must::meet(4, 0, &[20]), |tables| {
            let empty = TableCase { nodes: vec![], node_count: 0, pool: vec![], pool_count: 0 };
            tables.expect(20, &empty);
            tables.expect(0, &empty);
            tables.expect_at(20, 0, &empty);
            tables.expect_at(20, 1, &empty);
        });
        let group = &sweeper.groups[0];
        assert_eq!((group.tallies.checks.differ(), group.tallies.prints.differ()), (2, 0));
    }
}
