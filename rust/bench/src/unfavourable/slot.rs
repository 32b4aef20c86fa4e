//! The slot of an id in the check's private index, as `crates/validate/src/index.rt` has it, and ids that share one.
//!
//! It is written here a second time, since no call answers it. Where the index changes, so does this, or the ids are
//! only ordinary ones.

const START: usize = 5_381;
const MOST: usize = 1_048_576;
const SLOTS: usize = 4_096;

/// The slot that ids are searched for; any other would do.
const SHARED: usize = 0;

/// The characters of an id.
const CHARACTERS: &[u8; 65] = b"abcdefghijklmnopqrstuvwxyzABCDEFGHIJKLMNOPQRSTUVWXYZ0123456789_-.";

/// Characters of an id that are searched for: fewer would not give the ids of a whole text.
const SEARCHED: usize = 4;

fn step(hash: usize, byte: u8) -> usize {
    (hash * 33 + usize::from(byte)) % MOST
}

fn hash(id: &str) -> usize {
    id.bytes().fold(START, step)
}

/// The slot of an id by its hash.
fn slot(hash: usize) -> usize {
    hash % SLOTS
}

/// At most `count` ids that begin so and share [`SHARED`].
pub fn sharing(prefix: &str, count: usize) -> Vec<String> {
    let mut found = Vec::new();
    search(&mut prefix.to_string(), hash(prefix), SEARCHED, count, &mut found);
    found
}

/// Goes through all ids with `left` more characters; each step is taken once for all that begin alike.
fn search(id: &mut String, hash: usize, left: usize, count: usize, found: &mut Vec<String>) {
    if found.len() == count {
        return;
    }
    if left == 0 && slot(hash) == SHARED {
        found.push(id.clone());
    }
    if left == 0 {
        return;
    }
    for &byte in CHARACTERS {
        id.push(char::from(byte));
        search(id, step(hash, byte), left - 1, count, found);
        id.pop();
    }
}

/// Ids that begin so and differ in two characters.
pub fn differing(prefix: &str) -> impl Iterator<Item = String> + '_ {
    let pairs = CHARACTERS.iter().flat_map(|&one| CHARACTERS.iter().map(move |&two| [one, two].map(char::from)));
    pairs.map(move |[one, two]| format!("{prefix}{one}{two}"))
}

#[cfg(test)]
mod tests {
    use super::*;
    use std::collections::BTreeSet;

    #[test]
    fn ids_that_are_found_share_a_slot() {
        for (prefix, count) in [("", 3_500), ("aaaaaaaa", 1_000)] {
            let ids = sharing(prefix, count);
            assert_eq!(ids.iter().collect::<BTreeSet<_>>().len(), count);
            assert!(ids.iter().all(|id| id.starts_with(prefix) && slot(hash(id)) == SHARED));
        }
    }

    /// By hand: (5381 * 33 + 97) % 1048576 = 177670, and 177670 % 4096 = 1542.
    #[test]
    fn slot_of_an_id() {
        assert_eq!(slot(hash("a")), 1_542);
    }

    #[test]
    fn other_ids_are_spread() {
        let slots: BTreeSet<usize> = differing("a").map(|id| slot(hash(&id))).collect();
        assert!(slots.len() > 1_000, "{}", slots.len());
    }
}
