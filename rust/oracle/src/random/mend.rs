//! Ids and targets of a grown document: made unique and resolved, but for the faults wanted.

use std::collections::HashSet;

use super::grow::Wanted;
use super::rng::Random;
use super::strings::{nearly, text};
use super::tree::Element;
use crate::bytes::of_id;
use crate::Kind;

pub fn mend(random: &mut Random, wanted: Wanted, document: &mut Element) {
    mend_ids(random, wanted.repeated_ids, document);
    let (blocks, footnotes) = ids(document);
    let no_footnotes: Vec<String> = blocks.iter().filter(|id| !footnotes.contains(*id)).cloned().collect();
    document.visit_mut(&mut |element| match element.kind {
        Kind::Link => mend_target(random, wanted.loose_links, element, &blocks, &[]),
        Kind::FootnoteRef => mend_target(random, wanted.loose_references, element, &footnotes, &no_footnotes),
        _ => {}
    });
}

/// 16: unique ids, or now and then one that is on an earlier block.
fn mend_ids(random: &mut Random, repeated: bool, document: &mut Element) {
    let mut used = HashSet::new();
    let mut earlier: Vec<String> = vec![];
    document.visit_mut(&mut |element| {
        if !element.kind.is_block() || element.name.is_empty() {
            return;
        }
        if repeated && !earlier.is_empty() && random.chance(25) {
            element.name = random.choose(&earlier).clone();
            return;
        }
        while !used.insert(element.name.clone()) {
            element.name.push_str("-2");
        }
        earlier.push(element.name.clone());
    });
}

fn ids(document: &Element) -> (Vec<String>, Vec<String>) {
    let (mut blocks, mut footnotes) = (vec![], vec![]);
    document.visit(&mut |element| {
        if element.kind.is_block() && !element.name.is_empty() {
            blocks.push(element.name.clone());
        }
        if element.kind == Kind::Footnote {
            footnotes.push(element.name.clone());
        }
    });
    (blocks, footnotes)
}

/// 17 and 18: a target out of `right`, or now and then one that is not; without any, the element becomes a text.
fn mend_target(random: &mut Random, loose: bool, element: &mut Element, right: &[String], wrong: &[String]) {
    if loose && random.chance(50) {
        element.name = match wrong.is_empty() || random.chance(50) {
            true => wrong_target(random, &element.name, right),
            false => random.choose(wrong).clone(),
        };
    } else if right.is_empty() {
        *element = Element::of_text(text(random));
    } else {
        element.name = random.choose(right).clone();
    }
}

/// A target that is nearly one of `right`, or the name as it was grown.
fn wrong_target(random: &mut Random, name: &str, right: &[String]) -> String {
    if right.is_empty() {
        return name.into();
    }
    let base = random.choose(right);
    let near = nearly(random, base);
    match near.bytes().all(of_id) {
        true => near,
        false => name.into(),
    }
}
