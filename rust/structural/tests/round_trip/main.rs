//! Tables that were read are printed; answers and memory are those of document 01. The expected values were worked out
//! by hand.
//!
//! | module | cases |
//! |---|---|
//! | [`ways`], with [`cases`], [`forms`], [`escapes`], [`many`] | 24, 24, 96 and 72, of 24 documents |
//! | [`damage`] | 532 with a word changed, 19 with a byte of the pool, 14 with a count |
//! | [`edited`] | 23 |
//! | [`faults`] | 10 |
//! | [`limits`] | 10 |
//!
//! Those are 824 cases.

mod cases; // a text and its canonical spelling
#[path = "../common/mod.rs"]
mod common;
mod damage; // one document with one word, byte or count changed
mod edited; // documents that are other documents with one word changed
mod escapes; // every escape
mod faults; // drafts that are not well-formed
mod forms; // every form
mod limits; // the limits of what is printed
mod many; // documents that are built
mod memory; // marked memory
mod ways; // what is tried with each document
