//! The functions of libstructural.a, as `include/structural.h` declares them. All `unsafe` of this package is here.
//!
//! They are called past the package `structural`, so that each pointer and each length is chosen here.

use crate::check::Check;
use crate::print::Print;
use crate::read::Read;

type Reader = unsafe extern "C" fn(
    text: *const u8,
    text_length: usize,
    nodes: *mut u32,
    nodes_length: usize,
    places: *mut u32,
    places_length: usize,
    pool: *mut u8,
    pool_length: usize,
    answer: *mut u32,
    answer_length: usize,
) -> u32;

extern "C" {
    fn structural_read_nested(
        text: *const u8,
        text_length: usize,
        nodes: *mut u32,
        nodes_length: usize,
        places: *mut u32,
        places_length: usize,
        pool: *mut u8,
        pool_length: usize,
        answer: *mut u32,
        answer_length: usize,
    ) -> u32;

    fn structural_read_imperative(
        text: *const u8,
        text_length: usize,
        nodes: *mut u32,
        nodes_length: usize,
        places: *mut u32,
        places_length: usize,
        pool: *mut u8,
        pool_length: usize,
        answer: *mut u32,
        answer_length: usize,
    ) -> u32;

    fn structural_check(
        nodes: *const u32,
        nodes_length: usize,
        node_count: u32,
        pool: *const u8,
        pool_length: usize,
        pool_count: u32,
        answer: *mut u32,
        answer_length: usize,
    ) -> u32;

    fn structural_print(
        nodes: *const u32,
        nodes_length: usize,
        node_count: u32,
        pool: *const u8,
        pool_length: usize,
        pool_count: u32,
        out: *mut u8,
        out_length: usize,
        answer: *mut u32,
        answer_length: usize,
    ) -> u32;
}

/// Reads with what the call lends; the value returned.
pub fn read(call: &mut Read) -> u32 {
    let reader: Reader = if call.imperative { structural_read_imperative } else { structural_read_nested };
    // SAFETY: each pointer is into a buffer of its own that has the slice's elements there.
    unsafe {
        reader(
            call.text.pointer(),
            call.text.length(),
            call.nodes.pointer(),
            call.nodes.length(),
            call.places.pointer(),
            call.places.length(),
            call.pool.pointer(),
            call.pool.length(),
            call.answer.pointer(),
            call.answer.length(),
        )
    }
}

/// Checks with what the call lends; the value returned.
pub fn check(call: &mut Check) -> u32 {
    let table = &mut call.table;
    // SAFETY: each pointer is into a buffer of its own that has the slice's elements there.
    unsafe {
        structural_check(
            table.nodes.pointer(),
            table.nodes.length(),
            table.node_count,
            table.pool.pointer(),
            table.pool.length(),
            table.pool_count,
            call.answer.pointer(),
            call.answer.length(),
        )
    }
}

/// Prints with what the call lends; the value returned.
pub fn print(call: &mut Print) -> u32 {
    let table = &mut call.table;
    // SAFETY: each pointer is into a buffer of its own that has the slice's elements there.
    unsafe {
        structural_print(
            table.nodes.pointer(),
            table.nodes.length(),
            table.node_count,
            table.pool.pointer(),
            table.pool.length(),
            table.pool_count,
            call.out.pointer(),
            call.out.length(),
            call.answer.pointer(),
            call.answer.length(),
        )
    }
}
