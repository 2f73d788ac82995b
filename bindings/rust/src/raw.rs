//! The C interface as it is, for callers that hold raw lists. `include/juzvanec.h` says what each
//! function asks of its pointers, what it writes and which refusals it gives. Nothing here looks at the
//! number of the interface: compare [`juzvanec_interface`] with [`crate::INTERFACE`] before any call.

#![allow(missing_docs)]

use crate::{Board, TEXT_BYTES};

extern "C" {
    pub fn juzvanec_interface() -> u32;

    pub fn juzvanec_cache_colours(bytes: u64, ways: u64, colours: *mut u32, row: *mut u32) -> u32;

    pub fn juzvanec_layout(
        colours: u32,
        set: u32,
        index: u32,
        page: *mut u32,
        row: *mut u32,
    ) -> u32;

    pub fn juzvanec_bleach(
        colours: u32,
        set: u32,
        page: u32,
        index: *mut u32,
        row: *mut u32,
    ) -> u32;

    pub fn juzvanec_look(
        board: *const Board,
        table: *const u16,
        table_words: usize,
        domain: u32,
        page: u32,
        mapped: *mut u32,
        frame: *mut u32,
        row: *mut u32,
    ) -> u32;

    pub fn juzvanec_fault(
        board: *const Board,
        table: *mut u16,
        table_words: usize,
        domain: u32,
        page: u32,
        is_new: *mut u32,
        frame: *mut u32,
        row: *mut u32,
    ) -> u32;

    pub fn juzvanec_release(
        board: *const Board,
        table: *mut u16,
        table_words: usize,
        domain: u32,
        page: u32,
        frame: *mut u32,
        row: *mut u32,
    ) -> u32;

    pub fn juzvanec_colours(
        board: *const Board,
        table: *const u16,
        table_words: usize,
        domain: u32,
        set: *mut u32,
        quota: *mut u32,
        row: *mut u32,
    ) -> u32;

    pub fn juzvanec_set_quota(
        board: *mut Board,
        table: *const u16,
        table_words: usize,
        domain: u32,
        quota: u32,
        answer: *mut u32,
        row: *mut u32,
    ) -> u32;

    pub fn juzvanec_recolour(
        board: *mut Board,
        table: *mut u16,
        table_words: usize,
        domain: u32,
        set: u32,
        moves: *mut u16,
        move_words: usize,
        count: *mut u32,
        row: *mut u32,
    ) -> u32;

    pub fn juzvanec_take_back(
        board: *mut Board,
        table: *mut u16,
        table_words: usize,
        domain: u32,
        set: u32,
        moves: *const u16,
        move_words: usize,
        count: *mut u32,
        row: *mut u32,
    ) -> u32;

    pub fn juzvanec_part(
        tasks: *const u32,
        task_words: usize,
        vcpu: u32,
        start: *mut usize,
        length: *mut usize,
    );

    pub fn juzvanec_admit_plan(
        board: *const Board,
        reload: u32,
        vcpus: *const u32,
        vcpu_words: usize,
        tasks: *const u32,
        task_words: usize,
        times: *mut u32,
        times_words: usize,
        rounds: *mut u32,
        rounds_words: usize,
        row: *mut u32,
    ) -> u32;

    pub fn juzvanec_admit(
        input: *const u8,
        input_bytes: usize,
        text: *mut [u8; TEXT_BYTES],
        length: *mut u32,
        words: *mut u32,
        row: *mut u32,
    ) -> u32;
}
