//! The library's C calls (include/yittomere.h), on slices.

use crate::vector_store::FiveWords;

extern "C" {
    fn yittomere_make(table: *mut u32, table_words: usize, servers: u32, places: u32, slots: u32) -> u32;
    fn yittomere_step(
        table: *mut u32,
        table_words: usize,
        kind: u32,
        a: u32,
        b: u32,
        c: u32,
        d: u32,
        answer: *mut u32,
        answer_words: usize,
    ) -> u32;
    fn yittomere_run(
        table: *mut u32,
        table_words: usize,
        steps: *const u32,
        steps_words: usize,
        answers: *mut u32,
        answers_words: usize,
    ) -> u32;
}

pub fn make([servers, places, slots]: [u32; 3], table: &mut [u32]) -> u32 {
    // Safety: the header asks of a buffer only that it is memory of the caller's, which a slice is.
    unsafe { yittomere_make(table.as_mut_ptr(), table.len(), servers, places, slots) }
}

pub fn step(table: &mut [u32], [kind, a, b, c, d]: FiveWords, answer: &mut [u32]) -> u32 {
    // Safety: as above; and two slices of which one can be written never overlap.
    unsafe { yittomere_step(table.as_mut_ptr(), table.len(), kind, a, b, c, d, answer.as_mut_ptr(), answer.len()) }
}

pub fn run(table: &mut [u32], steps: &[u32], answers: &mut [u32]) -> u32 {
    // Safety: as above.
    unsafe {
        yittomere_run(table.as_mut_ptr(), table.len(), steps.as_ptr(), steps.len(), answers.as_mut_ptr(), answers.len())
    }
}
