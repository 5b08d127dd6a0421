//! The same work made so many times within a call: each answers the sum of the verdicts.

use crate::proved::Node;

// A slice goes over as a pointer and a length.
#[link(name = "timed", kind = "static")]
unsafe extern "C" {
    fn timed_read(text: *const u8, text_len: usize, times: u64) -> u64;
    fn timed_check(
        letters: *const u32,
        letters_len: usize,
        nodes: *const Node,
        nodes_len: usize,
        times: u64,
    ) -> u64;
    fn timed_find(nodes: *const Node, nodes_len: usize, times: u64) -> u64;
    fn timed_next(nodes: *const Node, nodes_len: usize, times: u64) -> u64;
    fn timed_run(
        letters: *const u32,
        letters_len: usize,
        nodes: *const Node,
        nodes_len: usize,
        outcomes: *const u8,
        outcomes_len: usize,
        budget: u64,
        times: u64,
    ) -> u64;
    fn timed_shot(
        text: *const u8,
        text_len: usize,
        outcomes: *const u8,
        outcomes_len: usize,
        times: u64,
    ) -> u64;
}

pub fn read(text: &[u8], times: u64) -> u64 {
    unsafe { timed_read(text.as_ptr(), text.len(), times) }
}

pub fn check(letters: &[u32], nodes: &[Node], times: u64) -> u64 {
    unsafe {
        timed_check(
            letters.as_ptr(),
            letters.len(),
            nodes.as_ptr(),
            nodes.len(),
            times,
        )
    }
}

pub fn find(nodes: &[Node], times: u64) -> u64 {
    unsafe { timed_find(nodes.as_ptr(), nodes.len(), times) }
}

pub fn next(nodes: &[Node], times: u64) -> u64 {
    unsafe { timed_next(nodes.as_ptr(), nodes.len(), times) }
}

pub fn run(letters: &[u32], nodes: &[Node], outcomes: &[u8], budget: u64, times: u64) -> u64 {
    unsafe {
        timed_run(
            letters.as_ptr(),
            letters.len(),
            nodes.as_ptr(),
            nodes.len(),
            outcomes.as_ptr(),
            outcomes.len(),
            budget,
            times,
        )
    }
}

pub fn shot(text: &[u8], outcomes: &[u8], times: u64) -> u64 {
    unsafe {
        timed_shot(
            text.as_ptr(),
            text.len(),
            outcomes.as_ptr(),
            outcomes.len(),
            times,
        )
    }
}
