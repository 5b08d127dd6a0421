//! The proved library, as it is linked: tables of plain numbers go in and come out.

/// A term cell, its op as the number of its letter.
#[repr(C)]
#[derive(Clone, Copy, PartialEq, Eq, Debug)]
pub struct Node {
    pub letter: u32,
    pub argument: u16,
    pub claim: u16,
}

/// What a pulse did: 0 nothing, 1 a preparation, 2 a gate, 3 a read; then the bit, the gate's number or the outcome; then handles.
#[repr(C)]
#[derive(Clone, Copy, PartialEq, Eq, Debug)]
pub struct Pulse {
    pub kind: u8,
    pub what: u8,
    pub on: [u8; 3],
}

/// The answer of a call: what each number is for which call, `ql.h` tells.
#[repr(C)]
#[derive(Clone, Copy, PartialEq, Eq, Debug, Default)]
pub struct Verdict {
    pub number: u16,
    pub rule: u16,
    pub place: u64,
    pub steps: u64,
    pub type_cells: u64,
    pub term_cells: u64,
}

/// No letter at all.
pub const BLANK: Node = Node {
    letter: 0,
    argument: 0,
    claim: 0,
};

/// Nothing done.
pub const IDLE: Pulse = Pulse {
    kind: 0,
    what: 0,
    on: [0; 3],
};

/// The register's answer to a rule that asks nothing of it, and the two outcomes; a number below these is a handle.
pub const NOTHING: u64 = 256;
pub const ZERO: u64 = 257;
pub const ONE: u64 = 258;

/// The rules for which the register prepares and reads.
pub const PREPARE: u16 = 5;
pub const READ: u16 = 6;

// A slice goes over as a pointer and a length.
#[link(name = "exported", kind = "static")]
unsafe extern "C" {
    fn ql_read(
        text: *const u8,
        text_len: usize,
        letters: *mut u32,
        letters_len: usize,
        nodes: *mut Node,
        nodes_len: usize,
    ) -> Verdict;
    fn ql_check(
        letters: *const u32,
        letters_len: usize,
        nodes: *const Node,
        nodes_len: usize,
    ) -> Verdict;
    fn ql_find(nodes: *const Node, nodes_len: usize) -> Verdict;
    fn ql_next(
        nodes: *const Node,
        nodes_len: usize,
        answer: u64,
        to: *mut Node,
        to_len: usize,
    ) -> Verdict;
    fn ql_run(
        letters: *const u32,
        letters_len: usize,
        nodes: *const Node,
        nodes_len: usize,
        outcomes: *const u8,
        outcomes_len: usize,
        budget: u64,
        value: *mut Node,
        value_len: usize,
        kinds: *mut u32,
        kinds_len: usize,
        pulses: *mut Pulse,
        pulses_len: usize,
    ) -> Verdict;
}

pub fn read(text: &[u8], letters: &mut [u32], nodes: &mut [Node]) -> Verdict {
    unsafe {
        ql_read(
            text.as_ptr(),
            text.len(),
            letters.as_mut_ptr(),
            letters.len(),
            nodes.as_mut_ptr(),
            nodes.len(),
        )
    }
}

pub fn check(letters: &[u32], nodes: &[Node]) -> Verdict {
    unsafe { ql_check(letters.as_ptr(), letters.len(), nodes.as_ptr(), nodes.len()) }
}

pub fn find(nodes: &[Node]) -> Verdict {
    unsafe { ql_find(nodes.as_ptr(), nodes.len()) }
}

pub fn next(nodes: &[Node], answer: u64, to: &mut [Node]) -> Verdict {
    unsafe {
        ql_next(
            nodes.as_ptr(),
            nodes.len(),
            answer,
            to.as_mut_ptr(),
            to.len(),
        )
    }
}

pub fn run(
    letters: &[u32],
    nodes: &[Node],
    outcomes: &[u8],
    budget: u64,
    value: &mut [Node],
    kinds: &mut [u32],
    pulses: &mut [Pulse],
) -> Verdict {
    unsafe {
        ql_run(
            letters.as_ptr(),
            letters.len(),
            nodes.as_ptr(),
            nodes.len(),
            outcomes.as_ptr(),
            outcomes.len(),
            budget,
            value.as_mut_ptr(),
            value.len(),
            kinds.as_mut_ptr(),
            kinds.len(),
            pulses.as_mut_ptr(),
            pulses.len(),
        )
    }
}
