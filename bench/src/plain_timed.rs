//! The twin's work made so many times, as `timed` has it of the proved library.

use crate::plain::{
    BLANK_TERM, BLANK_TYPE, CAPACITY, PULSES, check_verdict, find_verdict, load_and_run,
    read_verdict, run_verdict, step_verdict,
};
use crate::proved::Verdict;
use crate::twin::calculus::*;
use crate::twin::checker::Accepted;
use crate::twin::controller::Controller;
use crate::twin::registers::{Entry, Tape};
use crate::twin::stepper::Answer;
use std::hint::black_box;

const BUDGET: u64 = 1000;

/// One for the call, and the numbers of its verdict.
fn total(verdict: Verdict) -> u64 {
    [
        u64::from(verdict.number),
        u64::from(verdict.rule),
        verdict.place,
        verdict.steps,
        verdict.type_cells,
        verdict.term_cells,
    ]
    .iter()
    .fold(1, |sum: u64, number| sum.saturating_add(*number))
}

fn sum_of_verdicts(times: u64, mut call: impl FnMut() -> Verdict) -> u64 {
    (0..times).fold(0, |sum: u64, _| sum.saturating_add(total(call())))
}

#[inline(never)]
pub fn read(text: &[u8], times: u64) -> u64 {
    sum_of_verdicts(times, || {
        let mut types = [BLANK_TYPE; MOST_TYPE_CELLS];
        let mut terms = [BLANK_TERM; MOST_TERM_CELLS];
        read_verdict(black_box(text), &mut types, &mut terms)
    })
}

#[inline(never)]
pub fn check(types: &[TypeCell], terms: &[TermCell], times: u64) -> u64 {
    sum_of_verdicts(times, || check_verdict(black_box(types), black_box(terms)))
}

#[inline(never)]
pub fn find(cells: &[TermCell], times: u64) -> u64 {
    sum_of_verdicts(times, || find_verdict(black_box(cells)))
}

#[inline(never)]
pub fn next(cells: &[TermCell], times: u64) -> u64 {
    let mut work = [BLANK_TERM; MOST_RUNNING_CELLS];
    sum_of_verdicts(times, || {
        step_verdict(black_box(cells), Answer::Nothing, &mut work)
    })
}

#[inline(never)]
pub fn run(
    types: &[TypeCell],
    terms: &[TermCell],
    outcomes: &[u8],
    budget: u64,
    times: u64,
) -> u64 {
    let checked = check_verdict(types, terms);
    if checked.number > 0 {
        return sum_of_verdicts(times, || checked);
    }
    let program = Accepted::new(types, terms);
    sum_of_verdicts(times, || {
        let mut work = [BLANK_TERM; MOST_RUNNING_CELLS];
        let mut journal = [Entry::Empty; PULSES];
        let mut controller = Controller::new(Tape::new(CAPACITY, outcomes, &mut journal));
        load_and_run(&mut controller, black_box(&program), budget, &mut work)
    })
}

fn shot_verdict(text: &[u8], outcomes: &[u8]) -> Verdict {
    let mut types = [BLANK_TYPE; MOST_TYPE_CELLS];
    let mut terms = [BLANK_TERM; MOST_TERM_CELLS];
    let verdict = read_verdict(text, &mut types, &mut terms);
    if verdict.number > 0 {
        return verdict;
    }
    let types = &types[..verdict.type_cells as usize];
    let terms = &terms[..verdict.term_cells as usize];
    run_verdict(types, terms, outcomes, BUDGET, &mut [], &mut [], &mut [])
}

#[inline(never)]
pub fn shot(text: &[u8], outcomes: &[u8], times: u64) -> u64 {
    sum_of_verdicts(times, || shot_verdict(black_box(text), outcomes))
}
