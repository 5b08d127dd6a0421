//! The twin behind the same calls as the proved library.

use crate::proved::{NOTHING, Node, ONE, Pulse, Verdict, ZERO};
use crate::twin::calculus::*;
use crate::twin::checker::{Accepted, check as check_tables};
use crate::twin::controller::{Controller, Refusal, Stop};
use crate::twin::reader::read as read_text;
use crate::twin::registers::{Entry, Tape};
use crate::twin::stepper::{Answer, Rule, find as find_rule, next as next_term};

pub const CAPACITY: usize = 8;
pub const PULSES: usize = 64;
pub const BLANK_TERM: TermCell = TermCell {
    op: '\0',
    argument: 0,
    claim: 0,
};
pub const BLANK_TYPE: TypeCell = TypeCell { kind: '\0' };

fn accepted() -> Verdict {
    Verdict::default()
}

fn refused(number: u16, place: u64) -> Verdict {
    Verdict {
        number,
        place,
        ..accepted()
    }
}

pub fn types_of(letters: &[u32]) -> Vec<TypeCell> {
    letters
        .iter()
        .map(|letter| TypeCell {
            kind: char::from_u32(*letter).unwrap_or('\0'),
        })
        .collect()
}

pub fn terms_of(nodes: &[Node]) -> Vec<TermCell> {
    nodes
        .iter()
        .map(|node| TermCell {
            op: char::from_u32(node.letter).unwrap_or('\0'),
            argument: node.argument,
            claim: node.claim,
        })
        .collect()
}

fn give_types(table: &[TypeCell], letters: &mut [u32]) {
    for (letter, cell) in letters.iter_mut().zip(table) {
        *letter = cell.kind as u32;
    }
}

fn give_terms(table: &[TermCell], nodes: &mut [Node]) {
    for (node, cell) in nodes.iter_mut().zip(table) {
        *node = Node {
            letter: cell.op as u32,
            argument: cell.argument,
            claim: cell.claim,
        };
    }
}

fn pulse_of(entry: Entry) -> Pulse {
    let (kind, what, on) = match entry {
        Entry::Empty => (0, 0, [0; 3]),
        Entry::Prepare { handle, bit } => (1, bit as u8, [handle, 0, 0]),
        Entry::Gate { gate, on } => (2, gate.number() as u8, on),
        Entry::Read { handle, outcome } => (3, outcome as u8, [handle, 0, 0]),
    };
    Pulse { kind, what, on }
}

pub fn read(text: &[u8], letters: &mut [u32], nodes: &mut [Node]) -> Verdict {
    let mut types = [BLANK_TYPE; MOST_TYPE_CELLS];
    let mut terms = [BLANK_TERM; MOST_TERM_CELLS];
    let verdict = read_verdict(text, &mut types, &mut terms);
    give_types(&types, letters);
    give_terms(&terms, nodes);
    verdict
}

pub fn read_verdict(text: &[u8], types: &mut [TypeCell], terms: &mut [TermCell]) -> Verdict {
    match read_text(text, types, terms) {
        Ok((kinds, ops)) => Verdict {
            type_cells: kinds as u64,
            term_cells: ops as u64,
            ..accepted()
        },
        Err(fault) => refused(fault.number(), fault.line as u64),
    }
}

pub fn check(letters: &[u32], nodes: &[Node]) -> Verdict {
    check_verdict(&types_of(letters), &terms_of(nodes))
}

pub fn check_verdict(types: &[TypeCell], terms: &[TermCell]) -> Verdict {
    match check_tables(types, terms) {
        Ok(()) => accepted(),
        Err(fault) => refused(fault.number(), fault.cell() as u64),
    }
}

fn rule_number(rule: Rule) -> u16 {
    match rule {
        Rule::Function => 1,
        Rule::Pair => 2,
        Rule::Then => 3,
        Rule::Else => 4,
        Rule::Prepare => 5,
        Rule::Read => 6,
        Rule::Gates => 7,
    }
}

fn answer_of(number: u64) -> Answer {
    match number {
        ZERO => Answer::Outcome(false),
        ONE => Answer::Outcome(true),
        _ if number < NOTHING => Answer::Handle(number as u8),
        _ => Answer::Nothing,
    }
}

pub fn find(nodes: &[Node]) -> Verdict {
    find_verdict(&terms_of(nodes))
}

fn rule_at(rule: Rule, at: usize) -> Verdict {
    Verdict {
        rule: rule_number(rule),
        place: at as u64,
        ..accepted()
    }
}

pub fn find_verdict(cells: &[TermCell]) -> Verdict {
    match find_rule(cells) {
        Ok(None) => accepted(),
        Ok(Some((rule, at))) => rule_at(rule, at),
        Err(fault) => refused(fault.number(), fault.cell() as u64),
    }
}

pub fn next(nodes: &[Node], answer: u64, to: &mut [Node]) -> Verdict {
    let mut work = [BLANK_TERM; MOST_RUNNING_CELLS];
    let verdict = step_verdict(&terms_of(nodes), answer_of(answer), &mut work);
    if verdict.number == 0 {
        give_terms(&work, to);
    }
    verdict
}

pub fn step_verdict(cells: &[TermCell], answer: Answer, work: &mut [TermCell]) -> Verdict {
    let (rule, at) = match find_rule(cells) {
        Ok(Some(found)) => found,
        Ok(None) => return refused(35, 0),
        Err(fault) => return refused(fault.number(), fault.cell() as u64),
    };
    match next_term(cells, rule, at, answer, work) {
        Some(count) => Verdict {
            term_cells: count as u64,
            ..rule_at(rule, at)
        },
        None => refused(37, at as u64),
    }
}

fn refused_call(refusal: Refusal) -> Verdict {
    refused(refusal.fault.number(), refusal.place)
}

fn ran(steps: u64, stop: Stop) -> Verdict {
    let (number, place) = match stop {
        Stop::Value => (0, 0),
        Stop::Budget => (1, 0),
        Stop::Refused { fault, steps } => (fault.number(), steps),
    };
    Verdict {
        steps,
        ..refused(number, place)
    }
}

pub fn load_and_run(
    controller: &mut Controller<Tape>,
    program: &Accepted,
    budget: u64,
    work: &mut [TermCell],
) -> Verdict {
    if let Err(refusal) = controller.load(program) {
        return refused_call(refusal);
    }
    match controller.run(budget, work) {
        Ok((steps, stop)) => ran(steps, stop),
        Err(refusal) => refused_call(refusal),
    }
}

pub fn run(
    letters: &[u32],
    nodes: &[Node],
    outcomes: &[u8],
    budget: u64,
    value: &mut [Node],
    kinds: &mut [u32],
    pulses: &mut [Pulse],
) -> Verdict {
    let (types, terms) = (types_of(letters), terms_of(nodes));
    run_verdict(&types, &terms, outcomes, budget, value, kinds, pulses)
}

pub fn run_verdict(
    types: &[TypeCell],
    terms: &[TermCell],
    outcomes: &[u8],
    budget: u64,
    value: &mut [Node],
    kinds: &mut [u32],
    pulses: &mut [Pulse],
) -> Verdict {
    let checked = check_verdict(types, terms);
    if checked.number > 0 {
        return checked;
    }
    let program = Accepted::new(types, terms);
    let mut work = [BLANK_TERM; MOST_RUNNING_CELLS];
    let mut root = [BLANK_TYPE; MOST_TYPE_CELLS];
    let mut journal = [Entry::Empty; PULSES];
    let mut controller = Controller::new(Tape::new(CAPACITY, outcomes, &mut journal));
    let mut verdict = load_and_run(&mut controller, &program, budget, &mut work);
    for (pulse, entry) in pulses.iter_mut().zip(controller.register().journal()) {
        *pulse = pulse_of(*entry);
    }
    if let Ok((cells, kind_cells)) = controller.collect(&mut work, &mut root) {
        verdict.term_cells = cells as u64;
        verdict.type_cells = kind_cells as u64;
    }
    give_terms(&work, value);
    give_types(&root, kinds);
    verdict
}
