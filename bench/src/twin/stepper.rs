//! Which rule applies where, and the next term.

use super::calculus::*;
use super::trees::*;

// Whether the ops of the cells begin with the letters of a word.
fn spells(cells: &[TermCell], word: &[char]) -> bool {
    word.len() <= cells.len()
        && cells
            .iter()
            .zip(word)
            .all(|(cell, letter)| cell.op == *letter)
}

// Whether the cells begin with as many qubits as the gate of a number takes.
fn are_operands(cells: &[TermCell], gate: u16) -> bool {
    match Gate::from_number(gate) {
        Some(Gate::Cnot | Gate::Swap) => spells(cells, &['p', 'q', 'q']),
        Some(Gate::Toffoli) => spells(cells, &['p', 'q', 'p', 'q', 'q']),
        _ => spells(cells, &['q']),
    }
}

// The rule for a value, by its first cell, applied to the value that the other cells begin with.
fn applied(function: TermCell, argument: &[TermCell]) -> Option<Rule> {
    match function.op {
        'l' => Some(Rule::Function),
        'n' => (spells(argument, &['0']) || spells(argument, &['1'])).then_some(Rule::Prepare),
        'm' => spells(argument, &['q']).then_some(Rule::Read),
        'g' => are_operands(argument, function.argument).then_some(Rule::Gates),
        _ => None,
    }
}

// The rule for a condition that is a value, by its first cell.
fn branched(condition: TermCell) -> Option<Rule> {
    match condition.op {
        '0' => Some(Rule::Else),
        '1' => Some(Rule::Then),
        _ => None,
    }
}

// The rule for a let of a value, by its first cell.
fn opened(pair: TermCell) -> Option<Rule> {
    (pair.op == 'p').then_some(Rule::Pair)
}

/// One past the tree at `at`, or `at` itself where none stands there.
pub fn past(cells: &[TermCell], at: usize) -> usize {
    reach(cells, at).unwrap_or(at)
}

// One past the tree at `at`, and what it waits for: nothing where it is a value, and else the cell that is due, with the rule that
// applies there, if one does. Of cells that are no whole tree the answer means nothing.
fn work(cells: &[TermCell], at: usize) -> (usize, Option<(usize, Option<Rule>)>) {
    if at >= cells.len() {
        return (at, None);
    }
    let part = cells.get(at + 1).copied().unwrap_or_default();
    match cells[at].op {
        'l' => (past(cells, at), None),
        'a' => {
            let (middle, function) = work(cells, at + 1);
            let (end, argument) = work(cells, middle);
            let value = cells.get(middle..).unwrap_or_default();
            let due = argument
                .or(function)
                .or_else(|| Some((at, applied(part, value))));
            (end, due)
        }
        'p' => {
            let (middle, left) = work(cells, at + 1);
            let (end, right) = work(cells, middle);
            (end, left.or(right))
        }
        'd' => {
            let (middle, pair) = work(cells, at + 1);
            let end = past(cells, middle);
            (end, pair.or_else(|| Some((at, opened(part)))))
        }
        'i' => {
            let (middle, condition) = work(cells, at + 1);
            let end = past(cells, past(cells, middle));
            (end, condition.or_else(|| Some((at, branched(part)))))
        }
        _ => (at + 1, None),
    }
}

// Tests that the cells may be a running term: not too many, each with an argument that its letter allows, exactly one tree.
fn test_cells(cells: &[TermCell]) -> Result<(), FindFault> {
    if cells.len() > MOST_RUNNING_CELLS {
        return Err(FindFault::TooManyCells(MOST_RUNNING_CELLS));
    }
    if let Some(cell) = cells.iter().position(|cell| !is_allowed(*cell)) {
        return Err(FindFault::BadCell(cell));
    }
    let end = reach(cells, 0).ok_or(FindFault::NotWhole(0))?;
    if end < cells.len() {
        return Err(FindFault::NotWhole(end));
    }
    Ok(())
}

/// The rule that applies to a running term and the cell it applies at, or nothing for a value; claims are disregarded.
pub fn find(cells: &[TermCell]) -> Result<Option<(Rule, usize)>, FindFault> {
    test_cells(cells)?;
    let (_, Some((cell, rule))) = work(cells, 0) else {
        return Ok(None);
    };
    let rule = rule.ok_or(FindFault::NoRule(cell))?;
    Ok(Some((rule, cell)))
}

// The handle that a cell names, if it names one.
fn name_of(cell: TermCell) -> Option<usize> {
    let handle = cell.argument as usize;
    (cell.op == 'q' && handle < HANDLES).then_some(handle)
}

/// Which handles the cells name.
pub fn named(cells: &[TermCell]) -> [bool; HANDLES] {
    let mut named = [false; HANDLES];
    for cell in cells {
        if let Some(handle) = name_of(*cell) {
            named[handle] = true;
        }
    }
    named
}

/// The rules by which a step is made.
#[derive(Clone, Copy, PartialEq, Eq, Debug)]
pub enum Rule {
    /// A function gets its argument.
    Function,
    /// A pair is opened by a let.
    Pair,
    /// The condition is 1.
    Then,
    /// The condition is 0.
    Else,
    /// A qubit is prepared.
    Prepare,
    /// A qubit is read.
    Read,
    /// A gate gets its qubits.
    Gates,
}

/// Why no rule is found, with the cell at fault.
#[derive(Clone, Copy, PartialEq, Eq, Debug)]
pub enum FindFault {
    /// More cells than a running term may have.
    TooManyCells(usize),
    /// An unknown letter, or an argument that the letter does not allow.
    BadCell(usize),
    /// The cells are not exactly one tree.
    NotWhole(usize),
    /// The parts that are worked first are values, and no rule applies.
    NoRule(usize),
}

impl FindFault {
    /// The fault's number.
    pub fn number(self) -> u16 {
        match self {
            FindFault::TooManyCells(_) => 20,
            FindFault::BadCell(_) => 21,
            FindFault::NotWhole(_) => 22,
            FindFault::NoRule(_) => 36,
        }
    }

    /// The cell at fault.
    pub fn cell(self) -> usize {
        match self {
            FindFault::TooManyCells(cell)
            | FindFault::BadCell(cell)
            | FindFault::NotWhole(cell)
            | FindFault::NoRule(cell) => cell,
        }
    }
}

/// What the register answered to the step, if it was asked for something.
#[derive(Clone, Copy)]
pub enum Answer {
    /// The rule asks nothing, or a gate, which answers nothing.
    Nothing,
    /// The handle of the qubit that was prepared.
    Handle(u8),
    /// What was read.
    Outcome(bool),
}

// A cell of a running term, which claims nothing.
fn running(op: char, argument: u16) -> TermCell {
    TermCell {
        op,
        argument,
        claim: 0,
    }
}

impl From<Answer> for TermCell {
    fn from(answer: Answer) -> TermCell {
        match answer {
            Answer::Nothing => running('s', 0),
            Answer::Handle(handle) => running('q', u16::from(handle)),
            Answer::Outcome(true) => running('1', 0),
            Answer::Outcome(false) => running('0', 0),
        }
    }
}

// The tree that the cells begin with, and the cells after it; all, where it does not end.
fn split_tree(cells: &[TermCell]) -> (&[TermCell], &[TermCell]) {
    let len = reach(cells, 0).unwrap_or(cells.len());
    cells.split_at(len)
}

// Cells that are put at the front of a table, one behind the other: they are counted, and written as far as the table has room for them.
// There are never more than a running term may have. An empty table has cells only counted.
struct Front<'a> {
    table: &'a mut [TermCell],
    len: usize,
}

impl Front<'_> {
    // Puts cells behind those that are there; nothing where a running term may not have so many.
    fn put(&mut self, cells: &[TermCell]) -> Option<()> {
        if cells.len() > MOST_RUNNING_CELLS - self.len {
            return None;
        }
        let end = self.len + cells.len();
        if end <= self.table.len() {
            self.table[self.len..end].copy_from_slice(cells);
        }
        self.len = end;
        Some(())
    }

    // Puts what stands for a cell under `depth` binders, around which are those of the values: itself, a value, or the variable that
    // it is without their binders.
    fn put_cell(&mut self, cell: TermCell, depth: usize, values: &[&[TermCell]]) -> Option<()> {
        let index = cell.argument as usize;
        if cell.op != 'v' || index < depth {
            return self.put(&[cell]);
        }
        match values.get(index - depth) {
            Some(value) => self.put(value),
            None => self.put(&[running('v', cell.argument - values.len() as u16)]),
        }
    }

    // Puts what stands for the tree that the cells begin with, which has `depth` binders around it within those of the values, the
    // nearer first; answers the cells after the tree.
    fn substitute<'c>(
        &mut self,
        cells: &'c [TermCell],
        depth: usize,
        values: &[&[TermCell]],
    ) -> Option<&'c [TermCell]> {
        let [cell, rest @ ..] = cells else {
            return Some(cells);
        };
        self.put_cell(*cell, depth, values)?;
        match cell.op {
            'l' => self.substitute(rest, depth + 1, values),
            'a' | 'p' => {
                let second = self.substitute(rest, depth, values)?;
                self.substitute(second, depth, values)
            }
            'd' => {
                let body = self.substitute(rest, depth, values)?;
                self.substitute(body, depth + 2, values)
            }
            'i' => {
                let second = self.substitute(rest, depth, values)?;
                let third = self.substitute(second, depth, values)?;
                self.substitute(third, depth, values)
            }
            _ => Some(rest),
        }
    }

    // Puts what the rule leaves of the trees of its redex, with which the cells begin; answers the cells after the trees.
    fn put_left<'c>(
        &mut self,
        cells: &'c [TermCell],
        rule: Rule,
        answer: Answer,
    ) -> Option<&'c [TermCell]> {
        let (first, rest) = split_tree(cells);
        match rule {
            Rule::Function => {
                let (value, rest) = split_tree(rest);
                self.substitute(cells, 0, &[value])?;
                Some(rest)
            }
            Rule::Pair => {
                let (second, body) = split_tree(rest);
                self.substitute(body, 0, &[second, first])
            }
            Rule::Then => {
                self.put(first)?;
                let (_, rest) = split_tree(rest);
                Some(rest)
            }
            Rule::Else => {
                let (second, rest) = split_tree(rest);
                self.put(second)?;
                Some(rest)
            }
            Rule::Prepare | Rule::Read => {
                self.put(&[TermCell::from(answer)])?;
                Some(rest)
            }
            Rule::Gates => {
                self.put(first)?;
                Some(rest)
            }
        }
    }
}

// The cells before a redex, and those past its first two, which begin with its trees; none, where there are no more.
fn split_redex(cells: &[TermCell], at: usize) -> (&[TermCell], &[TermCell]) {
    let (before, redex) = cells.split_at(at.min(cells.len()));
    match redex {
        [_, _, trees @ ..] => (before, trees),
        _ => (before, &[]),
    }
}

/// Counts the cells of the next term, which the rule makes at a cell with the register's answer, and writes it to the front of
/// the table if that is long enough; nothing where a running term may not have so many cells.
pub fn put_next(
    cells: &[TermCell],
    rule: Rule,
    at: usize,
    answer: Answer,
    table: &mut [TermCell],
) -> Option<usize> {
    let (before, trees) = split_redex(cells, at);
    let mut front = Front { table, len: 0 };
    front.put(before)?;
    let rest = front.put_left(trees, rule, answer)?;
    front.put(rest)?;
    Some(front.len)
}

/// The same, but where a running term may not have so many cells the table stays.
pub fn next(
    cells: &[TermCell],
    rule: Rule,
    at: usize,
    answer: Answer,
    table: &mut [TermCell],
) -> Option<usize> {
    let len = put_next(cells, rule, at, answer, &mut [])?;
    if len <= table.len() {
        return put_next(cells, rule, at, answer, table);
    }
    Some(len)
}
