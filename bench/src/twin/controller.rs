//! One shot with its register.

use super::calculus::*;
use super::checker::*;
use super::registers::*;
use super::stepper::*;
use super::trees::*;

// The cell's argument as a handle; what is none becomes a number that names no qubit.
fn handle_at(cells: &[TermCell], at: usize) -> u8 {
    if at < cells.len() && (cells[at].argument as usize) < HANDLES {
        cells[at].argument as u8
    } else {
        u8::MAX
    }
}

// The qubits that a gate gets in the redex at `at`: one, a pair, or one and a pair, in front of what is left over.
fn operands_at(cells: &[TermCell], gate: Gate, at: usize) -> [u8; 3] {
    match gate {
        Gate::Cnot | Gate::Swap => [handle_at(cells, at + 3), handle_at(cells, at + 4), 0],
        Gate::Toffoli => [
            handle_at(cells, at + 3),
            handle_at(cells, at + 5),
            handle_at(cells, at + 6),
        ],
        _ => [handle_at(cells, at + 2), 0, 0],
    }
}

// Has the register apply the gate of the redex at `at`.
fn apply_gate<R: Register>(
    register: &mut R,
    cells: &[TermCell],
    at: usize,
) -> Result<(), ControllerFault> {
    if at + 1 >= cells.len() {
        return Err(ControllerFault::NoRule);
    }
    let Some(gate) = Gate::from_number(cells[at + 1].argument) else {
        return Err(ControllerFault::NoRule);
    };
    let on = operands_at(cells, gate, at);
    register.gate(gate, &on[0..gate.operands()])?;
    Ok(())
}

/// Asks the register for what the rule needs at a cell, and hands on its answer.
pub fn ask<R: Register>(
    register: &mut R,
    cells: &[TermCell],
    rule: Rule,
    at: usize,
) -> Result<Answer, ControllerFault> {
    match rule {
        Rule::Prepare => {
            let bit = at + 2 < cells.len() && cells[at + 2].op == '1';
            Ok(Answer::Handle(register.prepare(bit)?))
        }
        Rule::Read => Ok(Answer::Outcome(register.read(handle_at(cells, at + 2))?)),
        Rule::Gates => {
            apply_gate(register, cells, at)?;
            Ok(Answer::Nothing)
        }
        Rule::Function | Rule::Pair | Rule::Then | Rule::Else => Ok(Answer::Nothing),
    }
}

/// Lets go of the qubits that were named before and are not after, by rising handle. Each is live, and one that is not would stay as it is.
pub fn let_go_unnamed<R: Register>(
    register: &mut R,
    before: &[bool; HANDLES],
    after: &[bool; HANDLES],
) {
    for handle in 0..HANDLES {
        if before[handle] && !after[handle] {
            let _ = register.let_go(handle as u8);
        }
    }
}

/// A controller of one register, which has a program loaded or nothing.
pub struct Controller<R: Register> {
    shot: Shot,
    register: R,
}

impl<R: Register> Controller<R> {
    /// Takes a register and clears it; nothing is loaded.
    pub fn new(mut register: R) -> Controller<R> {
        register.clear();
        Controller {
            shot: Shot::new(),
            register,
        }
    }

    /// Loads an accepted program, and answers the cell count of its term.
    pub fn load(&mut self, program: &Accepted) -> Result<usize, Refusal> {
        self.shot.load(&self.register, program)
    }

    /// Makes one step, after which the work table starts with the next term; answers its cell count.
    pub fn step(&mut self, work: &mut [TermCell]) -> Result<usize, Refusal> {
        self.shot.step(&mut self.register, work)
    }

    /// Makes steps until the running term is a value, the budget is spent or a step is refused; answers those made, and why it stopped.
    pub fn run(&mut self, budget: u64, work: &mut [TermCell]) -> Result<(u64, Stop), Refusal> {
        self.shot.run(&mut self.register, budget, work)
    }

    /// Writes the value and its type at the front of two tables, clears the register and unloads; answers both counts.
    pub fn collect(
        &mut self,
        value: &mut [TermCell],
        kinds: &mut [TypeCell],
    ) -> Result<(usize, usize), Refusal> {
        self.shot.collect(&mut self.register, value, kinds)
    }

    /// Clears the register and unloads.
    pub fn abandon(&mut self) -> Result<(), Refusal> {
        self.shot.abandon(&mut self.register)
    }

    /// The register, for questions.
    pub fn register(&self) -> &R {
        &self.register
    }
}

/// A fault of a call of the controller.
#[derive(Clone, Copy, PartialEq, Eq, Debug)]
pub enum ControllerFault {
    NothingLoaded,
    AlreadyLoaded,
    /// The program names a gate that the register does not make.
    GateNotMade,
    /// The work table is shorter than a running term may be.
    ShortTable,
    /// A step of a value.
    AtValue,
    NoRule,
    /// The next term would have too many cells.
    TooLong,
    /// The running term is no value yet.
    NoValue,
    /// A table for the value or its type is too short.
    ShortTables,
    /// The register refused what the step asked of it.
    Register(RegisterFault),
}

impl ControllerFault {
    /// The fault's number.
    pub fn number(self) -> u16 {
        match self {
            ControllerFault::NothingLoaded => 31,
            ControllerFault::AlreadyLoaded => 32,
            ControllerFault::GateNotMade => 33,
            ControllerFault::ShortTable => 34,
            ControllerFault::AtValue => 35,
            ControllerFault::NoRule => 36,
            ControllerFault::TooLong => 37,
            ControllerFault::NoValue => 38,
            ControllerFault::ShortTables => 39,
            ControllerFault::Register(fault) => fault.number(),
        }
    }
}

impl From<RegisterFault> for ControllerFault {
    fn from(fault: RegisterFault) -> ControllerFault {
        ControllerFault::Register(fault)
    }
}

/// A refused call: its fault, and the steps made since the load or, for a gate not made, the cell that names it.
#[derive(Clone, Copy, PartialEq, Eq, Debug)]
pub struct Refusal {
    pub fault: ControllerFault,
    pub place: u64,
}

/// Why a run stopped.
#[derive(Clone, Copy, PartialEq, Eq, Debug)]
pub enum Stop {
    Value,
    Budget,
    /// A step was refused, after so many steps since the load.
    Refused {
        fault: ControllerFault,
        steps: u64,
    },
}

/// A running term of `len` cells, none where nothing is loaded, with the cells of its type and the steps made since the load.
pub struct Shot {
    pub cells: [TermCell; MOST_RUNNING_CELLS],
    pub len: usize,
    pub kinds: [TypeCell; MOST_TYPE_CELLS],
    pub kind_len: usize,
    pub steps: u64,
}

const BLANK: TermCell = TermCell {
    op: '\0',
    argument: 0,
    claim: 0,
};

impl Shot {
    /// Nothing loaded.
    pub fn new() -> Shot {
        Shot {
            cells: [BLANK; MOST_RUNNING_CELLS],
            len: 0,
            kinds: [TypeCell { kind: '\0' }; MOST_TYPE_CELLS],
            kind_len: 0,
            steps: 0,
        }
    }

    /// The cells of the running term.
    pub fn running(&self) -> &[TermCell] {
        &self.cells[0..self.len]
    }
}

// Whether a cell names no gate, or one that the register makes.
fn is_made<R: Register>(register: &R, cell: TermCell) -> bool {
    if cell.op != 'g' {
        return true;
    }
    match Gate::from_number(cell.argument) {
        Some(gate) => register.makes(gate),
        None => false,
    }
}

// Has every cell claim nothing.
fn forget_claims(cells: &mut [TermCell]) {
    for cell in cells.iter_mut() {
        cell.claim = 0;
    }
}

impl Shot {
    // The refusal of a call, with the steps made since the load.
    fn refusal(&self, fault: ControllerFault) -> Refusal {
        Refusal {
            fault,
            place: self.steps,
        }
    }

    // Whether a step may begin: something is loaded, and the work table is long enough.
    fn ready(&self, work: &[TermCell]) -> Result<(), ControllerFault> {
        if self.len == 0 {
            return Err(ControllerFault::NothingLoaded);
        }
        if work.len() < MOST_RUNNING_CELLS {
            return Err(ControllerFault::ShortTable);
        }
        Ok(())
    }

    /// Copies an accepted program's term, which claims nothing as it runs, and its root's type; answers the cell count.
    pub fn load<R: Register>(
        &mut self,
        register: &R,
        program: &Accepted,
    ) -> Result<usize, Refusal> {
        if self.len > 0 {
            return Err(self.refusal(ControllerFault::AlreadyLoaded));
        }
        let terms = program.terms();
        if let Some(cell) = terms.iter().position(|cell| !is_made(register, *cell)) {
            return Err(Refusal {
                fault: ControllerFault::GateNotMade,
                place: cell as u64,
            });
        }
        self.len = copy(terms, 0, &mut self.cells).unwrap_or(0);
        forget_claims(&mut self.cells);
        let root = match terms {
            [root, ..] => root.claim as usize,
            [] => 0,
        };
        self.kind_len = copy(program.types(), root, &mut self.kinds).unwrap_or(0);
        self.steps = 0;
        Ok(self.len)
    }
}

impl Shot {
    // Makes the step of a rule at a cell: the next term is counted, the register asked, the term written to the work table and
    // copied from there, and the qubits that it names no more are let go.
    fn advance<R: Register>(
        &mut self,
        register: &mut R,
        rule: Rule,
        at: usize,
        work: &mut [TermCell],
    ) -> Result<usize, ControllerFault> {
        if at >= self.len {
            return Err(ControllerFault::NoRule);
        }
        let running = &self.cells[0..self.len];
        let Some(len) = next(running, rule, at, Answer::Nothing, &mut []) else {
            return Err(ControllerFault::TooLong);
        };
        let answer = ask(register, running, rule, at)?;
        let before = named(running);
        let _ = put_next(running, rule, at, answer, work);
        let_go_unnamed(register, &before, &named(&work[0..len]));
        self.cells[0..len].copy_from_slice(&work[0..len]);
        self.len = len;
        self.steps = self.steps.saturating_add(1);
        Ok(len)
    }

    // The step of what was found in the running term.
    fn take_step<R: Register>(
        &mut self,
        register: &mut R,
        found: Result<Option<(Rule, usize)>, FindFault>,
        work: &mut [TermCell],
    ) -> Result<usize, ControllerFault> {
        match found {
            Ok(Some((rule, at))) => self.advance(register, rule, at, work),
            Ok(None) => Err(ControllerFault::AtValue),
            Err(_) => Err(ControllerFault::NoRule),
        }
    }

    /// Makes one step, after which the work table starts with the next term; answers its cell count.
    pub fn step<R: Register>(
        &mut self,
        register: &mut R,
        work: &mut [TermCell],
    ) -> Result<usize, Refusal> {
        if let Err(fault) = self.ready(work) {
            return Err(self.refusal(fault));
        }
        let found = find(self.running());
        match self.take_step(register, found, work) {
            Ok(len) => Ok(len),
            Err(fault) => Err(self.refusal(fault)),
        }
    }
}

impl Shot {
    // Nothing is loaded any more.
    fn unload(&mut self) {
        self.len = 0;
        self.kind_len = 0;
        self.steps = 0;
    }

    /// Makes steps until the running term is a value, the budget is spent or a step is refused; answers those made, and why it stopped.
    pub fn run<R: Register>(
        &mut self,
        register: &mut R,
        budget: u64,
        work: &mut [TermCell],
    ) -> Result<(u64, Stop), Refusal> {
        if let Err(fault) = self.ready(work) {
            return Err(self.refusal(fault));
        }
        let mut made = 0;
        loop {
            let found = find(self.running());
            if let Ok(None) = found {
                return Ok((made, Stop::Value));
            }
            if made >= budget {
                return Ok((made, Stop::Budget));
            }
            if let Err(fault) = self.take_step(register, found, work) {
                return Ok((
                    made,
                    Stop::Refused {
                        fault,
                        steps: self.steps,
                    },
                ));
            }
            made += 1;
        }
    }

    /// Writes the value and its type at the front of two tables, clears the register and unloads; answers both counts.
    pub fn collect<R: Register>(
        &mut self,
        register: &mut R,
        value: &mut [TermCell],
        kinds: &mut [TypeCell],
    ) -> Result<(usize, usize), Refusal> {
        if self.len == 0 {
            return Err(self.refusal(ControllerFault::NothingLoaded));
        }
        let Ok(None) = find(self.running()) else {
            return Err(self.refusal(ControllerFault::NoValue));
        };
        let len = self.len;
        let kind_len = self.kind_len;
        if value.len() < len || kinds.len() < kind_len {
            return Err(self.refusal(ControllerFault::ShortTables));
        }
        value[0..len].copy_from_slice(&self.cells[0..len]);
        kinds[0..kind_len].copy_from_slice(&self.kinds[0..kind_len]);
        register.clear();
        self.unload();
        Ok((len, kind_len))
    }

    /// Clears the register and unloads.
    pub fn abandon<R: Register>(&mut self, register: &mut R) -> Result<(), Refusal> {
        if self.len == 0 {
            return Err(self.refusal(ControllerFault::NothingLoaded));
        }
        register.clear();
        self.unload();
        Ok(())
    }
}
