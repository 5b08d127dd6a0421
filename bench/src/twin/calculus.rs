//! Cells, letters, gates and limits.

use super::trees::*;

/// A cell of a type table: the letter of its kind.
#[derive(Clone, Copy, PartialEq, Eq, Debug)]
pub struct TypeCell {
    pub kind: char,
}

/// A cell of a term table: the letter of its op, its argument, and its claim, a place in the type table.
#[derive(Clone, Copy, PartialEq, Eq, Debug, Default)]
pub struct TermCell {
    pub op: char,
    pub argument: u16,
    pub claim: u16,
}

/// A gate of the register.
#[derive(Clone, Copy, PartialEq, Eq, Debug)]
pub enum Gate {
    H,
    X,
    Z,
    S,
    T,
    Cnot,
    Swap,
    Toffoli,
}

impl Gate {
    /// The number by which a `g` cell names the gate.
    pub fn number(self) -> u16 {
        match self {
            Gate::H => 0,
            Gate::X => 1,
            Gate::Z => 2,
            Gate::S => 3,
            Gate::T => 4,
            Gate::Cnot => 5,
            Gate::Swap => 6,
            Gate::Toffoli => 7,
        }
    }

    /// The gate of a number, or nothing from 8 on.
    pub fn from_number(number: u16) -> Option<Gate> {
        match number {
            0 => Some(Gate::H),
            1 => Some(Gate::X),
            2 => Some(Gate::Z),
            3 => Some(Gate::S),
            4 => Some(Gate::T),
            5 => Some(Gate::Cnot),
            6 => Some(Gate::Swap),
            7 => Some(Gate::Toffoli),
            _ => None,
        }
    }

    /// How many qubits the gate takes.
    pub fn operands(self) -> usize {
        match self {
            Gate::H | Gate::X | Gate::Z | Gate::S | Gate::T => 1,
            Gate::Cnot | Gate::Swap => 2,
            Gate::Toffoli => 3,
        }
    }
}

/// Type cells of a program.
pub const MOST_TYPE_CELLS: usize = 256;

/// Term cells of a program.
pub const MOST_TERM_CELLS: usize = 512;

/// Binders in scope at a node of a program.
pub const MOST_BINDERS: usize = 32;

/// Cells of a running term, and of the work table that a step asks for.
pub const MOST_RUNNING_CELLS: usize = 1024;

/// Handles of qubits: every handle is below this.
pub const HANDLES: usize = 32;

/// The parts of an op, and how many arguments it allows, from 0 on.
#[derive(Clone, Copy, PartialEq, Eq, Debug)]
pub struct OpShape {
    pub parts: usize,
    pub arguments: usize,
}

fn shape(parts: usize, arguments: usize) -> Option<OpShape> {
    Some(OpShape { parts, arguments })
}

/// The op letter alone decides the number of parts and the arguments; nothing for a letter that is no op.
pub fn op_shape(op: char) -> Option<OpShape> {
    match op {
        'v' => shape(0, 65_536),
        'q' => shape(0, 32),
        'g' => shape(0, 8),
        '0' | '1' | 'm' | 'n' | 's' => shape(0, 1),
        'l' => shape(1, 1),
        'a' | 'p' | 'd' => shape(2, 1),
        'i' => shape(3, 1),
        _ => None,
    }
}

/// The parts of a kind letter; nothing for a letter that is no kind.
pub fn kind_parts(kind: char) -> Option<usize> {
    match kind {
        'b' | 'q' | 'u' => Some(0),
        '!' => Some(1),
        '>' | '*' => Some(2),
        _ => None,
    }
}

/// Whether a cell has a known op and an argument that the op allows.
pub fn is_allowed(cell: TermCell) -> bool {
    match op_shape(cell.op) {
        Some(shape) => (cell.argument as usize) < shape.arguments,
        None => false,
    }
}

impl Cell for TermCell {
    fn parts(&self) -> usize {
        match op_shape(self.op) {
            Some(shape) => shape.parts,
            None => 0,
        }
    }
}

impl Cell for TypeCell {
    fn parts(&self) -> usize {
        match kind_parts(self.kind) {
            Some(parts) => parts,
            None => 0,
        }
    }
}
