//! Cells to a verdict.

use super::calculus::*;
use super::trees::*;

/// Checks both tables as wholes, and then the term and its claims against the typing rules.
pub fn check<'a>(types: &'a [TypeCell], terms: &'a [TermCell]) -> Result<(), CheckFault> {
    test_tables(types, terms)?;
    let program = Program::new(types, terms);
    let mut scope = Scope {
        binders: [plain(0); MOST_BINDERS],
        depth: 0,
    };
    judge(&program, 0, &mut scope)?;
    Ok(())
}

/// A program that was checked: both tables, lent as long as the acceptance is in use.
pub struct Accepted<'a> {
    types: &'a [TypeCell],
    terms: &'a [TermCell],
}

impl<'a> Accepted<'a> {
    /// The tables, once `check` has passed them.
    pub fn new(types: &'a [TypeCell], terms: &'a [TermCell]) -> Accepted<'a> {
        Accepted { types, terms }
    }

    /// The type table.
    pub fn types(&self) -> &'a [TypeCell] {
        self.types
    }

    /// The term table.
    pub fn terms(&self) -> &'a [TermCell] {
        self.terms
    }
}

/// A fault of a program, with the cell at fault: of the type table or of the term table up to `NotWhole`, else of the term table.
#[derive(Clone, Copy, PartialEq, Eq, Debug)]
pub enum CheckFault {
    /// More cells than a table may have.
    TooManyCells(usize),
    /// An unknown letter, a stored qubit name, or an argument that the letter does not allow.
    BadCell(usize),
    /// The types are not whole trees, or the term is not exactly one.
    NotWhole(usize),
    /// A claim that is no place of the type table.
    ClaimOutside(usize),
    /// One binder too many in scope.
    TooDeep(usize),
    /// A variable that no binder binds.
    NoBinder(usize),
    /// A claim against its typing rule.
    WrongClaim(usize),
    /// A variable that is not duplicable, used in two parts.
    UsedTwice(usize),
    /// A duplicable function that uses an outer variable which is not.
    Captures(usize),
}

impl CheckFault {
    /// The fault's number.
    pub fn number(self) -> u16 {
        match self {
            CheckFault::TooManyCells(_) => 20,
            CheckFault::BadCell(_) => 21,
            CheckFault::NotWhole(_) => 22,
            CheckFault::ClaimOutside(_) => 23,
            CheckFault::TooDeep(_) => 24,
            CheckFault::NoBinder(_) => 25,
            CheckFault::WrongClaim(_) => 26,
            CheckFault::UsedTwice(_) => 27,
            CheckFault::Captures(_) => 28,
        }
    }

    /// The cell at fault.
    pub fn cell(self) -> usize {
        match self {
            CheckFault::TooManyCells(cell)
            | CheckFault::BadCell(cell)
            | CheckFault::NotWhole(cell)
            | CheckFault::ClaimOutside(cell)
            | CheckFault::TooDeep(cell)
            | CheckFault::NoBinder(cell)
            | CheckFault::WrongClaim(cell)
            | CheckFault::UsedTwice(cell)
            | CheckFault::Captures(cell) => cell,
        }
    }
}

// The tests of a cell before its parts: the binders in scope, then the claims.
fn enter(program: &Program, at: usize, cell: TermCell, scope: &Scope) -> Result<(), CheckFault> {
    test_depth(cell, at, scope.depth)?;
    if !claims_agree(program, at, cell, scope) {
        return Err(CheckFault::WrongClaim(at));
    }
    Ok(())
}

// Judges the term at a place under one binder more, or two, which are left again on every way out.
fn judge_under(
    program: &Program,
    at: usize,
    outer: Marked,
    inner: Option<Marked>,
    scope: &mut Scope,
) -> Result<Used, CheckFault> {
    let before = scope.depth;
    bind(scope, outer);
    if let Some(binder) = inner {
        bind(scope, binder);
    }
    let used = judge(program, at, scope);
    scope.depth = before;
    used
}

/// The binders that the term at a place uses, or its first fault: of a cell, then of its parts in order, then on leaving it.
pub fn judge(program: &Program, at: usize, scope: &mut Scope) -> Result<Used, CheckFault> {
    if at >= program.terms.len() {
        return Err(CheckFault::NotWhole(0));
    }
    let cell = program.terms[at];
    enter(program, at, cell, scope)?;
    let types = program.types;
    let second = program.past(at + 1);
    match cell.op {
        'v' => Ok(only(scope.depth - 1 - cell.argument as usize)),
        'l' => {
            let arrow = take_apart(types, cell.claim as usize);
            let used = judge_under(program, at + 1, plain(arrow.first), None, scope)?;
            uncaptured(types, scope, used, arrow.marks, at)
        }
        'a' | 'p' => {
            let left = judge(program, at + 1, scope)?;
            let right = judge(program, second, scope)?;
            apart(types, scope, left, right, at)
        }
        'd' => {
            let pair = take_apart(types, program.claim(at + 1));
            let given = judge(program, at + 1, scope)?;
            let body = judge_under(
                program,
                second,
                pair.first_marked(),
                Some(pair.second_marked()),
                scope,
            )?;
            apart(types, scope, given, body, at)
        }
        'i' => {
            let condition = judge(program, at + 1, scope)?;
            let then = judge(program, second, scope)?;
            let other = judge(program, program.past(second), scope)?;
            apart(types, scope, condition, either(then, other), at)
        }
        _ => Ok(none()),
    }
}

/// The binders that two parts use, where those that both use are duplicable.
pub fn apart(
    types: &[TypeCell],
    scope: &Scope,
    left: Used,
    right: Used,
    at: usize,
) -> Result<Used, CheckFault> {
    if !is_clear(types, scope, shared(left, right)) {
        return Err(CheckFault::UsedTwice(at));
    }
    Ok(either(left, right))
}

/// The binders that a function uses, where a duplicable function uses duplicable ones only.
pub fn uncaptured(
    types: &[TypeCell],
    scope: &Scope,
    used: Used,
    marks: usize,
    at: usize,
) -> Result<Used, CheckFault> {
    if marks > 0 && !is_clear(types, scope, used) {
        return Err(CheckFault::Captures(at));
    }
    Ok(used)
}

/// Both tables of a program of at most so many cells, and one past the tree at each place of the term.
pub struct Program<'a> {
    pub types: &'a [TypeCell],
    pub terms: &'a [TermCell],
    pub ends: [u16; MOST_TERM_CELLS],
}

// One past so many trees from `at` on, by the ends of the trees there.
fn past_trees(ends: &[u16], len: usize, at: usize, trees: usize) -> usize {
    let mut end = at;
    for _ in 0..trees {
        if end < len {
            end = ends[end] as usize;
        }
    }
    end
}

// One past the tree at each place, found from the last place to the first.
fn tree_ends(terms: &[TermCell]) -> [u16; MOST_TERM_CELLS] {
    let mut ends = [0; MOST_TERM_CELLS];
    for i in (0..terms.len()).rev() {
        let end = past_trees(&ends, terms.len(), i + 1, terms[i].parts());
        ends[i] = end as u16;
    }
    ends
}

impl<'a> Program<'a> {
    /// The tables, with the ends of the term's trees.
    pub fn new(types: &'a [TypeCell], terms: &'a [TermCell]) -> Program<'a> {
        Program {
            types,
            terms,
            ends: tree_ends(terms),
        }
    }

    /// The claim of the cell at a place, or a place past the type table where there is no such cell.
    pub fn claim(&self, at: usize) -> usize {
        if at < self.terms.len() {
            self.terms[at].claim as usize
        } else {
            self.types.len()
        }
    }

    /// One past the tree at a place, or the place itself where there is none.
    pub fn past(&self, at: usize) -> usize {
        if at < self.terms.len() {
            self.ends[at] as usize
        } else {
            at
        }
    }
}

/// What is asked of two types.
#[derive(Clone, Copy)]
pub enum Relation {
    Equal,
    Subtype,
}

/// The type at a place, with marks in front of it that need not stand in the table.
#[derive(Clone, Copy)]
pub struct Marked {
    pub marks: usize,
    pub place: usize,
}

/// The type at a place, as it stands.
pub fn plain(place: usize) -> Marked {
    Marked { marks: 0, place }
}

/// The kind at a place, or none of the letters past the table.
pub fn kind_at(types: &[TypeCell], place: usize) -> char {
    if place < types.len() {
        types[place].kind
    } else {
        '\0'
    }
}

/// All the leading marks counted, and the place after them.
pub fn stripped(types: &[TypeCell], a: Marked) -> Marked {
    let mut marks = a.marks;
    let mut place = a.place;
    while place < types.len() && types[place].kind == '!' {
        marks = marks.saturating_add(1);
        place += 1;
    }
    Marked { marks, place }
}

// Whether so many marks before a type go with so many before the other.
fn marks_agree(relation: Relation, left: usize, right: usize) -> bool {
    match relation {
        Relation::Equal => left == right,
        Relation::Subtype => right == 0 || left > 0,
    }
}

// One past both types where the first has the relation to the second, or nothing.
fn relate(
    relation: Relation,
    left: &[TypeCell],
    a: Marked,
    right: &[TypeCell],
    b: Marked,
) -> Option<(usize, usize)> {
    let a = stripped(left, a);
    let b = stripped(right, b);
    if a.place >= left.len() || b.place >= right.len() {
        return None;
    }
    let kind = left[a.place].kind;
    if !marks_agree(relation, a.marks, b.marks) || kind != right[b.place].kind {
        return None;
    }
    match kind {
        '>' => {
            let (second_b, second_a) = relate(
                relation,
                right,
                plain(b.place + 1),
                left,
                plain(a.place + 1),
            )?;
            relate(relation, left, plain(second_a), right, plain(second_b))
        }
        '*' => {
            let (second_a, second_b) = relate(
                relation,
                left,
                plain(a.place + 1),
                right,
                plain(b.place + 1),
            )?;
            relate(relation, left, plain(second_a), right, plain(second_b))
        }
        _ => Some((a.place + 1, b.place + 1)),
    }
}

/// Whether two types of one table are equal.
pub fn is_same(types: &[TypeCell], a: Marked, b: Marked) -> bool {
    relate(Relation::Equal, types, a, types, b).is_some()
}

/// Whether a type of one table is a subtype of a type of another.
pub fn is_subtype(left: &[TypeCell], a: Marked, right: &[TypeCell], b: Marked) -> bool {
    relate(Relation::Subtype, left, a, right, b).is_some()
}

/// A type taken apart: its marks, the kind after them, and where the two parts of an arrow or a pair stand.
#[derive(Clone, Copy)]
pub struct Parts {
    pub kind: char,
    pub marks: usize,
    pub first: usize,
    pub second: usize,
}

impl Parts {
    /// The first part, after the marks of the whole.
    pub fn first_marked(&self) -> Marked {
        Marked {
            marks: self.marks,
            place: self.first,
        }
    }

    /// The second part, after the marks of the whole.
    pub fn second_marked(&self) -> Marked {
        Marked {
            marks: self.marks,
            place: self.second,
        }
    }
}

/// The type at a place, taken apart.
pub fn take_apart(types: &[TypeCell], place: usize) -> Parts {
    let core = stripped(types, plain(place));
    let first = core.place.saturating_add(1);
    let second = match reach(types, first) {
        Some(end) => end,
        None => first,
    };
    Parts {
        kind: kind_at(types, core.place),
        marks: core.marks,
        first,
        second,
    }
}

const BIT: TypeCell = TypeCell { kind: 'b' };

const QUBIT: TypeCell = TypeCell { kind: 'q' };

const MARK: TypeCell = TypeCell { kind: '!' };

const ARROW: TypeCell = TypeCell { kind: '>' };

const PAIR: TypeCell = TypeCell { kind: '*' };

// The own types of the constants, one after the other: of bits, of `n`, of `m`, and of gates on one, two and three qubits.
#[rustfmt::skip]
const OWN_TYPES: [TypeCell; 35] = [
    MARK, BIT,
    MARK, ARROW, BIT, QUBIT,
    MARK, ARROW, QUBIT, MARK, BIT,
    MARK, ARROW, QUBIT, QUBIT,
    MARK, ARROW, PAIR, QUBIT, QUBIT, PAIR, QUBIT, QUBIT,
    MARK, ARROW, PAIR, QUBIT, PAIR, QUBIT, QUBIT, PAIR, QUBIT, PAIR, QUBIT, QUBIT,
];

// Where the own type of a constant stands among them, or past them for what is no constant.
fn own_place(op: char, argument: u16) -> usize {
    match op {
        '0' | '1' => 0,
        'n' => 2,
        'm' => 6,
        'g' => match Gate::from_number(argument) {
            Some(Gate::H | Gate::X | Gate::Z | Gate::S | Gate::T) => 11,
            Some(Gate::Cnot | Gate::Swap) => 15,
            Some(Gate::Toffoli) => 23,
            None => 35,
        },
        _ => 35,
    }
}

// Whether the type of a variable's binder is a subtype of the variable's claim.
fn variable_claims(types: &[TypeCell], scope: &Scope, cell: TermCell) -> bool {
    let above = cell.argument as usize;
    if above >= scope.depth || scope.depth > MOST_BINDERS {
        return false;
    }
    let binder = scope.binders[scope.depth - 1 - above];
    is_subtype(types, binder, types, plain(cell.claim as usize))
}

// Whether the function claims an arrow with no mark, the argument its first part and the cell its second.
fn application_claims(program: &Program, at: usize, claim: usize) -> bool {
    let types = program.types;
    let arrow = take_apart(types, program.claim(at + 1));
    let argument = program.claim(program.past(at + 1));
    arrow.kind == '>'
        && arrow.marks == 0
        && is_same(types, plain(arrow.first), plain(argument))
        && is_same(types, plain(arrow.second), plain(claim))
}

// Whether the cell claims an arrow after any marks, and the body its second part.
fn function_claims(program: &Program, at: usize, claim: usize) -> bool {
    let types = program.types;
    let arrow = take_apart(types, claim);
    arrow.kind == '>' && is_same(types, plain(arrow.second), plain(program.claim(at + 1)))
}

// Whether the cell claims a pair after any marks, and its parts those of the pair after the same marks.
fn pair_claims(program: &Program, at: usize, claim: usize) -> bool {
    let types = program.types;
    let pair = take_apart(types, claim);
    let right = program.claim(program.past(at + 1));
    pair.kind == '*'
        && is_same(types, pair.first_marked(), plain(program.claim(at + 1)))
        && is_same(types, pair.second_marked(), plain(right))
}

// Whether the first part claims a pair after any marks, and the body what the cell claims.
fn let_claims(program: &Program, at: usize, claim: usize) -> bool {
    let types = program.types;
    let pair = take_apart(types, program.claim(at + 1));
    let body = program.claim(program.past(at + 1));
    pair.kind == '*' && is_same(types, plain(body), plain(claim))
}

// Whether the condition claims a bit with no mark, and both branches what the cell claims.
fn condition_claims(program: &Program, at: usize, claim: usize) -> bool {
    let types = program.types;
    let then = program.past(at + 1);
    let other = program.past(then);
    kind_at(types, program.claim(at + 1)) == 'b'
        && is_same(types, plain(program.claim(then)), plain(claim))
        && is_same(types, plain(program.claim(other)), plain(claim))
}

/// Whether the cell at a place and its parts claim what the typing rule of its letter asks.
pub fn claims_agree(program: &Program, at: usize, cell: TermCell, scope: &Scope) -> bool {
    let types = program.types;
    let claim = cell.claim as usize;
    match cell.op {
        'v' => variable_claims(types, scope, cell),
        's' => take_apart(types, claim).kind == 'u',
        'a' => application_claims(program, at, claim),
        'l' => function_claims(program, at, claim),
        'p' => pair_claims(program, at, claim),
        'd' => let_claims(program, at, claim),
        'i' => condition_claims(program, at, claim),
        _ => {
            let own = plain(own_place(cell.op, cell.argument));
            is_subtype(&OWN_TYPES, own, types, plain(claim))
        }
    }
}

/// The types of the binders in scope, the outermost first.
pub struct Scope {
    pub binders: [Marked; MOST_BINDERS],
    pub depth: usize,
}

/// One binder more.
pub fn bind(scope: &mut Scope, binder: Marked) {
    let depth = scope.depth;
    scope.binders[depth] = binder;
    scope.depth = depth + 1;
}

// How many binders the letter of a cell puts in scope.
fn binders_of(op: char) -> usize {
    match op {
        'l' => 1,
        'd' => 2,
        _ => 0,
    }
}

/// The tests of a cell that need only the number of binders in scope.
pub fn test_depth(cell: TermCell, at: usize, depth: usize) -> Result<(), CheckFault> {
    if depth + binders_of(cell.op) > MOST_BINDERS {
        return Err(CheckFault::TooDeep(at));
    }
    if cell.op == 'v' && (cell.argument as usize) >= depth {
        return Err(CheckFault::NoBinder(at));
    }
    Ok(())
}

// Whether the values of a type may be copied.
fn is_duplicable(types: &[TypeCell], binder: Marked) -> bool {
    binder.marks > 0 || kind_at(types, binder.place) == '!'
}

/// Whether each binder in scope that is in the set has a duplicable type.
pub fn is_clear(types: &[TypeCell], scope: &Scope, used: Used) -> bool {
    for level in 0..scope.depth.min(MOST_BINDERS) {
        if has(used, level) && !is_duplicable(types, scope.binders[level]) {
            return false;
        }
    }
    true
}

/// The tests of both tables as wholes.
pub fn test_tables(types: &[TypeCell], terms: &[TermCell]) -> Result<(), CheckFault> {
    if types.len() > MOST_TYPE_CELLS {
        return Err(CheckFault::TooManyCells(MOST_TYPE_CELLS));
    }
    if terms.len() > MOST_TERM_CELLS {
        return Err(CheckFault::TooManyCells(MOST_TERM_CELLS));
    }
    if let Some(cell) = types
        .iter()
        .position(|cell| kind_parts(cell.kind).is_none())
    {
        return Err(CheckFault::BadCell(cell));
    }
    if let Some(cell) = terms
        .iter()
        .position(|cell| !is_allowed(*cell) || cell.op == 'q')
    {
        return Err(CheckFault::BadCell(cell));
    }
    if count(types).is_none() {
        return Err(CheckFault::NotWhole(0));
    }
    let Some(end) = reach(terms, 0) else {
        return Err(CheckFault::NotWhole(0));
    };
    if end != terms.len() {
        return Err(CheckFault::NotWhole(end));
    }
    if let Some(cell) = terms
        .iter()
        .position(|cell| cell.claim as usize >= types.len())
    {
        return Err(CheckFault::ClaimOutside(cell));
    }
    Ok(())
}

/// Which levels are in the set, a bit for each.
#[derive(Clone, Copy)]
pub struct Used {
    pub levels: u32,
}

/// No level.
pub fn none() -> Used {
    Used { levels: 0 }
}

/// One level.
pub fn only(level: usize) -> Used {
    Used { levels: 1 << level }
}

/// Whether a level is in the set.
pub fn has(used: Used, level: usize) -> bool {
    level < MOST_BINDERS && (used.levels >> level) & 1 == 1
}

/// The levels of one set or the other.
pub fn either(a: Used, b: Used) -> Used {
    Used {
        levels: a.levels | b.levels,
    }
}

/// The levels of both sets.
pub fn shared(a: Used, b: Used) -> Used {
    Used {
        levels: a.levels & b.levels,
    }
}
