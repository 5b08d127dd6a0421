//! A stored program to cells.

use super::calculus::*;

// The letter of a field that is one byte.
fn letter(field: &[u8]) -> Option<char> {
    match field {
        [b] => Some(char::from(*b)),
        _ => None,
    }
}

/// The cell of a kind field.
pub fn type_cell(kind: &[u8]) -> Result<TypeCell, ReadReason> {
    match letter(kind) {
        Some(kind) if kind_parts(kind).is_some() => Ok(TypeCell { kind }),
        _ => Err(ReadReason::Line),
    }
}

/// The cell of an op field and two number fields.
pub fn term_cell(op: &[u8], argument: &[u8], claim: &[u8]) -> Result<TermCell, ReadReason> {
    match letter(op) {
        Some(op) if op_shape(op).is_some() => {
            let (argument, claim) = numbers(argument, claim)?;
            Ok(TermCell {
                op,
                argument,
                claim,
            })
        }
        _ => Err(ReadReason::Line),
    }
}

/// The numbers of two fields.
pub fn numbers(first: &[u8], second: &[u8]) -> Result<(u16, u16), ReadReason> {
    match (number(first), number(second)) {
        (Some(first), Some(second)) => Ok((first, second)),
        _ => Err(ReadReason::Number),
    }
}

/// Writes a cell at a place of a table, below a limit, and answers the next place.
pub fn put<T: Copy>(table: &mut [T], at: usize, most: usize, cell: T) -> Result<usize, ReadReason> {
    if at >= most || at >= table.len() {
        return Err(ReadReason::Full);
    }
    table[at] = cell;
    Ok(at + 1)
}

/// Why a line is refused.
#[derive(Clone, Copy, PartialEq, Eq, Debug)]
pub enum ReadReason {
    /// Line 1 is not the header.
    Header,
    /// The line is not allowed here, or its fields or letters are wrong.
    Line,
    /// A number field is malformed.
    Number,
    /// The table handed over, or the limit of a program, is full.
    Full,
    /// The text ends where an ended line is due, or the counts differ.
    End,
}

impl ReadReason {
    /// The number of the fault, from 11 to 15.
    pub fn number(self) -> u16 {
        match self {
            ReadReason::Header => 11,
            ReadReason::Line => 12,
            ReadReason::Number => 13,
            ReadReason::Full => 14,
            ReadReason::End => 15,
        }
    }

    /// The fault for this reason at a line.
    pub fn at(self, line: usize) -> ReadFault {
        ReadFault { reason: self, line }
    }
}

/// A refused read: the reason, and the number of the line at fault, from 1 on.
#[derive(Clone, Copy, PartialEq, Eq, Debug)]
pub struct ReadFault {
    pub reason: ReadReason,
    pub line: usize,
}

impl ReadFault {
    /// The number of the fault, from 11 to 15.
    pub fn number(self) -> u16 {
        self.reason.number()
    }
}

/// A line, its fields being parts of the text.
#[derive(Clone, Copy)]
pub enum Record<'a> {
    Header,
    Kind(&'a [u8]),
    Term(&'a [u8], &'a [u8], &'a [u8]),
    Counts(&'a [u8], &'a [u8]),
    Other,
}

// The line, if the first field is the letter that it asks for.
fn lettered<'a>(field: &[u8], letter: &[u8], line: Record<'a>) -> Record<'a> {
    if field == letter { line } else { Record::Other }
}

/// The record that a line is.
pub fn record_of(line: &[u8]) -> Record<'_> {
    if line == b"QL\t1".as_slice() {
        return Record::Header;
    }
    let Some((letter, rest)) = parted(line, b'\t') else {
        return Record::Other;
    };
    let Some((first, rest)) = parted(rest, b'\t') else {
        return lettered(letter, b"T", Record::Kind(rest));
    };
    let Some((second, rest)) = parted(rest, b'\t') else {
        return lettered(letter, b"E", Record::Counts(first, rest));
    };
    match parted(rest, b'\t') {
        None => lettered(letter, b"M", Record::Term(first, second, rest)),
        Some(_) => Record::Other,
    }
}

// The value of decimal digits, where it is at most 65,535.
fn digits(text: &[u8]) -> Option<u16> {
    let mut value: u16 = 0;
    for b in text {
        if !b.is_ascii_digit() {
            return None;
        }
        let digit = u16::from(*b - b'0');
        value = value.checked_mul(10)?.checked_add(digit)?;
    }
    Some(value)
}

/// A number of one to five digits, with no leading zero, at most 65,535.
pub fn number(field: &[u8]) -> Option<u16> {
    if field.len() == 0 || field.len() > 5 {
        return None;
    }
    if field[0] == b'0' && field.len() > 1 {
        return None;
    }
    digits(field)
}

/// What stands before the first byte that is `mark`, and what stands after it; nothing where there is none.
pub fn parted(text: &[u8], mark: u8) -> Option<(&[u8], &[u8])> {
    for (i, b) in text.iter().enumerate() {
        if *b == mark {
            return Some((&text[0..i], &text[i + 1..]));
        }
    }
    None
}

/// Where a read stands: its section and the cells so far.
#[derive(Clone, Copy)]
pub struct Place {
    pub section: Section,
    pub kinds: usize,
    pub ops: usize,
}

// Takes in a line, and answers where the read stands after it.
fn take_line(
    place: Place,
    line: &[u8],
    types: &mut [TypeCell],
    terms: &mut [TermCell],
) -> Result<Place, ReadReason> {
    let record = record_of(line);
    let section = next_section(place.section, record)?;
    let mut next = Place { section, ..place };
    match record {
        Record::Kind(kind) => {
            let cell = type_cell(kind)?;
            next.kinds = put(types, place.kinds, MOST_TYPE_CELLS, cell)?;
        }
        Record::Term(op, argument, claim) => {
            let cell = term_cell(op, argument, claim)?;
            next.ops = put(terms, place.ops, MOST_TERM_CELLS, cell)?;
        }
        Record::Header | Record::Counts(_, _) | Record::Other => {}
    }
    Ok(next)
}

// The verdict at the end of the text, by what stands after its last ended line.
fn close(rest: &[u8], due: usize, place: Place) -> Result<(usize, usize), ReadFault> {
    let Section::End(kinds, ops) = place.section else {
        return Err(ReadReason::End.at(due));
    };
    if !rest.is_empty() {
        return Err(ReadReason::Line.at(due));
    }
    if (kinds as usize, ops as usize) != (place.kinds, place.ops) {
        return Err(ReadReason::End.at(due - 1));
    }
    Ok((place.kinds, place.ops))
}

/// Reads a stored program to the front of two tables, and answers how many cells of each there are.
/// A refused read leaves the cells of the lines before the one at fault.
pub fn read(
    text: &[u8],
    types: &mut [TypeCell],
    terms: &mut [TermCell],
) -> Result<(usize, usize), ReadFault> {
    let mut place = Place {
        section: Section::Header,
        kinds: 0,
        ops: 0,
    };
    let mut due = 1;
    let mut rest = text;
    while let Some((line, after)) = parted(rest, b'\n') {
        match take_line(place, line, types, terms) {
            Ok(next) => place = next,
            Err(reason) => return Err(reason.at(due)),
        }
        due += 1;
        rest = after;
    }
    close(rest, due, place)
}

/// The part of the text that a line stands in.
#[derive(Clone, Copy, PartialEq, Eq, Debug)]
pub enum Section {
    Header,
    Types,
    Terms,
    End(u16, u16),
}

/// The section after a line, where the line is allowed and its counts are numbers.
pub fn next_section(section: Section, line: Record) -> Result<Section, ReadReason> {
    match (section, line) {
        (Section::Header, Record::Header) => Ok(Section::Types),
        (Section::Header, _) => Err(ReadReason::Header),
        (Section::Types, Record::Kind(_)) => Ok(Section::Types),
        (Section::Types | Section::Terms, Record::Term(_, _, _)) => Ok(Section::Terms),
        (Section::Types | Section::Terms, Record::Counts(kinds, ops)) => {
            let (kinds, ops) = numbers(kinds, ops)?;
            Ok(Section::End(kinds, ops))
        }
        _ => Err(ReadReason::Line),
    }
}
