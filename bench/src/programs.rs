//! The programs that both are fed: the examples, changed examples, and programs of growing size.

use crate::proved::Node;

/// A program's tables.
#[derive(Clone)]
pub struct Program {
    pub letters: Vec<u32>,
    pub nodes: Vec<Node>,
}

/// A cell by its letter, argument and claim.
pub fn node(op: char, argument: u16, claim: u16) -> Node {
    Node {
        letter: op as u32,
        argument,
        claim,
    }
}

impl Program {
    fn new(kinds: &str) -> Program {
        Program {
            letters: kinds.chars().map(|kind| kind as u32).collect(),
            nodes: Vec::new(),
        }
    }

    fn put(&mut self, op: char, argument: u16, claim: u16) {
        self.nodes.push(node(op, argument, claim));
    }

    /// The stored program that the tables are read from.
    pub fn text(&self) -> Vec<u8> {
        let mut text = String::from("QL\t1\n");
        for letter in &self.letters {
            text += &format!("T\t{}\n", char::from_u32(*letter).unwrap_or('?'));
        }
        for node in &self.nodes {
            let op = char::from_u32(node.letter).unwrap_or('?');
            text += &format!("M\t{op}\t{}\t{}\n", node.argument, node.claim);
        }
        text += &format!("E\t{}\t{}\n", self.letters.len(), self.nodes.len());
        text.into_bytes()
    }
}

/// Conditions within conditions: as many `i` cells, a bit, and two branches for each; all claim the type at 0.
pub fn conditions(layers: usize) -> Program {
    let mut program = Program::new("b");
    for _ in 0..layers {
        program.put('i', 0, 0);
    }
    program.put('0', 0, 0);
    for _ in 0..layers {
        program.put('1', 0, 0);
        program.put('0', 0, 0);
    }
    program
}

/// Conditions one in the branch of the other, so that each step leaves the next: all claim the type at a place.
fn chain(program: &mut Program, layers: usize, claim: u16) {
    for _ in 0..layers {
        program.put('i', 0, claim);
        program.put('0', 0, claim);
        program.put('1', 0, claim);
    }
    program.put('0', 0, claim);
}

/// A function of a variable whose type has so many cells, in the branches of so many conditions.
pub fn wide_types(type_cells: usize, layers: usize) -> Program {
    // The type of the function is at 0, that of the variable at 1, a result of the same kind after it, and a bit last.
    let part = (type_cells - 2) / 2 | 1;
    let wide = "*b".repeat(part / 2) + "b";
    let mut program = Program::new(&format!(">{wide}{wide}b"));
    let result = 1 + part as u16;
    let bit = 1 + 2 * part as u16;
    program.put('l', 0, 0);
    for _ in 0..layers {
        program.put('i', 0, result);
        program.put('0', 0, bit);
        program.put('v', 0, result);
    }
    program.put('v', 0, result);
    program
}

/// A function that copies its argument, a function of some size, three times beside a chain of conditions: after one step the
/// running term has `9 * inner + 3 * steps + 10` cells, and then makes so many steps more, each of which takes three cells.
pub fn copies(inner: usize, steps: usize) -> Program {
    // 0: !(b>b); 4: its triple and a bit, `* !(b>b) * !(b>b) * !(b>b) b`; then the function from 0 to 4.
    let f = "!>bb";
    let three = format!("*{f}*{f}*{f}b");
    let mut program = Program::new(&format!("{f}{three}>{f}{three}"));
    let bit = 2;
    let (first, second, third) = (4, 9, 14);
    program.put('a', 0, first);
    program.put('l', 0, 20);
    program.put('p', 0, first);
    program.put('v', 0, 0);
    program.put('p', 0, second);
    program.put('v', 0, 0);
    program.put('p', 0, third);
    program.put('v', 0, 0);
    chain(&mut program, steps, bit);
    program.put('l', 0, 0);
    chain(&mut program, inner, bit);
    program
}

/// A function applied to a bit: its body is as many pairs, every fourth of which holds the variable.
pub fn applied(pairs: usize) -> Vec<Node> {
    let mut nodes = vec![node('a', 0, 0), node('l', 0, 0)];
    for i in 0..pairs {
        nodes.push(node('p', 0, 0));
        nodes.push(node(if i % 4 == 0 { 'v' } else { '0' }, 0, 0));
    }
    nodes.push(node('s', 0, 0));
    nodes.push(node('1', 0, 0));
    nodes
}

/// Numbers that look random, the same ones from the same seed.
pub struct Random(pub u64);

impl Random {
    /// A number below another one.
    pub fn below(&mut self, limit: usize) -> usize {
        self.0 ^= self.0 << 13;
        self.0 ^= self.0 >> 7;
        self.0 ^= self.0 << 17;
        ((self.0 >> 8) % limit.max(1) as u64) as usize
    }
}

/// A text with a byte changed, left out or put in, or a line moved.
pub fn damaged(random: &mut Random, text: &[u8]) -> Vec<u8> {
    let bytes = b"\t\n0123456789!>*bquvmnsglapdiTMEQL";
    let mut text = text.to_vec();
    for _ in 0..1 + random.below(2) {
        let at = random.below(text.len());
        let byte = bytes[random.below(bytes.len())];
        match random.below(4) {
            0 if at < text.len() => text[at] = byte,
            1 => text.insert(at, byte),
            2 if at < text.len() => {
                text.remove(at);
            }
            _ => {
                let mut lines: Vec<&[u8]> = text.split_inclusive(|b| *b == b'\n').collect();
                let (from, to) = (random.below(lines.len()), random.below(lines.len()));
                if from < lines.len() && to < lines.len() {
                    lines.swap(from, to);
                }
                text = lines.concat();
            }
        }
    }
    text
}

/// A program with a cell changed.
pub fn damaged_cells(random: &mut Random, program: &Program) -> Program {
    let mut program = program.clone();
    let ops = [
        'v', '0', '1', 'm', 'n', 's', 'g', 'l', 'a', 'p', 'd', 'i', 'q', 'x',
    ];
    let kinds = ['b', 'q', 'u', '!', '>', '*', 'x'];
    if program.nodes.is_empty() {
        return program;
    }
    let at = random.below(program.nodes.len());
    match random.below(4) {
        0 => program.nodes[at].letter = ops[random.below(ops.len())] as u32,
        1 => program.nodes[at].argument = random.below(9) as u16,
        2 => program.nodes[at].claim = random.below(program.letters.len() + 1) as u16,
        _ if !program.letters.is_empty() => {
            let place = random.below(program.letters.len());
            program.letters[place] = kinds[random.below(kinds.len())] as u32;
        }
        _ => {}
    }
    program
}

/// Running cells of any kind, with qubits among them: mostly whole trees.
pub fn running(random: &mut Random, cells: usize) -> Vec<Node> {
    let ops = [
        'v', '0', '1', 'm', 'n', 's', 'g', 'q', 'l', 'a', 'p', 'd', 'i',
    ];
    let mut nodes = Vec::new();
    let mut due: usize = 1;
    while due > 0 && nodes.len() < 1100 {
        let op = if nodes.len() < cells {
            ops[random.below(ops.len())]
        } else {
            ops[random.below(8)]
        };
        let argument = match op {
            'v' | 'q' => random.below(4),
            'g' => random.below(8),
            _ => 0,
        };
        due = due - 1
            + match op {
                'l' => 1,
                'a' | 'p' | 'd' => 2,
                'i' => 3,
                _ => 0,
            };
        nodes.push(node(op, argument as u16, 0));
        if due == 0 && nodes.len() < cells && random.below(10) > 0 {
            nodes.insert(0, node('a', 0, 0));
            due = 1;
        }
    }
    nodes
}
