//! Every answer of both, side by side.

use crate::programs::{
    Program, Random, applied, conditions, copies, damaged, damaged_cells, running, wide_types,
};
use crate::proved::{BLANK, IDLE, NOTHING, Node, PREPARE, READ, Verdict, ZERO};
use crate::{plain, plain_timed, proved, timed};

/// Every handle is below this.
const HANDLES: u64 = 32;

/// So often the calls that are timed are made when they are compared only.
const TIMES: u64 = 2;

/// How many answers and sums of timed calls were compared, and how many differed.
#[derive(Default)]
pub struct Tally {
    pub answers: u64,
    pub sums: u64,
    pub differences: u64,
    pub by_number: std::collections::BTreeMap<(&'static str, u16), u64>,
}

impl Tally {
    fn add<T: PartialEq + std::fmt::Debug>(
        &mut self,
        what: &'static str,
        number: u16,
        proved: T,
        plain: T,
    ) {
        self.answers += 1;
        *self.by_number.entry((what, number)).or_default() += 1;
        if proved != plain {
            self.differences += 1;
            eprintln!("{what} differs:\nproved {proved:?}\ntwin   {plain:?}");
        }
    }

    /// Compares the sums that a timed call of each answers.
    pub fn timed(&mut self, what: &'static str, proved: u64, plain: u64) {
        self.sums += 1;
        if proved != plain {
            self.differences += 1;
            eprintln!("{what}, timed, differs: proved {proved}, twin {plain}");
        }
    }

    /// Tells that more calls of this took no more time.
    pub fn left_out(&mut self, what: &'static str) {
        self.differences += 1;
        eprintln!("{what}: twice the calls take no longer, so that some are left out");
    }

    /// Compares the reads of a text, and the tables after them; hands on the program, if it is one.
    pub fn read(&mut self, text: &[u8]) -> Option<Program> {
        let (mut letters, mut nodes) = ([0; 300], [BLANK; 600]);
        let (mut plain_letters, mut plain_nodes) = (letters, nodes);
        let verdict = proved::read(text, &mut letters, &mut nodes);
        let plain = plain::read(text, &mut plain_letters, &mut plain_nodes);
        self.add(
            "read",
            verdict.number,
            (verdict, &letters[..], &nodes[..]),
            (plain, &plain_letters[..], &plain_nodes[..]),
        );
        self.timed(
            "read",
            timed::read(text, TIMES),
            plain_timed::read(text, TIMES),
        );
        let outcomes = outcomes();
        self.timed(
            "shot",
            timed::shot(text, &outcomes, TIMES),
            plain_timed::shot(text, &outcomes, TIMES),
        );
        (verdict.number == 0).then(|| Program {
            letters: letters[..verdict.type_cells as usize].to_vec(),
            nodes: nodes[..verdict.term_cells as usize].to_vec(),
        })
    }

    /// Compares the checks, the runs with all that they hand back, and every term on the way.
    pub fn tables(&mut self, program: &Program) {
        let Program { letters, nodes } = program;
        let verdict = proved::check(letters, nodes);
        self.add(
            "check",
            verdict.number,
            verdict,
            plain::check(letters, nodes),
        );
        let (types, terms) = (plain::types_of(letters), plain::terms_of(nodes));
        self.timed(
            "check",
            timed::check(letters, nodes, TIMES),
            plain_timed::check(&types, &terms, TIMES),
        );
        let outcomes = outcomes();
        for budget in [1000, 3, 0] {
            let proved = run(proved::run, program, &outcomes, budget);
            let plain = run(plain::run, program, &outcomes, budget);
            self.add("run", proved.0.number, proved, plain);
            self.timed(
                "run",
                timed::run(letters, nodes, &outcomes, budget, TIMES),
                plain_timed::run(&types, &terms, &outcomes, budget, TIMES),
            );
        }
        if verdict.number == 0 {
            self.terms(nodes);
        }
    }

    /// Compares where the first step is, and what it leaves, for every kind of answer; and so on with the next term, some steps far.
    pub fn terms(&mut self, nodes: &[Node]) {
        let mut nodes = nodes.to_vec();
        for step in 0..20 {
            let verdict = proved::find(&nodes);
            self.add("find", verdict.number, verdict, plain::find(&nodes));
            let terms = plain::terms_of(&nodes);
            self.timed(
                "find",
                timed::find(&nodes, TIMES),
                plain_timed::find(&terms, TIMES),
            );
            self.timed(
                "next",
                timed::next(&nodes, TIMES),
                plain_timed::next(&terms, TIMES),
            );
            let mut last = (refused(), vec![]);
            for answer in [NOTHING, ZERO + step % 2, step % 8] {
                let (mut to, mut plain_to) = (vec![BLANK; 1024], vec![BLANK; 1024]);
                let proved = proved::next(&nodes, answer, &mut to);
                let plain = plain::next(&nodes, answer, &mut plain_to);
                self.add("next", proved.number, (proved, &to), (plain, &plain_to));
                let fits = match verdict.rule {
                    PREPARE => answer < HANDLES,
                    READ => answer >= ZERO,
                    _ => answer == NOTHING,
                };
                if fits {
                    last = (proved, to);
                }
            }
            if last.0.number != 0 || verdict.number != 0 {
                return;
            }
            nodes = last.1[..last.0.term_cells as usize].to_vec();
        }
    }
}

/// The outcomes of a tape: pulse k reads k mod 2.
pub fn outcomes() -> Vec<u8> {
    (0..64).map(|k| k % 2).collect()
}

fn refused() -> Verdict {
    Verdict {
        number: 1,
        ..Verdict::default()
    }
}

type Run =
    fn(&[u32], &[Node], &[u8], u64, &mut [Node], &mut [u32], &mut [proved::Pulse]) -> Verdict;

fn run(
    run: Run,
    program: &Program,
    outcomes: &[u8],
    budget: u64,
) -> (Verdict, Vec<Node>, Vec<u32>, Vec<proved::Pulse>) {
    let (mut value, mut kinds, mut pulses) = (vec![BLANK; 1024], vec![0; 256], vec![IDLE; 64]);
    let Program { letters, nodes } = program;
    let verdict = run(
        letters,
        nodes,
        outcomes,
        budget,
        &mut value,
        &mut kinds,
        &mut pulses,
    );
    (verdict, value, kinds, pulses)
}

/// Compares both on the examples, on changed examples, on programs of every size, and on running cells of any kind.
pub fn compare(examples: &[Vec<u8>]) -> Tally {
    let mut tally = Tally::default();
    let mut random = Random(88_172_645_463_325_252);
    let mut programs = Vec::new();
    for text in examples {
        programs.extend(tally.read(text));
    }
    programs.extend((1..=170).map(conditions));
    programs.extend((1..=170).flat_map(|n| [wide_types(256, n), wide_types(2 * n, n)]));
    programs.extend((1..=163).flat_map(|n| [copies(n, 4), copies(n, 16)]));
    let whole: Vec<Vec<u8>> = programs.iter().map(Program::text).collect();
    for (program, text) in programs.iter().zip(&whole) {
        tally.read(text);
        tally.tables(program);
    }
    for _ in 0..20 {
        for (program, text) in programs.iter().zip(&whole) {
            if let Some(read) = tally.read(&damaged(&mut random, text)) {
                tally.tables(&read);
            }
            tally.tables(&damaged_cells(&mut random, program));
        }
    }
    for pairs in 1..512 {
        tally.terms(&applied(pairs));
    }
    for layers in 1..=341 {
        tally.terms(&conditions(layers).nodes);
    }
    for i in 0..4000 {
        tally.terms(&running(&mut random, 1 + i % 200));
    }
    tally
}
