//! Feeds the proved library and its twin the same programs, compares every answer, and prints how fast both are.
//!
//! A ratio is the time of the proved library by the time of the twin: at 1 both are as fast, below 1 the proved library is faster.

mod compare;
mod measure;
mod plain;
mod plain_timed;
mod programs;
mod proved;
mod timed;
mod twin;

use compare::Tally;
use measure::{both, one};
use plain::{terms_of, types_of};
use programs::{Program, applied, conditions, copies, wide_types};
use proved::Node;
use std::hint::black_box;

/// A row: what was timed, at which size, and both times in nanoseconds.
struct Row {
    what: &'static str,
    size: usize,
    proved: f64,
    plain: f64,
}

/// The columns of every row, with what more there is to say of it.
fn print(row: &Row, before: Option<&Row>, more: &str) {
    let ratio = row.proved / row.plain;
    let growth = match before {
        Some(before) => format!("{:6.2}", row.proved / before.proved),
        None => "     -".into(),
    };
    println!(
        "{:28} {:6} {:12.1} {:12.1} {ratio:7.2} {growth} {more}",
        row.what, row.size, row.proved, row.plain
    );
}

fn heading(title: &str) {
    println!("\n{title}");
    println!(
        "{:28} {:>6} {:>12} {:>12} {:>7} {:>6}",
        "", "size", "proved ns", "twin ns", "ratio", "growth"
    );
}

fn print_all(rows: &[Row]) {
    for (i, row) in rows.iter().enumerate() {
        print(row, i.checked_sub(1).map(|before| &rows[before]), "");
    }
}

/// The time of a copy of so many cells' memory, in nanoseconds.
fn copy_time(cells: usize) -> f64 {
    let from = vec![1u64; cells];
    let mut to = vec![0u64; cells];
    one(&mut |times| {
        for _ in 0..times {
            black_box(&mut to[..]).copy_from_slice(black_box(&from));
        }
        to[0]
    })
}

fn row(
    tally: &mut Tally,
    what: &'static str,
    size: usize,
    proved: measure::Timed,
    plain: measure::Timed,
) -> Row {
    let (proved, plain) = both(tally, what, proved, plain);
    Row {
        what,
        size,
        proved,
        plain,
    }
}

fn read_row(tally: &mut Tally, what: &'static str, text: &[u8]) -> Row {
    row(
        tally,
        what,
        text.len(),
        &mut |times| timed::read(text, times),
        &mut |times| plain_timed::read(text, times),
    )
}

fn check_row(tally: &mut Tally, what: &'static str, program: &Program) -> Row {
    let Program { letters, nodes } = program;
    assert_eq!(
        proved::check(letters, nodes).number,
        0,
        "{what} is accepted"
    );
    let (types, terms) = (types_of(letters), terms_of(nodes));
    row(
        tally,
        what,
        nodes.len(),
        &mut |times| timed::check(letters, nodes, times),
        &mut |times| plain_timed::check(&types, &terms, times),
    )
}

fn find_row(tally: &mut Tally, what: &'static str, nodes: &[Node]) -> Row {
    let terms = terms_of(nodes);
    row(
        tally,
        what,
        nodes.len(),
        &mut |times| timed::find(nodes, times),
        &mut |times| plain_timed::find(&terms, times),
    )
}

fn next_row(tally: &mut Tally, what: &'static str, nodes: &[Node]) -> Row {
    let terms = terms_of(nodes);
    row(
        tally,
        what,
        nodes.len(),
        &mut |times| timed::next(nodes, times),
        &mut |times| plain_timed::next(&terms, times),
    )
}

/// A step of the controller: the run up to the end of the chain less the run of one step, by the steps between.
fn step_row(tally: &mut Tally, cells: usize, steps: usize) -> Row {
    let what = "step of the controller";
    let program = copies((cells - 3 * steps - 10) / 9, steps);
    let Program { letters, nodes } = &program;
    let (types, terms) = (types_of(letters), terms_of(nodes));
    let outcomes = [0; 64];
    let mut run = |budget: u64| {
        both(
            tally,
            what,
            &mut |times| timed::run(letters, nodes, &outcomes, budget, times),
            &mut |times| plain_timed::run(&types, &terms, &outcomes, budget, times),
        )
    };
    let (first, all) = (run(1), run(1 + steps as u64));
    // The mean size of the terms from which these steps start.
    let size = 9 * ((cells - 3 * steps - 10) / 9) + 10 + 3 * steps - 3 * (steps - 1) / 2;
    Row {
        what,
        size,
        proved: (all.0 - first.0) / steps as f64,
        plain: (all.1 - first.1) / steps as f64,
    }
}

fn shot_row(tally: &mut Tally, what: &'static str, text: &[u8]) -> Row {
    let outcomes = compare::outcomes();
    row(
        tally,
        what,
        text.len(),
        &mut |times| timed::shot(text, &outcomes, times),
        &mut |times| plain_timed::shot(text, &outcomes, times),
    )
}

fn steps_table(tally: &mut Tally) {
    heading("steps, by the cells of the term; and in copies of the term's memory");
    let mut before: Option<Row> = None;
    for (cells, steps) in [(64, 4), (128, 8), (256, 16), (512, 16), (1024, 16)] {
        let row = step_row(tally, cells, steps);
        let copy = copy_time(row.size);
        let more = format!(
            "{:5.1} copies (twin {:5.1}); {:9.0} steps a second (twin {:9.0})",
            row.proved / copy,
            row.plain / copy,
            1e9 / row.proved,
            1e9 / row.plain
        );
        print(&row, before.as_ref(), &more);
        before = Some(row);
    }
    for (what, term) in [
        (
            "find, count and write: i",
            (|n| conditions(n / 3).nodes) as fn(usize) -> Vec<Node>,
        ),
        ("find, count and write: l", |n| applied((n - 4) / 2)),
    ] {
        let mut before: Option<Row> = None;
        for cells in [64, 128, 256, 512, 1024] {
            let row = next_row(tally, what, &term(cells));
            let copy = copy_time(row.size);
            let more = format!(
                "{:5.1} copies (twin {:5.1})",
                row.proved / copy,
                row.plain / copy
            );
            print(&row, before.as_ref(), &more);
            before = Some(row);
        }
    }
}

fn main() {
    let mut names: Vec<_> = std::env::args().skip(1).collect();
    names.sort();
    let examples: Vec<Vec<u8>> = names
        .iter()
        .map(|name| std::fs::read(name).expect("the example can be read"))
        .collect();
    let tally = &mut compare::compare(&examples);
    println!(
        "{} answers compared, {} differences",
        tally.answers, tally.differences
    );
    for ((what, number), count) in &tally.by_number {
        print!("{what} {number}: {count}; ");
    }
    println!();

    heading("read, by bytes of the text");
    print_all(
        &[64, 128, 256, 512].map(|n| read_row(tally, "conditions", &conditions(n / 3).text())),
    );
    print_all(
        &[64, 128, 256, 512]
            .map(|n| read_row(tally, "wide types", &wide_types(n / 2, n / 3).text())),
    );

    heading("check, by term cells");
    print_all(
        &[64, 128, 256, 512]
            .map(|n| check_row(tally, "conditions, 1 type cell", &conditions(n / 3))),
    );
    print_all(
        &[64, 128, 256, 512]
            .map(|n| check_row(tally, "256 type cells", &wide_types(256, (n - 2) / 3))),
    );
    print_all(
        &[64, 128, 256, 512]
            .map(|n| check_row(tally, "functions, 41 type cells", &copies((n - 57) / 3, 16))),
    );

    heading("find, by cells of the running term");
    print_all(
        &[64, 128, 256, 512, 1024].map(|n| find_row(tally, "conditions", &conditions(n / 3).nodes)),
    );
    print_all(
        &[64, 128, 256, 512, 1024]
            .map(|n| find_row(tally, "function applied", &applied((n - 4) / 2))),
    );

    steps_table(tally);

    heading("whole shots, by bytes of the text");
    print_all(&[12, 25, 50, 100].map(|n| shot_row(tally, "functions", &copies(n, 16).text())));
    for (name, text) in names.iter().zip(&examples) {
        for (file, what) in [
            ("teleport.ql", "teleport"),
            ("bell.ql", "bell"),
            ("half_adder.ql", "half adder"),
            ("last_step.ql", "1,000 steps"),
        ] {
            if name.ends_with(file) && !name.ends_with(&format!("_{file}")) {
                print(&shot_row(tally, what, text), None, "");
            }
        }
    }
    println!(
        "\n{} sums of timed calls compared, {} differences in all",
        tally.sums, tally.differences
    );
    if tally.differences > 0 {
        std::process::exit(1);
    }
}
