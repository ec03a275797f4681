//! Times each operation of the proved library against the plain implementation, on the same
//! generated tables and texts in one process. What both answer is compared first: for reach, trim and
//! step every value that they give, for the others a refusal or the count.
//!
//! Each figure is the best of several batches that take turns. Result buffers are not cleared
//! before a call. A call includes everything that the operation does, the making ready of its
//! work area too.

mod stepping;
mod texts;

use second::library;
use second::plain::{self, Asked};
use second::random::{sized_table, Random};
use second::statement::Statement::{self, *};
use second::table::write;
use second::trees::*;
use std::hint::black_box;
use std::time::{Duration, Instant};

const BATCHES: usize = 15;
const BATCH: Duration = Duration::from_millis(8);

/// The tables of one row: their nodes in the mean, and something to say about them.
struct Row {
    name: String,
    tables: Vec<Vec<u8>>,
}

impl Row {
    fn nodes(&self) -> f64 {
        let count = |t: &Vec<u8>| usize::from(t[0] & 15) << 8 | usize::from(t[1]);
        self.tables.iter().map(count).sum::<usize>() as f64 / self.tables.len() as f64
    }
}

/// Nanoseconds for one pass over the tables.
fn batch<T>(tables: &[Vec<u8>], call: &mut dyn FnMut(&[u8]) -> T) -> f64 {
    let begun = Instant::now();
    let mut passes = 0;
    while begun.elapsed() < BATCH {
        for table in tables {
            black_box(call(black_box(table)));
        }
        passes += 1;
    }
    begun.elapsed().as_nanos() as f64 / f64::from(passes)
}

/// Times both sides on a row and prints it.
fn time<T: PartialEq>(
    operation: &str,
    row: &Row,
    library: &mut dyn FnMut(&[u8]) -> T,
    plain: &mut dyn FnMut(&[u8]) -> T,
) {
    let mut best = [f64::MAX; 2];
    for table in &row.tables {
        assert!(library(table) == plain(table), "{operation}: different answers");
    }
    for _ in 0..BATCHES {
        best[0] = best[0].min(batch(&row.tables, library));
        best[1] = best[1].min(batch(&row.tables, plain));
    }
    let [ours, theirs] = best.map(|ns| ns / row.tables.len() as f64);
    let nodes = row.nodes();
    print!("{operation:<6} {:<42} {nodes:>6.0}", row.name);
    print!(" {ours:>10.0} {:>8.2} {theirs:>10.0} {:>8.2}", ours / nodes, theirs / nodes);
    println!(" {:>7.2}", ours / theirs);
}

fn random_rows(random: &mut Random, tables: usize) -> Vec<Row> {
    let row = |n: usize| Row {
        name: format!("{n} nodes, random"),
        tables: (0..tables).map(|_| sized_table(random, n)).collect(),
    };
    [16, 64, 256, 1024].map(row).into()
}

fn check(row: &Row) {
    time(
        "check",
        row,
        &mut |table| {
            let mut nodes = 0;
            library::check(table, &mut nodes) + nodes
        },
        &mut |table| plain::check(table).unwrap_or_else(|refusal| refusal),
    );
}

fn reach(row: &Row) {
    let rounds: u32 = row.tables.iter().map(|t| plain::reach(t).map_or(0, |r| r.rounds)).sum();
    let rounds = f64::from(rounds) / row.tables.len() as f64;
    let name = format!("{}, {rounds:.1} rounds", row.name);
    time(
        "reach",
        &Row { name, tables: row.tables.clone() },
        &mut |table| {
            let (mut ends, mut start, mut r, mut rounds) = (0, 0, 0, 0);
            let refusal = library::reach(table, &mut ends, &mut start, &mut r, &mut rounds);
            assert!(refusal == 0, "a table is refused with {refusal}");
            (ends, start, r, rounds)
        },
        &mut |table| match plain::reach(table) {
            Ok(found) => (found.ends.into(), found.start, found.r, found.rounds),
            Err(refusal) => panic!("a table is refused with {refusal}"),
        },
    );
}

fn trim(row: &Row) {
    let (mut out, mut other) = ([0; 1282], [0; 1282]);
    time(
        "trim",
        row,
        &mut |table| {
            let (mut nodes, mut bytes, mut thousandths, mut remainder) = (0, 0, 0, 0);
            let numbers = [&mut nodes, &mut thousandths, &mut remainder];
            match library::trim(table, &mut out, numbers, &mut bytes) {
                0 => Ok(plain::Trimmed { nodes, bytes, thousandths, remainder }),
                refusal => Err(refusal),
            }
        },
        &mut |table| plain::trim(table, &mut other),
    );
}

/// So many signals inside one another, S0 and up, the innermost being S0.
fn signals_around(count: usize, p: Statement) -> Statement {
    (0..count).fold(p, |p, i| Signal(i as u8, p.into()))
}

/// So many signals around a program, each of which is emitted before it where S0 is absent. Four
/// nodes for each, and the signal's own.
fn named_signals(count: usize, p: Statement) -> Statement {
    let named = (0..count).fold(p, |p, i| sequence(present(Nothing, Emit(i as u8)), p));
    signals_around(count, named)
}

/// Tests of S0 and up side by side, that emit one of two signals which no statement declares: one
/// reaction under each E, but each test doubles the cases that the E's make.
fn side_by_side(tests: usize) -> Statement {
    let test = |i: usize| Present(i as u8, Emit(29).into(), Emit(30).into());
    even((0..tests).map(test).collect(), parallel)
}

/// For S0 and up, so many, a part that emits it and one that tests it, all in parallel.
fn emitted_and_tested(count: usize) -> Statement {
    let parts = (0..count as u8)
        .flat_map(|i| [Emit(i), Present(i, Emit(30).into(), Nothing.into())])
        .collect();
    even(parts, parallel)
}

/// A program of about n nodes that emits and then stops at pauses; one reaction at the start.
fn straight(n: usize) -> Statement {
    parallel(sequence(kept(n - 10 | 1), Pause(1)), sequence(Pause(2), Emit(3)))
}

/// A program of about n nodes in eight branches that are resumed.
fn branches(n: usize) -> Statement {
    let part = |label: u8| sequence(Pause(label), kept(n / 8 - 3 | 1));
    even((1..=8).map(part).collect(), present)
}

/// Exits of each level from 1 on, behind a pause each, inside so many tries: resumed from all labels, each
/// code goes through as many tries as it leaves, and then on as 0.
fn exits_of_each_level(tries: usize) -> Statement {
    let part = |level| sequence(Pause(level), Exit(level));
    inside_tries(tries, even((1..=tries as u8).map(part).collect(), present))
}

/// How many tries there are around these.
const TRIES: [usize; 4] = [6, 13, 26, 52];

const START: Asked = Asked { signals: u32::MAX, mark: 0, labels: 0 };
const RESUMED: Asked = Asked { signals: u32::MAX, mark: 1, labels: u64::MAX };

fn accepted(table: &[u8], asked: Asked) -> bool {
    plain::list(table, asked, [&mut [0; 4 * 64], &mut [0; 64], &mut [0; 8 * 64]]).is_ok()
}

fn list(row: Row, asked: Asked) {
    assert!(row.tables.iter().all(|table| accepted(table, asked)), "{} is refused", row.name);
    let buffers = || ([0_u8; 4 * 64], [0_u8; 64], [0_u8; 8 * 64]);
    let ((mut o, mut k, mut l), (mut a, mut b, mut c)) = (buffers(), buffers());
    time(
        "list",
        &row,
        &mut |table| {
            let mut count = 0;
            library::list(table, asked, [&mut o, &mut k, &mut l], &mut count) + count
        },
        &mut |table| {
            plain::list(table, asked, [&mut a, &mut b, &mut c]).unwrap_or_else(|refusal| refusal)
        },
    );
}

fn one(name: String, p: Statement) -> Row {
    Row { name, tables: vec![write(&p)] }
}

/// The programs without signals of their own, and the random tables.
fn plain_listings(rows: Vec<Row>) {
    for n in [20, 100, 1000] {
        list(one("start, one reaction".into(), straight(n)), START);
    }
    for n in [100, 1000] {
        list(one("resumed, 8 branches".into(), branches(n)), RESUMED);
    }
    for (state, asked) in [("start", START), ("resumed", RESUMED)] {
        for Row { name, tables } in &rows {
            let mut tables = tables.clone();
            tables.retain(|table| accepted(table, asked));
            list(Row { name: format!("{name}, {state}"), tables }, asked);
        }
    }
}

/// Both states of a program that stands behind a pause where it is to be resumed.
fn both(name: String, around: usize, p: Statement) {
    list(one(format!("start, {name}"), signals_around(around, p.clone())), START);
    let paused = signals_around(around, sequence(Pause(1), p));
    list(one(format!("resumed, {name}"), paused), RESUMED);
}

/// Signals inside one another: named, tested side by side, emitted and tested, not named at all.
fn signal_listings() {
    for n in [100, 300, 1000] {
        for signals in [0, 4, 8, 12] {
            let around = |p| named_signals(signals, p);
            let name = format!("{signals} nested signals");
            list(one(format!("start, {name}"), around(straight(n - 5 * signals))), START);
            list(one(format!("resumed, {name}"), around(branches(n - 5 * signals))), RESUMED);
        }
    }
    for (tests, signals) in [(3, 3), (6, 6), (7, 7), (8, 8), (7, 12), (12, 12)] {
        both(format!("{tests} tests in {signals} signals"), signals, side_by_side(tests));
    }
    for signals in [4, 8, 12] {
        let p = emitted_and_tested(signals);
        both(format!("{signals} signals emitted and tested"), signals, p);
    }
    both("12 signals not named".into(), 12, sequence(even(vec![Emit(31); 33], sequence), Pause(2)));
}

/// Many reactions: by labels that are resumed from, and by local signals that may be either.
fn crowded_listings() {
    for reactions in [1, 2, 4, 8, 16, 32, 63] {
        let p = resumed_choices(1..=reactions);
        list(one(format!("resumed, {reactions} reactions"), p), RESUMED);
    }
    let product = parallel(resumed_choices(1..=8), resumed_choices(9..=16));
    list(one("resumed, 8 by 8 reactions".into(), product), RESUMED);
    for reactions in [1, 2, 4, 8, 16, 32, 64] {
        let p = choices(reactions);
        list(one(format!("start, {reactions} by local signals"), p), START);
    }
}

/// Codes through tries: one, and as many as there are tries.
fn caught_listings() {
    for tries in TRIES {
        let p = inside_tries(tries, Exit(tries as u8));
        list(one(format!("start, 1 exit, {tries} tries"), p), START);
    }
    for tries in TRIES {
        let p = exits_of_each_level(tries);
        list(one(format!("resumed, {tries} exits, {tries} tries"), p), RESUMED);
    }
}

/// The rows of the operations on tables.
fn on_tables(random: &mut Random, tables: usize) {
    println!(
        "{:<6} {:<42} {:>6} {:>10} {:>8} {:>10} {:>8} {:>7}",
        "", "", "nodes", "library ns", "per node", "plain ns", "per node", "ratio"
    );
    let rows = random_rows(random, tables);
    for operation in [check, reach, trim] {
        rows.iter().for_each(operation);
    }
    for operation in [reach, trim] {
        for tries in TRIES {
            let p = exits_of_each_level(tries);
            operation(&one(format!("{tries} exits, {tries} tries"), p));
        }
    }
    for labels in [4, 16, 63] {
        trim(&one(format!("{labels} labels only jumped to"), only_jumped_to(labels)));
    }
    for n in [16, 256, 1024] {
        trim(&one("nothing left".into(), dropped(n)));
    }
    plain_listings(random_rows(random, tables));
    signal_listings();
    crowded_listings();
    caught_listings();
    stepping::steps(random, tables);
}

fn main() {
    let arguments: Vec<String> = std::env::args().skip(1).collect();
    let words: Vec<&str> = arguments.iter().map(String::as_str).collect();
    let (number, only_texts) = match words[..] {
        [] => (Some(16), false),
        ["texts"] => (Some(16), true),
        [number] => (number.parse().ok(), false),
        [number, "texts"] => (number.parse().ok(), true),
        _ => (None, false),
    };
    let Some(tables) = number.filter(|tables| *tables > 0) else {
        eprintln!("usage: benchmark [TABLES IN A ROW OF RANDOM TABLES] [texts]");
        std::process::exit(2);
    };
    println!(
        "{tables} tables in a row of random tables, best of {BATCHES} batches; \
         result buffers are not cleared before a call"
    );
    let mut random = Random(30);
    if !only_texts {
        on_tables(&mut random, tables);
    }
    texts::texts(&mut random, tables);
}
