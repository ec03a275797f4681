//! Rows of step: the library against a plain listing for each E.

use crate::{branches, one, signals_around, straight, time, Row, RESUMED, START};
use second::library;
use second::plain::{self, Asked};
use second::random::{statement, Random, Taste};
use second::statement::Statement::{self, *};
use second::step::{emitted_free, Answer};
use second::table::write;
use second::trees::*;
use Signals::*;

/// No signal provided, at the start and resumed from all labels.
const STATES: [(&str, Asked); 2] =
    [("start", Asked { signals: 0, ..START }), ("resumed", Asked { signals: 0, ..RESUMED })];

/// The answer, E, O and k, and L; of other answers than "one", 0 for all but the first.
type Given = ([u32; 4], u64);

fn by_library(table: &[u8], asked: Asked) -> Given {
    let ([mut answer, mut e, mut o, mut k], mut reached) = ([0; 4], 0);
    let refusal = library::step(table, asked, [&mut answer, &mut e, &mut o, &mut k], &mut reached);
    assert!(refusal == 0, "a step is refused with {refusal}");
    ([answer, e, o, k], reached)
}

fn by_plain(table: &[u8], asked: Asked) -> Given {
    match plain::step(table, asked) {
        Ok(Answer::One(found)) => ([0, found.e, found.r.o, found.r.k.into()], found.r.l),
        Ok(Answer::None) => ([1, 0, 0, 0], 0),
        Ok(Answer::Several) => ([2, 0, 0, 0], 0),
        Err(refusal) => panic!("a step is refused with {refusal}"),
    }
}

fn step(row: &Row, asked: Asked) {
    time("step", row, &mut |table| by_library(table, asked), &mut |table| by_plain(table, asked));
}

/// One emit of each signal and as many pauses as n nodes leave room for, joined at random.
fn small_program(random: &mut Random, n: usize, free: u8) -> Statement {
    let pauses = n.div_ceil(2) as u8 - free;
    let mut parts: Vec<Statement> = (0..free).map(Emit).chain((1..=pauses).map(Pause)).collect();
    random.shuffle(&mut parts);
    let joined = uneven(random, parts, &[parallel, sequence, present]);
    if n % 2 == 0 {
        return Try(joined.into());
    }
    joined
}

/// What a random program does with its signals.
#[derive(Clone, Copy)]
enum Signals {
    /// so many are emitted outside a declaration of them
    Free(u8),
    /// those that are emitted are declared
    Declared,
    /// they are only tested: none is emitted, none declared
    Tested,
}

impl Signals {
    /// How many are emitted outside a declaration of them.
    fn free(self) -> u8 {
        match self {
            Free(count) => count,
            Declared | Tested => 0,
        }
    }

    fn named(self) -> String {
        let others = match self {
            Free(_) => "",
            Declared => ", all declared",
            Tested => ", none declared",
        };
        format!("{} signals{others}", self.free())
    }
}

/// A random program of n nodes.
fn random_program(random: &mut Random, n: usize, signals: Signals) -> Statement {
    let taste = |signals, emit, declaration| Taste {
        signals,
        labels: 8,
        leaves: [1, 2, 1, emit, 1],
        inner: [declaration, 3, 5, 4, 1, 1],
    };
    match signals {
        Free(count) if n < 20 => small_program(random, n, count),
        Free(count) => statement(random, &taste(count, 5, 1), n, 56),
        Declared => signals_around(3, statement(random, &taste(3, 5, 1), n - 3, 56)),
        Tested => statement(random, &taste(3, 0, 0), n, 56),
    }
}

/// So many random tables of that sort whose step is accepted.
fn random_row(
    random: &mut Random,
    n: usize,
    signals: Signals,
    asked: Asked,
    tables: usize,
) -> Vec<Vec<u8>> {
    let free = u32::from(signals.free());
    let mut row = Vec::new();
    while row.len() < tables {
        let p = random_program(random, n, signals);
        if emitted_free(&p).count_ones() == free && plain::step(&write(&p), asked).is_ok() {
            row.push(write(&p));
        }
    }
    row
}

/// S0 is emitted, and each signal brings the next one, so many in all.
fn wired(signals: u8) -> Statement {
    let test = |i| Present(i, Emit(i + 1).into(), Nothing.into());
    let tests = (0..signals.saturating_sub(1)).map(test);
    even(std::iter::once(Emit(0)).chain(tests).collect(), parallel)
}

/// Such signals beside a program of about n nodes, all behind pauses where it is to be resumed.
fn wired_program(n: usize, signals: u8, resumed: bool) -> Statement {
    let left = n.saturating_sub(5 * usize::from(signals)).max(32);
    if resumed {
        return parallel(sequence(Pause(63), wired(signals)), branches(left));
    }
    parallel(wired(signals), straight(left))
}

/// Random programs of so many nodes, and wired ones where signals are emitted outside a declaration.
fn sized(random: &mut Random, n: usize, signals: Signals, tables: usize) {
    for (state, asked) in STATES {
        let name = format!("{state}, {}", signals.named());
        let tables = random_row(random, n, signals, asked, tables);
        step(&Row { name: format!("{name}, random"), tables }, asked);
        if signals.free() > 0 && n > 19 {
            let p = wired_program(n, signals.free(), asked.mark != 0);
            step(&one(format!("{name}, wired"), p), asked);
        }
    }
}

/// Signals that may each be emitted or not, so that no two E's have a reaction in common, beside a
/// program with so many reactions.
fn apart(signals: u8, reactions: u8) -> Statement {
    let test = |i| Present(i, Emit(i).into(), Nothing.into());
    let tests = even((0..signals).map(test).collect(), parallel);
    parallel(sequence(Pause(63), tests), resumed_choices(1..=reactions))
}

pub fn steps(random: &mut Random, tables: usize) {
    println!(
        "step: the signals counted are emitted outside a declaration of them. Of the rows with 0, \
         \"all declared\" emit inside declarations alone, \"none declared\" only test signals."
    );
    let sizes = [16, 64, 256, 1024];
    // of their own, so that the other rows have the same tables with them and without
    let mut others = Random(31);
    for n in sizes {
        sized(random, n, Declared, tables);
        sized(&mut others, n, Tested, tables);
    }
    for n in sizes {
        sized(random, n, Free(5), tables);
    }
    for n in sizes {
        // ten emits take 19 nodes at least
        sized(random, n.max(19), Free(10), tables);
    }
    sized(random, 100, Free(10), tables);
    for signals in [5, 10] {
        for reactions in [1, 2, 8, 32, 33, 62] {
            let name = format!("resumed, {signals} signals apart, {reactions} reactions");
            step(&one(name, apart(signals, reactions)), Asked { signals: 0, ..RESUMED });
        }
    }
}
