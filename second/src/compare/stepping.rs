//! Comparing step.

use crate::checking::edge_tables;
use crate::listing::{
    any_state, crowded, each_state, inside_signals, resumed, signals, some_states, start, tested,
    work,
};
use crate::tool::Asked;
use crate::trial::{Outcome, Seen, Trial};
use crate::Amount;
use second::list::{state, too_many, MOST_REACTIONS, MOST_SIGNALS};
use second::random::{any_table, program, sized_table, statement, Random, Taste};
use second::react::{react, Reaction};
use second::statement::Statement::{self, *};
use second::step::{emitted_free, made_of, steps_under, subsets, Answer, Step, MOST_FREE};
use second::table::{read, write, Refusal};
use second::text::parse;
use second::trees::*;
use std::collections::BTreeSet;

/// A program, what is asked, and the answer.
pub type Example = (Statement, Asked, Result<Answer, Refusal>);

/// For each of these signals a part, all in parallel.
fn each(signals: std::ops::Range<u8>, part: impl Fn(u8) -> Statement) -> Statement {
    even(signals.map(part).collect(), parallel)
}

/// A statement that is never started.
fn dead(p: Statement) -> Statement {
    Try(sequence(Exit(1), p).into())
}

/// A try around a statement and an exit to it: what is left of its reactions is what they emit.
fn caught(p: Statement) -> Statement {
    Try(parallel(Exit(1), p).into())
}

/// A statement with m times n different reactions at the start.
fn product(m: u8, n: u8) -> Statement {
    let side = |labels: std::ops::RangeInclusive<u8>| even(labels.map(Gotopause).collect(), choice);
    parallel(side(1..=m), side(m + 1..=m + n))
}

/// Statements with 64 and with 65 reactions at the start.
fn crowds() -> [Statement; 2] {
    [product(8, 8), product(5, 13)]
}

/// S0 decides whether a crowd is started, and no step has S0 in its E: its emit is never started.
fn with_s0(crowd: Statement) -> Statement {
    parallel(Present(0, crowd.into(), Nothing.into()), dead(Emit(0)))
}

/// The answer "one" under E that emits O and ends.
fn one(e: u32, o: u32) -> Result<Answer, Refusal> {
    Ok(Answer::One(Step { e, r: Reaction { o, k: 0, l: 0 } }))
}

/// Ten signals that are emitted outside a declaration, none of them provided.
pub fn ten_signals() -> Example {
    (each(0..10, Emit), start(0), one(1023, 1023))
}

/// The worked examples of order 1. An accepted call with ten signals emitted outside a declaration is
/// provided with all of them here, so that there is one E.
pub fn examples() -> Vec<Example> {
    let (then, other) = ("present S0 then emit S0 end", "present S0 else emit S0 end");
    let local = format!("signal S0 in {then} end");
    let [full, over] = crowds().map(with_s0);
    let beside = parse("emit S0 || signal S0 in emit S0 end");
    let ten = each(0..10, Emit);
    let nine_and_beside = parallel(each(1..10, Emit), beside.clone());
    let ten_and_beside = parallel(each(1..11, Emit), beside.clone());
    let ten_and_declared = parallel(ten.clone(), Signal(10, Emit(10).into()));
    let emits_and_crowd = |emits| parallel(each(0..emits, Emit), product(5, 13));
    let crowd_and_nested = |count| parallel(product(5, 13), inside_signals(count, Nothing));
    vec![
        (Emit(0), start(0), one(1, 1)),
        (Emit(0), start(1), one(1, 1)),
        (parse(then), start(0), Ok(Answer::Several)),
        (parse(then), start(1), one(1, 1)),
        (parse(other), start(0), Ok(Answer::None)),
        (parse(other), start(1), one(1, 0)),
        (parse(&local), start(0), one(0, 0)),
        (beside, start(0), one(1, 1)),
        (ten, start(1023), one(1023, 1023)),
        (nine_and_beside, start(1023), one(1023, 1023)),
        (ten_and_declared, start(1023), one(1023, 1023)),
        (ten_and_beside, start(1), Err(17)),
        (each(0..11, Emit), start(0), Err(17)),
        (each(0..11, Emit), start(2047), Err(17)),
        (dead(each(0..11, Emit)), start(0), Err(17)),
        (parallel(each(0..11, Emit), inside_signals(13, Nothing)), start(0), Err(14)),
        (inside_signals(13, Nothing), start(0), Err(14)),
        (full, start(0), one(0, 0)),
        (over.clone(), start(0), Err(15)),
        (over, start(1), Err(15)),
        // 15 is due to the crowd; one signal more, and 17 or 14 comes before it
        (emits_and_crowd(10), start(0), Err(15)),
        (emits_and_crowd(10), start(1023), Err(15)),
        (emits_and_crowd(11), start(0), Err(17)),
        (emits_and_crowd(11), start(2047), Err(17)),
        (crowd_and_nested(12), start(0), Err(15)),
        (crowd_and_nested(13), start(0), Err(14)),
    ]
}

/// Every state of every tree of a few nodes over these leaves, S31 being provided too at every second
/// call.
pub fn small_trees(t: &mut Trial, amount: Amount) -> Outcome {
    let leaves = [Nothing, Pause(1), Pause(2), Gotopause(1), Emit(0), Emit(1), Exit(1)];
    let mut beyond = 0;
    (1..=amount.tree_nodes()).try_for_each(|n| {
        each_state(n, &leaves, &mut |table, asked| {
            beyond ^= 1 << 31;
            t.step(table, Asked { signals: asked.signals | beyond, ..asked }).map(|_| ())
        })
    })
}

/// Steps, and sees whether 15 is due to E's without a step alone, and whether an accepted call's E's
/// have more reactions together than one list may have.
fn ask(t: &mut Trial, p: &Statement, asked: Asked) -> Outcome {
    let answer = t.step(&write(p), asked)?;
    let (state, i) = (state(asked.mark, asked.labels), asked.signals);
    let assumed = made_of(i, emitted_free(p));
    if answer.is_some() {
        let together = assumed.iter().flat_map(|e| react(p, state, *e));
        if together.collect::<BTreeSet<Reaction>>().len() > MOST_REACTIONS {
            t.counts.see(Seen::ManyTogether);
        }
        return Ok(());
    }
    let (crowded, others): (Vec<u32>, Vec<u32>) =
        assumed.into_iter().partition(|e| too_many(p, state, *e));
    let steps = |e: &u32| steps_under(p, state, i, *e).next().is_some();
    if !crowded.is_empty() && !crowded.iter().any(steps) && others.iter().any(steps) {
        t.counts.see(Seen::CrowdedElsewhere);
    }
    Ok(())
}

/// The worked examples, also with other sets provided, behind a pause, and resumed.
pub fn worked(t: &mut Trial, _: Amount) -> Outcome {
    for (p, asked, _) in examples().into_iter().chain([ten_signals()]) {
        t.step(&write(&p), asked)?;
        let paused = sequence(Pause(1), p.clone());
        for signals in [0, 1, 2, 1023, 1 << 31, u32::MAX] {
            for p in [&p, &paused] {
                t.step(&write(p), start(signals))?;
                t.step(&write(p), resumed(signals, 3))?;
            }
        }
    }
    Ok(())
}

/// How signals S0 and up may hang together, so many of them, each emitted outside a declaration.
fn together(count: u8) -> Vec<Statement> {
    let test = |i, p: Statement, q: Statement| Present(i, p.into(), q.into());
    let next = |i: u8| (i + 1) % count;
    let last = count - 1;
    vec![
        // all of them
        each(0..count, Emit),
        even((0..count).map(Emit).collect(), sequence),
        // each or not
        each(0..count, |i| test(i, Emit(i), Nothing)),
        // never
        each(0..count, |i| test(i, Nothing, Emit(i))),
        // one brings the next: all, or all or nothing, or none
        parallel(Emit(0), each(0..last, |i| test(i, Emit(i + 1), Nothing))),
        each(0..count, |i| test(i, Emit(next(i)), Nothing)),
        each(0..count, |i| test(i, Nothing, Emit(next(i)))),
        // none of them, since nothing starts them
        dead(each(0..count, Emit)),
        // declared as well: beside the emit, and around another one
        each(0..count, |i| parallel(Emit(i), Signal(i, Emit(i).into()))),
        Signal(0, parallel(each(0..count, |i| test(0, Emit(i), Emit(0))), Emit(0)).into()),
        parallel(each(0..count, Emit), Signal(last, each(0..last, Emit).into())),
        // inside declarations of others
        Signal(31, Signal(30, each(0..count, |i| test(31, Emit(i), Emit(i))).into()).into()),
    ]
}

/// 2 to 12 signals emitted outside a declaration, none, some and all of them provided, and others
/// that the table does not have.
pub fn free_signals(t: &mut Trial, _: Amount) -> Outcome {
    for count in 2..=12 {
        for p in together(count) {
            let paused = sequence(Pause(7), p.clone());
            let all = (1_u32 << count) - 1;
            let some = [all & !7, all & !1, 1 << 31 | all >> 1];
            for provided in [0, 1 << 30, all, u32::MAX].into_iter().chain(some) {
                t.step(&write(&p), start(provided))?;
                t.step(&write(&paused), resumed(provided, u64::MAX))?;
                t.step(&write(&paused), resumed(provided, !(1 << 7)))?;
            }
        }
    }
    Ok(())
}

/// 12 and 13 signals inside one another, with 10 and 11 that are emitted outside a declaration.
pub fn nested_and_free(t: &mut Trial, _: Amount) -> Outcome {
    for nested in 12..=13 {
        for free in 10..=11 {
            let inner = inside_signals(nested, Emit(0));
            let beside = parallel(inner, each(12..12 + free, Emit));
            let inside = inside_signals(nested, each(14..14 + free, Emit));
            for p in [beside, inside] {
                for provided in [u32::MAX, !(1 << 14)] {
                    t.step(&write(&p), start(provided))?;
                    t.step(&write(&p), resumed(provided, 2))?;
                }
            }
        }
    }
    Ok(())
}

/// A crowd, one of whose reactions is left, and one behind a pause, each started where S0, or S0 and S1,
/// are there, or are not.
fn started_by_tests(crowd: Statement) -> Vec<Statement> {
    let test = |s, p: Statement, q: Statement| Present(s, p.into(), q.into());
    let paused = sequence(Pause(62), crowd.clone());
    let started = |p: Statement| {
        let both = test(0, test(1, p.clone(), Nothing), Nothing);
        let neither = test(0, Nothing, test(1, Nothing, p.clone()));
        [test(0, p.clone(), Nothing), test(0, Nothing, p), both, neither]
    };
    [caught(crowd.clone()), crowd, paused].into_iter().flat_map(started).collect()
}

/// 64 and 65 reactions under some E and one under the others, in the table's own list and in an inner
/// one. The E's have or lack S0, or S0 and S1; both, one or none of these are provided, and emitted or
/// not.
pub fn crowded_sets(t: &mut Trial, _: Amount) -> Outcome {
    let emits = [dead(each(0..2, Emit)), Emit(0), parallel(Emit(1), dead(Emit(0)))];
    for body in crowds().into_iter().flat_map(started_by_tests) {
        for emit in &emits {
            let p = parallel(body.clone(), emit.clone());
            let paused = sequence(Pause(61), p.clone());
            for provided in [0, 1, 2, 3, 1 << 31] {
                ask(t, &p, start(provided))?;
                ask(t, &paused, resumed(provided, 1 << 61))?;
                ask(t, &paused, resumed(provided, u64::MAX))?;
            }
        }
    }
    Ok(())
}

/// Tests side by side of signals that are emitted outside a declaration, 5 to 10 of them: together the
/// E's tell apart up to 1,024 ways to react, though each has few. They stand alone, beside reactions of
/// their own, in a loop, inside signals that are tested too, and where only one E has over 64 reactions.
pub fn told_apart(t: &mut Trial, _: Amount) -> Outcome {
    for count in 5..=10 {
        let test = |i| Present(i, Emit(i).into(), Gotopause(i + 1).into());
        let tests = each(0..count, test);
        let quiet = each(0..count, |i| Present(i, Nothing.into(), dead(Emit(i)).into()));
        let locals = each(20..23, |i| Present(i, Emit(i).into(), Emit(0).into()));
        let inside = (20..23).fold(parallel(tests.clone(), locals), |p, i| Signal(i, p.into()));
        let last = (0..count).fold(product(5, 13), |p, i| Present(i, p.into(), Nothing.into()));
        let programs = [
            tests.clone(),
            parallel(tests.clone(), choices(3)),
            Loop(sequence(Pause(63), tests.clone()).into()),
            caught(tests),
            parallel(quiet.clone(), last),
            quiet,
            inside,
        ];
        let all = (1 << count) - 1;
        for p in programs {
            let paused = sequence(Pause(62), p.clone());
            let sets = [1 << 31, all >> 1, all & 0x155, all];
            for provided in sets.into_iter().chain((count < 8).then_some(0)) {
                ask(t, &p, start(provided))?;
                ask(t, &paused, resumed(provided, u64::MAX))?;
            }
        }
    }
    Ok(())
}

/// About how many lists the second implementation makes to answer a step.
fn cost(p: &Statement, provided: u32) -> usize {
    work(p) << (emitted_free(p) & !provided).count_ones().min(MOST_FREE)
}

/// Random programs of 3 to 40 nodes, with the first eight sets of their signals provided, at the start
/// and resumed from every set of their labels where there are at most two, else from three random sets.
/// Signals that the program does not have are provided too. Programs whose step would take too long are
/// passed over.
pub fn random_programs(t: &mut Trial, amount: Amount) -> Outcome {
    let mut random = Random(15);
    for _ in 0..amount.of(6_000) {
        let p = program(&mut random, 3, 40);
        if cost(&p, 0) > 2_000 {
            continue;
        }
        let table = write(&p);
        let noise = random.next() as u32 & !signals(&p);
        for provided in subsets(signals(&p).into()).take(8) {
            for asked in some_states(&mut random, &p, provided as u32 | noise, 3) {
                t.step(&table, asked)?;
            }
        }
    }
    Ok(())
}

/// A random program that emits and tests so many signals, now and then inside some of them.
fn many_signals(random: &mut Random, count: u8, n: usize) -> Statement {
    let taste = Taste {
        signals: count,
        labels: 6,
        leaves: [1, 3, 1, 8, 1],
        inner: [u8::from(random.one_in(3)), 5, 4, 5, 1, 1],
    };
    statement(random, &taste, n, 30)
}

/// Random programs that emit and test up to 12 signals, with all but so many provided of those that are
/// emitted outside a declaration. The more E's, the fewer and the smaller the programs; with up to 16, a
/// few have hundreds of nodes.
pub fn many_sets(t: &mut Trial, amount: Amount) -> Outcome {
    let mut random = Random(16);
    for unknown in 0..=MOST_FREE {
        let mut left = amount.of(1_600.min(40 << (MOST_FREE - unknown)));
        while left > 0 {
            let count = random.between(2.max(unknown as usize), 12) as u8;
            let most = if unknown <= 4 && random.one_in(10) { 600 } else { 50 };
            let n = random.between(2 * unknown as usize + 4, most);
            let p = many_signals(&mut random, count, n);
            let free = emitted_free(&p);
            let mut left_out: Vec<u8> = (0..count).filter(|s| free >> s & 1 == 1).collect();
            random.shuffle(&mut left_out);
            left_out.truncate(unknown as usize);
            let all = random.next() as u32 | free;
            let provided = left_out.into_iter().fold(all, |set, signal| set & !(1 << signal));
            if cost(&p, provided) > 200_000 {
                continue;
            }
            left -= 1;
            t.step(&write(&p), start(provided))?;
            t.step(&write(&p), resumed(provided, u64::MAX))?;
            t.step(&write(&p), resumed(provided, random.next()))?;
        }
    }
    Ok(())
}

/// Programs with many reactions, and programs inside 0 to 8 signals that have many tests of them, both
/// with a few signals that are emitted outside a declaration.
pub fn crowded_programs(t: &mut Trial, amount: Amount) -> Outcome {
    let mut random = Random(18);
    for i in 0..amount.of(2_000) {
        let n = random.between(4, 30);
        let p = match i % 3 {
            0 => crowded(&mut random),
            _ => tested(&mut random, (i % 9) as u8, n),
        };
        if p.nested_signals() > MOST_SIGNALS || cost(&p, 0) > 40_000 {
            continue;
        }
        let provided = random.next() as u32 & random.next() as u32;
        for asked in [start(provided), resumed(provided, random.next() | random.next())] {
            t.step(&write(&p), asked)?;
        }
    }
    Ok(())
}

/// So many ways to go on, by labels from this one on; now and then a signal from S0 to S3 decides
/// between two neighbours, so that under some E two ways are the same.
fn ways(random: &mut Random, from: u8, count: u8) -> Statement {
    let way = |label: u8| match random.below(6) {
        0 => Present(random.below(4) as u8, Gotopause(label).into(), Gotopause(label + 1).into()),
        _ => Gotopause(label),
    };
    even((from..from + count).map(way).collect(), choice)
}

/// Programs that have about 64 reactions, under some E a few more and under others a few less, with
/// one to four signals that are emitted, may be, or never are.
pub fn around_64(t: &mut Trial, amount: Amount) -> Outcome {
    let mut random = Random(19);
    for _ in 0..amount.of(4_000) {
        let (m, n) = random.pick(&[(8, 8), (5, 13), (7, 9), (6, 11), (8, 9), (7, 10), (6, 12)]);
        let pairs = parallel(ways(&mut random, 1, m), ways(&mut random, 20, n));
        let signals = random.between(1, 4) as u8;
        let emit = |signal| match random.below(3) {
            0 => Emit(signal),
            1 => Present(signal, Emit(signal).into(), Nothing.into()),
            _ => dead(Emit(signal)),
        };
        let emits = even((0..signals).map(emit).collect(), parallel);
        let p = parallel(pairs, emits);
        let provided = random.next() as u32 & random.next() as u32;
        t.step(&write(&p), start(provided))?;
        t.step(&write(&sequence(Pause(63), p)), resumed(provided, u64::MAX))?;
    }
    Ok(())
}

/// A table of depth 60 with lists that need list's largest area, of which no two E's can be looked at
/// together: made to use as much stack as step can. While a list of 32 reactions is held, one of 64 is
/// made, and while that is held another, which each E has to itself; exits leave one reaction of these.
pub fn largest_stack(t: &mut Trial, _: Amount) -> Outcome {
    let pairs = |m, n, from| {
        let side = |from, count| resumed_choices(from..=from + count - 1);
        parallel(side(from, m), side(from + m, n))
    };
    let left_by = |label, p| Try(parallel(sequence(Pause(label), Exit(1)), p).into());
    let tests = each(0..10, |i| Present(i, Emit(i).into(), Nothing.into()));
    let told_apart = parallel(sequence(Pause(45), tests), pairs(8, 8, 29));
    let held = parallel(pairs(8, 8, 13), left_by(47, told_apart));
    let crowd = parallel(pairs(4, 8, 1), left_by(46, held));
    let chain = inside_tries(57, sequence(Pause(62), Pause(63)));
    let table = write(&parallel(crowd, chain));
    for asked in [start(0), resumed(0, u64::MAX)] {
        t.step(&table, asked)?.ok_or("refused before its largest stack")?;
    }
    Ok(())
}

/// The edges of check, random tables, valid and damaged, and large ones of few signals. Tables whose
/// step would take too long are passed over.
pub fn random_tables(t: &mut Trial, amount: Amount) -> Outcome {
    let mut random = Random(17);
    for table in edge_tables() {
        t.step(&table, start(0))?;
        t.step(&table, resumed(u32::MAX, u64::MAX))?;
    }
    for _ in 0..amount.of(100_000) {
        let mut table = any_table(&mut random);
        if random.one_in(100) {
            let n = random.between(100, 1024);
            table = sized_table(&mut random, n);
        }
        let asked = any_state(&mut random);
        let long = |p: &Statement| {
            p.nested_signals() <= MOST_SIGNALS
                && emitted_free(p).count_ones() <= MOST_FREE
                && cost(p, asked.signals) > 8_000
        };
        if read(&table).is_ok_and(|p| long(&p)) {
            continue;
        }
        t.step(&table, asked)?;
    }
    Ok(())
}

/// Steps a table and its trimmed table in a state that a run meets, after so many steps. Where neither
/// is refused, the answers are the same.
pub fn same_answer(t: &mut Trial, tables: [&[u8]; 2], asked: Asked, steps: u32) -> Outcome {
    let [here, there] = tables.map(|table| t.step(table, asked));
    let (Some(here), Some(there)) = (here?, there?) else { return Ok(()) };
    if here != there {
        return Err(format!(
            "{asked:x?} steps {here:?} and trimmed {there:?}: {:?}",
            read(tables[0])
        ));
    }
    if steps >= 3 && here != Answer::None {
        t.counts.see(Seen::LongStep);
    }
    Ok(())
}
