//! Comparing list, and the search along common runs of a table and its trimmed table.

use crate::checking::edge_tables;
use crate::stepping::same_answer;
use crate::tool::Asked;
use crate::trial::{Outcome, Seen, Trial};
use crate::trimming::AMPLE;
use crate::Amount;
use second::list::{state, too_many, MOST_REACTIONS, MOST_SIGNALS};
use second::random::{any_table, program, statement, Random, Taste, TASTES};
use second::react::react;
use second::statement::Statement::{self, *};
use second::step::subsets;
use second::table::{read, write};
use second::text::parse;
use second::trees::*;
use std::collections::BTreeSet;

/// Buffers for 70 reactions.
pub const ROOMY: [usize; 3] = [4 * 70, 70, 8 * 70];

/// The signals that a statement uses, also in declarations.
pub fn signals(p: &Statement) -> u32 {
    let own = match p {
        Emit(s) | Signal(s, _) | Present(s, _, _) => 1 << s,
        _ => 0,
    };
    p.children().fold(own, |set, child| set | signals(child))
}

/// About how many lists the second implementation makes, so that tests stay short.
pub fn work(p: &Statement) -> usize {
    let below: usize = p.children().map(work).sum();
    1 + if matches!(p, Signal(_, _)) { 2 * below } else { below }
}

pub fn start(signals: u32) -> Asked {
    Asked { signals, mark: 0, labels: u64::MAX }
}

pub fn resumed(signals: u32, labels: u64) -> Asked {
    Asked { signals, mark: 1, labels }
}

/// Visits every tree of n nodes over these leaves that check accepts, S0 being the only signal of inner
/// nodes: at the start and resumed from every set of its own labels, with every set of the signals that
/// it uses.
pub fn each_state(
    n: usize,
    leaves: &[Statement],
    visit: &mut dyn FnMut(&[u8], Asked) -> Outcome,
) -> Outcome {
    each_tree(n, leaves, &mut |p| {
        let table = write(p);
        if read(&table).is_err() {
            return Ok(());
        }
        for e in subsets(signals(p).into()) {
            visit(&table, start(e as u32))?;
            for labels in subsets(p.pauses()) {
                visit(&table, resumed(e as u32, labels))?;
            }
        }
        Ok(())
    })
}

/// Every state of every tree of a few nodes over these leaves.
pub fn small_trees(t: &mut Trial, amount: Amount) -> Outcome {
    let leaves = [Nothing, Pause(1), Pause(2), Gotopause(1), Emit(0), Exit(1)];
    (1..=amount.tree_nodes()).try_for_each(|n| {
        each_state(n, &leaves, &mut |table, asked| t.list(table, asked, ROOMY).map(|_| ()))
    })
}

/// A search for the reason of a 15: whether it is given for an inner list alone.
fn ask(t: &mut Trial, p: &Statement, asked: Asked) -> Outcome {
    let state = state(asked.mark, asked.labels);
    if p.nested_signals() <= 12
        && too_many(p, state, asked.signals)
        && react(p, state, asked.signals).len() <= MOST_REACTIONS
    {
        t.counts.see(Seen::InnerTooMany);
    }
    t.list(&write(p), asked, ROOMY).map(|_| ())
}

/// 64 and 65 reactions, at the table's own list and at an inner one that is needed or not.
pub fn reactions_edge(t: &mut Trial, _: Amount) -> Outcome {
    let everything = u32::MAX;
    for n in [2, 64, 65] {
        let core = choices(n);
        let jumped = sequence(Gotopause(63), core.clone());
        let programs = [
            core.clone(),
            Try(parallel(core.clone(), Exit(1)).into()),
            Try(sequence(Exit(1), core.clone()).into()),
            Try(sequence(core.clone(), Exit(1)).into()),
            sequence(core.clone(), parse("loop nothing end")),
            parse("present S0 then 62:pause end"),
            Present(0, core.clone().into(), Nothing.into()),
            Signal(0, Present(0, Nothing.into(), core.clone().into()).into()),
            Loop(sequence(Pause(62), core.clone()).into()),
            Loop(parallel(Pause(62), jumped.clone()).into()),
            sequence(Pause(62), parallel(core.clone(), Pause(61))),
            parallel(sequence(Pause(62), Loop(core.clone().into())), Pause(61)),
            Try(sequence(sequence(Pause(62), Exit(1)), core).into()),
        ];
        for p in &programs {
            for assumed in [everything, 0] {
                ask(t, p, start(assumed))?;
                for labels in [1 << 62, u64::MAX] {
                    ask(t, p, resumed(assumed, labels))?;
                }
            }
        }
    }
    for (m, n) in [(8, 8), (7, 9), (5, 13), (4, 16), (1, 63), (2, 33), (11, 6), (1, 62)] {
        let p = parallel(resumed_choices(1..=m), resumed_choices(m + 1..=(m + n).min(63)));
        let caught = Try(sequence(p.clone(), Exit(1)).into());
        for labels in [u64::MAX, u64::MAX - 2, !0 << 1, (1 << (m + 1)) - 1, !((1 << (m + 1)) - 1)] {
            ask(t, &p, resumed(0, labels))?;
            ask(t, &caught, resumed(0, labels))?;
            ask(t, &Loop(p.clone().into()), resumed(0, labels))?;
        }
    }
    Ok(())
}

/// So many signals inside one another, around a statement; the innermost is S0.
pub fn inside_signals(count: usize, p: Statement) -> Statement {
    (0..count).fold(p, |p, i| Signal(i as u8, p.into()))
}

/// 11 to 14 signals inside one another, also where a listing does not meet them; 1,021 to 1,024
/// nodes; depth 60.
pub fn signals_edge(t: &mut Trial, _: Amount) -> Outcome {
    let body = parse("present S0 then emit S0 || emit S1 else emit S31 ; 1:pause end");
    for count in 11..=14 {
        let deep = inside_signals(count, body.clone());
        let shadowed = (0..count).fold(body.clone(), |p, _| Signal(0, p.into()));
        let unmet = Try(sequence(Exit(1), inside_signals(count, Nothing)).into());
        let beside = parallel(inside_signals(count / 2, Nothing), inside_signals(count, Nothing));
        for p in [deep, shadowed, unmet, beside] {
            for assumed in [0, u32::MAX] {
                ask(t, &p, start(assumed))?;
                ask(t, &p, resumed(assumed, 2))?;
            }
        }
    }
    for n in 1021..=1024 {
        let p = sequence(kept(n - 8), parse("loop 1:pause ; emit S1 || 2:pause ; emit S2 end"));
        for assumed in [0, 1, u32::MAX] {
            ask(t, &p, start(assumed))?;
            (0..8).try_for_each(|labels| ask(t, &p, resumed(assumed, labels)))?;
        }
    }
    ask(t, &inside_loops(59, Pause(1)), resumed(0, 2))
}

/// Tables of depth 60 with lists that need list's largest area, made to use as much stack as list can.
pub fn largest_stack(t: &mut Trial, _: Amount) -> Outcome {
    let crowd = inside_signals(4, sequence(Pause(62), choices(64)));
    for join in [present, sequence, parallel] {
        let bottom = join(Pause(60), Pause(61));
        let chain = inside_tries(57, bottom);
        let table = write(&parallel(crowd.clone(), chain));
        t.list(&table, start(1), ROOMY)?;
        t.list(&table, resumed(1, u64::MAX), ROOMY)?;
    }
    Ok(())
}

/// In each of the three buffers, every length from a place and a byte under what the reactions need
/// to two places and a byte over it; all three just long enough; all three empty.
pub fn buffers(t: &mut Trial, amount: Amount) -> Outcome {
    let mut random = Random(8);
    let mut programs: Vec<Statement> =
        [1, 2, 3, 4, 7, 63, 64, 65].into_iter().map(choices).collect();
    let taste = &TASTES[3];
    for _ in 0..amount.of(100) {
        let n = random.between(1, 20);
        programs.push(statement(&mut random, taste, n, 60));
    }
    for p in &programs {
        let table = write(p);
        for asked in [start(u32::MAX), resumed(u32::MAX, u64::MAX)] {
            let count = t.list(&table, asked, ROOMY)?.map_or(0, |reactions| reactions.len());
            for (buffer, width) in [4, 1, 8].into_iter().enumerate() {
                for bytes in (width * count).saturating_sub(width + 1)..=width * (count + 2) + 1 {
                    let mut lent = ROOMY;
                    lent[buffer] = bytes;
                    t.list(&table, asked, lent)?;
                }
            }
            t.list(&table, asked, [4 * count, count, 8 * count])?;
            t.list(&table, asked, [0; 3])?;
        }
    }
    Ok(())
}

/// The start, and states resumed from every set of p's labels where there are at most two, else from
/// so many random sets, by any mark.
pub fn some_states(random: &mut Random, p: &Statement, signals: u32, count: usize) -> Vec<Asked> {
    let labels: Vec<u64> = if p.pauses().count_ones() <= 2 {
        subsets(p.pauses()).collect()
    } else {
        (0..count).map(|_| random.next() & (random.next() | p.pauses())).collect()
    };
    let mut mark = || random.pick(&[1, 2, 256, 65_536, u32::MAX]);
    let resumed = labels.into_iter().map(|labels| Asked { signals, mark: mark(), labels });
    std::iter::once(start(signals)).chain(resumed).collect()
}

/// Random programs of 3 to 40 nodes, under the first 16 sets of their signals, at the start and
/// resumed from every set of their labels where there are at most two, else from five random sets.
/// Programs whose listing would take too long are passed over.
pub fn random_programs(t: &mut Trial, amount: Amount) -> Outcome {
    let mut random = Random(9);
    for _ in 0..amount.of(8_000) {
        let p = program(&mut random, 3, 40);
        if work(&p) > 2_000 {
            continue;
        }
        let table = write(&p);
        let noise = random.next();
        for e in subsets(signals(&p).into()).take(16) {
            let assumed = e as u32 | noise as u32 & !signals(&p);
            for asked in some_states(&mut random, &p, assumed, 5) {
                t.list(&table, asked, ROOMY)?;
            }
        }
    }
    Ok(())
}

/// A statement with several reactions at the start, of so many levels.
fn ambiguous(random: &mut Random, levels: usize) -> Statement {
    if levels == 0 {
        return match random.below(12) {
            0 | 1 => Nothing,
            2 => Exit(1),
            3 => Gotopause(random.between(1, 6) as u8),
            _ => Emit(random.below(4) as u8),
        };
    }
    let (p, q) = (ambiguous(random, levels - 1), ambiguous(random, levels - 1));
    random.pick(&[choice as Joiner, choice, sequence, sequence, parallel])(p, q)
}

/// A program with many reactions in a state: one for each label, and choices after it.
pub fn crowded(random: &mut Random) -> Statement {
    let blocks = (1..=random.between(2, 20) as u8)
        .map(|label| {
            let levels = random.below(4);
            let after = ambiguous(random, levels);
            sequence(Pause(label), if random.one_in(2) { Gotopause(label) } else { after })
        })
        .collect();
    let joins = [present, sequence, parallel];
    let body = uneven(random, blocks, &joins);
    let before = ambiguous(random, 2);
    Try(match random.below(4) {
        0 => Loop(body.into()),
        1 => sequence(body, Exit(1)),
        2 => choice(body, before),
        _ => sequence(before, body),
    }
    .into())
}

/// Crowded programs, at the start and resumed from most of their labels.
pub fn crowded_programs(t: &mut Trial, amount: Amount) -> Outcome {
    let mut random = Random(12);
    for _ in 0..amount.of(20_000) {
        let assumed = random.next() as u32 | random.next() as u32 | random.next() as u32;
        let labels = random.next() | random.next();
        t.list(&write(&crowded(&mut random)), resumed(assumed, labels), ROOMY)?;
        let levels = random.between(1, 5);
        let started = Try(ambiguous(&mut random, levels).into());
        t.list(&write(&started), start(assumed), ROOMY)?;
    }
    Ok(())
}

/// A leaf or a small part, without pauses and without tests of these signals.
fn small(random: &mut Random, signals: u8) -> Statement {
    let emit = |random: &mut Random| Emit(random.below(usize::from(signals) + 2) as u8);
    match random.below(6) {
        0 => Nothing,
        1 => Gotopause(random.between(1, 8) as u8),
        2 | 3 => emit(random),
        4 => sequence(emit(random), emit(random)),
        _ => choice(Nothing, emit(random)),
    }
}

/// Tests of the signals side by side: each doubles the cases that a listing without an E would have
/// to tell apart. Now and then a test emits its own signal, which then may be either, and each such
/// test doubles the reactions.
fn side_by_side(random: &mut Random, signals: u8, tests: usize) -> Statement {
    let parts = (0..tests)
        .map(|i| {
            let signal = (i % (usize::from(signals) + 2)) as u8;
            let (p, q) = (small(random, signals), small(random, signals));
            let p = if random.one_in(3) { sequence(Emit(signal), p) } else { p };
            Present(signal, p.into(), q.into())
        })
        .collect();
    let tests = uneven(random, parts, &[parallel, parallel, sequence]);
    match random.below(4) {
        0 => tests,
        1 => Loop(sequence(Pause(1), tests).into()),
        2 => sequence(Pause(1), tests),
        _ => parallel(sequence(tests, Pause(2)), sequence(Pause(1), small(random, signals))),
    }
}

/// A random program that emits and tests S0 and up, so many signals and two more.
fn testing(random: &mut Random, signals: u8, n: usize) -> Statement {
    let taste = Taste {
        signals: signals + 2,
        labels: 6,
        leaves: [1, 3, 1, 6, 1],
        inner: [0, 6, 4, 4, 1, 1],
    };
    statement(random, &taste, n, 30)
}

/// A program inside so many signals, most of which it emits and tests. Between them, now and then, a
/// loop, a try or another part; now and then one signal is declared twice.
pub fn tested(random: &mut Random, signals: u8, n: usize) -> Statement {
    let body = match random.below(6) {
        0 | 1 => {
            let tests = random.between(1, if signals > 8 { 8 } else { 10 });
            side_by_side(random, signals, tests)
        }
        2 => {
            let tests = side_by_side(random, signals, 3);
            Try(parallel(tests, ambiguous(random, 3)).into())
        }
        _ => testing(random, signals, n),
    };
    (0..signals).fold(body, |p, i| {
        let signal = if random.one_in(12) { random.below(signals.into()) as u8 } else { i };
        let p = Signal(signal, p.into());
        match random.below(16) {
            0 => Loop(p.into()),
            1 => Try(p.into()),
            2 => sequence(small(random, signals), p),
            3 => parallel(p, small(random, signals)),
            _ => p,
        }
    })
}

/// Programs inside 0 to 12 signals that have many tests of them: under a random E at the start and
/// resumed from all labels, under another resumed from a random set. The more signals, the fewer and
/// the smaller the programs; inside up to four, a few have hundreds of nodes.
pub fn tested_signals(t: &mut Trial, amount: Amount) -> Outcome {
    let mut random = Random(14);
    for signals in 0..=MOST_SIGNALS {
        let mut programs = vec![inside_signals(signals, testing(&mut random, signals as u8, 10))];
        while programs.len() < amount.of(600.min(6 << (MOST_SIGNALS - signals))) {
            let n = match signals {
                0..=4 if random.one_in(10) => random.between(100, 400),
                0..=8 => random.between(4, 30),
                _ => random.between(4, 16),
            };
            let p = tested(&mut random, signals as u8, n);
            if p.nested_signals() <= MOST_SIGNALS && work(&p) <= 200_000 {
                programs.push(p);
            }
        }
        for p in programs {
            let table = write(&p);
            let assumed = random.next() as u32;
            let mut states = vec![start(assumed), resumed(assumed, u64::MAX)];
            states.push(resumed(random.next() as u32, random.next()));
            for asked in states {
                let listed = t.list(&table, asked, ROOMY)?;
                if listed.is_some() {
                    t.counts.inside[p.nested_signals()] += 1;
                }
            }
        }
    }
    Ok(())
}

/// Programs in which a body has 63 to 66, or far more, ways to react that signals around it tell
/// apart, though few reactions under any one set: so many tests of signals side by side, and so many
/// single reactions beside them in a resumed present. The signals stand outermost, inside another one
/// that is tested too, and with one of them declared again inside its own scope. The last programs
/// have up to 63 reactions as well.
pub fn told_apart(t: &mut Trial, _: Amount) -> Outcome {
    let tests_and_singles = [(5, 31..=34), (6, 0..=1), (7, 0..=0), (8, 0..=0), (2, 60..=62)];
    for (tests, singles) in tests_and_singles {
        let test = |s| Present(s, Emit(30).into(), Emit(31).into());
        let apart = even((0..tests).map(test).collect(), parallel);
        let around = |p| inside_signals(tests.into(), p);
        for single in singles {
            let mut ways = vec![sequence(Pause(1), apart.clone())];
            ways.extend((2..2 + single).map(|l| sequence(Pause(l), Gotopause(l))));
            let body = even(ways, |p, q| Present(29, p.into(), q.into()));
            let tested = Present(20, Emit(30).into(), Nothing.into());
            let inner = Signal(20, parallel(tested, around(body.clone())).into());
            let again = around(parallel(test(0), Signal(0, body.clone().into())));
            for p in [around(body), around(apart.clone()), inner, again] {
                for assumed in [0, 1 << 30, 1 << 31, u32::MAX] {
                    ask(t, &p, start(assumed))?;
                    for labels in [2, !2, u64::MAX] {
                        ask(t, &p, resumed(assumed, labels))?;
                    }
                }
            }
        }
    }
    Ok(())
}

/// Most signals, and the start or a state with a few labels.
pub fn any_state(random: &mut Random) -> Asked {
    Asked {
        signals: random.next() as u32 | random.next() as u32,
        mark: random.below(3) as u32,
        labels: random.next() & random.next(),
    }
}

/// The edges of check, and random tables, valid and damaged, with buffers of any length up to 70
/// reactions. Programs whose listing would take too long are passed over.
pub fn random_tables(t: &mut Trial, amount: Amount) -> Outcome {
    let mut random = Random(10);
    for table in edge_tables() {
        t.list(&table, start(u32::MAX), ROOMY)?;
        t.list(&table, resumed(u32::MAX, u64::MAX), [0; 3])?;
    }
    for _ in 0..amount.of(100_000) {
        let table = any_table(&mut random);
        if read(&table).is_ok_and(|p| p.nested_signals() <= 12 && work(&p) > 4_000) {
            continue;
        }
        let asked = any_state(&mut random);
        let lent = if random.one_in(3) { ROOMY.map(|b| random.below(b)) } else { ROOMY };
        t.list(&table, asked, lent)?;
    }
    Ok(())
}

/// Steps a table and its trimmed table along common runs, up to eight steps, and compares the two
/// listings under the first 16 sets of its signals. Each step goes on from six new states at most.
/// Programs that need much work are passed over.
pub fn runs(t: &mut Trial, amount: Amount) -> Outcome {
    let mut random = Random(11);
    for _ in 0..amount.of(10_000) {
        let p = program(&mut random, 5, 36);
        if work(&p) > 1_000 {
            continue;
        }
        let table = write(&p);
        let Some(trimmed) = t.trim(&table, AMPLE)? else { continue };
        let mut met = BTreeSet::new();
        let mut next = vec![0];
        for steps in 0..8 {
            let mut reached = BTreeSet::new();
            for &labels in &next {
                for e in subsets(signals(&p).into()).take(16) {
                    let asked = Asked { signals: e as u32, mark: steps, labels };
                    let here = t.list(&table, asked, ROOMY)?;
                    let there = t.list(&trimmed, asked, ROOMY)?;
                    same_answer(t, [&table, &trimmed], asked, steps)?;
                    let (Some(here), Some(there)) = (here, there) else { continue };
                    if here != there {
                        return Err(format!(
                            "{asked:x?} lists {here:?} and trimmed {there:?}: {p:?}"
                        ));
                    }
                    if steps >= 3 && !here.is_empty() {
                        t.counts.see(Seen::LongRun);
                    }
                    reached.extend(here.iter().filter(|r| r.k == 1).map(|r| r.l));
                }
            }
            next = reached.into_iter().filter(|labels| met.insert(*labels)).take(6).collect();
        }
    }
    Ok(())
}
