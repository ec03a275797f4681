//! Comparing the reading and the writing of texts.

use crate::checking::edge_tables;
use crate::trial::{Outcome, Trial};
use crate::trimming::AMPLE;
use crate::Amount;
use second::random::{any_table, size, sized_table, statement, Random, TASTES};
use second::statement::Statement::{self, *};
use second::table::{length, write, Refusal, MOST_DEPTH, MOST_NODES};
use second::text::{parse, print, MOST_OPEN};
use second::texts::{parts, spaced, text, Form, PLAIN};
use second::trees::*;

/// A buffer that holds every text: none has over 20 bytes a node.
const ROOMY: usize = 20 * MOST_NODES;

/// A text with what reading gives for it: the statement, or the refusal.
pub type Example = (String, Result<Statement, Refusal>);

fn nested(head: &str, inside: &str, tail: &str, times: usize) -> String {
    format!("{}{inside}{}", head.repeat(times), tail.repeat(times))
}

fn in_loops(loops: usize, inside: &str) -> String {
    nested("loop ", inside, " end", loops)
}

fn chained(part: &str, operator: &str, times: usize) -> String {
    vec![part; times].join(operator)
}

/// Texts of statements with operators and brackets.
fn grouped_examples() -> Vec<(&'static str, Statement)> {
    let [p, q, r] = [1, 2, 3].map(|label| move || Pause(label));
    let joined = || parallel(Nothing, Nothing);
    vec![
        ("1:pause;2:pause||3:pause", parallel(sequence(p(), q()), r())),
        ("1:pause||2:pause;3:pause", parallel(p(), sequence(q(), r()))),
        ("1:pause;2:pause;3:pause", sequence(p(), sequence(q(), r()))),
        ("1:pause||2:pause||3:pause", parallel(p(), parallel(q(), r()))),
        ("[1:pause;2:pause];3:pause", sequence(sequence(p(), q()), r())),
        ("[1:pause||2:pause]||3:pause", parallel(parallel(p(), q()), r())),
        ("[nothing||nothing];nothing", sequence(joined(), Nothing)),
        ("nothing;[nothing||nothing]", sequence(Nothing, joined())),
        ("loop[nothing]end", Loop(Nothing.into())),
        ("signal\nS0 \n in[nothing||nothing]end", Signal(0, joined().into())),
        ("emit S0 ; emit S31", sequence(Emit(0), Emit(31))),
        ("try exit 1||gotopause 63 end", Try(parallel(Exit(1), Gotopause(63)).into())),
    ]
}

/// Texts that are read, with what is written of their tables.
pub fn rewritten_examples() -> Vec<(String, &'static str)> {
    let all = [
        ("[nothing||nothing];nothing", "[ nothing || nothing ] ; nothing"),
        ("loop[nothing]end", "loop nothing end"),
        ("1:pause;2:pause||3:pause", "1:pause ; 2:pause || 3:pause"),
        ("[[1:pause]];\n[2:pause;[3:pause]]", "1:pause ; 2:pause ; 3:pause"),
        ("[1:pause||[2:pause]]||[3:pause]", "[ 1:pause || 2:pause ] || 3:pause"),
        ("present S1 end", "present S1 then nothing else nothing end"),
        ("present S1 else emit S2 end", "present S1 then nothing else emit S2 end"),
        ("present S1 then[emit S2]end", "present S1 then emit S2 else nothing end"),
    ];
    let sixty = (nested("[", "nothing", "]", MOST_OPEN), "nothing");
    all.into_iter().map(|(text, written)| (text.into(), written)).chain([sixty]).collect()
}

/// Texts of statements with branches.
fn branched_examples() -> Vec<(&'static str, Statement)> {
    let branched = |p: Statement, q: Statement| Present(1, p.into(), q.into());
    let bare = || branched(Nothing, Nothing);
    vec![
        ("present S1 end", bare()),
        ("present S1 else emit S2 end", branched(Nothing, Emit(2))),
        ("present S1 then emit S2 end", branched(Emit(2), Nothing)),
        ("present S1 then emit S2 else nothing end", branched(Emit(2), Nothing)),
        ("present S1 then present S1 end else present S1 end end", branched(bare(), bare())),
    ]
}

/// Texts that are read.
fn read_examples() -> Vec<(String, Statement)> {
    let short = [grouped_examples(), branched_examples()].concat().into_iter();
    let mut all: Vec<(String, Statement)> = short.map(|(text, p)| (text.into(), p)).collect();
    all.push(("nothing".into(), Nothing));
    all.push((nested("[", "nothing", "]", MOST_OPEN), Nothing));
    all.push((in_loops(MOST_DEPTH - 1, "nothing"), inside_loops(MOST_DEPTH - 1, Nothing)));
    let bare = Present(0, Nothing.into(), Nothing.into());
    all.push((in_loops(MOST_DEPTH - 2, "present S0 end"), inside_loops(MOST_DEPTH - 2, bare)));
    all.push((print(&kept(MOST_NODES)), kept(MOST_NODES)));
    all
}

#[rustfmt::skip]
const BROKEN: [&str; 90] = [
    "", " ", "\n", " nothing", "\nnothing", "nothing ", "nothing\n", "emit S 1", "1 :pause", "1: pause", "pause",
    ":pause", "emit S01", "emit S", "00:pause", "exit 01", "exit1", "S1in", "signal S1in nothing end", "1:pauseend",
    "loop 1:pauseend", "nothing\t;nothing", "nothing\r\n;nothing", "nothing| |nothing", "nothing|nothing",
    "present S1 then end", "present S1 else end", "present S1 then else nothing end", "present 1 end", "emit 1",
    "exit S1", "gotopause S1", "nothing;", ";nothing", "nothing;;nothing", "nothing||", "[]", "[nothing", "nothing]",
    "[nothing end", "loop nothing]", "loop end", "loop nothing", "nothing end", "nothing nothing", "[nothing][nothing]",
    "present S1 else nothing then nothing end", "present S1 then nothing then nothing end", "present S1 nothing end",
    "in", "then nothing", "signal S1 nothing end", "signal 1 in nothing end", "Nothing", "nothing.", "nothing\0",
    "nothin", "nothingg", "exit -1", "exit +1", "exit 1x", "emit s1", "emit SS1", "1:pause:pause", "exit 1 ; emit S01",
    "exit 99 ;", "64:pause ]", "present S1;nothing end", "present S1||nothing else nothing end", "[nothing;]",
    "loop nothing;end", "emit S1;present S1 then nothing else end", "exit 007", "000:pause",
    "emitS1", "gotopause1", "loop1:pause end", "loopnothing end", "loop nothingend", "loop exit 1end", "presentS1 end",
    "presentS1 then nothing end", "present S1end", "present S1then nothing end", "present S1 thennothing end",
    "signalS1 in nothing end", "signal S1 innothing end", "nothing |nothing", "nothing| nothing", "nothing|||nothing",
];

#[rustfmt::skip]
const OUTSIDE: [&str; 10] = [
    "emit S32", "0:pause", "64:pause", "gotopause 0", "gotopause 64", "exit 0", "exit 64", "exit 257",
    "signal S32 in nothing end", "present S32 end",
];

/// Texts that are refused, with the refusal.
fn refused_examples() -> Vec<(String, Refusal)> {
    let too_deep = in_loops(MOST_OPEN, "nothing");
    let many = chained("nothing", ";", MOST_NODES / 2 + 1);
    let mut all: Vec<(String, Refusal)> = BROKEN.map(|text| (text.into(), 18)).into();
    all.extend(OUTSIDE.map(|text| (text.into(), 19)));
    all.extend([
        (in_loops(MOST_OPEN + 1, "nothing"), 18),
        (in_loops(MOST_OPEN, "present S1 end"), 18),
        (nested("[", "nothing", "]", MOST_OPEN + 1), 18),
        (in_loops(MOST_OPEN, "exit 64 ; [nothing]"), 18),
        (format!("exit {}", "1".repeat(40)), 19),
        (many.clone() + ";emit S32", 19),
        ("64:pause||".to_string() + &many, 19),
        (many.clone() + ";exit 64;", 18),
        ("[exit 0||".to_string() + &many, 18),
        (many.clone(), 3),
        (print(&kept(MOST_NODES + 1)), 3),
        (too_deep.clone(), 8),
        (in_loops(MOST_DEPTH - 1, "present S0 end"), 8),
        ("exit 1".into(), 9),
        ("try exit 2 end".into(), 9),
        ("1:pause ; 1:pause".into(), 10),
        // the first node in table order, whichever it earns
        ("1:pause ; 1:pause ; exit 1".into(), 10),
        ("exit 1 ; 1:pause ; 1:pause".into(), 9),
        (format!("1:pause || 1:pause || {too_deep}"), 10),
        (format!("exit 1 || {too_deep}"), 9),
        (format!("{too_deep} || exit 1"), 8),
    ]);
    all
}

/// Texts of up to three statements that each earn a refusal, in every order, joined by either operator:
/// the refusal of the text in a long buffer and in a short one.
pub fn refused_together() -> Vec<(String, Refusal, Refusal)> {
    let many = format!("[{}]", chained("nothing", "||", MOST_NODES / 2 + 1));
    let each: [(&str, Refusal); 8] = [
        ("nothing", 0),
        ("nothing nothing", 18),
        (&nested("[", "nothing", "]", MOST_OPEN + 1), 18),
        ("emit S32", 19),
        (&many, 3),
        (&in_loops(MOST_OPEN, "nothing"), 8),
        ("exit 1", 9),
        ("[1:pause;1:pause]", 10),
    ];
    let mut all = Vec::new();
    for number in 0..each.len().pow(3) {
        let list = [1, 8, 64].map(|n| each[number / n % each.len()]);
        let earned = |refusal: &Refusal| list.iter().any(|(_, earns)| earns == refusal);
        let by_node = list.iter().map(|(_, refusal)| *refusal).find(|refusal| *refusal > 0);
        let refusal = [18, 19, 3].into_iter().find(earned).or(by_node);
        for operator in ["||", ";"] {
            let text = list.map(|(text, _)| text).join(operator);
            all.push((text, refusal.unwrap_or(0), refusal.unwrap_or(13)));
        }
    }
    all
}

/// The worked examples of order 2 and some more.
pub fn examples() -> Vec<Example> {
    let read = read_examples().into_iter().map(|(text, p)| (text, Ok(p)));
    let refused = refused_examples().into_iter().map(|(text, refusal)| (text, Err(refusal)));
    read.chain(refused).collect()
}

/// Statements with their written texts: each sort of brackets that is needed, and each that is not.
pub fn written_examples() -> Vec<(Statement, &'static str)> {
    let two = |join: Joiner| join(Nothing, Emit(1));
    vec![
        (sequence(two(sequence), Exit(1)), "[ nothing ; emit S1 ] ; exit 1"),
        (sequence(two(parallel), Exit(1)), "[ nothing || emit S1 ] ; exit 1"),
        (sequence(Exit(1), two(parallel)), "exit 1 ; [ nothing || emit S1 ]"),
        (parallel(two(parallel), Exit(1)), "[ nothing || emit S1 ] || exit 1"),
        (sequence(Exit(1), two(sequence)), "exit 1 ; nothing ; emit S1"),
        (parallel(Exit(1), two(parallel)), "exit 1 || nothing || emit S1"),
        (parallel(two(sequence), two(sequence)), "nothing ; emit S1 || nothing ; emit S1"),
        (Loop(two(parallel).into()), "loop nothing || emit S1 end"),
        (Present(1, Nothing.into(), Nothing.into()), "present S1 then nothing else nothing end"),
        (Signal(31, Pause(63).into()), "signal S31 in 63:pause end"),
        (Try(Gotopause(1).into()), "try gotopause 1 end"),
    ]
}

/// The examples, with a buffer that is long enough and with a short one; the short texts first, since
/// this is done again for each fault up to the call that it is planted in.
pub fn made_texts(t: &mut Trial, _: Amount) -> Outcome {
    let rewritten = rewritten_examples().into_iter().map(|(text, _)| text);
    let mut texts: Vec<String> = examples().into_iter().map(|(text, _)| text).collect();
    texts.extend(rewritten);
    texts.sort_by_key(String::len);
    for text in texts {
        for buffer in [AMPLE, length(1) - 1] {
            t.read_text(text.as_bytes(), buffer)?;
        }
    }
    Ok(())
}

/// Several refusals earned by one text.
pub fn together(t: &mut Trial, _: Amount) -> Outcome {
    refused_together().iter().try_for_each(|(text, _, _)| {
        t.read_text(text.as_bytes(), AMPLE)?;
        t.read_text(text.as_bytes(), 0).map(|_| ())
    })
}

/// Statements written into buffers that are long enough and too short by one.
pub fn made_writings(t: &mut Trial, _: Amount) -> Outcome {
    for (_, table) in crate::made::tables() {
        t.write_text(&table, ROOMY)?;
        t.write_text(&table, 6)?;
    }
    for (text, written) in rewritten_examples() {
        for buffer in [ROOMY, written.len(), written.len() - 1] {
            t.write_text(&write(&parse(&text)), buffer)?;
        }
    }
    for (p, text) in written_examples() {
        // exits need a try around them
        let table = write(&Try(p.into()));
        for buffer in [ROOMY, "try  end".len() + text.len(), "try  end".len() + text.len() - 1] {
            t.write_text(&table, buffer)?;
        }
    }
    Ok(())
}

/// Every text that is `before`, up to so many of the bytes, and `after`.
fn each_between(
    t: &mut Trial,
    before: &str,
    bytes: &[u8],
    most: usize,
    after: &str,
    step: usize,
) -> Outcome {
    for count in 0..=most {
        for number in (0..bytes.len().pow(count as u32)).step_by(step) {
            let mut rest = number;
            let mut text = before.as_bytes().to_vec();
            for _ in 0..count {
                text.push(bytes[rest % bytes.len()]);
                rest /= bytes.len();
            }
            text.extend(after.as_bytes());
            t.read_text(&text, AMPLE)?;
        }
    }
    Ok(())
}

/// Every short string of some bytes between pieces of a text, and every two bytes.
pub fn short_bytes(t: &mut Trial, amount: Amount) -> Outcome {
    let all: Vec<u8> = (0..=u8::MAX).collect();
    let step = amount.step();
    each_between(t, "", &all, 2, "", step)?;
    each_between(t, "nothing", &all, 2, "nothing", step)?;
    each_between(t, "nothing", b" \n;|[]S1:e", 5, "nothing", step)?;
    each_between(t, "emit", b" \n;S0123", 5, "", step)?;
    each_between(t, "loop exit", b" \n01269;", 5, "end", step)?;
    each_between(t, "", b"0169: S", 4, ":pause", step)?;
    each_between(t, "present S1", b" eln;", 4, "else nothing end", step)
}

/// Every short list of some parts: with one space between two, with blanks where they are needed
/// alone, and with none.
fn each_list(t: &mut Trial, parts: &[&str], most: usize, step: usize) -> Outcome {
    let mut random = Random(40);
    for count in 1..=most {
        for number in (0..parts.len().pow(count as u32)).step_by(step) {
            let mut rest = number;
            let mut list = Vec::new();
            for _ in 0..count {
                list.push(String::from(parts[rest % parts.len()]));
                rest /= parts.len();
            }
            let needed = spaced(&mut random, 0, &list);
            let mut texts = vec![list.join(" ").into(), needed, list.concat().into()];
            texts.dedup();
            texts.iter().try_for_each(|text| t.read_text(text, AMPLE).map(|_| ()))?;
        }
    }
    Ok(())
}

pub fn short_lists(t: &mut Trial, amount: Amount) -> Outcome {
    let step = amount.step();
    #[rustfmt::skip]
    let all = [
        "nothing",
        "1:pause",
        "gotopause",
        "emit",
        "exit",
        "signal",
        "in",
        "end",
        "present",
        "then",
        "else",
        "loop",
        "try",
        "1",
        "S1",
        ";",
        "||",
        "[",
        "]",
    ];
    each_list(t, &all, 4, step)?;
    each_list(t, &["nothing", ";", "||", "[", "]"], 7, step)?;
    each_list(t, &["present S1", "then", "else", "end", "nothing", ";"], 7, step)?;
    each_list(t, &["loop", "try", "end", "exit 1", "2:pause", "||"], 6, step)?;
    each_list(t, &["signal", "S1", "in", "end", "emit", "present"], 6, step)
}

/// A text in a random form; of brackets that nobody needs only so many that some texts stay read.
fn any_form(random: &mut Random) -> Form {
    Form {
        brackets: random.pick(&[None, Some(20), Some(5), Some(2)]),
        omits: random.one_in(2),
        blanks: random.pick(&[0, 1, 1, 4]),
    }
}

/// Every tree of a few nodes in random forms.
pub fn small_trees(t: &mut Trial, amount: Amount) -> Outcome {
    let leaves = [Nothing, Pause(1), Pause(2), Gotopause(10), Emit(0), Exit(1)];
    let mut random = Random(41);
    (1..amount.tree_nodes()).try_for_each(|n| {
        each_tree(n, &leaves, &mut |p| {
            for form in [PLAIN, any_form(&mut random)] {
                t.read_text(&text(&mut random, form, p), AMPLE)?;
            }
            Ok(())
        })
    })
}

/// Statements of each number of nodes around the most: operators, and presents with branches omitted.
fn many_nodes() -> Vec<String> {
    let mut texts = Vec::new();
    for n in MOST_NODES - 3..=MOST_NODES + 3 {
        texts.push(print(&kept(n)));
        // a present without branches has three nodes, and an operator behind it
        let bare = (n - 1) / 4;
        let rest = in_loops(n - 4 * bare - 1, "nothing");
        for operator in [";", "||"] {
            texts.push(chained("present S1 end", operator, bare) + operator + &rest);
        }
    }
    texts
}

/// Around depth 60 of the text and of the tree.
fn deep_texts() -> Vec<String> {
    let mut texts = Vec::new();
    for deep in MOST_OPEN - 3..=MOST_OPEN + 2 {
        for inside in ["nothing", "present S1 end", "[nothing]", "exit 1", "1:pause||1:pause"] {
            texts.extend([
                in_loops(deep, inside),
                nested("[", inside, "]", deep),
                nested("[loop ", inside, " end]", deep / 2),
                nested("present S1 then ", inside, " end", deep),
                nested("present S1 else ", inside, " end", deep),
                nested("signal S1 in [", inside, "] end", deep / 2),
                nested("nothing;[", inside, "]", deep),
                nested("[", inside, "];nothing", deep),
                nested("nothing||[", inside, "]", deep),
                chained(inside, ";", deep),
                chained(inside, " || ", deep),
            ]);
        }
    }
    texts
}

/// Numbers around the ends of their ranges, where one of so many bits would wrap, and long ones.
fn number_texts() -> Vec<String> {
    let near = |n: u128| [n, n + 1, n + 5, n + 31, n + 63, n + 64];
    let wrapping = [8, 16, 32, 64].into_iter().flat_map(|bits| near(1 << bits));
    let numbers = (0..=110).chain(wrapping).map(|n| n.to_string());
    let long = ["1".repeat(40), "9".repeat(40), format!("1{}", "0".repeat(40))];
    let around = [
        ("emit S", ""),
        ("exit ", ""),
        ("try exit ", " end"),
        ("gotopause ", ""),
        ("", ":pause"),
        ("nothing;", ":pause"),
        ("signal S", " in nothing end"),
        ("present S", " else nothing end"),
    ];
    let text = |number: String| {
        let zero = around.map(|(before, after)| format!("{before}0{number}{after}"));
        around.map(|(before, after)| format!("{before}{number}{after}")).into_iter().chain(zero)
    };
    numbers.chain(long).flat_map(text).collect()
}

pub fn edges(t: &mut Trial, _: Amount) -> Outcome {
    let texts = [many_nodes(), deep_texts(), number_texts()].concat();
    texts.iter().try_for_each(|text| t.read_text(text.as_bytes(), AMPLE).map(|_| ()))
}

/// A valid statement, now and then one that check refuses.
fn any_statement(random: &mut Random) -> Statement {
    let (taste, n) = (random.pick(&TASTES), size(random));
    let p = statement(random, &taste, n, 60);
    match random.below(12) {
        0 => sequence(p.clone(), p),
        1 => parallel(Exit(random.between(1, 3) as u8), p),
        2 => inside_loops(random.between(1, 60), p),
        _ => p,
    }
}

fn any_text(random: &mut Random) -> Vec<u8> {
    let (form, p) = (any_form(random), any_statement(random));
    text(random, form, &p)
}

/// Random statements in random forms.
pub fn random_texts(t: &mut Trial, amount: Amount) -> Outcome {
    let mut random = Random(42);
    for _ in 0..amount.of(40_000) {
        let text = any_text(&mut random);
        let buffer = if random.one_in(5) { random.below(text.len() + 1) } else { AMPLE };
        t.read_text(&text, buffer)?;
    }
    Ok(())
}

/// A byte or a part changed, dropped, doubled or put elsewhere.
fn damaged(random: &mut Random, form: Form, p: &Statement) -> Vec<u8> {
    let mut list = parts(random, form, p);
    let whole = random.one_in(2);
    if whole {
        damage(random, &mut list, |random, list| random.pick(list));
    }
    let mut bytes = spaced(random, form.blanks, &list);
    if !whole || random.one_in(8) {
        damage(random, &mut bytes, |random, _| match random.below(4) {
            0 => random.next() as u8,
            1 => random.pick(b" \n\t;|[]:S"),
            _ => random.pick(b"abcdefghijklmnopqrstuvwxyz0123456789"),
        });
    }
    bytes
}

fn damage<T: Clone>(random: &mut Random, list: &mut Vec<T>, other: fn(&mut Random, &[T]) -> T) {
    if list.is_empty() {
        return;
    }
    let at = random.below(list.len());
    match random.below(5) {
        0 => list[at] = other(random, list),
        1 => drop(list.remove(at)),
        2 => list.insert(at, list[at].clone()),
        3 => list.insert(at, other(random, list)),
        _ => {
            let with = random.below(list.len());
            list.swap(at, with);
        }
    }
}

pub fn damaged_texts(t: &mut Trial, amount: Amount) -> Outcome {
    let mut random = Random(43);
    for _ in 0..amount.of(150_000) {
        let form = any_form(&mut random);
        let p = if random.one_in(20) {
            any_statement(&mut random)
        } else {
            let (taste, n) = (random.pick(&TASTES), random.between(1, 12));
            statement(&mut random, &taste, n, 60)
        };
        let text = damaged(&mut random, form, &p);
        t.read_text(&text, AMPLE)?;
    }
    Ok(())
}

/// Random texts of about 1,024 nodes, every third damaged.
pub fn around_most(t: &mut Trial, amount: Amount) -> Outcome {
    let mut random = Random(48);
    for i in 0..amount.of(1_500) {
        let n = random.between(MOST_NODES - 6, MOST_NODES + 6);
        let first = random.between(1, n - 2);
        let taste = random.pick(&TASTES);
        let (p, q) = (statement(&mut random, &taste, first, 45), kept(n - 1 - first));
        let join = random.pick(&[sequence as Joiner, parallel, present]);
        let p = if random.one_in(2) { join(p, q) } else { join(q, p) };
        let form = any_form(&mut random);
        let text =
            if i % 3 == 0 { damaged(&mut random, form, &p) } else { text(&mut random, form, &p) };
        t.read_text(&text, AMPLE)?;
    }
    Ok(())
}

/// Texts of so many operators or brackets, of so many blanks and digits, and of letters.
fn long(times: usize) -> Vec<String> {
    let presents = nested("present S1 then ", "nothing", " end", MOST_OPEN);
    vec![
        chained("nothing", ";", times),
        chained("emit S1", " || ", times),
        chained("[1:pause]", "\n;\n", times),
        chained("present S1 end", " ; ", times),
        chained(&presents, ";", times / MOST_OPEN + 1),
        chained(&nested("[", "nothing", "]", MOST_OPEN), "||", times / MOST_OPEN + 1),
        "[".repeat(times),
        "]".repeat(times),
        ";".repeat(times),
        " ".repeat(times),
        "S".repeat(times),
        "a".repeat(20 * times),
        nested("[", "nothing", "]", times),
        in_loops(times, "nothing"),
        format!("nothing{}", " end".repeat(times)),
        format!("nothing{};nothing", " ".repeat(20 * times)),
        format!("nothing ;{}nothing", "\n".repeat(20 * times)),
        format!("exit {}", "7".repeat(20 * times)),
        format!("{}:pause", "7".repeat(20 * times)),
    ]
}

/// Sixty thousand operators and brackets, megabytes, and what is wrong at either end of a long text.
pub fn long_texts(t: &mut Trial, amount: Amount) -> Outcome {
    let times = amount.of(60_000);
    let mut texts = long(times);
    for (part, operator) in [("nothing", ";"), ("present S1 then nothing end", "||")] {
        let long = chained(part, operator, times / 4);
        texts.extend(
            ["emit S32;", "exit 0||", "]", " ", "\n"].map(|wrong| wrong.to_string() + &long),
        );
        texts.extend([";64:pause", "||emit S32", "]", " ", "\n"].map(|wrong| long.clone() + wrong));
    }
    texts.iter().try_for_each(|text| t.read_text(text.as_bytes(), AMPLE).map(|_| ()))
}

/// Random texts with buffers of every length from 0 to two more than needed; the empty text with the
/// shortest.
pub fn read_buffers(t: &mut Trial, amount: Amount) -> Outcome {
    (0..=length(1)).try_for_each(|buffer| t.read_text(b"", buffer).map(|_| ()))?;
    let mut random = Random(44);
    for i in 0..amount.of(400) {
        let (taste, n) =
            (random.pick(&TASTES), if i % 50 == 0 { 300 } else { random.between(1, 25) });
        let p = statement(&mut random, &taste, n, 60);
        let form = any_form(&mut random);
        let text = text(&mut random, form, &p);
        (0..=length(n) + 2).try_for_each(|buffer| t.read_text(&text, buffer).map(|_| ()))?;
    }
    Ok(())
}

/// Every tree of a few nodes, also those with a label twice or an exit too high.
pub fn written_trees(t: &mut Trial, amount: Amount) -> Outcome {
    let leaves = [Nothing, Pause(1), Pause(20), Gotopause(3), Emit(31), Exit(1)];
    (1..amount.tree_nodes()).try_for_each(|n| {
        each_tree(n, &leaves, &mut |p| t.write_text(&write(p), ROOMY).map(|_| ()))
    })
}

pub fn written_edges(t: &mut Trial, _: Amount) -> Outcome {
    edge_tables().iter().try_for_each(|table| t.write_text(table, ROOMY).map(|_| ()))
}

/// Buffers of every length up to two more than a text needs, and around 10 to 20 bytes a node; no table
/// with the shortest.
pub fn write_buffers(t: &mut Trial, amount: Amount) -> Outcome {
    (0..=length(1)).try_for_each(|buffer| t.write_text(b"", buffer).map(|_| ()))?;
    let mut random = Random(45);
    for i in 0..amount.of(400) {
        let n = if i % 50 == 0 { random.between(200, 1024) } else { random.between(1, 20) };
        let table = sized_table(&mut random, n);
        let needed = t.write_text(&table, ROOMY)?.map_or(0, |text| text.len());
        let near = if n > 20 { needed - 2..=needed + 2 } else { 0..=needed + 2 };
        let rooms = (10..=20).flat_map(|bytes| [bytes * n - 1, bytes * n, bytes * n + 1]);
        near.chain(rooms).try_for_each(|buffer| t.write_text(&table, buffer).map(|_| ()))?;
    }
    Ok(())
}

/// The longest texts that a table of so many nodes can have.
pub fn longest_texts(t: &mut Trial, _: Amount) -> Outcome {
    for n in [1, 3, 5, 15, 17, 63, 127, 129, 255, 1023] {
        let leaves = vec![Gotopause(63); n / 2 + 1];
        for join in [|p, q| Present(31, Box::new(p), Box::new(q)), sequence, parallel] {
            let table = write(&even(leaves.clone(), join));
            for buffer in [ROOMY, 20 * n, 20 * n - 1, 19 * n, 19 * n - 1] {
                t.write_text(&table, buffer)?;
            }
        }
    }
    Ok(())
}

pub fn random_writings(t: &mut Trial, amount: Amount) -> Outcome {
    let mut random = Random(46);
    for _ in 0..amount.of(60_000) {
        let table = any_table(&mut random);
        let buffer = if random.one_in(4) { random.below(14 * table.len() + 2) } else { ROOMY };
        t.write_text(&table, buffer)?;
    }
    Ok(())
}

/// What is written reads back as the same table.
fn read_again(t: &mut Trial, table: Vec<u8>) -> Outcome {
    let written = t.write_text(&table, ROOMY)?.ok_or("an accepted table is not written")?;
    if t.read_text(&written, AMPLE)? != Some(table) {
        return Err(format!("{} does not read back", String::from_utf8_lossy(&written)));
    }
    Ok(())
}

/// Tables that random texts are read into, and random large ones.
pub fn round_trips(t: &mut Trial, amount: Amount) -> Outcome {
    let mut random = Random(47);
    for _ in 0..amount.of(15_000) {
        let text = any_text(&mut random);
        if let Some(table) = t.read_text(&text, AMPLE)? {
            read_again(t, table)?;
        }
    }
    for _ in 0..amount.of(300) {
        let n = random.between(600, MOST_NODES);
        read_again(t, sized_table(&mut random, n))?;
    }
    Ok(())
}
