//! Reading and writing texts, in megabytes of text a second.

use crate::{batch, BATCHES};
use second::random::{sized_table, statement, Random, TASTES};
use second::statement::Statement::{self, *};
use second::table::write;
use second::texts::{self, Form, PLAIN};
use second::trees::*;
use second::{library, plain_text};

/// The bytes of the longest table, and more than those of the longest text.
const TABLE: usize = 1282;
const TEXT: usize = 1 << 15;

/// Lengths of texts, about: 100 B, 1 KiB, 10 KiB, 100 KiB, 1 MiB.
const LENGTHS: [usize; 5] = [100, 1 << 10, 10 << 10, 100 << 10, 1 << 20];

/// An entry on what it is handed: the refusal, or the bytes that it put.
type Call<'a> = &'a mut dyn FnMut(&[u8]) -> Result<usize, u32>;

/// Times both sides on texts, or on tables whose texts have so many bytes together, and prints a row.
fn time(name: &str, inputs: &[Vec<u8>], bytes: usize, library: Call, plain: Call) {
    for input in inputs {
        assert!(library(input) == plain(input), "{name}: different answers");
    }
    let mut best = [f64::MAX; 2];
    for _ in 0..BATCHES {
        best[0] = best[0].min(batch(inputs, library));
        best[1] = best[1].min(batch(inputs, plain));
    }
    let [ours, theirs] = best.map(|ns| bytes as f64 / ns * 1e3);
    let mean = bytes / inputs.len();
    println!("{name:<47} {mean:>8} {ours:>12.0} {theirs:>12.0} {:>7.2}", theirs / ours);
}

fn answer(refusal: u32, bytes: usize) -> Result<usize, u32> {
    if refusal == 0 {
        return Ok(bytes);
    }
    Err(refusal)
}

/// A row of texts; a refusal of the first is shown.
fn read(name: &str, inputs: &[Vec<u8>]) {
    let (mut out, mut other) = ([0; TABLE], [0; TABLE]);
    let refused = plain_text::read(&inputs[0], &mut other).err();
    let shown = refused.map_or(String::new(), |refusal| format!(", refused {refusal}"));
    time(
        &format!("read   {name}{shown}"),
        inputs,
        inputs.iter().map(Vec::len).sum(),
        &mut |text| {
            let mut bytes = 0;
            answer(library::read_text(text, &mut out, &mut bytes), bytes)
        },
        &mut |text| plain_text::read(text, &mut other),
    );
}

/// A row of tables, written into a buffer that holds every text, or into one as long as the text.
fn put(name: &str, inputs: &[Vec<u8>], exact: bool) {
    let (mut out, mut other) = (vec![0; TEXT], vec![0; TEXT]);
    let lengths: Vec<usize> =
        inputs.iter().map(|table| plain_text::write(table, &mut out).unwrap()).collect();
    let room = if exact { lengths[0] } else { TEXT };
    time(
        &format!("write  {name}"),
        inputs,
        lengths.iter().sum(),
        &mut |table| {
            let mut bytes = 0;
            answer(library::write_text(table, &mut out[..room], &mut bytes), bytes)
        },
        &mut |table| plain_text::write(table, &mut other[..room]),
    );
}

/// So many copies of a part with an operator between them that they have about so many bytes.
fn chain(part: &str, operator: &str, bytes: usize) -> String {
    vec![part; (bytes / (part.len() + operator.len())).max(1)].join(operator)
}

fn nested(head: &str, inside: &str, tail: &str, times: usize) -> String {
    format!("{}{inside}{}", head.repeat(times), tail.repeat(times))
}

/// Texts of random programs; long ones are chains of them, with over 1,024 nodes.
fn mixed(random: &mut Random, form: Form, bytes: usize, count: usize) -> Vec<Vec<u8>> {
    let mut program = |n: usize| {
        let taste = random.pick(&TASTES);
        let p = statement(random, &taste, n, 50);
        texts::text(random, form, &p)
    };
    let mut one = || {
        let mut text = program((bytes / 9).clamp(1, 1000));
        while text.len() < bytes * 9 / 10 {
            text.extend(b" || ");
            text.extend(program(200.min((bytes - text.len()) / 9 + 1)));
        }
        text
    };
    (0..if bytes > 20_000 { 1 } else { count }).map(|_| one()).collect()
}

/// Fifteen to five hundred emissions with long blanks between the parts.
fn spread(random: &mut Random, bytes: usize) -> String {
    let p = even(vec![Emit(1); bytes.clamp(30, 15_000) / 30], sequence);
    let parts = texts::parts(random, PLAIN, &p);
    parts.join(&" ".repeat((bytes / parts.len()).saturating_sub(3).max(1)))
}

/// Parts and the operators between them, each a row for each length.
fn chains() -> Vec<(&'static str, String, &'static str)> {
    let row = |name, part: &str, operator| (name, part.to_string(), operator);
    let deep = |head, inside, tail, times| nested(head, inside, tail, times);
    vec![
        row("chain of ;", "nothing", ";"),
        row("chain of ; with spaces", "emit S1", " ; "),
        row("chain of ||", "nothing", "||"),
        row("chain of || with spaces", "12:pause", " || "),
        row("gotopause", "gotopause 12", " ; "),
        row("exit", "exit 1", " ; "),
        row("brackets", "[nothing]", ";"),
        row("brackets, 60 deep", &deep("[", "nothing", "]", 60), " ; "),
        row("loops, 55 deep", &deep("loop ", "nothing", " end", 55), " ; "),
        row("presents without branches", "present S1 end", " ; "),
        row("presents without else", &deep("present S1 then ", "emit S2", " end", 55), " ; "),
        row("presents without then", &deep("present S1 else ", "emit S2", " end", 55), " ; "),
        row("presents", &deep("present S1 then emit S2 else ", "nothing", " end", 27), " ; "),
    ]
}

fn readings(random: &mut Random, count: usize) {
    let loose = Form { brackets: Some(4), omits: true, blanks: 6 };
    for (name, form) in [("random", PLAIN), ("random, more brackets and blanks", loose)] {
        for bytes in LENGTHS {
            read(name, &mixed(random, form, bytes, count));
        }
    }
    let texts = |name: &str, text: &mut dyn FnMut(usize) -> String| {
        LENGTHS.into_iter().for_each(|bytes| read(name, &[text(bytes).into_bytes()]));
    };
    texts("long blanks", &mut |bytes| spread(random, bytes));
    texts("one blank", &mut |bytes| format!("nothing ;{}nothing", "\n".repeat(bytes - 16)));
    texts("one number", &mut |bytes| format!("exit {}", "1".repeat(bytes - 5)));
    for (name, part, operator) in chains() {
        texts(name, &mut |bytes| chain(&part, operator, bytes));
    }
    texts("inside 55 presents without else", &mut |bytes| {
        nested("present S1 then ", &chain("nothing", ";", bytes), " end", 55)
    });
}

fn writings(random: &mut Random, count: usize) {
    for n in [4, 16, 64, 256, 1024] {
        let tables: Vec<Vec<u8>> = (0..count).map(|_| sized_table(random, n)).collect();
        put(&format!("{n} nodes, random"), &tables, false);
        put(&format!("{n} nodes, random, no room left"), &tables[..1], true);
    }
    for n in [8, 60, 500] {
        let row = |name: &str, p: Statement| put(name, &[write(&p)], false);
        row("sequences", even(vec![Nothing; n], sequence));
        row("parallels", even(vec![Emit(12); n], parallel));
        row("presents", even(vec![Gotopause(1); n], present));
    }
    put("loops, 59 deep", &[write(&inside_loops(59, Nothing))], false);
}

pub fn texts(random: &mut Random, count: usize) {
    println!(
        "{:<47} {:>8} {:>12} {:>12} {:>7}",
        "", "bytes", "library MB/s", "plain MB/s", "ratio"
    );
    readings(random, count);
    writings(random, count);
}
