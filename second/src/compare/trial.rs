//! One tool against the second implementation: each call is made on both sides with everything
//! lent painted alike, and all of it is compared afterwards, a margin on both sides of a buffer and
//! the table or text included. What was met is counted.

use crate::listing::signals;
use crate::tool::{Asked, Operation, ReachCells, Second, StepCells, Tool, Trimmed, OPERATIONS};
use second::list::{MOST_REACTIONS, MOST_SIGNALS};
use second::met::{codes_passed, count, counting, Event, Passage, CASES, RULES};
use second::react::Reaction;
use second::step::{emitted_free, Answer, MOST_FREE};
use second::table::{bits, read};
use second::text::{parts, print, tree, MOST_OPEN};
pub use second::trees::Outcome;
use std::fmt::Debug;

/// What an operation gives where it is not refused.
pub type Given<T> = Result<Option<T>, String>;

/// Of no table more thousandths are kept, says the theorem on trim's answers; a call that gives more fails.
pub const MOST_KEPT: u32 = 1_741;

/// The largest node counts of the size classes of accepted tables.
const SIZES: [usize; 7] = [1, 4, 16, 64, 256, 1023, 1024];

/// Sights: what the numbers answered do not show.
#[derive(Clone, Copy, Debug)]
pub enum Seen {
    /// the trimmed table differs from the table
    TrimmedChanged,
    /// it has more nodes
    TrimmedGrew,
    /// 1,000 thousandths of the nodes are kept, without remainder
    WholeKept,
    /// fewer, with a remainder
    PartKept,
    /// less than one
    LeastKept,
    /// as many as a table can keep
    MostKept,
    /// more than 20
    ManyRounds,
    /// 64 reactions
    FullListing,
    /// none
    EmptyListing,
    /// 15 where the table's own list has at most 64 reactions
    InnerTooMany,
    /// listings of a table and of its trimmed table, the same and not empty, after three or more
    /// steps of a run
    LongRun,
    /// the same step of a table and of its trimmed table, after three or more steps of a run
    LongStep,
    /// a step although a signal is provided that the table does not name
    ForeignProvided,
    /// 15 though only an E without a step has a list of over 64 reactions, and another E has a step
    CrowdedElsewhere,
    /// a step is answered though the lists under all E's have over 64 reactions together
    ManyTogether,
    /// a text that is read and not as it would be written
    OtherForm,
    /// a text that is read and has brackets or `end`s 60 deep
    DeepText,
}

pub const SEEN: [Seen; 17] = [
    Seen::TrimmedChanged,
    Seen::TrimmedGrew,
    Seen::WholeKept,
    Seen::PartKept,
    Seen::LeastKept,
    Seen::MostKept,
    Seen::ManyRounds,
    Seen::FullListing,
    Seen::EmptyListing,
    Seen::InnerTooMany,
    Seen::LongRun,
    Seen::LongStep,
    Seen::ForeignProvided,
    Seen::CrowdedElsewhere,
    Seen::ManyTogether,
    Seen::OtherForm,
    Seen::DeepText,
];

const COUNT: usize = OPERATIONS.len();

#[derive(Default)]
pub struct Counts {
    pub calls: [u64; COUNT],
    refusals: [[u64; 20]; COUNT],
    sizes: [[u64; SIZES.len()]; COUNT],
    kinds: [[u64; 11]; COUNT],
    seen: [u64; SEEN.len()],
    /// what step answered, one, none or several, by the signals that its sets E differ in
    answers: [[u64; 3]; MOST_FREE as usize + 1],
    /// accepted listings of the programs made for it, by the signals inside one another
    pub inside: [u64; MOST_SIGNALS + 1],
}

/// A sort of things that have to be met, with each of them and how often it was.
type Sort = (&'static str, Vec<(String, u64)>);

impl Counts {
    /// Notes the second implementation's answer to a call.
    fn note(&mut self, operation: Operation, answer: u32) {
        self.calls[operation as usize] += 1;
        self.refusals[operation as usize][answer as usize] += 1;
    }

    /// Notes a table that is accepted, or that a text is read into.
    fn note_table(&mut self, operation: Operation, table: &[u8]) {
        let at = operation as usize;
        let n = bits(table, 4, 12);
        self.sizes[at][SIZES.iter().position(|&most| n <= most).unwrap()] += 1;
        for i in 0..n {
            self.kinds[at][bits(table, 16 + 10 * i, 4)] += 1;
        }
    }

    pub fn see(&mut self, seen: Seen) {
        self.seen[seen as usize] += 1;
    }

    /// What these operations have to meet.
    fn to_meet(&self, operations: &[Operation]) -> Vec<Sort> {
        let [mut refused, mut sizes, mut kinds] = [const { Vec::new() }; 3];
        for &operation in operations {
            let at = operation as usize;
            for refusal in refusals(operation) {
                let count = self.refusals[at][refusal];
                refused.push((format!("{operation:?} refused {refusal}"), count));
            }
            for (most, count) in SIZES.iter().zip(self.sizes[at]) {
                sizes.push((format!("{operation:?} accepted up to {most} nodes"), count));
            }
            for (kind, count) in self.kinds[at].into_iter().enumerate() {
                kinds.push((format!("{operation:?} accepted kind {kind}"), count));
            }
        }
        let seen = SEEN.iter().filter(|seen| due(**seen, operations));
        let seen = seen.map(|seen| (format!("{seen:?}"), self.seen[*seen as usize])).collect();
        let mut sorts = vec![
            ("refusals", refused),
            ("sizes accepted", sizes),
            ("kinds accepted", kinds),
            ("sights", seen),
        ];
        let events = |all: &[Event]| all.iter().map(|e| (format!("{e:?}"), count(*e))).collect();
        let passed = |passage| {
            let each = codes_passed(passage).into_iter().enumerate();
            each.map(|(k, count)| (format!("code {k} through a try, {passage:?}"), count)).collect()
        };
        if operations.contains(&Operation::Reach) {
            sorts.push(("codes through a try in a set", passed(Passage::InSet)));
        }
        if operations.contains(&Operation::Trim) {
            sorts.push(("cases of trimming", events(CASES)));
        }
        if operations.contains(&Operation::List) {
            sorts.push(("rules of Figure 3", events(RULES)));
            sorts.push(("codes through a try in reactions", passed(Passage::InReaction)));
            let inside = self.inside.into_iter().enumerate();
            let inside = inside.map(|(n, count)| (format!("listed inside {n} signals"), count));
            sorts.push(("nestings of signals listed", inside.collect()));
        }
        if operations.contains(&Operation::Step) {
            let each = self.answers.iter().enumerate().flat_map(|(n, counts)| {
                let named = ["one", "none", "several"].into_iter().zip(counts);
                named.map(move |(answer, count)| (format!("{answer} with {n} signals"), *count))
            });
            sorts.push(("answers of step", each.collect()));
        }
        sorts
    }

    /// What should have been met by these operations and was not.
    pub fn missing(&self, operations: &[Operation]) -> Vec<String> {
        let due = self.to_meet(operations).into_iter().flat_map(|(_, members)| members);
        due.filter(|(_, count)| *count == 0).map(|(name, _)| name).collect()
    }

    /// One line for each operation, one for the sights, and one for all that was to be met.
    pub fn print(&self, operations: &[Operation]) {
        for &operation in operations {
            let at = operation as usize;
            let refused: Vec<String> = refusals(operation)
                .map(|refusal| format!("{refusal}: {}", self.refusals[at][refusal]))
                .collect();
            println!(
                "  {operation:?}: {} calls, accepted {}, refused {}",
                self.calls[at],
                self.refusals[at][0],
                refused.join(", ")
            );
        }
        if operations.contains(&Operation::Step) {
            let [one, none, several] =
                [0, 1, 2].map(|i| self.answers.iter().map(|n| n[i]).sum::<u64>());
            println!("  Step: one {one}, none {none}, several {several}");
        }
        let seen: Vec<String> = SEEN
            .iter()
            .filter(|seen| due(**seen, operations))
            .map(|seen| format!("{seen:?} {}", self.seen[*seen as usize]))
            .collect();
        println!("  {}", seen.join(", "));
        let met = self.to_meet(operations).into_iter().map(|(sort, members)| {
            let met = members.iter().filter(|(_, count)| *count > 0).count();
            format!("{met} of {} {sort}", members.len())
        });
        println!("  met: {}", met.collect::<Vec<_>>().join(", "));
    }
}

/// The refusals that an operation can give.
pub fn refusals(operation: Operation) -> impl Iterator<Item = usize> {
    let (checks, own): (_, &[usize]) = match operation {
        Operation::Check | Operation::Reach => (1..12, &[]),
        Operation::Trim => (1..12, &[12, 13]),
        Operation::List => (1..12, &[14, 15, 16]),
        Operation::Step => (1..12, &[14, 15, 17]),
        Operation::ReadText => (8..11, &[3, 13, 18, 19]),
        Operation::WriteText => (1..12, &[13]),
    };
    checks.chain(own.iter().copied())
}

/// Whether these operations have to bring a sight about.
fn due(seen: Seen, operations: &[Operation]) -> bool {
    let needed: &[Operation] = match seen {
        Seen::TrimmedChanged
        | Seen::TrimmedGrew
        | Seen::WholeKept
        | Seen::PartKept
        | Seen::LeastKept
        | Seen::MostKept => &[Operation::Trim],
        Seen::ManyRounds => &[Operation::Reach],
        Seen::FullListing | Seen::EmptyListing | Seen::InnerTooMany => &[Operation::List],
        Seen::LongRun => &[Operation::Trim, Operation::List],
        Seen::LongStep => &[Operation::Trim, Operation::List, Operation::Step],
        Seen::ForeignProvided | Seen::CrowdedElsewhere | Seen::ManyTogether => &[Operation::Step],
        Seen::OtherForm | Seen::DeepText => &[Operation::ReadText],
    };
    needed.iter().all(|operation| operations.contains(operation))
}

/// Bytes painted so that no two neighbours are alike, a margin on both sides of what is lent.
#[derive(Debug, PartialEq)]
pub struct Painted {
    bytes: Vec<u8>,
    margin: usize,
}

impl Painted {
    fn lend(&mut self) -> &mut [u8] {
        let end = self.bytes.len() - self.margin;
        &mut self.bytes[self.margin..end]
    }
}

fn painted(lent: usize, margin: usize, paint: u8) -> Painted {
    let bytes = (0..lent + 2 * margin).map(|i| paint.wrapping_add((29 * i) as u8)).collect();
    Painted { bytes, margin }
}

pub struct Trial<'a> {
    pub tool: &'a dyn Tool,
    pub counts: Counts,
    /// Painted bytes on both sides of what is lent; none under a memory checker, which then sees
    /// every access beside it.
    pub margin: usize,
    paint: u8,
}

impl Trial<'_> {
    pub fn new(tool: &dyn Tool) -> Trial<'_> {
        Trial { tool, counts: Counts::default(), margin: 8, paint: 1 }
    }

    fn next_paint(&mut self) -> u8 {
        self.paint = self.paint.wrapping_mul(5).wrapping_add(3);
        self.paint
    }

    pub fn check(&mut self, table: &[u8]) -> Outcome {
        let paint = u32::from(self.next_paint()) * 0x0101_0101;
        let ask = |tool: &dyn Tool, table: &[u8]| {
            let mut nodes = [paint; 3];
            (tool.check(table, &mut nodes[1]), nodes)
        };
        self.compare(Operation::Check, table, ask, String::new).map(|_| ())
    }

    pub fn reach(&mut self, table: &[u8]) -> Outcome {
        let paint = u64::from(self.next_paint()) * 0x0101_0101_0101_0101;
        let painted = ReachCells {
            start_ends: paint as u8,
            start_labels: paint,
            reached: paint,
            rounds: paint as u32,
        };
        let ask = |tool: &dyn Tool, table: &[u8]| {
            let mut cells = [painted; 3];
            (tool.reach(table, &mut cells[1]), cells)
        };
        let (answer, cells) = self.compare(Operation::Reach, table, ask, String::new)?;
        if answer == 0 && cells[1].rounds > 20 {
            self.counts.see(Seen::ManyRounds);
        }
        Ok(())
    }

    /// Trims into a buffer of so many bytes; the trimmed table where it is accepted.
    pub fn trim(&mut self, table: &[u8], buffer: usize) -> Given<Vec<u8>> {
        let (paint, margin) = (self.next_paint(), self.margin);
        let number = u32::from(paint) * 0x0101_0101;
        let painted_cells = Trimmed {
            nodes: number,
            bytes: usize::from(paint),
            thousandths: number,
            remainder: number,
        };
        let ask = |tool: &dyn Tool, table: &[u8]| {
            let mut out = painted(buffer, margin, paint);
            let mut cells = [painted_cells; 3];
            let answer = tool.trim(table, out.lend(), &mut cells[1]);
            (answer, (cells, out))
        };
        let more = || format!("buffer of {buffer} bytes");
        let (answer, (cells, mut out)) = self.compare(Operation::Trim, table, ask, more)?;
        if answer != 0 {
            return Ok(None);
        }
        let Trimmed { nodes, bytes, thousandths, remainder } = cells[1];
        let trimmed = out.lend()[..bytes].to_vec();
        if nodes as usize > bits(table, 4, 12) {
            self.counts.see(Seen::TrimmedGrew);
        }
        if trimmed != table {
            self.counts.see(Seen::TrimmedChanged);
        }
        self.see_share(thousandths, remainder)?;
        Ok(Some(trimmed))
    }

    fn see_share(&mut self, thousandths: u32, remainder: u32) -> Outcome {
        match (thousandths, remainder) {
            (0, _) => self.counts.see(Seen::LeastKept),
            (1_000, 0) => self.counts.see(Seen::WholeKept),
            (MOST_KEPT, _) => self.counts.see(Seen::MostKept),
            (1..1_000, 1..) => self.counts.see(Seen::PartKept),
            (0..MOST_KEPT, _) => {}
            _ => return Err(format!("{thousandths} thousandths are kept")),
        }
        Ok(())
    }

    /// Lists into buffers of so many bytes; the reactions where it is accepted.
    pub fn list(&mut self, table: &[u8], asked: Asked, lent: [usize; 3]) -> Given<Vec<Reaction>> {
        let (paint, margin) = (self.next_paint(), self.margin);
        let ask = |tool: &dyn Tool, table: &[u8]| {
            let [mut o, mut k, mut l] = lent.map(|bytes| painted(bytes, margin, paint));
            let mut count = [u32::from(paint); 3];
            let answer = tool.list(table, asked, [o.lend(), k.lend(), l.lend()], &mut count[1]);
            (answer, (count, [o, k, l]))
        };
        let more = || format!("{asked:x?}, bytes lent {lent:?}");
        let (answer, (count, [mut o, mut k, mut l])) =
            self.compare(Operation::List, table, ask, more)?;
        if answer != 0 {
            return Ok(None);
        }
        let count = count[1] as usize;
        if count == 0 {
            self.counts.see(Seen::EmptyListing);
        }
        if count == MOST_REACTIONS {
            self.counts.see(Seen::FullListing);
        }
        let places = o.lend().chunks_exact(4).zip(k.lend()).zip(l.lend().chunks_exact(8));
        let reaction = |((o, k), l): ((&[u8], &mut u8), &[u8])| Reaction {
            o: u32::from_be_bytes(o.try_into().unwrap()),
            k: *k,
            l: u64::from_be_bytes(l.try_into().unwrap()),
        };
        Ok(Some(places.take(count).map(reaction).collect()))
    }

    /// Steps from the provided set; the answer where it is accepted.
    pub fn step(&mut self, table: &[u8], asked: Asked) -> Given<Answer> {
        let paint = u64::from(self.next_paint()) * 0x0101_0101_0101_0101;
        let number = paint as u32;
        let painted = StepCells {
            answer: number,
            assumed: number,
            emitted: number,
            code: number,
            reached: paint,
        };
        let ask = |tool: &dyn Tool, table: &[u8]| {
            let mut cells = [painted; 3];
            (tool.step(table, asked, &mut cells[1]), cells)
        };
        let (answer, cells) =
            self.compare(Operation::Step, table, ask, || format!("{asked:x?}"))?;
        if answer != 0 {
            return Ok(None);
        }
        let p = read(table).unwrap();
        let unknown = emitted_free(&p) & !asked.signals;
        let at = unknown.count_ones() as usize;
        self.counts.answers[at][cells[1].answer as usize] += 1;
        if cells[1].answer == 0 && asked.signals & !signals(&p) != 0 {
            self.counts.see(Seen::ForeignProvided);
        }
        Ok(Some(cells[1].stored()))
    }

    /// Reads a text, or writes one, into a buffer of so many bytes; what was put into it where it is
    /// accepted.
    fn put(
        &mut self,
        operation: Operation,
        input: &[u8],
        buffer: usize,
        call: fn(&dyn Tool, &[u8], &mut [u8], &mut usize) -> u32,
    ) -> Given<Vec<u8>> {
        let (paint, margin) = (self.next_paint(), self.margin);
        let ask = |tool: &dyn Tool, input: &[u8]| {
            let (mut out, mut bytes) = (painted(buffer, margin, paint), [usize::from(paint); 3]);
            let answer = call(tool, input, out.lend(), &mut bytes[1]);
            (answer, (bytes, out))
        };
        let more = || format!("buffer of {buffer} bytes");
        let (answer, (bytes, mut out)) = self.compare(operation, input, ask, more)?;
        Ok((answer == 0).then(|| out.lend()[..bytes[1]].to_vec()))
    }

    /// Reads a text into a buffer of so many bytes; the table where it is accepted.
    pub fn read_text(&mut self, text: &[u8], buffer: usize) -> Given<Vec<u8>> {
        let call = |tool: &dyn Tool, text: &[u8], out: &mut [u8], bytes: &mut usize| {
            tool.read_text(text, out, bytes)
        };
        let table = self.put(Operation::ReadText, text, buffer, call)?;
        if let Some(table) = &table {
            self.counts.note_table(Operation::ReadText, table);
            if read(table).is_ok_and(|p| print(&p).as_bytes() != text) {
                self.counts.see(Seen::OtherForm);
            }
            if parts(text).is_some_and(|parts| tree(&parts, MOST_OPEN - 1).is_none()) {
                self.counts.see(Seen::DeepText);
            }
        }
        Ok(table)
    }

    /// Writes a table into a buffer of so many bytes; the text where it is accepted.
    pub fn write_text(&mut self, table: &[u8], buffer: usize) -> Given<Vec<u8>> {
        let call = |tool: &dyn Tool, table: &[u8], out: &mut [u8], bytes: &mut usize| {
            tool.write_text(table, out, bytes)
        };
        self.put(Operation::WriteText, table, buffer, call)
    }

    /// Asks both sides, each with a table or text of its own, and compares what came back: 0 or the
    /// refusal, and everything lent.
    fn compare<T: Debug + PartialEq>(
        &mut self,
        operation: Operation,
        input: &[u8],
        ask: impl Fn(&dyn Tool, &[u8]) -> (u32, T),
        more: impl Fn() -> String,
    ) -> Result<(u32, T), String> {
        let lent = input.to_vec();
        let wanted = counting(|| ask(&Second, input));
        let given = ask(self.tool, &lent);
        self.counts.note(operation, wanted.0);
        if wanted.0 == 0 && operation != Operation::ReadText {
            self.counts.note_table(operation, input);
        }
        if given == wanted && lent == input {
            return Ok(wanted);
        }
        let changed = if lent == input { "" } else { "\n  and what was lent was changed" };
        Err(format!(
            "{operation:?} differs at {}\n  {}\n  wanted {wanted:02x?}\n  given  {given:02x?}{changed}",
            described(operation, input),
            more(),
        ))
    }
}

/// A table in hex with its statement, or a text.
fn described(operation: Operation, input: &[u8]) -> String {
    if operation == Operation::ReadText {
        let shown = &input[..input.len().min(2_000)];
        return format!("text of {} bytes {:?}", input.len(), String::from_utf8_lossy(shown));
    }
    let statement = read(input).map_or_else(|r| format!("refused {r}"), |p| print(&p));
    format!("table (hex) {}\n  {statement}", hex(input))
}

pub fn hex(bytes: &[u8]) -> String {
    bytes.iter().map(|byte| format!("{byte:02x}")).collect::<Vec<_>>().join(" ")
}
