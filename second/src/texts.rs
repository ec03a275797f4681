//! Texts of statements in other forms than the written one: with brackets that nobody needs, other
//! blanks, omitted branches.

use crate::random::Random;
use crate::statement::Statement;
use Statement::*;

/// How a text is made: brackets that nobody needs around one in so many statements, a branch that
/// is nothing omitted or not, and the most blanks between two parts that need none or one.
#[derive(Clone, Copy, Debug)]
pub struct Form {
    pub brackets: Option<usize>,
    pub omits: bool,
    pub blanks: usize,
}

/// The form of written texts, but for the blanks where none are needed.
pub const PLAIN: Form = Form { brackets: None, omits: false, blanks: 1 };

/// A text of p in a form, as its parts.
pub fn parts(random: &mut Random, form: Form, p: &Statement) -> Vec<String> {
    let mut speller = Speller { random, form, parts: Vec::new() };
    speller.statement(p, 2);
    speller.parts
}

struct Speller<'a> {
    random: &'a mut Random,
    form: Form,
    parts: Vec<String>,
}

impl Speller<'_> {
    fn put(&mut self, words: &str) {
        self.parts.extend(words.split(' ').map(String::from));
    }

    fn branch(&mut self, word: &str, p: &Statement) {
        if *p == Nothing && self.form.omits && self.random.one_in(2) {
            return;
        }
        self.put(word);
        self.statement(p, 2);
    }

    fn closed(&mut self, words: &str, p: &Statement) {
        self.put(words);
        self.statement(p, 2);
        self.put("end");
    }

    /// p where so much may stand without brackets: 0 neither `;` nor `||`, 1 `;`, 2 both.
    fn statement(&mut self, p: &Statement, room: u8) {
        let need = match p {
            Parallel(_, _) => 2,
            Sequence(_, _) => 1,
            _ => 0,
        };
        if need > room || self.form.brackets.is_some_and(|n| self.random.one_in(n)) {
            self.put("[");
            self.inside(p);
            return self.put("]");
        }
        self.inside(p);
    }

    fn inside(&mut self, p: &Statement) {
        match p {
            Nothing => self.put("nothing"),
            Pause(label) => self.put(&format!("{label}:pause")),
            Gotopause(label) => self.put(&format!("gotopause {label}")),
            Emit(signal) => self.put(&format!("emit S{signal}")),
            Exit(level) => self.put(&format!("exit {level}")),
            Signal(signal, p) => self.closed(&format!("signal S{signal} in"), p),
            Present(signal, p, q) => {
                self.put(&format!("present S{signal}"));
                self.branch("then", p);
                self.branch("else", q);
                self.put("end");
            }
            Sequence(p, q) => {
                self.statement(p, 0);
                self.put(";");
                self.statement(q, 1);
            }
            Parallel(p, q) => {
                self.statement(p, 1);
                self.put("||");
                self.statement(q, 2);
            }
            Loop(p) => self.closed("loop", p),
            Try(p) => self.closed("try", p),
        }
    }
}

/// The parts with blanks between them.
pub fn spaced(random: &mut Random, blanks: usize, parts: &[String]) -> Vec<u8> {
    let mut text: Vec<u8> = Vec::new();
    for part in parts {
        let meets = |byte: Option<&u8>| byte.is_some_and(u8::is_ascii_alphanumeric);
        let needed = meets(text.last()) && meets(part.as_bytes().first());
        if !text.is_empty() {
            let least = needed.into();
            let count = random.between(least, blanks.max(least));
            text.extend((0..count).map(|_| random.pick(b"   \n")));
        }
        text.extend(part.as_bytes());
    }
    text
}

/// A text of p in a form.
pub fn text(random: &mut Random, form: Form, p: &Statement) -> Vec<u8> {
    let parts = parts(random, form, p);
    spaced(random, form.blanks, &parts)
}
