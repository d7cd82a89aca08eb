//! From text to trees.

use super::{block, definition, lambda, value_use, Word, MAX_ARGUMENTS, WORDS};
use crate::forest::{Record, Tree, MARKS};

/// Text nested deeper than this is refused; no accepted forest comes near it.
const MAX_NESTING: usize = 10_000;

/// What is open around the tree being read. Kept in a list, so that deep text needs no deep stack.
enum Open {
    Call {
        word: &'static Word,
        column: usize,
        children: Vec<Tree>,
    },
    /// With `binds`, the value of that id is being read; without, the result.
    Block {
        children: Vec<Tree>,
        binds: Option<u32>,
    },
    Lambda {
        record: Record,
    },
}

/// What became of something open when a tree inside it was done.
enum Step {
    Ended(Tree),
    Open(Open),
}

/// Text and how far it is read.
pub(super) struct Reader {
    text: Vec<char>,
    at: usize,
}

impl Reader {
    pub(super) fn new(text: &str) -> Reader {
        Reader {
            text: text.chars().collect(),
            at: 0,
        }
    }

    /// Reads a whole tree.
    pub(super) fn tree(&mut self) -> Result<Tree, String> {
        let mut open = Vec::new();
        loop {
            let Some(mut done) = self.start(&mut open)? else {
                if open.len() > MAX_NESTING {
                    return Err(self.error("nested too deep"));
                }
                continue;
            };
            // The tree may end what is around it, and that in turn what is around that.
            loop {
                match open.pop() {
                    None => return Ok(done),
                    Some(around) => match self.resume(around, done)? {
                        Step::Ended(tree) => done = tree,
                        Step::Open(around) => {
                            open.push(around);
                            break;
                        }
                    },
                }
            }
        }
    }

    /// Reads the beginning of a tree: a whole one, or something that opens.
    fn start(&mut self, open: &mut Vec<Open>) -> Result<Option<Tree>, String> {
        match self.peek() {
            None => Err(self.error("a tree is missing")),
            Some('{') => {
                self.at += 1;
                let binds = self.binding()?;
                open.push(Open::Block {
                    children: Vec::new(),
                    binds,
                });
                Ok(None)
            }
            Some('L') => {
                self.at += 1;
                let record = self.arguments()?;
                open.push(Open::Lambda { record });
                Ok(None)
            }
            Some('0'..='9') => Ok(Some(leaf(value_use(self.number()?)))),
            Some(c) if c.is_ascii_alphabetic() => self.call(open),
            Some(c) => Err(self.error(&format!("a tree cannot begin with `{c}`"))),
        }
    }

    /// Reads a word, a constant's mark and, if the word takes operands, the parenthesis.
    fn call(&mut self, open: &mut Vec<Open>) -> Result<Option<Tree>, String> {
        let column = self.at;
        while self
            .text
            .get(self.at)
            .is_some_and(|c| c.is_ascii_alphanumeric())
        {
            self.at += 1;
        }
        let name: String = self.text[column..self.at].iter().collect();
        let Some(word) = WORDS.iter().find(|word| word.name == name) else {
            return Err(error_at(column, &format!("unknown word `{name}`")));
        };
        let mut record = word.record();
        if self.peek() == Some(':') {
            if !word.is_constant() {
                return Err(self.error("only a constant has a mark"));
            }
            record.set_mark(self.mark()?);
        }
        if word.operands == Some(0) {
            return match self.peek() {
                Some('(') => Err(self.error(&format!("`{name}` takes no operands"))),
                _ => Ok(Some(leaf(record))),
            };
        }
        if !self.take('(') {
            return Err(self.error(&format!("`(` is missing after `{name}`")));
        }
        if word.operands.is_none() && self.take(')') {
            return Ok(Some(leaf(record)));
        }
        open.push(Open::Call {
            word,
            column,
            children: Vec::new(),
        });
        Ok(None)
    }

    /// Puts a finished tree into what is around it.
    fn resume(&mut self, around: Open, done: Tree) -> Result<Step, String> {
        match around {
            Open::Lambda { record } => Ok(Step::Ended(Tree {
                record,
                children: vec![done],
            })),
            Open::Call {
                word,
                column,
                mut children,
            } => {
                children.push(done);
                if self.take(',') {
                    return Ok(Step::Open(Open::Call {
                        word,
                        column,
                        children,
                    }));
                }
                if !self.take(')') {
                    return Err(self.error(&format!("`,` or `)` is missing in `{}`", word.name)));
                }
                match word.operands {
                    Some(n) if n != children.len() => Err(error_at(
                        column,
                        &format!("`{}` takes {n} operands, not {}", word.name, children.len()),
                    )),
                    _ => Ok(Step::Ended(Tree {
                        record: word.record(),
                        children,
                    })),
                }
            }
            Open::Block {
                mut children,
                binds: Some(id),
            } => {
                children.push(Tree {
                    record: definition(id),
                    children: vec![done],
                });
                if !self.take(';') {
                    return Err(self.error("`;` is missing after a definition"));
                }
                let binds = self.binding()?;
                Ok(Step::Open(Open::Block { children, binds }))
            }
            Open::Block {
                mut children,
                binds: None,
            } => {
                children.push(done);
                if !self.take('}') {
                    return Err(self.error("`}` is missing after a block's result"));
                }
                Ok(Step::Ended(Tree {
                    record: block(),
                    children,
                }))
            }
        }
    }

    /// Reads `7=` if it stands here; a number alone is left for a use.
    fn binding(&mut self) -> Result<Option<u32>, String> {
        let Some('0'..='9') = self.peek() else {
            return Ok(None);
        };
        let back = self.at;
        let id = self.number()?;
        if self.take('=') {
            return Ok(Some(id));
        }
        self.at = back;
        Ok(None)
    }

    /// Reads a lambda's ids and the point after them.
    fn arguments(&mut self) -> Result<Record, String> {
        let mut ids = Vec::new();
        if self.take('.') {
            return Ok(lambda(&ids));
        }
        loop {
            match self.peek() {
                Some('0'..='9') if ids.len() == MAX_ARGUMENTS => {
                    return Err(self.error("too many arguments"));
                }
                Some('0'..='9') => ids.push(self.number()?),
                _ => return Err(self.error("an argument's number is missing")),
            }
            if self.take('.') {
                return Ok(lambda(&ids));
            }
            if !self.take(',') {
                return Err(self.error("`,` or `.` is missing in a lambda"));
            }
        }
    }

    /// Reads a colon and the mark after it.
    fn mark(&mut self) -> Result<u8, String> {
        self.take(':');
        let Some('0'..='9') = self.peek() else {
            return Err(self.error("a mark's number is missing"));
        };
        let column = self.at;
        let number = self.number()?;
        match u8::try_from(number) {
            Ok(mark) if mark < MARKS => Ok(mark),
            _ => {
                let most = MARKS - 1;
                let what = format!("a mark is at most {most}, not {number}");
                Err(error_at(column, &what))
            }
        }
    }

    fn number(&mut self) -> Result<u32, String> {
        let column = self.at;
        while self.text.get(self.at).is_some_and(char::is_ascii_digit) {
            self.at += 1;
        }
        let digits: String = self.text[column..self.at].iter().collect();
        // The digits are there and are digits, so only the size can be wrong.
        digits
            .parse()
            .map_err(|_| error_at(column, &format!("number too large: {digits}")))
    }

    pub(super) fn peek(&mut self) -> Option<char> {
        while self.text.get(self.at).is_some_and(|c| c.is_whitespace()) {
            self.at += 1;
        }
        self.text.get(self.at).copied()
    }

    pub(super) fn take(&mut self, c: char) -> bool {
        let found = self.peek() == Some(c);
        self.at += usize::from(found);
        found
    }

    pub(super) fn error(&self, what: &str) -> String {
        error_at(self.at, what)
    }
}

fn error_at(at: usize, what: &str) -> String {
    format!("column {}: {what}", at + 1)
}

fn leaf(record: Record) -> Tree {
    Tree {
        record,
        children: Vec::new(),
    }
}
