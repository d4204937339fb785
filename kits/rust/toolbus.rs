//! A kit for tools of the ToolBus: terms, and an event loop.
//!
//! ```
//! mod toolbus;
//! use toolbus::{Answer, Bus, Term, Term::Int, Tool};
//!
//! struct Plus;
//!
//! impl Tool for Plus {
//!     fn on_eval(&mut self, _bus: &Bus, term: Term) -> Answer {
//!         Ok(Some(match term.parts() {
//!             ("plus", [Int(a), Int(b)]) => Int(a + b),
//!             _ => Term::name("unknown"),
//!         }))
//!     }
//! }
//!
//! fn main() -> std::process::ExitCode {
//!     toolbus::run(Plus)
//! }
//! ```
//!
//! The standard output belongs to the bus. Write text for people by `eprintln!` or `Bus::log`.
#![allow(dead_code)] // a tool uses a part of its kit

use std::fmt;
use std::io::{self, BufRead, Write};
use std::process::ExitCode;

const MOST_SIZE: usize = 65_536;
const MOST_DEPTH: usize = 64;
const MOST_LINE_BYTES: usize = 65_536;

/// A term. `true` and `false` are names without arguments. A term displays as its text.
#[derive(Clone, Debug, PartialEq, Eq, Hash)]
pub enum Term {
    Int(i64),
    Str(String),
    List(Vec<Term>),
    /// A name with its arguments.
    Appl(String, Vec<Term>),
}

impl Term {
    /// Returns a name without arguments.
    pub fn name(name: &str) -> Term {
        Term::Appl(name.to_owned(), Vec::new())
    }

    /// Returns a name with arguments.
    pub fn appl(name: &str, args: impl Into<Vec<Term>>) -> Term {
        Term::Appl(name.to_owned(), args.into())
    }

    /// Returns the name and the arguments, to match them. Of a list, the name is empty. Other terms have neither.
    pub fn parts(&self) -> (&str, &[Term]) {
        match self {
            Term::Appl(name, args) => (name, args),
            Term::List(members) => ("", members),
            Term::Int(_) | Term::Str(_) => ("", &[]),
        }
    }

    /// Reads the text of a term.
    pub fn read(text: &[u8]) -> Result<Term, Error> {
        let mut reader = Reader::new(text);
        let term = reader.term()?;
        check_limits(reader.size, reader.depth)?;
        Ok(term)
    }

    /// Returns the text of a term, or the error for which it has none.
    pub fn text(&self) -> Result<String, Error> {
        texts(std::slice::from_ref(self))
    }
}

impl fmt::Display for Term {
    fn fmt(&self, formatter: &mut fmt::Formatter) -> fmt::Result {
        formatter.write_str(&self.text().map_err(|_| fmt::Error)?)
    }
}

impl From<i64> for Term {
    fn from(number: i64) -> Term {
        Term::Int(number)
    }
}

impl From<&str> for Term {
    fn from(string: &str) -> Term {
        Term::Str(string.to_owned())
    }
}

impl From<String> for Term {
    fn from(string: String) -> Term {
        Term::Str(string)
    }
}

impl From<bool> for Term {
    fn from(truth: bool) -> Term {
        Term::name(if truth { "true" } else { "false" })
    }
}

impl From<Vec<Term>> for Term {
    fn from(members: Vec<Term>) -> Term {
        Term::List(members)
    }
}

/// Why a text isn't a term, or why a term or a line isn't sent.
#[derive(Debug)]
pub enum Error {
    /// The text isn't a term: the byte, counted from 0, can't go on.
    Syntax(usize),
    /// The number at this byte has a decimal point.
    Real(usize),
    /// The number at this byte is out of range.
    Integer(usize),
    /// The size of the terms, or the length of a line, exceeds the limit.
    Large,
    /// The term is too deep.
    Deep,
    /// The value has no text.
    Value(String),
    /// The bus has closed the tool's output.
    Gone(io::Error),
    /// An error of the tool.
    Tool(Box<dyn std::error::Error>),
}

impl fmt::Display for Error {
    fn fmt(&self, formatter: &mut fmt::Formatter) -> fmt::Result {
        match self {
            Error::Syntax(at) => write!(formatter, "syntax error at byte {at}"),
            Error::Real(at) => write!(formatter, "real number at byte {at}: a number must be whole"),
            Error::Integer(at) => write!(formatter, "number out of range at byte {at}: the range is {} to {}", i64::MIN, i64::MAX),
            Error::Large => write!(formatter, "the term or the line is too large: the limit is {MOST_SIZE}"),
            Error::Deep => write!(formatter, "the term is too deep: the limit is {MOST_DEPTH}"),
            Error::Value(why) => formatter.write_str(why),
            Error::Gone(why) => write!(formatter, "the bus has closed the tool's output: {why}"),
            Error::Tool(why) => why.fmt(formatter),
        }
    }
}

impl std::error::Error for Error {}

fn check_limits(size: usize, depth: usize) -> Result<(), Error> {
    if size > MOST_SIZE {
        return Err(Error::Large);
    }
    if depth > MOST_DEPTH {
        return Err(Error::Deep);
    }
    Ok(())
}

// Reading

/// A list (without a name), or a name with arguments, that isn't closed yet.
struct Open {
    name: Option<String>,
    parts: Vec<Term>,
}

impl Open {
    fn end(&self) -> u8 {
        self.name.as_ref().map_or(b']', |_| b')')
    }

    fn closed(self) -> Term {
        match self.name {
            Some(name) => Term::Appl(name, self.parts),
            None => Term::List(self.parts),
        }
    }
}

/// A term without parts, or the beginning of a term with parts.
enum Head {
    Whole(Term),
    Begun(Open),
}

/// Reads one term from left to right. It doesn't recurse, because a text can nest deeper than the stack.
struct Reader<'a> {
    text: &'a [u8],
    at: usize,
    size: usize,
    depth: usize,
}

impl<'a> Reader<'a> {
    fn new(text: &'a [u8]) -> Self {
        Reader { text, at: 0, size: 0, depth: 0 }
    }

    fn peek(&self) -> Option<u8> {
        self.text.get(self.at).copied()
    }

    fn syntax_error<T>(&self) -> Result<T, Error> {
        Err(Error::Syntax(self.at))
    }

    /// Moves past all bytes of a class, and returns them.
    fn skip(&mut self, class: impl Fn(u8) -> bool) -> &'a [u8] {
        let left = &self.text[self.at..];
        let count = left.iter().position(|&byte| !class(byte)).unwrap_or(left.len());
        self.at += count;
        &left[..count]
    }

    /// Skips whitespace, and returns the next byte.
    fn next(&mut self) -> Option<u8> {
        self.skip(|byte| matches!(byte, b' ' | b'\t' | b'\n' | b'\r'));
        self.peek()
    }

    fn number(&mut self) -> Result<Term, Error> {
        let start = self.at;
        self.at += usize::from(self.peek() == Some(b'-'));
        if self.skip(|byte| byte.is_ascii_digit()).is_empty() {
            return self.syntax_error();
        }
        if matches!(self.text[self.at..], [b'.', b'0'..=b'9', ..]) {
            return Err(Error::Real(start));
        }
        let digits = String::from_utf8_lossy(&self.text[start..self.at]);
        digits.parse().map(Term::Int).map_err(|_| Error::Integer(start))
    }

    /// Reads an escape, and returns the byte that it means.
    fn escape(&mut self) -> Result<u8, Error> {
        self.at += 1;
        let meant = match self.peek() {
            Some(byte @ (b'"' | b'\\')) => byte,
            Some(b'n') => b'\n',
            Some(b'r') => b'\r',
            Some(b't') => b'\t',
            _ => return self.syntax_error(),
        };
        self.at += 1;
        Ok(meant)
    }

    /// Moves past a character of more than one byte. The ranges are those of well-formed UTF-8.
    fn wide(&mut self, first: u8) -> Result<(), Error> {
        let more = match first {
            0xc2..=0xdf => 1,
            0xe0..=0xef => 2,
            0xf0..=0xf4 => 3,
            _ => return self.syntax_error(),
        };
        let mut range = match first {
            0xe0 => 0xa0..=0xbf,
            0xed => 0x80..=0x9f,
            0xf0 => 0x90..=0xbf,
            0xf4 => 0x80..=0x8f,
            _ => 0x80..=0xbf,
        };
        self.at += 1;
        for _ in 0..more {
            if !self.peek().map_or(false, |byte| range.contains(&byte)) {
                return self.syntax_error();
            }
            self.at += 1;
            range = 0x80..=0xbf;
        }
        Ok(())
    }

    fn string(&mut self) -> Result<Term, Error> {
        let mut bytes = Vec::new();
        self.at += 1;
        loop {
            bytes.extend(self.skip(|byte| matches!(byte, b'\t' | b' '..=0x7f) && byte != b'"' && byte != b'\\'));
            let start = self.at;
            match self.peek() {
                Some(b'"') => break,
                Some(b'\\') => bytes.push(self.escape()?),
                Some(first @ 0x80..) => {
                    self.wide(first)?;
                    bytes.extend(&self.text[start..self.at]);
                }
                _ => return self.syntax_error(),
            }
        }
        self.at += 1;
        self.size += bytes.len();
        Ok(Term::Str(String::from_utf8_lossy(&bytes).into_owned()))
    }

    fn list(&mut self) -> Head {
        self.at += 1;
        if self.next() == Some(b']') {
            self.at += 1;
            return Head::Whole(Term::List(Vec::new()));
        }
        Head::Begun(Open { name: None, parts: Vec::new() })
    }

    fn name(&mut self) -> Result<Head, Error> {
        if !self.peek().map_or(false, |byte| byte.is_ascii_lowercase()) {
            return self.syntax_error();
        }
        let bytes = self.skip(|byte| byte.is_ascii_alphanumeric() || byte == b'-' || byte == b'_');
        let name = String::from_utf8_lossy(bytes).into_owned();
        self.size += name.len();
        if self.next() != Some(b'(') {
            return Ok(Head::Whole(Term::Appl(name, Vec::new())));
        }
        self.at += 1;
        Ok(Head::Begun(Open { name: Some(name), parts: Vec::new() }))
    }

    fn head(&mut self) -> Result<Head, Error> {
        self.size += 1;
        match self.next() {
            Some(b'0'..=b'9' | b'-') => self.number().map(Head::Whole),
            Some(b'"') => self.string().map(Head::Whole),
            Some(b'[') => Ok(self.list()),
            _ => self.name(),
        }
    }

    /// Adds a term to the innermost open one, and closes all that end behind it. Returns the last term that is closed. A part below the
    /// limit of depth isn't kept: the text is an error, and a deep term would overflow the stack when it is dropped.
    fn close(&mut self, mut term: Term, above: &mut Vec<Open>) -> Result<Term, Error> {
        while let Some(mut around) = above.pop() {
            if above.len() <= MOST_DEPTH {
                around.parts.push(term);
            }
            match self.next() {
                Some(b',') => {
                    self.at += 1;
                    above.push(around);
                    return Ok(Term::List(Vec::new()));
                }
                Some(byte) if byte == around.end() => self.at += 1,
                _ => return self.syntax_error(),
            }
            term = around.closed();
        }
        Ok(term)
    }

    /// Reads the whole text.
    fn term(&mut self) -> Result<Term, Error> {
        let mut above = Vec::new();
        loop {
            self.depth = self.depth.max(above.len() + 1);
            let term = match self.head()? {
                Head::Begun(open) => {
                    above.push(open);
                    continue;
                }
                Head::Whole(term) => self.close(term, &mut above)?,
            };
            if above.is_empty() {
                return if self.next().is_none() { Ok(term) } else { self.syntax_error() };
            }
        }
    }
}

// Writing

/// Writes terms, and adds up their size.
#[derive(Default)]
struct Writer {
    text: String,
    size: usize,
}

impl Writer {
    fn string(&mut self, string: &str) -> Result<(), Error> {
        self.size += string.len();
        self.text.push('"');
        for character in string.chars() {
            match character {
                '"' | '\\' => self.text.extend(['\\', character]),
                '\n' => self.text.push_str("\\n"),
                '\r' => self.text.push_str("\\r"),
                '\t' => self.text.push_str("\\t"),
                '\0'..='\x1f' => return Err(Error::Value(format!("a string of a term can't have the character {character:?}"))),
                _ => self.text.push(character),
            }
        }
        self.text.push('"');
        Ok(())
    }

    fn name(&mut self, name: &str) -> Result<(), Error> {
        let in_name = |byte: u8| byte.is_ascii_alphanumeric() || byte == b'-' || byte == b'_';
        if !name.starts_with(|first: char| first.is_ascii_lowercase()) || !name.bytes().all(in_name) {
            let message = format!("{name:?} isn't a name: a name is a lower-case letter, then letters, digits, - and _");
            return Err(Error::Value(message));
        }
        self.size += name.len();
        self.text.push_str(name);
        Ok(())
    }

    fn parts(&mut self, parts: &[Term], depth: usize) -> Result<(), Error> {
        for (index, part) in parts.iter().enumerate() {
            if index > 0 {
                self.text.push(',');
            }
            self.term(part, depth)?;
        }
        Ok(())
    }

    /// Writes a term of at most this depth.
    fn term(&mut self, term: &Term, depth: usize) -> Result<(), Error> {
        let below = depth.checked_sub(1).ok_or(Error::Deep)?;
        self.size += 1;
        match term {
            Term::Int(number) => self.text.push_str(&number.to_string()),
            Term::Str(string) => self.string(string)?,
            Term::List(members) => {
                self.text.push('[');
                self.parts(members, below)?;
                self.text.push(']');
            }
            Term::Appl(name, args) => {
                self.name(name)?;
                if !args.is_empty() {
                    self.text.push('(');
                    self.parts(args, below)?;
                    self.text.push(')');
                }
            }
        }
        Ok(())
    }
}

/// Returns the texts of terms that are within the limits together, separated by commas.
pub fn texts(terms: &[Term]) -> Result<String, Error> {
    let mut writer = Writer::default();
    writer.parts(terms, MOST_DEPTH)?;
    check_limits(writer.size, 0)?;
    Ok(writer.text)
}

// Lines

/// Returns the word of a line from the bus, such as rec-eval, and the terms in it. The text has no newline. The limits apply to the terms
/// in the line, without its word.
pub fn read_line(text: &[u8]) -> Result<(String, Vec<Term>), Error> {
    let mut reader = Reader::new(text);
    let (word, terms) = match reader.term()? {
        Term::Appl(word, terms) => (word, terms),
        _ => return Err(Error::Value("the line begins with no word".to_owned())),
    };
    let fits = match word.as_str() {
        "rec-eval" | "rec-do" | "rec-terminate" => terms.len() == 1,
        "rec-ack-event" => !terms.is_empty(),
        _ => return Err(Error::Value(format!("the line begins with {word}"))),
    };
    if !fits {
        return Err(Error::Value(format!("{word} can't have {} terms", terms.len())));
    }
    check_limits(reader.size - 1 - word.len(), reader.depth - 1)?;
    Ok((word, terms))
}

// The event loop

/// What a handler of `on_eval` returns: a term, or `None` if the tool calls `Bus::value` later.
pub type Answer = Result<Option<Term>, Error>;

/// The handlers of a tool. An error that a handler returns ends the tool.
pub trait Tool {
    /// Handles rec-eval. The kit sends the term as snd-value.
    fn on_eval(&mut self, _bus: &Bus, term: Term) -> Answer {
        Err(Error::Value(format!("no handler for rec-eval({term}): define on_eval")))
    }

    /// Handles rec-do.
    fn on_do(&mut self, bus: &Bus, term: Term) -> Result<(), Error> {
        bus.log(format_args!("no handler for rec-do({term}): define on_do"));
        Ok(())
    }

    /// Handles rec-ack-event, with the terms of the event. Optional.
    fn on_ack_event(&mut self, _bus: &Bus, _terms: Vec<Term>) -> Result<(), Error> {
        Ok(())
    }

    /// Handles rec-terminate, before `run` returns. Optional.
    fn on_terminate(&mut self, _bus: &Bus, _reason: Term) -> Result<(), Error> {
        Ok(())
    }
}

/// The lines to the bus. Each thread can make a `Bus`, and call its methods.
#[derive(Clone, Copy, Default)]
pub struct Bus;

impl Bus {
    /// Sends snd-value, after `on_eval` returned `None`.
    pub fn value(&self, term: &Term) -> Result<(), Error> {
        self.send(&format!("snd-value({})", term.text()?))
    }

    /// Sends snd-event with one term or more.
    pub fn event(&self, terms: &[Term]) -> Result<(), Error> {
        if terms.is_empty() {
            return Err(Error::Value("snd-event takes one term or more".to_owned()));
        }
        self.send(&format!("snd-event({})", texts(terms)?))
    }

    /// Sends snd-connect. If `--connect` started the tool, this line must come first.
    pub fn connect(&self, name: &str) -> Result<(), Error> {
        self.send(&format!("snd-connect({})", Term::name(name).text()?))
    }

    /// Sends snd-disconnect. Then the bus closes the tool's input, and `run` returns.
    pub fn disconnect(&self) -> Result<(), Error> {
        self.send("snd-disconnect")
    }

    /// Writes a line to the standard error.
    pub fn log(&self, text: impl fmt::Display) {
        eprintln!("tool: {text}");
    }

    fn send(&self, line: &str) -> Result<(), Error> {
        if line.len() > MOST_LINE_BYTES {
            return Err(Error::Large);
        }
        let mut output = io::stdout().lock();
        writeln!(output, "{line}").and_then(|()| output.flush()).map_err(Error::Gone)
    }
}

/// Handles lines until rec-terminate, or until the input ends. Returns the exit status for `main`.
pub fn run(mut tool: impl Tool) -> ExitCode {
    match handle_lines(&mut tool) {
        Ok(()) => ExitCode::SUCCESS,
        Err(why) => {
            Bus.log(why);
            ExitCode::FAILURE
        }
    }
}

fn handle_lines(tool: &mut impl Tool) -> Result<(), Error> {
    for text in io::stdin().lock().split(b'\n') {
        let text = text.map_err(|why| Error::Tool(why.into()))?;
        match read_line(&text) {
            Ok((word, terms)) => {
                handle(tool, &word, terms)?;
                if word == "rec-terminate" {
                    break;
                }
            }
            Err(why) => Bus.log(format_args!("ignored a line that no bus sends: {why}: {}", String::from_utf8_lossy(&text))),
        }
    }
    Ok(())
}

fn handle(tool: &mut impl Tool, word: &str, mut terms: Vec<Term>) -> Result<(), Error> {
    match word {
        "rec-eval" => match tool.on_eval(&Bus, terms.remove(0))? {
            Some(value) => Bus.value(&value),
            None => Ok(()),
        },
        "rec-do" => tool.on_do(&Bus, terms.remove(0)),
        "rec-ack-event" => tool.on_ack_event(&Bus, terms),
        _ => tool.on_terminate(&Bus, terms.remove(0)),
    }
}
