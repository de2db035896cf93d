//! Tevondimby, a syntax stack for Rust: edits and rewrites of a document.
//!
//! ```
//! use tevondimby::{Document, Edition, Grammar};
//!
//! let mut doc = Document::open("fn f() { 1 + ; }", Edition::E2021, Grammar::Profile)?;
//! assert_eq!(doc.errors()?[0].to_string(), "12: expected an expression");
//! doc.edit(13..13, "2")?;
//! assert!(doc.errors()?.is_empty());
//! assert_eq!(doc.text()?, "fn f() { 1 + 2; }");
//! # Ok::<(), tevondimby::Error>(())
//! ```
//!
//! Offsets are in bytes of the text.
mod native;

use native::{Handle, RawMessage};
pub use native::{Element, Kind, Token};
use std::cell::UnsafeCell;
use std::fmt;
use std::ops::Range;

/// An edition of Rust.
#[derive(Clone, Copy, Debug, PartialEq, Eq)]
pub enum Edition {
    E2015 = 2015,
    E2018 = 2018,
    E2021 = 2021,
    E2024 = 2024,
    Next = 0,
}

/// The grammar of a text.
#[derive(Clone, Copy, Debug, PartialEq, Eq)]
pub enum Grammar {
    Profile = 0,
    Whole = 1,
}

/// The error of a call. The document is as before.
#[derive(Clone, Debug, PartialEq, Eq)]
#[non_exhaustive]
pub enum Error {
    NoMemory,
    /// More than 16,777,216 bytes.
    TooLong,
    /// A range is not within the text, or has an end inside of a character.
    Range,
    NoTreeNumber,
    /// It is no commit, or no name.
    NoCommand,
    /// The new text would not read as the rewritten tree.
    Unfaithful,
    /// No element has the target's kind and range.
    NoTarget,
    /// A text is not what it is to be read as.
    Payload,
    /// The root has no siblings.
    NoParent,
    /// The root would be deleted, or a token would replace it.
    BadTarget,
    /// Two changes replace one element.
    Intersecting,
    /// A change in a replaced element has no place in what replaces it.
    MissingMapping,
    /// Reading the text might take more levels than 2 MiB of stack hold.
    TooDeep,
    /// A code that this crate does not know.
    Other(u32),
}

impl fmt::Display for Error {
    fn fmt(&self, f: &mut fmt::Formatter<'_>) -> fmt::Result {
        f.write_str(match self {
            Error::NoMemory => "out of memory",
            Error::TooLong => "the text has more than 16,777,216 bytes",
            Error::Range => "the range does not lie within the text, at boundaries of characters",
            Error::NoTreeNumber => "no tree number is left",
            Error::NoCommand => "it is no commit, or no name",
            Error::Unfaithful => "the new text would not read as the rewritten tree",
            Error::NoTarget => "no element has the target's kind and range",
            Error::Payload => "the text is not what it is to be read as",
            Error::NoParent => "the root has no siblings",
            Error::BadTarget => "the root cannot be taken out",
            Error::Intersecting => "two changes replace one element",
            Error::MissingMapping => "a change in a replaced element has no place in what replaces it",
            Error::TooDeep => "the text has too many levels",
            Error::Other(code) => return write!(f, "code {code}"),
        })
    }
}

impl std::error::Error for Error {}

/// Returns the error of a code.
fn check_code(code: u32) -> Result<(), Error> {
    Err(match code {
        0 => return Ok(()),
        3 => Error::NoMemory,
        5 => Error::TooLong,
        6 => Error::Range,
        9 => Error::NoTreeNumber,
        10 => Error::NoCommand,
        11 => Error::Unfaithful,
        12 => Error::NoTarget,
        13 => Error::Payload,
        14 => Error::NoParent,
        15 => Error::BadTarget,
        16 => Error::Intersecting,
        17 => Error::MissingMapping,
        18 => Error::TooDeep,
        other => Error::Other(other),
    })
}

/// Calls a function that fills a buffer, and again with more room if `room` items are too few.
fn filled<T: Copy + Default>(room: usize, mut call: impl FnMut(*mut T, usize, &mut usize) -> u32) -> Result<Vec<T>, Error> {
    let (mut room, mut count) = (room, 0);
    loop {
        let mut out = Vec::new();
        out.try_reserve_exact(room).map_err(|_| Error::NoMemory)?;
        // (the library takes a slice, so the items are written first)
        out.resize(room, T::default());
        match call(out.as_mut_ptr(), room, &mut count) {
            1 => room = count,
            code => {
                check_code(code)?;
                out.truncate(count);
                return Ok(out);
            }
        }
    }
}

/// The answer to a request.
pub struct Answer {
    pub output: Vec<u8>,
    pub status: u8,
}

/// Answers a request, as the program `document_tool` does.
pub fn run(request: &[u8]) -> Result<Answer, Error> {
    let mut status = 0;
    // SAFETY, of each call in this file: the declarations are those of the header, a slice's pointer goes with its length, an out
    // parameter is a `&mut`, and the library keeps no pointer.
    let output = filled(4 * request.len() + 4096, |out, len, count| unsafe {
        native::tevondimby_run(request.as_ptr(), request.len(), out, len, count, &mut status)
    })?;
    Ok(Answer { output, status })
}

/// Counts the messages of a text.
pub fn check(text: &str, edition: Edition, grammar: Grammar) -> Result<usize, Error> {
    let mut count = 0;
    check_code(unsafe { native::tevondimby_check(text.as_ptr(), text.len(), edition as u32, grammar as u32, &mut count) })?;
    Ok(count)
}

impl Kind {
    /// Returns the name of the kind, as `BIN_EXPR`.
    pub fn name(self) -> String {
        let found = filled(64, |out, len, count| unsafe { native::tevondimby_kind_name(self.0, out, len, count) });
        found.ok().and_then(|it| String::from_utf8(it).ok()).unwrap_or_default()
    }
}

impl fmt::Debug for Kind {
    fn fmt(&self, f: &mut fmt::Formatter<'_>) -> fmt::Result {
        f.write_str(&self.name())
    }
}

impl Token {
    /// Returns the range in bytes.
    pub fn range(self) -> Range<usize> {
        self.start as usize..self.end as usize
    }
}

impl Element {
    /// Returns the range in bytes.
    pub fn range(self) -> Range<usize> {
        self.start as usize..self.end as usize
    }
}

/// An error of a text at an offset.
#[derive(Clone, Debug, PartialEq, Eq)]
pub struct Message {
    pub offset: usize,
    pub words: String,
}

impl fmt::Display for Message {
    fn fmt(&self, f: &mut fmt::Formatter<'_>) -> fmt::Result {
        write!(f, "{}: {}", self.offset, self.words)
    }
}

/// A change of a commit. Its target is the first element in preorder of a kind and a range.
#[derive(Clone, Debug)]
pub enum Change<'a> {
    Replace { kind: &'a str, range: Range<usize>, with: Payload<'a> },
    Before { kind: &'a str, range: Range<usize>, with: Payload<'a> },
    After { kind: &'a str, range: Range<usize>, with: Payload<'a> },
    Delete { kind: &'a str, range: Range<usize> },
}

/// A text, and what it is read as.
#[derive(Clone, Debug)]
pub enum Payload<'a> {
    Token(&'a str),
    Expr(&'a str),
    Type(&'a str),
    Pattern(&'a str),
    Item(&'a str),
    Stmt(&'a str),
}

/// Appends a text as a JSON string.
fn push_json(json: &mut String, text: &str) {
    json.push('"');
    for c in text.chars() {
        match c {
            '"' => json.push_str("\\\""),
            '\\' => json.push_str("\\\\"),
            c if c < ' ' => json.push_str(&format!("\\u{:04x}", c as u32)),
            c => json.push(c),
        }
    }
    json.push('"');
}

/// Appends a change as JSON.
fn push_change(json: &mut String, change: &Change<'_>) {
    let (op, kind, range, with) = match change {
        Change::Replace { kind, range, with } => ("replace", kind, range, Some(with)),
        Change::Before { kind, range, with } => ("before", kind, range, Some(with)),
        Change::After { kind, range, with } => ("after", kind, range, Some(with)),
        Change::Delete { kind, range } => ("delete", kind, range, None),
    };
    json.push_str(&format!("{{\"op\":\"{op}\",\"at\":["));
    push_json(json, kind);
    json.push_str(&format!(",{},{}]", range.start, range.end));
    if let Some(with) = with {
        let (entry, text) = match with {
            Payload::Token(text) => ("token", text),
            Payload::Expr(text) => ("expr", text),
            Payload::Type(text) => ("type", text),
            Payload::Pattern(text) => ("pattern", text),
            Payload::Item(text) => ("item", text),
            Payload::Stmt(text) => ("stmt", text),
        };
        json.push_str(&format!(",\"with\":[\"{entry}\","));
        push_json(json, text);
        json.push(']');
    }
    json.push('}');
}

/// A Rust text with its tokens, messages and tree.
pub struct Document {
    handle: UnsafeCell<Handle>,
}

// SAFETY: what the handle leads to is reached by its calls alone, and is shared with no other handle. (Not `Sync`: a call of
// `&self` takes the value out of the handle and puts it back.)
unsafe impl Send for Document {}

impl Document {
    /// Reads a text.
    ///
    /// # Errors
    ///
    /// [`Error::TooLong`], [`Error::TooDeep`] or [`Error::NoMemory`].
    pub fn open(text: &str, edition: Edition, grammar: Grammar) -> Result<Document, Error> {
        let document = Document { handle: UnsafeCell::new(Handle { is_open: 0, at: std::ptr::null_mut() }) };
        check_code(unsafe { native::tevondimby_open(document.handle.get(), text.as_ptr(), text.len(), edition as u32, grammar as u32) })?;
        Ok(document)
    }

    /// Returns the text.
    pub fn text(&self) -> Result<String, Error> {
        let mut room = 0;
        // (a call with no room tells the length)
        unsafe { native::tevondimby_text(self.handle.get(), std::ptr::NonNull::dangling().as_ptr(), 0, &mut room) };
        let bytes = filled(room, |out, len, count| unsafe { native::tevondimby_text(self.handle.get(), out, len, count) })?;
        String::from_utf8(bytes).map_err(|_| Error::Other(2))
    }

    /// Replaces the bytes of `range` with `text`. On error, nothing changes.
    pub fn edit(&mut self, range: Range<usize>, text: &str) -> Result<(), Error> {
        check_code(unsafe { native::tevondimby_edit(self.handle.get(), range.start, range.end, text.as_ptr(), text.len()) })
    }

    /// Renames each identifier `old`. On error, nothing changes.
    pub fn rename(&mut self, old: &str, new: &str) -> Result<(), Error> {
        check_code(unsafe { native::tevondimby_rename(self.handle.get(), old.as_ptr(), old.len(), new.as_ptr(), new.len()) })
    }

    /// Makes all changes. Returns the ranges of the new text that they put in. On error, nothing changes.
    pub fn commit(&mut self, changes: &[Change<'_>]) -> Result<Vec<Range<usize>>, Error> {
        let mut json = String::from("[{\"do\":\"commit\",\"changes\":[");
        for (i, change) in changes.iter().enumerate() {
            if i > 0 {
                json.push(',');
            }
            push_change(&mut json, change);
        }
        json.push_str("]}]");
        check_code(unsafe { native::tevondimby_commit(self.handle.get(), json.as_ptr(), json.len()) })?;
        let ranges = filled(changes.len(), |out, len, count| unsafe { native::tevondimby_changed(self.handle.get(), out, len, count) })?;
        Ok(ranges.iter().map(|it| it.start as usize..it.end as usize).collect())
    }

    /// Returns the messages, the parser's before the lexer's.
    pub fn errors(&self) -> Result<Vec<Message>, Error> {
        let (mut items, mut words) = (vec![RawMessage::default(); 16], vec![0u8; 1024]);
        let (mut count, mut size) = (0, 0);
        loop {
            let code = unsafe {
                native::tevondimby_errors(self.handle.get(), items.as_mut_ptr(), items.len(), &mut count, words.as_mut_ptr(), words.len(), &mut size)
            };
            if code != 1 {
                check_code(code)?;
                let words_of = |it: &RawMessage| String::from_utf8_lossy(&words[it.words_start as usize..it.words_end as usize]).into_owned();
                return Ok(items[..count].iter().map(|it| Message { offset: it.offset as usize, words: words_of(it) }).collect());
            }
            items.resize(count.max(items.len()), RawMessage::default());
            words.resize(size.max(words.len()), 0);
        }
    }

    /// Returns the tokens in order, trivia included.
    pub fn tokens(&self) -> Result<std::vec::IntoIter<Token>, Error> {
        Ok(filled(1024, |out, len, count| unsafe { native::tevondimby_tokens(self.handle.get(), out, len, count) })?.into_iter())
    }

    /// Returns the elements of the tree in preorder.
    pub fn tree(&self) -> Result<Vec<Element>, Error> {
        filled(1024, |out, len, count| unsafe { native::tevondimby_tree(self.handle.get(), out, len, count) })
    }
}

impl Drop for Document {
    fn drop(&mut self) {
        unsafe { native::tevondimby_free(self.handle.get()) };
    }
}
