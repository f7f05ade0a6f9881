//! `green EDITION ENTRY FILE` builds a green tree of a file and prints it, each node and leaf with its range in bytes.
//!
//! Such trees are those of the crate rowan, on which rust-analyzer's syntax trees stand. A node knows its kind, its
//! length and its children, and neither its parent nor its place, so that equal parts of a tree are one part in memory.
//! The builder below takes the steps as rust-analyzer's does: a node begins, a token, a node ends, a message.
mod common;

use ra_ap_parser::{LexedStr, StrStep, SyntaxKind};
use std::collections::HashSet;
use std::fmt::Write as _;
use std::io::Write as _;
use std::process::ExitCode;
use std::sync::Arc;

const USAGE: &str = "usage: green EDITION ENTRY FILE";

/// A node or a token. A token has a text and no children.
#[derive(PartialEq, Eq, Hash)]
struct Green {
    kind: SyntaxKind,
    length: usize,
    text: Box<str>,
    children: Vec<Shared>,
}

/// A part of a tree, which may have several parents. Parts are equal if they are the same part.
#[derive(Clone)]
struct Shared(Arc<Green>);

/// Builds a tree from its steps.
#[derive(Default)]
struct Builder {
    /// The kinds of the open nodes, each with the number of parts that stood before it.
    open: Vec<(SyntaxKind, usize)>,
    /// The parts whose parent is still open.
    parts: Vec<Shared>,
    /// The parts that are looked up before another one like them is made.
    known: HashSet<Arc<Green>>,
    messages: Vec<(usize, String)>,
}

impl Builder {
    fn take(&mut self, step: StrStep<'_>) {
        match step {
            StrStep::Enter { kind } => self.open.push((kind, self.parts.len())),
            StrStep::Token { kind, text } => self.push(kind, text.len(), text, Vec::new()),
            StrStep::Exit => {
                let (kind, first) = self.open.pop().expect("a node is open");
                let children = self.parts.split_off(first);
                self.push(kind, children.iter().map(|part| part.0.length).sum(), "", children);
            }
            StrStep::Error { msg, pos } => self.messages.push((pos, msg.to_owned())),
        }
    }

    /// Adds a part. One of at most three children is made only if there is none like it yet.
    fn push(&mut self, kind: SyntaxKind, length: usize, text: &str, children: Vec<Shared>) {
        let is_small = children.len() <= 3;
        let green = Green { kind, length, text: text.into(), children };
        let part = match self.known.get(&green) {
            Some(known) => known.clone(),
            None => Arc::new(green),
        };
        if is_small {
            self.known.insert(part.clone());
        }
        self.parts.push(Shared(part));
    }
}

impl PartialEq for Shared {
    fn eq(&self, other: &Shared) -> bool {
        Arc::ptr_eq(&self.0, &other.0)
    }
}

impl Eq for Shared {}

impl std::hash::Hash for Shared {
    fn hash<H: std::hash::Hasher>(&self, state: &mut H) {
        Arc::as_ptr(&self.0).hash(state);
    }
}

/// Drops the parts below one after another, so that a tree may be deeper than the stack.
impl Drop for Green {
    fn drop(&mut self) {
        let mut parts = std::mem::take(&mut self.children);
        while let Some(part) = parts.pop() {
            if let Some(mut green) = Arc::into_inner(part.0) {
                parts.append(&mut green.children);
            }
        }
    }
}

/// The lines of a tree, two spaces further in for each open node.
fn lines_of(root: &Shared) -> String {
    let mut lines = String::new();
    let mut rest = vec![(root, 0, 0)];
    while let Some((part, at, depth)) = rest.pop() {
        let green = &*part.0;
        let _ = write!(lines, "{:1$}{2:?}@{at}..{3}", "", 2 * depth, green.kind, at + green.length);
        if green.children.is_empty() && green.length > 0 {
            lines.push(' ');
            common::push_quoted(&mut lines, &green.text);
        }
        lines.push('\n');
        let mut end = at + green.length;
        for child in green.children.iter().rev() {
            end -= child.0.length;
            rest.push((child, end, depth + 1));
        }
    }
    lines
}

fn main() -> ExitCode {
    common::run(USAGE, |words, out| {
        let (edition, entry, text) = common::asked_for(words, USAGE)?;
        let lexed = LexedStr::new(edition, &text);
        let output = entry.parse(&lexed.to_input(edition));
        let mut builder = Builder::default();
        lexed.intersperse_trivia(&output, &mut |step| builder.take(step));
        write!(out, "{}", lines_of(&builder.parts[0]))?;
        for (at, message) in &builder.messages {
            writeln!(out, "error {at}: {message}")?;
        }
        for (token, message) in lexed.errors() {
            writeln!(out, "error {}: {message}", lexed.text_start(token))?;
        }
        let is_well = builder.messages.is_empty() && lexed.errors().next().is_none();
        Ok(ExitCode::from(u8::from(!is_well)))
    })
}
