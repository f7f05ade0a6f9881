//! `tree EDITION ENTRY FILE` prints the tree of a file and its messages, as the program `rast` does.
mod common;

use rap_tree::{NodeOrToken, Tree, WalkEvent};
use std::fmt::Write as _;
use std::io::Write as _;
use std::process::ExitCode;

const USAGE: &str = "usage: tree EDITION ENTRY FILE";

/// The lines of a tree, and those of its messages.
fn lines_of(tree: &Tree) -> String {
    let (mut lines, mut depth) = (String::new(), 0);
    for event in tree.root().preorder_with_tokens() {
        let WalkEvent::Enter(element) = event else {
            depth -= 1;
            continue;
        };
        let _ = write!(lines, "{:1$}{2:?}", "", 2 * depth, element.kind());
        if let NodeOrToken::Token(token) = element {
            lines.push(' ');
            common::push_quoted(&mut lines, token.text());
        }
        lines.push('\n');
        depth += 1;
    }
    for message in tree.messages() {
        let _ = writeln!(lines, "error {}: {message}", message.position());
    }
    lines
}

fn main() -> ExitCode {
    common::run(USAGE, |words, out| {
        let (edition, entry, text) = common::asked_for(words, USAGE)?;
        let tree = Tree::of_text(edition, entry, text);
        write!(out, "{}", lines_of(&tree))?;
        Ok(ExitCode::from(u8::from(!tree.messages().is_empty())))
    })
}
