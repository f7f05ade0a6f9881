//! `outline FILE` prints the functions, types and modules of a file, each with its line, further in for each one around
//! it.
use rap_tree::SyntaxKind::{ENUM, FN, MODULE, NAME, STRUCT, TRAIT, TYPE_ALIAS, UNION};
use rap_tree::{Edition, LineIndex, Node, TopEntryPoint, Tree, Unit};
use std::fmt::Write as _;
use std::io::{self, Write as _};
use std::path::Path;
use std::process::ExitCode;

const USAGE: &str = "usage: outline FILE";

/// The word for a node that stands in the outline.
fn word_for(node: Node<'_>) -> Option<&'static str> {
    Some(match node.kind() {
        FN => "fn",
        STRUCT => "struct",
        ENUM => "enum",
        UNION => "union",
        TRAIT => "trait",
        TYPE_ALIAS => "type",
        MODULE => "mod",
        _ => return None,
    })
}

/// The lines of a text's outline. The line of a name is its own, not that of the comments before it.
fn outline(text: &str) -> String {
    let tree = Tree::of_text(Edition::LATEST, TopEntryPoint::SourceFile, text);
    let index = LineIndex::new(text);
    let mut lines = String::new();
    for name in tree.root().descendants().filter(|node| node.kind() == NAME) {
        let Some(word) = name.parent().and_then(word_for) else { continue };
        let depth = name.ancestors().skip(2).filter(|node| word_for(*node).is_some()).count();
        let position = index.position(name.text_range().start, Unit::Bytes).expect("a name begins with a character");
        let _ = writeln!(lines, "{:4} {}{word} {name}", position.line + 1, "  ".repeat(depth));
    }
    lines
}

fn main() -> ExitCode {
    let words: Vec<_> = std::env::args_os().skip(1).collect();
    let [file] = words.as_slice() else {
        eprintln!("{USAGE}");
        return ExitCode::from(2);
    };
    let text = match std::fs::read_to_string(file) {
        Ok(text) => text,
        Err(error) => {
            eprintln!("{}: {error}", Path::new(file).display());
            return ExitCode::from(2);
        }
    };
    match io::stdout().write_all(outline(&text).as_bytes()) {
        Err(error) if error.kind() != io::ErrorKind::BrokenPipe => {
            eprintln!("{error}");
            ExitCode::from(2)
        }
        _ => ExitCode::SUCCESS,
    }
}
