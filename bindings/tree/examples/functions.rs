//! `functions FILE ..` prints the name of each function, a line each: `FILE:LINE NAME`.
mod common;

use rap_tree::SyntaxKind::{FN, NAME};
use rap_tree::{Edition, LineIndex, TopEntryPoint, Tree, Unit};
use std::io::Write as _;
use std::path::Path;
use std::process::ExitCode;

const USAGE: &str = "usage: functions FILE ..";

/// The names of a text's functions, each with its line, from 1 on.
fn functions(text: String) -> Vec<(usize, String)> {
    let tree = Tree::of_text(Edition::LATEST, TopEntryPoint::SourceFile, text);
    let index = LineIndex::new(tree.text());
    let functions = tree.root().descendants().filter(|node| node.kind() == FN);
    let names = functions.filter_map(|function| function.children().find(|child| child.kind() == NAME));
    let placed = names.map(|name| {
        let place = index.position(name.text_range().start, Unit::Bytes).expect("a name begins with a character");
        (place.line + 1, name.to_string())
    });
    placed.collect()
}

fn main() -> ExitCode {
    common::run(USAGE, |files, out| {
        if files.is_empty() {
            return Err(USAGE.into());
        }
        let mut status = ExitCode::SUCCESS;
        for file in files {
            match common::read(file) {
                Ok(text) => {
                    for (line, name) in functions(text) {
                        writeln!(out, "{}:{line} {name}", Path::new(file).display())?;
                    }
                }
                Err(fault) => {
                    eprintln!("{fault}");
                    status = ExitCode::from(2);
                }
            }
        }
        Ok(status)
    })
}
