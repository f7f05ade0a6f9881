//! `deep EDITION ENTRY FILE` parses a file, however deeply it nests, and prints how many steps its tree has, and how many
//! nodes stand inside one another. It does so on any stack, since a parse has its own.
mod common;

use ra_ap_parser::{LexedStr, StrStep};
use std::io::Write as _;
use std::process::ExitCode;

const USAGE: &str = "usage: deep EDITION ENTRY FILE";

fn main() -> ExitCode {
    common::run(USAGE, |words, out| {
        let (edition, entry, text) = common::asked_for(words, USAGE)?;
        let lexed = LexedStr::new(edition, &text);
        let output = entry.parse(&lexed.to_input(edition));
        let (mut steps, mut open, mut deepest) = (lexed.errors().count(), 0, 0);
        lexed.intersperse_trivia(&output, &mut |step| {
            steps += 1;
            match step {
                StrStep::Enter { .. } => open += 1,
                StrStep::Exit => open -= 1,
                StrStep::Token { .. } | StrStep::Error { .. } => {}
            }
            deepest = deepest.max(open);
        });
        writeln!(out, "{steps} steps, {deepest} deep")?;
        Ok(ExitCode::SUCCESS)
    })
}
