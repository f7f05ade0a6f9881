//! `colour FILE` prints a file of Rust with its tokens coloured for a terminal. It reads tokens alone, so that any file
//! can be shown, however wrong.
mod common;

use ra_ap_parser::SyntaxKind::{self, *};
use ra_ap_parser::{Edition, LexedStr};
use std::io::Write as _;
use std::process::ExitCode;

const USAGE: &str = "usage: colour FILE";

/// The colour of a token, as a terminal takes it.
fn colour_of(kind: SyntaxKind) -> &'static str {
    match kind {
        COMMENT | INNER_DOC_COMMENT | OUTER_DOC_COMMENT | SHEBANG | FRONTMATTER => "\x1b[90m",
        STRING | BYTE_STRING | C_STRING | CHAR | BYTE => "\x1b[32m",
        INT_NUMBER | FLOAT_NUMBER | TRUE_KW | FALSE_KW => "\x1b[36m",
        LIFETIME_IDENT => "\x1b[33m",
        ERROR => "\x1b[31m",
        _ if kind.is_keyword(Edition::LATEST) => "\x1b[35m",
        _ => "",
    }
}

fn main() -> ExitCode {
    common::run(USAGE, |words, out| {
        let [file] = words else { return Err(USAGE.into()) };
        let text = common::read(file)?;
        let lexed = LexedStr::new(Edition::LATEST, &text);
        for i in 0..lexed.len() {
            let colour = colour_of(lexed.kind(i));
            let end = if colour.is_empty() { "" } else { "\x1b[0m" };
            write!(out, "{colour}{}{end}", lexed.text(i))?;
        }
        Ok(ExitCode::SUCCESS)
    })
}
