//! What the programs share: their command lines, the files that they read, and what they print.
#![allow(dead_code)]

use ra_ap_parser::{Edition, TopEntryPoint};
use std::error::Error;
use std::ffi::OsString;
use std::fmt::Write as _;
use std::io::{self, BufWriter, StdoutLock, Write as _};
use std::path::Path;
use std::process::ExitCode;

/// The standard output.
pub type Out = BufWriter<StdoutLock<'static>>;

/// What a program ends with: its status, or why it ends with the status 2.
pub type Ended = Result<ExitCode, Box<dyn Error>>;

/// Runs a program with the words of its command line, and with the standard output.
///
/// For `--help` the usage is printed instead. A fault is printed on standard error, and the status is 2. Where whoever
/// reads the output has gone, as `head` does, the program ends in silence.
pub fn run(usage: &str, program: impl FnOnce(&[OsString], &mut Out) -> Ended) -> ExitCode {
    let words: Vec<OsString> = std::env::args_os().skip(1).collect();
    let mut out = BufWriter::new(io::stdout().lock());
    let ended = if words.iter().any(|word| word == "--help") {
        writeln!(out, "{usage}").map(|()| ExitCode::SUCCESS).map_err(Into::into)
    } else {
        program(&words, &mut out)
    };
    match ended.and_then(|status| Ok(out.flush().map(|()| status)?)) {
        Ok(status) => status,
        Err(fault) if is_closed_pipe(&*fault) => ExitCode::SUCCESS,
        Err(fault) => {
            eprintln!("{fault}");
            ExitCode::from(2)
        }
    }
}

fn is_closed_pipe(fault: &(dyn Error + 'static)) -> bool {
    fault.downcast_ref::<io::Error>().is_some_and(|error| error.kind() == io::ErrorKind::BrokenPipe)
}

/// The text of a file. The fault names the file.
pub fn read(file: impl AsRef<Path>) -> Result<String, Box<dyn Error>> {
    let file = file.as_ref();
    std::fs::read_to_string(file).map_err(|error| format!("{}: {error}", file.display()).into())
}

/// What the words `EDITION ENTRY FILE` ask for: an edition, an entry, and the text of the file.
pub fn asked_for(words: &[OsString], usage: &str) -> Result<(Edition, TopEntryPoint, String), Box<dyn Error>> {
    let [edition, entry, file] = words else { return Err(usage.into()) };
    let edition = edition.to_str().and_then(|word| word.parse().ok());
    let (Some(edition), Some(entry)) = (edition, entry.to_str().and_then(entry_named)) else {
        return Err(usage.into());
    };
    Ok((edition, entry, read(file)?))
}

/// The top entry with this name.
fn entry_named(name: &str) -> Option<TopEntryPoint> {
    Some(match name {
        "SourceFile" => TopEntryPoint::SourceFile,
        "MacroStmts" => TopEntryPoint::MacroStmts,
        "MacroItems" => TopEntryPoint::MacroItems,
        "Pattern" => TopEntryPoint::Pattern,
        "Type" => TopEntryPoint::Type,
        "Expr" => TopEntryPoint::Expr,
        "MetaItem" => TopEntryPoint::MetaItem,
        _ => return None,
    })
}

/// Adds a text in quotes; a quote, a backslash and a control character stand after a backslash.
pub fn push_quoted(lines: &mut String, text: &str) {
    lines.push('"');
    for c in text.chars() {
        match c {
            '"' => lines.push_str("\\\""),
            '\\' => lines.push_str("\\\\"),
            '\n' => lines.push_str("\\n"),
            '\r' => lines.push_str("\\r"),
            '\t' => lines.push_str("\\t"),
            '\0' => lines.push_str("\\0"),
            '\0'..='\u{1f}' | '\u{7f}' => {
                let _ = write!(lines, "\\u{{{:x}}}", c as u32);
            }
            _ => lines.push(c),
        }
    }
    lines.push('"');
}
