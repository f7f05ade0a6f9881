//! Texts: those of the replayed sample, and files of this repository with edits.
use super::random::Random;
use ra_ap_parser::LexedStr;
use rap_tree::{Edition, TopEntryPoint};
use std::path::{Path, PathBuf};

/// A text, and how it is read.
pub struct Sample {
    pub edition: Edition,
    pub entry: &'static str,
    pub text: String,
}

impl Sample {
    pub fn entry(&self) -> TopEntryPoint {
        entry_named(self.entry).expect("it is the name of an entry")
    }

    /// A file, in the latest edition.
    pub fn of_file(text: String) -> Sample {
        Sample { edition: Edition::LATEST, entry: "SourceFile", text }
    }
}

const ENTRIES: [&str; 7] = ["SourceFile", "MacroStmts", "MacroItems", "Pattern", "Type", "Expr", "MetaItem"];

fn entry_named(name: &str) -> Option<TopEntryPoint> {
    Some(match name {
        "SourceFile" => TopEntryPoint::SourceFile,
        "MacroStmts" => TopEntryPoint::MacroStmts,
        "MacroItems" => TopEntryPoint::MacroItems,
        "Pattern" => TopEntryPoint::Pattern,
        "Type" => TopEntryPoint::Type,
        "Expr" => TopEntryPoint::Expr,
        "MetaItem" => TopEntryPoint::MetaItem,
        _ => return None,
    })
}

/// A file or folder of the repository.
fn repository(name: &str) -> PathBuf {
    Path::new(env!("CARGO_MANIFEST_DIR")).join("../..").join(name)
}

/// The texts of the replayed sample that are read whole: of so many lines one.
pub fn replayed(one_of: usize) -> Vec<Sample> {
    let lines = std::fs::read_to_string(repository("crates/rast_replay/data/texts.txt")).expect("the sample is there");
    lines.lines().step_by(one_of).filter_map(sample_of).collect()
}

/// What a line of the sample says: a year, an entry, a hash and a text in quotes.
fn sample_of(line: &str) -> Option<Sample> {
    let mut words = line.splitn(4, ' ');
    let (year, entry, _, text) = (words.next()?, words.next()?, words.next()?, words.next()?);
    let entry = ENTRIES.into_iter().find(|name| *name == entry)?;
    Some(Sample { edition: year.parse().expect("it is a year"), entry, text: unquoted(text) })
}

/// The text that stands in quotes, with escapes.
fn unquoted(quoted: &str) -> String {
    let inside = quoted.strip_prefix('"').and_then(|rest| rest.strip_suffix('"')).expect("it is in quotes");
    let (mut text, mut rest) = (String::new(), inside.chars());
    while let Some(c) = rest.next() {
        text.push(if c == '\\' { escaped(&mut rest) } else { c });
    }
    text
}

/// The character that stands after a backslash.
fn escaped(rest: &mut std::str::Chars<'_>) -> char {
    match rest.next().expect("a backslash is not the last character") {
        'n' => '\n',
        'r' => '\r',
        't' => '\t',
        '0' => '\0',
        'u' => {
            let digits: String = rest.by_ref().skip(1).take_while(|c| *c != '}').collect();
            char::from_u32(u32::from_str_radix(&digits, 16).expect("it has digits")).expect("it is a character")
        }
        c => c,
    }
}

/// The Rust files of the packages of this repository, the larger ones left out.
pub fn files() -> Vec<String> {
    let mut texts = Vec::new();
    for folder in ["bindings/rust/src", "bindings/rust/examples", "bindings/playground/src", "bindings/tree/src"] {
        let folder = repository(folder);
        let entries = std::fs::read_dir(&folder).expect("the folder is there");
        let mut paths: Vec<PathBuf> = entries.map(|entry| entry.expect("it is read").path()).collect();
        paths.sort();
        let is_rust = |path: &PathBuf| path.extension().is_some_and(|it| it == "rs");
        texts.extend(
            paths.iter().filter(|path| is_rust(path)).map(|path| std::fs::read_to_string(path).expect("it is read")),
        );
    }
    texts.retain(|text| text.len() < 12_000);
    texts
}

/// The text with one token removed, doubled, or swapped with another one, so many times.
pub fn edited(text: &str, edits: usize, random: &mut Random) -> String {
    let lexed = LexedStr::new(Edition::LATEST, text);
    let mut tokens: Vec<&str> = (0..lexed.len()).map(|i| lexed.text(i)).collect();
    for _ in 0..edits {
        if tokens.is_empty() {
            break;
        }
        let (one, other) = (random.below(tokens.len()), random.below(tokens.len()));
        match random.below(3) {
            0 => drop(tokens.remove(one)),
            1 => tokens.insert(one, tokens[one]),
            _ => tokens.swap(one, other),
        }
    }
    tokens.concat()
}
