//! The parser of Rust that is written and proved in Rattle, in the place of the crate `ra_ap_parser`.
//!
//! The public names, types and signatures are those of `ra_ap_parser` 0.0.360, so that `[patch.crates-io]` puts this
//! package in its place. The static library of `crates/rap_c`, whose contracts are proved, divides texts into tokens,
//! parses them and puts trees together; this package holds what its calls return.
//!
//! The differences from the Rust crate are listed at the items, and all of them in `docs/DIFFERENCES.md`:
//!
//! - A call panics for a text of more than 4,294,967,295 bytes, for an input of more than 8,388,607 tokens, and if it
//!   is out of memory.
//! - The numbers of kinds are the port's own.
//! - [`Edition`] is this package's own type.
//!
//! # A tree
//!
//! A parse goes from a text to a [`LexedStr`], to the parser's [`Input`], to an [`Output`], and back over the text to the
//! steps of the tree. Any text has a tree, and its leaves joined are the text; what is wrong is in messages.
//!
//! ```
//! use ra_ap_parser::{Edition, LexedStr, StrStep, SyntaxKind, TopEntryPoint};
//!
//! /// The names of the functions of a file.
//! fn functions(text: &str) -> Vec<String> {
//!     let lexed = LexedStr::new(Edition::CURRENT, text);
//!     let output = TopEntryPoint::SourceFile.parse(&lexed.to_input(Edition::CURRENT));
//!     let (mut open, mut names) = (Vec::new(), Vec::new());
//!     lexed.intersperse_trivia(&output, &mut |step| match step {
//!         StrStep::Enter { kind } => open.push(kind),
//!         StrStep::Exit => drop(open.pop()),
//!         StrStep::Token { kind: SyntaxKind::IDENT, text } if open.ends_with(&[SyntaxKind::FN, SyntaxKind::NAME]) => {
//!             names.push(text.to_owned());
//!         }
//!         StrStep::Token { .. } => {}
//!         StrStep::Error { msg, pos } => eprintln!("{pos}: {msg}"),
//!     });
//!     names
//! }
//!
//! assert_eq!(functions("fn f() {} mod m { fn g(x: u8) -> u8 { x } }"), ["f", "g"]);
//! ```
//!
//! # A highlighter
//!
//! Tokens alone need no parse.
//!
//! ```
//! use ra_ap_parser::{Edition, LexedStr, SyntaxKind};
//!
//! /// The text with its keywords in bold, its comments in grey and its literals in green, for a terminal.
//! fn highlighted(text: &str) -> String {
//!     let lexed = LexedStr::new(Edition::CURRENT, text);
//!     let coloured = |i: usize| match lexed.kind(i) {
//!         kind if kind.is_keyword(Edition::CURRENT) => format!("\x1b[1m{}\x1b[0m", lexed.text(i)),
//!         kind if kind.is_literal() => format!("\x1b[32m{}\x1b[0m", lexed.text(i)),
//!         SyntaxKind::COMMENT => format!("\x1b[90m{}\x1b[0m", lexed.text(i)),
//!         _ => lexed.text(i).to_owned(),
//!     };
//!     (0..lexed.len()).map(coloured).collect()
//! }
//!
//! assert_eq!(highlighted("let x = 1;"), "\x1b[1mlet\x1b[0m x = \x1b[32m1\x1b[0m;");
//! ```
//!
//! # A macro expander
//!
//! Tokens that stand in no text are pushed, and the steps of the output count them.
//!
//! ```
//! use ra_ap_parser::{Edition, Input, Step, SyntaxKind, T, TopEntryPoint};
//!
//! // `a >>= 1`, from an expander whose tokens are single characters, each with whether it touches the next one.
//! let mut input = Input::with_capacity(5);
//! input.push_ident(SyntaxKind::IDENT, Edition::CURRENT);
//! for (kind, is_joint) in [(T![>], true), (T![>], true), (T![=], false)] {
//!     input.push(kind, Edition::CURRENT);
//!     if is_joint {
//!         input.was_joint();
//!     }
//! }
//! input.push(SyntaxKind::INT_NUMBER, Edition::CURRENT);
//!
//! let output = TopEntryPoint::Expr.parse(&input);
//! let operators = output.iter().filter_map(|step| match step {
//!     Step::Token { kind, n_input_tokens } if kind.is_punct() => Some((kind, n_input_tokens)),
//!     _ => None,
//! });
//! assert_eq!(operators.collect::<Vec<_>>(), [(T![>>=], 3)]);
//! ```
//!
//! # Depth
//!
//! No text and no input ends the process, however deeply it nests, and however small the stack of the calling thread is.
//! The parser calls itself for each level; a level takes at most 900 bytes of the stack and has at least one token. So
//! each parse is made on a stack of 1 KB for each token, or for each byte of a text, of which memory is taken only for
//! the pages that are written to. Where the system has no addresses for it, as below `ulimit -v`, the call panics and
//! says so. The steps are handed out on the stack of the caller.
//!
//! # Memory
//!
//! A text is lexed only when its tokens are first used: [`LexedStr::new`] and [`LexedStr::to_input`] keep the text,
//! and [`TopEntryPoint::parse`] goes the whole way from the text to the tree in one call of the library.
//! A thread keeps the room for a text's tree for the next text: 8 bytes for each byte of the text, as far as they
//! were written, and 20 MB at most. It keeps a stack of 64 MB too, of which a text that nests less than a hundred
//! levels deep takes some 100 KB. [`release_thread_memory`] gives both back.
//!
//! # Where it runs
//!
//! On Linux, on x86-64 processors with the instructions of x86-64-v2. On another processor the first call panics.
#![deny(unsafe_code, missing_docs)]

mod edition;
mod entries;
pub mod frontmatter;
mod input;
mod lexed_str;
mod output;
mod shortcuts;
mod syntax_kind;
#[doc(hidden)]
pub mod sys;

pub use T_ as T;
pub use edition::{Edition, ParseEditionError};
pub use entries::{PrefixEntryPoint, Reparser, TopEntryPoint};
pub use input::Input;
pub use lexed_str::LexedStr;
pub use output::{Output, Step};
pub use shortcuts::StrStep;
pub use syntax_kind::SyntaxKind;

/// Whether the character is white space in Rust: U+0009 to U+000D, U+0020, U+0085, U+200E, U+200F, U+2028 and U+2029.
///
/// ```
/// assert!(ra_ap_parser::is_rust_whitespace('\u{200e}'));
/// assert!(!ra_ap_parser::is_rust_whitespace('\u{a0}'));
/// ```
#[must_use]
pub fn is_rust_whitespace(c: char) -> bool {
    matches!(c, '\u{9}'..='\u{d}' | ' ' | '\u{85}' | '\u{200e}' | '\u{200f}' | '\u{2028}' | '\u{2029}')
}

/// Gives back the memory that the calling thread keeps from one text to the next: the rooms for a tree, of 20 MB at most
/// each, and a stack of 64 MB. The next text takes them anew. A thread that ends gives them back by itself.
///
/// ```
/// use ra_ap_parser::{Edition, LexedStr, TopEntryPoint, release_thread_memory};
///
/// let lexed = LexedStr::new(Edition::CURRENT, "1 + 2");
/// let output = TopEntryPoint::Expr.parse(&lexed.to_input(Edition::CURRENT));
/// release_thread_memory();
/// assert!(output.iter().count() > 0);
/// ```
pub fn release_thread_memory() {
    sys::release_thread_memory();
}
