//! Flat syntax trees of Rust, over the parser that is written and proved in Rattle.
//!
//! A [`Tree`] owns a text, its nodes and tokens, and the messages about it. A [`Node`] and a [`Token`] are handles, a
//! reference to the tree and an index, which are copied freely. The names and their meaning are those of the crate
//! `rowan`, on which rust-analyzer's trees stand; offsets and ranges are `usize` and `Range<usize>`, in bytes.
//!
//! ```
//! use rap_tree::{Edition, Node, SyntaxKind, TopEntryPoint, Tree};
//!
//! /// The name of a function.
//! fn name_of(function: Node<'_>) -> Option<Node<'_>> {
//!     function.children().find(|child| child.kind() == SyntaxKind::NAME)
//! }
//!
//! let tree = Tree::of_text(Edition::CURRENT, TopEntryPoint::SourceFile, "fn f() {} mod m { fn g() {} }");
//! let functions = tree.root().descendants().filter(|node| node.kind() == SyntaxKind::FN);
//! let names: Vec<String> = functions.filter_map(name_of).map(|name| name.to_string()).collect();
//! assert_eq!(names, ["f", "g"]);
//! ```
//!
//! # Typed views
//!
//! [`ast`] has a view for each kind of nodes, by the names of rust-analyzer's `ast`: the same functions are
//! `tree.root().descendants().filter_map(ast::Fn::cast)`, and the name of one is `function.name()`.
//!
//! # A tree in print
//!
//! `{}` of a node is its text, `{:?}` its kind and range, and `{:#?}` all that is in it.
//!
//! ```
//! use rap_tree::{Edition, TopEntryPoint, Tree};
//!
//! let tree = Tree::of_text(Edition::CURRENT, TopEntryPoint::Expr, "1 + 2");
//! let lines = r#"BIN_EXPR@0..5
//!   LITERAL@0..1
//!     INT_NUMBER@0..1 "1"
//!   WHITESPACE@1..2 " "
//!   PLUS@2..3 "+"
//!   WHITESPACE@3..4 " "
//!   LITERAL@4..5
//!     INT_NUMBER@4..5 "2"
//! "#;
//! assert_eq!(format!("{:#?}", tree.root()), lines);
//! ```
//!
//! # What a call costs
//!
//! Building is linear in the text. The list of most texts takes some 8 bytes for each of theirs; where one of 8 MB or
//! more is dropped, the thread keeps its room for the next long one, 20 MB at most. [`release_thread_memory`] gives that
//! back.
//!
//! No way through a tree allocates memory, and none goes deeper into the stack for a deeper tree. What begins or
//! follows a node is found at once, what ends or precedes it by a climb through the levels between; what is at an offset
//! by bisection and such a climb.
#![deny(missing_docs)]

pub mod ast;
mod iterators;
mod line_index;
mod message;
mod node;
mod node_or_token;
mod offsets;
mod outside;
mod place;
mod token;
mod token_at_offset;
mod tree;

pub use iterators::{Children, ChildrenWithTokens, Descendants, DescendantsWithTokens, PreorderWithTokens, WalkEvent};
pub use line_index::{LineIndex, Position, Unit};
pub use message::Message;
pub use node::{Direction, Node};
pub use node_or_token::NodeOrToken;
pub use outside::Outside;
pub use token::Token;
pub use token_at_offset::TokenAtOffset;
pub use tree::Tree;

pub use ra_ap_parser::{Edition, SyntaxKind, T, TopEntryPoint, release_thread_memory};
