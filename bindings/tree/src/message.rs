//! Messages about a text, and their order.
use crate::Edition;
use ra_ap_parser::sys;
use std::fmt;
use std::ops::Range;

/// What most messages of the parser begin with, and none of the lexer.
const OF_PARSER: &str = "expected ";

/// A message about a text.
///
/// ```
/// use rap_tree::{Edition, TopEntryPoint, Tree};
///
/// let tree = Tree::of_text(Edition::CURRENT, TopEntryPoint::Expr, "1 +");
/// assert_eq!(tree.messages()[0].to_string(), "expected expression");
/// ```
#[derive(Clone, Debug, PartialEq, Eq)]
pub struct Message {
    text: String,
    position: usize,
    range: Range<usize>,
}

impl Message {
    /// What it says.
    ///
    /// ```
    /// use rap_tree::{Edition, TopEntryPoint, Tree};
    ///
    /// let tree = Tree::of_text(Edition::CURRENT, TopEntryPoint::SourceFile, "struct S 5");
    /// assert_eq!(tree.messages()[1].text(), "expected an item");
    /// ```
    #[must_use]
    pub fn text(&self) -> &str {
        &self.text
    }

    /// The byte of the text at which it stands.
    ///
    /// ```
    /// use rap_tree::{Edition, TopEntryPoint, Tree};
    ///
    /// let tree = Tree::of_text(Edition::CURRENT, TopEntryPoint::SourceFile, "struct S 5");
    /// assert_eq!([tree.messages()[0].position(), tree.messages()[1].position()], [8, 9]);
    /// ```
    #[must_use]
    pub fn position(&self) -> usize {
        self.position
    }

    /// The bytes of the token at its position. At the end of the text the range is empty.
    ///
    /// ```
    /// use rap_tree::{Edition, TopEntryPoint, Tree};
    ///
    /// let tree = Tree::of_text(Edition::CURRENT, TopEntryPoint::SourceFile, "let x = é");
    /// assert_eq!(tree.messages()[0].range(), 0..3);
    /// ```
    #[must_use]
    pub fn range(&self) -> Range<usize> {
        self.range.clone()
    }
}

/// What it says.
impl fmt::Display for Message {
    fn fmt(&self, f: &mut fmt::Formatter<'_>) -> fmt::Result {
        f.pad(&self.text)
    }
}

/// The messages about a text: those of the parser, and after them those of the lexer.
///
/// The library lists them by their places, of those at one byte the parser's first. Which of them are the lexer's
/// follows from where the lexer has messages. For that a text is divided into tokens again, but not where all messages
/// begin as only the parser's do.
pub(crate) fn parser_first(nodes: &sys::Nodes, edition: Edition, text: &str) -> Vec<Message> {
    let may_be_of_lexer = |message: &sys::Message| !nodes.text_of(message).starts_with(OF_PARSER);
    let is_in_doubt = nodes.messages.iter().any(may_be_of_lexer);
    let mut places = if is_in_doubt { sys::lexer_places(text, edition) } else { Vec::new() };
    let is_of_lexer = |message: &&sys::Message| places.last() == Some(&message.at) && places.pop().is_some();
    let (of_lexer, of_parser): (Vec<_>, Vec<_>) = nodes.messages.iter().rev().partition(is_of_lexer);
    let ordered = of_parser.into_iter().rev().chain(of_lexer.into_iter().rev());
    let message_of = |it: &sys::Message| {
        let text = nodes.text_of(it).to_owned();
        Message { text, position: it.at, range: it.start..it.end }
    };
    ordered.map(message_of).collect()
}
