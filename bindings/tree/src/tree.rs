//! Trees.
use crate::message::parser_first;
use crate::place::Place;
use crate::{Edition, Message, Node, Outside, SyntaxKind, TopEntryPoint};
use ra_ap_parser::sys::{self, Element};
use std::fmt;

/// The syntax tree of a text, with the text and with the messages about it.
///
/// All nodes and tokens are in one list of 20 bytes each, which the library writes: there is no allocation for each
/// node, and neither building nor dropping a tree takes stack for its levels. Reading begins at [`Tree::root`].
///
/// ```
/// use rap_tree::{Edition, TopEntryPoint, Tree};
///
/// let tree = Tree::of_text(Edition::CURRENT, TopEntryPoint::Expr, "1 + 2");
/// assert_eq!(format!("{:?}", tree.root()), "BIN_EXPR@0..5");
/// assert_eq!(tree.to_string(), "1 + 2");
/// ```
#[derive(Clone)]
pub struct Tree {
    text: Box<str>,
    /// The nodes and tokens in preorder, so that what is inside a node follows it.
    elements: Vec<Element>,
    messages: Vec<Message>,
    edition: Edition,
}

impl Tree {
    /// The tree of a text, which is cut and read by the rules of the edition, as what the entry says. Any text has a
    /// tree, and its tokens joined are the text.
    ///
    /// # Panics
    ///
    /// For a text of more than 4,294,967,295 bytes, for one of more than 8,388,607 tokens without its trivia, if the
    /// call is out of memory, and if the system has no addresses for a stack of 1 KB for each byte of the text.
    ///
    /// ```
    /// use rap_tree::{Edition, SyntaxKind, TopEntryPoint, Tree};
    ///
    /// let tree = Tree::of_text(Edition::CURRENT, TopEntryPoint::SourceFile, "fn f() {}");
    /// assert_eq!(tree.root().kind(), SyntaxKind::SOURCE_FILE);
    /// assert!(tree.messages().is_empty());
    /// ```
    #[must_use]
    pub fn of_text(edition: Edition, entry: TopEntryPoint, text: impl Into<Box<str>>) -> Tree {
        let text = text.into();
        let nodes = sys::nodes(&text, edition, &entry);
        let messages = parser_first(&nodes, edition, &text);
        Tree { text, elements: nodes.elements, messages, edition }
    }

    /// The tree of this list.
    #[cfg(test)]
    pub(crate) fn of_elements(text: &str, elements: Vec<Element>) -> Tree {
        Tree { text: text.into(), elements, messages: Vec::new(), edition: Edition::CURRENT }
    }

    /// The text that the tree is over.
    ///
    /// ```
    /// use rap_tree::{Edition, TopEntryPoint, Tree};
    ///
    /// assert_eq!(Tree::of_text(Edition::CURRENT, TopEntryPoint::Expr, "a+b").text(), "a+b");
    /// ```
    #[must_use]
    pub fn text(&self) -> &str {
        &self.text
    }

    /// The node around all others.
    ///
    /// ```
    /// use rap_tree::{Edition, TopEntryPoint, Tree};
    ///
    /// let tree = Tree::of_text(Edition::CURRENT, TopEntryPoint::Type, "u8");
    /// assert_eq!(tree.root().text(), "u8");
    /// assert!(tree.root().parent().is_none());
    /// ```
    #[must_use]
    pub fn root(&self) -> Node<'_> {
        Node(Place::root(self))
    }

    /// The messages: those of the parser in the order of the tree, and after them those of the lexer in the order of
    /// their tokens.
    ///
    /// ```
    /// use rap_tree::{Edition, TopEntryPoint, Tree};
    ///
    /// let tree = Tree::of_text(Edition::CURRENT, TopEntryPoint::Expr, "0x +");
    /// let messages: Vec<_> = tree.messages().iter().map(|message| (message.range(), message.text())).collect();
    /// let of_lexer = (0..2, "Missing digits after the integer base prefix");
    /// assert_eq!(messages, [(4..4, "expected expression"), of_lexer]);
    /// ```
    #[must_use]
    pub fn messages(&self) -> &[Message] {
        &self.messages
    }

    /// Whether the tree is that of a file and is proved to be right: the core grammar derives the text's tokens as a file,
    /// the tree is the derivation's, and there is no message.
    ///
    /// `false` says that there is a message, or that no derivation was found, which is no proof that there is none. It is
    /// `false` of a tree of another entry than [`TopEntryPoint::SourceFile`]: of these nothing is asked. The text is
    /// parsed again for the answer.
    ///
    /// # Panics
    ///
    /// If the call is out of memory, and if the system has no addresses for a stack of 1 KB for each byte of the text.
    ///
    /// ```
    /// use rap_tree::{Edition, TopEntryPoint, Tree};
    ///
    /// let file = |text| Tree::of_text(Edition::CURRENT, TopEntryPoint::SourceFile, text);
    /// assert!(file("fn f(pair: &(u8, u8)) -> u8 { pair.0 }").is_derived());
    /// assert!(!file("fn f(pair: &(u8, (u8, u8))) -> u8 { pair.1.0 }").is_derived());
    /// ```
    #[must_use]
    pub fn is_derived(&self) -> bool {
        self.is_file() && sys::is_derived(&self.text, self.edition)
    }

    /// What of a file is outside of the core grammar: first each token that the lexer has a message of, in the order of
    /// the text; then, where no derivation was found, nodes in the order of the text. These are the nodes that the grammar
    /// does not derive, though it has such nodes, and that have no such node in them; where there is none, the whole file.
    ///
    /// There is none where [`Tree::is_derived`] holds, and else at least one, but of a tree of another entry than
    /// [`TopEntryPoint::SourceFile`], of which nothing is asked. The text is parsed again for the answer.
    ///
    /// # Panics
    ///
    /// As [`Tree::is_derived`].
    ///
    /// ```
    /// use rap_tree::{Edition, SyntaxKind, TopEntryPoint, Tree};
    ///
    /// let text = "fn f() {} trait A = B;";
    /// let tree = Tree::of_text(Edition::CURRENT, TopEntryPoint::SourceFile, text);
    /// let outside = tree.outside_core();
    /// assert_eq!(outside.len(), 1);
    /// assert_eq!((outside[0].kind(), &text[outside[0].range()]), (SyntaxKind::TRAIT, "trait A = B;"));
    /// ```
    #[must_use]
    pub fn outside_core(&self) -> Vec<Outside> {
        if !self.is_file() {
            return Vec::new();
        }
        sys::outside_core(&self.text, self.edition).iter().map(Outside::new).collect()
    }

    /// Whether the tree is that of a file: no other entry makes such a node.
    fn is_file(&self) -> bool {
        self.root().kind() == SyntaxKind::SOURCE_FILE
    }

    #[inline]
    pub(crate) fn elements(&self) -> &[Element] {
        &self.elements
    }
}

/// Its thread keeps the room of a long list for the next tree.
impl Drop for Tree {
    fn drop(&mut self) {
        sys::keep_elements(std::mem::take(&mut self.elements));
    }
}

/// The text of the tree.
impl fmt::Display for Tree {
    fn fmt(&self, f: &mut fmt::Formatter<'_>) -> fmt::Result {
        f.pad(&self.text)
    }
}

/// As the root is printed.
impl fmt::Debug for Tree {
    fn fmt(&self, f: &mut fmt::Formatter<'_>) -> fmt::Result {
        self.root().fmt(f)
    }
}
