//! A node or a token.
use crate::place::Place;
use crate::{Node, SyntaxKind, Token};
use std::fmt;
use std::ops::Range;

/// A node or a token of a tree. It is printed as what it is.
///
/// ```
/// use rap_tree::{Edition, NodeOrToken, TopEntryPoint, Tree};
///
/// let tree = Tree::of_text(Edition::CURRENT, TopEntryPoint::Expr, "a+b");
/// let texts = tree.root().children_with_tokens().filter_map(|child| match child {
///     NodeOrToken::Node(_) => None,
///     NodeOrToken::Token(token) => Some(token.text()),
/// });
/// assert_eq!(texts.collect::<Vec<_>>(), ["+"]);
/// ```
#[derive(Clone, Copy, PartialEq, Eq, Hash)]
pub enum NodeOrToken<'t> {
    /// A node.
    Node(Node<'t>),
    /// A token.
    Token(Token<'t>),
}

impl<'t> From<Place<'t>> for NodeOrToken<'t> {
    #[inline]
    fn from(place: Place<'t>) -> NodeOrToken<'t> {
        if place.is_token() { NodeOrToken::Token(Token(place)) } else { NodeOrToken::Node(Node(place)) }
    }
}

impl<'t> From<Node<'t>> for NodeOrToken<'t> {
    fn from(node: Node<'t>) -> NodeOrToken<'t> {
        NodeOrToken::Node(node)
    }
}

impl<'t> From<Token<'t>> for NodeOrToken<'t> {
    fn from(token: Token<'t>) -> NodeOrToken<'t> {
        NodeOrToken::Token(token)
    }
}

/// Its text.
impl fmt::Display for NodeOrToken<'_> {
    fn fmt(&self, f: &mut fmt::Formatter<'_>) -> fmt::Result {
        f.pad(self.text())
    }
}

impl fmt::Debug for NodeOrToken<'_> {
    fn fmt(&self, f: &mut fmt::Formatter<'_>) -> fmt::Result {
        match self {
            NodeOrToken::Node(node) => node.fmt(f),
            NodeOrToken::Token(token) => token.fmt(f),
        }
    }
}

impl<'t> NodeOrToken<'t> {
    #[inline]
    fn place(self) -> Place<'t> {
        match self {
            NodeOrToken::Node(Node(place)) | NodeOrToken::Token(Token(place)) => place,
        }
    }

    /// The node, if it is one.
    ///
    /// ```
    /// use rap_tree::{Edition, TopEntryPoint, Tree};
    ///
    /// let tree = Tree::of_text(Edition::CURRENT, TopEntryPoint::Expr, "a+b");
    /// let first = tree.root().first_child_or_token().unwrap();
    /// assert_eq!(first.into_node(), tree.root().first_child());
    /// ```
    #[must_use]
    pub fn into_node(self) -> Option<Node<'t>> {
        match self {
            NodeOrToken::Node(node) => Some(node),
            NodeOrToken::Token(_) => None,
        }
    }

    /// The token, if it is one.
    ///
    /// ```
    /// use rap_tree::{Edition, TopEntryPoint, Tree};
    ///
    /// let tree = Tree::of_text(Edition::CURRENT, TopEntryPoint::Expr, "-1");
    /// let first = tree.root().first_child_or_token().unwrap();
    /// assert_eq!(first.into_token(), tree.root().first_token());
    /// ```
    #[must_use]
    pub fn into_token(self) -> Option<Token<'t>> {
        match self {
            NodeOrToken::Node(_) => None,
            NodeOrToken::Token(token) => Some(token),
        }
    }

    /// Its kind.
    ///
    /// ```
    /// use rap_tree::{Edition, T, TopEntryPoint, Tree};
    ///
    /// let tree = Tree::of_text(Edition::CURRENT, TopEntryPoint::Expr, "-1");
    /// let first = tree.root().first_child_or_token().unwrap();
    /// assert_eq!(first.kind(), T![-]);
    /// ```
    #[must_use]
    pub fn kind(self) -> SyntaxKind {
        self.place().kind()
    }

    /// Its place in the text, in bytes.
    ///
    /// ```
    /// use rap_tree::{Edition, TopEntryPoint, Tree};
    ///
    /// let tree = Tree::of_text(Edition::CURRENT, TopEntryPoint::Expr, "-1");
    /// let first = tree.root().first_child_or_token().unwrap();
    /// assert_eq!(first.text_range(), 0..1);
    /// ```
    #[must_use]
    pub fn text_range(self) -> Range<usize> {
        self.place().range()
    }

    /// Its text: that of its range.
    ///
    /// ```
    /// use rap_tree::{Edition, TopEntryPoint, Tree};
    ///
    /// let tree = Tree::of_text(Edition::CURRENT, TopEntryPoint::Expr, "-1");
    /// let first = tree.root().first_child_or_token().unwrap();
    /// assert_eq!(first.text(), "-");
    /// ```
    #[must_use]
    pub fn text(self) -> &'t str {
        self.place().text()
    }

    /// The node that it is in. `None` exactly of the root.
    ///
    /// ```
    /// use rap_tree::{Edition, TopEntryPoint, Tree};
    ///
    /// let tree = Tree::of_text(Edition::CURRENT, TopEntryPoint::Expr, "-1");
    /// let first = tree.root().first_child_or_token().unwrap();
    /// assert_eq!(first.parent(), Some(tree.root()));
    /// ```
    #[must_use]
    pub fn parent(self) -> Option<Node<'t>> {
        self.place().parent().map(Node)
    }

    /// The node itself, or the node that the token is in, and so on up to the root.
    ///
    /// ```
    /// use rap_tree::{Edition, TopEntryPoint, Tree};
    ///
    /// let tree = Tree::of_text(Edition::CURRENT, TopEntryPoint::Expr, "-1");
    /// let first = tree.root().first_child_or_token().unwrap();
    /// assert_eq!(first.ancestors().collect::<Vec<_>>(), [tree.root()]);
    /// ```
    pub fn ancestors(self) -> impl Iterator<Item = Node<'t>> + Clone {
        self.into_node().or(self.parent()).into_iter().flat_map(Node::ancestors)
    }

    /// The first token inside the node, or the token itself. `None` exactly of an empty node.
    ///
    /// ```
    /// use rap_tree::{Edition, TopEntryPoint, Tree};
    ///
    /// let tree = Tree::of_text(Edition::CURRENT, TopEntryPoint::Expr, "a+b");
    /// let first = tree.root().first_child_or_token().unwrap();
    /// assert_eq!(first.first_token().unwrap().text(), "a");
    /// ```
    #[must_use]
    pub fn first_token(self) -> Option<Token<'t>> {
        self.place().first_token().map(Token)
    }

    /// The last token inside the node, or the token itself. `None` exactly of an empty node.
    ///
    /// ```
    /// use rap_tree::{Edition, TopEntryPoint, Tree};
    ///
    /// let tree = Tree::of_text(Edition::CURRENT, TopEntryPoint::Expr, "a+b");
    /// let first = tree.root().first_child_or_token().unwrap();
    /// assert_eq!(first.last_token().unwrap().text(), "a");
    /// ```
    #[must_use]
    pub fn last_token(self) -> Option<Token<'t>> {
        self.place().last_token().map(Token)
    }

    /// The node or token right behind it in the same node.
    ///
    /// ```
    /// use rap_tree::{Edition, TopEntryPoint, Tree};
    ///
    /// let tree = Tree::of_text(Edition::CURRENT, TopEntryPoint::Expr, "a+b");
    /// let first = tree.root().first_child_or_token().unwrap();
    /// assert_eq!(first.next_sibling_or_token().unwrap().text(), "+");
    /// ```
    #[must_use]
    pub fn next_sibling_or_token(self) -> Option<NodeOrToken<'t>> {
        self.place().next_sibling().map(NodeOrToken::from)
    }

    /// The node or token right before it in the same node.
    ///
    /// ```
    /// use rap_tree::{Edition, TopEntryPoint, Tree};
    ///
    /// let tree = Tree::of_text(Edition::CURRENT, TopEntryPoint::Expr, "a+b");
    /// let last = tree.root().last_child_or_token().unwrap();
    /// assert_eq!(last.prev_sibling_or_token().unwrap().text(), "+");
    /// ```
    #[must_use]
    pub fn prev_sibling_or_token(self) -> Option<NodeOrToken<'t>> {
        self.place().prev_sibling().map(NodeOrToken::from)
    }
}
