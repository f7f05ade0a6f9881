//! Tokens of a tree.
use crate::place::Place;
use crate::{Direction, Node, NodeOrToken, SyntaxKind};
use std::fmt;
use std::ops::Range;

/// A token of a tree, white space and comments among them: a reference to the tree, and an index.
///
/// Two tokens are equal if they are the same one of the same tree. `{}` of a token is its text, and `{:?}` its kind,
/// its range and its text. Of a text of 25 bytes or more `{:?}` prints the first 21 to 24.
///
/// ```
/// use rap_tree::{Edition, TopEntryPoint, Tree};
///
/// let tree = Tree::of_text(Edition::CURRENT, TopEntryPoint::Expr, "1");
/// let token = tree.root().first_token().unwrap();
/// assert_eq!((token.to_string(), format!("{token:?}")), ("1".to_owned(), "INT_NUMBER@0..1 \"1\"".to_owned()));
/// ```
#[derive(Clone, Copy, PartialEq, Eq, Hash)]
pub struct Token<'t>(pub(crate) Place<'t>);

/// Its text.
impl fmt::Display for Token<'_> {
    fn fmt(&self, f: &mut fmt::Formatter<'_>) -> fmt::Result {
        f.pad(self.text())
    }
}

impl fmt::Debug for Token<'_> {
    fn fmt(&self, f: &mut fmt::Formatter<'_>) -> fmt::Result {
        self.0.fmt(f)?;
        let text = self.text();
        if text.len() < 25 {
            return write!(f, " {text:?}");
        }
        // A character has four bytes at most.
        let end = (21..25).find(|at| text.is_char_boundary(*at)).unwrap_or(text.len());
        write!(f, " {:?}", format!("{} ...", &text[..end]))
    }
}

impl<'t> Token<'t> {
    /// Its kind.
    ///
    /// ```
    /// use rap_tree::{Edition, T, TopEntryPoint, Tree};
    ///
    /// let tree = Tree::of_text(Edition::CURRENT, TopEntryPoint::Expr, "a+b");
    /// let plus = tree.root().token_at_offset(1).right_biased().unwrap();
    /// assert_eq!(plus.kind(), T![+]);
    /// ```
    #[must_use]
    pub fn kind(self) -> SyntaxKind {
        self.0.kind()
    }

    /// Its place in the text, in bytes. It is not empty.
    ///
    /// ```
    /// use rap_tree::{Edition, TopEntryPoint, Tree};
    ///
    /// let tree = Tree::of_text(Edition::CURRENT, TopEntryPoint::Expr, "a+b");
    /// let plus = tree.root().token_at_offset(1).right_biased().unwrap();
    /// assert_eq!(plus.text_range(), 1..2);
    /// ```
    #[must_use]
    pub fn text_range(self) -> Range<usize> {
        self.0.range()
    }

    /// Its text.
    ///
    /// ```
    /// use rap_tree::{Edition, TopEntryPoint, Tree};
    ///
    /// let tree = Tree::of_text(Edition::CURRENT, TopEntryPoint::Expr, "a+b");
    /// let plus = tree.root().token_at_offset(1).right_biased().unwrap();
    /// assert_eq!(plus.text(), "+");
    /// ```
    #[must_use]
    pub fn text(self) -> &'t str {
        self.0.text()
    }

    /// The node that it is in, which each token has.
    ///
    /// ```
    /// use rap_tree::{Edition, TopEntryPoint, Tree};
    ///
    /// let tree = Tree::of_text(Edition::CURRENT, TopEntryPoint::Expr, "a+b");
    /// let plus = tree.root().token_at_offset(1).right_biased().unwrap();
    /// assert_eq!(plus.parent(), Some(tree.root()));
    /// ```
    #[must_use]
    pub fn parent(self) -> Option<Node<'t>> {
        self.0.parent().map(Node)
    }

    /// The node that it is in, the one around that node, and so on up to the root.
    ///
    /// ```
    /// use rap_tree::{Edition, TopEntryPoint, Tree};
    ///
    /// let tree = Tree::of_text(Edition::CURRENT, TopEntryPoint::Expr, "-1");
    /// let one = tree.root().last_token().unwrap();
    /// assert_eq!(one.parent_ancestors().map(|node| node.text()).collect::<Vec<_>>(), ["1", "-1"]);
    /// ```
    pub fn parent_ancestors(self) -> impl Iterator<Item = Node<'t>> + Clone {
        self.parent().into_iter().flat_map(Node::ancestors)
    }

    /// The node or token right behind it in the same node.
    ///
    /// ```
    /// use rap_tree::{Edition, TopEntryPoint, Tree};
    ///
    /// let tree = Tree::of_text(Edition::CURRENT, TopEntryPoint::Expr, "a+b");
    /// let plus = tree.root().token_at_offset(1).right_biased().unwrap();
    /// assert_eq!(plus.next_sibling_or_token().unwrap().text(), "b");
    /// ```
    #[must_use]
    pub fn next_sibling_or_token(self) -> Option<NodeOrToken<'t>> {
        self.0.next_sibling().map(NodeOrToken::from)
    }

    /// The node or token right before it in the same node.
    ///
    /// ```
    /// use rap_tree::{Edition, TopEntryPoint, Tree};
    ///
    /// let tree = Tree::of_text(Edition::CURRENT, TopEntryPoint::Expr, "a+b");
    /// let plus = tree.root().token_at_offset(1).right_biased().unwrap();
    /// assert_eq!(plus.prev_sibling_or_token().unwrap().text(), "a");
    /// ```
    #[must_use]
    pub fn prev_sibling_or_token(self) -> Option<NodeOrToken<'t>> {
        self.0.prev_sibling().map(NodeOrToken::from)
    }

    /// The token itself, and the nodes and tokens behind it, or before it, in the same node.
    ///
    /// ```
    /// use rap_tree::{Direction, Edition, TopEntryPoint, Tree};
    ///
    /// let tree = Tree::of_text(Edition::CURRENT, TopEntryPoint::Expr, "a+b");
    /// let plus = tree.root().token_at_offset(1).right_biased().unwrap();
    /// let texts = plus.siblings_with_tokens(Direction::Next).map(|it| it.text());
    /// assert_eq!(texts.collect::<Vec<_>>(), ["+", "b"]);
    /// ```
    pub fn siblings_with_tokens(self, direction: Direction) -> impl Iterator<Item = NodeOrToken<'t>> + Clone {
        self.0.siblings(direction).map(NodeOrToken::from)
    }

    /// The token that begins where it ends. `None` exactly of the last one of the text.
    ///
    /// ```
    /// use rap_tree::{Edition, TopEntryPoint, Tree};
    /// use std::iter::successors;
    ///
    /// let tree = Tree::of_text(Edition::CURRENT, TopEntryPoint::Expr, "a+b");
    /// let texts = successors(tree.root().first_token(), |token| token.next_token()).map(|token| token.text());
    /// assert_eq!(texts.collect::<Vec<_>>(), ["a", "+", "b"]);
    /// ```
    #[must_use]
    pub fn next_token(self) -> Option<Token<'t>> {
        self.0.next_token().map(Token)
    }

    /// The token that ends where it begins. `None` exactly of the first one of the text.
    ///
    /// ```
    /// use rap_tree::{Edition, TopEntryPoint, Tree};
    ///
    /// let tree = Tree::of_text(Edition::CURRENT, TopEntryPoint::Expr, "a+b");
    /// let plus = tree.root().token_at_offset(1).right_biased().unwrap();
    /// assert_eq!(plus.prev_token().unwrap().text(), "a");
    /// ```
    #[must_use]
    pub fn prev_token(self) -> Option<Token<'t>> {
        self.0.prev_token().map(Token)
    }
}
