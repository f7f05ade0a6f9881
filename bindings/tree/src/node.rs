//! Nodes of a tree.
use crate::iterators::{
    Children, ChildrenWithTokens, Descendants, DescendantsWithTokens, PreorderWithTokens, WalkEvent,
};
use crate::place::Place;
use crate::{NodeOrToken, SyntaxKind, Token, TokenAtOffset};
use std::fmt;
use std::iter::successors;
use std::ops::Range;

/// A way through the children of a node.
///
/// ```
/// use rap_tree::{Direction, Edition, TopEntryPoint, Tree};
///
/// let tree = Tree::of_text(Edition::CURRENT, TopEntryPoint::Expr, "f(1, 2)");
/// let last = tree.root().last_child().unwrap().last_child().unwrap();
/// assert_eq!(last.siblings(Direction::Prev).map(|node| node.text()).collect::<Vec<_>>(), ["2", "1"]);
/// ```
#[derive(Clone, Copy, Debug, PartialEq, Eq)]
pub enum Direction {
    /// From left to right.
    Next,
    /// From right to left.
    Prev,
}

/// A node of a tree: a reference to the tree, and an index.
///
/// Two nodes are equal if they are the same one of the same tree. `{}` of a node is its text, `{:?}` its kind and
/// range, and `{:#?}` the same of all that is in it, a line each, tokens with their texts.
///
/// ```
/// use rap_tree::{Edition, TopEntryPoint, Tree};
///
/// let tree = Tree::of_text(Edition::CURRENT, TopEntryPoint::Expr, "-1");
/// let node = tree.root().first_child().unwrap();
/// assert_eq!((node.to_string(), format!("{node:?}")), ("1".to_owned(), "LITERAL@1..2".to_owned()));
/// assert_eq!(format!("{node:#?}"), "LITERAL@1..2\n  INT_NUMBER@1..2 \"1\"\n");
/// ```
#[derive(Clone, Copy, PartialEq, Eq, Hash)]
pub struct Node<'t>(pub(crate) Place<'t>);

/// Its text.
impl fmt::Display for Node<'_> {
    fn fmt(&self, f: &mut fmt::Formatter<'_>) -> fmt::Result {
        f.pad(self.text())
    }
}

impl fmt::Debug for Node<'_> {
    fn fmt(&self, f: &mut fmt::Formatter<'_>) -> fmt::Result {
        if !f.alternate() {
            return self.0.fmt(f);
        }
        let mut depth = 0;
        for event in self.preorder_with_tokens() {
            match event {
                WalkEvent::Enter(element) => {
                    (0..depth).try_for_each(|_| f.write_str("  "))?;
                    writeln!(f, "{element:?}")?;
                    depth += 1;
                }
                WalkEvent::Leave(_) => depth -= 1,
            }
        }
        Ok(())
    }
}

impl<'t> Node<'t> {
    /// Its kind.
    ///
    /// ```
    /// use rap_tree::{Edition, SyntaxKind, TopEntryPoint, Tree};
    ///
    /// let tree = Tree::of_text(Edition::CURRENT, TopEntryPoint::Expr, "a+b");
    /// assert_eq!(tree.root().kind(), SyntaxKind::BIN_EXPR);
    /// ```
    #[must_use]
    pub fn kind(self) -> SyntaxKind {
        self.0.kind()
    }

    /// Its place in the text, in bytes. A node without a token is empty.
    ///
    /// ```
    /// use rap_tree::{Edition, TopEntryPoint, Tree};
    ///
    /// let tree = Tree::of_text(Edition::CURRENT, TopEntryPoint::Expr, "a+b");
    /// assert_eq!(tree.root().last_child().unwrap().text_range(), 2..3);
    /// ```
    #[must_use]
    pub fn text_range(self) -> Range<usize> {
        self.0.range()
    }

    /// Its text: that of its range.
    ///
    /// ```
    /// use rap_tree::{Edition, TopEntryPoint, Tree};
    ///
    /// let tree = Tree::of_text(Edition::CURRENT, TopEntryPoint::Expr, "a+b");
    /// assert_eq!(tree.root().first_child().unwrap().text(), "a");
    /// ```
    #[must_use]
    pub fn text(self) -> &'t str {
        self.0.text()
    }

    /// The node that it is in. `None` exactly of the root.
    ///
    /// ```
    /// use rap_tree::{Edition, TopEntryPoint, Tree};
    ///
    /// let tree = Tree::of_text(Edition::CURRENT, TopEntryPoint::Expr, "a+b");
    /// let child = tree.root().first_child().unwrap();
    /// assert_eq!((child.parent(), tree.root().parent()), (Some(tree.root()), None));
    /// ```
    #[must_use]
    pub fn parent(self) -> Option<Node<'t>> {
        self.0.parent().map(Node)
    }

    /// The node itself, the one that it is in, and so on up to the root.
    ///
    /// ```
    /// use rap_tree::{Edition, SyntaxKind, TopEntryPoint, Tree};
    ///
    /// let tree = Tree::of_text(Edition::CURRENT, TopEntryPoint::Expr, "a+b");
    /// let child = tree.root().first_child().unwrap();
    /// let kinds: Vec<SyntaxKind> = child.ancestors().map(|node| node.kind()).collect();
    /// assert_eq!(kinds, [SyntaxKind::PATH_EXPR, SyntaxKind::BIN_EXPR]);
    /// ```
    pub fn ancestors(self) -> impl Iterator<Item = Node<'t>> + Clone {
        successors(Some(self), |node| node.parent())
    }

    /// The nodes right in it, from left to right.
    ///
    /// ```
    /// use rap_tree::{Edition, TopEntryPoint, Tree};
    ///
    /// let tree = Tree::of_text(Edition::CURRENT, TopEntryPoint::Expr, "a+b");
    /// assert_eq!(tree.root().children().map(|node| node.text()).collect::<Vec<_>>(), ["a", "b"]);
    /// ```
    #[must_use]
    pub fn children(self) -> Children<'t> {
        Children(self.children_with_tokens())
    }

    /// The nodes and tokens right in it, from left to right.
    ///
    /// ```
    /// use rap_tree::{Edition, TopEntryPoint, Tree};
    ///
    /// let tree = Tree::of_text(Edition::CURRENT, TopEntryPoint::Expr, "a+b");
    /// assert_eq!(tree.root().children_with_tokens().map(|it| it.text()).collect::<Vec<_>>(), ["a", "+", "b"]);
    /// ```
    #[must_use]
    pub fn children_with_tokens(self) -> ChildrenWithTokens<'t> {
        ChildrenWithTokens::of(self.0)
    }

    /// The first node right in it.
    ///
    /// ```
    /// use rap_tree::{Edition, TopEntryPoint, Tree};
    ///
    /// let tree = Tree::of_text(Edition::CURRENT, TopEntryPoint::Expr, "-1");
    /// assert_eq!(tree.root().first_child().unwrap().text(), "1");
    /// ```
    #[must_use]
    pub fn first_child(self) -> Option<Node<'t>> {
        self.children().next()
    }

    /// The last node right in it.
    ///
    /// ```
    /// use rap_tree::{Edition, TopEntryPoint, Tree};
    ///
    /// let tree = Tree::of_text(Edition::CURRENT, TopEntryPoint::Expr, "a+b");
    /// assert_eq!(tree.root().last_child().unwrap().text(), "b");
    /// ```
    #[must_use]
    pub fn last_child(self) -> Option<Node<'t>> {
        self.children().next_back()
    }

    /// The first node or token right in it. `None` exactly of an empty node without a node in it.
    ///
    /// ```
    /// use rap_tree::{Edition, TopEntryPoint, Tree};
    ///
    /// let tree = Tree::of_text(Edition::CURRENT, TopEntryPoint::Expr, "-1");
    /// assert_eq!(tree.root().first_child_or_token().unwrap().text(), "-");
    /// ```
    #[must_use]
    pub fn first_child_or_token(self) -> Option<NodeOrToken<'t>> {
        self.0.first_child().map(NodeOrToken::from)
    }

    /// The last node or token right in it. `None` exactly of an empty node without a node in it.
    ///
    /// ```
    /// use rap_tree::{Edition, TopEntryPoint, Tree};
    ///
    /// let tree = Tree::of_text(Edition::CURRENT, TopEntryPoint::Expr, "(1)");
    /// assert_eq!(tree.root().last_child_or_token().unwrap().text(), ")");
    /// ```
    #[must_use]
    pub fn last_child_or_token(self) -> Option<NodeOrToken<'t>> {
        self.0.last_child().map(NodeOrToken::from)
    }

    /// The first node behind it in the same node.
    ///
    /// ```
    /// use rap_tree::{Edition, TopEntryPoint, Tree};
    ///
    /// let tree = Tree::of_text(Edition::CURRENT, TopEntryPoint::Expr, "a+b");
    /// let first = tree.root().first_child().unwrap();
    /// assert_eq!(first.next_sibling().unwrap().text(), "b");
    /// ```
    #[must_use]
    pub fn next_sibling(self) -> Option<Node<'t>> {
        self.siblings(Direction::Next).nth(1)
    }

    /// The last node before it in the same node.
    ///
    /// ```
    /// use rap_tree::{Edition, TopEntryPoint, Tree};
    ///
    /// let tree = Tree::of_text(Edition::CURRENT, TopEntryPoint::Expr, "a+b");
    /// let last = tree.root().last_child().unwrap();
    /// assert_eq!(last.prev_sibling().unwrap().text(), "a");
    /// ```
    #[must_use]
    pub fn prev_sibling(self) -> Option<Node<'t>> {
        self.siblings(Direction::Prev).nth(1)
    }

    /// The node or token right behind it in the same node.
    ///
    /// ```
    /// use rap_tree::{Edition, TopEntryPoint, Tree};
    ///
    /// let tree = Tree::of_text(Edition::CURRENT, TopEntryPoint::Expr, "a+b");
    /// let first = tree.root().first_child().unwrap();
    /// assert_eq!(first.next_sibling_or_token().unwrap().text(), "+");
    /// ```
    #[must_use]
    pub fn next_sibling_or_token(self) -> Option<NodeOrToken<'t>> {
        self.0.next_sibling().map(NodeOrToken::from)
    }

    /// The node or token right before it in the same node.
    ///
    /// ```
    /// use rap_tree::{Edition, TopEntryPoint, Tree};
    ///
    /// let tree = Tree::of_text(Edition::CURRENT, TopEntryPoint::Expr, "a+b");
    /// let last = tree.root().last_child().unwrap();
    /// assert_eq!(last.prev_sibling_or_token().unwrap().text(), "+");
    /// ```
    #[must_use]
    pub fn prev_sibling_or_token(self) -> Option<NodeOrToken<'t>> {
        self.0.prev_sibling().map(NodeOrToken::from)
    }

    /// The node itself, and the nodes behind it, or before it, in the same node.
    ///
    /// ```
    /// use rap_tree::{Direction, Edition, TopEntryPoint, Tree};
    ///
    /// let tree = Tree::of_text(Edition::CURRENT, TopEntryPoint::Expr, "a+b");
    /// let first = tree.root().first_child().unwrap();
    /// assert_eq!(first.siblings(Direction::Next).map(|node| node.text()).collect::<Vec<_>>(), ["a", "b"]);
    /// ```
    pub fn siblings(self, direction: Direction) -> impl Iterator<Item = Node<'t>> + Clone {
        self.siblings_with_tokens(direction).filter_map(NodeOrToken::into_node)
    }

    /// The node itself, and the nodes and tokens behind it, or before it, in the same node.
    ///
    /// ```
    /// use rap_tree::{Direction, Edition, TopEntryPoint, Tree};
    ///
    /// let tree = Tree::of_text(Edition::CURRENT, TopEntryPoint::Expr, "a+b");
    /// let last = tree.root().last_child().unwrap();
    /// let texts = last.siblings_with_tokens(Direction::Prev).map(|it| it.text());
    /// assert_eq!(texts.collect::<Vec<_>>(), ["b", "+", "a"]);
    /// ```
    pub fn siblings_with_tokens(self, direction: Direction) -> impl Iterator<Item = NodeOrToken<'t>> + Clone {
        self.0.siblings(direction).map(NodeOrToken::from)
    }

    /// The node itself and all nodes inside it, in preorder.
    ///
    /// ```
    /// use rap_tree::{Edition, TopEntryPoint, Tree};
    ///
    /// let tree = Tree::of_text(Edition::CURRENT, TopEntryPoint::Expr, "(1)");
    /// assert_eq!(tree.root().descendants().map(|node| node.text()).collect::<Vec<_>>(), ["(1)", "1"]);
    /// ```
    #[must_use]
    pub fn descendants(self) -> Descendants<'t> {
        Descendants(self.descendants_with_tokens())
    }

    /// The node itself and all nodes and tokens inside it, in preorder.
    ///
    /// ```
    /// use rap_tree::{Edition, TopEntryPoint, Tree};
    ///
    /// let tree = Tree::of_text(Edition::CURRENT, TopEntryPoint::Expr, "-1");
    /// let all = tree.root().descendants_with_tokens();
    /// assert_eq!(all.map(|it| it.text()).collect::<Vec<_>>(), ["-1", "-", "1", "1"]);
    /// ```
    #[must_use]
    pub fn descendants_with_tokens(self) -> DescendantsWithTokens<'t> {
        DescendantsWithTokens::of(self.0)
    }

    /// A walk through the node and all that is inside it. Each node and token is entered, and left after what is inside
    /// it.
    ///
    /// ```
    /// use rap_tree::{Edition, TopEntryPoint, Tree, WalkEvent};
    ///
    /// let tree = Tree::of_text(Edition::CURRENT, TopEntryPoint::Expr, "-1");
    /// let left = tree.root().preorder_with_tokens().filter_map(|event| match event {
    ///     WalkEvent::Leave(element) => Some(element.text()),
    ///     WalkEvent::Enter(_) => None,
    /// });
    /// assert_eq!(left.collect::<Vec<_>>(), ["-", "1", "1", "-1"]);
    /// ```
    #[must_use]
    pub fn preorder_with_tokens(self) -> PreorderWithTokens<'t> {
        PreorderWithTokens::of(self.0)
    }

    /// The tokens in it that touch an offset of the text: none exactly if it is empty; two if the offset is between
    /// them.
    ///
    /// # Panics
    ///
    /// If the offset is less than the beginning of its range, or greater than the end.
    ///
    /// ```
    /// use rap_tree::{Edition, TokenAtOffset, TopEntryPoint, Tree};
    ///
    /// let tree = Tree::of_text(Edition::CURRENT, TopEntryPoint::Expr, "a+b");
    /// let at = |offset| tree.root().token_at_offset(offset).map(|token| token.text());
    /// assert_eq!([at(0), at(1)], [TokenAtOffset::Single("a"), TokenAtOffset::Between("a", "+")]);
    /// ```
    #[must_use]
    pub fn token_at_offset(self, offset: usize) -> TokenAtOffset<Token<'t>> {
        self.0.token_at_offset(offset).map(Token)
    }

    /// The smallest node or token in it that has the range in its own. For an empty range between two that touch it
    /// this is the left one.
    ///
    /// # Panics
    ///
    /// If the range is not in this node's.
    ///
    /// ```
    /// use rap_tree::{Edition, TopEntryPoint, Tree};
    ///
    /// let tree = Tree::of_text(Edition::CURRENT, TopEntryPoint::Expr, "a+b*c");
    /// let covering = |range| tree.root().covering_element(range).text();
    /// assert_eq!([covering(2..3), covering(2..5), covering(1..1)], ["b", "b*c", "a"]);
    /// ```
    #[must_use]
    pub fn covering_element(self, range: Range<usize>) -> NodeOrToken<'t> {
        self.0.covering_element(&range).into()
    }

    /// The first token inside it. `None` exactly if it is empty. Where an empty node comes first, `rowan` gives `None`
    /// too.
    ///
    /// ```
    /// use rap_tree::{Edition, TopEntryPoint, Tree};
    ///
    /// let tree = Tree::of_text(Edition::CURRENT, TopEntryPoint::Expr, "a+b");
    /// assert_eq!(tree.root().first_token().unwrap().text(), "a");
    /// ```
    #[must_use]
    pub fn first_token(self) -> Option<Token<'t>> {
        self.0.first_token().map(Token)
    }

    /// The last token inside it. `None` exactly if it is empty. Where an empty node comes last, `rowan` gives `None`
    /// too.
    ///
    /// ```
    /// use rap_tree::{Edition, TopEntryPoint, Tree};
    ///
    /// let tree = Tree::of_text(Edition::CURRENT, TopEntryPoint::Expr, "a+b");
    /// assert_eq!(tree.root().last_token().unwrap().text(), "b");
    /// ```
    #[must_use]
    pub fn last_token(self) -> Option<Token<'t>> {
        self.0.last_token().map(Token)
    }
}
