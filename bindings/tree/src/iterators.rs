//! Ways through the parts of a node.
use crate::place::Place;
use crate::{Node, NodeOrToken};
use std::iter::FusedIterator;
use std::ops::Range;

/// The nodes and tokens right in a node, from left to right, or from the back.
///
/// ```
/// use rap_tree::{Edition, SyntaxKind, TopEntryPoint, Tree};
///
/// let tree = Tree::of_text(Edition::CURRENT, TopEntryPoint::Expr, "a+b");
/// let kinds: Vec<SyntaxKind> = tree.root().children_with_tokens().map(|child| child.kind()).collect();
/// assert_eq!(kinds, [SyntaxKind::PATH_EXPR, SyntaxKind::PLUS, SyntaxKind::PATH_EXPR]);
/// ```
#[derive(Clone, Debug)]
pub struct ChildrenWithTokens<'t> {
    node: Place<'t>,
    /// The indices of those that were not given out, and of what is inside them.
    rest: Range<u32>,
}

impl<'t> ChildrenWithTokens<'t> {
    pub(crate) fn of(node: Place<'t>) -> ChildrenWithTokens<'t> {
        let Range { start, end } = node.indices();
        ChildrenWithTokens { node, rest: start + 1..end }
    }
}

impl<'t> Iterator for ChildrenWithTokens<'t> {
    type Item = NodeOrToken<'t>;

    #[inline]
    fn next(&mut self) -> Option<NodeOrToken<'t>> {
        let child = (!self.rest.is_empty()).then(|| self.node.at(self.rest.start))?;
        self.rest.start = child.indices().end;
        Some(child.into())
    }
}

impl<'t> DoubleEndedIterator for ChildrenWithTokens<'t> {
    fn next_back(&mut self) -> Option<NodeOrToken<'t>> {
        let last = (!self.rest.is_empty()).then(|| self.node.at(self.rest.end - 1))?;
        let child = last.child_in(self.node)?;
        self.rest.end = child.indices().start;
        Some(child.into())
    }
}

impl FusedIterator for ChildrenWithTokens<'_> {}

/// The nodes right in a node, from left to right, or from the back.
///
/// ```
/// use rap_tree::{Edition, TopEntryPoint, Tree};
///
/// let tree = Tree::of_text(Edition::CURRENT, TopEntryPoint::Expr, "a+b");
/// assert_eq!(tree.root().children().rev().map(|child| child.text()).collect::<Vec<_>>(), ["b", "a"]);
/// ```
#[derive(Clone, Debug)]
pub struct Children<'t>(pub(crate) ChildrenWithTokens<'t>);

impl<'t> Iterator for Children<'t> {
    type Item = Node<'t>;

    fn next(&mut self) -> Option<Node<'t>> {
        self.0.find_map(NodeOrToken::into_node)
    }
}

impl<'t> DoubleEndedIterator for Children<'t> {
    fn next_back(&mut self) -> Option<Node<'t>> {
        self.0.by_ref().rev().find_map(NodeOrToken::into_node)
    }
}

impl FusedIterator for Children<'_> {}

/// A node and all nodes and tokens inside it in preorder, or from the back.
///
/// ```
/// use rap_tree::{Edition, TopEntryPoint, Tree};
///
/// let tree = Tree::of_text(Edition::CURRENT, TopEntryPoint::Expr, "1");
/// let mut all = tree.root().descendants_with_tokens();
/// assert_eq!(all.len(), 2);
/// assert_eq!(format!("{:?}", all.next_back().unwrap()), "INT_NUMBER@0..1 \"1\"");
/// ```
#[derive(Clone, Debug)]
pub struct DescendantsWithTokens<'t> {
    node: Place<'t>,
    /// The indices of those that were not given out.
    rest: Range<u32>,
}

impl<'t> DescendantsWithTokens<'t> {
    pub(crate) fn of(node: Place<'t>) -> DescendantsWithTokens<'t> {
        DescendantsWithTokens { node, rest: node.indices() }
    }
}

impl<'t> Iterator for DescendantsWithTokens<'t> {
    type Item = NodeOrToken<'t>;

    #[inline]
    fn next(&mut self) -> Option<NodeOrToken<'t>> {
        self.rest.next().map(|index| self.node.at(index).into())
    }

    fn size_hint(&self) -> (usize, Option<usize>) {
        self.rest.size_hint()
    }
}

impl<'t> DoubleEndedIterator for DescendantsWithTokens<'t> {
    fn next_back(&mut self) -> Option<NodeOrToken<'t>> {
        self.rest.next_back().map(|index| self.node.at(index).into())
    }
}

impl ExactSizeIterator for DescendantsWithTokens<'_> {}

impl FusedIterator for DescendantsWithTokens<'_> {}

/// A node and all nodes inside it in preorder, or from the back.
///
/// ```
/// use rap_tree::{Edition, TopEntryPoint, Tree};
///
/// let tree = Tree::of_text(Edition::CURRENT, TopEntryPoint::Expr, "-1");
/// assert_eq!(tree.root().descendants().map(|node| node.text()).collect::<Vec<_>>(), ["-1", "1"]);
/// ```
#[derive(Clone, Debug)]
pub struct Descendants<'t>(pub(crate) DescendantsWithTokens<'t>);

impl<'t> Iterator for Descendants<'t> {
    type Item = Node<'t>;

    #[inline]
    fn next(&mut self) -> Option<Node<'t>> {
        self.0.find_map(NodeOrToken::into_node)
    }
}

impl<'t> DoubleEndedIterator for Descendants<'t> {
    fn next_back(&mut self) -> Option<Node<'t>> {
        self.0.by_ref().rev().find_map(NodeOrToken::into_node)
    }
}

impl FusedIterator for Descendants<'_> {}

/// What happens on a walk through a tree.
///
/// ```
/// use rap_tree::{Edition, TopEntryPoint, Tree, WalkEvent};
///
/// let tree = Tree::of_text(Edition::CURRENT, TopEntryPoint::Expr, "1");
/// let events: Vec<_> = tree.root().preorder_with_tokens().map(|event| event.map(|it| it.kind().name())).collect();
/// let (node, token) = ("LITERAL", "INT_NUMBER");
/// assert_eq!(events[..2], [WalkEvent::Enter(node), WalkEvent::Enter(token)]);
/// assert_eq!(events[2..], [WalkEvent::Leave(token), WalkEvent::Leave(node)]);
/// ```
#[derive(Clone, Copy, Debug, PartialEq, Eq)]
pub enum WalkEvent<T> {
    /// Before what is inside it.
    Enter(T),
    /// After what is inside it.
    Leave(T),
}

impl<T> WalkEvent<T> {
    /// The same event with what a function makes of the node or token.
    ///
    /// ```
    /// use rap_tree::WalkEvent;
    ///
    /// assert_eq!(WalkEvent::Enter("fn").map(str::len), WalkEvent::Enter(2));
    /// ```
    #[must_use]
    pub fn map<U>(self, f: impl FnOnce(T) -> U) -> WalkEvent<U> {
        match self {
            WalkEvent::Enter(it) => WalkEvent::Enter(f(it)),
            WalkEvent::Leave(it) => WalkEvent::Leave(f(it)),
        }
    }
}

/// A walk through a node and all that is inside it: each node and token is entered, and left after what is inside it.
///
/// ```
/// use rap_tree::{Edition, TopEntryPoint, Tree, WalkEvent};
///
/// let tree = Tree::of_text(Edition::CURRENT, TopEntryPoint::Expr, "(1)");
/// let mut depth = 0;
/// let deepest = tree.root().preorder_with_tokens().map(|event| {
///     match event {
///         WalkEvent::Enter(_) => depth += 1,
///         WalkEvent::Leave(_) => depth -= 1,
///     }
///     depth
/// });
/// assert_eq!(deepest.max(), Some(3));
/// ```
#[derive(Clone, Debug)]
pub struct PreorderWithTokens<'t> {
    root: Place<'t>,
    next: Option<WalkEvent<Place<'t>>>,
}

impl<'t> PreorderWithTokens<'t> {
    pub(crate) fn of(root: Place<'t>) -> PreorderWithTokens<'t> {
        PreorderWithTokens { root, next: Some(WalkEvent::Enter(root)) }
    }

    /// Leaves out the rest of the innermost node that was entered and not left: the next event is that it is left.
    /// Before the first event all is left out.
    ///
    /// ```
    /// use rap_tree::{Edition, SyntaxKind, TopEntryPoint, Tree, WalkEvent};
    ///
    /// let tree = Tree::of_text(Edition::CURRENT, TopEntryPoint::SourceFile, "fn f() {}struct S;");
    /// let (mut walk, mut kinds) = (tree.root().preorder_with_tokens(), Vec::new());
    /// while let Some(event) = walk.next() {
    ///     if let WalkEvent::Enter(element) = event {
    ///         kinds.push(element.kind());
    ///         if kinds.len() > 1 {
    ///             walk.skip_subtree();
    ///         }
    ///     }
    /// }
    /// assert_eq!(kinds, [SyntaxKind::SOURCE_FILE, SyntaxKind::FN, SyntaxKind::STRUCT]);
    /// ```
    pub fn skip_subtree(&mut self) {
        if let Some(WalkEvent::Enter(place)) = self.next {
            self.next = (place != self.root).then(|| place.parent().map(WalkEvent::Leave)).flatten();
        }
    }

    /// What follows an event.
    fn after(&self, event: WalkEvent<Place<'t>>) -> Option<WalkEvent<Place<'t>>> {
        match event {
            WalkEvent::Enter(place) => Some(place.first_child().map_or(WalkEvent::Leave(place), WalkEvent::Enter)),
            WalkEvent::Leave(place) if place == self.root => None,
            WalkEvent::Leave(place) => match place.next_sibling() {
                Some(next) => Some(WalkEvent::Enter(next)),
                None => place.parent().map(WalkEvent::Leave),
            },
        }
    }
}

impl<'t> Iterator for PreorderWithTokens<'t> {
    type Item = WalkEvent<NodeOrToken<'t>>;

    fn next(&mut self) -> Option<WalkEvent<NodeOrToken<'t>>> {
        let event = self.next?;
        self.next = self.after(event);
        Some(event.map(NodeOrToken::from))
    }
}

impl FusedIterator for PreorderWithTokens<'_> {}
