//! What nodes and tokens have in common: a tree and an index.
use crate::{Direction, SyntaxKind, Tree};
use ra_ap_parser::sys::{Element, NO_PARENT};
use std::fmt;
use std::hash::{Hash, Hasher};
use std::iter::successors;
use std::ops::Range;

/// The node or token of a tree that has an index. Two are equal if they are the same one of the same tree.
#[derive(Clone, Copy)]
pub(crate) struct Place<'t> {
    tree: &'t Tree,
    index: u32,
}

impl PartialEq for Place<'_> {
    fn eq(&self, other: &Place<'_>) -> bool {
        self.index == other.index && std::ptr::eq(self.tree, other.tree)
    }
}

impl Eq for Place<'_> {}

impl Hash for Place<'_> {
    fn hash<H: Hasher>(&self, state: &mut H) {
        std::ptr::hash(self.tree, state);
        self.index.hash(state);
    }
}

/// On one line, as `IDENT@0..1`.
impl fmt::Debug for Place<'_> {
    fn fmt(&self, f: &mut fmt::Formatter<'_>) -> fmt::Result {
        let Range { start, end } = self.range();
        write!(f, "{}@{start}..{end}", self.kind().name())
    }
}

impl<'t> Place<'t> {
    pub(crate) fn root(tree: &'t Tree) -> Place<'t> {
        Place { tree, index: 0 }
    }

    pub(crate) fn tree(self) -> &'t Tree {
        self.tree
    }

    /// The place with this index in the same tree.
    #[inline]
    pub(crate) fn at(self, index: u32) -> Place<'t> {
        Place { tree: self.tree, index }
    }

    #[inline]
    pub(crate) fn element(self) -> &'t Element {
        &self.tree.elements()[self.index as usize]
    }

    #[inline]
    pub(crate) fn kind(self) -> SyntaxKind {
        self.element().kind()
    }

    /// No token is empty, and nothing is inside it.
    #[inline]
    pub(crate) fn is_token(self) -> bool {
        let element = self.element();
        element.after == self.index + 1 && element.start < element.end
    }

    #[inline]
    pub(crate) fn range(self) -> Range<usize> {
        self.element().start as usize..self.element().end as usize
    }

    #[inline]
    pub(crate) fn text(self) -> &'t str {
        &self.tree.text()[self.range()]
    }

    /// The indices of this place and of all that is inside it.
    pub(crate) fn indices(self) -> Range<u32> {
        self.index..self.element().after
    }

    #[inline]
    pub(crate) fn parent(self) -> Option<Place<'t>> {
        let parent = self.element().parent;
        (parent != NO_PARENT).then(|| self.at(parent))
    }

    /// What begins right in it, which has the next index.
    #[inline]
    pub(crate) fn first_child(self) -> Option<Place<'t>> {
        let first = self.index + 1;
        (first < self.element().after).then(|| self.at(first))
    }

    pub(crate) fn last_child(self) -> Option<Place<'t>> {
        self.at(self.element().after - 1).child_in(self)
    }

    #[inline]
    pub(crate) fn next_sibling(self) -> Option<Place<'t>> {
        let after = self.element().after;
        (after < self.parent()?.element().after).then(|| self.at(after))
    }

    /// What is inside the sibling before it has the indices before its own.
    pub(crate) fn prev_sibling(self) -> Option<Place<'t>> {
        let parent = self.parent()?;
        self.at(self.index - 1).child_in(parent)
    }

    /// This place, and those behind it, or before it, in the same node.
    pub(crate) fn siblings(self, direction: Direction) -> impl Iterator<Item = Place<'t>> + Clone {
        successors(Some(self), move |place| match direction {
            Direction::Next => place.next_sibling(),
            Direction::Prev => place.prev_sibling(),
        })
    }

    /// The child of a node in which this place is; `None` of the node itself. The place must be in the node.
    pub(crate) fn child_in(self, node: Place<'t>) -> Option<Place<'t>> {
        let mut place = self;
        while place.index != node.index {
            let parent = place.element().parent;
            if parent == node.index {
                return Some(place);
            }
            place = self.at(parent);
        }
        None
    }

    /// The first token of those with these indices.
    fn first_token_of(self, indices: Range<u32>) -> Option<Place<'t>> {
        indices.map(|index| self.at(index)).find(|place| place.is_token())
    }

    /// The last token of those with these indices.
    fn last_token_of(self, indices: Range<u32>) -> Option<Place<'t>> {
        indices.map(|index| self.at(index)).rfind(|place| place.is_token())
    }

    pub(crate) fn first_token(self) -> Option<Place<'t>> {
        self.first_token_of(self.indices())
    }

    pub(crate) fn last_token(self) -> Option<Place<'t>> {
        self.last_token_of(self.indices())
    }

    /// The first token behind it in the list.
    pub(crate) fn next_token(self) -> Option<Place<'t>> {
        self.first_token_of(self.index + 1..self.tree.elements()[0].after)
    }

    /// The last token before it in the list.
    pub(crate) fn prev_token(self) -> Option<Place<'t>> {
        self.last_token_of(0..self.index)
    }
}
