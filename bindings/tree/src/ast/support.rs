//! What views are made of: the macros of the list of all kinds, and how children are found.
use super::{AstChildren, AstNode};
use crate::{Node, SyntaxKind, Token};

/// A node or a token of which the children behind it and before it are told apart.
pub(super) trait Mark {
    fn index(self) -> u32;
}

impl Mark for Token<'_> {
    fn index(self) -> u32 {
        self.0.indices().start
    }
}

impl<'t, N: AstNode<'t>> Mark for N {
    fn index(self) -> u32 {
        self.syntax().0.indices().start
    }
}

/// The children of a view.
#[inline]
pub(super) fn all<'t, N: AstNode<'t>>(node: Node<'t>) -> AstChildren<'t, N> {
    let indices = node.0.indices();
    AstChildren::of(node, indices.start + 1..indices.end)
}

/// Those before a mark; all where it is not there.
#[inline]
pub(super) fn before<'t, N: AstNode<'t>>(node: Node<'t>, mark: Option<impl Mark>) -> AstChildren<'t, N> {
    let indices = node.0.indices();
    AstChildren::of(node, indices.start + 1..mark.map_or(indices.end, Mark::index))
}

/// Those before a mark; none where it is not there.
#[inline]
pub(super) fn only_before<'t, N: AstNode<'t>>(node: Node<'t>, mark: Option<impl Mark>) -> AstChildren<'t, N> {
    let first = node.0.indices().start + 1;
    AstChildren::of(node, first..mark.map_or(first, Mark::index))
}

/// Those behind a mark; none where it is not there.
#[inline]
pub(super) fn after<'t, N: AstNode<'t>>(node: Node<'t>, mark: Option<impl Mark>) -> AstChildren<'t, N> {
    let end = node.0.indices().end;
    AstChildren::of(node, mark.map_or(end, |it| node.0.at(it.index()).indices().end)..end)
}

/// Those behind a mark; all where it is not there.
#[inline]
pub(super) fn past<'t, N: AstNode<'t>>(node: Node<'t>, mark: Option<impl Mark>) -> AstChildren<'t, N> {
    let indices = node.0.indices();
    AstChildren::of(node, mark.map_or(indices.start + 1, |it| node.0.at(it.index()).indices().end)..indices.end)
}

/// The first token right in a node that is of some kinds.
#[inline]
pub(super) fn token<'t>(node: Node<'t>, is: impl Fn(SyntaxKind) -> bool) -> Option<Token<'t>> {
    let mut indices = node.0.indices();
    indices.start += 1;
    while !indices.is_empty() {
        let place = node.0.at(indices.start);
        if is(place.kind()) && place.is_token() {
            return Some(Token(place));
        }
        indices.start = place.indices().end;
    }
    None
}

/// What a node or a set is beside its fields: a view with the text of its node.
macro_rules! view {
    ($name:ident) => {
        /// Its text.
        impl std::fmt::Display for $name<'_> {
            fn fmt(&self, f: &mut std::fmt::Formatter<'_>) -> std::fmt::Result {
                self.syntax().fmt(f)
            }
        }

        /// As its node is printed.
        impl std::fmt::Debug for $name<'_> {
            fn fmt(&self, f: &mut std::fmt::Formatter<'_>) -> std::fmt::Result {
                std::fmt::Debug::fmt(&self.syntax(), f)
            }
        }
    };
}

/// Nodes of one kind, with fields: how many there are, `one`, `maybe` or `any`, a name, and in brackets a view and how
/// it is found, or the kinds of a token.
macro_rules! node {
    ($name:ident $kind:ident $what:literal: $($count:ident $field:ident $rule:tt)*) => {
        #[doc = concat!("`", stringify!($kind), "`: ", $what, ".")]
        #[derive(Clone, Copy, PartialEq, Eq, Hash)]
        pub struct $name<'t>(Node<'t>);

        impl<'t> AstNode<'t> for $name<'t> {
            #[inline]
            fn can_cast(kind: SyntaxKind) -> bool {
                kind == SyntaxKind::$kind
            }

            #[inline]
            fn cast(node: Node<'t>) -> Option<Self> {
                Self::can_cast(node.kind()).then_some($name(node))
            }

            #[inline]
            fn syntax(self) -> Node<'t> {
                self.0
            }
        }

        impl<'t> $name<'t> {
            $(node! { @ $count $field $rule })*
        }

        view! { $name }
    };
    (@ one $field:ident ($of:ident $how:ident $(, $place:ident $mark:ident)?)) => {
        #[doc = concat!("Its [`", stringify!($of), "`]. A node without a message or an `ERROR` right in it has one.")]
        #[must_use]
        #[inline]
        pub fn $field(self) -> Option<$of<'t>> {
            node!(@ $how self $(, $place $mark)?)
        }
    };
    (@ maybe $field:ident ($of:ident $how:ident $(, $place:ident $mark:ident)?)) => {
        #[doc = concat!("Its [`", stringify!($of), "`], if it has one.")]
        #[must_use]
        #[inline]
        pub fn $field(self) -> Option<$of<'t>> {
            node!(@ $how self $(, $place $mark)?)
        }
    };
    (@ any $field:ident ($of:ident $how:ident $(, $place:ident $mark:ident)?)) => {
        #[doc = concat!("Its [`", stringify!($of), "`]s, from left to right.")]
        #[must_use]
        #[inline]
        pub fn $field(self) -> AstChildren<'t, $of<'t>> {
            node!(@ all self $(, $place $mark)?)
        }
    };
    (@ one $field:ident [$($kind:ident)*]) => {
        #[doc = concat!("Its token", $(" `", stringify!($kind), "`",)* ". ")]
        #[doc = "A node without a message or an `ERROR` right in it has one."]
        #[must_use]
        #[inline]
        pub fn $field(self) -> Option<Token<'t>> {
            support::token(self.0, |kind| matches!(kind, $(SyntaxKind::$kind)|*))
        }
    };
    (@ maybe $field:ident [$($kind:ident)*]) => {
        #[doc = concat!("Its token", $(" `", stringify!($kind), "`",)* ", if it has one.")]
        #[must_use]
        #[inline]
        pub fn $field(self) -> Option<Token<'t>> {
            support::token(self.0, |kind| matches!(kind, $(SyntaxKind::$kind)|*))
        }
    };
    (@ first $it:ident) => { support::all($it.0).next() };
    (@ last $it:ident) => { support::all($it.0).last() };
    (@ all $it:ident) => { support::all($it.0) };
    (@ first $it:ident, $place:ident $mark:ident) => { support::$place($it.0, $it.$mark()).next() };
    (@ last $it:ident, $place:ident $mark:ident) => { support::$place($it.0, $it.$mark()).last() };
    (@ all $it:ident, $place:ident $mark:ident) => { support::$place($it.0, $it.$mark()) };
}

/// One of several views.
macro_rules! set {
    ($name:ident: $($variant:ident($view:ident))*) => {
        #[doc = concat!("One of these:", $(" [`", stringify!($view), "`]",)* ".")]
        #[derive(Clone, Copy, PartialEq, Eq, Hash)]
        pub enum $name<'t> {
            $(#[doc = concat!("[`", stringify!($view), "`]")] $variant($view<'t>),)*
        }

        impl<'t> AstNode<'t> for $name<'t> {
            #[inline]
            fn can_cast(kind: SyntaxKind) -> bool {
                $($view::can_cast(kind))||*
            }

            #[inline]
            fn cast(node: Node<'t>) -> Option<Self> {
                let kind = node.kind();
                $(if $view::can_cast(kind) {
                    return $view::cast(node).map($name::$variant);
                })*
                None
            }

            #[inline]
            fn syntax(self) -> Node<'t> {
                match self {
                    $($name::$variant(it) => it.syntax(),)*
                }
            }
        }

        $(impl<'t> From<$view<'t>> for $name<'t> {
            fn from(it: $view<'t>) -> Self {
                $name::$variant(it)
            }
        })*

        view! { $name }
    };
}

/// Views that have a trait by its own rules.
macro_rules! has {
    ($trait:ident: $($name:ident)*) => {
        $(impl<'t> $trait<'t> for $name<'t> {})*
    };
}

pub(super) use {has, node, set, view};
