//! What of a file is outside of the core grammar.
use crate::SyntaxKind;
use ra_ap_parser::sys::Place;
use std::fmt;
use std::ops::Range;

/// A token or a node that is outside of the core grammar, which [`Tree::outside_core`](crate::Tree::outside_core) lists.
///
/// ```
/// use rap_tree::{Edition, TopEntryPoint, Tree};
///
/// let tree = Tree::of_text(Edition::CURRENT, TopEntryPoint::SourceFile, "fn f() { x.0.1; }");
/// assert_eq!(tree.outside_core()[0].to_string(), "FIELD_EXPR@9..14");
/// ```
#[derive(Clone, Debug, PartialEq, Eq)]
pub struct Outside {
    kind: SyntaxKind,
    range: Range<usize>,
    is_token: bool,
}

impl Outside {
    pub(crate) fn new(place: &Place) -> Outside {
        Outside { kind: place.kind(), range: place.start..place.end, is_token: place.is_token == 1 }
    }

    /// Its kind.
    ///
    /// ```
    /// use rap_tree::{Edition, SyntaxKind, TopEntryPoint, Tree};
    ///
    /// let tree = Tree::of_text(Edition::CURRENT, TopEntryPoint::SourceFile, "trait A = B;");
    /// assert_eq!(tree.outside_core()[0].kind(), SyntaxKind::TRAIT);
    /// ```
    #[must_use]
    pub fn kind(&self) -> SyntaxKind {
        self.kind
    }

    /// Its bytes: of a node those of its tokens, without white space and comments before and after them. A node without
    /// tokens is empty, and is where the next token begins.
    ///
    /// ```
    /// use rap_tree::{Edition, TopEntryPoint, Tree};
    ///
    /// let tree = Tree::of_text(Edition::CURRENT, TopEntryPoint::SourceFile, "// a\ntrait A = B; // b");
    /// assert_eq!(tree.outside_core()[0].range(), 5..17);
    /// ```
    #[must_use]
    pub fn range(&self) -> Range<usize> {
        self.range.clone()
    }

    /// Whether it is a token, of which the lexer has a message.
    ///
    /// ```
    /// use rap_tree::{Edition, TopEntryPoint, Tree};
    ///
    /// let tree = Tree::of_text(Edition::CURRENT, TopEntryPoint::SourceFile, "const A: u8 = 0x;");
    /// assert_eq!(tree.outside_core().iter().filter(|it| it.is_token()).count(), 1);
    /// ```
    #[must_use]
    pub fn is_token(&self) -> bool {
        self.is_token
    }
}

/// Its kind and its range, as the program `rast_core` prints them.
impl fmt::Display for Outside {
    fn fmt(&self, f: &mut fmt::Formatter<'_>) -> fmt::Result {
        write!(f, "{:?}@{}..{}", self.kind, self.range.start, self.range.end)
    }
}
