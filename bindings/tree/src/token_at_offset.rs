//! The tokens at an offset.

/// The tokens that touch an offset: none in an empty node, one, or the two between which it is. As an iterator it gives
/// them from left to right.
///
/// ```
/// use rap_tree::{Edition, TokenAtOffset, TopEntryPoint, Tree};
///
/// let tree = Tree::of_text(Edition::CURRENT, TopEntryPoint::Expr, "ab+c");
/// let texts = |offset| tree.root().token_at_offset(offset).map(|token| token.text());
/// assert_eq!(texts(1), TokenAtOffset::Single("ab"));
/// assert_eq!(texts(2), TokenAtOffset::Between("ab", "+"));
/// assert_eq!(texts(2).collect::<Vec<_>>(), ["ab", "+"]);
/// ```
#[derive(Clone, Debug, PartialEq, Eq)]
pub enum TokenAtOffset<T> {
    /// There is no token.
    None,
    /// The offset is in the token, or at an end of the text.
    Single(T),
    /// The first token ends at the offset, and the second one begins there.
    Between(T, T),
}

impl<T> TokenAtOffset<T> {
    /// The same with what a function makes of each token.
    ///
    /// ```
    /// use rap_tree::{Edition, SyntaxKind, TokenAtOffset, TopEntryPoint, Tree};
    ///
    /// let tree = Tree::of_text(Edition::CURRENT, TopEntryPoint::Expr, "a+b");
    /// let kinds = tree.root().token_at_offset(1).map(|token| token.kind());
    /// assert_eq!(kinds, TokenAtOffset::Between(SyntaxKind::IDENT, SyntaxKind::PLUS));
    /// ```
    #[must_use]
    pub fn map<U>(self, mut f: impl FnMut(T) -> U) -> TokenAtOffset<U> {
        match self {
            TokenAtOffset::None => TokenAtOffset::None,
            TokenAtOffset::Single(token) => TokenAtOffset::Single(f(token)),
            TokenAtOffset::Between(left, right) => TokenAtOffset::Between(f(left), f(right)),
        }
    }

    /// The only token, or the right one of two.
    ///
    /// ```
    /// use rap_tree::{Edition, TopEntryPoint, Tree};
    ///
    /// let tree = Tree::of_text(Edition::CURRENT, TopEntryPoint::Expr, "a+b");
    /// assert_eq!(tree.root().token_at_offset(1).right_biased().unwrap().text(), "+");
    /// ```
    #[must_use]
    pub fn right_biased(self) -> Option<T> {
        match self {
            TokenAtOffset::None => None,
            TokenAtOffset::Single(token) | TokenAtOffset::Between(_, token) => Some(token),
        }
    }

    /// The only token, or the left one of two.
    ///
    /// ```
    /// use rap_tree::{Edition, TopEntryPoint, Tree};
    ///
    /// let tree = Tree::of_text(Edition::CURRENT, TopEntryPoint::Expr, "a+b");
    /// assert_eq!(tree.root().token_at_offset(1).left_biased().unwrap().text(), "a");
    /// ```
    #[must_use]
    pub fn left_biased(self) -> Option<T> {
        match self {
            TokenAtOffset::None => None,
            TokenAtOffset::Single(token) | TokenAtOffset::Between(token, _) => Some(token),
        }
    }
}

impl<T> Iterator for TokenAtOffset<T> {
    type Item = T;

    fn next(&mut self) -> Option<T> {
        match std::mem::replace(self, TokenAtOffset::None) {
            TokenAtOffset::None => None,
            TokenAtOffset::Single(token) => Some(token),
            TokenAtOffset::Between(left, right) => {
                *self = TokenAtOffset::Single(right);
                Some(left)
            }
        }
    }

    fn size_hint(&self) -> (usize, Option<usize>) {
        let count = match self {
            TokenAtOffset::None => 0,
            TokenAtOffset::Single(_) => 1,
            TokenAtOffset::Between(..) => 2,
        };
        (count, Some(count))
    }
}

impl<T> ExactSizeIterator for TokenAtOffset<T> {}
