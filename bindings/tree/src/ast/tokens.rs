//! Views of tokens.
use crate::{SyntaxKind, Token};
use std::fmt;

/// A view of a token of one kind.
///
/// ```
/// use rap_tree::ast::{AstToken, IntNumber};
/// use rap_tree::{Edition, TopEntryPoint, Tree};
///
/// let tree = Tree::of_text(Edition::CURRENT, TopEntryPoint::Expr, "1");
/// let one = IntNumber::cast(tree.root().first_token().unwrap()).unwrap();
/// assert_eq!((one.text(), one.syntax().text_range()), ("1", 0..1));
/// ```
pub trait AstToken<'t>: Copy {
    /// Whether a token of this kind has the view.
    fn can_cast(kind: SyntaxKind) -> bool;

    /// The view of a token, if its kind has it.
    fn cast(token: Token<'t>) -> Option<Self>;

    /// The token.
    fn syntax(self) -> Token<'t>;

    /// Its text.
    fn text(self) -> &'t str {
        self.syntax().text()
    }
}

/// Views of one kind each.
macro_rules! tokens {
    ($($name:ident $kind:ident $what:literal)*) => {$(
        #[doc = concat!("`", stringify!($kind), "`: ", $what, ". [`AstToken`] has an example.")]
        #[derive(Clone, Copy, Debug, PartialEq, Eq, Hash)]
        pub struct $name<'t>(Token<'t>);

        impl<'t> AstToken<'t> for $name<'t> {
            fn can_cast(kind: SyntaxKind) -> bool {
                kind == SyntaxKind::$kind
            }

            fn cast(token: Token<'t>) -> Option<Self> {
                Self::can_cast(token.kind()).then_some($name(token))
            }

            fn syntax(self) -> Token<'t> {
                self.0
            }
        }

        /// Its text.
        impl fmt::Display for $name<'_> {
            fn fmt(&self, f: &mut fmt::Formatter<'_>) -> fmt::Result {
                self.0.fmt(f)
            }
        }
    )*};
}

tokens! {
    Comment COMMENT "a comment that is no documentation"
    Whitespace WHITESPACE "white space"
    String STRING "a string"
    ByteString BYTE_STRING "a string of bytes"
    CString C_STRING "a string for C"
    IntNumber INT_NUMBER "an integer"
    FloatNumber FLOAT_NUMBER "a number with a fraction or an exponent"
    Char CHAR "a character"
    Byte BYTE "a byte"
    Ident IDENT "an identifier"
}
