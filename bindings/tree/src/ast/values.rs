//! The values of literals, as the Reference has them: <https://doc.rust-lang.org/reference/tokens.html#literals>.
use super::tokens::{AstToken, Byte, ByteString, CString, Char, FloatNumber, IntNumber, String};
use crate::SyntaxKind;
use ra_ap_parser::sys::{NO_NUMBER, NumberValue, number_value, string_value};

/// The base of an integer.
#[derive(Clone, Copy, Debug, PartialEq, Eq, Hash)]
#[allow(missing_docs)]
pub enum Radix {
    Binary = 2,
    Octal = 8,
    Decimal = 10,
    Hexadecimal = 16,
}

/// What is behind the value of a number, if it is no empty text.
fn suffix(text: &str, value: NumberValue) -> Option<&str> {
    text.get(value.suffix..).filter(|it| !it.is_empty())
}

impl String<'_> {
    /// The text that it stands for. None if the lexer reports something about it.
    ///
    /// A carriage return stands for itself.
    ///
    /// ```
    /// use rap_tree::ast::{AstToken, String};
    /// use rap_tree::{Edition, TopEntryPoint, Tree};
    ///
    /// let tree = Tree::of_text(Edition::CURRENT, TopEntryPoint::Expr, r#""a\n\u{e9}""#);
    /// let string = String::cast(tree.root().first_token().unwrap()).unwrap();
    /// assert_eq!(string.value().as_deref(), Some("a\né"));
    /// ```
    #[must_use]
    pub fn value(self) -> Option<std::string::String> {
        let bytes = string_value(SyntaxKind::STRING, self.text())?;
        Some(std::string::String::from_utf8(bytes).expect("a string stands for text"))
    }
}

impl ByteString<'_> {
    /// The bytes that it stands for. None if the lexer reports something about it. [`String::value`] has an example.
    #[must_use]
    pub fn value(self) -> Option<Vec<u8>> {
        string_value(SyntaxKind::BYTE_STRING, self.text())
    }
}

impl CString<'_> {
    /// The bytes that it stands for, without the NUL at the end. None if the lexer reports something about it.
    /// [`String::value`] has an example.
    #[must_use]
    pub fn value(self) -> Option<Vec<u8>> {
        string_value(SyntaxKind::C_STRING, self.text())
    }
}

impl Char<'_> {
    /// The character that it stands for. None if the lexer reports something about it. [`IntNumber::value`] has an
    /// example.
    #[must_use]
    pub fn value(self) -> Option<char> {
        let value = number_value(SyntaxKind::CHAR, self.text())?;
        char::from_u32(u32::try_from(value.low).ok()?)
    }
}

impl Byte<'_> {
    /// The byte that it stands for. None if the lexer reports something about it. [`IntNumber::value`] has an example.
    #[must_use]
    pub fn value(self) -> Option<u8> {
        u8::try_from(number_value(SyntaxKind::BYTE, self.text())?.low).ok()
    }
}

impl<'t> IntNumber<'t> {
    /// Its value. None if the lexer reports something about it, if a digit is none of the radix, as in `0b12`, and if it
    /// is 2^128 or more.
    ///
    /// ```
    /// use rap_tree::ast::{AstToken, IntNumber, Radix};
    /// use rap_tree::{Edition, TopEntryPoint, Tree};
    ///
    /// let tree = Tree::of_text(Edition::CURRENT, TopEntryPoint::Expr, "0xff_u8");
    /// let number = IntNumber::cast(tree.root().first_token().unwrap()).unwrap();
    /// assert_eq!(number.value(), Some(255));
    /// assert_eq!((number.radix(), number.suffix()), (Radix::Hexadecimal, Some("u8")));
    /// ```
    #[must_use]
    pub fn value(self) -> Option<u128> {
        let value = number_value(SyntaxKind::INT_NUMBER, self.text())?;
        (value.status != NO_NUMBER).then_some(u128::from(value.high) << 64 | u128::from(value.low))
    }

    /// The base that its prefix names: `0b`, `0o`, `0x`, or none.
    #[must_use]
    pub fn radix(self) -> Radix {
        match self.text().get(..2) {
            Some("0b") => Radix::Binary,
            Some("0o") => Radix::Octal,
            Some("0x") => Radix::Hexadecimal,
            _ => Radix::Decimal,
        }
    }

    /// What follows its digits, if anything does: any identifier. None too if the lexer reports something about it.
    #[must_use]
    pub fn suffix(self) -> Option<&'t str> {
        suffix(self.text(), number_value(SyntaxKind::INT_NUMBER, self.text())?)
    }
}

impl<'t> FloatNumber<'t> {
    /// Its value, rounded once. None if the lexer reports something about it, and of what begins with `0b`, `0o` or `0x`.
    ///
    /// ```
    /// use rap_tree::ast::{AstToken, FloatNumber};
    /// use rap_tree::{Edition, TopEntryPoint, Tree};
    ///
    /// let tree = Tree::of_text(Edition::CURRENT, TopEntryPoint::Expr, "1_5.25e-1f32");
    /// let number = FloatNumber::cast(tree.root().first_token().unwrap()).unwrap();
    /// assert_eq!((number.value(), number.suffix()), (Some(1.525), Some("f32")));
    /// ```
    #[must_use]
    pub fn value(self) -> Option<f64> {
        let value = number_value(SyntaxKind::FLOAT_NUMBER, self.text())?;
        (value.status != NO_NUMBER).then_some(value.real)
    }

    /// What follows its digits, if anything does: any identifier. None too where [`FloatNumber::value`] is none.
    #[must_use]
    pub fn suffix(self) -> Option<&'t str> {
        suffix(self.text(), number_value(SyntaxKind::FLOAT_NUMBER, self.text())?)
    }
}
