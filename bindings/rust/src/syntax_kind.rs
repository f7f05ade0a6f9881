//! Kinds of tokens and nodes.
use crate::Edition;

/// Makes the enum of all kinds, and the tables of the kinds and of their names by their numbers.
macro_rules! kinds {
    ($($name:ident),* $(,)?) => {
        /// The kind of a token or a node. Its number is its place in this list, the port's own; the Rust crate has
        /// others. The tokens come first, from `EOF` to `SHEBANG`; `ERROR` is the kind of a token and of a node.
        #[allow(non_camel_case_types, missing_docs, clippy::upper_case_acronyms)]
        #[derive(Clone, Copy, PartialEq, Eq, PartialOrd, Ord, Hash, Debug)]
        #[repr(u16)]
        pub enum SyntaxKind {
            $($name,)*
            /// No kind: the number of kinds.
            #[doc(hidden)]
            __LAST,
        }

        /// The kinds by their numbers.
        pub(super) static KINDS: [SyntaxKind; SyntaxKind::__LAST as usize] = [$(SyntaxKind::$name,)*];

        /// The names of the kinds by their numbers.
        pub(super) static NAMES: [&str; SyntaxKind::__LAST as usize] = [$(stringify!($name),)*];
    };
}

mod generated;

pub use generated::SyntaxKind;
use generated::{KINDS, NAMES, contextual_ever, kind_of_char, reserved_in_2015, reserved_since_2018};
use generated::{reserved_since_2024, text_of};

/// The kind with this number. Panics if no kind has it.
impl From<u16> for SyntaxKind {
    #[inline]
    fn from(number: u16) -> SyntaxKind {
        KINDS[number as usize]
    }
}

/// The number of the kind.
impl From<SyntaxKind> for u16 {
    #[inline]
    fn from(kind: SyntaxKind) -> u16 {
        kind as u16
    }
}

impl SyntaxKind {
    /// The kind's name, as in `"L_PAREN"`; `{:?}` prints it too. The Rust crate has not this call.
    ///
    /// ```
    /// assert_eq!(ra_ap_parser::T!['('].name(), "L_PAREN");
    /// ```
    #[must_use]
    pub fn name(self) -> &'static str {
        NAMES[self as usize]
    }

    /// The text of a punctuation or a keyword.
    ///
    /// # Panics
    ///
    /// For a kind of another sort.
    ///
    /// ```
    /// assert_eq!(ra_ap_parser::T![>>=].text(), ">>=");
    /// ```
    #[must_use]
    pub const fn text(self) -> &'static str {
        match text_of(self) {
            Some(text) => text,
            None => panic!("no text for these `SyntaxKind`s"),
        }
    }

    /// The kind of the word, if the edition reserves it.
    ///
    /// ```
    /// use ra_ap_parser::{Edition, SyntaxKind, T};
    ///
    /// assert_eq!(SyntaxKind::from_keyword("gen", Edition::Edition2024), Some(T![gen]));
    /// assert_eq!(SyntaxKind::from_keyword("gen", Edition::Edition2021), None);
    /// ```
    #[must_use]
    pub fn from_keyword(ident: &str, edition: Edition) -> Option<SyntaxKind> {
        reserved_in_2015(ident)
            .or_else(|| reserved_since_2018(ident).filter(|_| edition.at_least_2018()))
            .or_else(|| reserved_since_2024(ident).filter(|_| edition.at_least_2024()))
    }

    /// The kind of the word, if it is a keyword only where the grammar asks for it. Before the edition 2018 `dyn` is
    /// such a word.
    ///
    /// ```
    /// use ra_ap_parser::{Edition, SyntaxKind, T};
    ///
    /// assert_eq!(SyntaxKind::from_contextual_keyword("union", Edition::CURRENT), Some(T![union]));
    /// assert_eq!(SyntaxKind::from_contextual_keyword("fn", Edition::CURRENT), None);
    /// ```
    #[must_use]
    pub fn from_contextual_keyword(ident: &str, edition: Edition) -> Option<SyntaxKind> {
        match ident {
            "dyn" if !edition.at_least_2018() => Some(SyntaxKind::DYN_KW),
            _ => contextual_ever(ident),
        }
    }

    /// The kind of a punctuation of one character.
    ///
    /// ```
    /// use ra_ap_parser::{SyntaxKind, T};
    ///
    /// assert_eq!(SyntaxKind::from_char('+'), Some(T![+]));
    /// assert_eq!(SyntaxKind::from_char('a'), None);
    /// ```
    #[must_use]
    pub fn from_char(c: char) -> Option<SyntaxKind> {
        kind_of_char(c)
    }

    /// Whether the edition reserves this keyword.
    ///
    /// ```
    /// use ra_ap_parser::{Edition, T};
    ///
    /// assert!(T![dyn].is_strict_keyword(Edition::Edition2018));
    /// assert!(!T![dyn].is_strict_keyword(Edition::Edition2015));
    /// ```
    #[must_use]
    pub fn is_strict_keyword(self, edition: Edition) -> bool {
        text_of(self).is_some_and(|text| SyntaxKind::from_keyword(text, edition) == Some(self))
    }

    /// Whether this is a keyword of the edition only where the grammar asks for it.
    ///
    /// ```
    /// use ra_ap_parser::{Edition, T};
    ///
    /// assert!(T![dyn].is_contextual_keyword(Edition::Edition2015));
    /// assert!(T![union].is_contextual_keyword(Edition::CURRENT));
    /// ```
    #[must_use]
    pub fn is_contextual_keyword(self, edition: Edition) -> bool {
        text_of(self).is_some_and(|text| SyntaxKind::from_contextual_keyword(text, edition) == Some(self))
    }

    /// Whether this is the kind of a keyword of the edition, contextual ones included.
    ///
    /// ```
    /// use ra_ap_parser::{Edition, T};
    ///
    /// assert!(T![fn].is_keyword(Edition::CURRENT) && T![union].is_keyword(Edition::CURRENT));
    /// assert!(!T![;].is_keyword(Edition::CURRENT));
    /// ```
    #[must_use]
    pub fn is_keyword(self, edition: Edition) -> bool {
        self.is_strict_keyword(edition) || self.is_contextual_keyword(edition)
    }

    /// Whether this is a punctuation, of one character or more.
    ///
    /// ```
    /// use ra_ap_parser::SyntaxKind;
    ///
    /// assert!(SyntaxKind::SHLEQ.is_punct());
    /// assert!(!SyntaxKind::AS_KW.is_punct());
    /// ```
    #[must_use]
    pub fn is_punct(self) -> bool {
        (SyntaxKind::SEMICOLON..=SyntaxKind::SHREQ).contains(&self)
    }

    /// Whether this is a number, a character or a string.
    ///
    /// ```
    /// use ra_ap_parser::SyntaxKind;
    ///
    /// assert!(SyntaxKind::C_STRING.is_literal());
    /// assert!(!SyntaxKind::IDENT.is_literal());
    /// ```
    #[must_use]
    pub fn is_literal(self) -> bool {
        (SyntaxKind::INT_NUMBER..=SyntaxKind::C_STRING).contains(&self)
    }

    /// Whether this is the kind of a token: not of a node alone. The Rust crate has not this call.
    ///
    /// ```
    /// use ra_ap_parser::SyntaxKind;
    ///
    /// assert!(SyntaxKind::SHEBANG.is_token());
    /// assert!(!SyntaxKind::SOURCE_FILE.is_token());
    /// ```
    #[must_use]
    pub fn is_token(self) -> bool {
        self <= SyntaxKind::SHEBANG
    }

    /// Whether tokens of this kind are left out of the parser's input: white space and plain comments.
    ///
    /// ```
    /// use ra_ap_parser::SyntaxKind;
    ///
    /// assert!(SyntaxKind::COMMENT.is_trivia());
    /// assert!(!SyntaxKind::OUTER_DOC_COMMENT.is_trivia());
    /// ```
    #[must_use]
    #[inline]
    pub fn is_trivia(self) -> bool {
        self == SyntaxKind::WHITESPACE || self == SyntaxKind::COMMENT
    }

    /// Whether this is an identifier, or a keyword of the latest edition, contextual ones included.
    ///
    /// ```
    /// use ra_ap_parser::SyntaxKind;
    ///
    /// assert!(SyntaxKind::UNION_KW.is_any_identifier());
    /// assert!(!SyntaxKind::SEMICOLON.is_any_identifier());
    /// ```
    #[must_use]
    #[inline]
    pub fn is_any_identifier(self) -> bool {
        self == SyntaxKind::IDENT || self.is_keyword(Edition::LATEST)
    }

    /// Whether this is an opening bracket: `(`, `{` or `[`.
    ///
    /// ```
    /// use ra_ap_parser::SyntaxKind;
    ///
    /// assert!(SyntaxKind::L_BRACK.is_l_delimiter());
    /// assert!(!SyntaxKind::L_ANGLE.is_l_delimiter());
    /// ```
    #[must_use]
    #[inline]
    pub fn is_l_delimiter(self) -> bool {
        matches!(self, SyntaxKind::L_PAREN | SyntaxKind::L_CURLY | SyntaxKind::L_BRACK)
    }

    /// Whether this is a closing bracket: `)`, `}` or `]`.
    ///
    /// ```
    /// use ra_ap_parser::SyntaxKind;
    ///
    /// assert!(SyntaxKind::R_CURLY.is_r_delimiter());
    /// assert!(!SyntaxKind::R_ANGLE.is_r_delimiter());
    /// ```
    #[must_use]
    #[inline]
    pub fn is_r_delimiter(self) -> bool {
        matches!(self, SyntaxKind::R_PAREN | SyntaxKind::R_CURLY | SyntaxKind::R_BRACK)
    }

    /// Whether this is an opening or a closing bracket.
    ///
    /// ```
    /// use ra_ap_parser::SyntaxKind;
    ///
    /// assert!(SyntaxKind::L_PAREN.is_delimiter());
    /// assert!(!SyntaxKind::COMMA.is_delimiter());
    /// ```
    #[must_use]
    #[inline]
    pub fn is_delimiter(self) -> bool {
        self.is_l_delimiter() || self.is_r_delimiter()
    }
}
