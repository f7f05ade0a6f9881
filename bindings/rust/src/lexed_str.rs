//! A text cut into tokens.
use crate::sys::{self, Filled, check_status};
use crate::{Edition, SyntaxKind};
use std::fmt;
use std::ops::Range;
use std::sync::OnceLock;

/// A text cut into tokens, trivia among them: their texts joined are the text.
///
/// The text is cut at the first call that asks for a token or a message, and never where none does, as in a parse from
/// [`LexedStr::to_input`] to [`LexedStr::intersperse_trivia`]. That first call panics if it is out of memory.
pub struct LexedStr<'a> {
    text: &'a str,
    edition: Edition,
    tokens: OnceLock<Tokens>,
}

/// The tokens of a text. After the last one stands an `EOF`, where the text ends.
struct Tokens {
    kind: Vec<SyntaxKind>,
    start: Vec<u32>,
    /// The messages in order, each with the place of its token.
    error: Vec<(u32, String)>,
}

impl fmt::Debug for LexedStr<'_> {
    fn fmt(&self, f: &mut fmt::Formatter<'_>) -> fmt::Result {
        f.debug_struct("LexedStr").field("text", &self.text).field("edition", &self.edition).finish_non_exhaustive()
    }
}

/// The kind with this number, which a call of the library gave.
#[inline]
pub(crate) fn kind_of(number: u32) -> SyntaxKind {
    SyntaxKind::from(number as u16)
}

impl Tokens {
    fn of(text: &str, edition: Edition) -> Tokens {
        let filled = sys::tokens(text, edition.year());
        check_status(filled.status, &[]);
        let count = filled.steps.iter().position(|step| step.what != sys::TOKEN).unwrap_or(filled.steps.len());
        let (mut kind, mut start) = (Vec::with_capacity(count + 1), Vec::with_capacity(count + 1));
        for step in &filled.steps[..count] {
            kind.push(kind_of(step.kind));
            start.push(step.start as u32);
        }
        kind.push(SyntaxKind::EOF);
        start.push(text.len() as u32);
        let error = Tokens::errors_of(&filled, count, &start);
        Tokens { kind, start, error }
    }

    /// The messages after so many tokens, each with the place of the token that begins where it stands.
    fn errors_of(filled: &Filled, count: usize, start: &[u32]) -> Vec<(u32, String)> {
        let messages = filled.steps[count..].iter();
        let place = |at: usize| start.partition_point(|start| (*start as usize) < at) as u32;
        messages.map(|step| (place(step.at), filled.message(step).to_owned())).collect()
    }
}

impl<'a> LexedStr<'a> {
    /// The text, cut by the rules of the edition.
    ///
    /// # Panics
    ///
    /// For a text of more than 4,294,967,295 bytes. The Rust crate takes it, and its places wrap.
    ///
    /// ```
    /// use ra_ap_parser::{Edition, LexedStr};
    ///
    /// let lexed = LexedStr::new(Edition::CURRENT, "let x");
    /// assert_eq!(lexed.len(), 3);
    /// ```
    #[must_use]
    pub fn new(edition: Edition, text: &'a str) -> LexedStr<'a> {
        assert!(u32::try_from(text.len()).is_ok(), "the text has more than 4,294,967,295 bytes");
        LexedStr { text, edition, tokens: OnceLock::new() }
    }

    /// The kind of the token that the whole text is, with the last message about it; `None` where the text is no token
    /// or several. A shebang or a frontmatter is none.
    ///
    /// Before the edition 2024 the answer is `None` for `##` and `#"`; the Rust crate gives a `POUND`.
    ///
    /// ```
    /// use ra_ap_parser::{Edition, LexedStr, T};
    ///
    /// let single = |text| LexedStr::single_token(Edition::CURRENT, text);
    /// assert_eq!(single("fn"), Some((T![fn], None)));
    /// assert_eq!(single("fn f"), None);
    /// ```
    #[must_use]
    pub fn single_token(edition: Edition, text: &'a str) -> Option<(SyntaxKind, Option<String>)> {
        // After a semicolon nothing is a script source, and no token is another one.
        let behind = format!(";{text}");
        let lexed = LexedStr::new(edition, &behind);
        if lexed.len() != 2 {
            return None;
        }
        let message = lexed.errors().last().map(|(_, message)| message.to_owned());
        Some((lexed.kind(1), message))
    }

    fn tokens(&self) -> &Tokens {
        self.tokens.get_or_init(|| Tokens::of(self.text, self.edition))
    }

    /// The edition by whose rules the text is cut.
    pub(crate) fn edition(&self) -> Edition {
        self.edition
    }

    /// The whole text.
    ///
    /// ```
    /// use ra_ap_parser::{Edition, LexedStr};
    ///
    /// assert_eq!(LexedStr::new(Edition::CURRENT, "a+b").as_str(), "a+b");
    /// ```
    #[must_use]
    pub fn as_str(&self) -> &str {
        self.text
    }

    /// How many tokens there are.
    ///
    /// ```
    /// use ra_ap_parser::{Edition, LexedStr};
    ///
    /// assert_eq!(LexedStr::new(Edition::CURRENT, "a >= b").len(), 6);
    /// ```
    #[must_use]
    pub fn len(&self) -> usize {
        self.tokens().kind.len() - 1
    }

    /// Whether there is no token, which is so exactly for the empty text.
    ///
    /// ```
    /// use ra_ap_parser::{Edition, LexedStr};
    ///
    /// assert!(LexedStr::new(Edition::CURRENT, "").is_empty());
    /// ```
    #[must_use]
    pub fn is_empty(&self) -> bool {
        self.text.is_empty()
    }

    /// The kind of the token at a place.
    ///
    /// # Panics
    ///
    /// If there is no token at the place.
    ///
    /// ```
    /// use ra_ap_parser::{Edition, LexedStr, SyntaxKind, T};
    ///
    /// let lexed = LexedStr::new(Edition::CURRENT, "let x");
    /// assert_eq!([lexed.kind(0), lexed.kind(1)], [T![let], SyntaxKind::WHITESPACE]);
    /// ```
    #[must_use]
    pub fn kind(&self, i: usize) -> SyntaxKind {
        assert!(i < self.len(), "there is no token {i}");
        self.tokens().kind[i]
    }

    /// The text of the token at a place.
    ///
    /// # Panics
    ///
    /// If there is no token at the place.
    ///
    /// ```
    /// use ra_ap_parser::{Edition, LexedStr};
    ///
    /// assert_eq!(LexedStr::new(Edition::CURRENT, "let x").text(2), "x");
    /// ```
    #[must_use]
    pub fn text(&self, i: usize) -> &str {
        &self.text[self.text_range(i)]
    }

    /// The text of the tokens at these places.
    ///
    /// # Panics
    ///
    /// If the range is empty, or a place of it is no token's.
    ///
    /// ```
    /// use ra_ap_parser::{Edition, LexedStr};
    ///
    /// assert_eq!(LexedStr::new(Edition::CURRENT, "let x = 1").range_text(2..5), "x =");
    /// ```
    #[must_use]
    pub fn range_text(&self, r: Range<usize>) -> &str {
        assert!(r.start < r.end && r.end <= self.len(), "there are no tokens {r:?}");
        &self.text[self.text_start(r.start)..self.text_start(r.end)]
    }

    /// The bytes of the token at a place.
    ///
    /// # Panics
    ///
    /// If there is no token at the place.
    ///
    /// ```
    /// use ra_ap_parser::{Edition, LexedStr};
    ///
    /// assert_eq!(LexedStr::new(Edition::CURRENT, "let x").text_range(2), 4..5);
    /// ```
    #[must_use]
    pub fn text_range(&self, i: usize) -> Range<usize> {
        assert!(i < self.len(), "there is no token {i}");
        self.text_start(i)..self.text_start(i + 1)
    }

    /// The byte at which the token at a place begins; for the number of tokens the one at which the text ends.
    ///
    /// # Panics
    ///
    /// For a number greater than that of the tokens.
    ///
    /// ```
    /// use ra_ap_parser::{Edition, LexedStr};
    ///
    /// let lexed = LexedStr::new(Edition::CURRENT, "let x");
    /// assert_eq!([lexed.text_start(2), lexed.text_start(3)], [4, 5]);
    /// ```
    #[must_use]
    pub fn text_start(&self, i: usize) -> usize {
        self.tokens().start[i] as usize
    }

    /// How many bytes the token at a place has.
    ///
    /// # Panics
    ///
    /// If there is no token at the place.
    ///
    /// ```
    /// use ra_ap_parser::{Edition, LexedStr};
    ///
    /// assert_eq!(LexedStr::new(Edition::CURRENT, "let x").text_len(0), 3);
    /// ```
    #[must_use]
    pub fn text_len(&self, i: usize) -> usize {
        self.text_range(i).len()
    }

    /// The first message about the token at a place; the Rust crate gives any of them.
    ///
    /// # Panics
    ///
    /// If there is no token at the place.
    ///
    /// ```
    /// use ra_ap_parser::{Edition, LexedStr};
    ///
    /// let lexed = LexedStr::new(Edition::CURRENT, "x = 0x");
    /// assert_eq!(lexed.error(4), Some("Missing digits after the integer base prefix"));
    /// assert_eq!(lexed.error(0), None);
    /// ```
    #[must_use]
    pub fn error(&self, i: usize) -> Option<&str> {
        assert!(i < self.len(), "there is no token {i}");
        let error = &self.tokens().error;
        let first = error.partition_point(|(token, _)| (*token as usize) < i);
        error.get(first).filter(|(token, _)| *token as usize == i).map(|(_, message)| message.as_str())
    }

    /// The messages in order, each with the place of its token.
    ///
    /// ```
    /// use ra_ap_parser::{Edition, LexedStr};
    ///
    /// let lexed = LexedStr::new(Edition::CURRENT, "0x /*");
    /// let places: Vec<usize> = lexed.errors().map(|(token, _)| token).collect();
    /// assert_eq!(places, [0, 2]);
    /// ```
    pub fn errors(&self) -> impl Iterator<Item = (usize, &str)> + '_ {
        self.tokens().error.iter().map(|(token, message)| (*token as usize, message.as_str()))
    }
}
