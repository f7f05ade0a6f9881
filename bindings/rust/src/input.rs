//! The tokens that a parser reads.
use crate::lexed_str::kind_of;
use crate::sys::{self, Record, check_status};
use crate::{Edition, SyntaxKind};
use std::fmt;
use std::sync::{Arc, OnceLock};

/// A text and an edition, by whose rules it is lexed.
#[derive(Clone, PartialEq, Eq)]
pub(crate) struct Source {
    pub(crate) text: Arc<str>,
    pub(crate) edition: Edition,
}

impl Source {
    /// The records of the text.
    pub(crate) fn records(&self) -> Vec<Record> {
        let (status, records) = sys::records(&self.text, self.edition.year());
        check_status(status, &[]);
        records
    }
}

/// The tokens that a parser reads, without trivia.
///
/// [`LexedStr::to_input`](crate::LexedStr::to_input) makes those of a text, and a macro expander pushes its own. A text
/// is lexed when its tokens are first used: that call panics if it is out of memory.
pub struct Input {
    /// The text whose records these are, as long as no token was pushed after them.
    source: Option<Source>,
    records: OnceLock<Vec<Record>>,
}

impl fmt::Debug for Input {
    fn fmt(&self, f: &mut fmt::Formatter<'_>) -> fmt::Result {
        f.debug_struct("Input").field("len", &self.len()).finish_non_exhaustive()
    }
}

impl Input {
    /// No tokens yet, with room for `capacity` of them.
    ///
    /// ```
    /// let input = ra_ap_parser::Input::with_capacity(16);
    /// assert!(input.is_empty());
    /// ```
    #[must_use]
    #[inline]
    pub fn with_capacity(capacity: usize) -> Input {
        Input::of_records(Vec::with_capacity(capacity))
    }

    /// Appends a token that is read as nothing else, and that does not touch the next one: two tokens `>` and `=` are a
    /// `>=` only if [`was_joint`](Input::was_joint) is called between them. A float that is pushed is one whose text ends
    /// in a dot, as `0.`, unless `was_joint` follows.
    ///
    /// # Panics
    ///
    /// For a kind that is no token's, and for `EOF`; the Rust crate takes them.
    ///
    /// ```
    /// use ra_ap_parser::{Edition, Input, SyntaxKind, T, TopEntryPoint};
    ///
    /// let mut input = Input::with_capacity(3);
    /// input.push(T![-], Edition::CURRENT);
    /// input.push(SyntaxKind::INT_NUMBER, Edition::CURRENT);
    /// assert_eq!(TopEntryPoint::Expr.parse(&input).iter().count(), 6);
    /// ```
    #[inline]
    pub fn push(&mut self, kind: SyntaxKind, edition: Edition) {
        assert!(kind.is_token() && kind != SyntaxKind::EOF, "{kind:?} is no token");
        self.push_record(kind, SyntaxKind::EOF, edition);
    }

    /// Appends an identifier that may be read as `contextual_kind`, the kind of a contextual keyword, or as nothing else
    /// for `IDENT`. It does not touch the next token, which no rule of the grammar asks of an identifier.
    ///
    /// # Panics
    ///
    /// If `contextual_kind` is no token's; the Rust crate takes it.
    ///
    /// ```
    /// use ra_ap_parser::{Edition, Input, SyntaxKind, T};
    ///
    /// let mut input = Input::with_capacity(2);
    /// input.push_ident(T![union], Edition::CURRENT);
    /// input.push_ident(SyntaxKind::IDENT, Edition::CURRENT);
    /// assert_eq!((input.kind(0), input.contextual_kind(0)), (SyntaxKind::IDENT, T![union]));
    /// ```
    #[inline]
    pub fn push_ident(&mut self, contextual_kind: SyntaxKind, edition: Edition) {
        assert!(contextual_kind.is_token(), "{contextual_kind:?} is no token");
        self.push_record(SyntaxKind::IDENT, contextual_kind, edition);
    }

    /// Says that the last token touches the next one. `>` `>` `=` are read as one `>>=` if each of the first two touches
    /// the next one.
    ///
    /// Of a float it says instead that its text does not end in a dot. After a dot such a float is two fields, as in
    /// `x.0.1`. Without `was_joint` the `0.1` is read as `0.`: one field and a dot, after which a name is reported
    /// missing.
    ///
    /// # Panics
    ///
    /// If there is no token.
    ///
    /// ```
    /// use ra_ap_parser::{Edition, Input, Step, SyntaxKind, T, TopEntryPoint};
    ///
    /// // The messages of `x . 0.1`, whose float touches what follows, or does not.
    /// let messages = |is_joint: bool| {
    ///     let mut input = Input::with_capacity(3);
    ///     input.push_ident(SyntaxKind::IDENT, Edition::CURRENT);
    ///     input.push(T![.], Edition::CURRENT);
    ///     input.push(SyntaxKind::FLOAT_NUMBER, Edition::CURRENT);
    ///     if is_joint {
    ///         input.was_joint();
    ///     }
    ///     let is_message = |step: &Step| matches!(step, Step::Error { .. });
    ///     TopEntryPoint::Expr.parse(&input).iter().filter(is_message).count()
    /// };
    /// assert_eq!([messages(true), messages(false)], [0, 1]);
    /// ```
    #[inline]
    pub fn was_joint(&mut self) {
        self.records_mut().last_mut().expect("there is a token").joint = 1;
    }

    /// How many tokens there are.
    ///
    /// ```
    /// use ra_ap_parser::{Edition, LexedStr};
    ///
    /// assert_eq!(LexedStr::new(Edition::CURRENT, "a >= b").to_input(Edition::CURRENT).len(), 4);
    /// ```
    #[must_use]
    pub fn len(&self) -> usize {
        self.records().len()
    }

    /// Whether there is no token. The Rust crate has not this call.
    ///
    /// ```
    /// use ra_ap_parser::{Edition, LexedStr};
    ///
    /// assert!(LexedStr::new(Edition::CURRENT, " // nothing").to_input(Edition::CURRENT).is_empty());
    /// ```
    #[must_use]
    pub fn is_empty(&self) -> bool {
        self.len() == 0
    }

    /// The kind of the token at a place, or `EOF` past the last one. In the Rust crate it is not public.
    ///
    /// ```
    /// use ra_ap_parser::{Edition, LexedStr, SyntaxKind, T};
    ///
    /// let input = LexedStr::new(Edition::CURRENT, "fn").to_input(Edition::CURRENT);
    /// assert_eq!([input.kind(0), input.kind(1)], [T![fn], SyntaxKind::EOF]);
    /// ```
    #[must_use]
    pub fn kind(&self, idx: usize) -> SyntaxKind {
        self.records().get(idx).map_or(SyntaxKind::EOF, |record| kind_of(record.kind))
    }

    /// What the identifier at a place may be read as; `EOF` for any other token, and past the last one. In the Rust
    /// crate it is not public.
    ///
    /// ```
    /// use ra_ap_parser::{Edition, LexedStr, SyntaxKind, T};
    ///
    /// let input = LexedStr::new(Edition::CURRENT, "auto a").to_input(Edition::CURRENT);
    /// assert_eq!([input.contextual_kind(0), input.contextual_kind(1)], [T![auto], SyntaxKind::IDENT]);
    /// ```
    #[must_use]
    pub fn contextual_kind(&self, idx: usize) -> SyntaxKind {
        self.records().get(idx).map_or(SyntaxKind::EOF, |record| kind_of(record.contextual_kind))
    }

    /// Whether the token at a place touches the one after it. In the Rust crate it is not public.
    ///
    /// ```
    /// use ra_ap_parser::{Edition, LexedStr};
    ///
    /// let input = LexedStr::new(Edition::CURRENT, ">= =").to_input(Edition::CURRENT);
    /// assert_eq!([input.is_joint(0), input.is_joint(1)], [true, false]);
    /// ```
    #[must_use]
    pub fn is_joint(&self, idx: usize) -> bool {
        self.records().get(idx).is_some_and(|record| record.joint == 1)
    }

    pub(crate) fn of_records(records: Vec<Record>) -> Input {
        Input { source: None, records: OnceLock::from(records) }
    }

    /// The records of a text, which is lexed when they are first used.
    pub(crate) fn of_source(source: Source) -> Input {
        Input { source: Some(source), records: OnceLock::new() }
    }

    /// The text whose records these are, if they are a text's.
    pub(crate) fn source(&self) -> Option<&Source> {
        self.source.as_ref()
    }

    pub(crate) fn records(&self) -> &[Record] {
        self.records.get_or_init(|| self.source.as_ref().map_or(Vec::new(), Source::records))
    }

    /// The records, to be changed: then they are no text's.
    fn records_mut(&mut self) -> &mut Vec<Record> {
        self.records();
        self.source = None;
        self.records.get_mut().expect("the records were asked for")
    }

    fn push_record(&mut self, kind: SyntaxKind, contextual_kind: SyntaxKind, edition: Edition) {
        let (kind, contextual_kind) = (kind as u32, contextual_kind as u32);
        self.records_mut().push(Record { kind, contextual_kind, edition: edition.year(), joint: 0 });
    }
}
