//! Script sources: the shebang and the frontmatter that may stand before the code.
//!
//! In the Rust crate this module is not public.
use crate::sys::{self, Part, check_status};
use std::error::Error;
use std::fmt;
use std::ops::Range;

/// A range of bytes of a text.
pub type Span = Range<usize>;

/// A text that begins with a shebang, a frontmatter, both or neither, divided into its parts. Spans are in bytes.
///
/// ```
/// use ra_ap_parser::frontmatter::ScriptSource;
///
/// let script = ScriptSource::parse("#!/bin/x\n---cargo\n[package]\n---\nfn main() {}\n").unwrap();
/// assert_eq!(script.shebang(), Some("#!/bin/x\n"));
/// assert_eq!(script.info(), Some("cargo"));
/// assert_eq!(script.frontmatter(), Some("[package]\n"));
/// assert_eq!(script.content(), "fn main() {}\n");
/// ```
#[derive(Debug)]
pub struct ScriptSource<'s> {
    raw: &'s str,
    shebang: Option<Span>,
    open: Option<Span>,
    info: Option<Span>,
    frontmatter: Option<Span>,
    close: Option<Span>,
    content: Span,
}

impl<'s> ScriptSource<'s> {
    /// Divides the text into a shebang, a frontmatter and its content.
    ///
    /// # Errors
    ///
    /// A frontmatter is refused if fewer than three dashes open it, if no line closes it, if more or fewer dashes close
    /// it, if something else stands on the closing line, and if a second one follows.
    ///
    /// # Panics
    ///
    /// If the call is out of memory.
    ///
    /// ```
    /// use ra_ap_parser::frontmatter::ScriptSource;
    ///
    /// assert!(ScriptSource::parse("---\n---\n").is_ok());
    /// let error = ScriptSource::parse("---\nfn main() {}").unwrap_err();
    /// assert_eq!(error.message(), "unclosed frontmatter; expected `---`");
    /// ```
    pub fn parse(raw: &'s str) -> Result<ScriptSource<'s>, FrontmatterError> {
        let filled = sys::script(raw);
        check_status(filled.status, &[sys::NO_SCRIPT]);
        let mut spans = filled.steps.iter().map(span_of);
        let mut next = || spans.next().flatten();
        if filled.status == sys::NO_SCRIPT {
            let message = String::from_utf8(filled.messages).expect("messages are UTF-8");
            let primary_span = next().expect("a refusal is about a span");
            return Err(FrontmatterError { message, primary_span, visible_spans: spans.flatten().collect() });
        }
        Ok(ScriptSource {
            raw,
            shebang: next(),
            open: next(),
            info: next(),
            frontmatter: next(),
            close: next(),
            content: next().expect("a script source has a content"),
        })
    }

    fn slice(&self, span: &Option<Span>) -> Option<&'s str> {
        span.clone().map(|span| &self.raw[span])
    }

    /// The line that starts with `#!`, with its line feed.
    ///
    /// ```
    /// use ra_ap_parser::frontmatter::ScriptSource;
    ///
    /// let script = ScriptSource::parse("#!x\n---a\nb\n---\nc").unwrap();
    /// assert_eq!(script.shebang(), Some("#!x\n"));
    /// ```
    #[must_use]
    pub fn shebang(&self) -> Option<&'s str> {
        self.slice(&self.shebang)
    }

    /// Where the shebang stands.
    ///
    /// ```
    /// use ra_ap_parser::frontmatter::ScriptSource;
    ///
    /// let script = ScriptSource::parse("#!x\n---a\nb\n---\nc").unwrap();
    /// assert_eq!(script.shebang_span(), Some(0..4));
    /// ```
    #[must_use]
    pub fn shebang_span(&self) -> Option<Span> {
        self.shebang.clone()
    }

    /// The dashes that open the frontmatter.
    ///
    /// ```
    /// use ra_ap_parser::frontmatter::ScriptSource;
    ///
    /// let script = ScriptSource::parse("#!x\n---a\nb\n---\nc").unwrap();
    /// assert_eq!(script.open_span(), Some(4..7));
    /// ```
    #[must_use]
    pub fn open_span(&self) -> Option<Span> {
        self.open.clone()
    }

    /// What stands after the opening dashes on their line, without the spaces and tabs around it, if anything does.
    ///
    /// ```
    /// use ra_ap_parser::frontmatter::ScriptSource;
    ///
    /// let script = ScriptSource::parse("#!x\n---a\nb\n---\nc").unwrap();
    /// assert_eq!(script.info(), Some("a"));
    /// ```
    #[must_use]
    pub fn info(&self) -> Option<&'s str> {
        self.slice(&self.info)
    }

    /// Where the info stands.
    ///
    /// ```
    /// use ra_ap_parser::frontmatter::ScriptSource;
    ///
    /// let script = ScriptSource::parse("#!x\n---a\nb\n---\nc").unwrap();
    /// assert_eq!(script.info_span(), Some(7..8));
    /// ```
    #[must_use]
    pub fn info_span(&self) -> Option<Span> {
        self.info.clone()
    }

    /// The lines between the opening and the closing dashes.
    ///
    /// ```
    /// use ra_ap_parser::frontmatter::ScriptSource;
    ///
    /// let script = ScriptSource::parse("#!x\n---a\nb\n---\nc").unwrap();
    /// assert_eq!(script.frontmatter(), Some("b\n"));
    /// ```
    #[must_use]
    pub fn frontmatter(&self) -> Option<&'s str> {
        self.slice(&self.frontmatter)
    }

    /// Where the frontmatter stands.
    ///
    /// ```
    /// use ra_ap_parser::frontmatter::ScriptSource;
    ///
    /// let script = ScriptSource::parse("#!x\n---a\nb\n---\nc").unwrap();
    /// assert_eq!(script.frontmatter_span(), Some(9..11));
    /// ```
    #[must_use]
    pub fn frontmatter_span(&self) -> Option<Span> {
        self.frontmatter.clone()
    }

    /// The dashes that close the frontmatter.
    ///
    /// ```
    /// use ra_ap_parser::frontmatter::ScriptSource;
    ///
    /// let script = ScriptSource::parse("#!x\n---a\nb\n---\nc").unwrap();
    /// assert_eq!(script.close_span(), Some(11..14));
    /// ```
    #[must_use]
    pub fn close_span(&self) -> Option<Span> {
        self.close.clone()
    }

    /// The rest of the text: after the line of the closing dashes, or else after the shebang.
    ///
    /// ```
    /// use ra_ap_parser::frontmatter::ScriptSource;
    ///
    /// let script = ScriptSource::parse("#!x\n---a\nb\n---\nc").unwrap();
    /// assert_eq!(script.content(), "c");
    /// ```
    #[must_use]
    pub fn content(&self) -> &'s str {
        &self.raw[self.content.clone()]
    }

    /// Where the content stands.
    ///
    /// ```
    /// use ra_ap_parser::frontmatter::ScriptSource;
    ///
    /// let script = ScriptSource::parse("#!x\n---a\nb\n---\nc").unwrap();
    /// assert_eq!(script.content_span(), 15..16);
    /// ```
    #[must_use]
    pub fn content_span(&self) -> Span {
        self.content.clone()
    }
}

/// The bytes of a part, if it is there.
fn span_of(part: &Part) -> Option<Span> {
    (part.there == 1).then_some(part.start..part.end)
}

/// The number of bytes, if there are any.
fn some(end: usize) -> Option<usize> {
    (end > 0).then_some(end)
}

/// Where the shebang ends, in bytes, its line feed included: the text starts with `#!`, and what follows does not
/// start, past white space, with `[`, as an inner attribute does.
///
/// ```
/// use ra_ap_parser::frontmatter::strip_shebang;
///
/// assert_eq!([strip_shebang("#!x\ny"), strip_shebang("#![a]")], [Some(4), None]);
/// ```
#[must_use]
pub fn strip_shebang(input: &str) -> Option<usize> {
    some(sys::shebang(input))
}

/// Where the longest run of Rust white space that begins the text and ends with a line feed ends, in bytes.
///
/// ```
/// use ra_ap_parser::frontmatter::strip_ws_lines;
///
/// assert_eq!([strip_ws_lines(" \n \nx"), strip_ws_lines(" x")], [Some(4), None]);
/// ```
#[must_use]
pub fn strip_ws_lines(input: &str) -> Option<usize> {
    some(sys::blank_lines(input))
}

/// Why a text is not a script source: a message, the span of the error, and further spans to show with it.
#[derive(Debug)]
pub struct FrontmatterError {
    message: String,
    primary_span: Span,
    visible_spans: Vec<Span>,
}

impl FrontmatterError {
    /// An error without visible spans.
    ///
    /// ```
    /// use ra_ap_parser::frontmatter::FrontmatterError;
    ///
    /// let error = FrontmatterError::new("why", 1..2);
    /// assert_eq!(error.to_string(), "why");
    /// ```
    #[must_use]
    pub fn new(message: impl Into<String>, span: Span) -> FrontmatterError {
        FrontmatterError { message: message.into(), primary_span: span, visible_spans: Vec::new() }
    }

    /// Adds a span after the visible ones.
    ///
    /// ```
    /// use ra_ap_parser::frontmatter::FrontmatterError;
    ///
    /// let error = FrontmatterError::new("why", 1..2).push_visible_span(3..4);
    /// assert_eq!(error.visible_spans()[0], 3..4);
    /// ```
    #[must_use]
    pub fn push_visible_span(mut self, span: Span) -> FrontmatterError {
        self.visible_spans.push(span);
        self
    }

    /// What is wrong.
    ///
    /// ```
    /// use ra_ap_parser::frontmatter::FrontmatterError;
    ///
    /// assert_eq!(FrontmatterError::new("why", 1..2).message(), "why");
    /// ```
    #[must_use]
    pub fn message(&self) -> &str {
        &self.message
    }

    /// The span of the error.
    ///
    /// ```
    /// use ra_ap_parser::frontmatter::FrontmatterError;
    ///
    /// assert_eq!(FrontmatterError::new("why", 1..2).primary_span(), 1..2);
    /// ```
    #[must_use]
    pub fn primary_span(&self) -> Span {
        self.primary_span.clone()
    }

    /// The spans to show beside the primary one, in the order in which they were pushed.
    ///
    /// ```
    /// use ra_ap_parser::frontmatter::FrontmatterError;
    ///
    /// assert!(FrontmatterError::new("why", 1..2).visible_spans().is_empty());
    /// ```
    #[must_use]
    pub fn visible_spans(&self) -> &[Span] {
        &self.visible_spans
    }
}

impl fmt::Display for FrontmatterError {
    fn fmt(&self, f: &mut fmt::Formatter<'_>) -> fmt::Result {
        f.pad(&self.message)
    }
}

impl Error for FrontmatterError {}
