//! From a lexed text to the parser's input, and from the parser's output back to the text.
use crate::input::Source;
use crate::lexed_str::kind_of;
use crate::output::Tree;
use crate::sys::{self, Filled, check_status};
use crate::{Edition, Input, LexedStr, Output, SyntaxKind};

/// A step of the walk through a tree over a text, from left to right.
///
/// [`LexedStr::intersperse_trivia`] hands them out.
#[derive(Debug)]
pub enum StrStep<'a> {
    /// A leaf of the newest open node: its kind, and its text.
    #[allow(missing_docs)]
    Token { kind: SyntaxKind, text: &'a str },
    /// A node begins inside the newest open one.
    #[allow(missing_docs)]
    Enter { kind: SyntaxKind },
    /// The newest open node ends.
    Exit,
    /// A message, and the byte of the text at which it stands. An `illegal float literal` stands where the float
    /// begins; the Rust crate gives the place of its token.
    #[allow(missing_docs)]
    Error { msg: &'a str, pos: usize },
}

/// Hands steps with places in a text to a sink.
fn hand_out(text: &str, filled: &Filled, sink: &mut dyn FnMut(StrStep<'_>)) {
    // A tree's tokens follow one another from the text's begin on.
    let mut rest = text;
    for step in &filled.steps {
        match step.what {
            sys::ENTER => sink(StrStep::Enter { kind: kind_of(step.kind) }),
            sys::EXIT => sink(StrStep::Exit),
            sys::TOKEN => {
                let (text, behind) = rest.split_at(step.end - step.start);
                rest = behind;
                sink(StrStep::Token { kind: kind_of(step.kind), text });
            }
            _ => sink(StrStep::Error { msg: filled.message(step), pos: step.at }),
        }
    }
}

impl LexedStr<'_> {
    /// What the parser reads: the tokens that are no trivia, in order.
    ///
    /// An identifier has the contextual keyword of its text in this edition, if it has one. A token touches the next
    /// one where that is neither trivia nor an identifier; of a float it is said that its text does not end in a dot,
    /// and of an identifier never that it touches the next token.
    ///
    /// # Panics
    ///
    /// If `edition` is not the text's own and the call is out of memory.
    ///
    /// ```
    /// use ra_ap_parser::{Edition, LexedStr, SyntaxKind, T};
    ///
    /// let input = LexedStr::new(Edition::CURRENT, "union /* of */ U").to_input(Edition::CURRENT);
    /// assert_eq!(input.len(), 2);
    /// assert_eq!((input.kind(0), input.contextual_kind(0)), (SyntaxKind::IDENT, T![union]));
    /// ```
    #[must_use]
    pub fn to_input(&self, edition: Edition) -> Input {
        let source = Source { text: self.as_str().into(), edition: self.edition() };
        if edition == self.edition() {
            return Input::of_source(source);
        }
        let mut records = source.records();
        for record in &mut records {
            record.edition = edition.year();
            // Of all contextual keywords only `dyn` is one in some editions, and a reserved word in the others.
            if record.contextual_kind == SyntaxKind::DYN_KW as u32 {
                record.contextual_kind = SyntaxKind::IDENT as u32;
            }
        }
        Input::of_records(records)
    }

    /// Hands the tree of an output to a sink, with the texts of its leaves and with the trivia that the parser left
    /// out. The answer says whether all tokens of the text were handed out.
    ///
    /// # Panics
    ///
    /// If the output is not exactly one tree over the first tokens of this text, each under its own kind, an identifier
    /// as its contextual keyword or a keyword as an identifier; the Rust crate takes some such outputs. If the call is
    /// out of memory.
    // A sink that is small is put in the place of its calls where this is inlined.
    ///
    /// ```
    /// use ra_ap_parser::{Edition, LexedStr, StrStep, TopEntryPoint};
    ///
    /// let lexed = LexedStr::new(Edition::CURRENT, "1 + 2");
    /// let output = TopEntryPoint::Expr.parse(&lexed.to_input(Edition::CURRENT));
    /// let mut leaves = Vec::new();
    /// let is_all = lexed.intersperse_trivia(&output, &mut |step| {
    ///     if let StrStep::Token { text, .. } = step {
    ///         leaves.push(text.to_owned());
    ///     }
    /// });
    /// assert!(is_all);
    /// assert_eq!(leaves, ["1", " ", "+", " ", "2"]);
    /// ```
    #[inline]
    pub fn intersperse_trivia(&self, output: &Output, sink: &mut dyn FnMut(StrStep<'_>)) -> bool {
        if let Some(tree) = output.tree().filter(|tree| self.is_of(tree)) {
            tree.woven.each(sink);
            return true;
        }
        let filled = sys::weave(self.as_str(), self.edition().year(), output.steps());
        check_status(filled.status, &[sys::NO_STEPS]);
        assert!(filled.status != sys::NO_STEPS, "the output is not one tree over this text");
        hand_out(self.as_str(), &filled, sink);
        filled.steps.last().is_some_and(|step| step.at == self.as_str().len())
    }

    /// Whether the tree is of this text, cut by the same rules.
    fn is_of(&self, tree: &Tree) -> bool {
        self.edition() == tree.source.edition && tree.woven.is_of(self.as_str())
    }
}
