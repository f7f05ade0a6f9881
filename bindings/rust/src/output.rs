//! What a parse gives.
use crate::SyntaxKind;
use crate::input::Source;
use crate::lexed_str::kind_of;
use crate::sys::{self, Filled, Woven, check_status};
use std::fmt;
use std::sync::OnceLock;

/// What a parse gives: steps from left to right.
#[derive(Default)]
pub struct Output {
    /// The tree of a whole text, with its trivia, where a top entry read one: of which the steps are made.
    tree: Option<Tree>,
    steps: OnceLock<Filled>,
}

/// The tree of a text, as a top entry reads it.
pub(crate) struct Tree {
    pub(crate) source: Source,
    /// The number of the top entry.
    pub(crate) entry: u32,
    /// The steps with trivia, in words.
    pub(crate) woven: Woven,
}

impl fmt::Debug for Output {
    fn fmt(&self, f: &mut fmt::Formatter<'_>) -> fmt::Result {
        f.debug_list().entries(self.iter()).finish()
    }
}

/// A step of an output.
#[derive(Debug)]
pub enum Step<'a> {
    /// A leaf of the newest open node: its kind, and for how many tokens of the input it stands, from one to three.
    #[allow(missing_docs)]
    Token { kind: SyntaxKind, n_input_tokens: u8 },
    /// A float that is taken apart, as in `x.0.1`. One that ends in a dot ends one node, another one two.
    #[allow(missing_docs)]
    FloatSplit { ends_in_dot: bool },
    /// A node begins inside the newest open one.
    #[allow(missing_docs)]
    Enter { kind: SyntaxKind },
    /// The newest open node ends.
    Exit,
    /// A message.
    #[allow(missing_docs)]
    Error { msg: &'a str },
}

impl Output {
    /// The steps from left to right.
    ///
    /// Of a text's tree they are made at the first call, which panics if it is out of memory.
    ///
    /// ```
    /// use ra_ap_parser::{Edition, LexedStr, Step, SyntaxKind, TopEntryPoint};
    ///
    /// let input = LexedStr::new(Edition::CURRENT, "a >= b").to_input(Edition::CURRENT);
    /// let output = TopEntryPoint::Expr.parse(&input);
    /// let is_operator = |step: &Step| matches!(step, Step::Token { kind: SyntaxKind::GTEQ, n_input_tokens: 2 });
    /// assert_eq!(output.iter().filter(is_operator).count(), 1);
    /// ```
    pub fn iter(&self) -> impl Iterator<Item = Step<'_>> {
        let filled = self.steps();
        filled.steps.iter().map(move |step| match step.what {
            sys::ENTER => Step::Enter { kind: kind_of(step.kind) },
            sys::EXIT => Step::Exit,
            sys::TOKEN => Step::Token { kind: kind_of(step.kind), n_input_tokens: (step.end - step.start) as u8 },
            sys::SPLIT => Step::FloatSplit { ends_in_dot: step.kind == 1 },
            _ => Step::Error { msg: filled.message(step) },
        })
    }

    pub(crate) fn of_steps(filled: Filled) -> Output {
        Output { tree: None, steps: OnceLock::from(filled) }
    }

    pub(crate) fn of_tree(tree: Tree) -> Output {
        Output { tree: Some(tree), steps: OnceLock::new() }
    }

    /// The tree of a whole text, where a top entry read one.
    pub(crate) fn tree(&self) -> Option<&Tree> {
        self.tree.as_ref()
    }

    /// The steps without trivia. Of a text's tree they are made by a parse of the text's records.
    pub(crate) fn steps(&self) -> &Filled {
        self.steps.get_or_init(|| {
            let Some(tree) = &self.tree else { return Filled::default() };
            let filled = sys::parse(&tree.source.records(), tree.entry);
            check_status(filled.status, &[]);
            filled
        })
    }
}
