//! Where a parse begins.
use crate::output::Tree;
use crate::sys::{self, check_status};
use crate::{Input, Output, SyntaxKind};

/// What a whole text, or the whole expansion of a macro, is read as.
#[derive(Debug)]
pub enum TopEntryPoint {
    /// A file.
    SourceFile,
    /// The statements that a macro expands to.
    MacroStmts,
    /// The items that a macro expands to.
    MacroItems,
    /// A pattern, with its alternatives.
    Pattern,
    /// A type.
    Type,
    /// An expression.
    Expr,
    /// The contents of an attribute's brackets.
    MetaItem,
}

impl TopEntryPoint {
    /// Parses the whole input. The output is one tree over all its tokens.
    ///
    /// Under `Pattern`, `Type` and `Expr` the Rust crate gives no tree for some inputs, as `#[a]`.
    ///
    /// # Panics
    ///
    /// For an input of more than 8,388,607 tokens, if the call is out of memory, and if the system has no addresses for a
    /// stack of 1 KB for each token.
    ///
    /// ```
    /// use ra_ap_parser::{Edition, LexedStr, Step, TopEntryPoint};
    ///
    /// let input = LexedStr::new(Edition::CURRENT, "fn f() {}").to_input(Edition::CURRENT);
    /// let output = TopEntryPoint::SourceFile.parse(&input);
    /// let messages = output.iter().filter(|step| matches!(step, Step::Error { .. }));
    /// assert_eq!(messages.count(), 0);
    /// ```
    #[must_use]
    pub fn parse(&self, input: &Input) -> Output {
        let entry = self.number();
        let Some(source) = input.source() else {
            let filled = sys::parse(input.records(), entry);
            check_status(filled.status, &[]);
            return Output::of_steps(filled);
        };
        let woven = sys::tree(&source.text, source.edition.year(), entry);
        check_status(woven.status, &[]);
        Output::of_tree(Tree { source: source.clone(), entry, woven })
    }

    pub(crate) fn number(&self) -> u32 {
        match self {
            TopEntryPoint::SourceFile => 0,
            TopEntryPoint::MacroStmts => 1,
            TopEntryPoint::MacroItems => 2,
            TopEntryPoint::Pattern => 3,
            TopEntryPoint::Type => 4,
            TopEntryPoint::Expr => 5,
            TopEntryPoint::MetaItem => 6,
        }
    }
}

/// What a prefix of an input is parsed as, as a macro matches it.
#[derive(Debug)]
pub enum PrefixEntryPoint {
    /// A visibility, if there is one.
    Vis,
    /// A block.
    Block,
    /// A statement, without the semicolon after it.
    Stmt,
    /// A pattern without alternatives.
    Pat,
    /// A pattern, with its alternatives.
    PatTop,
    /// A type.
    Ty,
    /// An expression.
    Expr,
    /// A path, as in a type.
    Path,
    /// An item, or a macro call in its place.
    Item,
    /// The contents of an attribute's brackets.
    MetaItem,
}

impl PrefixEntryPoint {
    /// Parses a prefix of the input. The output is one tree, none or several.
    ///
    /// # Panics
    ///
    /// For an input of more than 8,388,607 tokens, if the call is out of memory, and if the system has no addresses for a
    /// stack of 1 KB for each token.
    ///
    /// ```
    /// use ra_ap_parser::{Edition, LexedStr, PrefixEntryPoint, Step};
    ///
    /// let input = LexedStr::new(Edition::CURRENT, "a + b, c").to_input(Edition::CURRENT);
    /// let output = PrefixEntryPoint::Expr.parse(&input);
    /// let tokens = output.iter().filter(|step| matches!(step, Step::Token { .. }));
    /// assert_eq!(tokens.count(), 3);
    /// ```
    #[must_use]
    pub fn parse(&self, input: &Input) -> Output {
        let filled = sys::parse_prefix(input.records(), self.number());
        check_status(filled.status, &[sys::NO_TREE]);
        Output::of_steps(filled)
    }

    fn number(&self) -> u32 {
        match self {
            PrefixEntryPoint::Vis => 0,
            PrefixEntryPoint::Block => 1,
            PrefixEntryPoint::Stmt => 2,
            PrefixEntryPoint::Pat => 3,
            PrefixEntryPoint::PatTop => 4,
            PrefixEntryPoint::Ty => 5,
            PrefixEntryPoint::Expr => 6,
            PrefixEntryPoint::Path => 7,
            PrefixEntryPoint::Item => 8,
            PrefixEntryPoint::MetaItem => 9,
        }
    }
}

/// How a node in braces is parsed again from its own tokens, after an edit inside its braces.
#[derive(Debug)]
pub struct Reparser {
    /// The numbers of the node's kind, of its first child's and of its parent's.
    node: (u32, u32, u32),
}

impl Reparser {
    /// The reparser of such a node, by its kind, that of the first thing in it and that of the node around it; `None`
    /// where it is not parsed again alone.
    ///
    /// # Panics
    ///
    /// If the call is out of memory.
    ///
    /// ```
    /// use ra_ap_parser::{Reparser, SyntaxKind};
    ///
    /// assert!(Reparser::for_node(SyntaxKind::USE_TREE_LIST, None, None).is_some());
    /// assert!(Reparser::for_node(SyntaxKind::FN, None, None).is_none());
    /// ```
    #[must_use]
    pub fn for_node(node: SyntaxKind, first_child: Option<SyntaxKind>, parent: Option<SyntaxKind>) -> Option<Reparser> {
        let number = |kind: Option<SyntaxKind>| kind.map_or(sys::NO_KIND, |kind| kind as u32);
        let node = (number(Some(node)), number(first_child), number(parent));
        let status = sys::parse_node(&[], node).status;
        check_status(status, &[sys::NO_TREE, sys::NO_NODE, sys::NO_BRACE]);
        (status != sys::NO_NODE).then_some(Reparser { node })
    }

    /// Parses the node's tokens.
    ///
    /// # Panics
    ///
    /// If the node is to begin with a `{` and the tokens do not, except for a block, which reports it. For an input of
    /// more than 8,388,607 tokens, if the call is out of memory, and if the system has no addresses for a stack of 1 KB
    /// for each token.
    ///
    /// ```
    /// use ra_ap_parser::{Edition, LexedStr, Reparser, Step, SyntaxKind};
    ///
    /// let reparser = Reparser::for_node(SyntaxKind::USE_TREE_LIST, None, None).unwrap();
    /// let output = reparser.parse(&LexedStr::new(Edition::CURRENT, "{a, b}").to_input(Edition::CURRENT));
    /// assert!(matches!(output.iter().next(), Some(Step::Enter { kind: SyntaxKind::USE_TREE_LIST })));
    /// ```
    #[must_use]
    pub fn parse(self, tokens: &Input) -> Output {
        let filled = sys::parse_node(tokens.records(), self.node);
        check_status(filled.status, &[sys::NO_TREE, sys::NO_BRACE]);
        assert!(filled.status != sys::NO_BRACE, "the node does not begin with a brace");
        Output::of_steps(filled)
    }
}
