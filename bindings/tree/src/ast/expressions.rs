//! What the parts of expressions are.
use super::tokens::{AstToken, Byte, ByteString, CString, Char, FloatNumber, IntNumber, String};
use super::{ArrayExpr, AstChildren, AstNode, BlockExpr, Expr, FieldExpr, Label, Literal, MacroCall, NameRef};
use super::{TryBlockModifier, support};
use crate::{Edition, SyntaxKind, Token, TopEntryPoint, Tree};

/// What a literal is.
///
/// ```
/// use rap_tree::ast::{AstNode, Literal, LiteralKind};
/// use rap_tree::{Edition, TopEntryPoint, Tree};
///
/// let tree = Tree::of_text(Edition::CURRENT, TopEntryPoint::Expr, "true");
/// assert_eq!(Literal::cast(tree.root()).unwrap().kind(), Some(LiteralKind::Bool(true)));
/// ```
#[derive(Clone, Copy, Debug, PartialEq, Eq, Hash)]
#[allow(missing_docs)]
pub enum LiteralKind<'t> {
    String(String<'t>),
    ByteString(ByteString<'t>),
    CString(CString<'t>),
    IntNumber(IntNumber<'t>),
    FloatNumber(FloatNumber<'t>),
    Char(Char<'t>),
    Byte(Byte<'t>),
    Bool(bool),
}

impl<'t> Literal<'t> {
    /// What it is.
    ///
    /// ```
    /// use rap_tree::ast::{AstNode, AstToken, Literal, LiteralKind};
    /// use rap_tree::{Edition, TopEntryPoint, Tree};
    ///
    /// let tree = Tree::of_text(Edition::CURRENT, TopEntryPoint::Expr, "0x10u8");
    /// let kind = Literal::cast(tree.root()).unwrap().kind();
    /// assert!(matches!(kind, Some(LiteralKind::IntNumber(it)) if it.text() == "0x10u8"));
    /// ```
    #[must_use]
    pub fn kind(self) -> Option<LiteralKind<'t>> {
        let token = self.token()?;
        Some(match token.kind() {
            SyntaxKind::STRING => LiteralKind::String(String::cast(token)?),
            SyntaxKind::BYTE_STRING => LiteralKind::ByteString(ByteString::cast(token)?),
            SyntaxKind::C_STRING => LiteralKind::CString(CString::cast(token)?),
            SyntaxKind::INT_NUMBER => LiteralKind::IntNumber(IntNumber::cast(token)?),
            SyntaxKind::FLOAT_NUMBER => LiteralKind::FloatNumber(FloatNumber::cast(token)?),
            SyntaxKind::CHAR => LiteralKind::Char(Char::cast(token)?),
            SyntaxKind::BYTE => LiteralKind::Byte(Byte::cast(token)?),
            kind => LiteralKind::Bool(kind == SyntaxKind::TRUE_KW),
        })
    }
}

/// What stands before a block.
///
/// ```
/// use rap_tree::ast::{AstNode, BlockExpr, BlockModifier};
/// use rap_tree::{Edition, TopEntryPoint, Tree};
///
/// let tree = Tree::of_text(Edition::CURRENT, TopEntryPoint::Expr, "unsafe { f() }");
/// let modifier = BlockExpr::cast(tree.root()).unwrap().modifier();
/// assert!(matches!(modifier, Some(BlockModifier::Unsafe(token)) if token.text() == "unsafe"));
/// ```
#[derive(Clone, Copy, Debug, PartialEq, Eq, Hash)]
#[allow(missing_docs)]
pub enum BlockModifier<'t> {
    Async(Token<'t>),
    Unsafe(Token<'t>),
    Try(TryBlockModifier<'t>),
    Const(Token<'t>),
    AsyncGen(Token<'t>),
    Gen(Token<'t>),
    Label(Label<'t>),
}

impl<'t> BlockExpr<'t> {
    /// What stands before it.
    ///
    /// ```
    /// use rap_tree::ast::{AstNode, BlockExpr, BlockModifier};
    /// use rap_tree::{Edition, TopEntryPoint, Tree};
    ///
    /// let tree = Tree::of_text(Edition::CURRENT, TopEntryPoint::Expr, "'a: {}");
    /// let modifier = BlockExpr::cast(tree.root()).unwrap().modifier();
    /// assert!(matches!(modifier, Some(BlockModifier::Label(it)) if it.to_string() == "'a:"));
    /// ```
    #[must_use]
    pub fn modifier(self) -> Option<BlockModifier<'t>> {
        match (self.async_token(), self.gen_token()) {
            (Some(it), Some(_)) => return Some(BlockModifier::AsyncGen(it)),
            (Some(it), None) => return Some(BlockModifier::Async(it)),
            (None, Some(it)) => return Some(BlockModifier::Gen(it)),
            (None, None) => {}
        }
        (self.unsafe_token().map(BlockModifier::Unsafe))
            .or_else(|| self.const_token().map(BlockModifier::Const))
            .or_else(|| self.try_block_modifier().map(BlockModifier::Try))
            .or_else(|| self.label().map(BlockModifier::Label))
    }
}

/// How an array is written.
///
/// ```
/// use rap_tree::ast::{ArrayExpr, ArrayExprKind, AstNode};
/// use rap_tree::{Edition, TopEntryPoint, Tree};
///
/// let tree = Tree::of_text(Edition::CURRENT, TopEntryPoint::Expr, "[0; 8]");
/// let ArrayExprKind::Repeat { initializer, repeat } = ArrayExpr::cast(tree.root()).unwrap().kind() else { panic!() };
/// assert_eq!((initializer.unwrap().to_string(), repeat.unwrap().to_string()), ("0".into(), "8".into()));
/// ```
#[derive(Clone, Debug)]
pub enum ArrayExprKind<'t> {
    /// One element, and how many times it is there.
    Repeat {
        /// The element.
        initializer: Option<Expr<'t>>,
        /// How many times it is there.
        repeat: Option<Expr<'t>>,
    },
    /// The elements one by one.
    ElementList(AstChildren<'t, Expr<'t>>),
}

impl<'t> ArrayExpr<'t> {
    /// How it is written.
    ///
    /// ```
    /// use rap_tree::ast::{ArrayExpr, ArrayExprKind, AstNode};
    /// use rap_tree::{Edition, TopEntryPoint, Tree};
    ///
    /// let tree = Tree::of_text(Edition::CURRENT, TopEntryPoint::Expr, "[1, 2]");
    /// let kind = ArrayExpr::cast(tree.root()).unwrap().kind();
    /// assert!(matches!(kind, ArrayExprKind::ElementList(its) if its.clone().count() == 2));
    /// ```
    #[must_use]
    pub fn kind(self) -> ArrayExprKind<'t> {
        match self.semicolon_token() {
            Some(_) => ArrayExprKind::Repeat { initializer: self.exprs().next(), repeat: self.repeat() },
            None => ArrayExprKind::ElementList(self.exprs()),
        }
    }
}

/// A field by its name or by its number.
///
/// ```
/// use rap_tree::ast::{AstNode, FieldExpr, FieldKind};
/// use rap_tree::{Edition, TopEntryPoint, Tree};
///
/// let tree = Tree::of_text(Edition::CURRENT, TopEntryPoint::Expr, "pair.1");
/// let field = FieldExpr::cast(tree.root()).unwrap().field_access();
/// assert!(matches!(field, Some(FieldKind::Index(token)) if token.text() == "1"));
/// ```
#[derive(Clone, Copy, Debug, PartialEq, Eq, Hash)]
pub enum FieldKind<'t> {
    /// Its name.
    Name(NameRef<'t>),
    /// The token of its number.
    Index(Token<'t>),
}

impl<'t> FieldExpr<'t> {
    /// The field.
    ///
    /// ```
    /// use rap_tree::ast::{AstNode, FieldExpr, FieldKind};
    /// use rap_tree::{Edition, TopEntryPoint, Tree};
    ///
    /// let tree = Tree::of_text(Edition::CURRENT, TopEntryPoint::Expr, "p.x");
    /// let field = FieldExpr::cast(tree.root()).unwrap().field_access();
    /// assert!(matches!(field, Some(FieldKind::Name(name)) if name.text() == "x"));
    /// ```
    #[must_use]
    pub fn field_access(self) -> Option<FieldKind<'t>> {
        let name = self.name_ref()?;
        Some(name.int_number_token().map_or(FieldKind::Name(name), FieldKind::Index))
    }
}

impl MacroCall<'_> {
    /// The argument read as an expression, with its brackets: a tuple of `(a, b)`, an array of `[a; n]`, and a block of
    /// `{ a }`. `None` where a message is about it. The tree is of this text alone.
    ///
    /// ```
    /// use rap_tree::ast::{AstNode, MacroCall, TupleExpr};
    /// use rap_tree::{Edition, TopEntryPoint, Tree};
    ///
    /// let tree = Tree::of_text(Edition::CURRENT, TopEntryPoint::Expr, r#"println!("{}", a.b())"#);
    /// let call = tree.root().descendants().find_map(MacroCall::cast).unwrap();
    /// let args = call.args_as_expr(Edition::CURRENT).unwrap();
    /// let args = TupleExpr::cast(args.root()).unwrap().fields().map(|it| it.to_string()).collect::<Vec<_>>();
    /// assert_eq!(args, [r#""{}""#, "a.b()"]);
    /// ```
    #[must_use]
    pub fn args_as_expr(self, edition: Edition) -> Option<Tree> {
        let tree = Tree::of_text(edition, TopEntryPoint::Expr, self.token_tree()?.syntax().text());
        (tree.messages().is_empty() && Expr::can_cast(tree.root().kind())).then_some(tree)
    }
}

impl<'t> super::TokenTree<'t> {
    /// The bracket that it begins with.
    ///
    /// ```
    /// use rap_tree::ast::{AstNode, TokenTree};
    /// use rap_tree::{Edition, TopEntryPoint, Tree};
    ///
    /// let tree = Tree::of_text(Edition::CURRENT, TopEntryPoint::Expr, "vec![1]");
    /// let args = tree.root().descendants().find_map(TokenTree::cast).unwrap();
    /// assert_eq!(args.left_delimiter_token().unwrap().text(), "[");
    /// ```
    #[must_use]
    pub fn left_delimiter_token(self) -> Option<Token<'t>> {
        support::token(self.syntax(), |kind| {
            matches!(kind, SyntaxKind::L_PAREN | SyntaxKind::L_BRACK | SyntaxKind::L_CURLY)
        })
    }
}
