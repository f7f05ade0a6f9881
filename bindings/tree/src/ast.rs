//! Typed views of nodes, by rust-analyzer's names.
//!
//! A view is a node of a kind: [`Fn`] of `FN`, [`BinExpr`] of `BIN_EXPR`. It has an accessor for each child that the
//! shape of its kind has. A set, as [`Expr`] or [`Item`], is an enum of views. Views are handles that are copied, as
//! nodes are, and each accessor is one way through the children.
//!
//! ```
//! use rap_tree::ast::{self, AstNode, HasName};
//! use rap_tree::{Edition, TopEntryPoint, Tree};
//!
//! let text = "fn f(x: u8) -> bool { x > 1 } mod m { fn g() {} }";
//! let tree = Tree::of_text(Edition::CURRENT, TopEntryPoint::SourceFile, text);
//! let functions: Vec<ast::Fn<'_>> = tree.root().descendants().filter_map(ast::Fn::cast).collect();
//! let names: Vec<_> = functions.iter().filter_map(|it| it.name()).map(|it| it.text()).collect();
//! assert_eq!(names, ["f", "g"]);
//!
//! let param = functions[0].param_list().and_then(|it| it.params().next()).unwrap();
//! assert_eq!((param.pat().unwrap().to_string(), param.ty().unwrap().to_string()), ("x".into(), "u8".into()));
//! ```
//!
//! # What may be missing
//!
//! Any text has a tree, so each accessor of one child is an `Option`, and each of several an iterator. Which children
//! cannot be missing in a node without a message or an `ERROR` right in it is said at each accessor, and in docs/NODES.md
//! of the repository; it is computed from the shapes of nodes, which are proved.
//!
//! `fields.txt` in `crates/rap_base` of the repository says which names are not made of the shapes alone. There is
//! nothing that changes a tree.
use crate::place::Place;
use crate::{Node, SyntaxKind, Tree};
use std::fmt;
use std::iter::FusedIterator;
use std::marker::PhantomData;
use std::ops::Range;

mod expressions;
mod generated;
mod items;
mod names;
mod operators;
mod support;
mod tokens;
mod values;

pub use expressions::{ArrayExprKind, BlockModifier, FieldKind, LiteralKind};
pub use generated::*;
pub use items::{SelfParamKind, StructKind, VisibilityKind};
pub use names::PathSegmentKind;
pub use operators::{ArithOp, BinaryOp, CmpOp, LogicOp, Ordering, RangeOp, UnaryOp};
pub use tokens::{
    AstToken, Byte, ByteString, CString, Char, Comment, FloatNumber, Ident, IntNumber, String, Whitespace,
};
pub use values::Radix;

/// A view of a node: one of a kind, or of one of several kinds.
///
/// ```
/// use rap_tree::ast::{self, AstNode};
/// use rap_tree::{Edition, SyntaxKind, TopEntryPoint, Tree};
///
/// let tree = Tree::of_text(Edition::CURRENT, TopEntryPoint::Expr, "1 + 2");
/// let sum = ast::BinExpr::cast(tree.root()).unwrap();
/// assert_eq!(ast::Expr::from(sum).syntax(), tree.root());
/// assert!(ast::Expr::can_cast(SyntaxKind::BIN_EXPR) && ast::Type::cast(tree.root()).is_none());
/// ```
pub trait AstNode<'t>: Copy {
    /// Whether a node of this kind has the view.
    fn can_cast(kind: SyntaxKind) -> bool;

    /// The view of a node, if its kind has it.
    fn cast(node: Node<'t>) -> Option<Self>;

    /// The node.
    fn syntax(self) -> Node<'t>;
}

/// The children of a node that have a view, from left to right.
///
/// ```
/// use rap_tree::ast::{self, AstNode};
/// use rap_tree::{Edition, TopEntryPoint, Tree};
///
/// let tree = Tree::of_text(Edition::CURRENT, TopEntryPoint::Expr, "f(1, x)");
/// let call = ast::CallExpr::cast(tree.root()).unwrap();
/// let args = ast::HasArgList::arg_list(call).unwrap().args();
/// assert_eq!(args.map(|it| it.to_string()).collect::<Vec<_>>(), ["1", "x"]);
/// ```
#[derive(Clone)]
pub struct AstChildren<'t, N> {
    node: Place<'t>,
    /// The indices of those that were not given out, and of what is inside them.
    rest: Range<u32>,
    of: PhantomData<N>,
}

impl<'t, N> AstChildren<'t, N> {
    #[inline]
    fn of(node: Node<'t>, rest: Range<u32>) -> Self {
        AstChildren { node: node.0, rest, of: PhantomData }
    }
}

impl<'t, N: AstNode<'t>> Iterator for AstChildren<'t, N> {
    type Item = N;

    #[inline]
    fn next(&mut self) -> Option<N> {
        while !self.rest.is_empty() {
            let child = self.node.at(self.rest.start);
            self.rest.start = child.indices().end;
            // No token is of a kind with a view, but for `ERROR`.
            if N::can_cast(child.kind()) && !child.is_token() {
                return N::cast(Node(child));
            }
        }
        None
    }
}

impl<'t, N: AstNode<'t>> FusedIterator for AstChildren<'t, N> {}

impl<'t, N: AstNode<'t> + fmt::Debug> fmt::Debug for AstChildren<'t, N> {
    fn fmt(&self, f: &mut fmt::Formatter<'_>) -> fmt::Result {
        f.debug_list().entries(self.clone()).finish()
    }
}

/// An attribute may stand in any node.
impl<'t> HasAttrs<'t> for Expr<'t> {}

impl Tree {
    /// The file that the tree is of. `None` under an entry for something else.
    ///
    /// ```
    /// use rap_tree::ast::{self, HasModuleItem, HasName};
    /// use rap_tree::{Edition, TopEntryPoint, Tree};
    ///
    /// let tree = Tree::of_text(Edition::CURRENT, TopEntryPoint::SourceFile, "struct S; fn f() {}");
    /// let names = tree.file().unwrap().items().filter_map(|it| match it {
    ///     ast::Item::Fn(it) => it.name(),
    ///     _ => None,
    /// });
    /// assert_eq!(names.map(|it| it.text()).collect::<Vec<_>>(), ["f"]);
    /// ```
    #[must_use]
    pub fn file(&self) -> Option<SourceFile<'_>> {
        SourceFile::cast(self.root())
    }
}

/// The first of several views that a node has, as a `match` over types. The last arm is for a node that has none of
/// them.
///
/// ```
/// use rap_tree::ast::{self, HasName};
/// use rap_tree::{Edition, Node, TopEntryPoint, Tree, match_ast};
///
/// fn word(node: Node<'_>) -> Option<String> {
///     match_ast! {
///         match node {
///             ast::Fn(it) => Some(format!("fn {}", it.name()?)),
///             ast::Adt(it) => Some(format!("type {it}")),
///             _ => None,
///         }
///     }
/// }
///
/// let tree = Tree::of_text(Edition::CURRENT, TopEntryPoint::SourceFile, "fn f() {}struct S;");
/// assert_eq!(tree.root().children().filter_map(word).collect::<Vec<_>>(), ["fn f", "type struct S;"]);
/// ```
#[macro_export]
macro_rules! match_ast {
    (match $node:ident { $($arms:tt)* }) => { $crate::match_ast!(match ($node) { $($arms)* }) };
    (match ($node:expr) { $($($view:ident)::+ ($it:pat) => $then:expr,)* _ => $otherwise:expr $(,)? }) => {{
        let node: $crate::Node<'_> = $node;
        $(if let ::std::option::Option::Some($it) = <$($view)::+<'_> as $crate::ast::AstNode>::cast(node) {
            $then
        } else)* {
            $otherwise
        }
    }};
}
