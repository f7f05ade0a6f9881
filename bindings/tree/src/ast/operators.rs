//! Operators by what they do.
use super::{BinExpr, PrefixExpr, RangeExpr, RangePat};
use crate::{SyntaxKind, T};

/// `&&` or `||`.
///
/// ```
/// use rap_tree::ast::{AstNode, BinExpr, BinaryOp, LogicOp};
/// use rap_tree::{Edition, TopEntryPoint, Tree};
///
/// let tree = Tree::of_text(Edition::CURRENT, TopEntryPoint::Expr, "a || b");
/// assert_eq!(BinExpr::cast(tree.root()).unwrap().op_kind(), Some(BinaryOp::LogicOp(LogicOp::Or)));
/// ```
#[derive(Clone, Copy, Debug, PartialEq, Eq, Hash)]
pub enum LogicOp {
    /// `&&`
    And,
    /// `||`
    Or,
}

/// Which side of a comparison is the greater one.
///
/// ```
/// use rap_tree::ast::{AstNode, BinExpr, BinaryOp, CmpOp, Ordering};
/// use rap_tree::{Edition, TopEntryPoint, Tree};
///
/// let tree = Tree::of_text(Edition::CURRENT, TopEntryPoint::Expr, "a <= b");
/// let op = CmpOp::Ord { ordering: Ordering::Less, strict: false };
/// assert_eq!(BinExpr::cast(tree.root()).unwrap().op_kind(), Some(BinaryOp::CmpOp(op)));
/// ```
#[derive(Clone, Copy, Debug, PartialEq, Eq, Hash)]
pub enum Ordering {
    /// `<` or `<=`
    Less,
    /// `>` or `>=`
    Greater,
}

/// A comparison.
///
/// ```
/// use rap_tree::ast::{AstNode, BinExpr, BinaryOp, CmpOp};
/// use rap_tree::{Edition, TopEntryPoint, Tree};
///
/// let tree = Tree::of_text(Edition::CURRENT, TopEntryPoint::Expr, "a != b");
/// let op = BinaryOp::CmpOp(CmpOp::Eq { negated: true });
/// assert_eq!(BinExpr::cast(tree.root()).unwrap().op_kind(), Some(op));
/// ```
#[derive(Clone, Copy, Debug, PartialEq, Eq, Hash)]
pub enum CmpOp {
    /// `==` or `!=`
    Eq {
        /// Whether it is `!=`.
        negated: bool,
    },
    /// `<`, `<=`, `>` or `>=`
    Ord {
        /// Which side is the greater one.
        ordering: Ordering,
        /// Whether the two sides must not be equal.
        strict: bool,
    },
}

/// An operation on numbers or bits, which may also be a part of an assignment.
///
/// ```
/// use rap_tree::ast::{ArithOp, AstNode, BinExpr, BinaryOp};
/// use rap_tree::{Edition, TopEntryPoint, Tree};
///
/// let op = |text| {
///     let tree = Tree::of_text(Edition::CURRENT, TopEntryPoint::Expr, text);
///     BinExpr::cast(tree.root()).unwrap().op_kind()
/// };
/// assert_eq!(op("a << b"), Some(BinaryOp::ArithOp(ArithOp::Shl)));
/// assert_eq!(op("a <<= b"), Some(BinaryOp::Assignment { op: Some(ArithOp::Shl) }));
/// ```
#[derive(Clone, Copy, Debug, PartialEq, Eq, Hash)]
#[allow(missing_docs)]
pub enum ArithOp {
    Add,
    Mul,
    Sub,
    Div,
    Rem,
    Shl,
    Shr,
    BitXor,
    BitOr,
    BitAnd,
}

/// What stands between two operands.
///
/// ```
/// use rap_tree::ast::{AstNode, BinExpr, BinaryOp};
/// use rap_tree::{Edition, TopEntryPoint, Tree};
///
/// let tree = Tree::of_text(Edition::CURRENT, TopEntryPoint::Expr, "a = b");
/// assert_eq!(BinExpr::cast(tree.root()).unwrap().op_kind(), Some(BinaryOp::Assignment { op: None }));
/// ```
#[derive(Clone, Copy, Debug, PartialEq, Eq, Hash)]
pub enum BinaryOp {
    /// `&&` or `||`
    LogicOp(LogicOp),
    /// `+`, `<<` and the like
    ArithOp(ArithOp),
    /// `==`, `<` and the like
    CmpOp(CmpOp),
    /// `=`, or `+=` and the like
    Assignment {
        /// The operation that is a part of it.
        op: Option<ArithOp>,
    },
}

/// What stands before an operand.
///
/// ```
/// use rap_tree::ast::{AstNode, PrefixExpr, UnaryOp};
/// use rap_tree::{Edition, TopEntryPoint, Tree};
///
/// let tree = Tree::of_text(Edition::CURRENT, TopEntryPoint::Expr, "*p");
/// assert_eq!(PrefixExpr::cast(tree.root()).unwrap().op_kind(), Some(UnaryOp::Deref));
/// ```
#[derive(Clone, Copy, Debug, PartialEq, Eq, Hash)]
pub enum UnaryOp {
    /// `*`
    Deref,
    /// `!`
    Not,
    /// `-`
    Neg,
}

/// Whether a range has its end.
///
/// ```
/// use rap_tree::ast::{AstNode, RangeExpr, RangeOp};
/// use rap_tree::{Edition, TopEntryPoint, Tree};
///
/// let tree = Tree::of_text(Edition::CURRENT, TopEntryPoint::Expr, "1..=2");
/// assert_eq!(RangeExpr::cast(tree.root()).unwrap().op_kind(), Some(RangeOp::Inclusive));
/// ```
#[derive(Clone, Copy, Debug, PartialEq, Eq, Hash)]
pub enum RangeOp {
    /// `..`
    Exclusive,
    /// `..=`, or `...` in a pattern
    Inclusive,
}

/// The operation of `+` or `+=`, and the like.
fn arith_op(kind: SyntaxKind) -> Option<ArithOp> {
    Some(match kind {
        T![+] | T![+=] => ArithOp::Add,
        T![*] | T![*=] => ArithOp::Mul,
        T![-] | T![-=] => ArithOp::Sub,
        T![/] | T![/=] => ArithOp::Div,
        T![%] | T![%=] => ArithOp::Rem,
        T![<<] | T![<<=] => ArithOp::Shl,
        T![>>] | T![>>=] => ArithOp::Shr,
        T![^] | T![^=] => ArithOp::BitXor,
        T![|] | T![|=] => ArithOp::BitOr,
        T![&] | T![&=] => ArithOp::BitAnd,
        _ => return None,
    })
}

fn range_op(kind: SyntaxKind) -> RangeOp {
    if kind == T![..] { RangeOp::Exclusive } else { RangeOp::Inclusive }
}

impl BinExpr<'_> {
    /// What it does.
    ///
    /// ```
    /// use rap_tree::ast::{ArithOp, AstNode, BinExpr, BinaryOp};
    /// use rap_tree::{Edition, TopEntryPoint, Tree};
    ///
    /// let tree = Tree::of_text(Edition::CURRENT, TopEntryPoint::Expr, "a % b");
    /// assert_eq!(BinExpr::cast(tree.root()).unwrap().op_kind(), Some(BinaryOp::ArithOp(ArithOp::Rem)));
    /// ```
    #[must_use]
    pub fn op_kind(self) -> Option<BinaryOp> {
        let compared = |ordering, strict| BinaryOp::CmpOp(CmpOp::Ord { ordering, strict });
        let kind = self.op_token()?.kind();
        Some(match kind {
            T![||] => BinaryOp::LogicOp(LogicOp::Or),
            T![&&] => BinaryOp::LogicOp(LogicOp::And),
            T![==] => BinaryOp::CmpOp(CmpOp::Eq { negated: false }),
            T![!=] => BinaryOp::CmpOp(CmpOp::Eq { negated: true }),
            T![<] => compared(Ordering::Less, true),
            T![<=] => compared(Ordering::Less, false),
            T![>] => compared(Ordering::Greater, true),
            T![>=] => compared(Ordering::Greater, false),
            T![=] => BinaryOp::Assignment { op: None },
            T![+] | T![*] | T![-] | T![/] | T![%] | T![<<] | T![>>] | T![^] | T![|] | T![&] => {
                BinaryOp::ArithOp(arith_op(kind)?)
            }
            _ => BinaryOp::Assignment { op: Some(arith_op(kind)?) },
        })
    }
}

impl PrefixExpr<'_> {
    /// What it does.
    ///
    /// ```
    /// use rap_tree::ast::{AstNode, PrefixExpr, UnaryOp};
    /// use rap_tree::{Edition, TopEntryPoint, Tree};
    ///
    /// let tree = Tree::of_text(Edition::CURRENT, TopEntryPoint::Expr, "!a");
    /// assert_eq!(PrefixExpr::cast(tree.root()).unwrap().op_kind(), Some(UnaryOp::Not));
    /// ```
    #[must_use]
    pub fn op_kind(self) -> Option<UnaryOp> {
        Some(match self.op_token()?.kind() {
            T![*] => UnaryOp::Deref,
            T![!] => UnaryOp::Not,
            _ => UnaryOp::Neg,
        })
    }
}

impl RangeExpr<'_> {
    /// Whether it has its end.
    ///
    /// ```
    /// use rap_tree::ast::{AstNode, RangeExpr, RangeOp};
    /// use rap_tree::{Edition, TopEntryPoint, Tree};
    ///
    /// let tree = Tree::of_text(Edition::CURRENT, TopEntryPoint::Expr, "1..");
    /// assert_eq!(RangeExpr::cast(tree.root()).unwrap().op_kind(), Some(RangeOp::Exclusive));
    /// ```
    #[must_use]
    pub fn op_kind(self) -> Option<RangeOp> {
        Some(range_op(self.op_token()?.kind()))
    }
}

impl RangePat<'_> {
    /// Whether it has its end.
    ///
    /// ```
    /// use rap_tree::ast::{AstNode, RangeOp, RangePat};
    /// use rap_tree::{Edition, TopEntryPoint, Tree};
    ///
    /// let tree = Tree::of_text(Edition::CURRENT, TopEntryPoint::Pattern, "1..=2");
    /// assert_eq!(RangePat::cast(tree.root()).unwrap().op_kind(), Some(RangeOp::Inclusive));
    /// ```
    #[must_use]
    pub fn op_kind(self) -> Option<RangeOp> {
        Some(range_op(self.op_token()?.kind()))
    }
}
