# Written by crates/rap_base/fields from fields.txt beside it and the shapes of nodes: an edit here is lost.
"""Typed views of nodes, by rust-analyzer's names: a class for each kind of nodes, and for each set of them.

    from rap import ast

    for function in ast.walk(rap.parse('fn f(x: u8) {}').root, ast.Fn):
        print(function.name, [it.ty for it in function.param_list.params] if function.param_list else [])

Where this module is imported, each node of a tree is of the class of its kind: `isinstance(node, ast.Expr)`, and

    match node:
        case ast.MethodCallExpr(receiver=receiver, name_ref=ast.NameRef(text='unwrap')):
            ...

A field of one child is None where it is missing, and one of several is a list. What cannot be missing in a node without
a message or an ERROR right in it is said in docs/NODES.md of the repository. `_fields` has the names of the fields of a
class that are nodes, in the order of the text. A name that all nodes have for something else has a `_` at its end.

When a field of one child or token is asked for first, it is looked for in all nodes of the tree, and what is found is
kept with the tree: four bytes for each node and token."""
from __future__ import annotations

from rap._views import Child as _Child
from rap._views import Children as _Children
from rap._views import Leaf as _Leaf
from rap._views import of, walk
from rap.kinds import Kind
from rap.node import CLASSES, Node

_EXPR = (Kind.BLOCK_EXPR, Kind.RANGE_EXPR, Kind.BIN_EXPR, Kind.REF_EXPR, Kind.PREFIX_EXPR, Kind.CALL_EXPR,
         Kind.INDEX_EXPR, Kind.METHOD_CALL_EXPR, Kind.FIELD_EXPR, Kind.AWAIT_EXPR, Kind.TRY_EXPR, Kind.CAST_EXPR,
         Kind.RECORD_EXPR, Kind.MACRO_EXPR, Kind.PATH_EXPR, Kind.LITERAL, Kind.UNDERSCORE_EXPR, Kind.PAREN_EXPR,
         Kind.TUPLE_EXPR, Kind.ARRAY_EXPR, Kind.CLOSURE_EXPR, Kind.IF_EXPR, Kind.LOOP_EXPR, Kind.WHILE_EXPR,
         Kind.FOR_EXPR, Kind.LET_EXPR, Kind.MATCH_EXPR, Kind.RETURN_EXPR, Kind.BECOME_EXPR, Kind.YIELD_EXPR,
         Kind.YEET_EXPR, Kind.CONTINUE_EXPR, Kind.BREAK_EXPR, Kind.OFFSET_OF_EXPR, Kind.FORMAT_ARGS_EXPR,
         Kind.INCLUDE_BYTES_EXPR, Kind.CFG_PRED_EXPR, Kind.ASM_EXPR)
_PAT = (Kind.OR_PAT, Kind.RANGE_PAT, Kind.REST_PAT, Kind.DEREF_PAT, Kind.CFG_PRED_PAT, Kind.LITERAL_PAT,
        Kind.TUPLE_STRUCT_PAT, Kind.RECORD_PAT, Kind.MACRO_PAT, Kind.PATH_PAT, Kind.WILDCARD_PAT, Kind.REF_PAT,
        Kind.NOT_NULL, Kind.PAREN_PAT, Kind.TUPLE_PAT, Kind.SLICE_PAT, Kind.IDENT_PAT, Kind.BOX_PAT,
        Kind.CONST_BLOCK_PAT)
_TYPE = (Kind.PAREN_TYPE, Kind.TUPLE_TYPE, Kind.NEVER_TYPE, Kind.PTR_TYPE, Kind.SLICE_TYPE, Kind.ARRAY_TYPE,
         Kind.REF_TYPE, Kind.INFER_TYPE, Kind.FN_PTR_TYPE, Kind.FOR_TYPE, Kind.IMPL_TRAIT_TYPE, Kind.DYN_TRAIT_TYPE,
         Kind.MACRO_TYPE, Kind.PATH_TYPE, Kind.PATTERN_TYPE)
_ITEM = (Kind.MACRO_CALL, Kind.ASM_EXPR, Kind.MODULE, Kind.EXTERN_CRATE, Kind.EXTERN_BLOCK, Kind.TYPE_ALIAS,
         Kind.MACRO_RULES, Kind.MACRO_DEF, Kind.FN, Kind.STRUCT, Kind.UNION, Kind.ENUM, Kind.CONST, Kind.STATIC,
         Kind.TRAIT, Kind.IMPL, Kind.USE)
_ASSOC_ITEM = (Kind.MACRO_CALL, Kind.TYPE_ALIAS, Kind.FN, Kind.CONST)
_EXTERN_ITEM = (Kind.MACRO_CALL, Kind.TYPE_ALIAS, Kind.FN, Kind.STATIC)
_STMT = (Kind.LET_STMT, Kind.EXPR_STMT, Kind.MACRO_CALL, Kind.ASM_EXPR, Kind.MODULE, Kind.EXTERN_CRATE,
         Kind.EXTERN_BLOCK, Kind.TYPE_ALIAS, Kind.MACRO_RULES, Kind.MACRO_DEF, Kind.FN, Kind.STRUCT, Kind.UNION,
         Kind.ENUM, Kind.CONST, Kind.STATIC, Kind.TRAIT, Kind.IMPL, Kind.USE)
_FIELD_LIST = (Kind.RECORD_FIELD_LIST, Kind.TUPLE_FIELD_LIST)
_GENERIC_PARAM = (Kind.LIFETIME_PARAM, Kind.TYPE_PARAM, Kind.CONST_PARAM)
_GENERIC_ARG = (Kind.TYPE_ARG, Kind.LIFETIME_ARG, Kind.CONST_ARG, Kind.ASSOC_TYPE_ARG)
_USE_BOUND_GENERIC_ARG = (Kind.NAME_REF, Kind.LIFETIME)
_META = (Kind.UNSAFE_META, Kind.CFG_ATTR_META, Kind.CFG_META, Kind.KEY_VALUE_META, Kind.TOKEN_TREE_META, Kind.PATH_META)
_CFG_PREDICATE = (Kind.CFG_ATOM, Kind.CFG_COMPOSITE)
_ELSE_BRANCH = (Kind.BLOCK_EXPR, Kind.IF_EXPR)
_ASM_OPERAND = (Kind.ASM_REG_OPERAND, Kind.ASM_LABEL, Kind.ASM_CONST, Kind.ASM_SYM)
_ASM_PIECE = (Kind.ASM_CLOBBER_ABI, Kind.ASM_OPTIONS, Kind.ASM_OPERAND_NAMED)


class Expr(Node):
    """One of these: ArrayExpr, AsmExpr, AwaitExpr, BecomeExpr, BinExpr, BlockExpr, BreakExpr, CallExpr, CastExpr,
    CfgPredExpr, ClosureExpr, ContinueExpr, FieldExpr, ForExpr, FormatArgsExpr, IfExpr, IncludeBytesExpr, IndexExpr,
    LetExpr, Literal, LoopExpr, MacroExpr, MatchExpr, MethodCallExpr, OffsetOfExpr, ParenExpr, PathExpr, PrefixExpr,
    RangeExpr, RecordExpr, RefExpr, ReturnExpr, TryExpr, TupleExpr, UnderscoreExpr, WhileExpr, YeetExpr, YieldExpr."""

    __slots__ = ()


class Pat(Node):
    """One of these: BoxPat, CfgPredPat, ConstBlockPat, DerefPat, IdentPat, LiteralPat, MacroPat, NotNull, OrPat,
    ParenPat, PathPat, RangePat, RecordPat, RefPat, RestPat, SlicePat, TuplePat, TupleStructPat, WildcardPat."""

    __slots__ = ()


class Type(Node):
    """One of these: ArrayType, DynTraitType, FnPtrType, ForType, ImplTraitType, InferType, MacroType, NeverType,
    ParenType, PathType, PatternType, PtrType, RefType, SliceType, TupleType."""

    __slots__ = ()


class AssocItem(Node):
    """One of these: Const, Fn, MacroCall, TypeAlias."""

    __slots__ = ()


class ExternItem(Node):
    """One of these: Fn, MacroCall, Static, TypeAlias."""

    __slots__ = ()


class Stmt(Node):
    """One of these: ExprStmt, Item, LetStmt."""

    __slots__ = ()


class Item(Stmt):
    """One of these: AsmExpr, Const, Enum, ExternBlock, ExternCrate, Fn, Impl, MacroCall, MacroDef, MacroRules, Module,
    Static, Struct, Trait, TypeAlias, Union, Use."""

    __slots__ = ()


class Adt(Node):
    """One of these: Enum, Struct, Union."""

    __slots__ = ()


class VariantDef(Node):
    """One of these: Struct, Union, Variant."""

    __slots__ = ()


class FieldList(Node):
    """One of these: RecordFieldList, TupleFieldList."""

    __slots__ = ()


class GenericParam(Node):
    """One of these: ConstParam, LifetimeParam, TypeParam."""

    __slots__ = ()


class GenericArg(Node):
    """One of these: AssocTypeArg, ConstArg, LifetimeArg, TypeArg."""

    __slots__ = ()


class UseBoundGenericArg(Node):
    """One of these: Lifetime, NameRef."""

    __slots__ = ()


class Meta(Node):
    """One of these: CfgAttrMeta, CfgMeta, KeyValueMeta, PathMeta, TokenTreeMeta, UnsafeMeta."""

    __slots__ = ()


class CfgPredicate(Node):
    """One of these: CfgAtom, CfgComposite."""

    __slots__ = ()


class ElseBranch(Node):
    """One of these: BlockExpr, IfExpr."""

    __slots__ = ()


class AsmOperand(Node):
    """One of these: AsmConst, AsmLabel, AsmRegOperand, AsmSym."""

    __slots__ = ()


class AsmPiece(Node):
    """One of these: AsmClobberAbi, AsmOperandNamed, AsmOptions."""

    __slots__ = ()


class Error(Node):
    """`ERROR`: what stands where it must not; one without a message in it is a path in place of an item."""

    __slots__ = ()
    _fields = ('attrs', 'doc_comments', 'path')
    __match_args__ = ('path',)
    attrs: _Children[Attr] = _Children((Kind.ATTR,))
    doc_comments: _Children[DocComment] = _Children((Kind.DOC_COMMENT,))
    path: _Child[Path] = _Child((Kind.PATH,))


class SourceFile(Node):
    """`SOURCE_FILE`: a file."""

    __slots__ = ()
    _fields = ('attrs', 'doc_comments', 'items')
    __match_args__ = ('items',)
    attrs: _Children[Attr] = _Children((Kind.ATTR,))
    doc_comments: _Children[DocComment] = _Children((Kind.DOC_COMMENT,))
    items: _Children[Item] = _Children(_ITEM)
    shebang_token: _Leaf = _Leaf((Kind.SHEBANG,))
    frontmatter_token: _Leaf = _Leaf((Kind.FRONTMATTER,))


class MacroStmts(Node):
    """`MACRO_STMTS`: the statements that a macro gives."""

    __slots__ = ()
    _fields = ('statements', 'expr')
    __match_args__ = ('statements', 'expr')
    statements: _Children[Stmt] = _Children(_STMT)
    expr: _Child[Expr] = _Child(_EXPR)


class MacroItems(Node):
    """`MACRO_ITEMS`: the items that a macro gives."""

    __slots__ = ()
    _fields = ('attrs', 'doc_comments', 'items')
    __match_args__ = ('items',)
    attrs: _Children[Attr] = _Children((Kind.ATTR,))
    doc_comments: _Children[DocComment] = _Children((Kind.DOC_COMMENT,))
    items: _Children[Item] = _Children(_ITEM)


class Name(Node):
    """`NAME`: a name where it is declared."""

    __slots__ = ()
    _fields = ()
    __match_args__ = ()
    ident_token: _Leaf = _Leaf((Kind.IDENT,))
    self_token: _Leaf = _Leaf((Kind.SELF_KW,))


class NameRef(UseBoundGenericArg):
    """`NAME_REF`: a name where it is used: a word, `self` and the like, or the number of a field."""

    __slots__ = ()
    _fields = ()
    __match_args__ = ()
    ident_token: _Leaf = _Leaf((Kind.IDENT,))
    int_number_token: _Leaf = _Leaf((Kind.INT_NUMBER,))
    self_token: _Leaf = _Leaf((Kind.SELF_KW,))
    super_token: _Leaf = _Leaf((Kind.SUPER_KW,))
    crate_token: _Leaf = _Leaf((Kind.CRATE_KW,))
    self_type_token: _Leaf = _Leaf((Kind.SELF_TYPE_KW,))


class Lifetime(UseBoundGenericArg):
    """`LIFETIME`: a lifetime."""

    __slots__ = ()
    _fields = ()
    __match_args__ = ()
    lifetime_ident_token: _Leaf = _Leaf((Kind.LIFETIME_IDENT,))


class Visibility(Node):
    """`VISIBILITY`: who may see what follows."""

    __slots__ = ()
    _fields = ('visibility_inner',)
    __match_args__ = ('visibility_inner',)
    visibility_inner: _Child[VisibilityInner] = _Child((Kind.VISIBILITY_INNER,))
    pub_token: _Leaf = _Leaf((Kind.PUB_KW,))


class VisibilityInner(Node):
    """`VISIBILITY_INNER`: where it is seen or may be used, in brackets."""

    __slots__ = ()
    _fields = ('path',)
    __match_args__ = ('path',)
    path: _Child[Path] = _Child((Kind.PATH,))
    l_paren_token: _Leaf = _Leaf((Kind.L_PAREN,))
    in_token: _Leaf = _Leaf((Kind.IN_KW,))
    r_paren_token: _Leaf = _Leaf((Kind.R_PAREN,))


class Rename(Node):
    """`RENAME`: another name for what is imported."""

    __slots__ = ()
    _fields = ('name',)
    __match_args__ = ('name',)
    name: _Child[Name] = _Child((Kind.NAME,))
    as_token: _Leaf = _Leaf((Kind.AS_KW,))
    underscore_token: _Leaf = _Leaf((Kind.UNDERSCORE,))


class Abi(Node):
    """`ABI`: `extern`, perhaps with the name of an ABI."""

    __slots__ = ()
    _fields = ()
    __match_args__ = ()
    extern_token: _Leaf = _Leaf((Kind.EXTERN_KW,))
    string_token: _Leaf = _Leaf((Kind.STRING,))


class RetType(Node):
    """`RET_TYPE`: the type of what a function returns."""

    __slots__ = ()
    _fields = ('ty',)
    __match_args__ = ('ty',)
    ty: _Child[Type] = _Child(_TYPE)
    thin_arrow_token: _Leaf = _Leaf((Kind.THIN_ARROW,))


class Path(Node):
    """`PATH`: a path: its last segment behind the path before it."""

    __slots__ = ()
    _fields = ('qualifier', 'segment')
    __match_args__ = ('qualifier', 'segment')
    qualifier: _Child[Path] = _Child((Kind.PATH,))
    segment: _Child[PathSegment] = _Child((Kind.PATH_SEGMENT,))
    coloncolon_token: _Leaf = _Leaf((Kind.COLON2,))


class PathSegment(Node):
    """`PATH_SEGMENT`: a segment of a path: a name with its arguments, or a type in angle brackets."""

    __slots__ = ()
    _fields = ('type_anchor', 'name_ref', 'generic_arg_list', 'return_type_syntax', 'parenthesized_arg_list',
               'ret_type')
    __match_args__ = ('type_anchor', 'name_ref', 'generic_arg_list', 'return_type_syntax', 'parenthesized_arg_list',
                      'ret_type')
    type_anchor: _Child[TypeAnchor] = _Child((Kind.TYPE_ANCHOR,))
    name_ref: _Child[NameRef] = _Child((Kind.NAME_REF,))
    generic_arg_list: _Child[GenericArgList] = _Child((Kind.GENERIC_ARG_LIST,))
    return_type_syntax: _Child[ReturnTypeSyntax] = _Child((Kind.RETURN_TYPE_SYNTAX,))
    parenthesized_arg_list: _Child[ParenthesizedArgList] = _Child((Kind.PARENTHESIZED_ARG_LIST,))
    ret_type: _Child[RetType] = _Child((Kind.RET_TYPE,))
    coloncolon_token: _Leaf = _Leaf((Kind.COLON2,))


class TypeAnchor(Node):
    """`TYPE_ANCHOR`: a type in angle brackets that a path begins with, perhaps as a trait."""

    __slots__ = ()
    _fields = ('ty', 'path_type')
    __match_args__ = ('ty', 'path_type')
    ty: _Child[Type] = _Child(_TYPE, 'before', 'as_token')
    path_type: _Child[Type] = _Child(_TYPE, 'after', 'as_token')
    l_angle_token: _Leaf = _Leaf((Kind.L_ANGLE,))
    as_token: _Leaf = _Leaf((Kind.AS_KW,))
    r_angle_token: _Leaf = _Leaf((Kind.R_ANGLE,))


class ReturnTypeSyntax(Node):
    """`RETURN_TYPE_SYNTAX`: `(..)` behind a method, for the type that it returns."""

    __slots__ = ()
    _fields = ()
    __match_args__ = ()
    coloncolon_token: _Leaf = _Leaf((Kind.COLON2,))
    l_paren_token: _Leaf = _Leaf((Kind.L_PAREN,))
    dotdot_token: _Leaf = _Leaf((Kind.DOT2,))
    r_paren_token: _Leaf = _Leaf((Kind.R_PAREN,))


class ParenthesizedArgList(Node):
    """`PARENTHESIZED_ARG_LIST`: arguments in brackets, as `Fn(A, B)` has them."""

    __slots__ = ()
    _fields = ('type_args',)
    __match_args__ = ('type_args',)
    type_args: _Children[TypeArg] = _Children((Kind.TYPE_ARG,))
    coloncolon_token: _Leaf = _Leaf((Kind.COLON2,))
    l_paren_token: _Leaf = _Leaf((Kind.L_PAREN,))
    r_paren_token: _Leaf = _Leaf((Kind.R_PAREN,))


class LetStmt(Stmt):
    """`LET_STMT`: a declaration of variables."""

    __slots__ = ()
    _fields = ('attrs', 'doc_comments', 'pat', 'ty', 'initializer', 'let_else')
    __match_args__ = ('pat', 'ty', 'initializer', 'let_else')
    attrs: _Children[Attr] = _Children((Kind.ATTR,))
    doc_comments: _Children[DocComment] = _Children((Kind.DOC_COMMENT,))
    pat: _Child[Pat] = _Child(_PAT)
    ty: _Child[Type] = _Child(_TYPE)
    initializer: _Child[Expr] = _Child(_EXPR)
    let_else: _Child[LetElse] = _Child((Kind.LET_ELSE,))
    super_token: _Leaf = _Leaf((Kind.SUPER_KW,))
    let_token: _Leaf = _Leaf((Kind.LET_KW,))
    colon_token: _Leaf = _Leaf((Kind.COLON,))
    eq_token: _Leaf = _Leaf((Kind.EQ,))
    semicolon_token: _Leaf = _Leaf((Kind.SEMICOLON,))


class ExprStmt(Stmt):
    """`EXPR_STMT`: an expression as a statement."""

    __slots__ = ()
    _fields = ('expr',)
    __match_args__ = ('expr',)
    expr: _Child[Expr] = _Child(_EXPR)
    semicolon_token: _Leaf = _Leaf((Kind.SEMICOLON,))


class LetElse(Node):
    """`LET_ELSE`: what is done where the pattern does not match."""

    __slots__ = ()
    _fields = ('block_expr',)
    __match_args__ = ('block_expr',)
    block_expr: _Child[BlockExpr] = _Child((Kind.BLOCK_EXPR,))
    else_token: _Leaf = _Leaf((Kind.ELSE_KW,))


class StmtList(Node):
    """`STMT_LIST`: the statements of a block."""

    __slots__ = ()
    _fields = ('attrs', 'doc_comments', 'statements', 'tail_expr')
    __match_args__ = ('statements', 'tail_expr')
    attrs: _Children[Attr] = _Children((Kind.ATTR,))
    doc_comments: _Children[DocComment] = _Children((Kind.DOC_COMMENT,))
    statements: _Children[Stmt] = _Children(_STMT)
    tail_expr: _Child[Expr] = _Child(_EXPR)
    l_curly_token: _Leaf = _Leaf((Kind.L_CURLY,))
    r_curly_token: _Leaf = _Leaf((Kind.R_CURLY,))


class BlockExpr(ElseBranch, Expr):
    """`BLOCK_EXPR`: a block, perhaps with a label, or with words as `unsafe` or `async`."""

    __slots__ = ()
    _fields = ('attrs', 'doc_comments', 'label', 'try_block_modifier', 'stmt_list')
    __match_args__ = ('label', 'try_block_modifier', 'stmt_list')
    attrs: _Children[Attr] = _Children((Kind.ATTR,))
    doc_comments: _Children[DocComment] = _Children((Kind.DOC_COMMENT,))
    label: _Child[Label] = _Child((Kind.LABEL,))
    try_block_modifier: _Child[TryBlockModifier] = _Child((Kind.TRY_BLOCK_MODIFIER,))
    stmt_list: _Child[StmtList] = _Child((Kind.STMT_LIST,))
    unsafe_token: _Leaf = _Leaf((Kind.UNSAFE_KW,))
    const_token: _Leaf = _Leaf((Kind.CONST_KW,))
    async_token: _Leaf = _Leaf((Kind.ASYNC_KW,))
    gen_token: _Leaf = _Leaf((Kind.GEN_KW,))
    move_token: _Leaf = _Leaf((Kind.MOVE_KW,))


class Label(Node):
    """`LABEL`: the label of a block or a loop."""

    __slots__ = ()
    _fields = ('lifetime',)
    __match_args__ = ('lifetime',)
    lifetime: _Child[Lifetime] = _Child((Kind.LIFETIME,))
    colon_token: _Leaf = _Leaf((Kind.COLON,))


class TryBlockModifier(Node):
    """`TRY_BLOCK_MODIFIER`: `try` before a block."""

    __slots__ = ()
    _fields = ('ty',)
    __match_args__ = ('ty',)
    ty: _Child[Type] = _Child(_TYPE)
    try_token: _Leaf = _Leaf((Kind.TRY_KW,))
    bikeshed_token: _Leaf = _Leaf((Kind.BIKESHED_KW,))


class RangeExpr(Expr):
    """`RANGE_EXPR`: a range, of which either end may be missing."""

    __slots__ = ()
    _fields = ('attrs', 'doc_comments', 'start', 'end')
    __match_args__ = ('start', 'end')
    attrs: _Children[Attr] = _Children((Kind.ATTR,))
    doc_comments: _Children[DocComment] = _Children((Kind.DOC_COMMENT,))
    start: _Child[Expr] = _Child(_EXPR, 'before', 'op_token')
    end: _Child[Expr] = _Child(_EXPR, 'after', 'op_token')
    op_token: _Leaf = _Leaf((Kind.DOT2, Kind.DOT2EQ))


class BinExpr(Expr):
    """`BIN_EXPR`: an operator between two expressions."""

    __slots__ = ()
    _fields = ('lhs', 'rhs')
    __match_args__ = ('lhs', 'rhs')
    lhs: _Child[Expr] = _Child(_EXPR, 'before', 'op_token')
    rhs: _Child[Expr] = _Child(_EXPR, 'after', 'op_token')
    op_token: _Leaf = _Leaf((
        Kind.L_ANGLE, Kind.R_ANGLE, Kind.AMP, Kind.PIPE, Kind.PLUS, Kind.STAR, Kind.SLASH, Kind.CARET, Kind.PERCENT,
        Kind.EQ, Kind.MINUS, Kind.EQ2, Kind.NEQ, Kind.LTEQ, Kind.GTEQ, Kind.PLUSEQ, Kind.MINUSEQ, Kind.PIPEEQ,
        Kind.AMPEQ, Kind.CARETEQ, Kind.SLASHEQ, Kind.STAREQ, Kind.PERCENTEQ, Kind.AMP2, Kind.PIPE2, Kind.SHL, Kind.SHR,
        Kind.SHLEQ, Kind.SHREQ))


class RefExpr(Expr):
    """`REF_EXPR`: a reference, or a raw pointer."""

    __slots__ = ()
    _fields = ('attrs', 'doc_comments', 'expr')
    __match_args__ = ('expr',)
    attrs: _Children[Attr] = _Children((Kind.ATTR,))
    doc_comments: _Children[DocComment] = _Children((Kind.DOC_COMMENT,))
    expr: _Child[Expr] = _Child(_EXPR)
    amp_token: _Leaf = _Leaf((Kind.AMP,))
    raw_token: _Leaf = _Leaf((Kind.RAW_KW,))
    mut_token: _Leaf = _Leaf((Kind.MUT_KW,))
    const_token: _Leaf = _Leaf((Kind.CONST_KW,))


class PrefixExpr(Expr):
    """`PREFIX_EXPR`: a sign before an expression."""

    __slots__ = ()
    _fields = ('attrs', 'doc_comments', 'expr')
    __match_args__ = ('expr',)
    attrs: _Children[Attr] = _Children((Kind.ATTR,))
    doc_comments: _Children[DocComment] = _Children((Kind.DOC_COMMENT,))
    expr: _Child[Expr] = _Child(_EXPR)
    op_token: _Leaf = _Leaf((Kind.STAR, Kind.BANG, Kind.MINUS))


class CallExpr(Expr):
    """`CALL_EXPR`: a call."""

    __slots__ = ()
    _fields = ('attrs', 'doc_comments', 'expr', 'arg_list')
    __match_args__ = ('expr', 'arg_list')
    attrs: _Children[Attr] = _Children((Kind.ATTR,))
    doc_comments: _Children[DocComment] = _Children((Kind.DOC_COMMENT,))
    expr: _Child[Expr] = _Child(_EXPR)
    arg_list: _Child[ArgList] = _Child((Kind.ARG_LIST,))


class IndexExpr(Expr):
    """`INDEX_EXPR`: an element by its index."""

    __slots__ = ()
    _fields = ('attrs', 'doc_comments', 'base', 'index_')
    __match_args__ = ('base', 'index_')
    attrs: _Children[Attr] = _Children((Kind.ATTR,))
    doc_comments: _Children[DocComment] = _Children((Kind.DOC_COMMENT,))
    base: _Child[Expr] = _Child(_EXPR, 'before', 'l_brack_token')
    index_: _Child[Expr] = _Child(_EXPR, 'after', 'l_brack_token')
    l_brack_token: _Leaf = _Leaf((Kind.L_BRACK,))
    r_brack_token: _Leaf = _Leaf((Kind.R_BRACK,))


class MethodCallExpr(Expr):
    """`METHOD_CALL_EXPR`: a call of a method."""

    __slots__ = ()
    _fields = ('attrs', 'doc_comments', 'receiver', 'name_ref', 'generic_arg_list', 'arg_list')
    __match_args__ = ('receiver', 'name_ref', 'generic_arg_list', 'arg_list')
    attrs: _Children[Attr] = _Children((Kind.ATTR,))
    doc_comments: _Children[DocComment] = _Children((Kind.DOC_COMMENT,))
    receiver: _Child[Expr] = _Child(_EXPR)
    name_ref: _Child[NameRef] = _Child((Kind.NAME_REF,))
    generic_arg_list: _Child[GenericArgList] = _Child((Kind.GENERIC_ARG_LIST,))
    arg_list: _Child[ArgList] = _Child((Kind.ARG_LIST,))
    dot_token: _Leaf = _Leaf((Kind.DOT,))


class FieldExpr(Expr):
    """`FIELD_EXPR`: a field by its name or its number."""

    __slots__ = ()
    _fields = ('attrs', 'doc_comments', 'expr', 'name_ref')
    __match_args__ = ('expr', 'name_ref')
    attrs: _Children[Attr] = _Children((Kind.ATTR,))
    doc_comments: _Children[DocComment] = _Children((Kind.DOC_COMMENT,))
    expr: _Child[Expr] = _Child(_EXPR)
    name_ref: _Child[NameRef] = _Child((Kind.NAME_REF,))
    dot_token: _Leaf = _Leaf((Kind.DOT,))


class AwaitExpr(Expr):
    """`AWAIT_EXPR`: a future that is awaited."""

    __slots__ = ()
    _fields = ('attrs', 'doc_comments', 'expr')
    __match_args__ = ('expr',)
    attrs: _Children[Attr] = _Children((Kind.ATTR,))
    doc_comments: _Children[DocComment] = _Children((Kind.DOC_COMMENT,))
    expr: _Child[Expr] = _Child(_EXPR)
    dot_token: _Leaf = _Leaf((Kind.DOT,))
    await_token: _Leaf = _Leaf((Kind.AWAIT_KW,))


class TryExpr(Expr):
    """`TRY_EXPR`: `?` behind an expression."""

    __slots__ = ()
    _fields = ('attrs', 'doc_comments', 'expr')
    __match_args__ = ('expr',)
    attrs: _Children[Attr] = _Children((Kind.ATTR,))
    doc_comments: _Children[DocComment] = _Children((Kind.DOC_COMMENT,))
    expr: _Child[Expr] = _Child(_EXPR)
    question_mark_token: _Leaf = _Leaf((Kind.QUESTION,))


class CastExpr(Expr):
    """`CAST_EXPR`: a value as another type."""

    __slots__ = ()
    _fields = ('expr', 'ty')
    __match_args__ = ('expr', 'ty')
    expr: _Child[Expr] = _Child(_EXPR)
    ty: _Child[Type] = _Child(_TYPE)
    as_token: _Leaf = _Leaf((Kind.AS_KW,))


class ArgList(Node):
    """`ARG_LIST`: the arguments of a call."""

    __slots__ = ()
    _fields = ('args',)
    __match_args__ = ('args',)
    args: _Children[Expr] = _Children(_EXPR)
    l_paren_token: _Leaf = _Leaf((Kind.L_PAREN,))
    r_paren_token: _Leaf = _Leaf((Kind.R_PAREN,))


class RecordExpr(Expr):
    """`RECORD_EXPR`: a value of a structure."""

    __slots__ = ()
    _fields = ('attrs', 'doc_comments', 'path', 'record_expr_field_list')
    __match_args__ = ('path', 'record_expr_field_list')
    attrs: _Children[Attr] = _Children((Kind.ATTR,))
    doc_comments: _Children[DocComment] = _Children((Kind.DOC_COMMENT,))
    path: _Child[Path] = _Child((Kind.PATH,))
    record_expr_field_list: _Child[RecordExprFieldList] = _Child((Kind.RECORD_EXPR_FIELD_LIST,))


class RecordExprField(Node):
    """`RECORD_EXPR_FIELD`: a field with its value, or a variable of the same name."""

    __slots__ = ()
    _fields = ('attrs', 'doc_comments', 'name_ref', 'expr')
    __match_args__ = ('name_ref', 'expr')
    attrs: _Children[Attr] = _Children((Kind.ATTR,))
    doc_comments: _Children[DocComment] = _Children((Kind.DOC_COMMENT,))
    name_ref: _Child[NameRef] = _Child((Kind.NAME_REF,))
    expr: _Child[Expr] = _Child(_EXPR)
    colon_token: _Leaf = _Leaf((Kind.COLON,))


class RecordExprFieldList(Node):
    """`RECORD_EXPR_FIELD_LIST`: its fields, and `..` with the value that the others are taken from."""

    __slots__ = ()
    _fields = ('fields', 'attrs', 'doc_comments', 'spread')
    __match_args__ = ('fields', 'spread')
    fields: _Children[RecordExprField] = _Children((Kind.RECORD_EXPR_FIELD,))
    attrs: _Children[Attr] = _Children((Kind.ATTR,))
    doc_comments: _Children[DocComment] = _Children((Kind.DOC_COMMENT,))
    spread: _Child[Expr] = _Child(_EXPR)
    l_curly_token: _Leaf = _Leaf((Kind.L_CURLY,))
    dotdot_token: _Leaf = _Leaf((Kind.DOT2,))
    r_curly_token: _Leaf = _Leaf((Kind.R_CURLY,))


class MacroCall(AssocItem, ExternItem, Item):
    """`MACRO_CALL`: a call of a macro."""

    __slots__ = ()
    _fields = ('attrs', 'doc_comments', 'path', 'token_tree')
    __match_args__ = ('path', 'token_tree')
    attrs: _Children[Attr] = _Children((Kind.ATTR,))
    doc_comments: _Children[DocComment] = _Children((Kind.DOC_COMMENT,))
    path: _Child[Path] = _Child((Kind.PATH,))
    token_tree: _Child[TokenTree] = _Child((Kind.TOKEN_TREE,))
    excl_token: _Leaf = _Leaf((Kind.BANG,))
    semicolon_token: _Leaf = _Leaf((Kind.SEMICOLON,))


class MacroExpr(Expr):
    """`MACRO_EXPR`: a call of a macro as an expression."""

    __slots__ = ()
    _fields = ('attrs', 'doc_comments', 'macro_call')
    __match_args__ = ('macro_call',)
    attrs: _Children[Attr] = _Children((Kind.ATTR,))
    doc_comments: _Children[DocComment] = _Children((Kind.DOC_COMMENT,))
    macro_call: _Child[MacroCall] = _Child((Kind.MACRO_CALL,))


class PathExpr(Expr):
    """`PATH_EXPR`: a path as an expression."""

    __slots__ = ()
    _fields = ('attrs', 'doc_comments', 'path')
    __match_args__ = ('path',)
    attrs: _Children[Attr] = _Children((Kind.ATTR,))
    doc_comments: _Children[DocComment] = _Children((Kind.DOC_COMMENT,))
    path: _Child[Path] = _Child((Kind.PATH,))


class Literal(Expr):
    """`LITERAL`: a literal."""

    __slots__ = ()
    _fields = ('attrs', 'doc_comments')
    __match_args__ = ()
    attrs: _Children[Attr] = _Children((Kind.ATTR,))
    doc_comments: _Children[DocComment] = _Children((Kind.DOC_COMMENT,))
    token: _Leaf = _Leaf((
        Kind.FALSE_KW, Kind.TRUE_KW, Kind.INT_NUMBER, Kind.FLOAT_NUMBER, Kind.CHAR, Kind.BYTE, Kind.STRING,
        Kind.BYTE_STRING, Kind.C_STRING))


class UnderscoreExpr(Expr):
    """`UNDERSCORE_EXPR`: `_` as an expression."""

    __slots__ = ()
    _fields = ('attrs', 'doc_comments')
    __match_args__ = ()
    attrs: _Children[Attr] = _Children((Kind.ATTR,))
    doc_comments: _Children[DocComment] = _Children((Kind.DOC_COMMENT,))
    underscore_token: _Leaf = _Leaf((Kind.UNDERSCORE,))


class ParenExpr(Expr):
    """`PAREN_EXPR`: an expression in brackets."""

    __slots__ = ()
    _fields = ('attrs', 'doc_comments', 'expr')
    __match_args__ = ('expr',)
    attrs: _Children[Attr] = _Children((Kind.ATTR,))
    doc_comments: _Children[DocComment] = _Children((Kind.DOC_COMMENT,))
    expr: _Child[Expr] = _Child(_EXPR)
    l_paren_token: _Leaf = _Leaf((Kind.L_PAREN,))
    r_paren_token: _Leaf = _Leaf((Kind.R_PAREN,))


class TupleExpr(Expr):
    """`TUPLE_EXPR`: a tuple."""

    __slots__ = ()
    _fields = ('attrs', 'doc_comments', 'fields')
    __match_args__ = ('fields',)
    attrs: _Children[Attr] = _Children((Kind.ATTR,))
    doc_comments: _Children[DocComment] = _Children((Kind.DOC_COMMENT,))
    fields: _Children[Expr] = _Children(_EXPR)
    l_paren_token: _Leaf = _Leaf((Kind.L_PAREN,))
    r_paren_token: _Leaf = _Leaf((Kind.R_PAREN,))


class ArrayExpr(Expr):
    """`ARRAY_EXPR`: an array: its elements, or one and how many."""

    __slots__ = ()
    _fields = ('attrs', 'doc_comments', 'exprs', 'repeat')
    __match_args__ = ('exprs', 'repeat')
    attrs: _Children[Attr] = _Children((Kind.ATTR,))
    doc_comments: _Children[DocComment] = _Children((Kind.DOC_COMMENT,))
    exprs: _Children[Expr] = _Children(_EXPR, 'before', 'semicolon_token')
    repeat: _Child[Expr] = _Child(_EXPR, 'after', 'semicolon_token')
    l_brack_token: _Leaf = _Leaf((Kind.L_BRACK,))
    semicolon_token: _Leaf = _Leaf((Kind.SEMICOLON,))
    r_brack_token: _Leaf = _Leaf((Kind.R_BRACK,))


class ClosureExpr(Expr):
    """`CLOSURE_EXPR`: a closure."""

    __slots__ = ()
    _fields = ('attrs', 'doc_comments', 'for_binder', 'param_list', 'ret_type', 'body')
    __match_args__ = ('for_binder', 'param_list', 'ret_type', 'body')
    attrs: _Children[Attr] = _Children((Kind.ATTR,))
    doc_comments: _Children[DocComment] = _Children((Kind.DOC_COMMENT,))
    for_binder: _Child[ForBinder] = _Child((Kind.FOR_BINDER,))
    param_list: _Child[ParamList] = _Child((Kind.PARAM_LIST,))
    ret_type: _Child[RetType] = _Child((Kind.RET_TYPE,))
    body: _Child[Expr] = _Child(_EXPR)
    const_token: _Leaf = _Leaf((Kind.CONST_KW,))
    static_token: _Leaf = _Leaf((Kind.STATIC_KW,))
    async_token: _Leaf = _Leaf((Kind.ASYNC_KW,))
    gen_token: _Leaf = _Leaf((Kind.GEN_KW,))
    move_token: _Leaf = _Leaf((Kind.MOVE_KW,))


class IfExpr(ElseBranch, Expr):
    """`IF_EXPR`: a choice by a condition."""

    __slots__ = ()
    _fields = ('attrs', 'doc_comments', 'condition', 'then_branch', 'else_branch')
    __match_args__ = ('condition', 'then_branch', 'else_branch')
    attrs: _Children[Attr] = _Children((Kind.ATTR,))
    doc_comments: _Children[DocComment] = _Children((Kind.DOC_COMMENT,))
    condition: _Child[Expr] = _Child(_EXPR, 'before', 'then_branch')
    then_branch: _Child[BlockExpr] = _Child((Kind.BLOCK_EXPR,), 'before', 'else_token', last=True)
    else_branch: _Child[ElseBranch] = _Child(_ELSE_BRANCH, 'after', 'else_token')
    if_token: _Leaf = _Leaf((Kind.IF_KW,))
    else_token: _Leaf = _Leaf((Kind.ELSE_KW,))


class LoopExpr(Expr):
    """`LOOP_EXPR`: a loop without an end."""

    __slots__ = ()
    _fields = ('attrs', 'doc_comments', 'label', 'loop_body')
    __match_args__ = ('label', 'loop_body')
    attrs: _Children[Attr] = _Children((Kind.ATTR,))
    doc_comments: _Children[DocComment] = _Children((Kind.DOC_COMMENT,))
    label: _Child[Label] = _Child((Kind.LABEL,))
    loop_body: _Child[BlockExpr] = _Child((Kind.BLOCK_EXPR,))
    loop_token: _Leaf = _Leaf((Kind.LOOP_KW,))


class WhileExpr(Expr):
    """`WHILE_EXPR`: a loop by a condition."""

    __slots__ = ()
    _fields = ('attrs', 'doc_comments', 'label', 'condition', 'loop_body')
    __match_args__ = ('label', 'condition', 'loop_body')
    attrs: _Children[Attr] = _Children((Kind.ATTR,))
    doc_comments: _Children[DocComment] = _Children((Kind.DOC_COMMENT,))
    label: _Child[Label] = _Child((Kind.LABEL,))
    condition: _Child[Expr] = _Child(_EXPR, 'before', 'loop_body')
    loop_body: _Child[BlockExpr] = _Child((Kind.BLOCK_EXPR,), last=True)
    while_token: _Leaf = _Leaf((Kind.WHILE_KW,))


class ForExpr(Expr):
    """`FOR_EXPR`: a loop over values."""

    __slots__ = ()
    _fields = ('attrs', 'doc_comments', 'label', 'pat', 'iterable', 'loop_body')
    __match_args__ = ('label', 'pat', 'iterable', 'loop_body')
    attrs: _Children[Attr] = _Children((Kind.ATTR,))
    doc_comments: _Children[DocComment] = _Children((Kind.DOC_COMMENT,))
    label: _Child[Label] = _Child((Kind.LABEL,))
    pat: _Child[Pat] = _Child(_PAT)
    iterable: _Child[Expr] = _Child(_EXPR, 'before', 'loop_body')
    loop_body: _Child[BlockExpr] = _Child((Kind.BLOCK_EXPR,), last=True)
    for_token: _Leaf = _Leaf((Kind.FOR_KW,))
    in_token: _Leaf = _Leaf((Kind.IN_KW,))


class LetExpr(Expr):
    """`LET_EXPR`: a pattern as a condition."""

    __slots__ = ()
    _fields = ('attrs', 'doc_comments', 'pat', 'expr')
    __match_args__ = ('pat', 'expr')
    attrs: _Children[Attr] = _Children((Kind.ATTR,))
    doc_comments: _Children[DocComment] = _Children((Kind.DOC_COMMENT,))
    pat: _Child[Pat] = _Child(_PAT)
    expr: _Child[Expr] = _Child(_EXPR)
    let_token: _Leaf = _Leaf((Kind.LET_KW,))
    eq_token: _Leaf = _Leaf((Kind.EQ,))


class MatchExpr(Expr):
    """`MATCH_EXPR`: a choice by patterns."""

    __slots__ = ()
    _fields = ('attrs', 'doc_comments', 'expr', 'match_arm_list')
    __match_args__ = ('expr', 'match_arm_list')
    attrs: _Children[Attr] = _Children((Kind.ATTR,))
    doc_comments: _Children[DocComment] = _Children((Kind.DOC_COMMENT,))
    expr: _Child[Expr] = _Child(_EXPR)
    match_arm_list: _Child[MatchArmList] = _Child((Kind.MATCH_ARM_LIST,))
    match_token: _Leaf = _Leaf((Kind.MATCH_KW,))


class MatchArmList(Node):
    """`MATCH_ARM_LIST`: the arms of a choice."""

    __slots__ = ()
    _fields = ('attrs', 'doc_comments', 'arms')
    __match_args__ = ('arms',)
    attrs: _Children[Attr] = _Children((Kind.ATTR,))
    doc_comments: _Children[DocComment] = _Children((Kind.DOC_COMMENT,))
    arms: _Children[MatchArm] = _Children((Kind.MATCH_ARM,))
    l_curly_token: _Leaf = _Leaf((Kind.L_CURLY,))
    r_curly_token: _Leaf = _Leaf((Kind.R_CURLY,))


class MatchArm(Node):
    """`MATCH_ARM`: an arm: its pattern, and what is done."""

    __slots__ = ()
    _fields = ('attrs', 'doc_comments', 'pat', 'guard', 'expr')
    __match_args__ = ('pat', 'guard', 'expr')
    attrs: _Children[Attr] = _Children((Kind.ATTR,))
    doc_comments: _Children[DocComment] = _Children((Kind.DOC_COMMENT,))
    pat: _Child[Pat] = _Child(_PAT)
    guard: _Child[MatchGuard] = _Child((Kind.MATCH_GUARD,))
    expr: _Child[Expr] = _Child(_EXPR)
    fat_arrow_token: _Leaf = _Leaf((Kind.FAT_ARROW,))
    comma_token: _Leaf = _Leaf((Kind.COMMA,))


class MatchGuard(Node):
    """`MATCH_GUARD`: the condition of an arm."""

    __slots__ = ()
    _fields = ('condition',)
    __match_args__ = ('condition',)
    condition: _Child[Expr] = _Child(_EXPR)
    if_token: _Leaf = _Leaf((Kind.IF_KW,))


class ReturnExpr(Expr):
    """`RETURN_EXPR`: the return from a function."""

    __slots__ = ()
    _fields = ('attrs', 'doc_comments', 'expr')
    __match_args__ = ('expr',)
    attrs: _Children[Attr] = _Children((Kind.ATTR,))
    doc_comments: _Children[DocComment] = _Children((Kind.DOC_COMMENT,))
    expr: _Child[Expr] = _Child(_EXPR)
    return_token: _Leaf = _Leaf((Kind.RETURN_KW,))


class BecomeExpr(Expr):
    """`BECOME_EXPR`: a call that takes the place of the function's own."""

    __slots__ = ()
    _fields = ('attrs', 'doc_comments', 'expr')
    __match_args__ = ('expr',)
    attrs: _Children[Attr] = _Children((Kind.ATTR,))
    doc_comments: _Children[DocComment] = _Children((Kind.DOC_COMMENT,))
    expr: _Child[Expr] = _Child(_EXPR)
    become_token: _Leaf = _Leaf((Kind.BECOME_KW,))


class YieldExpr(Expr):
    """`YIELD_EXPR`: a value that a generator yields."""

    __slots__ = ()
    _fields = ('attrs', 'doc_comments', 'expr')
    __match_args__ = ('expr',)
    attrs: _Children[Attr] = _Children((Kind.ATTR,))
    doc_comments: _Children[DocComment] = _Children((Kind.DOC_COMMENT,))
    expr: _Child[Expr] = _Child(_EXPR)
    yield_token: _Leaf = _Leaf((Kind.YIELD_KW,))


class YeetExpr(Expr):
    """`YEET_EXPR`: an error that is returned."""

    __slots__ = ()
    _fields = ('attrs', 'doc_comments', 'expr')
    __match_args__ = ('expr',)
    attrs: _Children[Attr] = _Children((Kind.ATTR,))
    doc_comments: _Children[DocComment] = _Children((Kind.DOC_COMMENT,))
    expr: _Child[Expr] = _Child(_EXPR)
    do_token: _Leaf = _Leaf((Kind.DO_KW,))
    yeet_token: _Leaf = _Leaf((Kind.YEET_KW,))


class ContinueExpr(Expr):
    """`CONTINUE_EXPR`: the next turn of a loop."""

    __slots__ = ()
    _fields = ('attrs', 'doc_comments', 'lifetime')
    __match_args__ = ('lifetime',)
    attrs: _Children[Attr] = _Children((Kind.ATTR,))
    doc_comments: _Children[DocComment] = _Children((Kind.DOC_COMMENT,))
    lifetime: _Child[Lifetime] = _Child((Kind.LIFETIME,))
    continue_token: _Leaf = _Leaf((Kind.CONTINUE_KW,))


class BreakExpr(Expr):
    """`BREAK_EXPR`: the end of a loop or a block."""

    __slots__ = ()
    _fields = ('attrs', 'doc_comments', 'lifetime', 'expr')
    __match_args__ = ('lifetime', 'expr')
    attrs: _Children[Attr] = _Children((Kind.ATTR,))
    doc_comments: _Children[DocComment] = _Children((Kind.DOC_COMMENT,))
    lifetime: _Child[Lifetime] = _Child((Kind.LIFETIME,))
    expr: _Child[Expr] = _Child(_EXPR)
    break_token: _Leaf = _Leaf((Kind.BREAK_KW,))


class OffsetOfExpr(Expr):
    """`OFFSET_OF_EXPR`: the offset of a field."""

    __slots__ = ()
    _fields = ('attrs', 'doc_comments', 'ty', 'fields')
    __match_args__ = ('ty', 'fields')
    attrs: _Children[Attr] = _Children((Kind.ATTR,))
    doc_comments: _Children[DocComment] = _Children((Kind.DOC_COMMENT,))
    ty: _Child[Type] = _Child(_TYPE)
    fields: _Children[NameRef] = _Children((Kind.NAME_REF,))
    builtin_token: _Leaf = _Leaf((Kind.BUILTIN_KW,))
    pound_token: _Leaf = _Leaf((Kind.POUND,))
    offset_of_token: _Leaf = _Leaf((Kind.OFFSET_OF_KW,))
    l_paren_token: _Leaf = _Leaf((Kind.L_PAREN,))
    comma_token: _Leaf = _Leaf((Kind.COMMA,))
    r_paren_token: _Leaf = _Leaf((Kind.R_PAREN,))


class FormatArgsExpr(Expr):
    """`FORMAT_ARGS_EXPR`: a text with arguments to format."""

    __slots__ = ()
    _fields = ('attrs', 'doc_comments', 'template', 'args')
    __match_args__ = ('template', 'args')
    attrs: _Children[Attr] = _Children((Kind.ATTR,))
    doc_comments: _Children[DocComment] = _Children((Kind.DOC_COMMENT,))
    template: _Child[Expr] = _Child(_EXPR)
    args: _Children[FormatArgsArg] = _Children((Kind.FORMAT_ARGS_ARG,))
    builtin_token: _Leaf = _Leaf((Kind.BUILTIN_KW,))
    pound_token: _Leaf = _Leaf((Kind.POUND,))
    format_args_token: _Leaf = _Leaf((Kind.FORMAT_ARGS_KW,))
    l_paren_token: _Leaf = _Leaf((Kind.L_PAREN,))
    r_paren_token: _Leaf = _Leaf((Kind.R_PAREN,))


class FormatArgsArg(Node):
    """`FORMAT_ARGS_ARG`: such an argument, perhaps with a name."""

    __slots__ = ()
    _fields = ('name', 'expr')
    __match_args__ = ('name', 'expr')
    name: _Child[Name] = _Child((Kind.NAME,))
    expr: _Child[Expr] = _Child(_EXPR)
    eq_token: _Leaf = _Leaf((Kind.EQ,))


class IncludeBytesExpr(Expr):
    """`INCLUDE_BYTES_EXPR`: `include_bytes`, of which these words alone are taken."""

    __slots__ = ()
    _fields = ('attrs', 'doc_comments')
    __match_args__ = ()
    attrs: _Children[Attr] = _Children((Kind.ATTR,))
    doc_comments: _Children[DocComment] = _Children((Kind.DOC_COMMENT,))
    builtin_token: _Leaf = _Leaf((Kind.BUILTIN_KW,))
    pound_token: _Leaf = _Leaf((Kind.POUND,))
    include_bytes_token: _Leaf = _Leaf((Kind.INCLUDE_BYTES_KW,))


class CfgPredExpr(Expr):
    """`CFG_PRED_EXPR`: whether a condition holds."""

    __slots__ = ()
    _fields = ('attrs', 'doc_comments', 'cfg_predicate')
    __match_args__ = ('cfg_predicate',)
    attrs: _Children[Attr] = _Children((Kind.ATTR,))
    doc_comments: _Children[DocComment] = _Children((Kind.DOC_COMMENT,))
    cfg_predicate: _Child[CfgPredicate] = _Child(_CFG_PREDICATE)
    builtin_token: _Leaf = _Leaf((Kind.BUILTIN_KW,))
    pound_token: _Leaf = _Leaf((Kind.POUND,))
    cfg_token: _Leaf = _Leaf((Kind.CFG_KW,))
    l_paren_token: _Leaf = _Leaf((Kind.L_PAREN,))
    comma_token: _Leaf = _Leaf((Kind.COMMA,))
    r_paren_token: _Leaf = _Leaf((Kind.R_PAREN,))


class AsmExpr(Expr, Item):
    """`ASM_EXPR`: assembly: an expression or, where it is global, an item."""

    __slots__ = ()
    _fields = ('attrs', 'doc_comments', 'visibility', 'template', 'asm_pieces')
    __match_args__ = ('template', 'asm_pieces')
    attrs: _Children[Attr] = _Children((Kind.ATTR,))
    doc_comments: _Children[DocComment] = _Children((Kind.DOC_COMMENT,))
    visibility: _Child[Visibility] = _Child((Kind.VISIBILITY,))
    template: _Children[Expr] = _Children(_EXPR)
    asm_pieces: _Children[AsmPiece] = _Children(_ASM_PIECE)
    builtin_token: _Leaf = _Leaf((Kind.BUILTIN_KW,))
    pound_token: _Leaf = _Leaf((Kind.POUND,))
    asm_token: _Leaf = _Leaf((Kind.ASM_KW,))
    global_asm_token: _Leaf = _Leaf((Kind.GLOBAL_ASM_KW,))
    naked_asm_token: _Leaf = _Leaf((Kind.NAKED_ASM_KW,))
    l_paren_token: _Leaf = _Leaf((Kind.L_PAREN,))
    r_paren_token: _Leaf = _Leaf((Kind.R_PAREN,))


class AsmClobberAbi(AsmPiece):
    """`ASM_CLOBBER_ABI`: the ABIs whose registers are overwritten."""

    __slots__ = ()
    _fields = ('attrs', 'doc_comments')
    __match_args__ = ()
    attrs: _Children[Attr] = _Children((Kind.ATTR,))
    doc_comments: _Children[DocComment] = _Children((Kind.DOC_COMMENT,))
    clobber_abi_token: _Leaf = _Leaf((Kind.CLOBBER_ABI_KW,))
    l_paren_token: _Leaf = _Leaf((Kind.L_PAREN,))
    r_paren_token: _Leaf = _Leaf((Kind.R_PAREN,))


class AsmOptions(AsmPiece):
    """`ASM_OPTIONS`: the options of assembly."""

    __slots__ = ()
    _fields = ('attrs', 'doc_comments', 'asm_options')
    __match_args__ = ('asm_options',)
    attrs: _Children[Attr] = _Children((Kind.ATTR,))
    doc_comments: _Children[DocComment] = _Children((Kind.DOC_COMMENT,))
    asm_options: _Children[AsmOption] = _Children((Kind.ASM_OPTION,))
    options_token: _Leaf = _Leaf((Kind.OPTIONS_KW,))
    l_paren_token: _Leaf = _Leaf((Kind.L_PAREN,))
    r_paren_token: _Leaf = _Leaf((Kind.R_PAREN,))


class AsmOption(Node):
    """`ASM_OPTION`: an option."""

    __slots__ = ()
    _fields = ()
    __match_args__ = ()
    att_syntax_token: _Leaf = _Leaf((Kind.ATT_SYNTAX_KW,))
    may_unwind_token: _Leaf = _Leaf((Kind.MAY_UNWIND_KW,))
    nomem_token: _Leaf = _Leaf((Kind.NOMEM_KW,))
    noreturn_token: _Leaf = _Leaf((Kind.NORETURN_KW,))
    nostack_token: _Leaf = _Leaf((Kind.NOSTACK_KW,))
    preserves_flags_token: _Leaf = _Leaf((Kind.PRESERVES_FLAGS_KW,))
    pure_token: _Leaf = _Leaf((Kind.PURE_KW,))
    raw_token: _Leaf = _Leaf((Kind.RAW_KW,))
    readonly_token: _Leaf = _Leaf((Kind.READONLY_KW,))


class AsmDirSpec(Node):
    """`ASM_DIR_SPEC`: whether an operand goes in or out."""

    __slots__ = ()
    _fields = ()
    __match_args__ = ()
    in_token: _Leaf = _Leaf((Kind.IN_KW,))
    inlateout_token: _Leaf = _Leaf((Kind.INLATEOUT_KW,))
    inout_token: _Leaf = _Leaf((Kind.INOUT_KW,))
    lateout_token: _Leaf = _Leaf((Kind.LATEOUT_KW,))
    out_token: _Leaf = _Leaf((Kind.OUT_KW,))


class AsmOperandExpr(Node):
    """`ASM_OPERAND_EXPR`: what goes in, and where it comes out."""

    __slots__ = ()
    _fields = ('in_expr', 'out_expr')
    __match_args__ = ('in_expr', 'out_expr')
    in_expr: _Child[Expr] = _Child(_EXPR, 'before', 'fat_arrow_token')
    out_expr: _Child[Expr] = _Child(_EXPR, 'after', 'fat_arrow_token')
    fat_arrow_token: _Leaf = _Leaf((Kind.FAT_ARROW,))


class AsmRegOperand(AsmOperand):
    """`ASM_REG_OPERAND`: an operand in a register."""

    __slots__ = ()
    _fields = ('asm_dir_spec', 'asm_reg_spec', 'asm_operand_expr')
    __match_args__ = ('asm_dir_spec', 'asm_reg_spec', 'asm_operand_expr')
    asm_dir_spec: _Child[AsmDirSpec] = _Child((Kind.ASM_DIR_SPEC,))
    asm_reg_spec: _Child[AsmRegSpec] = _Child((Kind.ASM_REG_SPEC,))
    asm_operand_expr: _Child[AsmOperandExpr] = _Child((Kind.ASM_OPERAND_EXPR,))
    l_paren_token: _Leaf = _Leaf((Kind.L_PAREN,))
    r_paren_token: _Leaf = _Leaf((Kind.R_PAREN,))


class AsmOperandNamed(AsmPiece):
    """`ASM_OPERAND_NAMED`: an operand, perhaps with a name."""

    __slots__ = ()
    _fields = ('attrs', 'doc_comments', 'name', 'asm_operand')
    __match_args__ = ('name', 'asm_operand')
    attrs: _Children[Attr] = _Children((Kind.ATTR,))
    doc_comments: _Children[DocComment] = _Children((Kind.DOC_COMMENT,))
    name: _Child[Name] = _Child((Kind.NAME,))
    asm_operand: _Child[AsmOperand] = _Child(_ASM_OPERAND)
    eq_token: _Leaf = _Leaf((Kind.EQ,))


class AsmLabel(AsmOperand):
    """`ASM_LABEL`: a block to jump to."""

    __slots__ = ()
    _fields = ('block_expr',)
    __match_args__ = ('block_expr',)
    block_expr: _Child[BlockExpr] = _Child((Kind.BLOCK_EXPR,))
    label_token: _Leaf = _Leaf((Kind.LABEL_KW,))


class AsmConst(AsmOperand):
    """`ASM_CONST`: a constant."""

    __slots__ = ()
    _fields = ('expr',)
    __match_args__ = ('expr',)
    expr: _Child[Expr] = _Child(_EXPR)
    const_token: _Leaf = _Leaf((Kind.CONST_KW,))


class AsmSym(AsmOperand):
    """`ASM_SYM`: a function or a static variable."""

    __slots__ = ()
    _fields = ('path',)
    __match_args__ = ('path',)
    path: _Child[Path] = _Child((Kind.PATH,))
    sym_token: _Leaf = _Leaf((Kind.SYM_KW,))
    l_paren_token: _Leaf = _Leaf((Kind.L_PAREN,))
    r_paren_token: _Leaf = _Leaf((Kind.R_PAREN,))


class AsmRegSpec(Node):
    """`ASM_REG_SPEC`: a register, or which ones may be taken."""

    __slots__ = ()
    _fields = ('name_ref',)
    __match_args__ = ('name_ref',)
    name_ref: _Child[NameRef] = _Child((Kind.NAME_REF,))
    string_token: _Leaf = _Leaf((Kind.STRING,))


class Module(Item):
    """`MODULE`: a module, with its items or in a file of its own."""

    __slots__ = ()
    _fields = ('attrs', 'doc_comments', 'visibility', 'name', 'item_list')
    __match_args__ = ('name', 'item_list')
    attrs: _Children[Attr] = _Children((Kind.ATTR,))
    doc_comments: _Children[DocComment] = _Children((Kind.DOC_COMMENT,))
    visibility: _Child[Visibility] = _Child((Kind.VISIBILITY,))
    name: _Child[Name] = _Child((Kind.NAME,))
    item_list: _Child[ItemList] = _Child((Kind.ITEM_LIST,))
    mod_token: _Leaf = _Leaf((Kind.MOD_KW,))
    semicolon_token: _Leaf = _Leaf((Kind.SEMICOLON,))


class ItemList(Node):
    """`ITEM_LIST`: the items of a module."""

    __slots__ = ()
    _fields = ('attrs', 'doc_comments', 'items')
    __match_args__ = ('items',)
    attrs: _Children[Attr] = _Children((Kind.ATTR,))
    doc_comments: _Children[DocComment] = _Children((Kind.DOC_COMMENT,))
    items: _Children[Item] = _Children(_ITEM)
    l_curly_token: _Leaf = _Leaf((Kind.L_CURLY,))
    r_curly_token: _Leaf = _Leaf((Kind.R_CURLY,))


class ExternCrate(Item):
    """`EXTERN_CRATE`: a crate that is named."""

    __slots__ = ()
    _fields = ('attrs', 'doc_comments', 'visibility', 'name_ref', 'rename')
    __match_args__ = ('name_ref', 'rename')
    attrs: _Children[Attr] = _Children((Kind.ATTR,))
    doc_comments: _Children[DocComment] = _Children((Kind.DOC_COMMENT,))
    visibility: _Child[Visibility] = _Child((Kind.VISIBILITY,))
    name_ref: _Child[NameRef] = _Child((Kind.NAME_REF,))
    rename: _Child[Rename] = _Child((Kind.RENAME,))
    extern_token: _Leaf = _Leaf((Kind.EXTERN_KW,))
    crate_token: _Leaf = _Leaf((Kind.CRATE_KW,))
    semicolon_token: _Leaf = _Leaf((Kind.SEMICOLON,))


class ExternBlock(Item):
    """`EXTERN_BLOCK`: a block of items that are defined elsewhere."""

    __slots__ = ()
    _fields = ('attrs', 'doc_comments', 'visibility', 'impl_restriction', 'abi', 'extern_item_list')
    __match_args__ = ('impl_restriction', 'abi', 'extern_item_list')
    attrs: _Children[Attr] = _Children((Kind.ATTR,))
    doc_comments: _Children[DocComment] = _Children((Kind.DOC_COMMENT,))
    visibility: _Child[Visibility] = _Child((Kind.VISIBILITY,))
    impl_restriction: _Child[ImplRestriction] = _Child((Kind.IMPL_RESTRICTION,))
    abi: _Child[Abi] = _Child((Kind.ABI,))
    extern_item_list: _Child[ExternItemList] = _Child((Kind.EXTERN_ITEM_LIST,))
    const_token: _Leaf = _Leaf((Kind.CONST_KW,))
    async_token: _Leaf = _Leaf((Kind.ASYNC_KW,))
    unsafe_token: _Leaf = _Leaf((Kind.UNSAFE_KW,))
    safe_token: _Leaf = _Leaf((Kind.SAFE_KW,))


class ExternItemList(Node):
    """`EXTERN_ITEM_LIST`: the items of such a block."""

    __slots__ = ()
    _fields = ('attrs', 'doc_comments', 'extern_items')
    __match_args__ = ('extern_items',)
    attrs: _Children[Attr] = _Children((Kind.ATTR,))
    doc_comments: _Children[DocComment] = _Children((Kind.DOC_COMMENT,))
    extern_items: _Children[ExternItem] = _Children(_EXTERN_ITEM)
    l_curly_token: _Leaf = _Leaf((Kind.L_CURLY,))
    r_curly_token: _Leaf = _Leaf((Kind.R_CURLY,))


class ImplRestriction(Node):
    """`IMPL_RESTRICTION`: where a trait may be implemented."""

    __slots__ = ()
    _fields = ('visibility_inner',)
    __match_args__ = ('visibility_inner',)
    visibility_inner: _Child[VisibilityInner] = _Child((Kind.VISIBILITY_INNER,))
    impl_token: _Leaf = _Leaf((Kind.IMPL_KW,))


class MutRestriction(Node):
    """`MUT_RESTRICTION`: where a field may be changed."""

    __slots__ = ()
    _fields = ('visibility_inner',)
    __match_args__ = ('visibility_inner',)
    visibility_inner: _Child[VisibilityInner] = _Child((Kind.VISIBILITY_INNER,))
    mut_token: _Leaf = _Leaf((Kind.MUT_KW,))


class TypeAlias(AssocItem, ExternItem, Item):
    """`TYPE_ALIAS`: a name for a type, or an associated type."""

    __slots__ = ()
    _fields = ('attrs', 'doc_comments', 'visibility', 'impl_restriction', 'abi', 'name', 'generic_param_list',
               'type_bound_list', 'where_clause', 'trailing_where_clause', 'ty')
    __match_args__ = ('impl_restriction', 'abi', 'name', 'generic_param_list', 'type_bound_list', 'where_clause',
                      'trailing_where_clause', 'ty')
    attrs: _Children[Attr] = _Children((Kind.ATTR,))
    doc_comments: _Children[DocComment] = _Children((Kind.DOC_COMMENT,))
    visibility: _Child[Visibility] = _Child((Kind.VISIBILITY,))
    impl_restriction: _Child[ImplRestriction] = _Child((Kind.IMPL_RESTRICTION,))
    abi: _Child[Abi] = _Child((Kind.ABI,))
    name: _Child[Name] = _Child((Kind.NAME,))
    generic_param_list: _Child[GenericParamList] = _Child((Kind.GENERIC_PARAM_LIST,))
    type_bound_list: _Child[TypeBoundList] = _Child((Kind.TYPE_BOUND_LIST,))
    where_clause: _Child[WhereClause] = _Child((Kind.WHERE_CLAUSE,), 'before', 'eq_token')
    trailing_where_clause: _Child[WhereClause] = _Child((Kind.WHERE_CLAUSE,), 'past', 'where_clause')
    ty: _Child[Type] = _Child(_TYPE)
    const_token: _Leaf = _Leaf((Kind.CONST_KW,))
    async_token: _Leaf = _Leaf((Kind.ASYNC_KW,))
    unsafe_token: _Leaf = _Leaf((Kind.UNSAFE_KW,))
    safe_token: _Leaf = _Leaf((Kind.SAFE_KW,))
    default_token: _Leaf = _Leaf((Kind.DEFAULT_KW,))
    type_token: _Leaf = _Leaf((Kind.TYPE_KW,))
    colon_token: _Leaf = _Leaf((Kind.COLON,))
    eq_token: _Leaf = _Leaf((Kind.EQ,))
    semicolon_token: _Leaf = _Leaf((Kind.SEMICOLON,))


class MacroRules(Item):
    """`MACRO_RULES`: a macro by its rules."""

    __slots__ = ()
    _fields = ('attrs', 'doc_comments', 'visibility', 'name', 'token_tree')
    __match_args__ = ('name', 'token_tree')
    attrs: _Children[Attr] = _Children((Kind.ATTR,))
    doc_comments: _Children[DocComment] = _Children((Kind.DOC_COMMENT,))
    visibility: _Child[Visibility] = _Child((Kind.VISIBILITY,))
    name: _Child[Name] = _Child((Kind.NAME,))
    token_tree: _Child[TokenTree] = _Child((Kind.TOKEN_TREE,))
    macro_rules_token: _Leaf = _Leaf((Kind.MACRO_RULES_KW,))
    excl_token: _Leaf = _Leaf((Kind.BANG,))
    semicolon_token: _Leaf = _Leaf((Kind.SEMICOLON,))


class MacroDef(Item):
    """`MACRO_DEF`: a macro with one rule or with several."""

    __slots__ = ()
    _fields = ('attrs', 'doc_comments', 'visibility', 'name', 'args', 'body')
    __match_args__ = ('name', 'args', 'body')
    attrs: _Children[Attr] = _Children((Kind.ATTR,))
    doc_comments: _Children[DocComment] = _Children((Kind.DOC_COMMENT,))
    visibility: _Child[Visibility] = _Child((Kind.VISIBILITY,))
    name: _Child[Name] = _Child((Kind.NAME,))
    args: _Child[TokenTree] = _Child((Kind.TOKEN_TREE,), 'before', 'body')
    body: _Child[TokenTree] = _Child((Kind.TOKEN_TREE,), last=True)
    macro_token: _Leaf = _Leaf((Kind.MACRO_KW,))


class Fn(AssocItem, ExternItem, Item):
    """`FN`: a function."""

    __slots__ = ()
    _fields = ('attrs', 'doc_comments', 'visibility', 'impl_restriction', 'abi', 'name', 'generic_param_list',
               'param_list', 'ret_type', 'where_clause', 'body')
    __match_args__ = ('impl_restriction', 'abi', 'name', 'generic_param_list', 'param_list', 'ret_type', 'where_clause',
                      'body')
    attrs: _Children[Attr] = _Children((Kind.ATTR,))
    doc_comments: _Children[DocComment] = _Children((Kind.DOC_COMMENT,))
    visibility: _Child[Visibility] = _Child((Kind.VISIBILITY,))
    impl_restriction: _Child[ImplRestriction] = _Child((Kind.IMPL_RESTRICTION,))
    abi: _Child[Abi] = _Child((Kind.ABI,))
    name: _Child[Name] = _Child((Kind.NAME,))
    generic_param_list: _Child[GenericParamList] = _Child((Kind.GENERIC_PARAM_LIST,))
    param_list: _Child[ParamList] = _Child((Kind.PARAM_LIST,))
    ret_type: _Child[RetType] = _Child((Kind.RET_TYPE,))
    where_clause: _Child[WhereClause] = _Child((Kind.WHERE_CLAUSE,))
    body: _Child[BlockExpr] = _Child((Kind.BLOCK_EXPR,))
    const_token: _Leaf = _Leaf((Kind.CONST_KW,))
    async_token: _Leaf = _Leaf((Kind.ASYNC_KW,))
    gen_token: _Leaf = _Leaf((Kind.GEN_KW,))
    unsafe_token: _Leaf = _Leaf((Kind.UNSAFE_KW,))
    safe_token: _Leaf = _Leaf((Kind.SAFE_KW,))
    default_token: _Leaf = _Leaf((Kind.DEFAULT_KW,))
    fn_token: _Leaf = _Leaf((Kind.FN_KW,))
    semicolon_token: _Leaf = _Leaf((Kind.SEMICOLON,))


class TokenTree(Node):
    """`TOKEN_TREE`: any tokens in a pair of brackets."""

    __slots__ = ()
    _fields = ('token_trees',)
    __match_args__ = ('token_trees',)
    token_trees: _Children[TokenTree] = _Children((Kind.TOKEN_TREE,))


class Struct(Adt, Item, VariantDef):
    """`STRUCT`: a structure."""

    __slots__ = ()
    _fields = ('attrs', 'doc_comments', 'visibility', 'name', 'generic_param_list', 'where_clause', 'field_list')
    __match_args__ = ('name', 'generic_param_list', 'where_clause', 'field_list')
    attrs: _Children[Attr] = _Children((Kind.ATTR,))
    doc_comments: _Children[DocComment] = _Children((Kind.DOC_COMMENT,))
    visibility: _Child[Visibility] = _Child((Kind.VISIBILITY,))
    name: _Child[Name] = _Child((Kind.NAME,))
    generic_param_list: _Child[GenericParamList] = _Child((Kind.GENERIC_PARAM_LIST,))
    where_clause: _Child[WhereClause] = _Child((Kind.WHERE_CLAUSE,))
    field_list: _Child[FieldList] = _Child(_FIELD_LIST)
    struct_token: _Leaf = _Leaf((Kind.STRUCT_KW,))
    semicolon_token: _Leaf = _Leaf((Kind.SEMICOLON,))


class Union(Adt, Item, VariantDef):
    """`UNION`: a union."""

    __slots__ = ()
    _fields = ('attrs', 'doc_comments', 'visibility', 'name', 'generic_param_list', 'where_clause', 'record_field_list')
    __match_args__ = ('name', 'generic_param_list', 'where_clause', 'record_field_list')
    attrs: _Children[Attr] = _Children((Kind.ATTR,))
    doc_comments: _Children[DocComment] = _Children((Kind.DOC_COMMENT,))
    visibility: _Child[Visibility] = _Child((Kind.VISIBILITY,))
    name: _Child[Name] = _Child((Kind.NAME,))
    generic_param_list: _Child[GenericParamList] = _Child((Kind.GENERIC_PARAM_LIST,))
    where_clause: _Child[WhereClause] = _Child((Kind.WHERE_CLAUSE,))
    record_field_list: _Child[RecordFieldList] = _Child((Kind.RECORD_FIELD_LIST,))
    union_token: _Leaf = _Leaf((Kind.UNION_KW,))
    semicolon_token: _Leaf = _Leaf((Kind.SEMICOLON,))


class Enum(Adt, Item):
    """`ENUM`: an enumeration."""

    __slots__ = ()
    _fields = ('attrs', 'doc_comments', 'visibility', 'name', 'generic_param_list', 'where_clause', 'variant_list')
    __match_args__ = ('name', 'generic_param_list', 'where_clause', 'variant_list')
    attrs: _Children[Attr] = _Children((Kind.ATTR,))
    doc_comments: _Children[DocComment] = _Children((Kind.DOC_COMMENT,))
    visibility: _Child[Visibility] = _Child((Kind.VISIBILITY,))
    name: _Child[Name] = _Child((Kind.NAME,))
    generic_param_list: _Child[GenericParamList] = _Child((Kind.GENERIC_PARAM_LIST,))
    where_clause: _Child[WhereClause] = _Child((Kind.WHERE_CLAUSE,))
    variant_list: _Child[VariantList] = _Child((Kind.VARIANT_LIST,))
    enum_token: _Leaf = _Leaf((Kind.ENUM_KW,))


class VariantList(Node):
    """`VARIANT_LIST`: the variants of an enumeration."""

    __slots__ = ()
    _fields = ('variants',)
    __match_args__ = ('variants',)
    variants: _Children[Variant] = _Children((Kind.VARIANT,))
    l_curly_token: _Leaf = _Leaf((Kind.L_CURLY,))
    r_curly_token: _Leaf = _Leaf((Kind.R_CURLY,))


class Variant(VariantDef):
    """`VARIANT`: a variant of an enumeration."""

    __slots__ = ()
    _fields = ('attrs', 'doc_comments', 'name', 'field_list', 'const_arg')
    __match_args__ = ('name', 'field_list', 'const_arg')
    attrs: _Children[Attr] = _Children((Kind.ATTR,))
    doc_comments: _Children[DocComment] = _Children((Kind.DOC_COMMENT,))
    name: _Child[Name] = _Child((Kind.NAME,))
    field_list: _Child[FieldList] = _Child(_FIELD_LIST)
    const_arg: _Child[ConstArg] = _Child((Kind.CONST_ARG,))
    underscore_token: _Leaf = _Leaf((Kind.UNDERSCORE,))
    eq_token: _Leaf = _Leaf((Kind.EQ,))


class RecordFieldList(FieldList):
    """`RECORD_FIELD_LIST`: fields with names, in braces."""

    __slots__ = ()
    _fields = ('fields',)
    __match_args__ = ('fields',)
    fields: _Children[RecordField] = _Children((Kind.RECORD_FIELD,))
    l_curly_token: _Leaf = _Leaf((Kind.L_CURLY,))
    r_curly_token: _Leaf = _Leaf((Kind.R_CURLY,))


class RecordField(Node):
    """`RECORD_FIELD`: a field with a name."""

    __slots__ = ()
    _fields = ('attrs', 'doc_comments', 'visibility', 'mut_restriction', 'name', 'ty', 'default_val')
    __match_args__ = ('mut_restriction', 'name', 'ty', 'default_val')
    attrs: _Children[Attr] = _Children((Kind.ATTR,))
    doc_comments: _Children[DocComment] = _Children((Kind.DOC_COMMENT,))
    visibility: _Child[Visibility] = _Child((Kind.VISIBILITY,))
    mut_restriction: _Child[MutRestriction] = _Child((Kind.MUT_RESTRICTION,))
    name: _Child[Name] = _Child((Kind.NAME,))
    ty: _Child[Type] = _Child(_TYPE)
    default_val: _Child[ConstArg] = _Child((Kind.CONST_ARG,))
    unsafe_token: _Leaf = _Leaf((Kind.UNSAFE_KW,))
    colon_token: _Leaf = _Leaf((Kind.COLON,))
    eq_token: _Leaf = _Leaf((Kind.EQ,))


class TupleFieldList(FieldList):
    """`TUPLE_FIELD_LIST`: fields without names, in brackets."""

    __slots__ = ()
    _fields = ('fields',)
    __match_args__ = ('fields',)
    fields: _Children[TupleField] = _Children((Kind.TUPLE_FIELD,))
    l_paren_token: _Leaf = _Leaf((Kind.L_PAREN,))
    r_paren_token: _Leaf = _Leaf((Kind.R_PAREN,))


class TupleField(Node):
    """`TUPLE_FIELD`: a field without a name."""

    __slots__ = ()
    _fields = ('attrs', 'doc_comments', 'visibility', 'mut_restriction', 'ty')
    __match_args__ = ('mut_restriction', 'ty')
    attrs: _Children[Attr] = _Children((Kind.ATTR,))
    doc_comments: _Children[DocComment] = _Children((Kind.DOC_COMMENT,))
    visibility: _Child[Visibility] = _Child((Kind.VISIBILITY,))
    mut_restriction: _Child[MutRestriction] = _Child((Kind.MUT_RESTRICTION,))
    ty: _Child[Type] = _Child(_TYPE)


class Const(AssocItem, Item):
    """`CONST`: a constant."""

    __slots__ = ()
    _fields = ('attrs', 'doc_comments', 'visibility', 'impl_restriction', 'abi', 'name', 'generic_param_list', 'ty',
               'body', 'where_clause')
    __match_args__ = ('impl_restriction', 'abi', 'name', 'generic_param_list', 'ty', 'body', 'where_clause')
    attrs: _Children[Attr] = _Children((Kind.ATTR,))
    doc_comments: _Children[DocComment] = _Children((Kind.DOC_COMMENT,))
    visibility: _Child[Visibility] = _Child((Kind.VISIBILITY,))
    impl_restriction: _Child[ImplRestriction] = _Child((Kind.IMPL_RESTRICTION,))
    abi: _Child[Abi] = _Child((Kind.ABI,))
    name: _Child[Name] = _Child((Kind.NAME,))
    generic_param_list: _Child[GenericParamList] = _Child((Kind.GENERIC_PARAM_LIST,))
    ty: _Child[Type] = _Child(_TYPE)
    body: _Child[Expr] = _Child(_EXPR)
    where_clause: _Child[WhereClause] = _Child((Kind.WHERE_CLAUSE,))
    const_token: _Leaf = _Leaf((Kind.CONST_KW,))
    async_token: _Leaf = _Leaf((Kind.ASYNC_KW,))
    unsafe_token: _Leaf = _Leaf((Kind.UNSAFE_KW,))
    safe_token: _Leaf = _Leaf((Kind.SAFE_KW,))
    default_token: _Leaf = _Leaf((Kind.DEFAULT_KW,))
    type_token: _Leaf = _Leaf((Kind.TYPE_KW,))
    mut_token: _Leaf = _Leaf((Kind.MUT_KW,))
    underscore_token: _Leaf = _Leaf((Kind.UNDERSCORE,))
    colon_token: _Leaf = _Leaf((Kind.COLON,))
    eq_token: _Leaf = _Leaf((Kind.EQ,))
    semicolon_token: _Leaf = _Leaf((Kind.SEMICOLON,))


class Static(ExternItem, Item):
    """`STATIC`: a static variable."""

    __slots__ = ()
    _fields = ('attrs', 'doc_comments', 'visibility', 'impl_restriction', 'abi', 'name', 'generic_param_list', 'ty',
               'body')
    __match_args__ = ('impl_restriction', 'abi', 'name', 'generic_param_list', 'ty', 'body')
    attrs: _Children[Attr] = _Children((Kind.ATTR,))
    doc_comments: _Children[DocComment] = _Children((Kind.DOC_COMMENT,))
    visibility: _Child[Visibility] = _Child((Kind.VISIBILITY,))
    impl_restriction: _Child[ImplRestriction] = _Child((Kind.IMPL_RESTRICTION,))
    abi: _Child[Abi] = _Child((Kind.ABI,))
    name: _Child[Name] = _Child((Kind.NAME,))
    generic_param_list: _Child[GenericParamList] = _Child((Kind.GENERIC_PARAM_LIST,))
    ty: _Child[Type] = _Child(_TYPE)
    body: _Child[Expr] = _Child(_EXPR)
    const_token: _Leaf = _Leaf((Kind.CONST_KW,))
    async_token: _Leaf = _Leaf((Kind.ASYNC_KW,))
    unsafe_token: _Leaf = _Leaf((Kind.UNSAFE_KW,))
    safe_token: _Leaf = _Leaf((Kind.SAFE_KW,))
    static_token: _Leaf = _Leaf((Kind.STATIC_KW,))
    mut_token: _Leaf = _Leaf((Kind.MUT_KW,))
    colon_token: _Leaf = _Leaf((Kind.COLON,))
    eq_token: _Leaf = _Leaf((Kind.EQ,))
    semicolon_token: _Leaf = _Leaf((Kind.SEMICOLON,))


class Trait(Item):
    """`TRAIT`: a trait, or a name for bounds."""

    __slots__ = ()
    _fields = ('attrs', 'doc_comments', 'visibility', 'impl_restriction', 'abi', 'name', 'generic_param_list',
               'type_bound_list', 'where_clause', 'assoc_item_list')
    __match_args__ = ('impl_restriction', 'abi', 'name', 'generic_param_list', 'type_bound_list', 'where_clause',
                      'assoc_item_list')
    attrs: _Children[Attr] = _Children((Kind.ATTR,))
    doc_comments: _Children[DocComment] = _Children((Kind.DOC_COMMENT,))
    visibility: _Child[Visibility] = _Child((Kind.VISIBILITY,))
    impl_restriction: _Child[ImplRestriction] = _Child((Kind.IMPL_RESTRICTION,))
    abi: _Child[Abi] = _Child((Kind.ABI,))
    name: _Child[Name] = _Child((Kind.NAME,))
    generic_param_list: _Child[GenericParamList] = _Child((Kind.GENERIC_PARAM_LIST,))
    type_bound_list: _Child[TypeBoundList] = _Child((Kind.TYPE_BOUND_LIST,))
    where_clause: _Child[WhereClause] = _Child((Kind.WHERE_CLAUSE,))
    assoc_item_list: _Child[AssocItemList] = _Child((Kind.ASSOC_ITEM_LIST,))
    const_token: _Leaf = _Leaf((Kind.CONST_KW,))
    async_token: _Leaf = _Leaf((Kind.ASYNC_KW,))
    unsafe_token: _Leaf = _Leaf((Kind.UNSAFE_KW,))
    safe_token: _Leaf = _Leaf((Kind.SAFE_KW,))
    auto_token: _Leaf = _Leaf((Kind.AUTO_KW,))
    trait_token: _Leaf = _Leaf((Kind.TRAIT_KW,))
    colon_token: _Leaf = _Leaf((Kind.COLON,))
    eq_token: _Leaf = _Leaf((Kind.EQ,))
    semicolon_token: _Leaf = _Leaf((Kind.SEMICOLON,))


class Impl(Item):
    """`IMPL`: the implementation of a trait or of a type."""

    __slots__ = ()
    _fields = ('attrs', 'doc_comments', 'visibility', 'impl_restriction', 'abi', 'generic_param_list', 'trait_',
               'self_ty', 'where_clause', 'assoc_item_list')
    __match_args__ = ('impl_restriction', 'abi', 'generic_param_list', 'trait_', 'self_ty', 'where_clause',
                      'assoc_item_list')
    attrs: _Children[Attr] = _Children((Kind.ATTR,))
    doc_comments: _Children[DocComment] = _Children((Kind.DOC_COMMENT,))
    visibility: _Child[Visibility] = _Child((Kind.VISIBILITY,))
    impl_restriction: _Child[ImplRestriction] = _Child((Kind.IMPL_RESTRICTION,))
    abi: _Child[Abi] = _Child((Kind.ABI,))
    generic_param_list: _Child[GenericParamList] = _Child((Kind.GENERIC_PARAM_LIST,))
    trait_: _Child[Type] = _Child(_TYPE, 'only_before', 'for_token')
    self_ty: _Child[Type] = _Child(_TYPE, 'past', 'for_token')
    where_clause: _Child[WhereClause] = _Child((Kind.WHERE_CLAUSE,))
    assoc_item_list: _Child[AssocItemList] = _Child((Kind.ASSOC_ITEM_LIST,))
    const_token: _Leaf = _Leaf((Kind.CONST_KW,))
    async_token: _Leaf = _Leaf((Kind.ASYNC_KW,))
    unsafe_token: _Leaf = _Leaf((Kind.UNSAFE_KW,))
    safe_token: _Leaf = _Leaf((Kind.SAFE_KW,))
    default_token: _Leaf = _Leaf((Kind.DEFAULT_KW,))
    impl_token: _Leaf = _Leaf((Kind.IMPL_KW,))
    excl_token: _Leaf = _Leaf((Kind.BANG,))
    for_token: _Leaf = _Leaf((Kind.FOR_KW,))


class AssocItemList(Node):
    """`ASSOC_ITEM_LIST`: the items of a trait or of an implementation."""

    __slots__ = ()
    _fields = ('attrs', 'doc_comments', 'assoc_items')
    __match_args__ = ('assoc_items',)
    attrs: _Children[Attr] = _Children((Kind.ATTR,))
    doc_comments: _Children[DocComment] = _Children((Kind.DOC_COMMENT,))
    assoc_items: _Children[AssocItem] = _Children(_ASSOC_ITEM)
    l_curly_token: _Leaf = _Leaf((Kind.L_CURLY,))
    r_curly_token: _Leaf = _Leaf((Kind.R_CURLY,))


class Use(Item):
    """`USE`: an import."""

    __slots__ = ()
    _fields = ('attrs', 'doc_comments', 'visibility', 'use_tree')
    __match_args__ = ('use_tree',)
    attrs: _Children[Attr] = _Children((Kind.ATTR,))
    doc_comments: _Children[DocComment] = _Children((Kind.DOC_COMMENT,))
    visibility: _Child[Visibility] = _Child((Kind.VISIBILITY,))
    use_tree: _Child[UseTree] = _Child((Kind.USE_TREE,))
    use_token: _Leaf = _Leaf((Kind.USE_KW,))
    semicolon_token: _Leaf = _Leaf((Kind.SEMICOLON,))


class UseTree(Node):
    """`USE_TREE`: a path of an import, `*` or a list behind a path."""

    __slots__ = ()
    _fields = ('path', 'use_tree_list', 'rename')
    __match_args__ = ('path', 'use_tree_list', 'rename')
    path: _Child[Path] = _Child((Kind.PATH,))
    use_tree_list: _Child[UseTreeList] = _Child((Kind.USE_TREE_LIST,))
    rename: _Child[Rename] = _Child((Kind.RENAME,))
    coloncolon_token: _Leaf = _Leaf((Kind.COLON2,))
    star_token: _Leaf = _Leaf((Kind.STAR,))


class UseTreeList(Node):
    """`USE_TREE_LIST`: the paths of an import, in braces."""

    __slots__ = ()
    _fields = ('use_trees',)
    __match_args__ = ('use_trees',)
    use_trees: _Children[UseTree] = _Children((Kind.USE_TREE,))
    l_curly_token: _Leaf = _Leaf((Kind.L_CURLY,))
    r_curly_token: _Leaf = _Leaf((Kind.R_CURLY,))


class ParamList(Node):
    """`PARAM_LIST`: the parameters of a function, in brackets, or of a closure, between bars."""

    __slots__ = ()
    _fields = ('attrs', 'doc_comments', 'self_param', 'params')
    __match_args__ = ('self_param', 'params')
    attrs: _Children[Attr] = _Children((Kind.ATTR,))
    doc_comments: _Children[DocComment] = _Children((Kind.DOC_COMMENT,))
    self_param: _Child[SelfParam] = _Child((Kind.SELF_PARAM,))
    params: _Children[Param] = _Children((Kind.PARAM,))
    l_paren_token: _Leaf = _Leaf((Kind.L_PAREN,))
    r_paren_token: _Leaf = _Leaf((Kind.R_PAREN,))
    pipe_token: _Leaf = _Leaf((Kind.PIPE,))


class Param(Node):
    """`PARAM`: a parameter: a pattern with its type, one of them alone, or `...`."""

    __slots__ = ()
    _fields = ('attrs', 'doc_comments', 'pat', 'ty')
    __match_args__ = ('pat', 'ty')
    attrs: _Children[Attr] = _Children((Kind.ATTR,))
    doc_comments: _Children[DocComment] = _Children((Kind.DOC_COMMENT,))
    pat: _Child[Pat] = _Child(_PAT)
    ty: _Child[Type] = _Child(_TYPE)
    colon_token: _Leaf = _Leaf((Kind.COLON,))
    dotdotdot_token: _Leaf = _Leaf((Kind.DOT3,))


class SelfParam(Node):
    """`SELF_PARAM`: `self` as a parameter."""

    __slots__ = ()
    _fields = ('attrs', 'doc_comments', 'lifetime', 'name', 'ty')
    __match_args__ = ('lifetime', 'name', 'ty')
    attrs: _Children[Attr] = _Children((Kind.ATTR,))
    doc_comments: _Children[DocComment] = _Children((Kind.DOC_COMMENT,))
    lifetime: _Child[Lifetime] = _Child((Kind.LIFETIME,))
    name: _Child[Name] = _Child((Kind.NAME,))
    ty: _Child[Type] = _Child(_TYPE)
    amp_token: _Leaf = _Leaf((Kind.AMP,))
    mut_token: _Leaf = _Leaf((Kind.MUT_KW,))
    colon_token: _Leaf = _Leaf((Kind.COLON,))


class OrPat(Pat):
    """`OR_PAT`: one of several patterns."""

    __slots__ = ()
    _fields = ('pats',)
    __match_args__ = ('pats',)
    pats: _Children[Pat] = _Children(_PAT)


class RangePat(Pat):
    """`RANGE_PAT`: a range, of which one end may be missing."""

    __slots__ = ()
    _fields = ('start', 'end')
    __match_args__ = ('start', 'end')
    start: _Child[Pat] = _Child(_PAT, 'before', 'op_token')
    end: _Child[Pat] = _Child(_PAT, 'after', 'op_token')
    op_token: _Leaf = _Leaf((Kind.DOT2, Kind.DOT3, Kind.DOT2EQ))


class RestPat(Pat):
    """`REST_PAT`: the other elements or fields."""

    __slots__ = ()
    _fields = ('attrs', 'doc_comments')
    __match_args__ = ()
    attrs: _Children[Attr] = _Children((Kind.ATTR,))
    doc_comments: _Children[DocComment] = _Children((Kind.DOC_COMMENT,))
    dotdot_token: _Leaf = _Leaf((Kind.DOT2,))


class DerefPat(Pat):
    """`DEREF_PAT`: what a smart pointer points to."""

    __slots__ = ()
    _fields = ('pat',)
    __match_args__ = ('pat',)
    pat: _Child[Pat] = _Child(_PAT)
    builtin_token: _Leaf = _Leaf((Kind.BUILTIN_KW,))
    pound_token: _Leaf = _Leaf((Kind.POUND,))
    deref_token: _Leaf = _Leaf((Kind.DEREF_KW,))
    l_paren_token: _Leaf = _Leaf((Kind.L_PAREN,))
    r_paren_token: _Leaf = _Leaf((Kind.R_PAREN,))


class CfgPredPat(Pat):
    """`CFG_PRED_PAT`: a condition as a pattern."""

    __slots__ = ()
    _fields = ('cfg_predicate',)
    __match_args__ = ('cfg_predicate',)
    cfg_predicate: _Child[CfgPredicate] = _Child(_CFG_PREDICATE)
    builtin_token: _Leaf = _Leaf((Kind.BUILTIN_KW,))
    pound_token: _Leaf = _Leaf((Kind.POUND,))
    cfg_token: _Leaf = _Leaf((Kind.CFG_KW,))
    l_paren_token: _Leaf = _Leaf((Kind.L_PAREN,))
    comma_token: _Leaf = _Leaf((Kind.COMMA,))
    r_paren_token: _Leaf = _Leaf((Kind.R_PAREN,))


class LiteralPat(Pat):
    """`LITERAL_PAT`: a literal, perhaps with a minus."""

    __slots__ = ()
    _fields = ('literal',)
    __match_args__ = ('literal',)
    literal: _Child[Literal] = _Child((Kind.LITERAL,))
    minus_token: _Leaf = _Leaf((Kind.MINUS,))


class TupleStructPat(Pat):
    """`TUPLE_STRUCT_PAT`: a path with patterns in brackets."""

    __slots__ = ()
    _fields = ('path', 'fields')
    __match_args__ = ('path', 'fields')
    path: _Child[Path] = _Child((Kind.PATH,))
    fields: _Children[Pat] = _Children(_PAT)
    l_paren_token: _Leaf = _Leaf((Kind.L_PAREN,))
    r_paren_token: _Leaf = _Leaf((Kind.R_PAREN,))


class RecordPat(Pat):
    """`RECORD_PAT`: a path with fields in braces."""

    __slots__ = ()
    _fields = ('path', 'record_pat_field_list')
    __match_args__ = ('path', 'record_pat_field_list')
    path: _Child[Path] = _Child((Kind.PATH,))
    record_pat_field_list: _Child[RecordPatFieldList] = _Child((Kind.RECORD_PAT_FIELD_LIST,))


class RecordPatFieldList(Node):
    """`RECORD_PAT_FIELD_LIST`: those fields."""

    __slots__ = ()
    _fields = ('fields', 'rest_pat')
    __match_args__ = ('fields', 'rest_pat')
    fields: _Children[RecordPatField] = _Children((Kind.RECORD_PAT_FIELD,))
    rest_pat: _Child[RestPat] = _Child((Kind.REST_PAT,))
    l_curly_token: _Leaf = _Leaf((Kind.L_CURLY,))
    r_curly_token: _Leaf = _Leaf((Kind.R_CURLY,))


class RecordPatField(Node):
    """`RECORD_PAT_FIELD`: a field with its pattern, or its name alone."""

    __slots__ = ()
    _fields = ('attrs', 'doc_comments', 'name_ref', 'pat')
    __match_args__ = ('name_ref', 'pat')
    attrs: _Children[Attr] = _Children((Kind.ATTR,))
    doc_comments: _Children[DocComment] = _Children((Kind.DOC_COMMENT,))
    name_ref: _Child[NameRef] = _Child((Kind.NAME_REF,))
    pat: _Child[Pat] = _Child(_PAT)
    colon_token: _Leaf = _Leaf((Kind.COLON,))


class MacroPat(Pat):
    """`MACRO_PAT`: a call of a macro as a pattern."""

    __slots__ = ()
    _fields = ('macro_call',)
    __match_args__ = ('macro_call',)
    macro_call: _Child[MacroCall] = _Child((Kind.MACRO_CALL,))


class PathPat(Pat):
    """`PATH_PAT`: a path as a pattern."""

    __slots__ = ()
    _fields = ('path',)
    __match_args__ = ('path',)
    path: _Child[Path] = _Child((Kind.PATH,))


class WildcardPat(Pat):
    """`WILDCARD_PAT`: what matches anything."""

    __slots__ = ()
    _fields = ()
    __match_args__ = ()
    underscore_token: _Leaf = _Leaf((Kind.UNDERSCORE,))


class RefPat(Pat):
    """`REF_PAT`: a reference."""

    __slots__ = ()
    _fields = ('pat',)
    __match_args__ = ('pat',)
    pat: _Child[Pat] = _Child(_PAT)
    amp_token: _Leaf = _Leaf((Kind.AMP,))
    mut_token: _Leaf = _Leaf((Kind.MUT_KW,))


class NotNull(Pat):
    """`NOT_NULL`: what is not null, in a pattern type."""

    __slots__ = ()
    _fields = ('pat',)
    __match_args__ = ('pat',)
    pat: _Child[Pat] = _Child(_PAT)
    excl_token: _Leaf = _Leaf((Kind.BANG,))


class ParenPat(Pat):
    """`PAREN_PAT`: a pattern in brackets."""

    __slots__ = ()
    _fields = ('pat',)
    __match_args__ = ('pat',)
    pat: _Child[Pat] = _Child(_PAT)
    l_paren_token: _Leaf = _Leaf((Kind.L_PAREN,))
    r_paren_token: _Leaf = _Leaf((Kind.R_PAREN,))


class TuplePat(Pat):
    """`TUPLE_PAT`: a tuple."""

    __slots__ = ()
    _fields = ('fields',)
    __match_args__ = ('fields',)
    fields: _Children[Pat] = _Children(_PAT)
    l_paren_token: _Leaf = _Leaf((Kind.L_PAREN,))
    r_paren_token: _Leaf = _Leaf((Kind.R_PAREN,))


class SlicePat(Pat):
    """`SLICE_PAT`: a slice or an array."""

    __slots__ = ()
    _fields = ('pats',)
    __match_args__ = ('pats',)
    pats: _Children[Pat] = _Children(_PAT)
    l_brack_token: _Leaf = _Leaf((Kind.L_BRACK,))
    r_brack_token: _Leaf = _Leaf((Kind.R_BRACK,))


class IdentPat(Pat):
    """`IDENT_PAT`: a name that is bound."""

    __slots__ = ()
    _fields = ('name', 'pat')
    __match_args__ = ('name', 'pat')
    name: _Child[Name] = _Child((Kind.NAME,))
    pat: _Child[Pat] = _Child(_PAT)
    ref_token: _Leaf = _Leaf((Kind.REF_KW,))
    mut_token: _Leaf = _Leaf((Kind.MUT_KW,))
    at_token: _Leaf = _Leaf((Kind.AT,))


class BoxPat(Pat):
    """`BOX_PAT`: what is in a box."""

    __slots__ = ()
    _fields = ('pat',)
    __match_args__ = ('pat',)
    pat: _Child[Pat] = _Child(_PAT)
    box_token: _Leaf = _Leaf((Kind.BOX_KW,))


class ConstBlockPat(Pat):
    """`CONST_BLOCK_PAT`: a block of constants as a pattern."""

    __slots__ = ()
    _fields = ('block_expr',)
    __match_args__ = ('block_expr',)
    block_expr: _Child[BlockExpr] = _Child((Kind.BLOCK_EXPR,))
    const_token: _Leaf = _Leaf((Kind.CONST_KW,))


class ParenType(Type):
    """`PAREN_TYPE`: a type in brackets."""

    __slots__ = ()
    _fields = ('ty',)
    __match_args__ = ('ty',)
    ty: _Child[Type] = _Child(_TYPE)
    l_paren_token: _Leaf = _Leaf((Kind.L_PAREN,))
    r_paren_token: _Leaf = _Leaf((Kind.R_PAREN,))


class TupleType(Type):
    """`TUPLE_TYPE`: a tuple."""

    __slots__ = ()
    _fields = ('fields',)
    __match_args__ = ('fields',)
    fields: _Children[Type] = _Children(_TYPE)
    l_paren_token: _Leaf = _Leaf((Kind.L_PAREN,))
    r_paren_token: _Leaf = _Leaf((Kind.R_PAREN,))


class NeverType(Type):
    """`NEVER_TYPE`: the type without values."""

    __slots__ = ()
    _fields = ()
    __match_args__ = ()
    excl_token: _Leaf = _Leaf((Kind.BANG,))


class PtrType(Type):
    """`PTR_TYPE`: a raw pointer: `mut` or `const` behind the star."""

    __slots__ = ()
    _fields = ('ty',)
    __match_args__ = ('ty',)
    ty: _Child[Type] = _Child(_TYPE)
    star_token: _Leaf = _Leaf((Kind.STAR,))
    const_token: _Leaf = _Leaf((Kind.CONST_KW,))
    mut_token: _Leaf = _Leaf((Kind.MUT_KW,))


class SliceType(Type):
    """`SLICE_TYPE`: a slice."""

    __slots__ = ()
    _fields = ('ty',)
    __match_args__ = ('ty',)
    ty: _Child[Type] = _Child(_TYPE)
    l_brack_token: _Leaf = _Leaf((Kind.L_BRACK,))
    r_brack_token: _Leaf = _Leaf((Kind.R_BRACK,))


class ArrayType(Type):
    """`ARRAY_TYPE`: an array."""

    __slots__ = ()
    _fields = ('ty', 'const_arg')
    __match_args__ = ('ty', 'const_arg')
    ty: _Child[Type] = _Child(_TYPE)
    const_arg: _Child[ConstArg] = _Child((Kind.CONST_ARG,))
    l_brack_token: _Leaf = _Leaf((Kind.L_BRACK,))
    semicolon_token: _Leaf = _Leaf((Kind.SEMICOLON,))
    r_brack_token: _Leaf = _Leaf((Kind.R_BRACK,))


class RefType(Type):
    """`REF_TYPE`: a reference."""

    __slots__ = ()
    _fields = ('lifetime', 'ty')
    __match_args__ = ('lifetime', 'ty')
    lifetime: _Child[Lifetime] = _Child((Kind.LIFETIME,))
    ty: _Child[Type] = _Child(_TYPE)
    amp_token: _Leaf = _Leaf((Kind.AMP,))
    mut_token: _Leaf = _Leaf((Kind.MUT_KW,))


class InferType(Type):
    """`INFER_TYPE`: a type that is left to be inferred."""

    __slots__ = ()
    _fields = ()
    __match_args__ = ()
    underscore_token: _Leaf = _Leaf((Kind.UNDERSCORE,))


class FnPtrType(Type):
    """`FN_PTR_TYPE`: a pointer to a function."""

    __slots__ = ()
    _fields = ('abi', 'param_list', 'ret_type')
    __match_args__ = ('abi', 'param_list', 'ret_type')
    abi: _Child[Abi] = _Child((Kind.ABI,))
    param_list: _Child[ParamList] = _Child((Kind.PARAM_LIST,))
    ret_type: _Child[RetType] = _Child((Kind.RET_TYPE,))
    unsafe_token: _Leaf = _Leaf((Kind.UNSAFE_KW,))
    fn_token: _Leaf = _Leaf((Kind.FN_KW,))


class ForBinder(Node):
    """`FOR_BINDER`: `for` with lifetimes."""

    __slots__ = ()
    _fields = ('generic_param_list',)
    __match_args__ = ('generic_param_list',)
    generic_param_list: _Child[GenericParamList] = _Child((Kind.GENERIC_PARAM_LIST,))
    for_token: _Leaf = _Leaf((Kind.FOR_KW,))


class ForType(Type):
    """`FOR_TYPE`: a type with `for` before it."""

    __slots__ = ()
    _fields = ('for_binder', 'ty')
    __match_args__ = ('for_binder', 'ty')
    for_binder: _Child[ForBinder] = _Child((Kind.FOR_BINDER,))
    ty: _Child[Type] = _Child(_TYPE)


class ImplTraitType(Type):
    """`IMPL_TRAIT_TYPE`: some type with these bounds."""

    __slots__ = ()
    _fields = ('type_bound_list',)
    __match_args__ = ('type_bound_list',)
    type_bound_list: _Child[TypeBoundList] = _Child((Kind.TYPE_BOUND_LIST,))
    impl_token: _Leaf = _Leaf((Kind.IMPL_KW,))


class DynTraitType(Type):
    """`DYN_TRAIT_TYPE`: any value with these bounds."""

    __slots__ = ()
    _fields = ('type_bound_list',)
    __match_args__ = ('type_bound_list',)
    type_bound_list: _Child[TypeBoundList] = _Child((Kind.TYPE_BOUND_LIST,))
    dyn_token: _Leaf = _Leaf((Kind.DYN_KW,))


class MacroType(Type):
    """`MACRO_TYPE`: a call of a macro as a type."""

    __slots__ = ()
    _fields = ('macro_call',)
    __match_args__ = ('macro_call',)
    macro_call: _Child[MacroCall] = _Child((Kind.MACRO_CALL,))


class PathType(Type):
    """`PATH_TYPE`: a path as a type."""

    __slots__ = ()
    _fields = ('path',)
    __match_args__ = ('path',)
    path: _Child[Path] = _Child((Kind.PATH,))


class PatternType(Type):
    """`PATTERN_TYPE`: a type with a pattern that its values match."""

    __slots__ = ()
    _fields = ('ty', 'pat')
    __match_args__ = ('ty', 'pat')
    ty: _Child[Type] = _Child(_TYPE)
    pat: _Child[Pat] = _Child(_PAT)
    builtin_token: _Leaf = _Leaf((Kind.BUILTIN_KW,))
    pound_token: _Leaf = _Leaf((Kind.POUND,))
    pattern_type_token: _Leaf = _Leaf((Kind.PATTERN_TYPE_KW,))
    l_paren_token: _Leaf = _Leaf((Kind.L_PAREN,))
    is_token: _Leaf = _Leaf((Kind.IS_KW,))
    r_paren_token: _Leaf = _Leaf((Kind.R_PAREN,))


class TypeBound(Node):
    """`TYPE_BOUND`: a bound, perhaps in brackets."""

    __slots__ = ()
    _fields = ('lifetime', 'use_bound_generic_args', 'for_binder', 'ty')
    __match_args__ = ('lifetime', 'use_bound_generic_args', 'for_binder', 'ty')
    lifetime: _Child[Lifetime] = _Child((Kind.LIFETIME,))
    use_bound_generic_args: _Child[UseBoundGenericArgs] = _Child((Kind.USE_BOUND_GENERIC_ARGS,))
    for_binder: _Child[ForBinder] = _Child((Kind.FOR_BINDER,))
    ty: _Child[Type] = _Child(_TYPE)
    l_paren_token: _Leaf = _Leaf((Kind.L_PAREN,))
    use_token: _Leaf = _Leaf((Kind.USE_KW,))
    l_brack_token: _Leaf = _Leaf((Kind.L_BRACK,))
    tilde_token: _Leaf = _Leaf((Kind.TILDE,))
    const_token: _Leaf = _Leaf((Kind.CONST_KW,))
    r_brack_token: _Leaf = _Leaf((Kind.R_BRACK,))
    async_token: _Leaf = _Leaf((Kind.ASYNC_KW,))
    question_mark_token: _Leaf = _Leaf((Kind.QUESTION,))
    r_paren_token: _Leaf = _Leaf((Kind.R_PAREN,))


class TypeBoundList(Node):
    """`TYPE_BOUND_LIST`: bounds with `+` between."""

    __slots__ = ()
    _fields = ('bounds', 'for_binder')
    __match_args__ = ('bounds', 'for_binder')
    bounds: _Children[TypeBound] = _Children((Kind.TYPE_BOUND,))
    for_binder: _Child[ForBinder] = _Child((Kind.FOR_BINDER,))
    l_paren_token: _Leaf = _Leaf((Kind.L_PAREN,))
    l_brack_token: _Leaf = _Leaf((Kind.L_BRACK,))
    tilde_token: _Leaf = _Leaf((Kind.TILDE,))
    const_token: _Leaf = _Leaf((Kind.CONST_KW,))
    r_brack_token: _Leaf = _Leaf((Kind.R_BRACK,))
    async_token: _Leaf = _Leaf((Kind.ASYNC_KW,))
    question_mark_token: _Leaf = _Leaf((Kind.QUESTION,))


class GenericArgList(Node):
    """`GENERIC_ARG_LIST`: the generic arguments in angle brackets."""

    __slots__ = ()
    _fields = ('generic_args',)
    __match_args__ = ('generic_args',)
    generic_args: _Children[GenericArg] = _Children(_GENERIC_ARG)
    coloncolon_token: _Leaf = _Leaf((Kind.COLON2,))
    l_angle_token: _Leaf = _Leaf((Kind.L_ANGLE,))
    r_angle_token: _Leaf = _Leaf((Kind.R_ANGLE,))


class TypeArg(GenericArg):
    """`TYPE_ARG`: a type as an argument."""

    __slots__ = ()
    _fields = ('ty',)
    __match_args__ = ('ty',)
    ty: _Child[Type] = _Child(_TYPE)


class LifetimeArg(GenericArg):
    """`LIFETIME_ARG`: a lifetime as an argument."""

    __slots__ = ()
    _fields = ('lifetime',)
    __match_args__ = ('lifetime',)
    lifetime: _Child[Lifetime] = _Child((Kind.LIFETIME,))


class ConstArg(GenericArg):
    """`CONST_ARG`: a constant as an argument, a length, a default or the value of a variant."""

    __slots__ = ()
    _fields = ('expr',)
    __match_args__ = ('expr',)
    expr: _Child[Expr] = _Child(_EXPR)


class AssocTypeArg(GenericArg):
    """`ASSOC_TYPE_ARG`: an associated type or constant, with its value or its bounds."""

    __slots__ = ()
    _fields = ('name_ref', 'generic_arg_list', 'return_type_syntax', 'parenthesized_arg_list', 'ret_type',
               'type_bound_list', 'ty', 'const_arg')
    __match_args__ = ('name_ref', 'generic_arg_list', 'return_type_syntax', 'parenthesized_arg_list', 'ret_type',
                      'type_bound_list', 'ty', 'const_arg')
    name_ref: _Child[NameRef] = _Child((Kind.NAME_REF,))
    generic_arg_list: _Child[GenericArgList] = _Child((Kind.GENERIC_ARG_LIST,))
    return_type_syntax: _Child[ReturnTypeSyntax] = _Child((Kind.RETURN_TYPE_SYNTAX,))
    parenthesized_arg_list: _Child[ParenthesizedArgList] = _Child((Kind.PARENTHESIZED_ARG_LIST,))
    ret_type: _Child[RetType] = _Child((Kind.RET_TYPE,))
    type_bound_list: _Child[TypeBoundList] = _Child((Kind.TYPE_BOUND_LIST,))
    ty: _Child[Type] = _Child(_TYPE)
    const_arg: _Child[ConstArg] = _Child((Kind.CONST_ARG,))
    colon_token: _Leaf = _Leaf((Kind.COLON,))
    eq_token: _Leaf = _Leaf((Kind.EQ,))


class UseBoundGenericArgs(Node):
    """`USE_BOUND_GENERIC_ARGS`: the parameters that an opaque type captures."""

    __slots__ = ()
    _fields = ('use_bound_generic_args',)
    __match_args__ = ('use_bound_generic_args',)
    use_bound_generic_args: _Children[UseBoundGenericArg] = _Children(_USE_BOUND_GENERIC_ARG)
    l_angle_token: _Leaf = _Leaf((Kind.L_ANGLE,))
    r_angle_token: _Leaf = _Leaf((Kind.R_ANGLE,))


class GenericParamList(Node):
    """`GENERIC_PARAM_LIST`: the generic parameters of a declaration."""

    __slots__ = ()
    _fields = ('generic_params',)
    __match_args__ = ('generic_params',)
    generic_params: _Children[GenericParam] = _Children(_GENERIC_PARAM)
    l_angle_token: _Leaf = _Leaf((Kind.L_ANGLE,))
    r_angle_token: _Leaf = _Leaf((Kind.R_ANGLE,))


class LifetimeParam(GenericParam):
    """`LIFETIME_PARAM`: a lifetime as a parameter."""

    __slots__ = ()
    _fields = ('attrs', 'doc_comments', 'lifetime', 'type_bound_list')
    __match_args__ = ('lifetime', 'type_bound_list')
    attrs: _Children[Attr] = _Children((Kind.ATTR,))
    doc_comments: _Children[DocComment] = _Children((Kind.DOC_COMMENT,))
    lifetime: _Child[Lifetime] = _Child((Kind.LIFETIME,))
    type_bound_list: _Child[TypeBoundList] = _Child((Kind.TYPE_BOUND_LIST,))
    colon_token: _Leaf = _Leaf((Kind.COLON,))


class TypeParam(GenericParam):
    """`TYPE_PARAM`: a type as a parameter."""

    __slots__ = ()
    _fields = ('attrs', 'doc_comments', 'name', 'type_bound_list', 'default_type')
    __match_args__ = ('name', 'type_bound_list', 'default_type')
    attrs: _Children[Attr] = _Children((Kind.ATTR,))
    doc_comments: _Children[DocComment] = _Children((Kind.DOC_COMMENT,))
    name: _Child[Name] = _Child((Kind.NAME,))
    type_bound_list: _Child[TypeBoundList] = _Child((Kind.TYPE_BOUND_LIST,))
    default_type: _Child[Type] = _Child(_TYPE)
    colon_token: _Leaf = _Leaf((Kind.COLON,))
    eq_token: _Leaf = _Leaf((Kind.EQ,))


class ConstParam(GenericParam):
    """`CONST_PARAM`: a constant as a parameter."""

    __slots__ = ()
    _fields = ('attrs', 'doc_comments', 'name', 'ty', 'default_val')
    __match_args__ = ('name', 'ty', 'default_val')
    attrs: _Children[Attr] = _Children((Kind.ATTR,))
    doc_comments: _Children[DocComment] = _Children((Kind.DOC_COMMENT,))
    name: _Child[Name] = _Child((Kind.NAME,))
    ty: _Child[Type] = _Child(_TYPE)
    default_val: _Child[ConstArg] = _Child((Kind.CONST_ARG,))
    const_token: _Leaf = _Leaf((Kind.CONST_KW,))
    colon_token: _Leaf = _Leaf((Kind.COLON,))
    eq_token: _Leaf = _Leaf((Kind.EQ,))


class WhereClause(Node):
    """`WHERE_CLAUSE`: the conditions of a declaration."""

    __slots__ = ()
    _fields = ('predicates',)
    __match_args__ = ('predicates',)
    predicates: _Children[WherePred] = _Children((Kind.WHERE_PRED,))
    where_token: _Leaf = _Leaf((Kind.WHERE_KW,))


class WherePred(Node):
    """`WHERE_PRED`: a condition: the bounds of a lifetime or a type."""

    __slots__ = ()
    _fields = ('lifetime', 'for_binder', 'ty', 'type_bound_list')
    __match_args__ = ('lifetime', 'for_binder', 'ty', 'type_bound_list')
    lifetime: _Child[Lifetime] = _Child((Kind.LIFETIME,))
    for_binder: _Child[ForBinder] = _Child((Kind.FOR_BINDER,))
    ty: _Child[Type] = _Child(_TYPE)
    type_bound_list: _Child[TypeBoundList] = _Child((Kind.TYPE_BOUND_LIST,))
    colon_token: _Leaf = _Leaf((Kind.COLON,))


class DocComment(Node):
    """`DOC_COMMENT`: a comment of documentation."""

    __slots__ = ()
    _fields = ()
    __match_args__ = ()
    outer_doc_comment_token: _Leaf = _Leaf((Kind.OUTER_DOC_COMMENT,))
    inner_doc_comment_token: _Leaf = _Leaf((Kind.INNER_DOC_COMMENT,))


class Attr(Node):
    """`ATTR`: an attribute."""

    __slots__ = ()
    _fields = ('meta',)
    __match_args__ = ('meta',)
    meta: _Child[Meta] = _Child(_META)
    pound_token: _Leaf = _Leaf((Kind.POUND,))
    excl_token: _Leaf = _Leaf((Kind.BANG,))
    l_brack_token: _Leaf = _Leaf((Kind.L_BRACK,))
    r_brack_token: _Leaf = _Leaf((Kind.R_BRACK,))


class UnsafeMeta(Meta):
    """`UNSAFE_META`: an attribute in `unsafe(..)`."""

    __slots__ = ()
    _fields = ('meta',)
    __match_args__ = ('meta',)
    meta: _Child[Meta] = _Child(_META)
    unsafe_token: _Leaf = _Leaf((Kind.UNSAFE_KW,))
    l_paren_token: _Leaf = _Leaf((Kind.L_PAREN,))
    r_paren_token: _Leaf = _Leaf((Kind.R_PAREN,))


class CfgAttrMeta(Meta):
    """`CFG_ATTR_META`: attributes under a condition."""

    __slots__ = ()
    _fields = ('cfg_predicate', 'metas')
    __match_args__ = ('cfg_predicate', 'metas')
    cfg_predicate: _Child[CfgPredicate] = _Child(_CFG_PREDICATE)
    metas: _Children[Meta] = _Children(_META)
    cfg_attr_token: _Leaf = _Leaf((Kind.CFG_ATTR_KW,))
    l_paren_token: _Leaf = _Leaf((Kind.L_PAREN,))
    r_paren_token: _Leaf = _Leaf((Kind.R_PAREN,))


class CfgMeta(Meta):
    """`CFG_META`: a condition."""

    __slots__ = ()
    _fields = ('cfg_predicate',)
    __match_args__ = ('cfg_predicate',)
    cfg_predicate: _Child[CfgPredicate] = _Child(_CFG_PREDICATE)
    cfg_token: _Leaf = _Leaf((Kind.CFG_KW,))
    l_paren_token: _Leaf = _Leaf((Kind.L_PAREN,))
    comma_token: _Leaf = _Leaf((Kind.COMMA,))
    r_paren_token: _Leaf = _Leaf((Kind.R_PAREN,))


class CfgAtom(CfgPredicate):
    """`CFG_ATOM`: an option, perhaps with its value, or `true` or `false`."""

    __slots__ = ()
    _fields = ()
    __match_args__ = ()
    ident_token: _Leaf = _Leaf((Kind.IDENT,))
    eq_token: _Leaf = _Leaf((Kind.EQ,))
    string_token: _Leaf = _Leaf((Kind.STRING,))
    true_token: _Leaf = _Leaf((Kind.TRUE_KW,))
    false_token: _Leaf = _Leaf((Kind.FALSE_KW,))


class CfgComposite(CfgPredicate):
    """`CFG_COMPOSITE`: `all`, `any` or `not` of conditions."""

    __slots__ = ()
    _fields = ('cfg_predicates',)
    __match_args__ = ('cfg_predicates',)
    cfg_predicates: _Children[CfgPredicate] = _Children(_CFG_PREDICATE)
    ident_token: _Leaf = _Leaf((Kind.IDENT,))
    l_paren_token: _Leaf = _Leaf((Kind.L_PAREN,))
    r_paren_token: _Leaf = _Leaf((Kind.R_PAREN,))


class KeyValueMeta(Meta):
    """`KEY_VALUE_META`: an attribute with a value."""

    __slots__ = ()
    _fields = ('path', 'expr')
    __match_args__ = ('path', 'expr')
    path: _Child[Path] = _Child((Kind.PATH,))
    expr: _Child[Expr] = _Child(_EXPR)
    eq_token: _Leaf = _Leaf((Kind.EQ,))


class TokenTreeMeta(Meta):
    """`TOKEN_TREE_META`: an attribute with tokens in brackets."""

    __slots__ = ()
    _fields = ('path', 'token_tree')
    __match_args__ = ('path', 'token_tree')
    path: _Child[Path] = _Child((Kind.PATH,))
    token_tree: _Child[TokenTree] = _Child((Kind.TOKEN_TREE,))


class PathMeta(Meta):
    """`PATH_META`: an attribute that is a path alone."""

    __slots__ = ()
    _fields = ('path',)
    __match_args__ = ('path',)
    path: _Child[Path] = _Child((Kind.PATH,))


# From now on each node is of the class of its kind.
CLASSES.update({
    Kind.ERROR: Error, Kind.SOURCE_FILE: SourceFile, Kind.MACRO_STMTS: MacroStmts, Kind.MACRO_ITEMS: MacroItems,
    Kind.NAME: Name, Kind.NAME_REF: NameRef, Kind.LIFETIME: Lifetime, Kind.VISIBILITY: Visibility,
    Kind.VISIBILITY_INNER: VisibilityInner, Kind.RENAME: Rename, Kind.ABI: Abi, Kind.RET_TYPE: RetType, Kind.PATH: Path,
    Kind.PATH_SEGMENT: PathSegment, Kind.TYPE_ANCHOR: TypeAnchor, Kind.RETURN_TYPE_SYNTAX: ReturnTypeSyntax,
    Kind.PARENTHESIZED_ARG_LIST: ParenthesizedArgList, Kind.LET_STMT: LetStmt, Kind.EXPR_STMT: ExprStmt, Kind.LET_ELSE:
    LetElse, Kind.STMT_LIST: StmtList, Kind.BLOCK_EXPR: BlockExpr, Kind.LABEL: Label, Kind.TRY_BLOCK_MODIFIER:
    TryBlockModifier, Kind.RANGE_EXPR: RangeExpr, Kind.BIN_EXPR: BinExpr, Kind.REF_EXPR: RefExpr, Kind.PREFIX_EXPR:
    PrefixExpr, Kind.CALL_EXPR: CallExpr, Kind.INDEX_EXPR: IndexExpr, Kind.METHOD_CALL_EXPR: MethodCallExpr,
    Kind.FIELD_EXPR: FieldExpr, Kind.AWAIT_EXPR: AwaitExpr, Kind.TRY_EXPR: TryExpr, Kind.CAST_EXPR: CastExpr,
    Kind.ARG_LIST: ArgList, Kind.RECORD_EXPR: RecordExpr, Kind.RECORD_EXPR_FIELD: RecordExprField,
    Kind.RECORD_EXPR_FIELD_LIST: RecordExprFieldList, Kind.MACRO_CALL: MacroCall, Kind.MACRO_EXPR: MacroExpr,
    Kind.PATH_EXPR: PathExpr, Kind.LITERAL: Literal, Kind.UNDERSCORE_EXPR: UnderscoreExpr, Kind.PAREN_EXPR: ParenExpr,
    Kind.TUPLE_EXPR: TupleExpr, Kind.ARRAY_EXPR: ArrayExpr, Kind.CLOSURE_EXPR: ClosureExpr, Kind.IF_EXPR: IfExpr,
    Kind.LOOP_EXPR: LoopExpr, Kind.WHILE_EXPR: WhileExpr, Kind.FOR_EXPR: ForExpr, Kind.LET_EXPR: LetExpr,
    Kind.MATCH_EXPR: MatchExpr, Kind.MATCH_ARM_LIST: MatchArmList, Kind.MATCH_ARM: MatchArm, Kind.MATCH_GUARD:
    MatchGuard, Kind.RETURN_EXPR: ReturnExpr, Kind.BECOME_EXPR: BecomeExpr, Kind.YIELD_EXPR: YieldExpr, Kind.YEET_EXPR:
    YeetExpr, Kind.CONTINUE_EXPR: ContinueExpr, Kind.BREAK_EXPR: BreakExpr, Kind.OFFSET_OF_EXPR: OffsetOfExpr,
    Kind.FORMAT_ARGS_EXPR: FormatArgsExpr, Kind.FORMAT_ARGS_ARG: FormatArgsArg, Kind.INCLUDE_BYTES_EXPR:
    IncludeBytesExpr, Kind.CFG_PRED_EXPR: CfgPredExpr, Kind.ASM_EXPR: AsmExpr, Kind.ASM_CLOBBER_ABI: AsmClobberAbi,
    Kind.ASM_OPTIONS: AsmOptions, Kind.ASM_OPTION: AsmOption, Kind.ASM_DIR_SPEC: AsmDirSpec, Kind.ASM_OPERAND_EXPR:
    AsmOperandExpr, Kind.ASM_REG_OPERAND: AsmRegOperand, Kind.ASM_OPERAND_NAMED: AsmOperandNamed, Kind.ASM_LABEL:
    AsmLabel, Kind.ASM_CONST: AsmConst, Kind.ASM_SYM: AsmSym, Kind.ASM_REG_SPEC: AsmRegSpec, Kind.MODULE: Module,
    Kind.ITEM_LIST: ItemList, Kind.EXTERN_CRATE: ExternCrate, Kind.EXTERN_BLOCK: ExternBlock, Kind.EXTERN_ITEM_LIST:
    ExternItemList, Kind.IMPL_RESTRICTION: ImplRestriction, Kind.MUT_RESTRICTION: MutRestriction, Kind.TYPE_ALIAS:
    TypeAlias, Kind.MACRO_RULES: MacroRules, Kind.MACRO_DEF: MacroDef, Kind.FN: Fn, Kind.TOKEN_TREE: TokenTree,
    Kind.STRUCT: Struct, Kind.UNION: Union, Kind.ENUM: Enum, Kind.VARIANT_LIST: VariantList, Kind.VARIANT: Variant,
    Kind.RECORD_FIELD_LIST: RecordFieldList, Kind.RECORD_FIELD: RecordField, Kind.TUPLE_FIELD_LIST: TupleFieldList,
    Kind.TUPLE_FIELD: TupleField, Kind.CONST: Const, Kind.STATIC: Static, Kind.TRAIT: Trait, Kind.IMPL: Impl,
    Kind.ASSOC_ITEM_LIST: AssocItemList, Kind.USE: Use, Kind.USE_TREE: UseTree, Kind.USE_TREE_LIST: UseTreeList,
    Kind.PARAM_LIST: ParamList, Kind.PARAM: Param, Kind.SELF_PARAM: SelfParam, Kind.OR_PAT: OrPat, Kind.RANGE_PAT:
    RangePat, Kind.REST_PAT: RestPat, Kind.DEREF_PAT: DerefPat, Kind.CFG_PRED_PAT: CfgPredPat, Kind.LITERAL_PAT:
    LiteralPat, Kind.TUPLE_STRUCT_PAT: TupleStructPat, Kind.RECORD_PAT: RecordPat, Kind.RECORD_PAT_FIELD_LIST:
    RecordPatFieldList, Kind.RECORD_PAT_FIELD: RecordPatField, Kind.MACRO_PAT: MacroPat, Kind.PATH_PAT: PathPat,
    Kind.WILDCARD_PAT: WildcardPat, Kind.REF_PAT: RefPat, Kind.NOT_NULL: NotNull, Kind.PAREN_PAT: ParenPat,
    Kind.TUPLE_PAT: TuplePat, Kind.SLICE_PAT: SlicePat, Kind.IDENT_PAT: IdentPat, Kind.BOX_PAT: BoxPat,
    Kind.CONST_BLOCK_PAT: ConstBlockPat, Kind.PAREN_TYPE: ParenType, Kind.TUPLE_TYPE: TupleType, Kind.NEVER_TYPE:
    NeverType, Kind.PTR_TYPE: PtrType, Kind.SLICE_TYPE: SliceType, Kind.ARRAY_TYPE: ArrayType, Kind.REF_TYPE: RefType,
    Kind.INFER_TYPE: InferType, Kind.FN_PTR_TYPE: FnPtrType, Kind.FOR_BINDER: ForBinder, Kind.FOR_TYPE: ForType,
    Kind.IMPL_TRAIT_TYPE: ImplTraitType, Kind.DYN_TRAIT_TYPE: DynTraitType, Kind.MACRO_TYPE: MacroType, Kind.PATH_TYPE:
    PathType, Kind.PATTERN_TYPE: PatternType, Kind.TYPE_BOUND: TypeBound, Kind.TYPE_BOUND_LIST: TypeBoundList,
    Kind.GENERIC_ARG_LIST: GenericArgList, Kind.TYPE_ARG: TypeArg, Kind.LIFETIME_ARG: LifetimeArg, Kind.CONST_ARG:
    ConstArg, Kind.ASSOC_TYPE_ARG: AssocTypeArg, Kind.USE_BOUND_GENERIC_ARGS: UseBoundGenericArgs,
    Kind.GENERIC_PARAM_LIST: GenericParamList, Kind.LIFETIME_PARAM: LifetimeParam, Kind.TYPE_PARAM: TypeParam,
    Kind.CONST_PARAM: ConstParam, Kind.WHERE_CLAUSE: WhereClause, Kind.WHERE_PRED: WherePred, Kind.DOC_COMMENT:
    DocComment, Kind.ATTR: Attr, Kind.UNSAFE_META: UnsafeMeta, Kind.CFG_ATTR_META: CfgAttrMeta, Kind.CFG_META: CfgMeta,
    Kind.CFG_ATOM: CfgAtom, Kind.CFG_COMPOSITE: CfgComposite, Kind.KEY_VALUE_META: KeyValueMeta, Kind.TOKEN_TREE_META:
    TokenTreeMeta, Kind.PATH_META: PathMeta
})

__all__ = ['Abi', 'Adt', 'ArgList', 'ArrayExpr', 'ArrayType', 'AsmClobberAbi', 'AsmConst', 'AsmDirSpec', 'AsmExpr',
           'AsmLabel', 'AsmOperand', 'AsmOperandExpr', 'AsmOperandNamed', 'AsmOption', 'AsmOptions', 'AsmPiece',
           'AsmRegOperand', 'AsmRegSpec', 'AsmSym', 'AssocItem', 'AssocItemList', 'AssocTypeArg', 'Attr', 'AwaitExpr',
           'BecomeExpr', 'BinExpr', 'BlockExpr', 'BoxPat', 'BreakExpr', 'CallExpr', 'CastExpr', 'CfgAtom',
           'CfgAttrMeta', 'CfgComposite', 'CfgMeta', 'CfgPredExpr', 'CfgPredPat', 'CfgPredicate', 'ClosureExpr',
           'Const', 'ConstArg', 'ConstBlockPat', 'ConstParam', 'ContinueExpr', 'DerefPat', 'DocComment', 'DynTraitType',
           'ElseBranch', 'Enum', 'Error', 'Expr', 'ExprStmt', 'ExternBlock', 'ExternCrate', 'ExternItem',
           'ExternItemList', 'FieldExpr', 'FieldList', 'Fn', 'FnPtrType', 'ForBinder', 'ForExpr', 'ForType',
           'FormatArgsArg', 'FormatArgsExpr', 'GenericArg', 'GenericArgList', 'GenericParam', 'GenericParamList',
           'IdentPat', 'IfExpr', 'Impl', 'ImplRestriction', 'ImplTraitType', 'IncludeBytesExpr', 'IndexExpr',
           'InferType', 'Item', 'ItemList', 'KeyValueMeta', 'Label', 'LetElse', 'LetExpr', 'LetStmt', 'Lifetime',
           'LifetimeArg', 'LifetimeParam', 'Literal', 'LiteralPat', 'LoopExpr', 'MacroCall', 'MacroDef', 'MacroExpr',
           'MacroItems', 'MacroPat', 'MacroRules', 'MacroStmts', 'MacroType', 'MatchArm', 'MatchArmList', 'MatchExpr',
           'MatchGuard', 'Meta', 'MethodCallExpr', 'Module', 'MutRestriction', 'Name', 'NameRef', 'NeverType',
           'NotNull', 'OffsetOfExpr', 'OrPat', 'Param', 'ParamList', 'ParenExpr', 'ParenPat', 'ParenType',
           'ParenthesizedArgList', 'Pat', 'Path', 'PathExpr', 'PathMeta', 'PathPat', 'PathSegment', 'PathType',
           'PatternType', 'PrefixExpr', 'PtrType', 'RangeExpr', 'RangePat', 'RecordExpr', 'RecordExprField',
           'RecordExprFieldList', 'RecordField', 'RecordFieldList', 'RecordPat', 'RecordPatField', 'RecordPatFieldList',
           'RefExpr', 'RefPat', 'RefType', 'Rename', 'RestPat', 'RetType', 'ReturnExpr', 'ReturnTypeSyntax',
           'SelfParam', 'SlicePat', 'SliceType', 'SourceFile', 'Static', 'Stmt', 'StmtList', 'Struct', 'TokenTree',
           'TokenTreeMeta', 'Trait', 'TryBlockModifier', 'TryExpr', 'TupleExpr', 'TupleField', 'TupleFieldList',
           'TuplePat', 'TupleStructPat', 'TupleType', 'Type', 'TypeAlias', 'TypeAnchor', 'TypeArg', 'TypeBound',
           'TypeBoundList', 'TypeParam', 'UnderscoreExpr', 'Union', 'UnsafeMeta', 'Use', 'UseBoundGenericArg',
           'UseBoundGenericArgs', 'UseTree', 'UseTreeList', 'Variant', 'VariantDef', 'VariantList', 'Visibility',
           'VisibilityInner', 'WhereClause', 'WherePred', 'WhileExpr', 'WildcardPat', 'YeetExpr', 'YieldExpr', 'of',
           'walk']
