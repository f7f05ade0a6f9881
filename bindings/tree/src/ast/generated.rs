// Written by crates/rap_base/fields from fields.txt beside it and the shapes of nodes: an edit here is lost.
//! The sets, the traits and the kinds of nodes with their fields.
use super::support::{self, has, node, set, view};
use super::{AstChildren, AstNode};
use crate::{Node, SyntaxKind, Token};

set! { Expr:
    ArrayExpr(ArrayExpr) AsmExpr(AsmExpr) AwaitExpr(AwaitExpr) BecomeExpr(BecomeExpr) BinExpr(BinExpr)
    BlockExpr(BlockExpr) BreakExpr(BreakExpr) CallExpr(CallExpr) CastExpr(CastExpr) CfgPredExpr(CfgPredExpr)
    ClosureExpr(ClosureExpr) ContinueExpr(ContinueExpr) FieldExpr(FieldExpr) ForExpr(ForExpr)
    FormatArgsExpr(FormatArgsExpr) IfExpr(IfExpr) IncludeBytesExpr(IncludeBytesExpr) IndexExpr(IndexExpr)
    LetExpr(LetExpr) Literal(Literal) LoopExpr(LoopExpr) MacroExpr(MacroExpr) MatchExpr(MatchExpr)
    MethodCallExpr(MethodCallExpr) OffsetOfExpr(OffsetOfExpr) ParenExpr(ParenExpr) PathExpr(PathExpr)
    PrefixExpr(PrefixExpr) RangeExpr(RangeExpr) RecordExpr(RecordExpr) RefExpr(RefExpr) ReturnExpr(ReturnExpr)
    TryExpr(TryExpr) TupleExpr(TupleExpr) UnderscoreExpr(UnderscoreExpr) WhileExpr(WhileExpr) YeetExpr(YeetExpr)
    YieldExpr(YieldExpr)
}

set! { Pat:
    BoxPat(BoxPat) CfgPredPat(CfgPredPat) ConstBlockPat(ConstBlockPat) DerefPat(DerefPat) IdentPat(IdentPat)
    LiteralPat(LiteralPat) MacroPat(MacroPat) NotNull(NotNull) OrPat(OrPat) ParenPat(ParenPat) PathPat(PathPat)
    RangePat(RangePat) RecordPat(RecordPat) RefPat(RefPat) RestPat(RestPat) SlicePat(SlicePat) TuplePat(TuplePat)
    TupleStructPat(TupleStructPat) WildcardPat(WildcardPat)
}

set! { Type:
    ArrayType(ArrayType) DynTraitType(DynTraitType) FnPtrType(FnPtrType) ForType(ForType)
    ImplTraitType(ImplTraitType) InferType(InferType) MacroType(MacroType) NeverType(NeverType) ParenType(ParenType)
    PathType(PathType) PatternType(PatternType) PtrType(PtrType) RefType(RefType) SliceType(SliceType)
    TupleType(TupleType)
}

set! { Item:
    AsmExpr(AsmExpr) Const(Const) Enum(Enum) ExternBlock(ExternBlock) ExternCrate(ExternCrate) Fn(Fn) Impl(Impl)
    MacroCall(MacroCall) MacroDef(MacroDef) MacroRules(MacroRules) Module(Module) Static(Static) Struct(Struct)
    Trait(Trait) TypeAlias(TypeAlias) Union(Union) Use(Use)
}

set! { AssocItem:
    Const(Const) Fn(Fn) MacroCall(MacroCall) TypeAlias(TypeAlias)
}

set! { ExternItem:
    Fn(Fn) MacroCall(MacroCall) Static(Static) TypeAlias(TypeAlias)
}

set! { Stmt:
    ExprStmt(ExprStmt) Item(Item) LetStmt(LetStmt)
}

set! { Adt:
    Enum(Enum) Struct(Struct) Union(Union)
}

set! { VariantDef:
    Struct(Struct) Union(Union) Variant(Variant)
}

set! { FieldList:
    RecordFieldList(RecordFieldList) TupleFieldList(TupleFieldList)
}

set! { GenericParam:
    ConstParam(ConstParam) LifetimeParam(LifetimeParam) TypeParam(TypeParam)
}

set! { GenericArg:
    AssocTypeArg(AssocTypeArg) ConstArg(ConstArg) LifetimeArg(LifetimeArg) TypeArg(TypeArg)
}

set! { UseBoundGenericArg:
    Lifetime(Lifetime) NameRef(NameRef)
}

set! { Meta:
    CfgAttrMeta(CfgAttrMeta) CfgMeta(CfgMeta) KeyValueMeta(KeyValueMeta) PathMeta(PathMeta)
    TokenTreeMeta(TokenTreeMeta) UnsafeMeta(UnsafeMeta)
}

set! { CfgPredicate:
    CfgAtom(CfgAtom) CfgComposite(CfgComposite)
}

set! { ElseBranch:
    Block(BlockExpr) IfExpr(IfExpr)
}

set! { AsmOperand:
    AsmConst(AsmConst) AsmLabel(AsmLabel) AsmRegOperand(AsmRegOperand) AsmSym(AsmSym)
}

set! { AsmPiece:
    AsmClobberAbi(AsmClobberAbi) AsmOperandNamed(AsmOperandNamed) AsmOptions(AsmOptions)
}

/// A node that has `attrs`.
pub trait HasAttrs<'t>: AstNode<'t> {
    /// Its [`Attr`]s, from left to right.
    #[inline]
    fn attrs(self) -> AstChildren<'t, Attr<'t>> {
        support::all(self.syntax())
    }
}

/// A node that has `doc_comments`.
pub trait HasDocComments<'t>: AstNode<'t> {
    /// Its [`DocComment`]s, from left to right.
    #[inline]
    fn doc_comments(self) -> AstChildren<'t, DocComment<'t>> {
        support::all(self.syntax())
    }
}

/// A node that has `name`.
pub trait HasName<'t>: AstNode<'t> {
    /// Its [`Name`], if it has one.
    #[inline]
    fn name(self) -> Option<Name<'t>> {
        support::all(self.syntax()).next()
    }
}

/// A node that has `visibility`.
pub trait HasVisibility<'t>: AstNode<'t> {
    /// Its [`Visibility`], if it has one.
    #[inline]
    fn visibility(self) -> Option<Visibility<'t>> {
        support::all(self.syntax()).next()
    }
}

/// A node that has `generic_param_list` and `where_clause`.
pub trait HasGenericParams<'t>: AstNode<'t> {
    /// Its [`GenericParamList`], if it has one.
    #[inline]
    fn generic_param_list(self) -> Option<GenericParamList<'t>> {
        support::all(self.syntax()).next()
    }

    /// Its [`WhereClause`], if it has one.
    #[inline]
    fn where_clause(self) -> Option<WhereClause<'t>> {
        support::all(self.syntax()).next()
    }
}

/// A node that has `type_bound_list` and `colon_token`.
pub trait HasTypeBounds<'t>: AstNode<'t> {
    /// Its [`TypeBoundList`], if it has one.
    #[inline]
    fn type_bound_list(self) -> Option<TypeBoundList<'t>> {
        support::all(self.syntax()).next()
    }

    /// Its token `COLON`, if it has one.
    #[inline]
    fn colon_token(self) -> Option<Token<'t>> {
        support::token(self.syntax(), |kind| kind == SyntaxKind::COLON)
    }
}

/// A node that has `arg_list`.
pub trait HasArgList<'t>: AstNode<'t> {
    /// Its [`ArgList`], if it has one.
    #[inline]
    fn arg_list(self) -> Option<ArgList<'t>> {
        support::all(self.syntax()).next()
    }
}

/// A node that has `loop_body` and `label`.
pub trait HasLoopBody<'t>: AstNode<'t> {
    /// Its [`BlockExpr`], if it has one.
    #[inline]
    fn loop_body(self) -> Option<BlockExpr<'t>> {
        support::all(self.syntax()).next()
    }

    /// Its [`Label`], if it has one.
    #[inline]
    fn label(self) -> Option<Label<'t>> {
        support::all(self.syntax()).next()
    }
}

/// A node that has `items`.
pub trait HasModuleItem<'t>: AstNode<'t> {
    /// Its [`Item`]s, from left to right.
    #[inline]
    fn items(self) -> AstChildren<'t, Item<'t>> {
        support::all(self.syntax())
    }
}

node! { Error ERROR "what stands where it must not; one without a message in it is a path in place of an item":
    one path(Path first)
}

node! { SourceFile SOURCE_FILE "a file":
    maybe shebang_token[SHEBANG] maybe frontmatter_token[FRONTMATTER]
}

node! { MacroStmts MACRO_STMTS "the statements that a macro gives":
    any statements(Stmt all) maybe expr(Expr first)
}

node! { MacroItems MACRO_ITEMS "the items that a macro gives":
}

node! { Name NAME "a name where it is declared":
    maybe ident_token[IDENT] maybe self_token[SELF_KW]
}

node! { NameRef NAME_REF "a name where it is used: a word, `self` and the like, or the number of a field":
    maybe ident_token[IDENT] maybe int_number_token[INT_NUMBER] maybe self_token[SELF_KW]
    maybe super_token[SUPER_KW] maybe crate_token[CRATE_KW] maybe self_type_token[SELF_TYPE_KW]
}

node! { Lifetime LIFETIME "a lifetime":
    one lifetime_ident_token[LIFETIME_IDENT]
}

node! { Visibility VISIBILITY "who may see what follows":
    maybe visibility_inner(VisibilityInner first) one pub_token[PUB_KW]
}

node! { VisibilityInner VISIBILITY_INNER "where it is seen or may be used, in brackets":
    one path(Path first) one l_paren_token[L_PAREN] maybe in_token[IN_KW] one r_paren_token[R_PAREN]
}

node! { Rename RENAME "another name for what is imported":
    one as_token[AS_KW] maybe underscore_token[UNDERSCORE]
}

node! { Abi ABI "`extern`, perhaps with the name of an ABI":
    one extern_token[EXTERN_KW] maybe string_token[STRING]
}

node! { RetType RET_TYPE "the type of what a function returns":
    one ty(Type first) one thin_arrow_token[THIN_ARROW]
}

node! { Path PATH "a path: its last segment behind the path before it":
    maybe qualifier(Path first) one segment(PathSegment first) maybe coloncolon_token[COLON2]
}

node! { PathSegment PATH_SEGMENT "a segment of a path: a name with its arguments, or a type in angle brackets":
    maybe type_anchor(TypeAnchor first) maybe name_ref(NameRef first) maybe generic_arg_list(GenericArgList first)
    maybe return_type_syntax(ReturnTypeSyntax first) maybe parenthesized_arg_list(ParenthesizedArgList first)
    maybe ret_type(RetType first) maybe coloncolon_token[COLON2]
}

node! { TypeAnchor TYPE_ANCHOR "a type in angle brackets that a path begins with, perhaps as a trait":
    one ty(Type first, before as_token) maybe path_type(Type first, after as_token) one l_angle_token[L_ANGLE]
    maybe as_token[AS_KW] one r_angle_token[R_ANGLE]
}

node! { ReturnTypeSyntax RETURN_TYPE_SYNTAX "`(..)` behind a method, for the type that it returns":
    maybe coloncolon_token[COLON2] one l_paren_token[L_PAREN] one dotdot_token[DOT2] one r_paren_token[R_PAREN]
}

node! { ParenthesizedArgList PARENTHESIZED_ARG_LIST "arguments in brackets, as `Fn(A, B)` has them":
    any type_args(TypeArg all) maybe coloncolon_token[COLON2] one l_paren_token[L_PAREN] one r_paren_token[R_PAREN]
}

node! { LetStmt LET_STMT "a declaration of variables":
    one pat(Pat first) maybe ty(Type first) maybe initializer(Expr first) maybe let_else(LetElse first)
    maybe super_token[SUPER_KW] one let_token[LET_KW] maybe colon_token[COLON] maybe eq_token[EQ]
    maybe semicolon_token[SEMICOLON]
}

node! { ExprStmt EXPR_STMT "an expression as a statement":
    one expr(Expr first) maybe semicolon_token[SEMICOLON]
}

node! { LetElse LET_ELSE "what is done where the pattern does not match":
    one block_expr(BlockExpr first) one else_token[ELSE_KW]
}

node! { StmtList STMT_LIST "the statements of a block":
    any statements(Stmt all) maybe tail_expr(Expr first) one l_curly_token[L_CURLY] one r_curly_token[R_CURLY]
}

node! { BlockExpr BLOCK_EXPR "a block, perhaps with a label, or with words as `unsafe` or `async`":
    maybe label(Label first) maybe try_block_modifier(TryBlockModifier first) one stmt_list(StmtList first)
    maybe unsafe_token[UNSAFE_KW] maybe const_token[CONST_KW] maybe async_token[ASYNC_KW] maybe gen_token[GEN_KW]
    maybe move_token[MOVE_KW]
}

node! { Label LABEL "the label of a block or a loop":
    one lifetime(Lifetime first) one colon_token[COLON]
}

node! { TryBlockModifier TRY_BLOCK_MODIFIER "`try` before a block":
    maybe ty(Type first) one try_token[TRY_KW] maybe bikeshed_token[BIKESHED_KW]
}

node! { RangeExpr RANGE_EXPR "a range, of which either end may be missing":
    maybe start(Expr first, before op_token) maybe end(Expr first, after op_token) one op_token[DOT2 DOT2EQ]
}

node! { BinExpr BIN_EXPR "an operator between two expressions":
    one lhs(Expr first, before op_token) one rhs(Expr first, after op_token) one op_token[L_ANGLE R_ANGLE AMP PIPE
    PLUS STAR SLASH CARET PERCENT EQ MINUS EQ2 NEQ LTEQ GTEQ PLUSEQ MINUSEQ PIPEEQ AMPEQ CARETEQ SLASHEQ STAREQ
    PERCENTEQ AMP2 PIPE2 SHL SHR SHLEQ SHREQ]
}

node! { RefExpr REF_EXPR "a reference, or a raw pointer":
    one expr(Expr first) one amp_token[AMP] maybe raw_token[RAW_KW] maybe mut_token[MUT_KW]
    maybe const_token[CONST_KW]
}

node! { PrefixExpr PREFIX_EXPR "a sign before an expression":
    maybe expr(Expr first) one op_token[STAR BANG MINUS]
}

node! { CallExpr CALL_EXPR "a call":
    one expr(Expr first)
}

node! { IndexExpr INDEX_EXPR "an element by its index":
    one base(Expr first, before l_brack_token) one index(Expr first, after l_brack_token) one l_brack_token[L_BRACK]
    one r_brack_token[R_BRACK]
}

node! { MethodCallExpr METHOD_CALL_EXPR "a call of a method":
    one receiver(Expr first) one name_ref(NameRef first) maybe generic_arg_list(GenericArgList first)
    maybe dot_token[DOT]
}

node! { FieldExpr FIELD_EXPR "a field by its name or its number":
    one expr(Expr first) one name_ref(NameRef first) maybe dot_token[DOT]
}

node! { AwaitExpr AWAIT_EXPR "a future that is awaited":
    one expr(Expr first) maybe dot_token[DOT] one await_token[AWAIT_KW]
}

node! { TryExpr TRY_EXPR "`?` behind an expression":
    one expr(Expr first) one question_mark_token[QUESTION]
}

node! { CastExpr CAST_EXPR "a value as another type":
    one expr(Expr first) one ty(Type first) one as_token[AS_KW]
}

node! { ArgList ARG_LIST "the arguments of a call":
    any args(Expr all) one l_paren_token[L_PAREN] one r_paren_token[R_PAREN]
}

node! { RecordExpr RECORD_EXPR "a value of a structure":
    one path(Path first) one record_expr_field_list(RecordExprFieldList first)
}

node! { RecordExprField RECORD_EXPR_FIELD "a field with its value, or a variable of the same name":
    maybe name_ref(NameRef first) one expr(Expr first) maybe colon_token[COLON]
}

node! { RecordExprFieldList RECORD_EXPR_FIELD_LIST "its fields, and `..` with the value that the others are taken from":
    any fields(RecordExprField all) maybe spread(Expr first) one l_curly_token[L_CURLY] maybe dotdot_token[DOT2]
    one r_curly_token[R_CURLY]
}

node! { MacroCall MACRO_CALL "a call of a macro":
    one path(Path first) one token_tree(TokenTree first) one excl_token[BANG] maybe semicolon_token[SEMICOLON]
}

node! { MacroExpr MACRO_EXPR "a call of a macro as an expression":
    one macro_call(MacroCall first)
}

node! { PathExpr PATH_EXPR "a path as an expression":
    one path(Path first)
}

node! { Literal LITERAL "a literal":
    one token[FALSE_KW TRUE_KW INT_NUMBER FLOAT_NUMBER CHAR BYTE STRING BYTE_STRING C_STRING]
}

node! { UnderscoreExpr UNDERSCORE_EXPR "`_` as an expression":
    one underscore_token[UNDERSCORE]
}

node! { ParenExpr PAREN_EXPR "an expression in brackets":
    one expr(Expr first) one l_paren_token[L_PAREN] one r_paren_token[R_PAREN]
}

node! { TupleExpr TUPLE_EXPR "a tuple":
    any fields(Expr all) one l_paren_token[L_PAREN] one r_paren_token[R_PAREN]
}

node! { ArrayExpr ARRAY_EXPR "an array: its elements, or one and how many":
    any exprs(Expr all, before semicolon_token) maybe repeat(Expr first, after semicolon_token)
    one l_brack_token[L_BRACK] maybe semicolon_token[SEMICOLON] one r_brack_token[R_BRACK]
}

node! { ClosureExpr CLOSURE_EXPR "a closure":
    maybe for_binder(ForBinder first) one param_list(ParamList first) maybe ret_type(RetType first)
    one body(Expr first) maybe const_token[CONST_KW] maybe static_token[STATIC_KW] maybe async_token[ASYNC_KW]
    maybe gen_token[GEN_KW] maybe move_token[MOVE_KW]
}

node! { IfExpr IF_EXPR "a choice by a condition":
    one condition(Expr first, before then_branch) one then_branch(BlockExpr last, before else_token)
    maybe else_branch(ElseBranch first, after else_token) one if_token[IF_KW] maybe else_token[ELSE_KW]
}

node! { LoopExpr LOOP_EXPR "a loop without an end":
    one loop_token[LOOP_KW]
}

node! { WhileExpr WHILE_EXPR "a loop by a condition":
    one condition(Expr first, before loop_body) one while_token[WHILE_KW]
}

impl<'t> HasLoopBody<'t> for WhileExpr<'t> {
    #[inline]
    fn loop_body(self) -> Option<BlockExpr<'t>> {
        support::all(self.0).last()
    }
}

node! { ForExpr FOR_EXPR "a loop over values":
    one pat(Pat first) one iterable(Expr first, before loop_body) one for_token[FOR_KW] one in_token[IN_KW]
}

impl<'t> HasLoopBody<'t> for ForExpr<'t> {
    #[inline]
    fn loop_body(self) -> Option<BlockExpr<'t>> {
        support::all(self.0).last()
    }
}

node! { LetExpr LET_EXPR "a pattern as a condition":
    one pat(Pat first) one expr(Expr first) one let_token[LET_KW] one eq_token[EQ]
}

node! { MatchExpr MATCH_EXPR "a choice by patterns":
    one expr(Expr first) one match_arm_list(MatchArmList first) one match_token[MATCH_KW]
}

node! { MatchArmList MATCH_ARM_LIST "the arms of a choice":
    any arms(MatchArm all) one l_curly_token[L_CURLY] one r_curly_token[R_CURLY]
}

node! { MatchArm MATCH_ARM "an arm: its pattern, and what is done":
    one pat(Pat first) maybe guard(MatchGuard first) one expr(Expr first) one fat_arrow_token[FAT_ARROW]
    maybe comma_token[COMMA]
}

node! { MatchGuard MATCH_GUARD "the condition of an arm":
    one condition(Expr first) one if_token[IF_KW]
}

node! { ReturnExpr RETURN_EXPR "the return from a function":
    maybe expr(Expr first) one return_token[RETURN_KW]
}

node! { BecomeExpr BECOME_EXPR "a call that takes the place of the function's own":
    one expr(Expr first) one become_token[BECOME_KW]
}

node! { YieldExpr YIELD_EXPR "a value that a generator yields":
    maybe expr(Expr first) one yield_token[YIELD_KW]
}

node! { YeetExpr YEET_EXPR "an error that is returned":
    maybe expr(Expr first) one do_token[DO_KW] maybe yeet_token[YEET_KW]
}

node! { ContinueExpr CONTINUE_EXPR "the next turn of a loop":
    maybe lifetime(Lifetime first) one continue_token[CONTINUE_KW]
}

node! { BreakExpr BREAK_EXPR "the end of a loop or a block":
    maybe lifetime(Lifetime first) maybe expr(Expr first) one break_token[BREAK_KW]
}

node! { OffsetOfExpr OFFSET_OF_EXPR "the offset of a field":
    one ty(Type first) any fields(NameRef all) one builtin_token[BUILTIN_KW] one pound_token[POUND]
    one offset_of_token[OFFSET_OF_KW] one l_paren_token[L_PAREN] one comma_token[COMMA] one r_paren_token[R_PAREN]
}

node! { FormatArgsExpr FORMAT_ARGS_EXPR "a text with arguments to format":
    one template(Expr first) any args(FormatArgsArg all) one builtin_token[BUILTIN_KW] one pound_token[POUND]
    one format_args_token[FORMAT_ARGS_KW] one l_paren_token[L_PAREN] one r_paren_token[R_PAREN]
}

node! { FormatArgsArg FORMAT_ARGS_ARG "such an argument, perhaps with a name":
    one expr(Expr first) maybe eq_token[EQ]
}

node! { IncludeBytesExpr INCLUDE_BYTES_EXPR "`include_bytes`, of which these words alone are taken":
    one builtin_token[BUILTIN_KW] one pound_token[POUND] one include_bytes_token[INCLUDE_BYTES_KW]
}

node! { CfgPredExpr CFG_PRED_EXPR "whether a condition holds":
    one cfg_predicate(CfgPredicate first) one builtin_token[BUILTIN_KW] one pound_token[POUND] one cfg_token[CFG_KW]
    one l_paren_token[L_PAREN] maybe comma_token[COMMA] one r_paren_token[R_PAREN]
}

node! { AsmExpr ASM_EXPR "assembly: an expression or, where it is global, an item":
    any template(Expr all) any asm_pieces(AsmPiece all) one builtin_token[BUILTIN_KW] one pound_token[POUND]
    maybe asm_token[ASM_KW] maybe global_asm_token[GLOBAL_ASM_KW] maybe naked_asm_token[NAKED_ASM_KW]
    one l_paren_token[L_PAREN] one r_paren_token[R_PAREN]
}

node! { AsmClobberAbi ASM_CLOBBER_ABI "the ABIs whose registers are overwritten":
    one clobber_abi_token[CLOBBER_ABI_KW] one l_paren_token[L_PAREN] maybe r_paren_token[R_PAREN]
}

node! { AsmOptions ASM_OPTIONS "the options of assembly":
    any asm_options(AsmOption all) one options_token[OPTIONS_KW] one l_paren_token[L_PAREN]
    maybe r_paren_token[R_PAREN]
}

node! { AsmOption ASM_OPTION "an option":
    maybe att_syntax_token[ATT_SYNTAX_KW] maybe may_unwind_token[MAY_UNWIND_KW] maybe nomem_token[NOMEM_KW]
    maybe noreturn_token[NORETURN_KW] maybe nostack_token[NOSTACK_KW]
    maybe preserves_flags_token[PRESERVES_FLAGS_KW] maybe pure_token[PURE_KW] maybe raw_token[RAW_KW]
    maybe readonly_token[READONLY_KW]
}

node! { AsmDirSpec ASM_DIR_SPEC "whether an operand goes in or out":
    maybe in_token[IN_KW] maybe inlateout_token[INLATEOUT_KW] maybe inout_token[INOUT_KW]
    maybe lateout_token[LATEOUT_KW] maybe out_token[OUT_KW]
}

node! { AsmOperandExpr ASM_OPERAND_EXPR "what goes in, and where it comes out":
    one in_expr(Expr first, before fat_arrow_token) maybe out_expr(Expr first, after fat_arrow_token)
    maybe fat_arrow_token[FAT_ARROW]
}

node! { AsmRegOperand ASM_REG_OPERAND "an operand in a register":
    one asm_dir_spec(AsmDirSpec first) one asm_reg_spec(AsmRegSpec first) one asm_operand_expr(AsmOperandExpr first)
    one l_paren_token[L_PAREN] one r_paren_token[R_PAREN]
}

node! { AsmOperandNamed ASM_OPERAND_NAMED "an operand, perhaps with a name":
    one asm_operand(AsmOperand first) maybe eq_token[EQ]
}

node! { AsmLabel ASM_LABEL "a block to jump to":
    one block_expr(BlockExpr first) one label_token[LABEL_KW]
}

node! { AsmConst ASM_CONST "a constant":
    one expr(Expr first) one const_token[CONST_KW]
}

node! { AsmSym ASM_SYM "a function or a static variable":
    one path(Path first) one sym_token[SYM_KW] maybe l_paren_token[L_PAREN] maybe r_paren_token[R_PAREN]
}

node! { AsmRegSpec ASM_REG_SPEC "a register, or which ones may be taken":
    maybe name_ref(NameRef first) maybe string_token[STRING]
}

node! { Module MODULE "a module, with its items or in a file of its own":
    maybe item_list(ItemList first) one mod_token[MOD_KW] maybe semicolon_token[SEMICOLON]
}

node! { ItemList ITEM_LIST "the items of a module":
    one l_curly_token[L_CURLY] one r_curly_token[R_CURLY]
}

node! { ExternCrate EXTERN_CRATE "a crate that is named":
    one name_ref(NameRef first) maybe rename(Rename first) one extern_token[EXTERN_KW] one crate_token[CRATE_KW]
    one semicolon_token[SEMICOLON]
}

node! { ExternBlock EXTERN_BLOCK "a block of items that are defined elsewhere":
    maybe impl_restriction(ImplRestriction first) one abi(Abi first) one extern_item_list(ExternItemList first)
    maybe const_token[CONST_KW] maybe async_token[ASYNC_KW] maybe unsafe_token[UNSAFE_KW] maybe safe_token[SAFE_KW]
}

node! { ExternItemList EXTERN_ITEM_LIST "the items of such a block":
    any extern_items(ExternItem all) one l_curly_token[L_CURLY] one r_curly_token[R_CURLY]
}

node! { ImplRestriction IMPL_RESTRICTION "where a trait may be implemented":
    one visibility_inner(VisibilityInner first) one impl_token[IMPL_KW]
}

node! { MutRestriction MUT_RESTRICTION "where a field may be changed":
    one visibility_inner(VisibilityInner first) one mut_token[MUT_KW]
}

node! { TypeAlias TYPE_ALIAS "a name for a type, or an associated type":
    maybe impl_restriction(ImplRestriction first) maybe abi(Abi first)
    maybe trailing_where_clause(WhereClause first, past where_clause) maybe ty(Type first)
    maybe const_token[CONST_KW] maybe async_token[ASYNC_KW] maybe unsafe_token[UNSAFE_KW] maybe safe_token[SAFE_KW]
    maybe default_token[DEFAULT_KW] one type_token[TYPE_KW] maybe eq_token[EQ] one semicolon_token[SEMICOLON]
}

impl<'t> HasGenericParams<'t> for TypeAlias<'t> {
    #[inline]
    fn where_clause(self) -> Option<WhereClause<'t>> {
        support::before(self.0, self.eq_token()).next()
    }
}

node! { MacroRules MACRO_RULES "a macro by its rules":
    one token_tree(TokenTree first) one macro_rules_token[MACRO_RULES_KW] one excl_token[BANG]
    maybe semicolon_token[SEMICOLON]
}

node! { MacroDef MACRO_DEF "a macro with one rule or with several":
    maybe args(TokenTree first, before body) one body(TokenTree last) one macro_token[MACRO_KW]
}

node! { Fn FN "a function":
    maybe impl_restriction(ImplRestriction first) maybe abi(Abi first) one param_list(ParamList first)
    maybe ret_type(RetType first) maybe body(BlockExpr first) maybe const_token[CONST_KW]
    maybe async_token[ASYNC_KW] maybe gen_token[GEN_KW] maybe unsafe_token[UNSAFE_KW] maybe safe_token[SAFE_KW]
    maybe default_token[DEFAULT_KW] one fn_token[FN_KW] maybe semicolon_token[SEMICOLON]
}

node! { TokenTree TOKEN_TREE "any tokens in a pair of brackets":
    any token_trees(TokenTree all)
}

node! { Struct STRUCT "a structure":
    maybe field_list(FieldList first) one struct_token[STRUCT_KW] maybe semicolon_token[SEMICOLON]
}

node! { Union UNION "a union":
    maybe record_field_list(RecordFieldList first) one union_token[UNION_KW] maybe semicolon_token[SEMICOLON]
}

node! { Enum ENUM "an enumeration":
    one variant_list(VariantList first) one enum_token[ENUM_KW]
}

node! { VariantList VARIANT_LIST "the variants of an enumeration":
    any variants(Variant all) one l_curly_token[L_CURLY] one r_curly_token[R_CURLY]
}

node! { Variant VARIANT "a variant of an enumeration":
    maybe field_list(FieldList first) maybe const_arg(ConstArg first) maybe underscore_token[UNDERSCORE]
    maybe eq_token[EQ]
}

node! { RecordFieldList RECORD_FIELD_LIST "fields with names, in braces":
    any fields(RecordField all) one l_curly_token[L_CURLY] one r_curly_token[R_CURLY]
}

node! { RecordField RECORD_FIELD "a field with a name":
    maybe mut_restriction(MutRestriction first) one ty(Type first) maybe default_val(ConstArg first)
    maybe unsafe_token[UNSAFE_KW] one colon_token[COLON] maybe eq_token[EQ]
}

node! { TupleFieldList TUPLE_FIELD_LIST "fields without names, in brackets":
    any fields(TupleField all) one l_paren_token[L_PAREN] one r_paren_token[R_PAREN]
}

node! { TupleField TUPLE_FIELD "a field without a name":
    maybe mut_restriction(MutRestriction first) one ty(Type first)
}

node! { Const CONST "a constant":
    maybe impl_restriction(ImplRestriction first) maybe abi(Abi first) one ty(Type first) maybe body(Expr first)
    one const_token[CONST_KW] maybe async_token[ASYNC_KW] maybe unsafe_token[UNSAFE_KW] maybe safe_token[SAFE_KW]
    maybe default_token[DEFAULT_KW] maybe type_token[TYPE_KW] maybe mut_token[MUT_KW]
    maybe underscore_token[UNDERSCORE] one colon_token[COLON] maybe eq_token[EQ] one semicolon_token[SEMICOLON]
}

node! { Static STATIC "a static variable":
    maybe impl_restriction(ImplRestriction first) maybe abi(Abi first)
    maybe generic_param_list(GenericParamList first) one ty(Type first) maybe body(Expr first)
    maybe const_token[CONST_KW] maybe async_token[ASYNC_KW] maybe unsafe_token[UNSAFE_KW] maybe safe_token[SAFE_KW]
    one static_token[STATIC_KW] maybe mut_token[MUT_KW] one colon_token[COLON] maybe eq_token[EQ]
    one semicolon_token[SEMICOLON]
}

node! { Trait TRAIT "a trait, or a name for bounds":
    maybe impl_restriction(ImplRestriction first) maybe abi(Abi first) maybe assoc_item_list(AssocItemList first)
    maybe const_token[CONST_KW] maybe async_token[ASYNC_KW] maybe unsafe_token[UNSAFE_KW] maybe safe_token[SAFE_KW]
    maybe auto_token[AUTO_KW] one trait_token[TRAIT_KW] maybe eq_token[EQ] maybe semicolon_token[SEMICOLON]
}

node! { Impl IMPL "the implementation of a trait or of a type":
    maybe impl_restriction(ImplRestriction first) maybe abi(Abi first)
    maybe trait_(Type first, only_before for_token) one self_ty(Type first, past for_token)
    one assoc_item_list(AssocItemList first) maybe const_token[CONST_KW] maybe async_token[ASYNC_KW]
    maybe unsafe_token[UNSAFE_KW] maybe safe_token[SAFE_KW] maybe default_token[DEFAULT_KW] one impl_token[IMPL_KW]
    maybe excl_token[BANG] maybe for_token[FOR_KW]
}

node! { AssocItemList ASSOC_ITEM_LIST "the items of a trait or of an implementation":
    any assoc_items(AssocItem all) one l_curly_token[L_CURLY] one r_curly_token[R_CURLY]
}

node! { Use USE "an import":
    one use_tree(UseTree first) one use_token[USE_KW] one semicolon_token[SEMICOLON]
}

node! { UseTree USE_TREE "a path of an import, `*` or a list behind a path":
    maybe path(Path first) maybe use_tree_list(UseTreeList first) maybe rename(Rename first)
    maybe coloncolon_token[COLON2] maybe star_token[STAR]
}

node! { UseTreeList USE_TREE_LIST "the paths of an import, in braces":
    any use_trees(UseTree all) one l_curly_token[L_CURLY] one r_curly_token[R_CURLY]
}

node! { ParamList PARAM_LIST "the parameters of a function, in brackets, or of a closure, between bars":
    maybe self_param(SelfParam first) any params(Param all) maybe l_paren_token[L_PAREN]
    maybe r_paren_token[R_PAREN] maybe pipe_token[PIPE]
}

node! { Param PARAM "a parameter: a pattern with its type, one of them alone, or `...`":
    maybe pat(Pat first) maybe ty(Type first) maybe colon_token[COLON] maybe dotdotdot_token[DOT3]
}

node! { SelfParam SELF_PARAM "`self` as a parameter":
    maybe lifetime(Lifetime first) maybe ty(Type first) maybe amp_token[AMP] maybe mut_token[MUT_KW]
    maybe colon_token[COLON]
}

node! { OrPat OR_PAT "one of several patterns":
    any pats(Pat all)
}

node! { RangePat RANGE_PAT "a range, of which one end may be missing":
    maybe start(Pat first, before op_token) maybe end(Pat first, after op_token) one op_token[DOT2 DOT3 DOT2EQ]
}

node! { RestPat REST_PAT "the other elements or fields":
    one dotdot_token[DOT2]
}

node! { DerefPat DEREF_PAT "what a smart pointer points to":
    one pat(Pat first) one builtin_token[BUILTIN_KW] one pound_token[POUND] one deref_token[DEREF_KW]
    one l_paren_token[L_PAREN] one r_paren_token[R_PAREN]
}

node! { CfgPredPat CFG_PRED_PAT "a condition as a pattern":
    one cfg_predicate(CfgPredicate first) one builtin_token[BUILTIN_KW] one pound_token[POUND] one cfg_token[CFG_KW]
    one l_paren_token[L_PAREN] maybe comma_token[COMMA] one r_paren_token[R_PAREN]
}

node! { LiteralPat LITERAL_PAT "a literal, perhaps with a minus":
    one literal(Literal first) maybe minus_token[MINUS]
}

node! { TupleStructPat TUPLE_STRUCT_PAT "a path with patterns in brackets":
    one path(Path first) any fields(Pat all) one l_paren_token[L_PAREN] one r_paren_token[R_PAREN]
}

node! { RecordPat RECORD_PAT "a path with fields in braces":
    one path(Path first) one record_pat_field_list(RecordPatFieldList first)
}

node! { RecordPatFieldList RECORD_PAT_FIELD_LIST "those fields":
    any fields(RecordPatField all) maybe rest_pat(RestPat first) one l_curly_token[L_CURLY]
    one r_curly_token[R_CURLY]
}

node! { RecordPatField RECORD_PAT_FIELD "a field with its pattern, or its name alone":
    maybe name_ref(NameRef first) one pat(Pat first) maybe colon_token[COLON]
}

node! { MacroPat MACRO_PAT "a call of a macro as a pattern":
    one macro_call(MacroCall first)
}

node! { PathPat PATH_PAT "a path as a pattern":
    one path(Path first)
}

node! { WildcardPat WILDCARD_PAT "what matches anything":
    one underscore_token[UNDERSCORE]
}

node! { RefPat REF_PAT "a reference":
    one pat(Pat first) one amp_token[AMP] maybe mut_token[MUT_KW]
}

node! { NotNull NOT_NULL "what is not null, in a pattern type":
    one pat(Pat first) one excl_token[BANG]
}

node! { ParenPat PAREN_PAT "a pattern in brackets":
    one pat(Pat first) one l_paren_token[L_PAREN] one r_paren_token[R_PAREN]
}

node! { TuplePat TUPLE_PAT "a tuple":
    any fields(Pat all) one l_paren_token[L_PAREN] one r_paren_token[R_PAREN]
}

node! { SlicePat SLICE_PAT "a slice or an array":
    any pats(Pat all) one l_brack_token[L_BRACK] one r_brack_token[R_BRACK]
}

node! { IdentPat IDENT_PAT "a name that is bound":
    maybe pat(Pat first) maybe ref_token[REF_KW] maybe mut_token[MUT_KW] maybe at_token[AT]
}

node! { BoxPat BOX_PAT "what is in a box":
    one pat(Pat first) one box_token[BOX_KW]
}

node! { ConstBlockPat CONST_BLOCK_PAT "a block of constants as a pattern":
    one block_expr(BlockExpr first) one const_token[CONST_KW]
}

node! { ParenType PAREN_TYPE "a type in brackets":
    one ty(Type first) one l_paren_token[L_PAREN] one r_paren_token[R_PAREN]
}

node! { TupleType TUPLE_TYPE "a tuple":
    any fields(Type all) one l_paren_token[L_PAREN] one r_paren_token[R_PAREN]
}

node! { NeverType NEVER_TYPE "the type without values":
    one excl_token[BANG]
}

node! { PtrType PTR_TYPE "a raw pointer: `mut` or `const` behind the star":
    one ty(Type first) one star_token[STAR] maybe const_token[CONST_KW] maybe mut_token[MUT_KW]
}

node! { SliceType SLICE_TYPE "a slice":
    one ty(Type first) one l_brack_token[L_BRACK] one r_brack_token[R_BRACK]
}

node! { ArrayType ARRAY_TYPE "an array":
    one ty(Type first) one const_arg(ConstArg first) one l_brack_token[L_BRACK] one semicolon_token[SEMICOLON]
    one r_brack_token[R_BRACK]
}

node! { RefType REF_TYPE "a reference":
    maybe lifetime(Lifetime first) one ty(Type first) one amp_token[AMP] maybe mut_token[MUT_KW]
}

node! { InferType INFER_TYPE "a type that is left to be inferred":
    one underscore_token[UNDERSCORE]
}

node! { FnPtrType FN_PTR_TYPE "a pointer to a function":
    maybe abi(Abi first) one param_list(ParamList first) maybe ret_type(RetType first) maybe unsafe_token[UNSAFE_KW]
    one fn_token[FN_KW]
}

node! { ForBinder FOR_BINDER "`for` with lifetimes":
    one generic_param_list(GenericParamList first) one for_token[FOR_KW]
}

node! { ForType FOR_TYPE "a type with `for` before it":
    one for_binder(ForBinder first) one ty(Type first)
}

node! { ImplTraitType IMPL_TRAIT_TYPE "some type with these bounds":
    one type_bound_list(TypeBoundList first) one impl_token[IMPL_KW]
}

node! { DynTraitType DYN_TRAIT_TYPE "any value with these bounds":
    one type_bound_list(TypeBoundList first) maybe dyn_token[DYN_KW]
}

node! { MacroType MACRO_TYPE "a call of a macro as a type":
    one macro_call(MacroCall first)
}

node! { PathType PATH_TYPE "a path as a type":
    one path(Path first)
}

node! { PatternType PATTERN_TYPE "a type with a pattern that its values match":
    one ty(Type first) one pat(Pat first) one builtin_token[BUILTIN_KW] one pound_token[POUND]
    one pattern_type_token[PATTERN_TYPE_KW] one l_paren_token[L_PAREN] one is_token[IS_KW]
    one r_paren_token[R_PAREN]
}

node! { TypeBound TYPE_BOUND "a bound, perhaps in brackets":
    maybe lifetime(Lifetime first) maybe use_bound_generic_args(UseBoundGenericArgs first)
    maybe for_binder(ForBinder first) maybe ty(Type first) maybe l_paren_token[L_PAREN] maybe use_token[USE_KW]
    maybe l_brack_token[L_BRACK] maybe tilde_token[TILDE] maybe const_token[CONST_KW] maybe r_brack_token[R_BRACK]
    maybe async_token[ASYNC_KW] maybe question_mark_token[QUESTION] maybe r_paren_token[R_PAREN]
}

node! { TypeBoundList TYPE_BOUND_LIST "bounds with `+` between":
    any bounds(TypeBound all) maybe for_binder(ForBinder first) maybe l_paren_token[L_PAREN]
    maybe l_brack_token[L_BRACK] maybe tilde_token[TILDE] maybe const_token[CONST_KW] maybe r_brack_token[R_BRACK]
    maybe async_token[ASYNC_KW] maybe question_mark_token[QUESTION]
}

node! { GenericArgList GENERIC_ARG_LIST "the generic arguments in angle brackets":
    any generic_args(GenericArg all) maybe coloncolon_token[COLON2] one l_angle_token[L_ANGLE]
    one r_angle_token[R_ANGLE]
}

node! { TypeArg TYPE_ARG "a type as an argument":
    one ty(Type first)
}

node! { LifetimeArg LIFETIME_ARG "a lifetime as an argument":
    one lifetime(Lifetime first)
}

node! { ConstArg CONST_ARG "a constant as an argument, a length, a default or the value of a variant":
    one expr(Expr first)
}

node! { AssocTypeArg ASSOC_TYPE_ARG "an associated type or constant, with its value or its bounds":
    one name_ref(NameRef first) maybe generic_arg_list(GenericArgList first)
    maybe return_type_syntax(ReturnTypeSyntax first) maybe parenthesized_arg_list(ParenthesizedArgList first)
    maybe ret_type(RetType first) maybe ty(Type first) maybe const_arg(ConstArg first) maybe eq_token[EQ]
}

node! { UseBoundGenericArgs USE_BOUND_GENERIC_ARGS "the parameters that an opaque type captures":
    any use_bound_generic_args(UseBoundGenericArg all) one l_angle_token[L_ANGLE] one r_angle_token[R_ANGLE]
}

node! { GenericParamList GENERIC_PARAM_LIST "the generic parameters of a declaration":
    any generic_params(GenericParam all) one l_angle_token[L_ANGLE] one r_angle_token[R_ANGLE]
}

node! { LifetimeParam LIFETIME_PARAM "a lifetime as a parameter":
    one lifetime(Lifetime first)
}

node! { TypeParam TYPE_PARAM "a type as a parameter":
    maybe default_type(Type first) maybe eq_token[EQ]
}

node! { ConstParam CONST_PARAM "a constant as a parameter":
    one ty(Type first) maybe default_val(ConstArg first) one const_token[CONST_KW] one colon_token[COLON]
    maybe eq_token[EQ]
}

node! { WhereClause WHERE_CLAUSE "the conditions of a declaration":
    any predicates(WherePred all) one where_token[WHERE_KW]
}

node! { WherePred WHERE_PRED "a condition: the bounds of a lifetime or a type":
    maybe lifetime(Lifetime first) maybe for_binder(ForBinder first) maybe ty(Type first)
}

node! { DocComment DOC_COMMENT "a comment of documentation":
    maybe outer_doc_comment_token[OUTER_DOC_COMMENT] maybe inner_doc_comment_token[INNER_DOC_COMMENT]
}

node! { Attr ATTR "an attribute":
    one meta(Meta first) one pound_token[POUND] maybe excl_token[BANG] one l_brack_token[L_BRACK]
    one r_brack_token[R_BRACK]
}

node! { UnsafeMeta UNSAFE_META "an attribute in `unsafe(..)`":
    one meta(Meta first) one unsafe_token[UNSAFE_KW] one l_paren_token[L_PAREN] one r_paren_token[R_PAREN]
}

node! { CfgAttrMeta CFG_ATTR_META "attributes under a condition":
    one cfg_predicate(CfgPredicate first) any metas(Meta all) one cfg_attr_token[CFG_ATTR_KW]
    one l_paren_token[L_PAREN] one r_paren_token[R_PAREN]
}

node! { CfgMeta CFG_META "a condition":
    one cfg_predicate(CfgPredicate first) one cfg_token[CFG_KW] one l_paren_token[L_PAREN] maybe comma_token[COMMA]
    one r_paren_token[R_PAREN]
}

node! { CfgAtom CFG_ATOM "an option, perhaps with its value, or `true` or `false`":
    maybe ident_token[IDENT] maybe eq_token[EQ] maybe string_token[STRING] maybe true_token[TRUE_KW]
    maybe false_token[FALSE_KW]
}

node! { CfgComposite CFG_COMPOSITE "`all`, `any` or `not` of conditions":
    any cfg_predicates(CfgPredicate all) one ident_token[IDENT] one l_paren_token[L_PAREN]
    one r_paren_token[R_PAREN]
}

node! { KeyValueMeta KEY_VALUE_META "an attribute with a value":
    one path(Path first) one expr(Expr first) one eq_token[EQ]
}

node! { TokenTreeMeta TOKEN_TREE_META "an attribute with tokens in brackets":
    one path(Path first) one token_tree(TokenTree first)
}

node! { PathMeta PATH_META "an attribute that is a path alone":
    one path(Path first)
}

has! { HasAttrs:
    Item AssocItem ExternItem Adt VariantDef GenericParam ElseBranch AsmPiece Error SourceFile MacroItems LetStmt
    StmtList BlockExpr RangeExpr RefExpr PrefixExpr CallExpr IndexExpr MethodCallExpr FieldExpr AwaitExpr TryExpr
    RecordExpr RecordExprField RecordExprFieldList MacroCall MacroExpr PathExpr Literal UnderscoreExpr ParenExpr
    TupleExpr ArrayExpr ClosureExpr IfExpr LoopExpr WhileExpr ForExpr LetExpr MatchExpr MatchArmList MatchArm
    ReturnExpr BecomeExpr YieldExpr YeetExpr ContinueExpr BreakExpr OffsetOfExpr FormatArgsExpr IncludeBytesExpr
    CfgPredExpr AsmExpr AsmClobberAbi AsmOptions AsmOperandNamed Module ItemList ExternCrate ExternBlock
    ExternItemList TypeAlias MacroRules MacroDef Fn Struct Union Enum Variant RecordField TupleField Const Static
    Trait Impl AssocItemList Use ParamList Param SelfParam RestPat RecordPatField LifetimeParam TypeParam ConstParam
}

has! { HasDocComments:
    Item AssocItem ExternItem Adt VariantDef GenericParam ElseBranch AsmPiece Error SourceFile MacroItems LetStmt
    StmtList BlockExpr RangeExpr RefExpr PrefixExpr CallExpr IndexExpr MethodCallExpr FieldExpr AwaitExpr TryExpr
    RecordExpr RecordExprField RecordExprFieldList MacroCall MacroExpr PathExpr Literal UnderscoreExpr ParenExpr
    TupleExpr ArrayExpr ClosureExpr IfExpr LoopExpr WhileExpr ForExpr LetExpr MatchExpr MatchArmList MatchArm
    ReturnExpr BecomeExpr YieldExpr YeetExpr ContinueExpr BreakExpr OffsetOfExpr FormatArgsExpr IncludeBytesExpr
    CfgPredExpr AsmExpr AsmClobberAbi AsmOptions AsmOperandNamed Module ItemList ExternCrate ExternBlock
    ExternItemList TypeAlias MacroRules MacroDef Fn Struct Union Enum Variant RecordField TupleField Const Static
    Trait Impl AssocItemList Use ParamList Param SelfParam RestPat RecordPatField LifetimeParam TypeParam ConstParam
}

has! { HasName:
    Adt VariantDef Rename FormatArgsArg AsmOperandNamed Module TypeAlias MacroRules MacroDef Fn Struct Union Enum
    Variant RecordField Const Static Trait SelfParam IdentPat TypeParam ConstParam
}

has! { HasVisibility:
    Adt AsmExpr Module ExternCrate ExternBlock TypeAlias MacroRules MacroDef Fn Struct Union Enum RecordField
    TupleField Const Static Trait Impl Use
}

has! { HasGenericParams:
    Adt Fn Struct Union Enum Const Trait Impl
}

has! { HasTypeBounds:
    TypeAlias Trait AssocTypeArg LifetimeParam TypeParam WherePred
}

has! { HasArgList:
    CallExpr MethodCallExpr
}

has! { HasLoopBody:
    LoopExpr
}

has! { HasModuleItem:
    SourceFile MacroItems ItemList
}
