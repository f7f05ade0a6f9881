// Written by crates/rap_base/fields from fields.txt beside it and the shapes of nodes: an edit here is lost.
// The fields of all kinds of nodes, in their order.

fields! {
    Error ERROR:
        any attrs any doc_comments one path
    ;
    SourceFile SOURCE_FILE:
        any attrs any doc_comments any items maybe [shebang_token] maybe [frontmatter_token]
    ;
    MacroStmts MACRO_STMTS:
        any statements maybe expr
    ;
    MacroItems MACRO_ITEMS:
        any attrs any doc_comments any items
    ;
    Name NAME:
        maybe [ident_token] maybe [self_token]
    ;
    NameRef NAME_REF:
        maybe [ident_token] maybe [int_number_token] maybe [self_token] maybe [super_token] maybe [crate_token]
        maybe [self_type_token]
    ;
    Lifetime LIFETIME:
        one [lifetime_ident_token]
    ;
    Visibility VISIBILITY:
        maybe visibility_inner one [pub_token]
    ;
    VisibilityInner VISIBILITY_INNER:
        one path one [l_paren_token] maybe [in_token] one [r_paren_token]
    ;
    Rename RENAME:
        maybe name one [as_token] maybe [underscore_token]
    ;
    Abi ABI:
        one [extern_token] maybe [string_token]
    ;
    RetType RET_TYPE:
        one ty one [thin_arrow_token]
    ;
    Path PATH:
        maybe qualifier one segment maybe [coloncolon_token]
    ;
    PathSegment PATH_SEGMENT:
        maybe type_anchor maybe name_ref maybe generic_arg_list maybe return_type_syntax maybe parenthesized_arg_list
        maybe ret_type maybe [coloncolon_token]
    ;
    TypeAnchor TYPE_ANCHOR:
        one ty maybe path_type one [l_angle_token] maybe [as_token] one [r_angle_token]
    ;
    ReturnTypeSyntax RETURN_TYPE_SYNTAX:
        maybe [coloncolon_token] one [l_paren_token] one [dotdot_token] one [r_paren_token]
    ;
    ParenthesizedArgList PARENTHESIZED_ARG_LIST:
        any type_args maybe [coloncolon_token] one [l_paren_token] one [r_paren_token]
    ;
    LetStmt LET_STMT:
        any attrs any doc_comments one pat maybe ty maybe initializer maybe let_else maybe [super_token] one [let_token]
        maybe [colon_token] maybe [eq_token] maybe [semicolon_token]
    ;
    ExprStmt EXPR_STMT:
        one expr maybe [semicolon_token]
    ;
    LetElse LET_ELSE:
        one block_expr one [else_token]
    ;
    StmtList STMT_LIST:
        any attrs any doc_comments any statements maybe tail_expr one [l_curly_token] one [r_curly_token]
    ;
    BlockExpr BLOCK_EXPR:
        any attrs any doc_comments maybe label maybe try_block_modifier one stmt_list maybe [unsafe_token]
        maybe [const_token] maybe [async_token] maybe [gen_token] maybe [move_token]
    ;
    Label LABEL:
        one lifetime one [colon_token]
    ;
    TryBlockModifier TRY_BLOCK_MODIFIER:
        maybe ty one [try_token] maybe [bikeshed_token]
    ;
    RangeExpr RANGE_EXPR:
        any attrs any doc_comments maybe start maybe end one [op_token]
    ;
    BinExpr BIN_EXPR:
        one lhs one rhs one [op_token]
    ;
    RefExpr REF_EXPR:
        any attrs any doc_comments one expr one [amp_token] maybe [raw_token] maybe [mut_token] maybe [const_token]
    ;
    PrefixExpr PREFIX_EXPR:
        any attrs any doc_comments maybe expr one [op_token]
    ;
    CallExpr CALL_EXPR:
        any attrs any doc_comments one expr one arg_list
    ;
    IndexExpr INDEX_EXPR:
        any attrs any doc_comments one base one index one [l_brack_token] one [r_brack_token]
    ;
    MethodCallExpr METHOD_CALL_EXPR:
        any attrs any doc_comments one receiver one name_ref maybe generic_arg_list one arg_list maybe [dot_token]
    ;
    FieldExpr FIELD_EXPR:
        any attrs any doc_comments one expr one name_ref maybe [dot_token]
    ;
    AwaitExpr AWAIT_EXPR:
        any attrs any doc_comments one expr maybe [dot_token] one [await_token]
    ;
    TryExpr TRY_EXPR:
        any attrs any doc_comments one expr one [question_mark_token]
    ;
    CastExpr CAST_EXPR:
        one expr one ty one [as_token]
    ;
    ArgList ARG_LIST:
        any args one [l_paren_token] one [r_paren_token]
    ;
    RecordExpr RECORD_EXPR:
        any attrs any doc_comments one path one record_expr_field_list
    ;
    RecordExprField RECORD_EXPR_FIELD:
        any attrs any doc_comments maybe name_ref one expr maybe [colon_token]
    ;
    RecordExprFieldList RECORD_EXPR_FIELD_LIST:
        any fields any attrs any doc_comments maybe spread one [l_curly_token] maybe [dotdot_token] one [r_curly_token]
    ;
    MacroCall MACRO_CALL:
        any attrs any doc_comments one path one token_tree one [excl_token] maybe [semicolon_token]
    ;
    MacroExpr MACRO_EXPR:
        any attrs any doc_comments one macro_call
    ;
    PathExpr PATH_EXPR:
        any attrs any doc_comments one path
    ;
    Literal LITERAL:
        any attrs any doc_comments one [token]
    ;
    UnderscoreExpr UNDERSCORE_EXPR:
        any attrs any doc_comments one [underscore_token]
    ;
    ParenExpr PAREN_EXPR:
        any attrs any doc_comments one expr one [l_paren_token] one [r_paren_token]
    ;
    TupleExpr TUPLE_EXPR:
        any attrs any doc_comments any fields one [l_paren_token] one [r_paren_token]
    ;
    ArrayExpr ARRAY_EXPR:
        any attrs any doc_comments any exprs maybe repeat one [l_brack_token] maybe [semicolon_token]
        one [r_brack_token]
    ;
    ClosureExpr CLOSURE_EXPR:
        any attrs any doc_comments maybe for_binder one param_list maybe ret_type one body maybe [const_token]
        maybe [static_token] maybe [async_token] maybe [gen_token] maybe [move_token]
    ;
    IfExpr IF_EXPR:
        any attrs any doc_comments one condition one then_branch maybe else_branch one [if_token] maybe [else_token]
    ;
    LoopExpr LOOP_EXPR:
        any attrs any doc_comments maybe label one loop_body one [loop_token]
    ;
    WhileExpr WHILE_EXPR:
        any attrs any doc_comments maybe label one condition one loop_body one [while_token]
    ;
    ForExpr FOR_EXPR:
        any attrs any doc_comments maybe label one pat one iterable one loop_body one [for_token] one [in_token]
    ;
    LetExpr LET_EXPR:
        any attrs any doc_comments one pat one expr one [let_token] one [eq_token]
    ;
    MatchExpr MATCH_EXPR:
        any attrs any doc_comments one expr one match_arm_list one [match_token]
    ;
    MatchArmList MATCH_ARM_LIST:
        any attrs any doc_comments any arms one [l_curly_token] one [r_curly_token]
    ;
    MatchArm MATCH_ARM:
        any attrs any doc_comments one pat maybe guard one expr one [fat_arrow_token] maybe [comma_token]
    ;
    MatchGuard MATCH_GUARD:
        one condition one [if_token]
    ;
    ReturnExpr RETURN_EXPR:
        any attrs any doc_comments maybe expr one [return_token]
    ;
    BecomeExpr BECOME_EXPR:
        any attrs any doc_comments one expr one [become_token]
    ;
    YieldExpr YIELD_EXPR:
        any attrs any doc_comments maybe expr one [yield_token]
    ;
    YeetExpr YEET_EXPR:
        any attrs any doc_comments maybe expr one [do_token] maybe [yeet_token]
    ;
    ContinueExpr CONTINUE_EXPR:
        any attrs any doc_comments maybe lifetime one [continue_token]
    ;
    BreakExpr BREAK_EXPR:
        any attrs any doc_comments maybe lifetime maybe expr one [break_token]
    ;
    OffsetOfExpr OFFSET_OF_EXPR:
        any attrs any doc_comments one ty any fields one [builtin_token] one [pound_token] one [offset_of_token]
        one [l_paren_token] one [comma_token] one [r_paren_token]
    ;
    FormatArgsExpr FORMAT_ARGS_EXPR:
        any attrs any doc_comments one template any args one [builtin_token] one [pound_token] one [format_args_token]
        one [l_paren_token] one [r_paren_token]
    ;
    FormatArgsArg FORMAT_ARGS_ARG:
        maybe name one expr maybe [eq_token]
    ;
    IncludeBytesExpr INCLUDE_BYTES_EXPR:
        any attrs any doc_comments one [builtin_token] one [pound_token] one [include_bytes_token]
    ;
    CfgPredExpr CFG_PRED_EXPR:
        any attrs any doc_comments one cfg_predicate one [builtin_token] one [pound_token] one [cfg_token]
        one [l_paren_token] maybe [comma_token] one [r_paren_token]
    ;
    AsmExpr ASM_EXPR:
        any attrs any doc_comments maybe visibility any template any asm_pieces one [builtin_token] one [pound_token]
        maybe [asm_token] maybe [global_asm_token] maybe [naked_asm_token] one [l_paren_token] one [r_paren_token]
    ;
    AsmClobberAbi ASM_CLOBBER_ABI:
        any attrs any doc_comments one [clobber_abi_token] one [l_paren_token] maybe [r_paren_token]
    ;
    AsmOptions ASM_OPTIONS:
        any attrs any doc_comments any asm_options one [options_token] one [l_paren_token] maybe [r_paren_token]
    ;
    AsmOption ASM_OPTION:
        maybe [att_syntax_token] maybe [may_unwind_token] maybe [nomem_token] maybe [noreturn_token]
        maybe [nostack_token] maybe [preserves_flags_token] maybe [pure_token] maybe [raw_token] maybe [readonly_token]
    ;
    AsmDirSpec ASM_DIR_SPEC:
        maybe [in_token] maybe [inlateout_token] maybe [inout_token] maybe [lateout_token] maybe [out_token]
    ;
    AsmOperandExpr ASM_OPERAND_EXPR:
        one in_expr maybe out_expr maybe [fat_arrow_token]
    ;
    AsmRegOperand ASM_REG_OPERAND:
        one asm_dir_spec one asm_reg_spec one asm_operand_expr one [l_paren_token] one [r_paren_token]
    ;
    AsmOperandNamed ASM_OPERAND_NAMED:
        any attrs any doc_comments maybe name one asm_operand maybe [eq_token]
    ;
    AsmLabel ASM_LABEL:
        one block_expr one [label_token]
    ;
    AsmConst ASM_CONST:
        one expr one [const_token]
    ;
    AsmSym ASM_SYM:
        one path one [sym_token] maybe [l_paren_token] maybe [r_paren_token]
    ;
    AsmRegSpec ASM_REG_SPEC:
        maybe name_ref maybe [string_token]
    ;
    Module MODULE:
        any attrs any doc_comments maybe visibility one name maybe item_list one [mod_token] maybe [semicolon_token]
    ;
    ItemList ITEM_LIST:
        any attrs any doc_comments any items one [l_curly_token] one [r_curly_token]
    ;
    ExternCrate EXTERN_CRATE:
        any attrs any doc_comments maybe visibility one name_ref maybe rename one [extern_token] one [crate_token]
        one [semicolon_token]
    ;
    ExternBlock EXTERN_BLOCK:
        any attrs any doc_comments maybe visibility maybe impl_restriction one abi one extern_item_list
        maybe [const_token] maybe [async_token] maybe [unsafe_token] maybe [safe_token]
    ;
    ExternItemList EXTERN_ITEM_LIST:
        any attrs any doc_comments any extern_items one [l_curly_token] one [r_curly_token]
    ;
    ImplRestriction IMPL_RESTRICTION:
        one visibility_inner one [impl_token]
    ;
    MutRestriction MUT_RESTRICTION:
        one visibility_inner one [mut_token]
    ;
    TypeAlias TYPE_ALIAS:
        any attrs any doc_comments maybe visibility maybe impl_restriction maybe abi one name maybe generic_param_list
        maybe type_bound_list maybe where_clause maybe trailing_where_clause maybe ty maybe [const_token]
        maybe [async_token] maybe [unsafe_token] maybe [safe_token] maybe [default_token] one [type_token]
        maybe [colon_token] maybe [eq_token] one [semicolon_token]
    ;
    MacroRules MACRO_RULES:
        any attrs any doc_comments maybe visibility one name one token_tree one [macro_rules_token] one [excl_token]
        maybe [semicolon_token]
    ;
    MacroDef MACRO_DEF:
        any attrs any doc_comments maybe visibility one name maybe args one body one [macro_token]
    ;
    Fn FN:
        any attrs any doc_comments maybe visibility maybe impl_restriction maybe abi one name maybe generic_param_list
        one param_list maybe ret_type maybe where_clause maybe body maybe [const_token] maybe [async_token]
        maybe [gen_token] maybe [unsafe_token] maybe [safe_token] maybe [default_token] one [fn_token]
        maybe [semicolon_token]
    ;
    TokenTree TOKEN_TREE:
        any token_trees
    ;
    Struct STRUCT:
        any attrs any doc_comments maybe visibility one name maybe generic_param_list maybe where_clause
        maybe field_list one [struct_token] maybe [semicolon_token]
    ;
    Union UNION:
        any attrs any doc_comments maybe visibility one name maybe generic_param_list maybe where_clause
        maybe record_field_list one [union_token] maybe [semicolon_token]
    ;
    Enum ENUM:
        any attrs any doc_comments maybe visibility one name maybe generic_param_list maybe where_clause
        one variant_list one [enum_token]
    ;
    VariantList VARIANT_LIST:
        any variants one [l_curly_token] one [r_curly_token]
    ;
    Variant VARIANT:
        any attrs any doc_comments maybe name maybe field_list maybe const_arg maybe [underscore_token] maybe [eq_token]
    ;
    RecordFieldList RECORD_FIELD_LIST:
        any fields one [l_curly_token] one [r_curly_token]
    ;
    RecordField RECORD_FIELD:
        any attrs any doc_comments maybe visibility maybe mut_restriction one name one ty maybe default_val
        maybe [unsafe_token] one [colon_token] maybe [eq_token]
    ;
    TupleFieldList TUPLE_FIELD_LIST:
        any fields one [l_paren_token] one [r_paren_token]
    ;
    TupleField TUPLE_FIELD:
        any attrs any doc_comments maybe visibility maybe mut_restriction one ty
    ;
    Const CONST:
        any attrs any doc_comments maybe visibility maybe impl_restriction maybe abi maybe name maybe generic_param_list
        one ty maybe body maybe where_clause one [const_token] maybe [async_token] maybe [unsafe_token]
        maybe [safe_token] maybe [default_token] maybe [type_token] maybe [mut_token] maybe [underscore_token]
        one [colon_token] maybe [eq_token] one [semicolon_token]
    ;
    Static STATIC:
        any attrs any doc_comments maybe visibility maybe impl_restriction maybe abi one name maybe generic_param_list
        one ty maybe body maybe [const_token] maybe [async_token] maybe [unsafe_token] maybe [safe_token]
        one [static_token] maybe [mut_token] one [colon_token] maybe [eq_token] one [semicolon_token]
    ;
    Trait TRAIT:
        any attrs any doc_comments maybe visibility maybe impl_restriction maybe abi one name maybe generic_param_list
        maybe type_bound_list maybe where_clause maybe assoc_item_list maybe [const_token] maybe [async_token]
        maybe [unsafe_token] maybe [safe_token] maybe [auto_token] one [trait_token] maybe [colon_token]
        maybe [eq_token] maybe [semicolon_token]
    ;
    Impl IMPL:
        any attrs any doc_comments maybe visibility maybe impl_restriction maybe abi maybe generic_param_list
        maybe trait_ one self_ty maybe where_clause one assoc_item_list maybe [const_token] maybe [async_token]
        maybe [unsafe_token] maybe [safe_token] maybe [default_token] one [impl_token] maybe [excl_token]
        maybe [for_token]
    ;
    AssocItemList ASSOC_ITEM_LIST:
        any attrs any doc_comments any assoc_items one [l_curly_token] one [r_curly_token]
    ;
    Use USE:
        any attrs any doc_comments maybe visibility one use_tree one [use_token] one [semicolon_token]
    ;
    UseTree USE_TREE:
        maybe path maybe use_tree_list maybe rename maybe [coloncolon_token] maybe [star_token]
    ;
    UseTreeList USE_TREE_LIST:
        any use_trees one [l_curly_token] one [r_curly_token]
    ;
    ParamList PARAM_LIST:
        any attrs any doc_comments maybe self_param any params maybe [l_paren_token] maybe [r_paren_token]
        maybe [pipe_token]
    ;
    Param PARAM:
        any attrs any doc_comments maybe pat maybe ty maybe [colon_token] maybe [dotdotdot_token]
    ;
    SelfParam SELF_PARAM:
        any attrs any doc_comments maybe lifetime one name maybe ty maybe [amp_token] maybe [mut_token]
        maybe [colon_token]
    ;
    OrPat OR_PAT:
        any pats
    ;
    RangePat RANGE_PAT:
        maybe start maybe end one [op_token]
    ;
    RestPat REST_PAT:
        any attrs any doc_comments one [dotdot_token]
    ;
    DerefPat DEREF_PAT:
        one pat one [builtin_token] one [pound_token] one [deref_token] one [l_paren_token] one [r_paren_token]
    ;
    CfgPredPat CFG_PRED_PAT:
        one cfg_predicate one [builtin_token] one [pound_token] one [cfg_token] one [l_paren_token] maybe [comma_token]
        one [r_paren_token]
    ;
    LiteralPat LITERAL_PAT:
        one literal maybe [minus_token]
    ;
    TupleStructPat TUPLE_STRUCT_PAT:
        one path any fields one [l_paren_token] one [r_paren_token]
    ;
    RecordPat RECORD_PAT:
        one path one record_pat_field_list
    ;
    RecordPatFieldList RECORD_PAT_FIELD_LIST:
        any fields maybe rest_pat one [l_curly_token] one [r_curly_token]
    ;
    RecordPatField RECORD_PAT_FIELD:
        any attrs any doc_comments maybe name_ref one pat maybe [colon_token]
    ;
    MacroPat MACRO_PAT:
        one macro_call
    ;
    PathPat PATH_PAT:
        one path
    ;
    WildcardPat WILDCARD_PAT:
        one [underscore_token]
    ;
    RefPat REF_PAT:
        one pat one [amp_token] maybe [mut_token]
    ;
    NotNull NOT_NULL:
        one pat one [excl_token]
    ;
    ParenPat PAREN_PAT:
        one pat one [l_paren_token] one [r_paren_token]
    ;
    TuplePat TUPLE_PAT:
        any fields one [l_paren_token] one [r_paren_token]
    ;
    SlicePat SLICE_PAT:
        any pats one [l_brack_token] one [r_brack_token]
    ;
    IdentPat IDENT_PAT:
        one name maybe pat maybe [ref_token] maybe [mut_token] maybe [at_token]
    ;
    BoxPat BOX_PAT:
        one pat one [box_token]
    ;
    ConstBlockPat CONST_BLOCK_PAT:
        one block_expr one [const_token]
    ;
    ParenType PAREN_TYPE:
        one ty one [l_paren_token] one [r_paren_token]
    ;
    TupleType TUPLE_TYPE:
        any fields one [l_paren_token] one [r_paren_token]
    ;
    NeverType NEVER_TYPE:
        one [excl_token]
    ;
    PtrType PTR_TYPE:
        one ty one [star_token] maybe [const_token] maybe [mut_token]
    ;
    SliceType SLICE_TYPE:
        one ty one [l_brack_token] one [r_brack_token]
    ;
    ArrayType ARRAY_TYPE:
        one ty one const_arg one [l_brack_token] one [semicolon_token] one [r_brack_token]
    ;
    RefType REF_TYPE:
        maybe lifetime one ty one [amp_token] maybe [mut_token]
    ;
    InferType INFER_TYPE:
        one [underscore_token]
    ;
    FnPtrType FN_PTR_TYPE:
        maybe abi one param_list maybe ret_type maybe [unsafe_token] one [fn_token]
    ;
    ForBinder FOR_BINDER:
        one generic_param_list one [for_token]
    ;
    ForType FOR_TYPE:
        one for_binder one ty
    ;
    ImplTraitType IMPL_TRAIT_TYPE:
        one type_bound_list one [impl_token]
    ;
    DynTraitType DYN_TRAIT_TYPE:
        one type_bound_list maybe [dyn_token]
    ;
    MacroType MACRO_TYPE:
        one macro_call
    ;
    PathType PATH_TYPE:
        one path
    ;
    PatternType PATTERN_TYPE:
        one ty one pat one [builtin_token] one [pound_token] one [pattern_type_token] one [l_paren_token] one [is_token]
        one [r_paren_token]
    ;
    TypeBound TYPE_BOUND:
        maybe lifetime maybe use_bound_generic_args maybe for_binder maybe ty maybe [l_paren_token] maybe [use_token]
        maybe [l_brack_token] maybe [tilde_token] maybe [const_token] maybe [r_brack_token] maybe [async_token]
        maybe [question_mark_token] maybe [r_paren_token]
    ;
    TypeBoundList TYPE_BOUND_LIST:
        any bounds maybe for_binder maybe [l_paren_token] maybe [l_brack_token] maybe [tilde_token] maybe [const_token]
        maybe [r_brack_token] maybe [async_token] maybe [question_mark_token]
    ;
    GenericArgList GENERIC_ARG_LIST:
        any generic_args maybe [coloncolon_token] one [l_angle_token] one [r_angle_token]
    ;
    TypeArg TYPE_ARG:
        one ty
    ;
    LifetimeArg LIFETIME_ARG:
        one lifetime
    ;
    ConstArg CONST_ARG:
        one expr
    ;
    AssocTypeArg ASSOC_TYPE_ARG:
        one name_ref maybe generic_arg_list maybe return_type_syntax maybe parenthesized_arg_list maybe ret_type
        maybe type_bound_list maybe ty maybe const_arg maybe [colon_token] maybe [eq_token]
    ;
    UseBoundGenericArgs USE_BOUND_GENERIC_ARGS:
        any use_bound_generic_args one [l_angle_token] one [r_angle_token]
    ;
    GenericParamList GENERIC_PARAM_LIST:
        any generic_params one [l_angle_token] one [r_angle_token]
    ;
    LifetimeParam LIFETIME_PARAM:
        any attrs any doc_comments one lifetime maybe type_bound_list maybe [colon_token]
    ;
    TypeParam TYPE_PARAM:
        any attrs any doc_comments one name maybe type_bound_list maybe default_type maybe [colon_token]
        maybe [eq_token]
    ;
    ConstParam CONST_PARAM:
        any attrs any doc_comments one name one ty maybe default_val one [const_token] one [colon_token]
        maybe [eq_token]
    ;
    WhereClause WHERE_CLAUSE:
        any predicates one [where_token]
    ;
    WherePred WHERE_PRED:
        maybe lifetime maybe for_binder maybe ty one type_bound_list one [colon_token]
    ;
    DocComment DOC_COMMENT:
        maybe [outer_doc_comment_token] maybe [inner_doc_comment_token]
    ;
    Attr ATTR:
        one meta one [pound_token] maybe [excl_token] one [l_brack_token] one [r_brack_token]
    ;
    UnsafeMeta UNSAFE_META:
        one meta one [unsafe_token] one [l_paren_token] one [r_paren_token]
    ;
    CfgAttrMeta CFG_ATTR_META:
        one cfg_predicate any metas one [cfg_attr_token] one [l_paren_token] one [r_paren_token]
    ;
    CfgMeta CFG_META:
        one cfg_predicate one [cfg_token] one [l_paren_token] maybe [comma_token] one [r_paren_token]
    ;
    CfgAtom CFG_ATOM:
        maybe [ident_token] maybe [eq_token] maybe [string_token] maybe [true_token] maybe [false_token]
    ;
    CfgComposite CFG_COMPOSITE:
        any cfg_predicates one [ident_token] one [l_paren_token] one [r_paren_token]
    ;
    KeyValueMeta KEY_VALUE_META:
        one path one expr one [eq_token]
    ;
    TokenTreeMeta TOKEN_TREE_META:
        one path one token_tree
    ;
    PathMeta PATH_META:
        one path
    ;
}
