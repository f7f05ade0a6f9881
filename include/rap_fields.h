/* Written by crates/rap_base/fields from fields.txt beside it and the shapes of nodes: an edit here is lost. */

/* The fields of nodes, by rust-analyzer's names. A field is found in the list of elements that rap_nodes has filled, or
 * rap_prefix_nodes or rap_reparse_nodes: all calls here only read that list, and need no library.
 *
 *     uint32_t name = rap_child_by_field(e, node, RAP_FIELD_NAME);
 *     if (name != RAP_NO_PARENT) ...                                     e[name] is its name
 *     for (uint32_t i = rap_child_by_field(e, list, RAP_FIELD_PARAMS); i != RAP_NO_PARENT;
 *          i = rap_field_next(e, list, RAP_FIELD_PARAMS, i))
 *         ...                                                            e[i] is one of its parameters
 *
 * The list must be whole: it has room for all elements. Which fields a kind has, and which of them cannot be missing
 * in a node without a message or an ERROR right under it, is in docs/NODES.md, and in the rows below.
 */
#ifndef RAP_FIELDS_H
#define RAP_FIELDS_H

#include "rap.h"

#ifdef __cplusplus
extern "C" {
#endif

/* The fields. Their numbers are in the order of their names, and change where a field is added. */
enum rap_field {
    RAP_FIELD_NONE = 0,
    RAP_FIELD_ABI = 1,
    RAP_FIELD_AMP_TOKEN = 2,
    RAP_FIELD_ARG_LIST = 3,
    RAP_FIELD_ARGS = 4,
    RAP_FIELD_ARMS = 5,
    RAP_FIELD_AS_TOKEN = 6,
    RAP_FIELD_ASM_DIR_SPEC = 7,
    RAP_FIELD_ASM_OPERAND = 8,
    RAP_FIELD_ASM_OPERAND_EXPR = 9,
    RAP_FIELD_ASM_OPTIONS = 10,
    RAP_FIELD_ASM_PIECES = 11,
    RAP_FIELD_ASM_REG_SPEC = 12,
    RAP_FIELD_ASM_TOKEN = 13,
    RAP_FIELD_ASSOC_ITEM_LIST = 14,
    RAP_FIELD_ASSOC_ITEMS = 15,
    RAP_FIELD_ASYNC_TOKEN = 16,
    RAP_FIELD_AT_TOKEN = 17,
    RAP_FIELD_ATT_SYNTAX_TOKEN = 18,
    RAP_FIELD_ATTRS = 19,
    RAP_FIELD_AUTO_TOKEN = 20,
    RAP_FIELD_AWAIT_TOKEN = 21,
    RAP_FIELD_BASE = 22,
    RAP_FIELD_BECOME_TOKEN = 23,
    RAP_FIELD_BIKESHED_TOKEN = 24,
    RAP_FIELD_BLOCK_EXPR = 25,
    RAP_FIELD_BODY = 26,
    RAP_FIELD_BOUNDS = 27,
    RAP_FIELD_BOX_TOKEN = 28,
    RAP_FIELD_BREAK_TOKEN = 29,
    RAP_FIELD_BUILTIN_TOKEN = 30,
    RAP_FIELD_CFG_ATTR_TOKEN = 31,
    RAP_FIELD_CFG_PREDICATE = 32,
    RAP_FIELD_CFG_PREDICATES = 33,
    RAP_FIELD_CFG_TOKEN = 34,
    RAP_FIELD_CLOBBER_ABI_TOKEN = 35,
    RAP_FIELD_COLON_TOKEN = 36,
    RAP_FIELD_COLONCOLON_TOKEN = 37,
    RAP_FIELD_COMMA_TOKEN = 38,
    RAP_FIELD_CONDITION = 39,
    RAP_FIELD_CONST_ARG = 40,
    RAP_FIELD_CONST_TOKEN = 41,
    RAP_FIELD_CONTINUE_TOKEN = 42,
    RAP_FIELD_CRATE_TOKEN = 43,
    RAP_FIELD_DEFAULT_TOKEN = 44,
    RAP_FIELD_DEFAULT_TYPE = 45,
    RAP_FIELD_DEFAULT_VAL = 46,
    RAP_FIELD_DEREF_TOKEN = 47,
    RAP_FIELD_DO_TOKEN = 48,
    RAP_FIELD_DOC_COMMENTS = 49,
    RAP_FIELD_DOT_TOKEN = 50,
    RAP_FIELD_DOTDOT_TOKEN = 51,
    RAP_FIELD_DOTDOTDOT_TOKEN = 52,
    RAP_FIELD_DYN_TOKEN = 53,
    RAP_FIELD_ELSE_BRANCH = 54,
    RAP_FIELD_ELSE_TOKEN = 55,
    RAP_FIELD_END = 56,
    RAP_FIELD_ENUM_TOKEN = 57,
    RAP_FIELD_EQ_TOKEN = 58,
    RAP_FIELD_EXCL_TOKEN = 59,
    RAP_FIELD_EXPR = 60,
    RAP_FIELD_EXPRS = 61,
    RAP_FIELD_EXTERN_ITEM_LIST = 62,
    RAP_FIELD_EXTERN_ITEMS = 63,
    RAP_FIELD_EXTERN_TOKEN = 64,
    RAP_FIELD_FALSE_TOKEN = 65,
    RAP_FIELD_FAT_ARROW_TOKEN = 66,
    RAP_FIELD_FIELD_LIST = 67,
    RAP_FIELD_FIELDS = 68,
    RAP_FIELD_FN_TOKEN = 69,
    RAP_FIELD_FOR_BINDER = 70,
    RAP_FIELD_FOR_TOKEN = 71,
    RAP_FIELD_FORMAT_ARGS_TOKEN = 72,
    RAP_FIELD_FRONTMATTER_TOKEN = 73,
    RAP_FIELD_GEN_TOKEN = 74,
    RAP_FIELD_GENERIC_ARG_LIST = 75,
    RAP_FIELD_GENERIC_ARGS = 76,
    RAP_FIELD_GENERIC_PARAM_LIST = 77,
    RAP_FIELD_GENERIC_PARAMS = 78,
    RAP_FIELD_GLOBAL_ASM_TOKEN = 79,
    RAP_FIELD_GUARD = 80,
    RAP_FIELD_IDENT_TOKEN = 81,
    RAP_FIELD_IF_TOKEN = 82,
    RAP_FIELD_IMPL_RESTRICTION = 83,
    RAP_FIELD_IMPL_TOKEN = 84,
    RAP_FIELD_IN_EXPR = 85,
    RAP_FIELD_IN_TOKEN = 86,
    RAP_FIELD_INCLUDE_BYTES_TOKEN = 87,
    RAP_FIELD_INDEX = 88,
    RAP_FIELD_INITIALIZER = 89,
    RAP_FIELD_INLATEOUT_TOKEN = 90,
    RAP_FIELD_INNER_DOC_COMMENT_TOKEN = 91,
    RAP_FIELD_INOUT_TOKEN = 92,
    RAP_FIELD_INT_NUMBER_TOKEN = 93,
    RAP_FIELD_IS_TOKEN = 94,
    RAP_FIELD_ITEM_LIST = 95,
    RAP_FIELD_ITEMS = 96,
    RAP_FIELD_ITERABLE = 97,
    RAP_FIELD_L_ANGLE_TOKEN = 98,
    RAP_FIELD_L_BRACK_TOKEN = 99,
    RAP_FIELD_L_CURLY_TOKEN = 100,
    RAP_FIELD_L_PAREN_TOKEN = 101,
    RAP_FIELD_LABEL = 102,
    RAP_FIELD_LABEL_TOKEN = 103,
    RAP_FIELD_LATEOUT_TOKEN = 104,
    RAP_FIELD_LET_ELSE = 105,
    RAP_FIELD_LET_TOKEN = 106,
    RAP_FIELD_LHS = 107,
    RAP_FIELD_LIFETIME = 108,
    RAP_FIELD_LIFETIME_IDENT_TOKEN = 109,
    RAP_FIELD_LITERAL = 110,
    RAP_FIELD_LOOP_BODY = 111,
    RAP_FIELD_LOOP_TOKEN = 112,
    RAP_FIELD_MACRO_CALL = 113,
    RAP_FIELD_MACRO_RULES_TOKEN = 114,
    RAP_FIELD_MACRO_TOKEN = 115,
    RAP_FIELD_MATCH_ARM_LIST = 116,
    RAP_FIELD_MATCH_TOKEN = 117,
    RAP_FIELD_MAY_UNWIND_TOKEN = 118,
    RAP_FIELD_META = 119,
    RAP_FIELD_METAS = 120,
    RAP_FIELD_MINUS_TOKEN = 121,
    RAP_FIELD_MOD_TOKEN = 122,
    RAP_FIELD_MOVE_TOKEN = 123,
    RAP_FIELD_MUT_RESTRICTION = 124,
    RAP_FIELD_MUT_TOKEN = 125,
    RAP_FIELD_NAKED_ASM_TOKEN = 126,
    RAP_FIELD_NAME = 127,
    RAP_FIELD_NAME_REF = 128,
    RAP_FIELD_NOMEM_TOKEN = 129,
    RAP_FIELD_NORETURN_TOKEN = 130,
    RAP_FIELD_NOSTACK_TOKEN = 131,
    RAP_FIELD_OFFSET_OF_TOKEN = 132,
    RAP_FIELD_OP_TOKEN = 133,
    RAP_FIELD_OPTIONS_TOKEN = 134,
    RAP_FIELD_OUT_EXPR = 135,
    RAP_FIELD_OUT_TOKEN = 136,
    RAP_FIELD_OUTER_DOC_COMMENT_TOKEN = 137,
    RAP_FIELD_PARAM_LIST = 138,
    RAP_FIELD_PARAMS = 139,
    RAP_FIELD_PARENTHESIZED_ARG_LIST = 140,
    RAP_FIELD_PAT = 141,
    RAP_FIELD_PATH = 142,
    RAP_FIELD_PATH_TYPE = 143,
    RAP_FIELD_PATS = 144,
    RAP_FIELD_PATTERN_TYPE_TOKEN = 145,
    RAP_FIELD_PIPE_TOKEN = 146,
    RAP_FIELD_POUND_TOKEN = 147,
    RAP_FIELD_PREDICATES = 148,
    RAP_FIELD_PRESERVES_FLAGS_TOKEN = 149,
    RAP_FIELD_PUB_TOKEN = 150,
    RAP_FIELD_PURE_TOKEN = 151,
    RAP_FIELD_QUALIFIER = 152,
    RAP_FIELD_QUESTION_MARK_TOKEN = 153,
    RAP_FIELD_R_ANGLE_TOKEN = 154,
    RAP_FIELD_R_BRACK_TOKEN = 155,
    RAP_FIELD_R_CURLY_TOKEN = 156,
    RAP_FIELD_R_PAREN_TOKEN = 157,
    RAP_FIELD_RAW_TOKEN = 158,
    RAP_FIELD_READONLY_TOKEN = 159,
    RAP_FIELD_RECEIVER = 160,
    RAP_FIELD_RECORD_EXPR_FIELD_LIST = 161,
    RAP_FIELD_RECORD_FIELD_LIST = 162,
    RAP_FIELD_RECORD_PAT_FIELD_LIST = 163,
    RAP_FIELD_REF_TOKEN = 164,
    RAP_FIELD_RENAME = 165,
    RAP_FIELD_REPEAT = 166,
    RAP_FIELD_REST_PAT = 167,
    RAP_FIELD_RET_TYPE = 168,
    RAP_FIELD_RETURN_TOKEN = 169,
    RAP_FIELD_RETURN_TYPE_SYNTAX = 170,
    RAP_FIELD_RHS = 171,
    RAP_FIELD_SAFE_TOKEN = 172,
    RAP_FIELD_SEGMENT = 173,
    RAP_FIELD_SELF_PARAM = 174,
    RAP_FIELD_SELF_TOKEN = 175,
    RAP_FIELD_SELF_TY = 176,
    RAP_FIELD_SELF_TYPE_TOKEN = 177,
    RAP_FIELD_SEMICOLON_TOKEN = 178,
    RAP_FIELD_SHEBANG_TOKEN = 179,
    RAP_FIELD_SPREAD = 180,
    RAP_FIELD_STAR_TOKEN = 181,
    RAP_FIELD_START = 182,
    RAP_FIELD_STATEMENTS = 183,
    RAP_FIELD_STATIC_TOKEN = 184,
    RAP_FIELD_STMT_LIST = 185,
    RAP_FIELD_STRING_TOKEN = 186,
    RAP_FIELD_STRUCT_TOKEN = 187,
    RAP_FIELD_SUPER_TOKEN = 188,
    RAP_FIELD_SYM_TOKEN = 189,
    RAP_FIELD_TAIL_EXPR = 190,
    RAP_FIELD_TEMPLATE = 191,
    RAP_FIELD_THEN_BRANCH = 192,
    RAP_FIELD_THIN_ARROW_TOKEN = 193,
    RAP_FIELD_TILDE_TOKEN = 194,
    RAP_FIELD_TOKEN = 195,
    RAP_FIELD_TOKEN_TREE = 196,
    RAP_FIELD_TOKEN_TREES = 197,
    RAP_FIELD_TRAILING_WHERE_CLAUSE = 198,
    RAP_FIELD_TRAIT_ = 199,
    RAP_FIELD_TRAIT_TOKEN = 200,
    RAP_FIELD_TRUE_TOKEN = 201,
    RAP_FIELD_TRY_BLOCK_MODIFIER = 202,
    RAP_FIELD_TRY_TOKEN = 203,
    RAP_FIELD_TY = 204,
    RAP_FIELD_TYPE_ANCHOR = 205,
    RAP_FIELD_TYPE_ARGS = 206,
    RAP_FIELD_TYPE_BOUND_LIST = 207,
    RAP_FIELD_TYPE_TOKEN = 208,
    RAP_FIELD_UNDERSCORE_TOKEN = 209,
    RAP_FIELD_UNION_TOKEN = 210,
    RAP_FIELD_UNSAFE_TOKEN = 211,
    RAP_FIELD_USE_BOUND_GENERIC_ARGS = 212,
    RAP_FIELD_USE_TOKEN = 213,
    RAP_FIELD_USE_TREE = 214,
    RAP_FIELD_USE_TREE_LIST = 215,
    RAP_FIELD_USE_TREES = 216,
    RAP_FIELD_VARIANT_LIST = 217,
    RAP_FIELD_VARIANTS = 218,
    RAP_FIELD_VISIBILITY = 219,
    RAP_FIELD_VISIBILITY_INNER = 220,
    RAP_FIELD_WHERE_CLAUSE = 221,
    RAP_FIELD_WHERE_TOKEN = 222,
    RAP_FIELD_WHILE_TOKEN = 223,
    RAP_FIELD_YEET_TOKEN = 224,
    RAP_FIELD_YIELD_TOKEN = 225
};

/* Their names, by their numbers. */
static const char *const rap_field_names[] = {
    "", "abi", "amp_token", "arg_list", "args", "arms", "as_token", "asm_dir_spec", "asm_operand",
    "asm_operand_expr", "asm_options", "asm_pieces", "asm_reg_spec", "asm_token", "assoc_item_list", "assoc_items",
    "async_token", "at_token", "att_syntax_token", "attrs", "auto_token", "await_token", "base", "become_token",
    "bikeshed_token", "block_expr", "body", "bounds", "box_token", "break_token", "builtin_token", "cfg_attr_token",
    "cfg_predicate", "cfg_predicates", "cfg_token", "clobber_abi_token", "colon_token", "coloncolon_token",
    "comma_token", "condition", "const_arg", "const_token", "continue_token", "crate_token", "default_token",
    "default_type", "default_val", "deref_token", "do_token", "doc_comments", "dot_token", "dotdot_token",
    "dotdotdot_token", "dyn_token", "else_branch", "else_token", "end", "enum_token", "eq_token", "excl_token",
    "expr", "exprs", "extern_item_list", "extern_items", "extern_token", "false_token", "fat_arrow_token",
    "field_list", "fields", "fn_token", "for_binder", "for_token", "format_args_token", "frontmatter_token",
    "gen_token", "generic_arg_list", "generic_args", "generic_param_list", "generic_params", "global_asm_token",
    "guard", "ident_token", "if_token", "impl_restriction", "impl_token", "in_expr", "in_token",
    "include_bytes_token", "index", "initializer", "inlateout_token", "inner_doc_comment_token", "inout_token",
    "int_number_token", "is_token", "item_list", "items", "iterable", "l_angle_token", "l_brack_token",
    "l_curly_token", "l_paren_token", "label", "label_token", "lateout_token", "let_else", "let_token", "lhs",
    "lifetime", "lifetime_ident_token", "literal", "loop_body", "loop_token", "macro_call", "macro_rules_token",
    "macro_token", "match_arm_list", "match_token", "may_unwind_token", "meta", "metas", "minus_token", "mod_token",
    "move_token", "mut_restriction", "mut_token", "naked_asm_token", "name", "name_ref", "nomem_token",
    "noreturn_token", "nostack_token", "offset_of_token", "op_token", "options_token", "out_expr", "out_token",
    "outer_doc_comment_token", "param_list", "params", "parenthesized_arg_list", "pat", "path", "path_type", "pats",
    "pattern_type_token", "pipe_token", "pound_token", "predicates", "preserves_flags_token", "pub_token",
    "pure_token", "qualifier", "question_mark_token", "r_angle_token", "r_brack_token", "r_curly_token",
    "r_paren_token", "raw_token", "readonly_token", "receiver", "record_expr_field_list", "record_field_list",
    "record_pat_field_list", "ref_token", "rename", "repeat", "rest_pat", "ret_type", "return_token",
    "return_type_syntax", "rhs", "safe_token", "segment", "self_param", "self_token", "self_ty", "self_type_token",
    "semicolon_token", "shebang_token", "spread", "star_token", "start", "statements", "static_token", "stmt_list",
    "string_token", "struct_token", "super_token", "sym_token", "tail_expr", "template", "then_branch",
    "thin_arrow_token", "tilde_token", "token", "token_tree", "token_trees", "trailing_where_clause", "trait_",
    "trait_token", "true_token", "try_block_modifier", "try_token", "ty", "type_anchor", "type_args",
    "type_bound_list", "type_token", "underscore_token", "union_token", "unsafe_token", "use_bound_generic_args",
    "use_token", "use_tree", "use_tree_list", "use_trees", "variant_list", "variants", "visibility",
    "visibility_inner", "where_clause", "where_token", "while_token", "yeet_token", "yield_token"
};

/* A field of a kind.
 * `field`: its number. `set`: the kinds of what it has, a row of rap_field_sets.
 * `how`: RAP_FIELD_FIRST or RAP_FIELD_LAST of them, or RAP_FIELD_ALL.
 * `place`: where they stand: RAP_FIELD_ANYWHERE; before what another field has, or anywhere if that is not there
 *     (RAP_FIELD_BEFORE), or nowhere (RAP_FIELD_ONLY_BEFORE); behind it, or nowhere if it is not there
 *     (RAP_FIELD_AFTER), or anywhere (RAP_FIELD_PAST). `mark`: the number of that field, or 0.
 * `fewest`, `most`: how many a node without a message or an ERROR right under it has; 255 is any number.
 */
struct rap_field_row {
    uint16_t field;
    uint16_t set;
    uint16_t mark;
    uint8_t how;
    uint8_t place;
    uint8_t fewest;
    uint8_t most;
};

enum { RAP_FIELD_FIRST = 0, RAP_FIELD_LAST = 1, RAP_FIELD_ALL = 2 };

enum {
    RAP_FIELD_ANYWHERE = 0,
    RAP_FIELD_BEFORE = 1,
    RAP_FIELD_ONLY_BEFORE = 2,
    RAP_FIELD_AFTER = 3,
    RAP_FIELD_PAST = 4
};

/* The sets of kinds: the bit of a kind is `kind % 32` of the word `kind / 32`. */
static const uint32_t rap_field_sets[][11] = {
    {0, 0, 0, 0, 0, 0, 0, 0, 0, 0, 0x2},
    {0, 0, 0, 0, 0, 0, 0, 0, 0, 0, 0x1},
    {0, 0, 0, 0, 0, 0x200, 0, 0, 0, 0, 0},
    {0, 0, 0, 0, 0, 0, 0x10, 0xef1a002, 0xbc, 0, 0},
    {0, 0, 0, 0, 0x10000000, 0, 0, 0, 0, 0, 0},
    {0, 0, 0, 0, 0x8000000, 0, 0, 0, 0, 0, 0},
    {0, 0, 0, 0, 0, 0xc000, 0x10, 0xef1a002, 0xbc, 0, 0},
    {0, 0, 0, 0, 0, 0xffe40000, 0xbfc7ffe2, 0x3, 0, 0, 0},
    {0, 0, 0, 0, 0x100000, 0, 0, 0, 0, 0, 0},
    {0, 0, 0x1000, 0, 0, 0, 0, 0, 0, 0, 0},
    {0, 0, 0, 0, 0x2000, 0, 0, 0, 0, 0, 0},
    {0, 0, 0x10000, 0, 0, 0, 0, 0, 0, 0, 0},
    {0, 0x2000000, 0, 0, 0, 0, 0, 0, 0, 0, 0},
    {0, 0, 0x2000, 0, 0, 0, 0, 0, 0, 0, 0},
    {0, 0, 0, 0, 0x200000, 0, 0, 0, 0, 0, 0},
    {0, 0, 0, 0, 0, 0x20, 0, 0, 0, 0, 0},
    {0, 0, 0x200, 0, 0, 0, 0, 0, 0, 0, 0},
    {0x8, 0, 0, 0, 0, 0, 0, 0, 0, 0, 0},
    {0, 0, 0x4, 0, 0, 0, 0, 0, 0, 0, 0},
    {0x10, 0, 0, 0, 0, 0, 0, 0, 0, 0, 0},
    {0, 0, 0, 0, 0, 0x2, 0, 0, 0, 0, 0},
    {0, 0x200000, 0, 0, 0, 0, 0, 0, 0, 0, 0},
    {0x800000, 0, 0, 0, 0, 0, 0, 0, 0, 0, 0},
    {0, 0x10000000, 0, 0, 0, 0, 0, 0, 0, 0, 0},
    {0, 0, 0, 0, 0x20000, 0, 0, 0, 0, 0, 0},
    {0, 0, 0, 0, 0, 0, 0, 0, 0, 0x3f7fc, 0},
    {0, 0x10, 0, 0, 0, 0, 0, 0, 0, 0, 0},
    {0, 0, 0, 0, 0, 0x400, 0, 0, 0, 0, 0},
    {0, 0x1, 0, 0, 0, 0, 0, 0, 0, 0, 0},
    {0, 0, 0, 0, 0, 0x800, 0, 0, 0, 0, 0},
    {0, 0, 0, 0, 0, 0x4, 0, 0, 0, 0, 0},
    {0, 0, 0, 0, 0, 0, 0, 0, 0, 0x100000, 0},
    {0, 0, 0, 0, 0, 0x1000, 0, 0, 0, 0, 0},
    {0, 0, 0, 0, 0, 0x2000, 0, 0, 0, 0, 0},
    {0, 0, 0, 0, 0, 0x100, 0, 0, 0, 0, 0},
    {0x200, 0, 0, 0, 0, 0, 0, 0, 0, 0, 0},
    {0x400, 0, 0, 0, 0, 0, 0, 0, 0, 0, 0},
    {0x20000000, 0, 0, 0, 0, 0, 0, 0, 0, 0, 0},
    {0, 0, 0, 0, 0, 0, 0, 0, 0, 0x200000, 0},
    {0, 0, 0, 0, 0, 0, 0, 0, 0xff9fe000, 0x3, 0},
    {0, 0, 0, 0, 0, 0x10000, 0, 0, 0, 0, 0},
    {0, 0, 0x8, 0, 0, 0, 0, 0, 0, 0, 0},
    {0x2000000, 0, 0, 0, 0, 0, 0, 0, 0, 0, 0},
    {0x4000000, 0, 0, 0, 0, 0, 0, 0, 0, 0, 0},
    {0x2, 0, 0, 0, 0, 0, 0, 0, 0, 0, 0},
    {0, 0, 0, 0, 0, 0x40000, 0, 0, 0, 0, 0},
    {0, 0x4000000, 0, 0, 0, 0, 0, 0, 0, 0, 0},
    {0x20, 0, 0, 0, 0, 0, 0, 0, 0, 0, 0},
    {0x40, 0, 0, 0, 0, 0, 0, 0, 0, 0, 0},
    {0, 0, 0, 0, 0, 0x80000, 0, 0, 0, 0, 0},
    {0, 0, 0, 0, 0, 0x100000, 0, 0, 0, 0, 0},
    {0, 0, 0, 0, 0, 0x20000, 0, 0, 0, 0, 0},
    {0, 0, 0x100000, 0, 0, 0, 0, 0, 0, 0, 0},
    {0, 0x800000, 0, 0, 0, 0, 0, 0, 0, 0, 0},
    {0, 0, 0, 0x10, 0, 0, 0, 0, 0, 0, 0},
    {0, 0, 0, 0x100, 0, 0, 0, 0, 0, 0, 0},
    {0, 0, 0x80, 0, 0, 0, 0, 0, 0, 0, 0},
    {0, 0, 0, 0, 0, 0x8, 0, 0, 0, 0, 0},
    {0, 0, 0, 0x80, 0, 0, 0, 0, 0, 0, 0},
    {0, 0, 0, 0x1000, 0, 0, 0, 0, 0, 0, 0},
    {0xa0000000, 0, 0, 0, 0, 0, 0, 0, 0, 0, 0},
    {0x147f0600, 0x1fffea, 0, 0, 0, 0, 0, 0, 0, 0, 0},
    {0x10000, 0, 0, 0, 0, 0, 0, 0, 0, 0, 0},
    {0, 0, 0, 0, 0x80, 0, 0, 0, 0, 0, 0},
    {0, 0, 0x100, 0, 0, 0, 0, 0, 0, 0, 0},
    {0x18080000, 0, 0, 0, 0, 0, 0, 0, 0, 0, 0},
    {0, 0, 0, 0, 0, 0, 0x1, 0, 0, 0, 0},
    {0x80, 0, 0, 0, 0, 0, 0, 0, 0, 0, 0},
    {0x100, 0, 0, 0, 0, 0, 0, 0, 0, 0, 0},
    {0x1000000, 0, 0, 0, 0, 0, 0, 0, 0, 0, 0},
    {0, 0, 0, 0x20, 0, 0, 0, 0, 0, 0, 0},
    {0x4000, 0, 0, 0, 0, 0, 0, 0, 0, 0, 0},
    {0, 0, 0, 0, 0, 0, 0x8, 0, 0, 0, 0},
    {0, 0, 0, 0, 0, 0, 0x4, 0, 0, 0, 0},
    {0, 0, 0, 0, 0, 0, 0, 0x1000000, 0, 0, 0},
    {0x8000000, 0, 0, 0, 0, 0, 0, 0, 0, 0, 0},
    {0, 0, 0, 0, 0, 0, 0x10, 0, 0, 0, 0},
    {0, 0x20000000, 0x40000, 0, 0xfe000, 0, 0, 0, 0, 0, 0},
    {0, 0, 0, 0, 0, 0, 0, 0, 0, 0x800, 0},
    {0, 0, 0, 0, 0, 0, 0, 0, 0x400, 0, 0},
    {0, 0, 0x4000, 0, 0, 0, 0, 0, 0, 0, 0},
    {0, 0, 0, 0, 0, 0x40000, 0x2000, 0, 0, 0, 0},
    {0, 0, 0x1, 0, 0, 0, 0, 0, 0, 0, 0},
    {0, 0, 0x10, 0, 0, 0, 0, 0, 0, 0, 0},
    {0, 0, 0x800000, 0, 0, 0, 0, 0, 0, 0, 0},
    {0, 0x80000000, 0, 0, 0, 0, 0, 0, 0, 0, 0},
    {0, 0, 0, 0, 0, 0, 0x80000, 0, 0, 0, 0},
    {0, 0, 0x20, 0, 0, 0, 0, 0, 0, 0, 0},
    {0, 0, 0, 0, 0, 0, 0x100000, 0, 0, 0, 0},
    {0, 0, 0, 0, 0, 0, 0x200000, 0, 0, 0, 0},
    {0, 0x4, 0, 0, 0, 0, 0, 0, 0, 0, 0},
    {0x4, 0, 0, 0, 0, 0, 0, 0, 0, 0, 0},
    {0, 0, 0x800, 0, 0, 0, 0, 0, 0, 0, 0},
    {0, 0, 0x2000000, 0, 0, 0, 0, 0, 0, 0, 0},
    {0, 0, 0, 0x8, 0, 0, 0, 0, 0, 0, 0},
    {0, 0, 0x8000000, 0, 0, 0, 0, 0, 0, 0, 0},
    {0, 0, 0, 0, 0x1000, 0, 0, 0, 0, 0, 0},
    {0, 0x1000000, 0, 0, 0, 0, 0, 0, 0, 0, 0},
    {0, 0x400000, 0, 0, 0, 0, 0, 0, 0, 0, 0},
    {0, 0, 0, 0x2000, 0, 0, 0, 0, 0, 0, 0},
    {0x1000, 0, 0, 0, 0, 0, 0, 0, 0, 0, 0},
    {0, 0, 0, 0, 0x2, 0, 0, 0, 0, 0, 0},
    {0, 0, 0, 0, 0, 0, 0x40000000, 0, 0, 0, 0},
    {0, 0, 0, 0x80000, 0, 0, 0, 0, 0, 0, 0},
    {0, 0, 0, 0x200000, 0, 0, 0, 0, 0, 0, 0},
    {0, 0, 0, 0, 0, 0, 0, 0, 0, 0, 0x60},
    {0, 0, 0, 0x4000, 0, 0, 0, 0, 0, 0, 0},
    {0, 0, 0, 0, 0, 0x10, 0, 0, 0, 0, 0},
    {0, 0, 0, 0, 0, 0, 0, 0x10c, 0, 0, 0},
    {0, 0, 0, 0x200, 0, 0, 0, 0, 0, 0, 0},
    {0, 0, 0, 0x100000, 0, 0, 0, 0, 0, 0, 0},
    {0, 0, 0, 0x20000000, 0, 0, 0, 0, 0, 0, 0},
    {0, 0, 0, 0x10000, 0, 0, 0, 0, 0, 0, 0},
    {0, 0, 0, 0, 0, 0, 0, 0x10, 0, 0, 0},
    {0, 0, 0, 0, 0x4, 0, 0, 0, 0, 0, 0},
    {0, 0, 0, 0x400, 0, 0, 0, 0, 0, 0, 0},
    {0, 0, 0, 0x10000000, 0, 0, 0, 0, 0, 0, 0},
    {0, 0, 0, 0x40000000, 0, 0, 0, 0, 0, 0, 0},
    {0, 0, 0, 0x80000000, 0, 0, 0, 0, 0, 0, 0},
    {0, 0, 0, 0, 0x1, 0, 0, 0, 0, 0, 0},
    {0, 0, 0, 0, 0x20, 0, 0, 0, 0, 0, 0},
    {0, 0, 0, 0, 0x40, 0, 0, 0, 0, 0, 0},
    {0, 0, 0, 0, 0x100, 0, 0, 0, 0, 0, 0},
    {0, 0, 0, 0x400000, 0, 0, 0, 0, 0, 0, 0},
    {0, 0, 0, 0x800000, 0, 0, 0, 0, 0, 0, 0},
    {0, 0, 0, 0x4000000, 0, 0, 0, 0, 0, 0, 0},
    {0, 0, 0, 0, 0x8, 0, 0, 0, 0, 0, 0},
    {0, 0, 0, 0, 0, 0, 0, 0x20, 0, 0, 0},
    {0, 0, 0, 0, 0, 0, 0, 0x1000, 0, 0, 0},
    {0, 0, 0, 0, 0, 0, 0, 0x40, 0, 0, 0},
    {0, 0, 0, 0, 0, 0, 0, 0xe80, 0, 0, 0},
    {0, 0, 0, 0x2000000, 0, 0, 0, 0, 0, 0, 0},
    {0, 0, 0, 0, 0x400, 0, 0, 0, 0, 0, 0},
    {0, 0, 0, 0, 0, 0, 0, 0x4000, 0, 0, 0},
    {0, 0, 0x40, 0, 0, 0, 0, 0, 0, 0, 0},
    {0, 0, 0, 0, 0, 0x40, 0, 0, 0, 0, 0},
    {0, 0, 0, 0, 0, 0, 0, 0x40000, 0, 0, 0},
    {0, 0, 0, 0, 0, 0x80, 0, 0, 0, 0, 0},
    {0, 0, 0, 0, 0, 0, 0, 0x20000, 0, 0, 0},
    {0, 0, 0, 0, 0x200, 0, 0, 0, 0, 0, 0},
    {0, 0, 0, 0, 0, 0, 0x10, 0x900000, 0x8, 0, 0},
    {0, 0, 0x2, 0, 0, 0, 0, 0, 0, 0, 0},
    {0, 0, 0, 0, 0, 0, 0, 0, 0, 0x4000000, 0},
    {0, 0, 0, 0, 0, 0, 0, 0, 0, 0x80000, 0},
    {0, 0, 0, 0, 0, 0, 0, 0, 0, 0x40000000, 0},
    {0, 0, 0, 0x20000, 0, 0, 0, 0, 0, 0, 0},
    {0, 0, 0x80000, 0, 0, 0, 0, 0, 0, 0, 0},
    {0, 0, 0, 0x8000000, 0, 0, 0, 0, 0, 0, 0},
    {0, 0, 0x20000000, 0, 0, 0, 0, 0, 0, 0, 0},
    {0, 0x40000000, 0, 0, 0, 0, 0, 0, 0, 0, 0},
    {0, 0, 0, 0, 0, 0, 0, 0x40000000, 0x1, 0, 0},
    {0, 0, 0x8000, 0, 0, 0, 0, 0, 0, 0, 0},
    {0, 0, 0, 0, 0, 0, 0, 0x40000000, 0, 0, 0},
    {0, 0, 0, 0, 0x800, 0, 0, 0, 0, 0, 0},
    {0, 0, 0, 0, 0, 0, 0, 0x10000000, 0, 0, 0},
    {0, 0x8000000, 0, 0, 0, 0, 0, 0, 0, 0, 0},
    {0, 0, 0, 0, 0, 0, 0, 0x20000000, 0, 0, 0},
    {0, 0, 0, 0, 0, 0, 0, 0, 0, 0x800000, 0},
    {0, 0, 0, 0, 0, 0, 0, 0x80000000, 0, 0, 0},
    {0, 0, 0, 0, 0, 0, 0, 0x80000, 0, 0, 0},
    {0, 0, 0, 0, 0, 0, 0, 0, 0x2, 0, 0},
    {0, 0, 0, 0, 0, 0, 0, 0, 0x40, 0, 0},
    {0, 0, 0, 0x800, 0, 0, 0, 0, 0, 0, 0},
    {0, 0, 0x20000, 0, 0, 0, 0, 0, 0, 0, 0},
    {0, 0, 0, 0, 0, 0, 0x10, 0x900000, 0x4, 0, 0},
    {0, 0, 0, 0, 0, 0, 0, 0, 0x100, 0, 0},
    {0, 0, 0x200000, 0, 0, 0, 0, 0, 0, 0, 0},
    {0, 0, 0, 0, 0, 0, 0, 0, 0x200, 0, 0},
    {0x80000, 0, 0, 0, 0, 0, 0, 0, 0, 0, 0},
    {0, 0, 0, 0, 0, 0, 0, 0, 0x1000, 0, 0},
    {0, 0, 0, 0, 0, 0, 0, 0, 0x800, 0, 0},
    {0x20000, 0, 0, 0, 0, 0, 0, 0, 0, 0, 0},
    {0x40000000, 0, 0, 0, 0, 0, 0, 0, 0, 0, 0},
    {0xe0000000, 0, 0, 0, 0, 0, 0, 0, 0, 0, 0},
    {0, 0, 0, 0x40000, 0, 0, 0, 0, 0, 0, 0},
    {0, 0, 0, 0, 0, 0, 0x80, 0, 0, 0, 0},
    {0x10000000, 0, 0, 0, 0, 0, 0, 0, 0, 0, 0},
    {0, 0, 0, 0, 0, 0, 0, 0, 0x200000, 0, 0},
    {0, 0, 0, 0, 0, 0, 0, 0, 0x400000, 0, 0},
    {0, 0, 0, 0, 0, 0, 0, 0, 0x8000, 0, 0},
    {0, 0, 0x400, 0, 0, 0, 0, 0, 0, 0, 0},
    {0x800, 0, 0, 0, 0, 0, 0, 0, 0, 0, 0},
    {0, 0, 0x4000000, 0, 0, 0, 0, 0, 0, 0, 0},
    {0, 0, 0, 0x40, 0, 0, 0, 0, 0, 0, 0},
    {0, 0, 0, 0, 0x10, 0, 0, 0, 0, 0, 0},
    {0, 0, 0, 0x1000000, 0, 0, 0, 0, 0, 0, 0},
    {0, 0, 0, 0, 0, 0, 0, 0, 0, 0x2000000, 0},
    {0x2000, 0, 0, 0, 0, 0, 0, 0, 0, 0, 0},
    {0, 0, 0, 0, 0, 0, 0, 0, 0, 0x40000, 0},
    {0, 0, 0, 0, 0, 0, 0, 0, 0, 0x1e00000, 0},
    {0, 0, 0, 0, 0, 0xc, 0, 0, 0, 0, 0},
    {0, 0, 0, 0, 0, 0, 0, 0, 0, 0x38000000, 0},
    {0, 0, 0, 0, 0, 0, 0, 0, 0, 0x80000000, 0},
    {0, 0, 0x400000, 0, 0, 0, 0, 0, 0, 0, 0},
    {0, 0, 0, 0, 0x4000000, 0, 0, 0, 0, 0, 0},
    {0, 0, 0, 0, 0x2000000, 0, 0, 0, 0, 0, 0},
    {0, 0, 0, 0, 0, 0, 0, 0, 0, 0, 0x39c},
    {0, 0, 0, 0x8000, 0, 0, 0, 0, 0, 0, 0},
    {0, 0, 0x40000, 0, 0, 0, 0, 0, 0, 0, 0},
    {0, 0x20000000, 0, 0, 0, 0, 0, 0, 0, 0, 0},
};

/* The rows of all kinds, in the order of their numbers. */
static const struct rap_field_row rap_field_rows[] = {
    /* ERROR */
    {19, 0, 0, 2, 0, 0, 255}, /* attrs */
    {49, 1, 0, 2, 0, 0, 255}, /* doc_comments */
    {142, 2, 0, 0, 0, 1, 1}, /* path */
    /* SOURCE_FILE */
    {19, 0, 0, 2, 0, 0, 255}, /* attrs */
    {49, 1, 0, 2, 0, 0, 255}, /* doc_comments */
    {96, 3, 0, 2, 0, 0, 255}, /* items */
    {179, 4, 0, 0, 0, 0, 1}, /* shebang_token */
    {73, 5, 0, 0, 0, 0, 1}, /* frontmatter_token */
    /* MACRO_STMTS */
    {183, 6, 0, 2, 0, 0, 255}, /* statements */
    {60, 7, 0, 0, 0, 0, 255}, /* expr */
    /* MACRO_ITEMS */
    {19, 0, 0, 2, 0, 0, 255}, /* attrs */
    {49, 1, 0, 2, 0, 0, 255}, /* doc_comments */
    {96, 3, 0, 2, 0, 0, 255}, /* items */
    /* NAME */
    {81, 8, 0, 0, 0, 0, 1}, /* ident_token */
    {175, 9, 0, 0, 0, 0, 1}, /* self_token */
    /* NAME_REF */
    {81, 8, 0, 0, 0, 0, 1}, /* ident_token */
    {93, 10, 0, 0, 0, 0, 1}, /* int_number_token */
    {175, 9, 0, 0, 0, 0, 1}, /* self_token */
    {188, 11, 0, 0, 0, 0, 1}, /* super_token */
    {43, 12, 0, 0, 0, 0, 1}, /* crate_token */
    {177, 13, 0, 0, 0, 0, 1}, /* self_type_token */
    /* LIFETIME */
    {109, 14, 0, 0, 0, 1, 1}, /* lifetime_ident_token */
    /* VISIBILITY */
    {220, 15, 0, 0, 0, 0, 1}, /* visibility_inner */
    {150, 16, 0, 0, 0, 1, 1}, /* pub_token */
    /* VISIBILITY_INNER */
    {142, 2, 0, 0, 0, 1, 1}, /* path */
    {101, 17, 0, 0, 0, 1, 1}, /* l_paren_token */
    {86, 18, 0, 0, 0, 0, 1}, /* in_token */
    {157, 19, 0, 0, 0, 1, 1}, /* r_paren_token */
    /* RENAME */
    {127, 20, 0, 0, 0, 0, 1}, /* name */
    {6, 21, 0, 0, 0, 1, 1}, /* as_token */
    {209, 22, 0, 0, 0, 0, 1}, /* underscore_token */
    /* ABI */
    {64, 23, 0, 0, 0, 1, 1}, /* extern_token */
    {186, 24, 0, 0, 0, 0, 1}, /* string_token */
    /* RET_TYPE */
    {204, 25, 0, 0, 0, 1, 1}, /* ty */
    {193, 26, 0, 0, 0, 1, 1}, /* thin_arrow_token */
    /* PATH */
    {152, 2, 0, 0, 0, 0, 1}, /* qualifier */
    {173, 27, 0, 0, 0, 1, 1}, /* segment */
    {37, 28, 0, 0, 0, 0, 1}, /* coloncolon_token */
    /* PATH_SEGMENT */
    {205, 29, 0, 0, 0, 0, 1}, /* type_anchor */
    {128, 30, 0, 0, 0, 0, 1}, /* name_ref */
    {75, 31, 0, 0, 0, 0, 1}, /* generic_arg_list */
    {170, 32, 0, 0, 0, 0, 1}, /* return_type_syntax */
    {140, 33, 0, 0, 0, 0, 1}, /* parenthesized_arg_list */
    {168, 34, 0, 0, 0, 0, 1}, /* ret_type */
    {37, 28, 0, 0, 0, 0, 1}, /* coloncolon_token */
    /* TYPE_ANCHOR */
    {204, 25, 6, 0, 1, 1, 1}, /* ty */
    {143, 25, 6, 0, 3, 0, 1}, /* path_type */
    {98, 35, 0, 0, 0, 1, 1}, /* l_angle_token */
    {6, 21, 0, 0, 0, 0, 1}, /* as_token */
    {154, 36, 0, 0, 0, 1, 1}, /* r_angle_token */
    /* RETURN_TYPE_SYNTAX */
    {37, 28, 0, 0, 0, 0, 1}, /* coloncolon_token */
    {101, 17, 0, 0, 0, 1, 1}, /* l_paren_token */
    {51, 37, 0, 0, 0, 1, 1}, /* dotdot_token */
    {157, 19, 0, 0, 0, 1, 1}, /* r_paren_token */
    /* PARENTHESIZED_ARG_LIST */
    {206, 38, 0, 2, 0, 0, 255}, /* type_args */
    {37, 28, 0, 0, 0, 0, 1}, /* coloncolon_token */
    {101, 17, 0, 0, 0, 1, 1}, /* l_paren_token */
    {157, 19, 0, 0, 0, 1, 1}, /* r_paren_token */
    /* LET_STMT */
    {19, 0, 0, 2, 0, 0, 255}, /* attrs */
    {49, 1, 0, 2, 0, 0, 255}, /* doc_comments */
    {141, 39, 0, 0, 0, 1, 1}, /* pat */
    {204, 25, 0, 0, 0, 0, 1}, /* ty */
    {89, 7, 0, 0, 0, 0, 1}, /* initializer */
    {105, 40, 0, 0, 0, 0, 1}, /* let_else */
    {188, 11, 0, 0, 0, 0, 1}, /* super_token */
    {106, 41, 0, 0, 0, 1, 1}, /* let_token */
    {36, 42, 0, 0, 0, 0, 1}, /* colon_token */
    {58, 43, 0, 0, 0, 0, 1}, /* eq_token */
    {178, 44, 0, 0, 0, 0, 1}, /* semicolon_token */
    /* EXPR_STMT */
    {60, 7, 0, 0, 0, 1, 1}, /* expr */
    {178, 44, 0, 0, 0, 0, 1}, /* semicolon_token */
    /* LET_ELSE */
    {25, 45, 0, 0, 0, 1, 1}, /* block_expr */
    {55, 46, 0, 0, 0, 1, 1}, /* else_token */
    /* STMT_LIST */
    {19, 0, 0, 2, 0, 0, 255}, /* attrs */
    {49, 1, 0, 2, 0, 0, 255}, /* doc_comments */
    {183, 6, 0, 2, 0, 0, 255}, /* statements */
    {190, 7, 0, 0, 0, 0, 255}, /* tail_expr */
    {100, 47, 0, 0, 0, 1, 1}, /* l_curly_token */
    {156, 48, 0, 0, 0, 1, 1}, /* r_curly_token */
    /* BLOCK_EXPR */
    {19, 0, 0, 2, 0, 0, 255}, /* attrs */
    {49, 1, 0, 2, 0, 0, 255}, /* doc_comments */
    {102, 49, 0, 0, 0, 0, 1}, /* label */
    {202, 50, 0, 0, 0, 0, 1}, /* try_block_modifier */
    {185, 51, 0, 0, 0, 1, 1}, /* stmt_list */
    {211, 52, 0, 0, 0, 0, 1}, /* unsafe_token */
    {41, 53, 0, 0, 0, 0, 1}, /* const_token */
    {16, 54, 0, 0, 0, 0, 1}, /* async_token */
    {74, 55, 0, 0, 0, 0, 1}, /* gen_token */
    {123, 56, 0, 0, 0, 0, 1}, /* move_token */
    /* LABEL */
    {108, 57, 0, 0, 0, 1, 1}, /* lifetime */
    {36, 42, 0, 0, 0, 1, 1}, /* colon_token */
    /* TRY_BLOCK_MODIFIER */
    {204, 25, 0, 0, 0, 0, 1}, /* ty */
    {203, 58, 0, 0, 0, 1, 1}, /* try_token */
    {24, 59, 0, 0, 0, 0, 1}, /* bikeshed_token */
    /* RANGE_EXPR */
    {19, 0, 0, 2, 0, 0, 255}, /* attrs */
    {49, 1, 0, 2, 0, 0, 255}, /* doc_comments */
    {182, 7, 133, 0, 1, 0, 1}, /* start */
    {56, 7, 133, 0, 3, 0, 1}, /* end */
    {133, 60, 0, 0, 0, 1, 1}, /* op_token */
    /* BIN_EXPR */
    {107, 7, 133, 0, 1, 1, 1}, /* lhs */
    {171, 7, 133, 0, 3, 1, 1}, /* rhs */
    {133, 61, 0, 0, 0, 1, 1}, /* op_token */
    /* REF_EXPR */
    {19, 0, 0, 2, 0, 0, 255}, /* attrs */
    {49, 1, 0, 2, 0, 0, 255}, /* doc_comments */
    {60, 7, 0, 0, 0, 1, 1}, /* expr */
    {2, 62, 0, 0, 0, 1, 1}, /* amp_token */
    {158, 63, 0, 0, 0, 0, 1}, /* raw_token */
    {125, 64, 0, 0, 0, 0, 1}, /* mut_token */
    {41, 53, 0, 0, 0, 0, 1}, /* const_token */
    /* PREFIX_EXPR */
    {19, 0, 0, 2, 0, 0, 255}, /* attrs */
    {49, 1, 0, 2, 0, 0, 255}, /* doc_comments */
    {60, 7, 0, 0, 0, 0, 1}, /* expr */
    {133, 65, 0, 0, 0, 1, 1}, /* op_token */
    /* CALL_EXPR */
    {19, 0, 0, 2, 0, 0, 255}, /* attrs */
    {49, 1, 0, 2, 0, 0, 255}, /* doc_comments */
    {60, 7, 0, 0, 0, 1, 1}, /* expr */
    {3, 66, 0, 0, 0, 1, 1}, /* arg_list */
    /* INDEX_EXPR */
    {19, 0, 0, 2, 0, 0, 255}, /* attrs */
    {49, 1, 0, 2, 0, 0, 255}, /* doc_comments */
    {22, 7, 99, 0, 1, 1, 1}, /* base */
    {88, 7, 99, 0, 3, 1, 1}, /* index */
    {99, 67, 0, 0, 0, 1, 1}, /* l_brack_token */
    {155, 68, 0, 0, 0, 1, 1}, /* r_brack_token */
    /* METHOD_CALL_EXPR */
    {19, 0, 0, 2, 0, 0, 255}, /* attrs */
    {49, 1, 0, 2, 0, 0, 255}, /* doc_comments */
    {160, 7, 0, 0, 0, 1, 1}, /* receiver */
    {128, 30, 0, 0, 0, 1, 1}, /* name_ref */
    {75, 31, 0, 0, 0, 0, 1}, /* generic_arg_list */
    {3, 66, 0, 0, 0, 1, 1}, /* arg_list */
    {50, 69, 0, 0, 0, 0, 1}, /* dot_token */
    /* FIELD_EXPR */
    {19, 0, 0, 2, 0, 0, 255}, /* attrs */
    {49, 1, 0, 2, 0, 0, 255}, /* doc_comments */
    {60, 7, 0, 0, 0, 1, 1}, /* expr */
    {128, 30, 0, 0, 0, 1, 1}, /* name_ref */
    {50, 69, 0, 0, 0, 0, 1}, /* dot_token */
    /* AWAIT_EXPR */
    {19, 0, 0, 2, 0, 0, 255}, /* attrs */
    {49, 1, 0, 2, 0, 0, 255}, /* doc_comments */
    {60, 7, 0, 0, 0, 1, 1}, /* expr */
    {50, 69, 0, 0, 0, 0, 1}, /* dot_token */
    {21, 70, 0, 0, 0, 1, 1}, /* await_token */
    /* TRY_EXPR */
    {19, 0, 0, 2, 0, 0, 255}, /* attrs */
    {49, 1, 0, 2, 0, 0, 255}, /* doc_comments */
    {60, 7, 0, 0, 0, 1, 1}, /* expr */
    {153, 71, 0, 0, 0, 1, 1}, /* question_mark_token */
    /* CAST_EXPR */
    {60, 7, 0, 0, 0, 1, 1}, /* expr */
    {204, 25, 0, 0, 0, 1, 1}, /* ty */
    {6, 21, 0, 0, 0, 1, 1}, /* as_token */
    /* ARG_LIST */
    {4, 7, 0, 2, 0, 0, 255}, /* args */
    {101, 17, 0, 0, 0, 1, 1}, /* l_paren_token */
    {157, 19, 0, 0, 0, 1, 1}, /* r_paren_token */
    /* RECORD_EXPR */
    {19, 0, 0, 2, 0, 0, 255}, /* attrs */
    {49, 1, 0, 2, 0, 0, 255}, /* doc_comments */
    {142, 2, 0, 0, 0, 1, 1}, /* path */
    {161, 72, 0, 0, 0, 1, 1}, /* record_expr_field_list */
    /* RECORD_EXPR_FIELD */
    {19, 0, 0, 2, 0, 0, 255}, /* attrs */
    {49, 1, 0, 2, 0, 0, 255}, /* doc_comments */
    {128, 30, 0, 0, 0, 0, 1}, /* name_ref */
    {60, 7, 0, 0, 0, 1, 1}, /* expr */
    {36, 42, 0, 0, 0, 0, 1}, /* colon_token */
    /* RECORD_EXPR_FIELD_LIST */
    {68, 73, 0, 2, 0, 0, 255}, /* fields */
    {19, 0, 0, 2, 0, 0, 255}, /* attrs */
    {49, 1, 0, 2, 0, 0, 255}, /* doc_comments */
    {180, 7, 0, 0, 0, 0, 255}, /* spread */
    {100, 47, 0, 0, 0, 1, 1}, /* l_curly_token */
    {51, 37, 0, 0, 0, 0, 255}, /* dotdot_token */
    {156, 48, 0, 0, 0, 1, 1}, /* r_curly_token */
    /* MACRO_CALL */
    {19, 0, 0, 2, 0, 0, 255}, /* attrs */
    {49, 1, 0, 2, 0, 0, 255}, /* doc_comments */
    {142, 2, 0, 0, 0, 1, 1}, /* path */
    {196, 74, 0, 0, 0, 1, 1}, /* token_tree */
    {59, 75, 0, 0, 0, 1, 1}, /* excl_token */
    {178, 44, 0, 0, 0, 0, 1}, /* semicolon_token */
    /* MACRO_EXPR */
    {19, 0, 0, 2, 0, 0, 255}, /* attrs */
    {49, 1, 0, 2, 0, 0, 255}, /* doc_comments */
    {113, 76, 0, 0, 0, 1, 1}, /* macro_call */
    /* PATH_EXPR */
    {19, 0, 0, 2, 0, 0, 255}, /* attrs */
    {49, 1, 0, 2, 0, 0, 255}, /* doc_comments */
    {142, 2, 0, 0, 0, 1, 1}, /* path */
    /* LITERAL */
    {19, 0, 0, 2, 0, 0, 255}, /* attrs */
    {49, 1, 0, 2, 0, 0, 255}, /* doc_comments */
    {195, 77, 0, 0, 0, 1, 1}, /* token */
    /* UNDERSCORE_EXPR */
    {19, 0, 0, 2, 0, 0, 255}, /* attrs */
    {49, 1, 0, 2, 0, 0, 255}, /* doc_comments */
    {209, 22, 0, 0, 0, 1, 1}, /* underscore_token */
    /* PAREN_EXPR */
    {19, 0, 0, 2, 0, 0, 255}, /* attrs */
    {49, 1, 0, 2, 0, 0, 255}, /* doc_comments */
    {60, 7, 0, 0, 0, 1, 1}, /* expr */
    {101, 17, 0, 0, 0, 1, 1}, /* l_paren_token */
    {157, 19, 0, 0, 0, 1, 1}, /* r_paren_token */
    /* TUPLE_EXPR */
    {19, 0, 0, 2, 0, 0, 255}, /* attrs */
    {49, 1, 0, 2, 0, 0, 255}, /* doc_comments */
    {68, 7, 0, 2, 0, 0, 255}, /* fields */
    {101, 17, 0, 0, 0, 1, 1}, /* l_paren_token */
    {157, 19, 0, 0, 0, 1, 1}, /* r_paren_token */
    /* ARRAY_EXPR */
    {19, 0, 0, 2, 0, 0, 255}, /* attrs */
    {49, 1, 0, 2, 0, 0, 255}, /* doc_comments */
    {61, 7, 178, 2, 1, 0, 255}, /* exprs */
    {166, 7, 178, 0, 3, 0, 1}, /* repeat */
    {99, 67, 0, 0, 0, 1, 1}, /* l_brack_token */
    {178, 44, 0, 0, 0, 0, 1}, /* semicolon_token */
    {155, 68, 0, 0, 0, 1, 1}, /* r_brack_token */
    /* CLOSURE_EXPR */
    {19, 0, 0, 2, 0, 0, 255}, /* attrs */
    {49, 1, 0, 2, 0, 0, 255}, /* doc_comments */
    {70, 78, 0, 0, 0, 0, 1}, /* for_binder */
    {138, 79, 0, 0, 0, 1, 1}, /* param_list */
    {168, 34, 0, 0, 0, 0, 1}, /* ret_type */
    {26, 7, 0, 0, 0, 1, 1}, /* body */
    {41, 53, 0, 0, 0, 0, 1}, /* const_token */
    {184, 80, 0, 0, 0, 0, 1}, /* static_token */
    {16, 54, 0, 0, 0, 0, 1}, /* async_token */
    {74, 55, 0, 0, 0, 0, 1}, /* gen_token */
    {123, 56, 0, 0, 0, 0, 1}, /* move_token */
    /* IF_EXPR */
    {19, 0, 0, 2, 0, 0, 255}, /* attrs */
    {49, 1, 0, 2, 0, 0, 255}, /* doc_comments */
    {39, 7, 192, 0, 1, 1, 1}, /* condition */
    {192, 45, 55, 1, 1, 1, 2}, /* then_branch */
    {54, 81, 55, 0, 3, 0, 1}, /* else_branch */
    {82, 82, 0, 0, 0, 1, 1}, /* if_token */
    {55, 46, 0, 0, 0, 0, 1}, /* else_token */
    /* LOOP_EXPR */
    {19, 0, 0, 2, 0, 0, 255}, /* attrs */
    {49, 1, 0, 2, 0, 0, 255}, /* doc_comments */
    {102, 49, 0, 0, 0, 0, 1}, /* label */
    {111, 45, 0, 0, 0, 1, 1}, /* loop_body */
    {112, 83, 0, 0, 0, 1, 1}, /* loop_token */
    /* WHILE_EXPR */
    {19, 0, 0, 2, 0, 0, 255}, /* attrs */
    {49, 1, 0, 2, 0, 0, 255}, /* doc_comments */
    {102, 49, 0, 0, 0, 0, 1}, /* label */
    {39, 7, 111, 0, 1, 1, 1}, /* condition */
    {111, 45, 0, 1, 0, 1, 2}, /* loop_body */
    {223, 84, 0, 0, 0, 1, 1}, /* while_token */
    /* FOR_EXPR */
    {19, 0, 0, 2, 0, 0, 255}, /* attrs */
    {49, 1, 0, 2, 0, 0, 255}, /* doc_comments */
    {102, 49, 0, 0, 0, 0, 1}, /* label */
    {141, 39, 0, 0, 0, 1, 1}, /* pat */
    {97, 7, 111, 0, 1, 1, 1}, /* iterable */
    {111, 45, 0, 1, 0, 1, 2}, /* loop_body */
    {71, 85, 0, 0, 0, 1, 1}, /* for_token */
    {86, 18, 0, 0, 0, 1, 1}, /* in_token */
    /* LET_EXPR */
    {19, 0, 0, 2, 0, 0, 255}, /* attrs */
    {49, 1, 0, 2, 0, 0, 255}, /* doc_comments */
    {141, 39, 0, 0, 0, 1, 1}, /* pat */
    {60, 7, 0, 0, 0, 1, 1}, /* expr */
    {106, 41, 0, 0, 0, 1, 1}, /* let_token */
    {58, 43, 0, 0, 0, 1, 1}, /* eq_token */
    /* MATCH_EXPR */
    {19, 0, 0, 2, 0, 0, 255}, /* attrs */
    {49, 1, 0, 2, 0, 0, 255}, /* doc_comments */
    {60, 7, 0, 0, 0, 1, 1}, /* expr */
    {116, 86, 0, 0, 0, 1, 1}, /* match_arm_list */
    {117, 87, 0, 0, 0, 1, 1}, /* match_token */
    /* MATCH_ARM_LIST */
    {19, 0, 0, 2, 0, 0, 255}, /* attrs */
    {49, 1, 0, 2, 0, 0, 255}, /* doc_comments */
    {5, 88, 0, 2, 0, 0, 255}, /* arms */
    {100, 47, 0, 0, 0, 1, 1}, /* l_curly_token */
    {156, 48, 0, 0, 0, 1, 1}, /* r_curly_token */
    /* MATCH_ARM */
    {19, 0, 0, 2, 0, 0, 255}, /* attrs */
    {49, 1, 0, 2, 0, 0, 255}, /* doc_comments */
    {141, 39, 0, 0, 0, 1, 1}, /* pat */
    {80, 89, 0, 0, 0, 0, 1}, /* guard */
    {60, 7, 0, 0, 0, 1, 1}, /* expr */
    {66, 90, 0, 0, 0, 1, 1}, /* fat_arrow_token */
    {38, 91, 0, 0, 0, 0, 1}, /* comma_token */
    /* MATCH_GUARD */
    {39, 7, 0, 0, 0, 1, 1}, /* condition */
    {82, 82, 0, 0, 0, 1, 1}, /* if_token */
    /* RETURN_EXPR */
    {19, 0, 0, 2, 0, 0, 255}, /* attrs */
    {49, 1, 0, 2, 0, 0, 255}, /* doc_comments */
    {60, 7, 0, 0, 0, 0, 1}, /* expr */
    {169, 92, 0, 0, 0, 1, 1}, /* return_token */
    /* BECOME_EXPR */
    {19, 0, 0, 2, 0, 0, 255}, /* attrs */
    {49, 1, 0, 2, 0, 0, 255}, /* doc_comments */
    {60, 7, 0, 0, 0, 1, 1}, /* expr */
    {23, 93, 0, 0, 0, 1, 1}, /* become_token */
    /* YIELD_EXPR */
    {19, 0, 0, 2, 0, 0, 255}, /* attrs */
    {49, 1, 0, 2, 0, 0, 255}, /* doc_comments */
    {60, 7, 0, 0, 0, 0, 1}, /* expr */
    {225, 94, 0, 0, 0, 1, 1}, /* yield_token */
    /* YEET_EXPR */
    {19, 0, 0, 2, 0, 0, 255}, /* attrs */
    {49, 1, 0, 2, 0, 0, 255}, /* doc_comments */
    {60, 7, 0, 0, 0, 0, 1}, /* expr */
    {48, 95, 0, 0, 0, 1, 1}, /* do_token */
    {224, 96, 0, 0, 0, 0, 1}, /* yeet_token */
    /* CONTINUE_EXPR */
    {19, 0, 0, 2, 0, 0, 255}, /* attrs */
    {49, 1, 0, 2, 0, 0, 255}, /* doc_comments */
    {108, 57, 0, 0, 0, 0, 1}, /* lifetime */
    {42, 97, 0, 0, 0, 1, 1}, /* continue_token */
    /* BREAK_EXPR */
    {19, 0, 0, 2, 0, 0, 255}, /* attrs */
    {49, 1, 0, 2, 0, 0, 255}, /* doc_comments */
    {108, 57, 0, 0, 0, 0, 1}, /* lifetime */
    {60, 7, 0, 0, 0, 0, 1}, /* expr */
    {29, 98, 0, 0, 0, 1, 1}, /* break_token */
    /* OFFSET_OF_EXPR */
    {19, 0, 0, 2, 0, 0, 255}, /* attrs */
    {49, 1, 0, 2, 0, 0, 255}, /* doc_comments */
    {204, 25, 0, 0, 0, 1, 1}, /* ty */
    {68, 30, 0, 2, 0, 0, 255}, /* fields */
    {30, 99, 0, 0, 0, 1, 1}, /* builtin_token */
    {147, 100, 0, 0, 0, 1, 1}, /* pound_token */
    {132, 101, 0, 0, 0, 1, 1}, /* offset_of_token */
    {101, 17, 0, 0, 0, 1, 2}, /* l_paren_token */
    {38, 91, 0, 0, 0, 1, 1}, /* comma_token */
    {157, 19, 0, 0, 0, 1, 2}, /* r_paren_token */
    /* FORMAT_ARGS_EXPR */
    {19, 0, 0, 2, 0, 0, 255}, /* attrs */
    {49, 1, 0, 2, 0, 0, 255}, /* doc_comments */
    {191, 7, 0, 0, 0, 1, 1}, /* template */
    {4, 102, 0, 2, 0, 0, 255}, /* args */
    {30, 99, 0, 0, 0, 1, 1}, /* builtin_token */
    {147, 100, 0, 0, 0, 1, 1}, /* pound_token */
    {72, 103, 0, 0, 0, 1, 1}, /* format_args_token */
    {101, 17, 0, 0, 0, 1, 1}, /* l_paren_token */
    {157, 19, 0, 0, 0, 1, 1}, /* r_paren_token */
    /* FORMAT_ARGS_ARG */
    {127, 20, 0, 0, 0, 0, 1}, /* name */
    {60, 7, 0, 0, 0, 1, 1}, /* expr */
    {58, 43, 0, 0, 0, 0, 1}, /* eq_token */
    /* INCLUDE_BYTES_EXPR */
    {19, 0, 0, 2, 0, 0, 255}, /* attrs */
    {49, 1, 0, 2, 0, 0, 255}, /* doc_comments */
    {30, 99, 0, 0, 0, 1, 1}, /* builtin_token */
    {147, 100, 0, 0, 0, 1, 1}, /* pound_token */
    {87, 104, 0, 0, 0, 1, 1}, /* include_bytes_token */
    /* CFG_PRED_EXPR */
    {19, 0, 0, 2, 0, 0, 255}, /* attrs */
    {49, 1, 0, 2, 0, 0, 255}, /* doc_comments */
    {32, 105, 0, 0, 0, 1, 1}, /* cfg_predicate */
    {30, 99, 0, 0, 0, 1, 1}, /* builtin_token */
    {147, 100, 0, 0, 0, 1, 1}, /* pound_token */
    {34, 106, 0, 0, 0, 1, 1}, /* cfg_token */
    {101, 17, 0, 0, 0, 1, 1}, /* l_paren_token */
    {38, 91, 0, 0, 0, 0, 1}, /* comma_token */
    {157, 19, 0, 0, 0, 1, 1}, /* r_paren_token */
    /* ASM_EXPR */
    {19, 0, 0, 2, 0, 0, 255}, /* attrs */
    {49, 1, 0, 2, 0, 0, 255}, /* doc_comments */
    {219, 107, 0, 0, 0, 0, 1}, /* visibility */
    {191, 7, 0, 2, 0, 1, 255}, /* template */
    {11, 108, 0, 2, 0, 0, 255}, /* asm_pieces */
    {30, 99, 0, 0, 0, 1, 1}, /* builtin_token */
    {147, 100, 0, 0, 0, 1, 1}, /* pound_token */
    {13, 109, 0, 0, 0, 0, 1}, /* asm_token */
    {79, 110, 0, 0, 0, 0, 1}, /* global_asm_token */
    {126, 111, 0, 0, 0, 0, 1}, /* naked_asm_token */
    {101, 17, 0, 0, 0, 1, 1}, /* l_paren_token */
    {157, 19, 0, 0, 0, 1, 1}, /* r_paren_token */
    /* ASM_CLOBBER_ABI */
    {19, 0, 0, 2, 0, 0, 255}, /* attrs */
    {49, 1, 0, 2, 0, 0, 255}, /* doc_comments */
    {35, 112, 0, 0, 0, 1, 1}, /* clobber_abi_token */
    {101, 17, 0, 0, 0, 1, 1}, /* l_paren_token */
    {157, 19, 0, 0, 0, 0, 1}, /* r_paren_token */
    /* ASM_OPTIONS */
    {19, 0, 0, 2, 0, 0, 255}, /* attrs */
    {49, 1, 0, 2, 0, 0, 255}, /* doc_comments */
    {10, 113, 0, 2, 0, 0, 255}, /* asm_options */
    {134, 114, 0, 0, 0, 1, 1}, /* options_token */
    {101, 17, 0, 0, 0, 1, 1}, /* l_paren_token */
    {157, 19, 0, 0, 0, 0, 1}, /* r_paren_token */
    /* ASM_OPTION */
    {18, 115, 0, 0, 0, 0, 1}, /* att_syntax_token */
    {118, 116, 0, 0, 0, 0, 1}, /* may_unwind_token */
    {129, 117, 0, 0, 0, 0, 1}, /* nomem_token */
    {130, 118, 0, 0, 0, 0, 1}, /* noreturn_token */
    {131, 119, 0, 0, 0, 0, 1}, /* nostack_token */
    {149, 120, 0, 0, 0, 0, 1}, /* preserves_flags_token */
    {151, 121, 0, 0, 0, 0, 1}, /* pure_token */
    {158, 63, 0, 0, 0, 0, 1}, /* raw_token */
    {159, 122, 0, 0, 0, 0, 1}, /* readonly_token */
    /* ASM_DIR_SPEC */
    {86, 18, 0, 0, 0, 0, 1}, /* in_token */
    {90, 123, 0, 0, 0, 0, 1}, /* inlateout_token */
    {92, 124, 0, 0, 0, 0, 1}, /* inout_token */
    {104, 125, 0, 0, 0, 0, 1}, /* lateout_token */
    {136, 126, 0, 0, 0, 0, 1}, /* out_token */
    /* ASM_OPERAND_EXPR */
    {85, 7, 66, 0, 1, 1, 1}, /* in_expr */
    {135, 7, 66, 0, 3, 0, 1}, /* out_expr */
    {66, 90, 0, 0, 0, 0, 1}, /* fat_arrow_token */
    /* ASM_REG_OPERAND */
    {7, 127, 0, 0, 0, 1, 1}, /* asm_dir_spec */
    {12, 128, 0, 0, 0, 1, 1}, /* asm_reg_spec */
    {9, 129, 0, 0, 0, 1, 1}, /* asm_operand_expr */
    {101, 17, 0, 0, 0, 1, 1}, /* l_paren_token */
    {157, 19, 0, 0, 0, 1, 1}, /* r_paren_token */
    /* ASM_OPERAND_NAMED */
    {19, 0, 0, 2, 0, 0, 255}, /* attrs */
    {49, 1, 0, 2, 0, 0, 255}, /* doc_comments */
    {127, 20, 0, 0, 0, 0, 1}, /* name */
    {8, 130, 0, 0, 0, 1, 1}, /* asm_operand */
    {58, 43, 0, 0, 0, 0, 1}, /* eq_token */
    /* ASM_LABEL */
    {25, 45, 0, 0, 0, 1, 1}, /* block_expr */
    {103, 131, 0, 0, 0, 1, 1}, /* label_token */
    /* ASM_CONST */
    {60, 7, 0, 0, 0, 1, 1}, /* expr */
    {41, 53, 0, 0, 0, 1, 1}, /* const_token */
    /* ASM_SYM */
    {142, 2, 0, 0, 0, 1, 1}, /* path */
    {189, 132, 0, 0, 0, 1, 1}, /* sym_token */
    {101, 17, 0, 0, 0, 0, 1}, /* l_paren_token */
    {157, 19, 0, 0, 0, 0, 1}, /* r_paren_token */
    /* ASM_REG_SPEC */
    {128, 30, 0, 0, 0, 0, 1}, /* name_ref */
    {186, 24, 0, 0, 0, 0, 1}, /* string_token */
    /* MODULE */
    {19, 0, 0, 2, 0, 0, 255}, /* attrs */
    {49, 1, 0, 2, 0, 0, 255}, /* doc_comments */
    {219, 107, 0, 0, 0, 0, 1}, /* visibility */
    {127, 20, 0, 0, 0, 1, 1}, /* name */
    {95, 133, 0, 0, 0, 0, 1}, /* item_list */
    {122, 134, 0, 0, 0, 1, 1}, /* mod_token */
    {178, 44, 0, 0, 0, 0, 1}, /* semicolon_token */
    /* ITEM_LIST */
    {19, 0, 0, 2, 0, 0, 255}, /* attrs */
    {49, 1, 0, 2, 0, 0, 255}, /* doc_comments */
    {96, 3, 0, 2, 0, 0, 255}, /* items */
    {100, 47, 0, 0, 0, 1, 1}, /* l_curly_token */
    {156, 48, 0, 0, 0, 1, 1}, /* r_curly_token */
    /* EXTERN_CRATE */
    {19, 0, 0, 2, 0, 0, 255}, /* attrs */
    {49, 1, 0, 2, 0, 0, 255}, /* doc_comments */
    {219, 107, 0, 0, 0, 0, 1}, /* visibility */
    {128, 30, 0, 0, 0, 1, 1}, /* name_ref */
    {165, 135, 0, 0, 0, 0, 1}, /* rename */
    {64, 23, 0, 0, 0, 1, 1}, /* extern_token */
    {43, 12, 0, 0, 0, 1, 1}, /* crate_token */
    {178, 44, 0, 0, 0, 1, 1}, /* semicolon_token */
    /* EXTERN_BLOCK */
    {19, 0, 0, 2, 0, 0, 255}, /* attrs */
    {49, 1, 0, 2, 0, 0, 255}, /* doc_comments */
    {219, 107, 0, 0, 0, 0, 1}, /* visibility */
    {83, 136, 0, 0, 0, 0, 1}, /* impl_restriction */
    {1, 137, 0, 0, 0, 1, 1}, /* abi */
    {62, 138, 0, 0, 0, 1, 1}, /* extern_item_list */
    {41, 53, 0, 0, 0, 0, 1}, /* const_token */
    {16, 54, 0, 0, 0, 0, 1}, /* async_token */
    {211, 52, 0, 0, 0, 0, 1}, /* unsafe_token */
    {172, 139, 0, 0, 0, 0, 1}, /* safe_token */
    /* EXTERN_ITEM_LIST */
    {19, 0, 0, 2, 0, 0, 255}, /* attrs */
    {49, 1, 0, 2, 0, 0, 255}, /* doc_comments */
    {63, 140, 0, 2, 0, 0, 255}, /* extern_items */
    {100, 47, 0, 0, 0, 1, 1}, /* l_curly_token */
    {156, 48, 0, 0, 0, 1, 1}, /* r_curly_token */
    /* IMPL_RESTRICTION */
    {220, 15, 0, 0, 0, 1, 1}, /* visibility_inner */
    {84, 141, 0, 0, 0, 1, 1}, /* impl_token */
    /* MUT_RESTRICTION */
    {220, 15, 0, 0, 0, 1, 1}, /* visibility_inner */
    {125, 64, 0, 0, 0, 1, 1}, /* mut_token */
    /* TYPE_ALIAS */
    {19, 0, 0, 2, 0, 0, 255}, /* attrs */
    {49, 1, 0, 2, 0, 0, 255}, /* doc_comments */
    {219, 107, 0, 0, 0, 0, 1}, /* visibility */
    {83, 136, 0, 0, 0, 0, 1}, /* impl_restriction */
    {1, 137, 0, 0, 0, 0, 1}, /* abi */
    {127, 20, 0, 0, 0, 1, 1}, /* name */
    {77, 142, 0, 0, 0, 0, 1}, /* generic_param_list */
    {207, 143, 0, 0, 0, 0, 1}, /* type_bound_list */
    {221, 144, 58, 0, 1, 0, 2}, /* where_clause */
    {198, 144, 221, 0, 4, 0, 1}, /* trailing_where_clause */
    {204, 25, 0, 0, 0, 0, 1}, /* ty */
    {41, 53, 0, 0, 0, 0, 1}, /* const_token */
    {16, 54, 0, 0, 0, 0, 1}, /* async_token */
    {211, 52, 0, 0, 0, 0, 1}, /* unsafe_token */
    {172, 139, 0, 0, 0, 0, 1}, /* safe_token */
    {44, 145, 0, 0, 0, 0, 1}, /* default_token */
    {208, 146, 0, 0, 0, 1, 1}, /* type_token */
    {36, 42, 0, 0, 0, 0, 1}, /* colon_token */
    {58, 43, 0, 0, 0, 0, 1}, /* eq_token */
    {178, 44, 0, 0, 0, 1, 1}, /* semicolon_token */
    /* MACRO_RULES */
    {19, 0, 0, 2, 0, 0, 255}, /* attrs */
    {49, 1, 0, 2, 0, 0, 255}, /* doc_comments */
    {219, 107, 0, 0, 0, 0, 1}, /* visibility */
    {127, 20, 0, 0, 0, 1, 1}, /* name */
    {196, 74, 0, 0, 0, 1, 1}, /* token_tree */
    {114, 147, 0, 0, 0, 1, 1}, /* macro_rules_token */
    {59, 75, 0, 0, 0, 1, 1}, /* excl_token */
    {178, 44, 0, 0, 0, 0, 1}, /* semicolon_token */
    /* MACRO_DEF */
    {19, 0, 0, 2, 0, 0, 255}, /* attrs */
    {49, 1, 0, 2, 0, 0, 255}, /* doc_comments */
    {219, 107, 0, 0, 0, 0, 1}, /* visibility */
    {127, 20, 0, 0, 0, 1, 1}, /* name */
    {4, 74, 26, 0, 1, 0, 1}, /* args */
    {26, 74, 0, 1, 0, 1, 2}, /* body */
    {115, 148, 0, 0, 0, 1, 1}, /* macro_token */
    /* FN */
    {19, 0, 0, 2, 0, 0, 255}, /* attrs */
    {49, 1, 0, 2, 0, 0, 255}, /* doc_comments */
    {219, 107, 0, 0, 0, 0, 1}, /* visibility */
    {83, 136, 0, 0, 0, 0, 1}, /* impl_restriction */
    {1, 137, 0, 0, 0, 0, 1}, /* abi */
    {127, 20, 0, 0, 0, 1, 1}, /* name */
    {77, 142, 0, 0, 0, 0, 1}, /* generic_param_list */
    {138, 79, 0, 0, 0, 1, 1}, /* param_list */
    {168, 34, 0, 0, 0, 0, 1}, /* ret_type */
    {221, 144, 0, 0, 0, 0, 1}, /* where_clause */
    {26, 45, 0, 0, 0, 0, 1}, /* body */
    {41, 53, 0, 0, 0, 0, 1}, /* const_token */
    {16, 54, 0, 0, 0, 0, 2}, /* async_token */
    {74, 55, 0, 0, 0, 0, 1}, /* gen_token */
    {211, 52, 0, 0, 0, 0, 2}, /* unsafe_token */
    {172, 139, 0, 0, 0, 0, 1}, /* safe_token */
    {44, 145, 0, 0, 0, 0, 1}, /* default_token */
    {69, 149, 0, 0, 0, 1, 1}, /* fn_token */
    {178, 44, 0, 0, 0, 0, 1}, /* semicolon_token */
    /* TOKEN_TREE */
    {197, 74, 0, 2, 0, 0, 255}, /* token_trees */
    /* STRUCT */
    {19, 0, 0, 2, 0, 0, 255}, /* attrs */
    {49, 1, 0, 2, 0, 0, 255}, /* doc_comments */
    {219, 107, 0, 0, 0, 0, 1}, /* visibility */
    {127, 20, 0, 0, 0, 1, 1}, /* name */
    {77, 142, 0, 0, 0, 0, 1}, /* generic_param_list */
    {221, 144, 0, 0, 0, 0, 1}, /* where_clause */
    {67, 150, 0, 0, 0, 0, 1}, /* field_list */
    {187, 151, 0, 0, 0, 1, 1}, /* struct_token */
    {178, 44, 0, 0, 0, 0, 1}, /* semicolon_token */
    /* UNION */
    {19, 0, 0, 2, 0, 0, 255}, /* attrs */
    {49, 1, 0, 2, 0, 0, 255}, /* doc_comments */
    {219, 107, 0, 0, 0, 0, 1}, /* visibility */
    {127, 20, 0, 0, 0, 1, 1}, /* name */
    {77, 142, 0, 0, 0, 0, 1}, /* generic_param_list */
    {221, 144, 0, 0, 0, 0, 1}, /* where_clause */
    {162, 152, 0, 0, 0, 0, 1}, /* record_field_list */
    {210, 153, 0, 0, 0, 1, 1}, /* union_token */
    {178, 44, 0, 0, 0, 0, 1}, /* semicolon_token */
    /* ENUM */
    {19, 0, 0, 2, 0, 0, 255}, /* attrs */
    {49, 1, 0, 2, 0, 0, 255}, /* doc_comments */
    {219, 107, 0, 0, 0, 0, 1}, /* visibility */
    {127, 20, 0, 0, 0, 1, 1}, /* name */
    {77, 142, 0, 0, 0, 0, 1}, /* generic_param_list */
    {221, 144, 0, 0, 0, 0, 1}, /* where_clause */
    {217, 154, 0, 0, 0, 1, 1}, /* variant_list */
    {57, 155, 0, 0, 0, 1, 1}, /* enum_token */
    /* VARIANT_LIST */
    {218, 156, 0, 2, 0, 0, 255}, /* variants */
    {100, 47, 0, 0, 0, 1, 1}, /* l_curly_token */
    {156, 48, 0, 0, 0, 1, 1}, /* r_curly_token */
    /* VARIANT */
    {19, 0, 0, 2, 0, 0, 255}, /* attrs */
    {49, 1, 0, 2, 0, 0, 255}, /* doc_comments */
    {127, 20, 0, 0, 0, 0, 1}, /* name */
    {67, 150, 0, 0, 0, 0, 1}, /* field_list */
    {40, 157, 0, 0, 0, 0, 1}, /* const_arg */
    {209, 22, 0, 0, 0, 0, 1}, /* underscore_token */
    {58, 43, 0, 0, 0, 0, 1}, /* eq_token */
    /* RECORD_FIELD_LIST */
    {68, 158, 0, 2, 0, 0, 255}, /* fields */
    {100, 47, 0, 0, 0, 1, 1}, /* l_curly_token */
    {156, 48, 0, 0, 0, 1, 1}, /* r_curly_token */
    /* RECORD_FIELD */
    {19, 0, 0, 2, 0, 0, 255}, /* attrs */
    {49, 1, 0, 2, 0, 0, 255}, /* doc_comments */
    {219, 107, 0, 0, 0, 0, 1}, /* visibility */
    {124, 159, 0, 0, 0, 0, 2}, /* mut_restriction */
    {127, 20, 0, 0, 0, 1, 1}, /* name */
    {204, 25, 0, 0, 0, 1, 1}, /* ty */
    {46, 157, 0, 0, 0, 0, 1}, /* default_val */
    {211, 52, 0, 0, 0, 0, 1}, /* unsafe_token */
    {36, 42, 0, 0, 0, 1, 1}, /* colon_token */
    {58, 43, 0, 0, 0, 0, 1}, /* eq_token */
    /* TUPLE_FIELD_LIST */
    {68, 160, 0, 2, 0, 0, 255}, /* fields */
    {101, 17, 0, 0, 0, 1, 1}, /* l_paren_token */
    {157, 19, 0, 0, 0, 1, 1}, /* r_paren_token */
    /* TUPLE_FIELD */
    {19, 0, 0, 2, 0, 0, 255}, /* attrs */
    {49, 1, 0, 2, 0, 0, 255}, /* doc_comments */
    {219, 107, 0, 0, 0, 0, 1}, /* visibility */
    {124, 159, 0, 0, 0, 0, 1}, /* mut_restriction */
    {204, 25, 0, 0, 0, 1, 1}, /* ty */
    /* CONST */
    {19, 0, 0, 2, 0, 0, 255}, /* attrs */
    {49, 1, 0, 2, 0, 0, 255}, /* doc_comments */
    {219, 107, 0, 0, 0, 0, 1}, /* visibility */
    {83, 136, 0, 0, 0, 0, 1}, /* impl_restriction */
    {1, 137, 0, 0, 0, 0, 1}, /* abi */
    {127, 20, 0, 0, 0, 0, 1}, /* name */
    {77, 142, 0, 0, 0, 0, 1}, /* generic_param_list */
    {204, 25, 0, 0, 0, 1, 1}, /* ty */
    {26, 7, 0, 0, 0, 0, 1}, /* body */
    {221, 144, 0, 0, 0, 0, 1}, /* where_clause */
    {41, 53, 0, 0, 0, 1, 2}, /* const_token */
    {16, 54, 0, 0, 0, 0, 1}, /* async_token */
    {211, 52, 0, 0, 0, 0, 1}, /* unsafe_token */
    {172, 139, 0, 0, 0, 0, 1}, /* safe_token */
    {44, 145, 0, 0, 0, 0, 1}, /* default_token */
    {208, 146, 0, 0, 0, 0, 1}, /* type_token */
    {125, 64, 0, 0, 0, 0, 1}, /* mut_token */
    {209, 22, 0, 0, 0, 0, 1}, /* underscore_token */
    {36, 42, 0, 0, 0, 1, 1}, /* colon_token */
    {58, 43, 0, 0, 0, 0, 1}, /* eq_token */
    {178, 44, 0, 0, 0, 1, 1}, /* semicolon_token */
    /* STATIC */
    {19, 0, 0, 2, 0, 0, 255}, /* attrs */
    {49, 1, 0, 2, 0, 0, 255}, /* doc_comments */
    {219, 107, 0, 0, 0, 0, 1}, /* visibility */
    {83, 136, 0, 0, 0, 0, 1}, /* impl_restriction */
    {1, 137, 0, 0, 0, 0, 1}, /* abi */
    {127, 20, 0, 0, 0, 1, 1}, /* name */
    {77, 142, 0, 0, 0, 0, 1}, /* generic_param_list */
    {204, 25, 0, 0, 0, 1, 1}, /* ty */
    {26, 7, 0, 0, 0, 0, 1}, /* body */
    {41, 53, 0, 0, 0, 0, 1}, /* const_token */
    {16, 54, 0, 0, 0, 0, 1}, /* async_token */
    {211, 52, 0, 0, 0, 0, 1}, /* unsafe_token */
    {172, 139, 0, 0, 0, 0, 1}, /* safe_token */
    {184, 80, 0, 0, 0, 1, 1}, /* static_token */
    {125, 64, 0, 0, 0, 0, 1}, /* mut_token */
    {36, 42, 0, 0, 0, 1, 1}, /* colon_token */
    {58, 43, 0, 0, 0, 0, 1}, /* eq_token */
    {178, 44, 0, 0, 0, 1, 1}, /* semicolon_token */
    /* TRAIT */
    {19, 0, 0, 2, 0, 0, 255}, /* attrs */
    {49, 1, 0, 2, 0, 0, 255}, /* doc_comments */
    {219, 107, 0, 0, 0, 0, 1}, /* visibility */
    {83, 136, 0, 0, 0, 0, 1}, /* impl_restriction */
    {1, 137, 0, 0, 0, 0, 1}, /* abi */
    {127, 20, 0, 0, 0, 1, 1}, /* name */
    {77, 142, 0, 0, 0, 0, 1}, /* generic_param_list */
    {207, 143, 0, 0, 0, 0, 1}, /* type_bound_list */
    {221, 144, 0, 0, 0, 0, 1}, /* where_clause */
    {14, 161, 0, 0, 0, 0, 1}, /* assoc_item_list */
    {41, 53, 0, 0, 0, 0, 1}, /* const_token */
    {16, 54, 0, 0, 0, 0, 1}, /* async_token */
    {211, 52, 0, 0, 0, 0, 1}, /* unsafe_token */
    {172, 139, 0, 0, 0, 0, 1}, /* safe_token */
    {20, 162, 0, 0, 0, 0, 1}, /* auto_token */
    {200, 163, 0, 0, 0, 1, 1}, /* trait_token */
    {36, 42, 0, 0, 0, 0, 1}, /* colon_token */
    {58, 43, 0, 0, 0, 0, 1}, /* eq_token */
    {178, 44, 0, 0, 0, 0, 1}, /* semicolon_token */
    /* IMPL */
    {19, 0, 0, 2, 0, 0, 255}, /* attrs */
    {49, 1, 0, 2, 0, 0, 255}, /* doc_comments */
    {219, 107, 0, 0, 0, 0, 1}, /* visibility */
    {83, 136, 0, 0, 0, 0, 1}, /* impl_restriction */
    {1, 137, 0, 0, 0, 0, 1}, /* abi */
    {77, 142, 0, 0, 0, 0, 1}, /* generic_param_list */
    {199, 25, 71, 0, 2, 0, 1}, /* trait_ */
    {176, 25, 71, 0, 4, 1, 1}, /* self_ty */
    {221, 144, 0, 0, 0, 0, 1}, /* where_clause */
    {14, 161, 0, 0, 0, 1, 1}, /* assoc_item_list */
    {41, 53, 0, 0, 0, 0, 2}, /* const_token */
    {16, 54, 0, 0, 0, 0, 1}, /* async_token */
    {211, 52, 0, 0, 0, 0, 2}, /* unsafe_token */
    {172, 139, 0, 0, 0, 0, 1}, /* safe_token */
    {44, 145, 0, 0, 0, 0, 1}, /* default_token */
    {84, 141, 0, 0, 0, 1, 1}, /* impl_token */
    {59, 75, 0, 0, 0, 0, 1}, /* excl_token */
    {71, 85, 0, 0, 0, 0, 1}, /* for_token */
    /* ASSOC_ITEM_LIST */
    {19, 0, 0, 2, 0, 0, 255}, /* attrs */
    {49, 1, 0, 2, 0, 0, 255}, /* doc_comments */
    {15, 164, 0, 2, 0, 0, 255}, /* assoc_items */
    {100, 47, 0, 0, 0, 1, 1}, /* l_curly_token */
    {156, 48, 0, 0, 0, 1, 1}, /* r_curly_token */
    /* USE */
    {19, 0, 0, 2, 0, 0, 255}, /* attrs */
    {49, 1, 0, 2, 0, 0, 255}, /* doc_comments */
    {219, 107, 0, 0, 0, 0, 1}, /* visibility */
    {214, 165, 0, 0, 0, 1, 1}, /* use_tree */
    {213, 166, 0, 0, 0, 1, 1}, /* use_token */
    {178, 44, 0, 0, 0, 1, 1}, /* semicolon_token */
    /* USE_TREE */
    {142, 2, 0, 0, 0, 0, 1}, /* path */
    {215, 167, 0, 0, 0, 0, 1}, /* use_tree_list */
    {165, 135, 0, 0, 0, 0, 1}, /* rename */
    {37, 28, 0, 0, 0, 0, 1}, /* coloncolon_token */
    {181, 168, 0, 0, 0, 0, 1}, /* star_token */
    /* USE_TREE_LIST */
    {216, 165, 0, 2, 0, 0, 255}, /* use_trees */
    {100, 47, 0, 0, 0, 1, 1}, /* l_curly_token */
    {156, 48, 0, 0, 0, 1, 1}, /* r_curly_token */
    /* PARAM_LIST */
    {19, 0, 0, 2, 0, 0, 255}, /* attrs */
    {49, 1, 0, 2, 0, 0, 255}, /* doc_comments */
    {174, 169, 0, 0, 0, 0, 1}, /* self_param */
    {139, 170, 0, 2, 0, 0, 255}, /* params */
    {101, 17, 0, 0, 0, 0, 1}, /* l_paren_token */
    {157, 19, 0, 0, 0, 0, 1}, /* r_paren_token */
    {146, 171, 0, 0, 0, 0, 2}, /* pipe_token */
    /* PARAM */
    {19, 0, 0, 2, 0, 0, 255}, /* attrs */
    {49, 1, 0, 2, 0, 0, 255}, /* doc_comments */
    {141, 39, 0, 0, 0, 0, 1}, /* pat */
    {204, 25, 0, 0, 0, 0, 1}, /* ty */
    {36, 42, 0, 0, 0, 0, 1}, /* colon_token */
    {52, 172, 0, 0, 0, 0, 1}, /* dotdotdot_token */
    /* SELF_PARAM */
    {19, 0, 0, 2, 0, 0, 255}, /* attrs */
    {49, 1, 0, 2, 0, 0, 255}, /* doc_comments */
    {108, 57, 0, 0, 0, 0, 1}, /* lifetime */
    {127, 20, 0, 0, 0, 1, 1}, /* name */
    {204, 25, 0, 0, 0, 0, 1}, /* ty */
    {2, 62, 0, 0, 0, 0, 1}, /* amp_token */
    {125, 64, 0, 0, 0, 0, 1}, /* mut_token */
    {36, 42, 0, 0, 0, 0, 1}, /* colon_token */
    /* OR_PAT */
    {144, 39, 0, 2, 0, 1, 255}, /* pats */
    /* RANGE_PAT */
    {182, 39, 133, 0, 1, 0, 1}, /* start */
    {56, 39, 133, 0, 3, 0, 1}, /* end */
    {133, 173, 0, 0, 0, 1, 1}, /* op_token */
    /* REST_PAT */
    {19, 0, 0, 2, 0, 0, 255}, /* attrs */
    {49, 1, 0, 2, 0, 0, 255}, /* doc_comments */
    {51, 37, 0, 0, 0, 1, 1}, /* dotdot_token */
    /* DEREF_PAT */
    {141, 39, 0, 0, 0, 1, 1}, /* pat */
    {30, 99, 0, 0, 0, 1, 1}, /* builtin_token */
    {147, 100, 0, 0, 0, 1, 1}, /* pound_token */
    {47, 174, 0, 0, 0, 1, 1}, /* deref_token */
    {101, 17, 0, 0, 0, 1, 1}, /* l_paren_token */
    {157, 19, 0, 0, 0, 1, 1}, /* r_paren_token */
    /* CFG_PRED_PAT */
    {32, 105, 0, 0, 0, 1, 1}, /* cfg_predicate */
    {30, 99, 0, 0, 0, 1, 1}, /* builtin_token */
    {147, 100, 0, 0, 0, 1, 1}, /* pound_token */
    {34, 106, 0, 0, 0, 1, 1}, /* cfg_token */
    {101, 17, 0, 0, 0, 1, 1}, /* l_paren_token */
    {38, 91, 0, 0, 0, 0, 1}, /* comma_token */
    {157, 19, 0, 0, 0, 1, 1}, /* r_paren_token */
    /* LITERAL_PAT */
    {110, 175, 0, 0, 0, 1, 1}, /* literal */
    {121, 176, 0, 0, 0, 0, 1}, /* minus_token */
    /* TUPLE_STRUCT_PAT */
    {142, 2, 0, 0, 0, 1, 1}, /* path */
    {68, 39, 0, 2, 0, 0, 255}, /* fields */
    {101, 17, 0, 0, 0, 1, 1}, /* l_paren_token */
    {157, 19, 0, 0, 0, 1, 1}, /* r_paren_token */
    /* RECORD_PAT */
    {142, 2, 0, 0, 0, 1, 1}, /* path */
    {163, 177, 0, 0, 0, 1, 1}, /* record_pat_field_list */
    /* RECORD_PAT_FIELD_LIST */
    {68, 178, 0, 2, 0, 0, 255}, /* fields */
    {167, 179, 0, 0, 0, 0, 255}, /* rest_pat */
    {100, 47, 0, 0, 0, 1, 1}, /* l_curly_token */
    {156, 48, 0, 0, 0, 1, 1}, /* r_curly_token */
    /* RECORD_PAT_FIELD */
    {19, 0, 0, 2, 0, 0, 255}, /* attrs */
    {49, 1, 0, 2, 0, 0, 255}, /* doc_comments */
    {128, 30, 0, 0, 0, 0, 1}, /* name_ref */
    {141, 39, 0, 0, 0, 1, 1}, /* pat */
    {36, 42, 0, 0, 0, 0, 1}, /* colon_token */
    /* MACRO_PAT */
    {113, 76, 0, 0, 0, 1, 1}, /* macro_call */
    /* PATH_PAT */
    {142, 2, 0, 0, 0, 1, 1}, /* path */
    /* WILDCARD_PAT */
    {209, 22, 0, 0, 0, 1, 1}, /* underscore_token */
    /* REF_PAT */
    {141, 39, 0, 0, 0, 1, 1}, /* pat */
    {2, 62, 0, 0, 0, 1, 1}, /* amp_token */
    {125, 64, 0, 0, 0, 0, 1}, /* mut_token */
    /* NOT_NULL */
    {141, 39, 0, 0, 0, 1, 1}, /* pat */
    {59, 75, 0, 0, 0, 1, 1}, /* excl_token */
    /* PAREN_PAT */
    {141, 39, 0, 0, 0, 1, 1}, /* pat */
    {101, 17, 0, 0, 0, 1, 1}, /* l_paren_token */
    {157, 19, 0, 0, 0, 1, 1}, /* r_paren_token */
    /* TUPLE_PAT */
    {68, 39, 0, 2, 0, 0, 255}, /* fields */
    {101, 17, 0, 0, 0, 1, 1}, /* l_paren_token */
    {157, 19, 0, 0, 0, 1, 1}, /* r_paren_token */
    /* SLICE_PAT */
    {144, 39, 0, 2, 0, 0, 255}, /* pats */
    {99, 67, 0, 0, 0, 1, 1}, /* l_brack_token */
    {155, 68, 0, 0, 0, 1, 1}, /* r_brack_token */
    /* IDENT_PAT */
    {127, 20, 0, 0, 0, 1, 1}, /* name */
    {141, 39, 0, 0, 0, 0, 1}, /* pat */
    {164, 180, 0, 0, 0, 0, 1}, /* ref_token */
    {125, 64, 0, 0, 0, 0, 1}, /* mut_token */
    {17, 181, 0, 0, 0, 0, 1}, /* at_token */
    /* BOX_PAT */
    {141, 39, 0, 0, 0, 1, 1}, /* pat */
    {28, 182, 0, 0, 0, 1, 1}, /* box_token */
    /* CONST_BLOCK_PAT */
    {25, 45, 0, 0, 0, 1, 1}, /* block_expr */
    {41, 53, 0, 0, 0, 1, 1}, /* const_token */
    /* PAREN_TYPE */
    {204, 25, 0, 0, 0, 1, 1}, /* ty */
    {101, 17, 0, 0, 0, 1, 1}, /* l_paren_token */
    {157, 19, 0, 0, 0, 1, 1}, /* r_paren_token */
    /* TUPLE_TYPE */
    {68, 25, 0, 2, 0, 0, 255}, /* fields */
    {101, 17, 0, 0, 0, 1, 1}, /* l_paren_token */
    {157, 19, 0, 0, 0, 1, 1}, /* r_paren_token */
    /* NEVER_TYPE */
    {59, 75, 0, 0, 0, 1, 1}, /* excl_token */
    /* PTR_TYPE */
    {204, 25, 0, 0, 0, 1, 1}, /* ty */
    {181, 168, 0, 0, 0, 1, 1}, /* star_token */
    {41, 53, 0, 0, 0, 0, 1}, /* const_token */
    {125, 64, 0, 0, 0, 0, 1}, /* mut_token */
    /* SLICE_TYPE */
    {204, 25, 0, 0, 0, 1, 1}, /* ty */
    {99, 67, 0, 0, 0, 1, 1}, /* l_brack_token */
    {155, 68, 0, 0, 0, 1, 1}, /* r_brack_token */
    /* ARRAY_TYPE */
    {204, 25, 0, 0, 0, 1, 1}, /* ty */
    {40, 157, 0, 0, 0, 1, 1}, /* const_arg */
    {99, 67, 0, 0, 0, 1, 1}, /* l_brack_token */
    {178, 44, 0, 0, 0, 1, 1}, /* semicolon_token */
    {155, 68, 0, 0, 0, 1, 1}, /* r_brack_token */
    /* REF_TYPE */
    {108, 57, 0, 0, 0, 0, 1}, /* lifetime */
    {204, 25, 0, 0, 0, 1, 1}, /* ty */
    {2, 62, 0, 0, 0, 1, 1}, /* amp_token */
    {125, 64, 0, 0, 0, 0, 1}, /* mut_token */
    /* INFER_TYPE */
    {209, 22, 0, 0, 0, 1, 1}, /* underscore_token */
    /* FN_PTR_TYPE */
    {1, 137, 0, 0, 0, 0, 1}, /* abi */
    {138, 79, 0, 0, 0, 1, 1}, /* param_list */
    {168, 34, 0, 0, 0, 0, 1}, /* ret_type */
    {211, 52, 0, 0, 0, 0, 1}, /* unsafe_token */
    {69, 149, 0, 0, 0, 1, 1}, /* fn_token */
    /* FOR_BINDER */
    {77, 142, 0, 0, 0, 1, 1}, /* generic_param_list */
    {71, 85, 0, 0, 0, 1, 1}, /* for_token */
    /* FOR_TYPE */
    {70, 78, 0, 0, 0, 1, 1}, /* for_binder */
    {204, 25, 0, 0, 0, 1, 1}, /* ty */
    /* IMPL_TRAIT_TYPE */
    {207, 143, 0, 0, 0, 1, 1}, /* type_bound_list */
    {84, 141, 0, 0, 0, 1, 1}, /* impl_token */
    /* DYN_TRAIT_TYPE */
    {207, 143, 0, 0, 0, 1, 1}, /* type_bound_list */
    {53, 183, 0, 0, 0, 0, 1}, /* dyn_token */
    /* MACRO_TYPE */
    {113, 76, 0, 0, 0, 1, 1}, /* macro_call */
    /* PATH_TYPE */
    {142, 2, 0, 0, 0, 1, 1}, /* path */
    /* PATTERN_TYPE */
    {204, 25, 0, 0, 0, 1, 1}, /* ty */
    {141, 39, 0, 0, 0, 1, 1}, /* pat */
    {30, 99, 0, 0, 0, 1, 1}, /* builtin_token */
    {147, 100, 0, 0, 0, 1, 1}, /* pound_token */
    {145, 184, 0, 0, 0, 1, 1}, /* pattern_type_token */
    {101, 17, 0, 0, 0, 1, 1}, /* l_paren_token */
    {94, 185, 0, 0, 0, 1, 1}, /* is_token */
    {157, 19, 0, 0, 0, 1, 1}, /* r_paren_token */
    /* TYPE_BOUND */
    {108, 57, 0, 0, 0, 0, 1}, /* lifetime */
    {212, 186, 0, 0, 0, 0, 1}, /* use_bound_generic_args */
    {70, 78, 0, 0, 0, 0, 1}, /* for_binder */
    {204, 25, 0, 0, 0, 0, 1}, /* ty */
    {101, 17, 0, 0, 0, 0, 1}, /* l_paren_token */
    {213, 166, 0, 0, 0, 0, 1}, /* use_token */
    {99, 67, 0, 0, 0, 0, 1}, /* l_brack_token */
    {194, 187, 0, 0, 0, 0, 1}, /* tilde_token */
    {41, 53, 0, 0, 0, 0, 1}, /* const_token */
    {155, 68, 0, 0, 0, 0, 1}, /* r_brack_token */
    {16, 54, 0, 0, 0, 0, 1}, /* async_token */
    {153, 71, 0, 0, 0, 0, 1}, /* question_mark_token */
    {157, 19, 0, 0, 0, 0, 1}, /* r_paren_token */
    /* TYPE_BOUND_LIST */
    {27, 188, 0, 2, 0, 0, 255}, /* bounds */
    {70, 78, 0, 0, 0, 0, 1}, /* for_binder */
    {101, 17, 0, 0, 0, 0, 1}, /* l_paren_token */
    {99, 67, 0, 0, 0, 0, 1}, /* l_brack_token */
    {194, 187, 0, 0, 0, 0, 1}, /* tilde_token */
    {41, 53, 0, 0, 0, 0, 1}, /* const_token */
    {155, 68, 0, 0, 0, 0, 1}, /* r_brack_token */
    {16, 54, 0, 0, 0, 0, 1}, /* async_token */
    {153, 71, 0, 0, 0, 0, 1}, /* question_mark_token */
    /* GENERIC_ARG_LIST */
    {76, 189, 0, 2, 0, 0, 255}, /* generic_args */
    {37, 28, 0, 0, 0, 0, 1}, /* coloncolon_token */
    {98, 35, 0, 0, 0, 1, 1}, /* l_angle_token */
    {154, 36, 0, 0, 0, 1, 1}, /* r_angle_token */
    /* TYPE_ARG */
    {204, 25, 0, 0, 0, 1, 1}, /* ty */
    /* LIFETIME_ARG */
    {108, 57, 0, 0, 0, 1, 1}, /* lifetime */
    /* CONST_ARG */
    {60, 7, 0, 0, 0, 1, 1}, /* expr */
    /* ASSOC_TYPE_ARG */
    {128, 30, 0, 0, 0, 1, 1}, /* name_ref */
    {75, 31, 0, 0, 0, 0, 1}, /* generic_arg_list */
    {170, 32, 0, 0, 0, 0, 1}, /* return_type_syntax */
    {140, 33, 0, 0, 0, 0, 1}, /* parenthesized_arg_list */
    {168, 34, 0, 0, 0, 0, 1}, /* ret_type */
    {207, 143, 0, 0, 0, 0, 1}, /* type_bound_list */
    {204, 25, 0, 0, 0, 0, 1}, /* ty */
    {40, 157, 0, 0, 0, 0, 1}, /* const_arg */
    {36, 42, 0, 0, 0, 0, 1}, /* colon_token */
    {58, 43, 0, 0, 0, 0, 1}, /* eq_token */
    /* USE_BOUND_GENERIC_ARGS */
    {212, 190, 0, 2, 0, 0, 255}, /* use_bound_generic_args */
    {98, 35, 0, 0, 0, 1, 1}, /* l_angle_token */
    {154, 36, 0, 0, 0, 1, 1}, /* r_angle_token */
    /* GENERIC_PARAM_LIST */
    {78, 191, 0, 2, 0, 0, 255}, /* generic_params */
    {98, 35, 0, 0, 0, 1, 1}, /* l_angle_token */
    {154, 36, 0, 0, 0, 1, 1}, /* r_angle_token */
    /* LIFETIME_PARAM */
    {19, 0, 0, 2, 0, 0, 255}, /* attrs */
    {49, 1, 0, 2, 0, 0, 255}, /* doc_comments */
    {108, 57, 0, 0, 0, 1, 1}, /* lifetime */
    {207, 143, 0, 0, 0, 0, 1}, /* type_bound_list */
    {36, 42, 0, 0, 0, 0, 1}, /* colon_token */
    /* TYPE_PARAM */
    {19, 0, 0, 2, 0, 0, 255}, /* attrs */
    {49, 1, 0, 2, 0, 0, 255}, /* doc_comments */
    {127, 20, 0, 0, 0, 1, 1}, /* name */
    {207, 143, 0, 0, 0, 0, 1}, /* type_bound_list */
    {45, 25, 0, 0, 0, 0, 1}, /* default_type */
    {36, 42, 0, 0, 0, 0, 1}, /* colon_token */
    {58, 43, 0, 0, 0, 0, 1}, /* eq_token */
    /* CONST_PARAM */
    {19, 0, 0, 2, 0, 0, 255}, /* attrs */
    {49, 1, 0, 2, 0, 0, 255}, /* doc_comments */
    {127, 20, 0, 0, 0, 1, 1}, /* name */
    {204, 25, 0, 0, 0, 1, 1}, /* ty */
    {46, 157, 0, 0, 0, 0, 1}, /* default_val */
    {41, 53, 0, 0, 0, 1, 1}, /* const_token */
    {36, 42, 0, 0, 0, 1, 1}, /* colon_token */
    {58, 43, 0, 0, 0, 0, 1}, /* eq_token */
    /* WHERE_CLAUSE */
    {148, 192, 0, 2, 0, 0, 255}, /* predicates */
    {222, 193, 0, 0, 0, 1, 1}, /* where_token */
    /* WHERE_PRED */
    {108, 57, 0, 0, 0, 0, 1}, /* lifetime */
    {70, 78, 0, 0, 0, 0, 1}, /* for_binder */
    {204, 25, 0, 0, 0, 0, 1}, /* ty */
    {207, 143, 0, 0, 0, 1, 1}, /* type_bound_list */
    {36, 42, 0, 0, 0, 1, 1}, /* colon_token */
    /* DOC_COMMENT */
    {137, 194, 0, 0, 0, 0, 1}, /* outer_doc_comment_token */
    {91, 195, 0, 0, 0, 0, 1}, /* inner_doc_comment_token */
    /* ATTR */
    {119, 196, 0, 0, 0, 1, 1}, /* meta */
    {147, 100, 0, 0, 0, 1, 1}, /* pound_token */
    {59, 75, 0, 0, 0, 0, 1}, /* excl_token */
    {99, 67, 0, 0, 0, 1, 1}, /* l_brack_token */
    {155, 68, 0, 0, 0, 1, 1}, /* r_brack_token */
    /* UNSAFE_META */
    {119, 196, 0, 0, 0, 1, 1}, /* meta */
    {211, 52, 0, 0, 0, 1, 1}, /* unsafe_token */
    {101, 17, 0, 0, 0, 1, 1}, /* l_paren_token */
    {157, 19, 0, 0, 0, 1, 1}, /* r_paren_token */
    /* CFG_ATTR_META */
    {32, 105, 0, 0, 0, 1, 1}, /* cfg_predicate */
    {120, 196, 0, 2, 0, 0, 255}, /* metas */
    {31, 197, 0, 0, 0, 1, 1}, /* cfg_attr_token */
    {101, 17, 0, 0, 0, 1, 1}, /* l_paren_token */
    {157, 19, 0, 0, 0, 1, 1}, /* r_paren_token */
    /* CFG_META */
    {32, 105, 0, 0, 0, 1, 1}, /* cfg_predicate */
    {34, 106, 0, 0, 0, 1, 1}, /* cfg_token */
    {101, 17, 0, 0, 0, 1, 1}, /* l_paren_token */
    {38, 91, 0, 0, 0, 0, 1}, /* comma_token */
    {157, 19, 0, 0, 0, 1, 1}, /* r_paren_token */
    /* CFG_ATOM */
    {81, 8, 0, 0, 0, 0, 1}, /* ident_token */
    {58, 43, 0, 0, 0, 0, 1}, /* eq_token */
    {186, 24, 0, 0, 0, 0, 1}, /* string_token */
    {201, 198, 0, 0, 0, 0, 1}, /* true_token */
    {65, 199, 0, 0, 0, 0, 1}, /* false_token */
    /* CFG_COMPOSITE */
    {33, 105, 0, 2, 0, 0, 255}, /* cfg_predicates */
    {81, 8, 0, 0, 0, 1, 1}, /* ident_token */
    {101, 17, 0, 0, 0, 1, 1}, /* l_paren_token */
    {157, 19, 0, 0, 0, 1, 1}, /* r_paren_token */
    /* KEY_VALUE_META */
    {142, 2, 0, 0, 0, 1, 1}, /* path */
    {60, 7, 0, 0, 0, 1, 1}, /* expr */
    {58, 43, 0, 0, 0, 1, 1}, /* eq_token */
    /* TOKEN_TREE_META */
    {142, 2, 0, 0, 0, 1, 1}, /* path */
    {196, 74, 0, 0, 0, 1, 1}, /* token_tree */
    /* PATH_META */
    {142, 2, 0, 0, 0, 1, 1}, /* path */
};

/* Where the rows of a kind begin, by its number. */
static const uint16_t rap_field_starts[331] = {
    0, 0, 0, 0, 0, 0, 0, 0, 0, 0, 0, 0, 0, 0, 0, 0, 0, 0, 0, 0, 0, 0, 0, 0, 0, 0, 0, 0, 0, 0, 0, 0, 0, 0, 0, 0, 0,
    0, 0, 0, 0, 0, 0, 0, 0, 0, 0, 0, 0, 0, 0, 0, 0, 0, 0, 0, 0, 0, 0, 0, 0, 0, 0, 0, 0, 0, 0, 0, 0, 0, 0, 0, 0, 0,
    0, 0, 0, 0, 0, 0, 0, 0, 0, 0, 0, 0, 0, 0, 0, 0, 0, 0, 0, 0, 0, 0, 0, 0, 0, 0, 0, 0, 0, 0, 0, 0, 0, 0, 0, 0, 0,
    0, 0, 0, 0, 0, 0, 0, 0, 0, 0, 0, 0, 0, 0, 0, 0, 0, 0, 0, 0, 0, 0, 0, 0, 0, 0, 0, 0, 0, 0, 0, 0, 0, 0, 0, 0, 0,
    0, 0, 0, 3, 3, 3, 3, 3, 3, 3, 3, 8, 10, 13, 15, 21, 22, 24, 28, 31, 33, 35, 38, 45, 50, 54, 58, 69, 71, 73, 79,
    89, 91, 94, 99, 102, 109, 113, 117, 123, 130, 135, 140, 144, 147, 150, 154, 159, 166, 172, 175, 178, 181, 184,
    189, 194, 201, 212, 219, 224, 230, 238, 244, 249, 254, 261, 263, 267, 271, 275, 280, 284, 289, 299, 308, 311,
    316, 325, 337, 342, 348, 357, 362, 365, 370, 375, 377, 379, 383, 385, 392, 397, 405, 415, 420, 422, 424, 444,
    452, 459, 478, 479, 488, 497, 505, 508, 515, 518, 528, 531, 536, 557, 575, 594, 612, 617, 623, 628, 631, 638,
    644, 652, 653, 656, 659, 665, 672, 674, 678, 680, 684, 689, 690, 691, 692, 695, 697, 700, 703, 706, 711, 713,
    715, 718, 721, 722, 726, 729, 734, 738, 739, 744, 746, 748, 750, 752, 753, 754, 762, 775, 784, 788, 789, 790,
    791, 801, 804, 807, 812, 819, 827, 829, 834, 836, 841, 845, 850, 855, 860, 864, 867, 869, 870
};

/* The name of a field, as "body"; "" of RAP_FIELD_NONE, and of a number that is none. */
static inline const char *rap_field_name(uint32_t field) {
    return field < sizeof rap_field_names / sizeof *rap_field_names ? rap_field_names[field] : "";
}

/* The number of a field by its name and the length of this; RAP_FIELD_NONE of what is no name. */
static inline uint32_t rap_field_of_name(const char *name, size_t length) {
    for (uint32_t field = 1; field < sizeof rap_field_names / sizeof *rap_field_names; field++) {
        const char *own = rap_field_names[field];
        size_t at = 0;
        while (at < length && own[at] && own[at] == name[at]) at++;
        if (at == length && !own[at]) return field;
    }
    return RAP_FIELD_NONE;
}

/* The rows of a kind, and how many there are. */
static inline const struct rap_field_row *rap_fields_of_kind(uint32_t kind, size_t *count) {
    *count = kind > RAP_LAST_KIND ? 0 : (size_t)(rap_field_starts[kind + 1] - rap_field_starts[kind]);
    return rap_field_rows + (*count ? rap_field_starts[kind] : 0);
}

/* Whether a kind is of what a row has. */
static inline int rap_field_has_kind(const struct rap_field_row *row, uint32_t kind) {
    return kind <= RAP_LAST_KIND && (rap_field_sets[row->set][kind / 32] >> kind % 32 & 1) != 0;
}

/* The row of a field of a kind, or NULL. */
static inline const struct rap_field_row *rap_field_row_of(uint32_t kind, uint32_t field) {
    size_t count;
    const struct rap_field_row *rows = rap_fields_of_kind(kind, &count);
    for (size_t i = 0; i < count; i++)
        if (rows[i].field == field) return &rows[i];
    return NULL;
}

static inline uint32_t rap_child_by_field(const struct rap_element *e, uint32_t node, uint32_t field);

/* The indices between which the children of a row are looked for. */
static inline void rap_field_range(const struct rap_element *e, uint32_t node, const struct rap_field_row *row,
                                   uint32_t *first, uint32_t *end) {
    *first = node + 1;
    *end = e[node].after;
    if (row->place == RAP_FIELD_ANYWHERE) return;
    uint32_t mark = rap_child_by_field(e, node, row->mark);
    int is_there = mark != RAP_NO_PARENT;
    if (row->place == RAP_FIELD_BEFORE && is_there) *end = mark;
    if (row->place == RAP_FIELD_ONLY_BEFORE) *end = is_there ? mark : *first;
    if (row->place == RAP_FIELD_AFTER) *first = is_there ? e[mark].after : *end;
    if (row->place == RAP_FIELD_PAST && is_there) *first = e[mark].after;
}

/* The first child of a node that a field has, or the only one; RAP_NO_PARENT where there is none. */
static inline uint32_t rap_child_by_field(const struct rap_element *e, uint32_t node, uint32_t field) {
    const struct rap_field_row *row = rap_field_row_of(e[node].kind, field);
    uint32_t found = RAP_NO_PARENT, first, end;
    if (!row) return found;
    rap_field_range(e, node, row, &first, &end);
    for (uint32_t child = first; child < end; child = e[child].after)
        if (rap_field_has_kind(row, e[child].kind)) {
            found = child;
            if (row->how != RAP_FIELD_LAST) break;
        }
    return found;
}

/* The next child that a field has behind one of its own; RAP_NO_PARENT behind the last, and of a field of one child. */
static inline uint32_t rap_field_next(const struct rap_element *e, uint32_t node, uint32_t field, uint32_t child) {
    const struct rap_field_row *row = rap_field_row_of(e[node].kind, field);
    uint32_t first, end;
    if (!row || row->how != RAP_FIELD_ALL) return RAP_NO_PARENT;
    rap_field_range(e, node, row, &first, &end);
    for (uint32_t next = e[child].after; next < end; next = e[next].after)
        if (rap_field_has_kind(row, e[next].kind)) return next;
    return RAP_NO_PARENT;
}

/* Whether a child of a node is what a row has. */
static inline int rap_field_has(const struct rap_element *e, uint32_t node, const struct rap_field_row *row,
                                uint32_t child) {
    uint32_t first, end;
    if (!rap_field_has_kind(row, e[child].kind)) return 0;
    if (row->how != RAP_FIELD_ALL) return rap_child_by_field(e, node, row->field) == child;
    rap_field_range(e, node, row, &first, &end);
    return first <= child && child < end;
}

/* The field that an element is of in the node around it, the first of them; RAP_FIELD_NONE where it is of none. */
static inline uint32_t rap_field_of(const struct rap_element *e, uint32_t child) {
    uint32_t node = e[child].parent;
    size_t count;
    if (node == RAP_NO_PARENT) return RAP_FIELD_NONE;
    const struct rap_field_row *rows = rap_fields_of_kind(e[node].kind, &count);
    for (size_t i = 0; i < count; i++)
        if (rap_field_has(e, node, &rows[i], child)) return rows[i].field;
    return RAP_FIELD_NONE;
}

#ifdef __cplusplus
}
#endif

#endif
