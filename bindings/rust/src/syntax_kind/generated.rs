// Written by crates/rap_base/kinds from kinds.txt beside it: an edit here is lost.
//! The kinds of tokens and nodes, and the texts of tokens.

kinds! {
    EOF, SEMICOLON, COMMA, L_PAREN, R_PAREN, L_CURLY, R_CURLY, L_BRACK, R_BRACK, L_ANGLE, R_ANGLE, AT, POUND,
    TILDE, QUESTION, DOLLAR, AMP, PIPE, PLUS, STAR, SLASH, CARET, PERCENT, UNDERSCORE, DOT, COLON, EQ, BANG,
    MINUS, DOT2, DOT3, DOT2EQ, COLON2, EQ2, FAT_ARROW, NEQ, THIN_ARROW, LTEQ, GTEQ, PLUSEQ, MINUSEQ, PIPEEQ,
    AMPEQ, CARETEQ, SLASHEQ, STAREQ, PERCENTEQ, AMP2, PIPE2, SHL, SHR, SHLEQ, SHREQ, AS_KW, BREAK_KW,
    CONST_KW, CONTINUE_KW, CRATE_KW, ELSE_KW, ENUM_KW, EXTERN_KW, FALSE_KW, FN_KW, FOR_KW, IF_KW, IMPL_KW,
    IN_KW, LET_KW, LOOP_KW, MATCH_KW, MOD_KW, MOVE_KW, MUT_KW, PUB_KW, REF_KW, RETURN_KW, SELF_KW,
    SELF_TYPE_KW, STATIC_KW, STRUCT_KW, SUPER_KW, TRAIT_KW, TRUE_KW, TYPE_KW, UNSAFE_KW, USE_KW, WHERE_KW,
    WHILE_KW, ABSTRACT_KW, BECOME_KW, BOX_KW, DO_KW, FINAL_KW, MACRO_KW, OVERRIDE_KW, PRIV_KW, TYPEOF_KW,
    UNSIZED_KW, VIRTUAL_KW, YIELD_KW, ASYNC_KW, AWAIT_KW, DYN_KW, TRY_KW, GEN_KW, ASM_KW, ATT_SYNTAX_KW,
    AUTO_KW, BIKESHED_KW, BUILTIN_KW, CFG_KW, CFG_ATTR_KW, CLOBBER_ABI_KW, DEFAULT_KW, DEREF_KW,
    FORMAT_ARGS_KW, GLOBAL_ASM_KW, INCLUDE_BYTES_KW, INLATEOUT_KW, INOUT_KW, IS_KW, LABEL_KW, LATEOUT_KW,
    MACRO_RULES_KW, MAY_UNWIND_KW, NAKED_ASM_KW, NOMEM_KW, NORETURN_KW, NOSTACK_KW, OFFSET_OF_KW, OPTIONS_KW,
    OUT_KW, PATTERN_TYPE_KW, PRESERVES_FLAGS_KW, PURE_KW, RAW_KW, READONLY_KW, SAFE_KW, SYM_KW, UNION_KW,
    YEET_KW, INT_NUMBER, FLOAT_NUMBER, CHAR, BYTE, STRING, BYTE_STRING, C_STRING, IDENT, LIFETIME_IDENT,
    ERROR, WHITESPACE, COMMENT, INNER_DOC_COMMENT, OUTER_DOC_COMMENT, FRONTMATTER, SHEBANG, TOMBSTONE,
    SOURCE_FILE, MACRO_STMTS, MACRO_ITEMS, NAME, NAME_REF, LIFETIME, VISIBILITY, VISIBILITY_INNER, RENAME,
    ABI, RET_TYPE, PATH, PATH_SEGMENT, TYPE_ANCHOR, RETURN_TYPE_SYNTAX, PARENTHESIZED_ARG_LIST, LET_STMT,
    EXPR_STMT, LET_ELSE, STMT_LIST, BLOCK_EXPR, LABEL, TRY_BLOCK_MODIFIER, RANGE_EXPR, BIN_EXPR, REF_EXPR,
    PREFIX_EXPR, CALL_EXPR, INDEX_EXPR, METHOD_CALL_EXPR, FIELD_EXPR, AWAIT_EXPR, TRY_EXPR, CAST_EXPR,
    ARG_LIST, RECORD_EXPR, RECORD_EXPR_FIELD, RECORD_EXPR_FIELD_LIST, MACRO_CALL, MACRO_EXPR, PATH_EXPR,
    LITERAL, UNDERSCORE_EXPR, PAREN_EXPR, TUPLE_EXPR, ARRAY_EXPR, CLOSURE_EXPR, IF_EXPR, LOOP_EXPR,
    WHILE_EXPR, FOR_EXPR, LET_EXPR, MATCH_EXPR, MATCH_ARM_LIST, MATCH_ARM, MATCH_GUARD, RETURN_EXPR,
    BECOME_EXPR, YIELD_EXPR, YEET_EXPR, CONTINUE_EXPR, BREAK_EXPR, OFFSET_OF_EXPR, FORMAT_ARGS_EXPR,
    FORMAT_ARGS_ARG, INCLUDE_BYTES_EXPR, CFG_PRED_EXPR, ASM_EXPR, ASM_CLOBBER_ABI, ASM_OPTIONS, ASM_OPTION,
    ASM_DIR_SPEC, ASM_OPERAND_EXPR, ASM_REG_OPERAND, ASM_OPERAND_NAMED, ASM_LABEL, ASM_CONST, ASM_SYM,
    ASM_REG_SPEC, MODULE, ITEM_LIST, EXTERN_CRATE, EXTERN_BLOCK, EXTERN_ITEM_LIST, IMPL_RESTRICTION,
    MUT_RESTRICTION, TYPE_ALIAS, MACRO_RULES, MACRO_DEF, FN, TOKEN_TREE, STRUCT, UNION, ENUM, VARIANT_LIST,
    VARIANT, RECORD_FIELD_LIST, RECORD_FIELD, TUPLE_FIELD_LIST, TUPLE_FIELD, CONST, STATIC, TRAIT, IMPL,
    ASSOC_ITEM_LIST, USE, USE_TREE, USE_TREE_LIST, PARAM_LIST, PARAM, SELF_PARAM, OR_PAT, RANGE_PAT, REST_PAT,
    DEREF_PAT, CFG_PRED_PAT, LITERAL_PAT, TUPLE_STRUCT_PAT, RECORD_PAT, RECORD_PAT_FIELD_LIST,
    RECORD_PAT_FIELD, MACRO_PAT, PATH_PAT, WILDCARD_PAT, REF_PAT, NOT_NULL, PAREN_PAT, TUPLE_PAT, SLICE_PAT,
    IDENT_PAT, BOX_PAT, CONST_BLOCK_PAT, PAREN_TYPE, TUPLE_TYPE, NEVER_TYPE, PTR_TYPE, SLICE_TYPE, ARRAY_TYPE,
    REF_TYPE, INFER_TYPE, FN_PTR_TYPE, FOR_BINDER, FOR_TYPE, IMPL_TRAIT_TYPE, DYN_TRAIT_TYPE, MACRO_TYPE,
    PATH_TYPE, PATTERN_TYPE, TYPE_BOUND, TYPE_BOUND_LIST, GENERIC_ARG_LIST, TYPE_ARG, LIFETIME_ARG, CONST_ARG,
    ASSOC_TYPE_ARG, USE_BOUND_GENERIC_ARGS, GENERIC_PARAM_LIST, LIFETIME_PARAM, TYPE_PARAM, CONST_PARAM,
    WHERE_CLAUSE, WHERE_PRED, DOC_COMMENT, ATTR, UNSAFE_META, CFG_ATTR_META, CFG_META, CFG_ATOM,
    CFG_COMPOSITE, KEY_VALUE_META, TOKEN_TREE_META, PATH_META,
}

/// The keyword that every edition reserves.
pub(crate) fn reserved_in_2015(text: &str) -> Option<SyntaxKind> {
    Some(match text {
        "as" => SyntaxKind::AS_KW,
        "break" => SyntaxKind::BREAK_KW,
        "const" => SyntaxKind::CONST_KW,
        "continue" => SyntaxKind::CONTINUE_KW,
        "crate" => SyntaxKind::CRATE_KW,
        "else" => SyntaxKind::ELSE_KW,
        "enum" => SyntaxKind::ENUM_KW,
        "extern" => SyntaxKind::EXTERN_KW,
        "false" => SyntaxKind::FALSE_KW,
        "fn" => SyntaxKind::FN_KW,
        "for" => SyntaxKind::FOR_KW,
        "if" => SyntaxKind::IF_KW,
        "impl" => SyntaxKind::IMPL_KW,
        "in" => SyntaxKind::IN_KW,
        "let" => SyntaxKind::LET_KW,
        "loop" => SyntaxKind::LOOP_KW,
        "match" => SyntaxKind::MATCH_KW,
        "mod" => SyntaxKind::MOD_KW,
        "move" => SyntaxKind::MOVE_KW,
        "mut" => SyntaxKind::MUT_KW,
        "pub" => SyntaxKind::PUB_KW,
        "ref" => SyntaxKind::REF_KW,
        "return" => SyntaxKind::RETURN_KW,
        "self" => SyntaxKind::SELF_KW,
        "Self" => SyntaxKind::SELF_TYPE_KW,
        "static" => SyntaxKind::STATIC_KW,
        "struct" => SyntaxKind::STRUCT_KW,
        "super" => SyntaxKind::SUPER_KW,
        "trait" => SyntaxKind::TRAIT_KW,
        "true" => SyntaxKind::TRUE_KW,
        "type" => SyntaxKind::TYPE_KW,
        "unsafe" => SyntaxKind::UNSAFE_KW,
        "use" => SyntaxKind::USE_KW,
        "where" => SyntaxKind::WHERE_KW,
        "while" => SyntaxKind::WHILE_KW,
        "abstract" => SyntaxKind::ABSTRACT_KW,
        "become" => SyntaxKind::BECOME_KW,
        "box" => SyntaxKind::BOX_KW,
        "do" => SyntaxKind::DO_KW,
        "final" => SyntaxKind::FINAL_KW,
        "macro" => SyntaxKind::MACRO_KW,
        "override" => SyntaxKind::OVERRIDE_KW,
        "priv" => SyntaxKind::PRIV_KW,
        "typeof" => SyntaxKind::TYPEOF_KW,
        "unsized" => SyntaxKind::UNSIZED_KW,
        "virtual" => SyntaxKind::VIRTUAL_KW,
        "yield" => SyntaxKind::YIELD_KW,
        _ => return None,
    })
}

/// The keyword that is reserved since 2018.
pub(crate) fn reserved_since_2018(text: &str) -> Option<SyntaxKind> {
    Some(match text {
        "async" => SyntaxKind::ASYNC_KW,
        "await" => SyntaxKind::AWAIT_KW,
        "dyn" => SyntaxKind::DYN_KW,
        "try" => SyntaxKind::TRY_KW,
        _ => return None,
    })
}

/// The keyword that is reserved since 2024.
pub(crate) fn reserved_since_2024(text: &str) -> Option<SyntaxKind> {
    Some(match text {
        "gen" => SyntaxKind::GEN_KW,
        _ => return None,
    })
}

/// The word that is contextual in every edition.
pub(crate) fn contextual_ever(text: &str) -> Option<SyntaxKind> {
    Some(match text {
        "asm" => SyntaxKind::ASM_KW,
        "att_syntax" => SyntaxKind::ATT_SYNTAX_KW,
        "auto" => SyntaxKind::AUTO_KW,
        "bikeshed" => SyntaxKind::BIKESHED_KW,
        "builtin" => SyntaxKind::BUILTIN_KW,
        "cfg" => SyntaxKind::CFG_KW,
        "cfg_attr" => SyntaxKind::CFG_ATTR_KW,
        "clobber_abi" => SyntaxKind::CLOBBER_ABI_KW,
        "default" => SyntaxKind::DEFAULT_KW,
        "deref" => SyntaxKind::DEREF_KW,
        "format_args" => SyntaxKind::FORMAT_ARGS_KW,
        "global_asm" => SyntaxKind::GLOBAL_ASM_KW,
        "include_bytes" => SyntaxKind::INCLUDE_BYTES_KW,
        "inlateout" => SyntaxKind::INLATEOUT_KW,
        "inout" => SyntaxKind::INOUT_KW,
        "is" => SyntaxKind::IS_KW,
        "label" => SyntaxKind::LABEL_KW,
        "lateout" => SyntaxKind::LATEOUT_KW,
        "macro_rules" => SyntaxKind::MACRO_RULES_KW,
        "may_unwind" => SyntaxKind::MAY_UNWIND_KW,
        "naked_asm" => SyntaxKind::NAKED_ASM_KW,
        "nomem" => SyntaxKind::NOMEM_KW,
        "noreturn" => SyntaxKind::NORETURN_KW,
        "nostack" => SyntaxKind::NOSTACK_KW,
        "offset_of" => SyntaxKind::OFFSET_OF_KW,
        "options" => SyntaxKind::OPTIONS_KW,
        "out" => SyntaxKind::OUT_KW,
        "pattern_type" => SyntaxKind::PATTERN_TYPE_KW,
        "preserves_flags" => SyntaxKind::PRESERVES_FLAGS_KW,
        "pure" => SyntaxKind::PURE_KW,
        "raw" => SyntaxKind::RAW_KW,
        "readonly" => SyntaxKind::READONLY_KW,
        "safe" => SyntaxKind::SAFE_KW,
        "sym" => SyntaxKind::SYM_KW,
        "union" => SyntaxKind::UNION_KW,
        "yeet" => SyntaxKind::YEET_KW,
        _ => return None,
    })
}

/// The text of a punctuation or a keyword: no other kind has one.
pub(crate) const fn text_of(kind: SyntaxKind) -> Option<&'static str> {
    Some(match kind {
        SyntaxKind::SEMICOLON => ";",
        SyntaxKind::COMMA => ",",
        SyntaxKind::L_PAREN => "(",
        SyntaxKind::R_PAREN => ")",
        SyntaxKind::L_CURLY => "{",
        SyntaxKind::R_CURLY => "}",
        SyntaxKind::L_BRACK => "[",
        SyntaxKind::R_BRACK => "]",
        SyntaxKind::L_ANGLE => "<",
        SyntaxKind::R_ANGLE => ">",
        SyntaxKind::AT => "@",
        SyntaxKind::POUND => "#",
        SyntaxKind::TILDE => "~",
        SyntaxKind::QUESTION => "?",
        SyntaxKind::DOLLAR => "$",
        SyntaxKind::AMP => "&",
        SyntaxKind::PIPE => "|",
        SyntaxKind::PLUS => "+",
        SyntaxKind::STAR => "*",
        SyntaxKind::SLASH => "/",
        SyntaxKind::CARET => "^",
        SyntaxKind::PERCENT => "%",
        SyntaxKind::UNDERSCORE => "_",
        SyntaxKind::DOT => ".",
        SyntaxKind::COLON => ":",
        SyntaxKind::EQ => "=",
        SyntaxKind::BANG => "!",
        SyntaxKind::MINUS => "-",
        SyntaxKind::DOT2 => "..",
        SyntaxKind::DOT3 => "...",
        SyntaxKind::DOT2EQ => "..=",
        SyntaxKind::COLON2 => "::",
        SyntaxKind::EQ2 => "==",
        SyntaxKind::FAT_ARROW => "=>",
        SyntaxKind::NEQ => "!=",
        SyntaxKind::THIN_ARROW => "->",
        SyntaxKind::LTEQ => "<=",
        SyntaxKind::GTEQ => ">=",
        SyntaxKind::PLUSEQ => "+=",
        SyntaxKind::MINUSEQ => "-=",
        SyntaxKind::PIPEEQ => "|=",
        SyntaxKind::AMPEQ => "&=",
        SyntaxKind::CARETEQ => "^=",
        SyntaxKind::SLASHEQ => "/=",
        SyntaxKind::STAREQ => "*=",
        SyntaxKind::PERCENTEQ => "%=",
        SyntaxKind::AMP2 => "&&",
        SyntaxKind::PIPE2 => "||",
        SyntaxKind::SHL => "<<",
        SyntaxKind::SHR => ">>",
        SyntaxKind::SHLEQ => "<<=",
        SyntaxKind::SHREQ => ">>=",
        SyntaxKind::AS_KW => "as",
        SyntaxKind::BREAK_KW => "break",
        SyntaxKind::CONST_KW => "const",
        SyntaxKind::CONTINUE_KW => "continue",
        SyntaxKind::CRATE_KW => "crate",
        SyntaxKind::ELSE_KW => "else",
        SyntaxKind::ENUM_KW => "enum",
        SyntaxKind::EXTERN_KW => "extern",
        SyntaxKind::FALSE_KW => "false",
        SyntaxKind::FN_KW => "fn",
        SyntaxKind::FOR_KW => "for",
        SyntaxKind::IF_KW => "if",
        SyntaxKind::IMPL_KW => "impl",
        SyntaxKind::IN_KW => "in",
        SyntaxKind::LET_KW => "let",
        SyntaxKind::LOOP_KW => "loop",
        SyntaxKind::MATCH_KW => "match",
        SyntaxKind::MOD_KW => "mod",
        SyntaxKind::MOVE_KW => "move",
        SyntaxKind::MUT_KW => "mut",
        SyntaxKind::PUB_KW => "pub",
        SyntaxKind::REF_KW => "ref",
        SyntaxKind::RETURN_KW => "return",
        SyntaxKind::SELF_KW => "self",
        SyntaxKind::SELF_TYPE_KW => "Self",
        SyntaxKind::STATIC_KW => "static",
        SyntaxKind::STRUCT_KW => "struct",
        SyntaxKind::SUPER_KW => "super",
        SyntaxKind::TRAIT_KW => "trait",
        SyntaxKind::TRUE_KW => "true",
        SyntaxKind::TYPE_KW => "type",
        SyntaxKind::UNSAFE_KW => "unsafe",
        SyntaxKind::USE_KW => "use",
        SyntaxKind::WHERE_KW => "where",
        SyntaxKind::WHILE_KW => "while",
        SyntaxKind::ABSTRACT_KW => "abstract",
        SyntaxKind::BECOME_KW => "become",
        SyntaxKind::BOX_KW => "box",
        SyntaxKind::DO_KW => "do",
        SyntaxKind::FINAL_KW => "final",
        SyntaxKind::MACRO_KW => "macro",
        SyntaxKind::OVERRIDE_KW => "override",
        SyntaxKind::PRIV_KW => "priv",
        SyntaxKind::TYPEOF_KW => "typeof",
        SyntaxKind::UNSIZED_KW => "unsized",
        SyntaxKind::VIRTUAL_KW => "virtual",
        SyntaxKind::YIELD_KW => "yield",
        SyntaxKind::ASYNC_KW => "async",
        SyntaxKind::AWAIT_KW => "await",
        SyntaxKind::DYN_KW => "dyn",
        SyntaxKind::TRY_KW => "try",
        SyntaxKind::GEN_KW => "gen",
        SyntaxKind::ASM_KW => "asm",
        SyntaxKind::ATT_SYNTAX_KW => "att_syntax",
        SyntaxKind::AUTO_KW => "auto",
        SyntaxKind::BIKESHED_KW => "bikeshed",
        SyntaxKind::BUILTIN_KW => "builtin",
        SyntaxKind::CFG_KW => "cfg",
        SyntaxKind::CFG_ATTR_KW => "cfg_attr",
        SyntaxKind::CLOBBER_ABI_KW => "clobber_abi",
        SyntaxKind::DEFAULT_KW => "default",
        SyntaxKind::DEREF_KW => "deref",
        SyntaxKind::FORMAT_ARGS_KW => "format_args",
        SyntaxKind::GLOBAL_ASM_KW => "global_asm",
        SyntaxKind::INCLUDE_BYTES_KW => "include_bytes",
        SyntaxKind::INLATEOUT_KW => "inlateout",
        SyntaxKind::INOUT_KW => "inout",
        SyntaxKind::IS_KW => "is",
        SyntaxKind::LABEL_KW => "label",
        SyntaxKind::LATEOUT_KW => "lateout",
        SyntaxKind::MACRO_RULES_KW => "macro_rules",
        SyntaxKind::MAY_UNWIND_KW => "may_unwind",
        SyntaxKind::NAKED_ASM_KW => "naked_asm",
        SyntaxKind::NOMEM_KW => "nomem",
        SyntaxKind::NORETURN_KW => "noreturn",
        SyntaxKind::NOSTACK_KW => "nostack",
        SyntaxKind::OFFSET_OF_KW => "offset_of",
        SyntaxKind::OPTIONS_KW => "options",
        SyntaxKind::OUT_KW => "out",
        SyntaxKind::PATTERN_TYPE_KW => "pattern_type",
        SyntaxKind::PRESERVES_FLAGS_KW => "preserves_flags",
        SyntaxKind::PURE_KW => "pure",
        SyntaxKind::RAW_KW => "raw",
        SyntaxKind::READONLY_KW => "readonly",
        SyntaxKind::SAFE_KW => "safe",
        SyntaxKind::SYM_KW => "sym",
        SyntaxKind::UNION_KW => "union",
        SyntaxKind::YEET_KW => "yeet",
        _ => return None,
    })
}

/// The punctuation that is this one character.
pub(crate) fn kind_of_char(c: char) -> Option<SyntaxKind> {
    Some(match c {
        ';' => SyntaxKind::SEMICOLON,
        ',' => SyntaxKind::COMMA,
        '(' => SyntaxKind::L_PAREN,
        ')' => SyntaxKind::R_PAREN,
        '{' => SyntaxKind::L_CURLY,
        '}' => SyntaxKind::R_CURLY,
        '[' => SyntaxKind::L_BRACK,
        ']' => SyntaxKind::R_BRACK,
        '<' => SyntaxKind::L_ANGLE,
        '>' => SyntaxKind::R_ANGLE,
        '@' => SyntaxKind::AT,
        '#' => SyntaxKind::POUND,
        '~' => SyntaxKind::TILDE,
        '?' => SyntaxKind::QUESTION,
        '$' => SyntaxKind::DOLLAR,
        '&' => SyntaxKind::AMP,
        '|' => SyntaxKind::PIPE,
        '+' => SyntaxKind::PLUS,
        '*' => SyntaxKind::STAR,
        '/' => SyntaxKind::SLASH,
        '^' => SyntaxKind::CARET,
        '%' => SyntaxKind::PERCENT,
        '_' => SyntaxKind::UNDERSCORE,
        '.' => SyntaxKind::DOT,
        ':' => SyntaxKind::COLON,
        '=' => SyntaxKind::EQ,
        '!' => SyntaxKind::BANG,
        '-' => SyntaxKind::MINUS,
        _ => return None,
    })
}

/// The kind of a token by its text: `T![+]`, `T!['(']`, `T![mut]`.
///
/// ```
/// use ra_ap_parser::{SyntaxKind, T};
///
/// assert_eq!(T!['('], SyntaxKind::L_PAREN);
/// ```
#[macro_export]
macro_rules! T_ {
    [;] => { $crate::SyntaxKind::SEMICOLON };
    [,] => { $crate::SyntaxKind::COMMA };
    ['('] => { $crate::SyntaxKind::L_PAREN };
    [')'] => { $crate::SyntaxKind::R_PAREN };
    ['{'] => { $crate::SyntaxKind::L_CURLY };
    ['}'] => { $crate::SyntaxKind::R_CURLY };
    ['['] => { $crate::SyntaxKind::L_BRACK };
    [']'] => { $crate::SyntaxKind::R_BRACK };
    [<] => { $crate::SyntaxKind::L_ANGLE };
    [>] => { $crate::SyntaxKind::R_ANGLE };
    [@] => { $crate::SyntaxKind::AT };
    [#] => { $crate::SyntaxKind::POUND };
    [~] => { $crate::SyntaxKind::TILDE };
    [?] => { $crate::SyntaxKind::QUESTION };
    [$] => { $crate::SyntaxKind::DOLLAR };
    [&] => { $crate::SyntaxKind::AMP };
    [|] => { $crate::SyntaxKind::PIPE };
    [+] => { $crate::SyntaxKind::PLUS };
    [*] => { $crate::SyntaxKind::STAR };
    [/] => { $crate::SyntaxKind::SLASH };
    [^] => { $crate::SyntaxKind::CARET };
    [%] => { $crate::SyntaxKind::PERCENT };
    [_] => { $crate::SyntaxKind::UNDERSCORE };
    [.] => { $crate::SyntaxKind::DOT };
    [:] => { $crate::SyntaxKind::COLON };
    [=] => { $crate::SyntaxKind::EQ };
    [!] => { $crate::SyntaxKind::BANG };
    [-] => { $crate::SyntaxKind::MINUS };
    [..] => { $crate::SyntaxKind::DOT2 };
    [...] => { $crate::SyntaxKind::DOT3 };
    [..=] => { $crate::SyntaxKind::DOT2EQ };
    [::] => { $crate::SyntaxKind::COLON2 };
    [==] => { $crate::SyntaxKind::EQ2 };
    [=>] => { $crate::SyntaxKind::FAT_ARROW };
    [!=] => { $crate::SyntaxKind::NEQ };
    [->] => { $crate::SyntaxKind::THIN_ARROW };
    [<=] => { $crate::SyntaxKind::LTEQ };
    [>=] => { $crate::SyntaxKind::GTEQ };
    [+=] => { $crate::SyntaxKind::PLUSEQ };
    [-=] => { $crate::SyntaxKind::MINUSEQ };
    [|=] => { $crate::SyntaxKind::PIPEEQ };
    [&=] => { $crate::SyntaxKind::AMPEQ };
    [^=] => { $crate::SyntaxKind::CARETEQ };
    [/=] => { $crate::SyntaxKind::SLASHEQ };
    [*=] => { $crate::SyntaxKind::STAREQ };
    [%=] => { $crate::SyntaxKind::PERCENTEQ };
    [&&] => { $crate::SyntaxKind::AMP2 };
    [||] => { $crate::SyntaxKind::PIPE2 };
    [<<] => { $crate::SyntaxKind::SHL };
    [>>] => { $crate::SyntaxKind::SHR };
    [<<=] => { $crate::SyntaxKind::SHLEQ };
    [>>=] => { $crate::SyntaxKind::SHREQ };
    [as] => { $crate::SyntaxKind::AS_KW };
    [break] => { $crate::SyntaxKind::BREAK_KW };
    [const] => { $crate::SyntaxKind::CONST_KW };
    [continue] => { $crate::SyntaxKind::CONTINUE_KW };
    [crate] => { $crate::SyntaxKind::CRATE_KW };
    [else] => { $crate::SyntaxKind::ELSE_KW };
    [enum] => { $crate::SyntaxKind::ENUM_KW };
    [extern] => { $crate::SyntaxKind::EXTERN_KW };
    [false] => { $crate::SyntaxKind::FALSE_KW };
    [fn] => { $crate::SyntaxKind::FN_KW };
    [for] => { $crate::SyntaxKind::FOR_KW };
    [if] => { $crate::SyntaxKind::IF_KW };
    [impl] => { $crate::SyntaxKind::IMPL_KW };
    [in] => { $crate::SyntaxKind::IN_KW };
    [let] => { $crate::SyntaxKind::LET_KW };
    [loop] => { $crate::SyntaxKind::LOOP_KW };
    [match] => { $crate::SyntaxKind::MATCH_KW };
    [mod] => { $crate::SyntaxKind::MOD_KW };
    [move] => { $crate::SyntaxKind::MOVE_KW };
    [mut] => { $crate::SyntaxKind::MUT_KW };
    [pub] => { $crate::SyntaxKind::PUB_KW };
    [ref] => { $crate::SyntaxKind::REF_KW };
    [return] => { $crate::SyntaxKind::RETURN_KW };
    [self] => { $crate::SyntaxKind::SELF_KW };
    [Self] => { $crate::SyntaxKind::SELF_TYPE_KW };
    [static] => { $crate::SyntaxKind::STATIC_KW };
    [struct] => { $crate::SyntaxKind::STRUCT_KW };
    [super] => { $crate::SyntaxKind::SUPER_KW };
    [trait] => { $crate::SyntaxKind::TRAIT_KW };
    [true] => { $crate::SyntaxKind::TRUE_KW };
    [type] => { $crate::SyntaxKind::TYPE_KW };
    [unsafe] => { $crate::SyntaxKind::UNSAFE_KW };
    [use] => { $crate::SyntaxKind::USE_KW };
    [where] => { $crate::SyntaxKind::WHERE_KW };
    [while] => { $crate::SyntaxKind::WHILE_KW };
    [abstract] => { $crate::SyntaxKind::ABSTRACT_KW };
    [become] => { $crate::SyntaxKind::BECOME_KW };
    [box] => { $crate::SyntaxKind::BOX_KW };
    [do] => { $crate::SyntaxKind::DO_KW };
    [final] => { $crate::SyntaxKind::FINAL_KW };
    [macro] => { $crate::SyntaxKind::MACRO_KW };
    [override] => { $crate::SyntaxKind::OVERRIDE_KW };
    [priv] => { $crate::SyntaxKind::PRIV_KW };
    [typeof] => { $crate::SyntaxKind::TYPEOF_KW };
    [unsized] => { $crate::SyntaxKind::UNSIZED_KW };
    [virtual] => { $crate::SyntaxKind::VIRTUAL_KW };
    [yield] => { $crate::SyntaxKind::YIELD_KW };
    [async] => { $crate::SyntaxKind::ASYNC_KW };
    [await] => { $crate::SyntaxKind::AWAIT_KW };
    [dyn] => { $crate::SyntaxKind::DYN_KW };
    [try] => { $crate::SyntaxKind::TRY_KW };
    [gen] => { $crate::SyntaxKind::GEN_KW };
    [asm] => { $crate::SyntaxKind::ASM_KW };
    [att_syntax] => { $crate::SyntaxKind::ATT_SYNTAX_KW };
    [auto] => { $crate::SyntaxKind::AUTO_KW };
    [bikeshed] => { $crate::SyntaxKind::BIKESHED_KW };
    [builtin] => { $crate::SyntaxKind::BUILTIN_KW };
    [cfg] => { $crate::SyntaxKind::CFG_KW };
    [cfg_attr] => { $crate::SyntaxKind::CFG_ATTR_KW };
    [clobber_abi] => { $crate::SyntaxKind::CLOBBER_ABI_KW };
    [default] => { $crate::SyntaxKind::DEFAULT_KW };
    [deref] => { $crate::SyntaxKind::DEREF_KW };
    [format_args] => { $crate::SyntaxKind::FORMAT_ARGS_KW };
    [global_asm] => { $crate::SyntaxKind::GLOBAL_ASM_KW };
    [include_bytes] => { $crate::SyntaxKind::INCLUDE_BYTES_KW };
    [inlateout] => { $crate::SyntaxKind::INLATEOUT_KW };
    [inout] => { $crate::SyntaxKind::INOUT_KW };
    [is] => { $crate::SyntaxKind::IS_KW };
    [label] => { $crate::SyntaxKind::LABEL_KW };
    [lateout] => { $crate::SyntaxKind::LATEOUT_KW };
    [macro_rules] => { $crate::SyntaxKind::MACRO_RULES_KW };
    [may_unwind] => { $crate::SyntaxKind::MAY_UNWIND_KW };
    [naked_asm] => { $crate::SyntaxKind::NAKED_ASM_KW };
    [nomem] => { $crate::SyntaxKind::NOMEM_KW };
    [noreturn] => { $crate::SyntaxKind::NORETURN_KW };
    [nostack] => { $crate::SyntaxKind::NOSTACK_KW };
    [offset_of] => { $crate::SyntaxKind::OFFSET_OF_KW };
    [options] => { $crate::SyntaxKind::OPTIONS_KW };
    [out] => { $crate::SyntaxKind::OUT_KW };
    [pattern_type] => { $crate::SyntaxKind::PATTERN_TYPE_KW };
    [preserves_flags] => { $crate::SyntaxKind::PRESERVES_FLAGS_KW };
    [pure] => { $crate::SyntaxKind::PURE_KW };
    [raw] => { $crate::SyntaxKind::RAW_KW };
    [readonly] => { $crate::SyntaxKind::READONLY_KW };
    [safe] => { $crate::SyntaxKind::SAFE_KW };
    [sym] => { $crate::SyntaxKind::SYM_KW };
    [union] => { $crate::SyntaxKind::UNION_KW };
    [yeet] => { $crate::SyntaxKind::YEET_KW };
    [int_number] => { $crate::SyntaxKind::INT_NUMBER };
    [string] => { $crate::SyntaxKind::STRING };
    [ident] => { $crate::SyntaxKind::IDENT };
    [lifetime_ident] => { $crate::SyntaxKind::LIFETIME_IDENT };
    [frontmatter] => { $crate::SyntaxKind::FRONTMATTER };
    [shebang] => { $crate::SyntaxKind::SHEBANG };
}
