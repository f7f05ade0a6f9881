//! The calls that the Rust crate has, with expected values by hand.
use ra_ap_parser::SyntaxKind::{self, *};
use ra_ap_parser::{Edition, Input, LexedStr, Output, PrefixEntryPoint, Reparser, Step, StrStep, T, TopEntryPoint};

/// The steps of a tree over a text, a word for each, and the answer.
fn woven(lexed: &LexedStr<'_>, output: &Output) -> (String, bool) {
    let mut words = Vec::new();
    let all = lexed.intersperse_trivia(output, &mut |step| {
        words.push(match step {
            StrStep::Enter { kind } => format!("<{kind:?}>"),
            StrStep::Exit => "</>".to_string(),
            StrStep::Token { kind, text } => format!("{kind:?}:{text}"),
            StrStep::Error { msg, pos } => format!("{pos}:{msg}"),
        })
    });
    (words.join(" "), all)
}

/// The steps of a text's tree, a word for each.
fn tree(entry: TopEntryPoint, text: &str) -> String {
    let lexed = LexedStr::new(Edition::CURRENT, text);
    let (words, all) = woven(&lexed, &entry.parse(&lexed.to_input(Edition::CURRENT)));
    assert!(all);
    words
}

/// The steps of an output, a word for each.
fn steps(output: &Output) -> String {
    let words: Vec<String> = output
        .iter()
        .map(|step| match step {
            Step::Enter { kind } => format!("<{kind:?}>"),
            Step::Exit => "</>".to_string(),
            Step::Token { kind, n_input_tokens } => format!("{kind:?}*{n_input_tokens}"),
            Step::FloatSplit { ends_in_dot } => format!("split:{ends_in_dot}"),
            Step::Error { msg } => format!("!{msg}"),
        })
        .collect();
    words.join(" ")
}

/// The input of some kinds, none of which touches the next one.
fn pushed(kinds: &[SyntaxKind]) -> Input {
    let mut input = Input::with_capacity(kinds.len());
    kinds.iter().for_each(|kind| input.push(*kind, Edition::CURRENT));
    input
}

#[test]
fn gives_the_steps_of_a_tree() {
    let want = "<PREFIX_EXPR> MINUS:- <PATH_EXPR> <PATH> <PATH_SEGMENT> <NAME_REF> IDENT:x </> </> </> </> </>";
    assert_eq!(tree(TopEntryPoint::Expr, "-x"), want);
    assert_eq!(tree(TopEntryPoint::SourceFile, ""), "<SOURCE_FILE> </>");
    assert_eq!(tree(TopEntryPoint::MacroItems, " "), "<MACRO_ITEMS> WHITESPACE:  </>");
}

#[test]
fn gives_what_stands_behind_a_long_token() {
    let comment = format!("//{}", "é".repeat(35_000));
    let text = format!("{comment}\nstruct S 5");
    let want = format!(
        "<SOURCE_FILE> <STRUCT> COMMENT:{comment} WHITESPACE:\n STRUCT_KW:struct WHITESPACE:  <NAME> IDENT:S \
         70011:expected `;`, `{{`, or `(` </> </> WHITESPACE:  <ERROR> 70012:expected an item INT_NUMBER:5 </> </>"
    );
    assert_eq!(tree(TopEntryPoint::SourceFile, &text), want);
}

#[test]
fn gives_messages_where_they_stand() {
    let want = "<BIN_EXPR> <LITERAL> INT_NUMBER:1 </> PLUS:+ <ERROR> 2:expected expression </> </>";
    assert_eq!(tree(TopEntryPoint::Expr, "1+"), want);
    let lexed = LexedStr::new(Edition::Edition2021, "é + 0x");
    let message = "Missing digits after the integer base prefix";
    assert_eq!(lexed.errors().collect::<Vec<_>>(), [(4, message)]);
    assert_eq!((lexed.error(4), lexed.error(0)), (Some(message), None));
}

#[test]
fn cuts_a_text() {
    let lexed = LexedStr::new(Edition::Edition2024, "é+ //");
    assert_eq!((lexed.len(), lexed.is_empty(), lexed.as_str()), (4, false, "é+ //"));
    assert_eq!((0..4).map(|i| lexed.kind(i)).collect::<Vec<_>>(), [IDENT, PLUS, WHITESPACE, COMMENT]);
    assert_eq!((lexed.text(0), lexed.range_text(1..3), lexed.text_range(3), lexed.text_len(0)), ("é", "+ ", 4..6, 2));
    assert_eq!((lexed.text_start(0), lexed.text_start(4)), (0, 6));
    let empty = LexedStr::new(Edition::Edition2015, "");
    assert_eq!((empty.len(), empty.is_empty(), empty.text_start(0)), (0, true, 0));
}

#[test]
#[should_panic(expected = "there is no token 1")]
fn has_no_token_behind_the_last_one() {
    let _ = LexedStr::new(Edition::Edition2024, "a").kind(1);
}

#[test]
fn reads_single_tokens() {
    let single = |text| LexedStr::single_token(Edition::Edition2024, text);
    assert_eq!(single("union"), Some((IDENT, None)));
    assert_eq!(single("''"), Some((CHAR, Some("empty character literal".to_string()))));
    assert_eq!([single(""), single("a b"), single("=="), single("#!/bin/x"), single("---\n---")], [const { None }; 5]);
    assert_eq!(single(" \n"), Some((WHITESPACE, None)));
    assert_eq!(LexedStr::single_token(Edition::Edition2021, "##"), None);
    let reserved = Some("Invalid string literal (reserved syntax)".to_string());
    assert_eq!(single("##"), Some((ERROR, reserved)));
}

#[test]
fn reads_what_the_parser_reads() {
    let input = LexedStr::new(Edition::Edition2015, "dyn >= 1.0 // x").to_input(Edition::Edition2015);
    assert_eq!((input.len(), input.is_empty()), (4, false));
    assert_eq!([0, 1, 2, 3, 4].map(|i| input.kind(i)), [IDENT, R_ANGLE, EQ, FLOAT_NUMBER, EOF]);
    assert_eq!([0, 1, 2, 3].map(|i| input.contextual_kind(i)), [DYN_KW, EOF, EOF, EOF]);
    assert_eq!([0, 1, 2, 3].map(|i| input.is_joint(i)), [false, true, false, true]);
    let later = LexedStr::new(Edition::Edition2015, "dyn union").to_input(Edition::Edition2021);
    assert_eq!([0, 1].map(|i| later.contextual_kind(i)), [IDENT, UNION_KW]);
}

#[test]
fn parses_pushed_tokens() {
    let mut input = Input::with_capacity(0);
    input.push_ident(IDENT, Edition::Edition2021);
    input.push(R_ANGLE, Edition::Edition2021);
    input.was_joint();
    input.push(EQ, Edition::Edition2021);
    input.push(INT_NUMBER, Edition::Edition2021);
    let left = "<BIN_EXPR> <PATH_EXPR> <PATH> <PATH_SEGMENT> <NAME_REF> IDENT*1 </> </> </> </>";
    let want = format!("{left} GTEQ*2 <LITERAL> INT_NUMBER*1 </> </>");
    assert_eq!(steps(&TopEntryPoint::Expr.parse(&input)), want);
    let lexed = LexedStr::new(Edition::Edition2021, "a /**/ >= 2");
    let (words, all) = woven(&lexed, &TopEntryPoint::Expr.parse(&input));
    assert!(all && words.contains("COMMENT:/**/ WHITESPACE:  GTEQ:>= WHITESPACE: "), "{words}");
    assert_eq!(Output::default().iter().count(), 0);
}

#[test]
fn pushes_behind_the_tokens_of_a_text() {
    let lexed = LexedStr::new(Edition::Edition2024, "1 +");
    let mut input = lexed.to_input(Edition::Edition2024);
    input.push(INT_NUMBER, Edition::Edition2024);
    let want = "<BIN_EXPR> <LITERAL> INT_NUMBER*1 </> PLUS*1 <LITERAL> INT_NUMBER*1 </> </>";
    assert_eq!(steps(&TopEntryPoint::Expr.parse(&input)), want);
}

#[test]
fn splits_a_float() {
    let lexed = LexedStr::new(Edition::Edition2024, "x.0.1");
    let input = lexed.to_input(Edition::Edition2024);
    let name = "<PATH_EXPR> <PATH> <PATH_SEGMENT> <NAME_REF> IDENT*1 </> </> </> </>";
    let want = format!("<FIELD_EXPR> <FIELD_EXPR> {name} DOT*1 split:false");
    assert_eq!(steps(&TopEntryPoint::Expr.parse(&input)), want);
}

#[test]
fn reads_from_the_front() {
    let lexed = LexedStr::new(Edition::Edition2024, "a , b");
    let output = PrefixEntryPoint::Path.parse(&lexed.to_input(Edition::Edition2024));
    assert_eq!(steps(&output), "<PATH> <PATH_SEGMENT> <NAME_REF> IDENT*1 </> </> </>");
    let (words, all) = woven(&lexed, &output);
    assert_eq!((words.as_str(), all), ("<PATH> <PATH_SEGMENT> <NAME_REF> IDENT:a </> </> WHITESPACE:  </>", false));
    assert_eq!(steps(&PrefixEntryPoint::Vis.parse(&pushed(&[FN_KW]))), "");
    assert_eq!(steps(&PrefixEntryPoint::Block.parse(&pushed(&[SEMICOLON]))), "!expected a block");
}

#[test]
fn parses_a_node_again() {
    let list = Reparser::for_node(USE_TREE_LIST, None, None).expect("it is parsed again");
    assert_eq!(steps(&list.parse(&pushed(&[L_CURLY, R_CURLY]))), "<USE_TREE_LIST> L_CURLY*1 R_CURLY*1 </>");
    assert!(Reparser::for_node(FN, None, None).is_none());
    assert!(Reparser::for_node(TOKEN_TREE, Some(L_PAREN), None).is_none());
    assert!(Reparser::for_node(TOKEN_TREE, Some(L_CURLY), None).is_some());
    assert!(Reparser::for_node(ASSOC_ITEM_LIST, None, Some(FN)).is_none());
    assert!(Reparser::for_node(ASSOC_ITEM_LIST, None, Some(TRAIT)).is_some());
}

#[test]
#[should_panic(expected = "the node does not begin with a brace")]
fn refuses_a_node_without_its_brace() {
    let list = Reparser::for_node(ITEM_LIST, None, None).expect("it is parsed again");
    let _ = list.parse(&pushed(&[SEMICOLON]));
}

#[test]
#[should_panic(expected = "no token")]
fn refuses_a_node_as_a_token() {
    pushed(&[SOURCE_FILE]);
}

#[test]
#[should_panic(expected = "not one tree over this text")]
fn refuses_the_tree_of_another_text() {
    let lexed = LexedStr::new(Edition::Edition2024, "1");
    let output = TopEntryPoint::Expr.parse(&lexed.to_input(Edition::Edition2024));
    LexedStr::new(Edition::Edition2024, "+").intersperse_trivia(&output, &mut |_| {});
}

#[test]
fn weaves_a_tree_into_a_text_with_other_trivia() {
    let output = TopEntryPoint::Expr.parse(&LexedStr::new(Edition::Edition2024, "-1").to_input(Edition::Edition2024));
    let lexed = LexedStr::new(Edition::Edition2024, "- 1");
    let want = "<PREFIX_EXPR> MINUS:- WHITESPACE:  <LITERAL> INT_NUMBER:1 </> </>";
    assert_eq!(woven(&lexed, &output), (want.to_string(), true));
}

#[test]
fn tells_its_own_copy_of_a_text_from_those_of_others() {
    let (edition, again) = (Edition::Edition2024, String::from("-1"));
    let (first, second) = (LexedStr::new(edition, "-1"), LexedStr::new(edition, &again));
    let other = LexedStr::new(edition, "- 1");
    let outputs = [&first, &second, &other].map(|it| TopEntryPoint::Expr.parse(&it.to_input(edition)));
    let want = "<PREFIX_EXPR> MINUS:- <LITERAL> INT_NUMBER:1 </> </>";
    let apart = "<PREFIX_EXPR> MINUS:- WHITESPACE:  <LITERAL> INT_NUMBER:1 </> </>";
    for output in &outputs {
        assert_eq!(woven(&first, output), (want.to_string(), true));
        assert_eq!(woven(&second, output), (want.to_string(), true));
        assert_eq!(woven(&other, output), (apart.to_string(), true));
    }
}

#[test]
fn gives_back_every_byte() {
    for text in ["", "fn f() { 1 +", "\u{feff}é\0 /* ", "#!/bin/x\n1.0.0", "]]}}))", &"(".repeat(300)] {
        let lexed = LexedStr::new(Edition::Edition2021, text);
        let input = lexed.to_input(Edition::Edition2021);
        for entry in [TopEntryPoint::SourceFile, TopEntryPoint::Expr, TopEntryPoint::MetaItem] {
            let mut joined = String::new();
            lexed.intersperse_trivia(&entry.parse(&input), &mut |step| {
                if let StrStep::Token { text, .. } = step {
                    joined.push_str(text);
                }
            });
            assert_eq!(joined, text);
        }
        assert_eq!((0..lexed.len()).map(|i| lexed.text(i)).collect::<String>(), text);
    }
}

#[test]
fn knows_kinds() {
    assert_eq!([T![;], T!['('], T![..=], T![Self], T![_]], [SEMICOLON, L_PAREN, DOT2EQ, SELF_TYPE_KW, UNDERSCORE]);
    assert_eq!([T![ident], T![int_number], T![lifetime_ident]], [IDENT, INT_NUMBER, LIFETIME_IDENT]);
    assert_eq!((SyntaxKind::from(3), u16::from(L_PAREN), format!("{PATH_META:?}")), (L_PAREN, 3, "PATH_META".into()));
    assert_eq!((SyntaxKind::from_char('+'), SyntaxKind::from_char('a')), (Some(PLUS), None));
    assert_eq!((T![>>=].text(), T![macro_rules].text(), T![Self].text()), (">>=", "macro_rules", "Self"));
    assert!(WHITESPACE.is_trivia() && !OUTER_DOC_COMMENT.is_trivia() && AMP2.is_punct() && !AS_KW.is_punct());
    assert!(L_BRACK.is_l_delimiter() && R_BRACK.is_r_delimiter() && L_CURLY.is_delimiter() && !L_ANGLE.is_delimiter());
    assert!(C_STRING.is_literal() && !IDENT.is_literal() && SHEBANG.is_token() && !TOMBSTONE.is_token());
}

#[test]
fn knows_keywords() {
    let strict = |word, edition| SyntaxKind::from_keyword(word, edition);
    let contextual = |word, edition| SyntaxKind::from_contextual_keyword(word, edition);
    let (first, latest) = (Edition::Edition2015, Edition::Edition2024);
    assert_eq!(
        [strict("fn", first), strict("dyn", first), strict("dyn", Edition::Edition2018)],
        [Some(FN_KW), None, Some(DYN_KW)]
    );
    assert_eq!([strict("gen", Edition::Edition2021), strict("gen", latest)], [None, Some(GEN_KW)]);
    assert_eq!([contextual("dyn", first), contextual("dyn", latest)], [Some(DYN_KW), None]);
    assert_eq!([contextual("union", first), contextual("fn", first)], [Some(UNION_KW), None]);
    assert!(DYN_KW.is_keyword(first) && DYN_KW.is_contextual_keyword(first) && !DYN_KW.is_strict_keyword(first));
    assert!(DYN_KW.is_strict_keyword(latest) && UNION_KW.is_keyword(latest) && !GEN_KW.is_keyword(first));
    assert!(IDENT.is_any_identifier() && UNION_KW.is_any_identifier() && !SEMICOLON.is_any_identifier());
}

#[test]
fn knows_editions() {
    assert_eq!("2018".parse::<Edition>().ok(), Some(Edition::Edition2018));
    assert!("2019".parse::<Edition>().is_err() && " 2018".parse::<Edition>().is_err());
    assert_eq!((Edition::Edition2021.number(), Edition::from_u32(3)), (2021, Edition::Edition2024));
    assert_eq!(Edition::iter().map(|it| it.to_string()).collect::<Vec<_>>(), ["2015", "2018", "2021", "2024"]);
    assert!(Edition::Edition2021.at_least_2021() && !Edition::Edition2018.at_least_2021());
}
