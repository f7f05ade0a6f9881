//! What is outside of the core grammar, worked out by hand.
use rap_tree::{Edition, SyntaxKind, TopEntryPoint, Tree};

fn file(edition: Edition, text: &str) -> Tree {
    Tree::of_text(edition, TopEntryPoint::SourceFile, text)
}

/// What is outside of a file, as the program `rast_core` prints it.
fn outside(edition: Edition, text: &str) -> Vec<String> {
    let tree = file(edition, text);
    let places = tree.outside_core();
    assert_eq!(tree.is_derived(), places.is_empty());
    places.iter().map(ToString::to_string).collect()
}

#[test]
fn nothing_of_a_file_of_the_core_grammar() {
    for text in ["", "// a\n", "fn f(x: u8) -> u8 { x + 1 }", "#!/bin/x\n#![a]\nuse c::{d, e as f};"] {
        assert!(file(Edition::CURRENT, text).is_derived());
        assert!(outside(Edition::CURRENT, text).is_empty());
    }
}

#[test]
fn tokens_come_before_nodes() {
    let text = "trait A = B; const C: char = 'ab';";
    assert_eq!(outside(Edition::CURRENT, text), ["CHAR@29..33", "TRAIT@0..12"]);
    let tree = file(Edition::CURRENT, text);
    let is_token: Vec<_> = tree.outside_core().iter().map(|it| (it.kind(), it.is_token())).collect();
    assert_eq!(is_token, [(SyntaxKind::CHAR, true), (SyntaxKind::TRAIT, false)]);
}

#[test]
fn nothing_but_tokens_where_all_else_is_derived() {
    assert_eq!(outside(Edition::CURRENT, r#"fn f() { "\q" + "\z" }"#), ["STRING@9..13", "STRING@16..20"]);
}

#[test]
fn more_places_than_there_is_room_for_at_first() {
    let item = "trait A = B;\n";
    let wanted: Vec<_> = (0..1000).map(|i| format!("TRAIT@{}..{}", i * item.len(), i * item.len() + 12)).collect();
    assert_eq!(outside(Edition::CURRENT, &item.repeat(1000)), wanted);
}

#[test]
fn by_the_edition() {
    assert_eq!(outside(Edition::Edition2015, "type A = dyn B;"), ["DYN_TRAIT_TYPE@9..14"]);
    assert!(file(Edition::Edition2018, "type A = dyn B;").is_derived());
}

#[test]
fn of_deep_texts() {
    let text = format!("fn f() {{ {}x.0.1{} }}", "(".repeat(100_000), ")".repeat(100_000));
    assert_eq!(outside(Edition::CURRENT, &text), ["FIELD_EXPR@100009..100014"]);
}

#[test]
fn only_a_file_is_asked_for() {
    let tree = Tree::of_text(Edition::CURRENT, TopEntryPoint::Expr, "1 + 2");
    assert_eq!((tree.is_derived(), tree.outside_core().len()), (false, 0));
}
