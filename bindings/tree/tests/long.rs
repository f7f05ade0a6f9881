//! Trees and messages of which there are more than room is made for at first.
use rap_tree::{Edition, SyntaxKind, TopEntryPoint, Tree};

/// Each name is a token in four nodes; each `+` is a token in a node of its own.
#[test]
fn have_all_elements() {
    let text = vec!["a"; 1000].join("+");
    let tree = Tree::of_text(Edition::CURRENT, TopEntryPoint::Expr, text.as_str());
    assert_eq!(tree.root().descendants_with_tokens().len(), 1000 * 5 + 999 * 2);
    assert_eq!((tree.root().text_range(), tree.text()), (0..1999, text.as_str()));
    let last = tree.root().last_token().expect("there are tokens");
    assert_eq!((last.text_range(), last.parent_ancestors().count()), (1998..1999, 5));
    assert!(tree.messages().is_empty());
}

/// A function has six tokens in five nodes, two spaces and a line feed; and those of a comment are two tokens more.
#[test]
fn are_whole_where_rooms_are_used_again() {
    let of = |item: &str, count: usize| Tree::of_text(Edition::CURRENT, TopEntryPoint::SourceFile, item.repeat(count));
    let comment = format!("//{}\nfn f() {{}}\n", "x".repeat(80));
    let first = of("fn f() {}\n", 100_000);
    for _ in 0..3 {
        for (item, count, elements) in [(comment.as_str(), 20_000, 16), ("fn f() {}\n", 90_000, 14), ("x", 1, 0)] {
            let tree = of(item, count);
            let found = tree.root().descendants_with_tokens();
            assert!(elements == 0 || found.len() == count * elements + 1, "{} {count}", found.len());
            assert_eq!(found.filter_map(|it| it.into_token()).map(|it| it.text()).collect::<String>(), tree.text());
        }
    }
    assert_eq!(first.root().descendants_with_tokens().len(), 1_400_001);
    assert_eq!(first.clone().root().children().filter(|node| node.kind() == SyntaxKind::FN).count(), 100_000);
}

/// Each number is a token with a message of the lexer, and no item.
#[test]
fn have_all_messages_the_parsers_first() {
    let tree = Tree::of_text(Edition::CURRENT, TopEntryPoint::SourceFile, "0x ".repeat(1000));
    let found: Vec<_> = tree.messages().iter().map(|it| (it.position(), it.range(), it.text())).collect();
    let of_number = |text| (0..1000).map(move |i| (3 * i, 3 * i..3 * i + 2, text));
    let want = of_number("expected an item").chain(of_number("Missing digits after the integer base prefix"));
    assert_eq!(found, want.collect::<Vec<_>>());
}
