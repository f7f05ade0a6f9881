//! What trees, nodes and tokens are to Rust: sent, copied, compared and printed.
use rap_tree::{Children, ChildrenWithTokens, Descendants, DescendantsWithTokens, LineIndex, PreorderWithTokens};
use rap_tree::{Edition, Message, Node, NodeOrToken, SyntaxKind, Token, TokenAtOffset, TopEntryPoint, Tree};
use std::collections::HashSet;
use std::panic::{AssertUnwindSafe, catch_unwind};

const fn is_send_and_sync<T: Send + Sync>() {}
const fn is_copied<T: Copy>() {}

const _: () = {
    is_send_and_sync::<Tree>();
    is_send_and_sync::<Message>();
    is_send_and_sync::<LineIndex>();
    is_send_and_sync::<Node<'static>>();
    is_send_and_sync::<Token<'static>>();
    is_send_and_sync::<NodeOrToken<'static>>();
    is_send_and_sync::<TokenAtOffset<Token<'static>>>();
    is_send_and_sync::<Children<'static>>();
    is_send_and_sync::<ChildrenWithTokens<'static>>();
    is_send_and_sync::<Descendants<'static>>();
    is_send_and_sync::<DescendantsWithTokens<'static>>();
    is_send_and_sync::<PreorderWithTokens<'static>>();
    is_copied::<Node<'static>>();
    is_copied::<Token<'static>>();
    is_copied::<NodeOrToken<'static>>();
};

fn expression(text: &str) -> Tree {
    Tree::of_text(Edition::CURRENT, TopEntryPoint::Expr, text)
}

#[test]
fn are_read_by_several_threads() {
    let tree = expression("a + b * c");
    let count = |kind| tree.root().descendants().filter(|node| node.kind() == kind).count();
    std::thread::scope(|scope| {
        let names = scope.spawn(|| count(SyntaxKind::NAME_REF));
        let operations = scope.spawn(|| count(SyntaxKind::BIN_EXPR));
        assert_eq!((names.join().expect("it ends"), operations.join().expect("it ends")), (3, 2));
    });
}

#[test]
fn are_equal_if_they_are_the_same_one() {
    let (tree, other) = (expression("1"), expression("1"));
    assert_eq!(tree.root(), tree.root().first_token().unwrap().parent().unwrap());
    assert_ne!(tree.root(), other.root());
    assert_ne!(tree.root().first_token(), other.root().first_token());
    let all: HashSet<_> = tree.root().descendants_with_tokens().chain(other.root().descendants_with_tokens()).collect();
    assert_eq!(all.len(), 4);
}

#[test]
fn are_printed_as_by_rowan() {
    let tree = expression("é/*\n*/");
    let lines = "PATH_EXPR@0..7\n  PATH@0..2\n    PATH_SEGMENT@0..2\n      NAME_REF@0..2\n        IDENT@0..2 \"é\"\n  \
                 COMMENT@2..7 \"/*\\n*/\"\n";
    assert_eq!(format!("{tree:#?}"), lines);
    assert_eq!((format!("{tree:?}"), format!("{tree}")), ("PATH_EXPR@0..7".to_owned(), "é/*\n*/".to_owned()));
    let token = tree.root().last_token().unwrap();
    assert_eq!(
        (format!("{token:#?}"), format!("{token}")),
        ("COMMENT@2..7 \"/*\\n*/\"".to_owned(), "/*\n*/".to_owned())
    );
    let element = tree.root().first_child_or_token().unwrap();
    assert_eq!((format!("{element:?}"), format!("{element:>3}")), ("PATH@0..2".to_owned(), "  é".to_owned()));
}

#[test]
fn cut_long_tokens_in_print() {
    let printed = |text: &str| format!("{:?}", expression(text).root().first_token().unwrap());
    assert_eq!(printed(&"a".repeat(24)), format!("IDENT@0..24 \"{}\"", "a".repeat(24)));
    assert_eq!(printed(&"a".repeat(25)), format!("IDENT@0..25 \"{} ...\"", "a".repeat(21)));
    let crab = format!("\"{}{}\"", "a".repeat(19), "🦀".repeat(2));
    assert_eq!(printed(&crab), format!("STRING@0..29 \"\\\"{}🦀 ...\"", "a".repeat(19)));
}

#[test]
fn have_no_token_in_an_empty_node() {
    let tree = Tree::of_text(Edition::CURRENT, TopEntryPoint::SourceFile, "");
    let root = tree.root();
    assert_eq!((root.first_token(), root.last_token(), root.first_child_or_token()), (None, None, None));
    assert_eq!((root.token_at_offset(0), root.covering_element(0..0)), (TokenAtOffset::None, root.into()));
    assert_eq!((root.text(), root.text_range(), root.descendants().count()), ("", 0..0, 1));
}

#[test]
fn refuse_what_is_outside() {
    let tree = expression("a+b");
    let last = tree.root().last_child().unwrap();
    let is_refused = |ask: &dyn Fn() -> usize| catch_unwind(AssertUnwindSafe(ask)).is_err();
    assert!(is_refused(&|| last.token_at_offset(1).len()));
    assert!(is_refused(&|| last.token_at_offset(4).len()));
    assert!(is_refused(&|| last.covering_element(1..2).text().len()));
    assert!(is_refused(&|| last.covering_element(2..4).text().len()));
    assert_eq!(last.token_at_offset(2).map(|token| token.text()), TokenAtOffset::Single("b"));
}

#[test]
fn skip_what_is_inside() {
    let tree = expression("-a");
    let mut walk = tree.root().preorder_with_tokens();
    assert!(walk.next().is_some());
    walk.skip_subtree();
    assert_eq!(walk.next(), Some(rap_tree::WalkEvent::Leave(tree.root().into())));
    assert_eq!(walk.next(), None);
    let mut walk = tree.root().first_child().unwrap().preorder_with_tokens();
    walk.skip_subtree();
    assert_eq!(walk.next(), None);
}

/// A tree of 200,000 levels is built, walked and dropped on a small stack.
#[test]
fn take_no_stack_for_levels() {
    let depth = 200_000;
    let run = move || {
        let tree = expression(&format!("{}1{}", "(".repeat(depth), ")".repeat(depth)));
        assert_eq!(tree.root().preorder_with_tokens().count(), 2 * tree.root().descendants_with_tokens().len());
        let one = tree.root().token_at_offset(depth).right_biased().unwrap();
        assert_eq!((one.text(), one.parent_ancestors().count()), ("1", depth + 1));
        assert_eq!(tree.root().covering_element(depth..depth + 1), one.into());
        assert_eq!(tree.to_string().len(), 2 * depth + 1);
    };
    std::thread::Builder::new().stack_size(128 << 10).spawn(run).expect("it starts").join().expect("it ends");
}
