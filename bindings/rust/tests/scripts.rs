//! Script sources, with expected values by hand.
use ra_ap_parser::frontmatter::{FrontmatterError, ScriptSource, Span, strip_shebang, strip_ws_lines};
use ra_ap_parser::is_rust_whitespace;

/// One span.
fn one(span: Span) -> Vec<Span> {
    vec![span]
}

/// What is refused: the message, its span, and the spans beside it.
fn refused(text: &str) -> (String, Span, Vec<Span>) {
    let error = ScriptSource::parse(text).expect_err("it is refused");
    (error.to_string(), error.primary_span(), error.visible_spans().to_vec())
}

#[test]
fn cuts_a_script() {
    let text = "#!/bin/x\n\n--- cargo \r\na\nb\n---\t\nfn";
    let script = ScriptSource::parse(text).expect("it is a script");
    assert_eq!((script.shebang(), script.shebang_span()), (Some("#!/bin/x\n"), Some(0..9)));
    assert_eq!((script.open_span(), script.info(), script.info_span()), (Some(10..13), Some("cargo"), Some(14..19)));
    assert_eq!((script.frontmatter(), script.frontmatter_span()), (Some("a\nb\n"), Some(22..26)));
    assert_eq!((script.close_span(), script.content(), script.content_span()), (Some(26..29), "fn", 31..33));
}

#[test]
fn takes_what_is_no_script() {
    let script = ScriptSource::parse("fn").expect("it is accepted");
    assert_eq!((script.shebang(), script.frontmatter(), script.content()), (None, None, "fn"));
    let attribute = ScriptSource::parse("#![a]").expect("it is accepted");
    assert_eq!((attribute.shebang(), attribute.content_span()), (None, 0..5));
}

#[test]
fn refuses_wrong_fences() {
    let short = "found 2 `-` in rust frontmatter, expected at least 3";
    assert_eq!(refused("--\n"), (short.into(), 3..3, one(0..2)));
    assert_eq!(refused("----\n"), ("unclosed frontmatter; expected `----`".into(), 5..5, one(0..4)));
    assert_eq!(refused("---"), ("unclosed frontmatter; expected `---`".into(), 3..3, one(0..3)));
    let less = "closing code fence has 2 less `-` than the opening fence";
    assert_eq!(refused("----\n-\n--\n--"), (less.into(), 7..9, one(0..4)));
    let more = "closing code fence has 1 more `-` than the opening fence";
    assert_eq!(refused("---\n----"), (more.into(), 7..8, one(0..3)));
    let after_close = "unexpected characters after frontmatter close";
    assert_eq!(refused("---\n--- x y\n"), (after_close.into(), 8..11, one(0..3)));
    let twice = "only one frontmatter is supported";
    assert_eq!(refused("---\n---\n\n-"), (twice.into(), 9..10, vec![0..3, 4..7]));
}

#[test]
fn strips() {
    assert_eq!(
        [strip_shebang("#!x"), strip_shebang("#!x\ny"), strip_shebang("#! [x"), strip_shebang(" #!")],
        [Some(3), Some(4), None, None]
    );
    assert_eq!(
        [strip_ws_lines(" \n \nx"), strip_ws_lines(" x"), strip_ws_lines("\u{85}\n"), strip_ws_lines("")],
        [Some(4), None, Some(3), None]
    );
    assert!(is_rust_whitespace('\u{200e}') && !is_rust_whitespace('\u{a0}'));
}

#[test]
fn makes_an_error() {
    let error = FrontmatterError::new("why", 1..2).push_visible_span(3..4);
    assert_eq!((error.message(), error.primary_span(), error.visible_spans()), ("why", 1..2, &one(3..4)[..]));
    assert_eq!(format!("{error:>5}"), "  why");
}
