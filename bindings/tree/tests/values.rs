//! The values of literals, worked out by hand.
use rap_tree::ast::{AstNode, Literal, LiteralKind, Radix};
use rap_tree::{Edition, TopEntryPoint, Tree};

/// A literal of a text, shown to a function.
fn shown<T>(text: &str, show: impl Fn(LiteralKind<'_>) -> T) -> T {
    let tree = Tree::of_text(Edition::CURRENT, TopEntryPoint::Expr, text);
    show(Literal::cast(tree.root()).and_then(Literal::kind).expect("it is a literal"))
}

/// The bytes that a literal in quotes stands for.
fn bytes(text: &str) -> Option<Vec<u8>> {
    shown(text, |kind| match kind {
        LiteralKind::String(it) => it.value().map(String::into_bytes),
        LiteralKind::ByteString(it) => it.value(),
        LiteralKind::CString(it) => it.value(),
        LiteralKind::Char(it) => it.value().map(|it| it.to_string().into_bytes()),
        LiteralKind::Byte(it) => it.value().map(|it| vec![it]),
        other => panic!("{other:?} has no quotes"),
    })
}

/// An integer's value, radix and suffix.
fn integer(text: &str) -> (Option<u128>, Radix, Option<String>) {
    shown(text, |kind| match kind {
        LiteralKind::IntNumber(it) => (it.value(), it.radix(), it.suffix().map(str::to_owned)),
        other => panic!("{other:?} is no integer"),
    })
}

/// A float's value and suffix.
fn float(text: &str) -> (Option<f64>, Option<String>) {
    shown(text, |kind| match kind {
        LiteralKind::FloatNumber(it) => (it.value(), it.suffix().map(str::to_owned)),
        other => panic!("{other:?} is no float"),
    })
}

#[test]
fn literals_in_quotes_stand_for_bytes() {
    let table: [(&str, Option<&[u8]>); 14] = [
        (r#""a\n\u{e9}""#, Some("a\né".as_bytes())),
        ("\"a\\\n   b\"x", Some(b"ab")),
        ("\"\"", Some(b"")),
        (r##"r#"\n"#"##, Some(b"\\n")),
        (r#"b"\xff\0""#, Some(b"\xff\0")),
        (r#"br"\x""#, Some(b"\\x")),
        ("c\"\\xffé\"", Some(b"\xff\xc3\xa9")),
        (r#"c"\0""#, None),
        (r#""\q""#, None),
        (r"'\''", Some(b"'")),
        ("'é'", Some("é".as_bytes())),
        ("''", None),
        (r"b'\n'", Some(b"\n")),
        ("b'é'", None),
    ];
    for (text, value) in table {
        assert_eq!(bytes(text).as_deref(), value, "{text}");
    }
}

#[test]
fn numbers_have_values_and_suffixes() {
    let suffix = |it: &str| Some(it.to_owned());
    assert_eq!(integer("1_000"), (Some(1000), Radix::Decimal, None));
    assert_eq!(integer("0xff_u8"), (Some(255), Radix::Hexadecimal, suffix("u8")));
    assert_eq!(integer("0o17"), (Some(15), Radix::Octal, None));
    assert_eq!(integer("0b101i64"), (Some(5), Radix::Binary, suffix("i64")));
    assert_eq!(integer("0b12u8"), (None, Radix::Binary, suffix("u8")));
    assert_eq!(integer("1f32"), (Some(1), Radix::Decimal, suffix("f32")));
    assert_eq!(integer("0x"), (None, Radix::Hexadecimal, None));
    assert_eq!(integer(&u128::MAX.to_string()), (Some(u128::MAX), Radix::Decimal, None));
    assert_eq!(integer("340282366920938463463374607431768211456"), (None, Radix::Decimal, None));
    assert_eq!(float("1_5.25e-1f32"), (Some(1.525), suffix("f32")));
    assert_eq!(float("2."), (Some(2.0), None));
    assert_eq!(float("1e"), (None, None));
}
