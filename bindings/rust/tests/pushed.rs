//! Tokens that were pushed one by one, as a macro expander does, in the place of a text's.
use ra_ap_parser::SyntaxKind::{self, *};
use ra_ap_parser::{Edition, Input, LexedStr, TopEntryPoint};

/// A function of the core grammar, and its tokens without white space.
const TEXT: &str = "fn f(x: &mut u8,) -> u8 { let y: u8 = x.g(1,)?; -y }";

const TOKENS: &[SyntaxKind] = &[
    FN_KW, IDENT, L_PAREN, IDENT, COLON, AMP, MUT_KW, IDENT, COMMA, R_PAREN, MINUS, R_ANGLE, IDENT, L_CURLY, LET_KW,
    IDENT, COLON, IDENT, EQ, IDENT, DOT, IDENT, L_PAREN, INT_NUMBER, COMMA, R_PAREN, QUESTION, SEMICOLON, MINUS, IDENT,
    R_CURLY,
];

/// The input of these tokens, of which only the two of the arrow touch.
fn pushed() -> Input {
    let edition = Edition::CURRENT;
    let mut input = Input::with_capacity(TOKENS.len());
    for (at, &kind) in TOKENS.iter().enumerate() {
        match kind {
            IDENT => input.push_ident(IDENT, edition),
            _ => input.push(kind, edition),
        }
        if kind == MINUS && TOKENS[at + 1] == R_ANGLE {
            input.was_joint();
        }
    }
    input
}

#[test]
fn pushed_tokens_have_the_steps_of_the_text() {
    let of_text = LexedStr::new(Edition::CURRENT, TEXT).to_input(Edition::CURRENT);
    let of_text = TopEntryPoint::SourceFile.parse(&of_text);
    let of_tokens = TopEntryPoint::SourceFile.parse(&pushed());
    let steps = |output: &ra_ap_parser::Output| output.iter().map(|step| format!("{step:?}")).collect::<Vec<_>>();
    assert_eq!(steps(&of_tokens), steps(&of_text));
    // A node for the file, for each of the 31 tokens but `->` a leaf, and no message.
    let leaves = steps(&of_tokens).iter().filter(|step| step.starts_with("Token")).count();
    assert_eq!(leaves, TOKENS.len() - 1);
    assert!(steps(&of_tokens).iter().all(|step| !step.starts_with("Error")));
}
