//! What nests a hundred thousand levels deep, on threads with a small stack, by each call that parses.
//!
//! `tests/nested` of the repository parses texts of a million levels.
use ra_ap_parser::SyntaxKind::{self, *};
use ra_ap_parser::{Edition, Input, LexedStr, Output, PrefixEntryPoint, Reparser, Step, StrStep, T, TopEntryPoint};
use std::thread;

const LEVELS: usize = 100_000;
const EDITION: Edition = Edition::CURRENT;

/// Makes a call on a stack of 64 KB.
fn on_small_stack<T: Send>(call: impl FnOnce() -> T + Send) -> T {
    thread::scope(|scope| {
        let thread = thread::Builder::new().stack_size(64 << 10).spawn_scoped(scope, call).expect("it starts");
        thread.join().expect("it ends")
    })
}

/// How many nodes of a kind an output has.
fn count(output: &Output, node: SyntaxKind) -> usize {
    output.iter().filter(|step| matches!(step, Step::Enter { kind } if *kind == node)).count()
}

/// How many nodes of a kind the tree of an output over a text has.
fn count_over(lexed: &LexedStr<'_>, output: &Output, node: SyntaxKind) -> usize {
    let mut found = 0;
    lexed.intersperse_trivia(output, &mut |step| {
        found += usize::from(matches!(step, StrStep::Enter { kind } if kind == node));
    });
    found
}

/// So many times the same token.
fn pushed(kind: SyntaxKind, times: usize) -> Input {
    let mut input = Input::with_capacity(times);
    (0..times).for_each(|_| input.push(kind, EDITION));
    input
}

#[test]
fn takes_texts_and_pushed_tokens() {
    let text = "(".repeat(LEVELS);
    let lexed = LexedStr::new(EDITION, &text);
    let found = on_small_stack(|| {
        let of_text = TopEntryPoint::Expr.parse(&lexed.to_input(EDITION));
        let of_records = TopEntryPoint::Expr.parse(&pushed(T!['('], LEVELS));
        let tuples = [count_over(&lexed, &of_text, TUPLE_EXPR), count_over(&lexed, &of_records, TUPLE_EXPR)];
        let in_records = [count(&of_text, TUPLE_EXPR), count(&of_records, TUPLE_EXPR)];
        (tuples, in_records, lexed.len())
    });
    assert_eq!(found, ([LEVELS; 2], [LEVELS; 2], LEVELS));
}

#[test]
fn takes_fronts_and_nodes_in_braces() {
    let found = on_small_stack(|| {
        let front = PrefixEntryPoint::Expr.parse(&pushed(T![-], LEVELS));
        let reparser = Reparser::for_node(BLOCK_EXPR, None, None).expect("it is parsed again");
        let block = reparser.parse(&pushed(T!['{'], LEVELS));
        (count(&front, PREFIX_EXPR), count(&block, BLOCK_EXPR))
    });
    assert_eq!(found, (LEVELS, LEVELS));
}

#[test]
fn hands_out_steps_on_the_stack_of_the_caller() {
    // A sink may parse, panic and take as much of the stack as the thread has.
    let text = "a(".repeat(LEVELS);
    let caught = thread::Builder::new().stack_size(64 << 10).spawn(move || {
        let lexed = LexedStr::new(EDITION, &text);
        let output = TopEntryPoint::Expr.parse(&lexed.to_input(EDITION));
        lexed.intersperse_trivia(&output, &mut |_| {
            let inner = LexedStr::new(EDITION, "[[[[");
            let output = TopEntryPoint::Expr.parse(&inner.to_input(EDITION));
            assert_eq!(count_over(&inner, &output, ARRAY_EXPR), 4);
            panic!("the sink has had enough");
        });
    });
    let panicked = caught.expect("it starts").join().expect_err("the sink panics");
    assert_eq!(panicked.downcast_ref::<&str>(), Some(&"the sink has had enough"));
}

#[test]
fn says_where_no_stack_can_be_had() {
    // A program with too few addresses, which this one is when it is started by itself.
    const NAME: &str = "RA_AP_PARSER_FEW_ADDRESSES";
    if std::env::var_os(NAME).is_some() {
        let _ = TopEntryPoint::Expr.parse(&pushed(T!['('], 1_000_000));
        return;
    }
    let program = std::env::current_exe().expect("the test has a path");
    let shell = "ulimit -v 500000; exec \"$0\" --exact says_where_no_stack_can_be_had --nocapture --test-threads=1";
    let mut command = std::process::Command::new("sh");
    let output = command.args(["-c", shell]).arg(program).env(NAME, "1").output().expect("it starts");
    let said = String::from_utf8_lossy(&output.stderr);
    assert!(said.contains("no stack of 1024065536 bytes can be had, for 1000000 tokens"), "{said}");
    assert_eq!(output.status.code(), Some(101));
}
