//! The exports as C calls them, with results worked out by hand.
use ra_ap_parser::SyntaxKind::{
    BIN_EXPR, CHAR, EOF, ERROR, FIELD_EXPR, INT_NUMBER, LITERAL, PLUS, STRING, TRAIT, WHITESPACE,
};
use ra_ap_parser::sys::{self, Answer, ENTER, EXIT, LONG, MESSAGE, NO_KIND, NO_SCRIPT, Part, Step, TOKEN, VERSION};
use ra_ap_parser::sys::{
    CoreAnswer, Element, Message, NO_LITERAL, NO_NUMBER, NO_PARENT, NodesAnswer, NumberValue, Place,
};

/// The contents of an array that no call has written to.
const BLANK: Step = Step { what: 99, kind: 99, at: 99, start: 99, end: 99 };

/// A kind's name, written into an array of this length, and the number of its bytes.
fn kind_name(kind: u32, room: usize) -> (usize, Vec<u8>) {
    let mut name = vec![b'.'; room];
    let length = unsafe { sys::rap_kind_name(kind, name.as_mut_ptr(), room) };
    (length, name)
}

/// The number of the kind of this name.
fn number(name: &str) -> u32 {
    let is_named = |kind: &u32| kind_name(*kind, name.len()) == (name.len(), name.as_bytes().to_vec());
    (0..NO_KIND).find(is_named).expect("a kind has this name")
}

fn enter(kind: &str, at: usize) -> Step {
    Step { what: ENTER, kind: number(kind), at, start: at, end: at }
}

fn exit(at: usize) -> Step {
    Step { what: EXIT, kind: 0, at, start: at, end: at }
}

fn token(kind: &str, start: usize, end: usize) -> Step {
    Step { what: TOKEN, kind: number(kind), at: start, start, end }
}

fn message(at: usize, start: usize, end: usize) -> Step {
    Step { what: MESSAGE, kind: 0, at, start, end }
}

/// The result of a call, and the contents of its arrays of steps and of bytes of messages.
type Filled = (Answer, Vec<Step>, String);

/// Calls with arrays for this number of steps and of bytes of messages.
fn filled(room: (usize, usize), call: impl FnOnce(*mut Step, usize, *mut u8, usize) -> Answer) -> Filled {
    let mut steps = vec![BLANK; room.0];
    let mut messages = vec![b'.'; room.1];
    let answer = call(steps.as_mut_ptr(), room.0, messages.as_mut_ptr(), room.1);
    (answer, steps, String::from_utf8(messages).expect("messages are ASCII here"))
}

fn tree(text: &[u8], edition: u32, entry: u32, room: (usize, usize)) -> Filled {
    filled(room, |steps, n, bytes, m| unsafe {
        sys::rap_tree(text.as_ptr(), text.len(), edition, entry, steps, n, bytes, m)
    })
}

fn tokens(text: &[u8], edition: u32, room: (usize, usize)) -> Filled {
    filled(room, |steps, n, bytes, m| unsafe {
        sys::rap_tokens(text.as_ptr(), text.len(), edition, steps, n, bytes, m)
    })
}

fn prefix(text: &[u8], entry: u32, room: (usize, usize)) -> Filled {
    filled(room, |steps, n, bytes, m| unsafe {
        sys::rap_prefix(text.as_ptr(), text.len(), 2024, entry, steps, n, bytes, m)
    })
}

/// Reads a node again, by its kind, that of its first child and that of its parent.
fn reparse(text: &[u8], (node, first, parent): (u32, u32, u32), room: (usize, usize)) -> Filled {
    filled(room, |steps, n, bytes, m| unsafe {
        sys::rap_reparse(text.as_ptr(), text.len(), 2018, node, first, parent, steps, n, bytes, m)
    })
}

fn answer(status: u32, steps: usize, message_bytes: usize, used: usize) -> Answer {
    Answer { status, steps, message_bytes, used }
}

#[test]
fn hands_out_a_tree_with_its_messages_and_those_of_the_lexer() {
    let want = vec![
        enter("BIN_EXPR", 0),
        enter("LITERAL", 0),
        token("INT_NUMBER", 0, 2),
        exit(2),
        token("WHITESPACE", 2, 3),
        token("PLUS", 3, 4),
        enter("ERROR", 4),
        message(4, 0, 19),
        exit(4),
        exit(4),
        message(0, 19, 63),
        BLANK,
    ];
    let text = "expected expressionMissing digits after the integer base prefix.";
    assert_eq!(tree(b"0x +", 2024, 5, (12, 64)), (answer(0, 11, 63, 4), want, text.to_string()));
}

#[test]
fn counts_where_there_is_no_room_and_fills_no_further() {
    let counts = answer(0, 12, 19, 3);
    assert_eq!(tree(b"-1+", 2015, 5, (0, 0)), (counts, vec![], String::new()));
    let want = vec![enter("BIN_EXPR", 0), enter("PREFIX_EXPR", 0), token("MINUS", 0, 1)];
    assert_eq!(tree(b"-1+", 2015, 5, (3, 4)), (counts, want, "expe".to_string()));
}

/// Calls with arrays for this number of words and of bytes of messages.
fn tree_words(text: &[u8], edition: u32, entry: u32, room: (usize, usize)) -> (Answer, Vec<u32>, String) {
    let mut words = vec![99; room.0];
    let mut messages = vec![b'.'; room.1];
    let (steps, bytes) = (words.as_mut_ptr(), messages.as_mut_ptr());
    let answer =
        unsafe { sys::rap_tree_words(text.as_ptr(), text.len(), edition, entry, steps, room.0, bytes, room.1) };
    (answer, words, String::from_utf8(messages).expect("messages are ASCII here"))
}

/// The word of a node's begin, or of a token of so many bytes.
fn word(what: u32, kind: &str, bytes: u32) -> u32 {
    number(kind) << 16 | bytes << 3 | what
}

#[test]
fn hands_out_a_tree_in_words() {
    let want = vec![
        word(ENTER, "BIN_EXPR", 0),
        word(ENTER, "LITERAL", 0),
        word(TOKEN, "INT_NUMBER", 2),
        EXIT,
        word(TOKEN, "WHITESPACE", 1),
        word(TOKEN, "PLUS", 1),
        word(ENTER, "ERROR", 0),
        MESSAGE,
        4,
        19,
        EXIT,
        EXIT,
        MESSAGE,
        0,
        44,
        99,
    ];
    let text = "expected expressionMissing digits after the integer base prefix.";
    assert_eq!(tree_words(b"0x +", 2024, 5, (16, 64)), (answer(0, 15, 63, 12), want.clone(), text.to_string()));
    let cut = (answer(0, 15, 63, 12), want[..9].to_vec(), "expe".to_string());
    assert_eq!(tree_words(b"0x +", 2024, 5, (9, 4)), cut);
}

#[test]
fn hands_out_long_tokens_in_two_words() {
    for (bytes, short) in [(8190, 8190), (8191, LONG), (70_000, LONG)] {
        let text = vec![b'a'; bytes as usize];
        let (found, words, _) = tree_words(&text, 2024, 5, (10, 0));
        let count = if short == LONG { 10 } else { 9 };
        assert_eq!((found, words[4]), (answer(0, count, 0, count), word(TOKEN, "IDENT", short)));
        assert_eq!(words[5], if short == LONG { bytes } else { EXIT });
    }
}

/// The result of a call for a tree in one list, and the contents of its arrays.
type List = (NodesAnswer, Vec<Element>, Vec<Message>, String);

/// Calls with arrays for this number of elements, of messages and of their bytes.
fn nodes(text: &[u8], edition: u32, entry: u32, room: (usize, usize, usize)) -> List {
    let mut elements = vec![Element::new(EOF, 99, 99, 99, 99); room.0];
    let mut messages = vec![Message { at: 99, start: 99, end: 99, text_start: 99, text_end: 99 }; room.1];
    let mut bytes = vec![b'.'; room.2];
    let (at, length) = (text.as_ptr(), text.len());
    let (first, second, third) = (elements.as_mut_ptr(), messages.as_mut_ptr(), bytes.as_mut_ptr());
    let answer = unsafe { sys::rap_nodes(at, length, edition, entry, first, room.0, second, room.1, third, room.2) };
    (answer, elements, messages, String::from_utf8(bytes).expect("messages are ASCII here"))
}

fn nodes_answer(status: u32, elements: usize, messages: usize, message_bytes: usize, used: usize) -> NodesAnswer {
    NodesAnswer { status, elements, messages, message_bytes, used }
}

#[test]
fn hands_out_a_tree_in_one_list() {
    let elements = vec![
        Element::new(BIN_EXPR, 0, 4, 6, NO_PARENT),
        Element::new(LITERAL, 0, 2, 3, 0),
        Element::new(INT_NUMBER, 0, 2, 3, 1),
        Element::new(WHITESPACE, 2, 3, 4, 0),
        Element::new(PLUS, 3, 4, 5, 0),
        Element::new(ERROR, 4, 4, 6, 0),
        Element::new(EOF, 99, 99, 99, 99),
    ];
    let messages = vec![
        Message { at: 0, start: 0, end: 2, text_start: 0, text_end: 44 },
        Message { at: 4, start: 4, end: 4, text_start: 44, text_end: 63 },
        Message { at: 99, start: 99, end: 99, text_start: 99, text_end: 99 },
    ];
    let text = "Missing digits after the integer base prefixexpected expression.".to_string();
    let counts = nodes_answer(0, 6, 2, 63, 4);
    let cut = (counts, elements[..3].to_vec(), messages[..1].to_vec(), "Missing".to_string());
    assert_eq!(nodes(b"0x +", 2024, 5, (7, 3, 64)), (counts, elements, messages, text));
    assert_eq!(nodes(b"0x +", 2024, 5, (3, 1, 7)), cut);
}

fn script(text: &[u8], room: (usize, usize)) -> (Answer, Vec<Part>, String) {
    let mut parts = vec![Part { there: 9, start: 9, end: 9 }; room.0];
    let mut messages = vec![b'.'; room.1];
    let (at, bytes) = (parts.as_mut_ptr(), messages.as_mut_ptr());
    let answer = unsafe { sys::rap_script(text.as_ptr(), text.len(), at, room.0, bytes, room.1) };
    (answer, parts, String::from_utf8(messages).expect("messages are ASCII here"))
}

#[test]
fn cuts_script_sources() {
    let part = |start, end| Part { there: 1, start, end };
    let none = Part::default();
    let want = vec![part(0, 4), part(5, 8), part(9, 10), part(12, 14), part(14, 17), part(18, 20)];
    let text = b"#!x\n\n--- y \nz\n---\nfn";
    assert_eq!(script(text, (6, 1)), (answer(0, 6, 0, 20), want.clone(), ".".to_string()));
    assert_eq!(script(text, (2, 0)), (answer(0, 6, 0, 20), want[..2].to_vec(), String::new()));
    let plain = vec![none, none, none, none, none, part(0, 2)];
    assert_eq!(script(b"fn", (6, 0)), (answer(0, 6, 0, 2), plain, String::new()));
    let shown = vec![part(9, 10), part(0, 3), part(4, 7), Part { there: 9, start: 9, end: 9 }];
    let message = "only one frontmatter is supported.".to_string();
    assert_eq!(script(b"---\n---\n\n-", (4, 34)), (answer(12, 3, 33, 10), shown, message));
    assert_eq!(script(b"\xff", (0, 0)).0, answer(4, 0, 0, 0));
}

#[test]
fn finds_ends_of_what_may_stand_before_code() {
    let shebang = |text: &[u8]| unsafe { sys::rap_shebang(text.as_ptr(), text.len()) };
    let blank = |text: &[u8]| unsafe { sys::rap_blank_lines(text.as_ptr(), text.len()) };
    assert_eq!(
        [shebang(b"#!x\ny"), shebang(b"#! [x"), shebang(b"\xff")].map(|it| (it.status, it.used)),
        [(0, 4), (0, 0), (4, 0)]
    );
    assert_eq!(
        [blank(b" \n \nx"), blank(b" x"), blank(b"\xff")].map(|it| (it.status, it.used)),
        [(0, 4), (0, 0), (4, 0)]
    );
}

#[test]
fn tells_what_is_outside_of_the_core() {
    let blank = Place::new(EOF, 99, 99, 99);
    let told = |text: &[u8], edition, room: usize| {
        let mut places = vec![blank; room];
        let answer = unsafe { sys::rap_core(text.as_ptr(), text.len(), edition, places.as_mut_ptr(), room) };
        (answer, places)
    };
    let given = |derived, places, used| CoreAnswer { status: 0, derived, places, used };
    let refused = |status| CoreAnswer { status, ..CoreAnswer::default() };
    assert_eq!(told(b"fn f() {}", 2021, 1), (given(1, 0, 9), vec![blank]));
    // A float behind a dot: no category has the field.
    let text = b"fn f() { /* a */ x.0.1; }";
    assert_eq!(told(text, 2021, 2), (given(0, 1, 25), vec![Place::new(FIELD_EXPR, 0, 17, 22), blank]));
    assert_eq!(told(text, 2021, 0), (given(0, 1, 25), vec![]));
    // Two tokens with a message, in a text that is derived.
    let text = br#"fn f() { "\q" + "\z" }"#;
    let tokens = [Place::new(STRING, 1, 9, 13), Place::new(STRING, 1, 16, 20)];
    assert_eq!(told(text, 2024, 3), (given(0, 2, 22), vec![tokens[0], tokens[1], blank]));
    assert_eq!(told(text, 2024, 1), (given(0, 2, 22), vec![tokens[0]]));
    // Both: the token comes first.
    let both = vec![Place::new(CHAR, 1, 29, 33), Place::new(TRAIT, 0, 0, 12)];
    assert_eq!(told(b"trait A = B; const C: char = 'ab';", 2024, 2), (given(0, 2, 34), both));
    assert_eq!(told(b"fn f() {}", 2022, 1), (refused(2), vec![blank]));
    assert_eq!(told(b"\xff", 2021, 1), (refused(4), vec![blank]));
}

#[test]
fn gives_what_strings_stand_for() {
    let string = |kind, text: &[u8], room: usize| {
        let mut value = vec![b'.'; room];
        let answer = unsafe { sys::rap_string_value(text.as_ptr(), text.len(), kind, value.as_mut_ptr(), room) };
        (answer.status, answer.bytes, value)
    };
    let [text, bytes, for_c] = [number("STRING"), number("BYTE_STRING"), number("C_STRING")];
    assert_eq!(string(text, br#""a\n\u{e9}"x"#, 5), (0, 4, b"a\n\xc3\xa9.".to_vec()));
    assert_eq!(string(text, br##"r#"\n"#"##, 2), (0, 2, b"\\n".to_vec()));
    assert_eq!(string(text, b"\"abc\"", 2), (0, 3, b"ab".to_vec()));
    assert_eq!(string(bytes, br#"b"\xff""#, 2), (0, 1, b"\xff.".to_vec()));
    assert_eq!(string(for_c, br#"c"\xffa""#, 2), (0, 2, b"\xffa".to_vec()));
    assert_eq!(string(bytes, b"\"a\"", 2), (NO_LITERAL, 0, b"..".to_vec()));
    assert_eq!(string(text, b"\"\\q\"", 2), (NO_LITERAL, 0, b"..".to_vec()));
    assert_eq!(string(text, b"\"a\" ", 2), (NO_LITERAL, 0, b"..".to_vec()));
    assert_eq!(string(number("CHAR"), b"'a'", 2), (NO_LITERAL, 0, b"..".to_vec()));
    assert_eq!(string(text, b"\"\xff\"", 2), (4, 0, b"..".to_vec()));
}

#[test]
fn gives_what_numbers_stand_for() {
    let given = |kind, text: &[u8]| unsafe { sys::rap_number_value(text.as_ptr(), text.len(), kind) };
    let value = |radix, low, high, suffix| NumberValue { status: 0, radix, low, high, real: 0.0, suffix };
    let none = |status| NumberValue { status, ..NumberValue::default() };
    let [int, float] = [number("INT_NUMBER"), number("FLOAT_NUMBER")];
    assert_eq!(given(int, b"1_000"), value(10, 1000, 0, 5));
    assert_eq!(given(int, b"0xff_u8"), value(16, 255, 0, 5));
    assert_eq!(given(int, b"0x1_0000_0000_0000_0002"), value(16, 2, 1, 23));
    assert_eq!(given(int, b"0b12u8"), NumberValue { status: NO_NUMBER, ..value(2, 0, 0, 4) });
    assert_eq!(given(int, b"0b"), none(NO_LITERAL));
    assert_eq!(given(int, b"1.5"), none(NO_LITERAL));
    assert_eq!(given(float, b"1_5.2_5e-1f32"), NumberValue { real: 1.525, ..value(10, 0, 0, 10) });
    assert_eq!(given(float, b"2."), NumberValue { real: 2.0, ..value(10, 0, 0, 2) });
    assert_eq!(given(float, b"1e"), none(NO_LITERAL));
    assert_eq!(given(number("CHAR"), "'é'x".as_bytes()), value(0, 0xe9, 0, 4));
    assert_eq!(given(number("BYTE"), br"b'\xff'"), value(0, 255, 0, 7));
    assert_eq!(given(number("BYTE"), b"'a'"), none(NO_LITERAL));
    assert_eq!(given(number("STRING"), b"\"a\""), none(NO_LITERAL));
    assert_eq!(given(int, b"\xff"), none(4));
}

#[test]
fn lists_tokens_and_the_messages_of_the_lexer() {
    let want =
        vec![token("IDENT", 0, 2), token("WHITESPACE", 2, 3), token("INT_NUMBER", 3, 5), message(3, 0, 44), BLANK];
    let text = "Missing digits after the integer base prefix.";
    assert_eq!(tokens("é 0b".as_bytes(), 2021, (5, 45)), (answer(0, 4, 44, 5), want, text.to_string()));
}

#[test]
fn names_kinds() {
    assert_eq!(kind_name(0, 9), (3, b"EOF......".to_vec()));
    assert_eq!(kind_name(329, 9), (9, b"PATH_META".to_vec()));
    assert_eq!(kind_name(3, 2), (7, b"L_".to_vec()));
    assert_eq!(kind_name(NO_KIND, 2), (0, b"..".to_vec()));
}

#[test]
fn finds_kinds_by_their_names() {
    let kind_of = |name: &[u8]| unsafe { sys::rap_kind_of_name(name.as_ptr(), name.len()) };
    assert_eq!([kind_of(b"EOF"), kind_of(b"L_PAREN"), kind_of(b"PATH_META")], [0, 3, 329]);
    assert_eq!([kind_of(b""), kind_of(b"EO"), kind_of(b"eof"), kind_of(b"EOF\0")], [NO_KIND; 4]);
}

#[test]
fn says_what_statuses_mean() {
    let text_of = |status, room| {
        let mut text = vec![b'.'; room];
        let length = unsafe { sys::rap_status_text(status, text.as_mut_ptr(), room) };
        (length, text)
    };
    assert_eq!(text_of(0, 4), (2, b"ok..".to_vec()));
    assert_eq!(text_of(sys::NO_MEMORY, 3), (13, b"out".to_vec()));
    assert_eq!(text_of(NO_SCRIPT, 16), (16, b"no script source".to_vec()));
    assert_eq!(text_of(NO_NUMBER, 36).1, b"no number of the radix, or too large".to_vec());
    assert_eq!(text_of(NO_NUMBER + 1, 1), (0, b".".to_vec()));
}

#[test]
fn is_declared_as_the_library_is() {
    assert_eq!(unsafe { sys::rap_version() }, VERSION);
}

#[test]
fn reads_a_tree_from_the_front() {
    let want = vec![
        enter("PATH", 0),
        token("WHITESPACE", 0, 1),
        enter("PATH_SEGMENT", 1),
        enter("NAME_REF", 1),
        token("IDENT", 1, 2),
        exit(2),
        exit(2),
        token("WHITESPACE", 2, 3),
        exit(3),
    ];
    assert_eq!(prefix(b" a , b", 7, (9, 0)), (answer(0, 9, 0, 2), want, String::new()));
}

#[test]
fn hands_out_what_is_no_tree_as_it_is() {
    let want = (answer(1, 1, 16, 0), vec![message(0, 0, 16), BLANK], "expected a block.".to_string());
    assert_eq!(prefix(b" ;", 1, (2, 17)), want);
    let want = (answer(1, 1, 0, 2), vec![token("SEMICOLON", 0, 1), BLANK], String::new());
    assert_eq!(prefix(b" ; ", 2, (2, 0)), want);
    assert_eq!(prefix(b"a", 0, (0, 0)).0, answer(1, 0, 0, 0));
}

#[test]
fn parses_a_node_again() {
    let list = (number("USE_TREE_LIST"), NO_KIND, NO_KIND);
    let want = vec![
        enter("USE_TREE_LIST", 0),
        token("L_CURLY", 0, 1),
        token("WHITESPACE", 1, 2),
        token("R_CURLY", 2, 3),
        exit(3),
        BLANK,
        BLANK,
    ];
    assert_eq!(reparse(b"{ }", list, (7, 0)), (answer(0, 5, 0, 3), want, String::new()));
    let block = (number("BLOCK_EXPR"), NO_KIND, NO_KIND);
    assert_eq!(reparse(b"a", block, (0, 0)).0, answer(1, 1, 16, 0));
}

#[test]
fn tells_faults_apart() {
    let none = (0, 0);
    let is = |status| answer(status, 0, 0, 0);
    let wrong = b"a\xff";
    assert_eq!(tree(b"a", 2020, 9, none).0, is(2));
    assert_eq!(tree(wrong, 2024, 7, none).0, is(3));
    assert_eq!(tree(wrong, 2024, 6, none).0, is(4));
    assert_eq!(tree_words(b"a", 2020, 9, none).0, is(2));
    assert_eq!(tree_words(wrong, 2024, 7, none).0, is(3));
    assert_eq!(tree_words(wrong, 2024, 6, none).0, is(4));
    let of_list = |text: &[u8], edition, entry| nodes(text, edition, entry, (0, 0, 0)).0;
    assert_eq!(of_list(b"a", 2020, 9), nodes_answer(2, 0, 0, 0, 0));
    assert_eq!(of_list(wrong, 2024, 7), nodes_answer(3, 0, 0, 0, 0));
    assert_eq!(of_list(wrong, 2024, 6), nodes_answer(4, 0, 0, 0, 0));
    assert_eq!(tokens(b"a", 0, none).0, is(2));
    assert_eq!(tokens(wrong, 2015, none).0, is(4));
    assert_eq!(prefix(b"a", 10, none).0, is(3));
    assert_eq!(prefix(wrong, 9, none).0, is(4));
    let list = number("ASSOC_ITEM_LIST");
    assert_eq!(reparse(b"a", (list, 0, NO_KIND), none).0, is(8));
    assert_eq!(reparse(b"a", (list, 0, number("IMPL")), none).0, is(9));
}
