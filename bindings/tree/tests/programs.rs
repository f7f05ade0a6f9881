//! The programs in `examples`, started as from a shell.
use std::path::PathBuf;
use std::process::Command;

const TEXT: &str = r"mod shapes {
    /// A shape with a centre.
    pub struct Circle {
        radius: f64,
    }

    impl Circle {
        pub fn area(&self) -> f64 {
            fn square(x: f64) -> f64 { x * x }
            square(self.radius) * std::f64::consts::PI
        }
    }
}

type Shapes = Vec<shapes::Circle>;
";

const LINES: &str = r"   1 mod shapes
   3   struct Circle
   8   fn area
   9     fn square
  15 type Shapes
";

const PROGRAMS: [(&str, &str); 4] = [
    ("functions", "usage: functions FILE .."),
    ("listing", "usage: listing FILE .."),
    ("outline", "usage: outline FILE"),
    ("tree", "usage: tree EDITION ENTRY FILE"),
];

/// What a program prints, on standard output and on standard error, and its status.
fn ran(name: &str, words: &[&str]) -> (String, String, Option<i32>) {
    let mut folder = std::env::current_exe().expect("the test has a path");
    folder.pop();
    folder.pop();
    let program = folder.join("examples").join(name);
    let output = Command::new(program).args(words).output().expect("it starts");
    let text = |bytes: Vec<u8>| String::from_utf8(bytes).expect("it is UTF-8");
    (text(output.stdout), text(output.stderr), output.status.code())
}

/// A file with this text.
fn file(name: &str, text: &str) -> String {
    let file = PathBuf::from(env!("CARGO_TARGET_TMPDIR")).join(name);
    std::fs::write(&file, text).expect("it is written");
    file.to_str().expect("it is UTF-8").to_owned()
}

/// The text as it stands in the package's page.
fn indented(text: &str) -> String {
    text.lines().map(|line| if line.is_empty() { "\n".to_owned() } else { format!("    {line}\n") }).collect()
}

#[test]
fn prints_an_outline() {
    let file = file("shapes.rs", TEXT);
    assert_eq!(ran("outline", &[&file]), (LINES.to_owned(), String::new(), Some(0)));
    let page = include_str!("../README.md");
    assert!(page.contains(&indented(TEXT)) && page.contains(&indented(LINES)));
}

#[test]
fn finds_functions() {
    let file = file("functions.rs", "fn r#f() {}\ntrait T {\n    /// é\n    fn\n    g(x: fn()) {}\n}\nfn (){}\n");
    let lines = format!("{file}:1 r#f\n{file}:5 g\n");
    assert_eq!(ran("functions", &[&file]), (lines.clone(), String::new(), Some(0)));
    let fault = "/none/a.rs: No such file or directory (os error 2)\n";
    assert_eq!(ran("functions", &["/none/a.rs", &file]), (lines, fault.to_owned(), Some(2)));
}

#[test]
fn lists_functions_by_views() {
    let text = "impl S {\n    fn f(&self, x: u8, (a, b): (T, U)) -> V {\n    }\n}\nfn g() {}\nfn (x: u8) {}\n";
    let lines = "f(&self, x: u8, (a, b): (T, U)) -> V: 2\ng() -> (): 1\n";
    assert_eq!(ran("listing", &[&file("listing.rs", text)]), (lines.to_owned(), String::new(), Some(0)));
}

#[test]
fn prints_a_tree_with_its_messages() {
    let lines = "\
BIN_EXPR
  PATH_EXPR
    PATH
      PATH_SEGMENT
        NAME_REF
          IDENT \"é\"
  WHITESPACE \"\\n\"
  PLUS \"+\"
  ERROR
error 4: expected expression
";
    let file = file("tree.rs", "é\n+");
    assert_eq!(ran("tree", &["2024", "Expr", &file]), (lines.to_owned(), String::new(), Some(1)));
    assert_eq!(ran("tree", &["2024", "SourceFile", "/dev/null"]), ("SOURCE_FILE\n".to_owned(), String::new(), Some(0)));
}

#[test]
fn say_what_is_wrong() {
    for (name, usage) in PROGRAMS {
        assert_eq!(ran(name, &[]), (String::new(), format!("{usage}\n"), Some(2)));
    }
    for words in [["2024", "Block", "a.rs"], ["2025", "Expr", "a.rs"]] {
        assert_eq!(ran("tree", &words), (String::new(), "usage: tree EDITION ENTRY FILE\n".to_owned(), Some(2)));
    }
    let fault = "/none/a.rs: No such file or directory (os error 2)\n";
    for words in [&["/none/a.rs"][..], &["2024", "Expr", "/none/a.rs"]] {
        let name = if words.len() == 1 { "outline" } else { "tree" };
        assert_eq!(ran(name, words), (String::new(), fault.to_owned(), Some(2)));
    }
}
