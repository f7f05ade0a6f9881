//! The programs in `examples`, started as from a shell.
use std::fs::File;
use std::os::fd::OwnedFd;
use std::os::unix::net::UnixStream;
use std::path::PathBuf;
use std::process::{Command, Output, Stdio};

const PROGRAMS: [(&str, &str); 3] = [
    ("colour", "usage: colour FILE"),
    ("deep", "usage: deep EDITION ENTRY FILE"),
    ("green", "usage: green EDITION ENTRY FILE"),
];

/// A program, which cargo builds beside the tests.
fn program(name: &str) -> Command {
    let mut folder = std::env::current_exe().expect("the test has a path");
    folder.pop();
    folder.pop();
    Command::new(folder.join("examples").join(name))
}

/// What a program prints, without and with text on standard error, and its status.
fn printed(output: &Output) -> (String, String, Option<i32>) {
    let text = |bytes: &[u8]| String::from_utf8(bytes.to_vec()).expect("it is UTF-8");
    (text(&output.stdout), text(&output.stderr), output.status.code())
}

fn ran(name: &str, words: &[&str]) -> (String, String, Option<i32>) {
    printed(&program(name).args(words).output().expect("it starts"))
}

/// The words by which a program reads a file.
fn words_for<'a>(program: &str, file: &'a str) -> Vec<&'a str> {
    match program {
        "colour" => vec![file],
        _ => vec!["2024", "SourceFile", file],
    }
}

/// A file of this package.
fn file(name: &str) -> String {
    let folder = PathBuf::from(env!("CARGO_MANIFEST_DIR"));
    folder.join(name).to_str().expect("it is UTF-8").to_owned()
}

#[test]
fn say_how_they_are_called() {
    for (name, usage) in PROGRAMS {
        assert_eq!(ran(name, &["--help"]), (format!("{usage}\n"), String::new(), Some(0)));
        assert_eq!(ran(name, &[]), (String::new(), format!("{usage}\n"), Some(2)));
    }
    assert_eq!(ran("green", &["2024", "Block", "a.rs"]).2, Some(2));
    assert_eq!(ran("deep", &["2025", "Expr", "a.rs"]).2, Some(2));
}

#[test]
fn name_a_file_that_is_not_there() {
    let fault = "/none/a.rs: No such file or directory (os error 2)\n";
    for (name, _) in PROGRAMS {
        assert_eq!(ran(name, &words_for(name, "/none/a.rs")), (String::new(), fault.to_owned(), Some(2)), "{name}");
    }
}

#[test]
fn end_in_silence_where_nobody_reads() {
    for (name, _) in PROGRAMS {
        let source = file("src/syntax_kind/generated.rs");
        let (reader, writer) = UnixStream::pair().expect("there is a pair");
        drop(reader);
        let mut started = program(name);
        started.args(words_for(name, &source)).stdout(OwnedFd::from(writer)).stderr(Stdio::piped());
        let output = started.output().expect("it starts");
        assert_eq!(printed(&output), (String::new(), String::new(), Some(0)), "{name}");
    }
    let full = File::options().write(true).open("/dev/full").expect("the device is there");
    let output = program("colour").arg(file("build.rs")).stdout(full).stderr(Stdio::piped()).output();
    let (_, fault, status) = printed(&output.expect("it starts"));
    assert_eq!((fault.as_str(), status), ("No space left on device (os error 28)\n", Some(2)));
}
