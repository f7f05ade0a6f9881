//! The playground's server, asked as a browser and as others ask.
use std::io::{BufRead as _, BufReader, Read as _, Write as _};
use std::net::TcpStream;
use std::process::{Child, Command, Stdio};

/// A server that ends with the test.
struct Server {
    child: Child,
    /// The host and the port.
    host: String,
}

impl Server {
    fn start() -> Server {
        let program = env!("CARGO_BIN_EXE_playground");
        let mut child = Command::new(program).args(["--port", "0"]).stdout(Stdio::piped()).spawn().expect("it starts");
        let mut line = String::new();
        BufReader::new(child.stdout.take().expect("its output is read")).read_line(&mut line).expect("it says where");
        let host = line.trim().strip_prefix("http://").and_then(|it| it.strip_suffix('/')).expect("an address");
        Server { child, host: host.to_owned() }
    }

    /// The status and the body of an answer.
    fn ask(&self, request: &[u8]) -> (u16, Vec<u8>) {
        let mut stream = TcpStream::connect(&self.host).expect("it listens");
        stream.write_all(request).expect("it reads");
        let mut answer = Vec::new();
        stream.read_to_end(&mut answer).expect("it answers");
        let end = answer.windows(4).position(|four| four == b"\r\n\r\n").expect("the head ends");
        let status = std::str::from_utf8(&answer[9..12]).ok().and_then(|it| it.parse().ok()).expect("a status");
        (status, answer[end + 4..].to_vec())
    }

    fn get(&self, target: &str, lines: &str) -> (u16, Vec<u8>) {
        self.ask(format!("GET {target} HTTP/1.1\r\n{lines}\r\n").as_bytes())
    }

    fn post(&self, target: &str, text: &str) -> (u16, Vec<u8>) {
        let (host, length) = (&self.host, text.len());
        let head = format!("POST {target} HTTP/1.1\r\nHost: {host}\r\nContent-Length: {length}\r\n\r\n");
        self.ask(&[head.as_bytes(), text.as_bytes()].concat())
    }
}

impl Drop for Server {
    fn drop(&mut self) {
        let _ = self.child.kill();
        let _ = self.child.wait();
    }
}

/// The numbers of a response after the first one, and its messages.
fn read(answer: &[u8]) -> (Vec<u32>, String) {
    let number = |at: usize| u32::from_le_bytes(answer[4 * at..4 * at + 4].try_into().expect("four bytes"));
    let count = number(0) as usize;
    let messages = String::from_utf8(answer[4 * count + 4..].to_vec()).expect("it is UTF-8");
    ((1..=count).map(number).collect(), messages)
}

#[test]
fn serves_the_page_and_nothing_else() {
    let server = Server::start();
    let host = format!("Host: {}\r\n", server.host);
    let (status, page) = server.get("/", &host);
    let page = String::from_utf8(page).expect("it is UTF-8");
    assert_eq!(status, 200);
    // The page contains the initial text as data.
    assert!(page.contains(r#""text":"fn main() {\u000a"#) && !page.contains(">DATA<"));
    for (target, want) in [("/page.css", 200), ("/page.js", 200), ("/x", 404), ("/../Cargo.toml", 404), ("/parse", 404)]
    {
        assert_eq!(server.get(target, &host).0, want, "{target}");
    }
    assert_eq!(server.ask(format!("PUT / HTTP/1.1\r\n{host}\r\n").as_bytes()).0, 405);
    assert_eq!(server.ask(b"GET /\r\n\r\n").0, 400);
}

#[test]
fn refuses_another_host_or_origin() {
    let server = Server::start();
    let own = &server.host;
    let port = own.rsplit(':').next().expect("a port");
    for (lines, want) in [
        (String::new(), 403),
        (format!("Host: example.org:{port}\r\n"), 403),
        ("Host: 127.0.0.1\r\n".into(), 403),
        (format!("Host: localhost:{port}\r\n"), 200),
        (format!("Host: {own}\r\nOrigin: http://{own}\r\n"), 200),
        (format!("Host: {own}\r\nOrigin: https://{own}\r\n"), 403),
        (format!("Host: {own}\r\nOrigin: http://example.org\r\n"), 403),
        (format!("Host: {own}\r\norigin: null\r\n"), 403),
        (format!("Host: {own}\r\nHost: example.org\r\n"), 400),
    ] {
        assert_eq!(server.get("/", &lines).0, want, "{lines}");
    }
}

#[test]
fn parses_what_is_posted() {
    let server = Server::start();
    let (status, answer) = server.post("/parse?edition=2024&entry=Expr", "\u{1f980}é +");
    assert_eq!(status, 200);
    let (numbers, messages) = read(&answer);
    let kind = |name: &str| (0..330).find(|it| rap_tree::SyntaxKind::from(*it).name() == name).unwrap() as u32;
    let (enter, token) = (|name| 4 * kind(name) + 1, |name| 4 * kind(name) + 2);
    // The crab is an identifier with a message, of two units, together with the letter after it.
    assert_eq!(numbers[..2], [enter("BIN_EXPR"), enter("PATH_EXPR")]);
    assert_eq!(numbers[5..7], [token("IDENT"), 3]);
    assert_eq!(numbers[11..15], [token("WHITESPACE"), 1, token("PLUS"), 1]);
    assert_eq!(messages, r#"[5,"expected expression",0,"Ident contains invalid characters"]"#);
}

#[test]
fn refuses_what_it_cannot_parse() {
    let server = Server::start();
    assert_eq!(server.post("/parse?edition=2020&entry=Expr", "").0, 400);
    assert_eq!(server.post("/parse?edition=2021&entry=Ty", "").0, 400);
    assert_eq!(server.post("/parse", "").0, 400);
    assert_eq!(server.post("/parse?edition=2021&entry=Type", &" ".repeat(2 << 20)).0, 200);
    assert_eq!(server.post("/parse?edition=2021&entry=Type", &" ".repeat((2 << 20) + 1)).0, 413);
    let head = format!("POST /parse?edition=2021&entry=Type HTTP/1.1\r\nHost: {}\r\n", server.host);
    assert_eq!(server.ask(format!("{head}Content-Length: 1\r\n\r\n\u{e9}").as_bytes()).0, 400);
    assert_eq!(server.ask(format!("{head}Transfer-Encoding: chunked\r\n\r\n").as_bytes()).0, 411);
    assert_eq!(server.ask(format!("{head}Content-Length: -1\r\n\r\n").as_bytes()).0, 400);
}

#[test]
fn shows_no_tree_that_is_too_deep() {
    let server = Server::start();
    let post = |entry: &str, text: &str| server.post(&format!("/parse?edition=2024&entry={entry}"), text);
    let too_deep = "the tree is too deep to be shown: it has more than 10000 levels\n";
    for (entry, text) in [
        ("Expr", "(".repeat(10_001)),
        ("SourceFile", format!("fn f(){{{}", "(".repeat(20_000))),
        ("Expr", format!("[{}{}", "(),".repeat(20_000), "(".repeat(20_000))),
        ("Expr", format!("a{}", "?".repeat(20_000))),
        ("Type", "[".repeat(1 << 20)),
        ("Expr", "(".repeat(2 << 20)),
    ] {
        let (status, answer) = post(entry, &text);
        assert_eq!(status, 422, "{entry}, {} bytes", text.len());
        assert_eq!(String::from_utf8_lossy(&answer), too_deep);
    }
    // It goes on, and of as many levels or of more nodes beside one another the tree is shown. Of a tuple there are its
    // begin, each bracket with that one's length, and its end, and of a comma as much as of a bracket.
    for (entry, text, want) in [
        ("Expr", "(".repeat(10_000), 4 * 10_000),
        ("Expr", format!("[{}]", "(),".repeat(20_000)), 8 * 20_000 + 6),
        ("SourceFile", "(".repeat(20_000), 4 * 20_000 + 2),
    ] {
        let (status, answer) = post(entry, &text);
        assert_eq!(status, 200, "{entry}, {} bytes", text.len());
        assert_eq!(read(&answer).0.len(), want);
    }
}

#[test]
fn says_how_it_is_called() {
    let ran = |words: &[&str]| {
        let output = Command::new(env!("CARGO_BIN_EXE_playground")).args(words).output().expect("it starts");
        let text = |bytes| String::from_utf8(bytes).expect("it is UTF-8");
        (text(output.stdout), text(output.stderr), output.status.code())
    };
    let usage = "usage: playground [--port N] [FILE]";
    assert_eq!(ran(&["--help"]), (format!("{usage}\n"), String::new(), Some(0)));
    for words in [&["a.rs", "b.rs"][..], &["--port", "x"], &["--port"]] {
        assert_eq!(ran(words).2, Some(2), "{words:?}");
    }
    let fault = "playground: /none/a.rs: No such file or directory (os error 2)\n";
    assert_eq!(ran(&["/none/a.rs"]), (String::new(), fault.to_owned(), Some(2)));
}
