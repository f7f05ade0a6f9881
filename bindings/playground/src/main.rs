//! `playground [--port N] [FILE]` serves a page on 127.0.0.1: a text that one types in, beside its tree at each key.
//!
//! It serves the parts of this page, and the tree of a text that is posted to `/parse`, and nothing else. A request
//! that names another host, or comes from a page of another origin, is refused, and so is a text of more than
//! [`MOST_BYTES`], or one whose tree is too deep to be shown.
//!
//! A browser's field holds line feeds alone: a file's carriage returns before them are not in the text that is read.
mod answer;
mod http;

use answer::{Answer, Asked, answer_to};
use http::{Request, Response};
use std::ffi::OsString;
use std::io::{self, Write as _};
use std::net::{TcpListener, TcpStream};
use std::path::Path;
use std::process::ExitCode;
use std::sync::atomic::{AtomicUsize, Ordering};
use std::sync::mpsc::{self, Sender};
use std::sync::{Arc, OnceLock};
use std::thread;

/// How many bytes a text has at most.
const MOST_BYTES: usize = 2 << 20;

/// How many requests are answered at a time.
const MOST_REQUESTS: usize = 32;

/// The port where none is asked for, and no other server has it.
const PORT: u16 = 8360;

const USAGE: &str = "usage: playground [--port N] [FILE]";

const PAGE: &str = include_str!("page.html");
const LOOKS: &str = include_str!("page.css");
const SCRIPT: &str = include_str!("page.js");

/// A text that is to be parsed, and where its answer goes.
type Job = (Asked, Sender<Answer>);

/// What is served.
struct Site {
    /// The page, with the text that it begins with.
    page: String,
    /// The hosts by which the page may be asked for.
    hosts: [String; 2],
    jobs: Sender<Job>,
}

impl Site {
    /// Whether the request names this server, and comes from its page or from no page.
    fn is_own(&self, request: &Request) -> bool {
        let is_host = |host: &str| self.hosts.iter().any(|own| own == host);
        let is_origin = |origin: &str| origin.strip_prefix("http://").is_some_and(is_host);
        request.host.as_deref().is_some_and(is_host) && request.origin.as_deref().is_none_or(is_origin)
    }

    fn respond(&self, request: &Request) -> Response {
        if !self.is_own(request) {
            return Response::refusal(403, "another host or origin");
        }
        match (request.method.as_str(), request.path.as_str()) {
            ("GET", "/") => Response::new("text/html; charset=utf-8", self.page.as_bytes()),
            ("GET", "/page.css") => Response::new("text/css; charset=utf-8", LOOKS.as_bytes()),
            ("GET", "/page.js") => Response::new("text/javascript; charset=utf-8", SCRIPT.as_bytes()),
            ("POST", "/parse") => self.parse(request),
            ("GET" | "POST", _) => Response::refusal(404, "there is nothing here"),
            _ => Response::refusal(405, "only GET and POST"),
        }
    }

    /// Has the text of the request parsed.
    fn parse(&self, request: &Request) -> Response {
        let Some(asked) = Asked::of(&request.query, &request.body) else {
            return Response::refusal(400, "no edition, no entry or no UTF-8");
        };
        let (to, answers) = mpsc::channel();
        let answer = self.jobs.send((asked, to)).ok().and_then(|()| answers.recv().ok());
        match answer {
            Some(Ok(answer)) => Response::new("application/octet-stream", &answer),
            Some(Err(why)) => Response::refusal(422, &why),
            None => Response::refusal(500, "the text could not be parsed"),
        }
    }
}

/// Reads a request and answers it.
fn serve(site: &Site, mut stream: TcpStream) -> io::Result<()> {
    let response = match http::read(&mut stream, MOST_BYTES)? {
        Ok(request) => site.respond(&request),
        Err(refusal) => refusal,
    };
    response.write(&mut stream)
}

/// Starts the thread that parses one text after another.
fn start_parser() -> io::Result<Sender<Job>> {
    let (jobs, asked) = mpsc::channel::<Job>();
    thread::Builder::new().spawn(move || {
        for (asked, to) in asked {
            // A text whose parse panics has no answer; the page that asked may be gone.
            if let Ok(answer) = std::panic::catch_unwind(|| answer_to(asked)) {
                let _ = to.send(answer);
            }
        }
    })?;
    Ok(jobs)
}

/// Binds the port, or where none is asked for and the usual one is taken any that is free.
fn listen(port: Option<u16>) -> io::Result<TcpListener> {
    match port {
        Some(port) => TcpListener::bind(("127.0.0.1", port)),
        None => TcpListener::bind(("127.0.0.1", PORT)).or_else(|_| TcpListener::bind(("127.0.0.1", 0))),
    }
}

/// Serves until it is ended.
fn run(port: Option<u16>, text: &str) -> io::Result<()> {
    static SITE: OnceLock<Site> = OnceLock::new();
    let listener = listen(port)?;
    let port = listener.local_addr()?.port();
    let hosts = [format!("127.0.0.1:{port}"), format!("localhost:{port}")];
    let jobs = start_parser()?;
    let site = SITE.get_or_init(|| Site { page: PAGE.replace("DATA", &answer::data(MOST_BYTES, text)), hosts, jobs });
    // It serves too where nobody reads this.
    let _ = writeln!(io::stdout(), "http://127.0.0.1:{port}/");
    let open = Arc::new(AtomicUsize::new(0));
    for stream in listener.incoming() {
        let Ok(stream) = stream else { continue };
        if open.fetch_add(1, Ordering::SeqCst) >= MOST_REQUESTS {
            open.fetch_sub(1, Ordering::SeqCst);
            continue;
        }
        let open = open.clone();
        thread::spawn(move || {
            let _ = serve(site, stream);
            open.fetch_sub(1, Ordering::SeqCst);
        });
    }
    Ok(())
}

fn fail(why: &str) -> ExitCode {
    eprintln!("playground: {why}");
    ExitCode::from(2)
}

/// The text of a file that is not too long. The fault names the file.
fn read(file: &Path) -> Result<String, String> {
    let text = std::fs::read_to_string(file).map_err(|error| format!("{}: {error}", file.display()))?;
    if text.len() > MOST_BYTES {
        return Err(format!("{}: the file has more than 2 MB", file.display()));
    }
    Ok(text)
}

/// The port and the file that are asked for, each of them if there is one.
fn asked_for(words: &[OsString]) -> Option<(Option<u16>, Option<&Path>)> {
    let (port, files) = match words {
        [option, port, files @ ..] if option == "--port" => (Some(port.to_str()?.parse().ok()?), files),
        files => (None, files),
    };
    match files {
        [] => Some((port, None)),
        [file] => Some((port, Some(Path::new(file)))),
        _ => None,
    }
}

fn main() -> ExitCode {
    let words: Vec<OsString> = std::env::args_os().skip(1).collect();
    if words.iter().any(|word| word == "--help") {
        let _ = writeln!(io::stdout(), "{USAGE}");
        return ExitCode::SUCCESS;
    }
    let Some((port, file)) = asked_for(&words) else {
        return fail(USAGE);
    };
    let text = match file.map(read) {
        None => "fn main() {\n    println!(\"hello\");\n}\n".to_owned(),
        Some(Ok(text)) => text,
        Some(Err(why)) => return fail(&why),
    };
    match run(port, &text) {
        Ok(()) => ExitCode::SUCCESS,
        Err(error) => fail(&error.to_string()),
    }
}
