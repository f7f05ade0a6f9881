//! As much of HTTP as one page takes: a request is read whole, is answered, and the connection ends.
use std::io::{self, Read, Write};
use std::net::{Shutdown, TcpStream};
use std::time::Duration;

/// How many bytes the lines before a body have at most.
const MOST_HEAD: usize = 16 << 10;

/// How long a request may be waited for, at each read.
const PATIENCE: Duration = Duration::from_secs(10);

/// What the page may load: its own parts, and nothing that another page may frame or read.
const POLICY: &str = "Content-Security-Policy: default-src 'none'; script-src 'self'; style-src 'self'; \
    connect-src 'self'; base-uri 'none'; form-action 'none'; frame-ancestors 'none'\r\n\
    X-Content-Type-Options: nosniff\r\nCross-Origin-Resource-Policy: same-origin\r\n\
    Referrer-Policy: no-referrer\r\nCache-Control: no-store\r\n";

/// A request.
#[derive(Debug, Default, PartialEq, Eq)]
pub struct Request {
    pub method: String,
    pub path: String,
    /// What stands after the question mark of the target.
    pub query: String,
    pub host: Option<String>,
    pub origin: Option<String>,
    pub body: Vec<u8>,
}

/// An answer.
pub struct Response {
    status: u16,
    kind: &'static str,
    body: Vec<u8>,
}

impl Response {
    pub fn new(kind: &'static str, body: &[u8]) -> Response {
        Response { status: 200, kind, body: body.to_vec() }
    }

    /// A refusal, with its reason as plain text.
    pub fn refusal(status: u16, why: &str) -> Response {
        Response { status, kind: "text/plain; charset=utf-8", body: format!("{why}\n").into_bytes() }
    }

    /// Writes the answer and ends the connection.
    pub fn write(&self, stream: &mut TcpStream) -> io::Result<()> {
        let (status, kind, length) = (self.status, self.kind, self.body.len());
        let reason = if status == 200 { "OK" } else { "Refused" };
        let head = format!(
            "HTTP/1.1 {status} {reason}\r\nContent-Type: {kind}\r\nContent-Length: {length}\r\n{POLICY}\
             Connection: close\r\n\r\n"
        );
        stream.write_all(&[head.as_bytes(), &self.body].concat())?;
        stream.shutdown(Shutdown::Write)?;
        // What a refused request still sends is read, or the other side may lose the answer.
        io::copy(&mut stream.take(4 << 20), &mut io::sink())?;
        Ok(())
    }
}

/// Reads the lines before the body, and what came of the body with them. `None` where they have no end.
fn read_head(stream: &mut TcpStream) -> io::Result<Option<(String, Vec<u8>)>> {
    let mut read = Vec::new();
    let mut piece = [0; 4096];
    loop {
        let count = stream.read(&mut piece)?;
        let from = read.len().saturating_sub(3);
        read.extend_from_slice(&piece[..count]);
        if let Some(end) = read[from..].windows(4).position(|four| four == b"\r\n\r\n") {
            let body = read.split_off(from + end + 4);
            return Ok(String::from_utf8(read).ok().map(|head| (head, body)));
        }
        if count == 0 || read.len() > MOST_HEAD {
            return Ok(None);
        }
    }
}

/// A request without its body, and how many bytes that has. The error is a status with its reason.
fn request_of(head: &str) -> Result<(Request, usize), (u16, &'static str)> {
    let mut lines = head.lines();
    let words: Vec<&str> = lines.next().unwrap_or_default().split(' ').collect();
    let [method, target, "HTTP/1.1"] = words[..] else {
        return Err((400, "no request of HTTP/1.1"));
    };
    let (path, query) = target.split_once('?').unwrap_or((target, ""));
    let mut request = Request { method: method.into(), path: path.into(), query: query.into(), ..Request::default() };
    let mut length = 0;
    for (name, value) in lines.filter_map(|line| line.split_once(':')) {
        let value = value.trim();
        match name.to_ascii_lowercase().as_str() {
            "host" if request.host.is_some() => return Err((400, "two hosts")),
            "host" => request.host = Some(value.into()),
            "origin" if request.origin.is_some() => return Err((400, "two origins")),
            "origin" => request.origin = Some(value.into()),
            "content-length" => length = value.parse().map_err(|_| (400, "no length"))?,
            "transfer-encoding" => return Err((411, "a body in pieces")),
            _ => {}
        }
    }
    Ok((request, length))
}

/// Reads a request whose body has at most so many bytes, or says how it is refused.
pub fn read(stream: &mut TcpStream, most: usize) -> io::Result<Result<Request, Response>> {
    stream.set_read_timeout(Some(PATIENCE))?;
    stream.set_write_timeout(Some(PATIENCE))?;
    stream.set_nodelay(true)?;
    let Some((head, body)) = read_head(stream)? else {
        return Ok(Err(Response::refusal(400, "no request")));
    };
    let (mut request, length) = match request_of(&head) {
        Ok(read) => read,
        Err((status, why)) => return Ok(Err(Response::refusal(status, why))),
    };
    if length > most {
        return Ok(Err(Response::refusal(413, "the text is too long")));
    }
    request.body = body;
    request.body.truncate(length);
    let rest = (length - request.body.len()) as u64;
    stream.take(rest).read_to_end(&mut request.body)?;
    if request.body.len() < length {
        return Ok(Err(Response::refusal(400, "the text has no end")));
    }
    Ok(Ok(request))
}
