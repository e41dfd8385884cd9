//! Answers for who asks by HTTP: pages for GET and HEAD, and a refusal for all else.

use std::io::{self, ErrorKind, Read, Write};

/// The longest head of a question that is read.
const MOST: usize = 8192;

/// So much of what follows the head is read, so that who asks gets its answer before the connection ends.
const MOST_BODY: usize = 64 << 10;

/// What was asked.
#[derive(Debug, PartialEq, Eq)]
struct Question {
    method: String,
    path: String,
}

impl Question {
    /// Reads up to the blank line behind the head, of which these bytes have come already.
    fn read(first: &[u8], stream: &mut impl Read) -> io::Result<Question> {
        let (mut head, mut room) = (first.to_vec(), [0; 1024]);
        while !head.windows(4).any(|end| end == b"\r\n\r\n") && !head.windows(2).any(|end| end == b"\n\n") {
            if MOST < head.len() {
                return Err(ErrorKind::InvalidData.into());
            }
            match stream.read(&mut room)? {
                0 => break,
                count => head.extend_from_slice(&room[..count]),
            }
        }
        let head = String::from_utf8_lossy(&head);
        let mut words = head.lines().next().unwrap_or_default().split(' ');
        let [method, path] = [(); 2].map(|()| words.next().unwrap_or_default().to_string());
        let path = path.split('?').next().unwrap_or_default().to_string();
        Ok(Question { method, path })
    }
}

/// A page with its kind.
pub struct Page {
    /// Its `Content-Type`.
    pub kind: &'static str,
    /// Its text.
    pub text: String,
}

/// Answers a question, of which these bytes have come already, by the page of its path, where pages are shown to who
/// asks.
///
/// # Errors
///
/// What the connection says; also where the head is too long, which is answered first.
pub fn answer(
    first: &[u8],
    stream: &mut (impl Read + Write),
    is_shown: bool,
    page: impl FnOnce(&str) -> Option<Page>,
) -> io::Result<()> {
    let question = match Question::read(first, stream) {
        Ok(question) => question,
        Err(error) if error.kind() == ErrorKind::InvalidData => {
            return say(stream, "431 Request Header Fields Too Large", "", "the head is too long\n", true);
        }
        Err(error) => return Err(error),
    };
    let is_get = question.method == "GET";
    if !is_get && question.method != "HEAD" {
        return say(stream, "405 Method Not Allowed", "Allow: GET, HEAD\r\n", "only GET and HEAD are answered\n", true);
    }
    if !is_shown {
        let why = "pages are shown on the process's own machine, and elsewhere with --open-pages\n";
        return say(stream, "403 Forbidden", "", why, is_get);
    }
    match page(&question.path) {
        Some(Page { kind, text }) => say(stream, "200 OK", &format!("Content-Type: {kind}\r\n"), &text, is_get),
        None => say(stream, "404 Not Found", "", "the pages are / and /metrics\n", is_get),
    }
}

fn say(stream: &mut (impl Read + Write), status: &str, more: &str, text: &str, is_whole: bool) -> io::Result<()> {
    let more =
        if more.contains("Content-Type") { more.to_string() } else { format!("{more}Content-Type: text/plain\r\n") };
    let length = text.len();
    let head = format!("HTTP/1.1 {status}\r\n{more}Content-Length: {length}\r\nConnection: close\r\n\r\n");
    stream.write_all(head.as_bytes())?;
    if is_whole {
        stream.write_all(text.as_bytes())?;
    }
    Ok(())
}

/// Reads what else has come, so that the kernel does not throw the answer away with it.
pub fn read_rest(stream: &mut impl Read) {
    let mut room = [0; 4096];
    let mut count = 0;
    while count < MOST_BODY {
        match stream.read(&mut room) {
            Ok(0) | Err(_) => return,
            Ok(more) => count += more,
        }
    }
}

#[cfg(test)]
mod tests {
    use super::*;

    struct Talk<'a>(&'a [u8], Vec<u8>);

    impl Read for Talk<'_> {
        fn read(&mut self, to: &mut [u8]) -> io::Result<usize> {
            self.0.read(to)
        }
    }

    impl Write for Talk<'_> {
        fn write(&mut self, bytes: &[u8]) -> io::Result<usize> {
            self.1.write(bytes)
        }
        fn flush(&mut self) -> io::Result<()> {
            Ok(())
        }
    }

    fn said(question: &str) -> String {
        said_to(question, true)
    }

    fn said_to(question: &str, is_shown: bool) -> String {
        let (first, rest) = question.as_bytes().split_at(1);
        let mut talk = Talk(rest, Vec::new());
        let page = |path: &str| (path == "/").then(|| Page { kind: "text/x", text: "hello\n".to_string() });
        answer(first, &mut talk, is_shown, page).expect("it answers");
        read_rest(&mut talk);
        String::from_utf8(talk.1).expect("it is text")
    }

    #[test]
    fn each_method_and_path_has_its_answer() {
        let head = "HTTP/1.1 200 OK\r\nContent-Type: text/x\r\nContent-Length: 6\r\nConnection: close\r\n\r\n";
        assert_eq!(said("GET / HTTP/1.1\r\nHost: x\r\n\r\n"), format!("{head}hello\n"));
        assert_eq!(said("GET /?x=1 HTTP/1.0\n\n"), format!("{head}hello\n"));
        assert_eq!(said("HEAD / HTTP/1.1\r\n\r\n"), head);
        assert!(said("GET /x HTTP/1.1\r\n\r\n").starts_with("HTTP/1.1 404 Not Found\r\n"));
        for method in ["POST", "PUT", "DELETE", "OPTIONS", "PATCH"] {
            let said = said(&format!("{method} / HTTP/1.1\r\nContent-Length: 3\r\n\r\nabc"));
            assert!(said.starts_with("HTTP/1.1 405 Method Not Allowed\r\nAllow: GET, HEAD\r\n"), "{said}");
        }
        let long = format!("GET /{} HTTP/1.1\r\n\r\n", "a".repeat(20_000));
        assert!(said(&long).starts_with("HTTP/1.1 431 "));
        assert!(said_to("GET / HTTP/1.1\r\n\r\n", false).starts_with("HTTP/1.1 403 Forbidden\r\n"));
    }
}
