//! A server of documents in plain Rust, as one writes it in an afternoon: a `BTreeMap` under an `RwLock`, and a thread for each connection.
//!
//! `plain` listens on a free port, prints `listening 127.0.0.1:PORT`, and answers `GET /db/ID` and `PUT /db/ID` as CouchDB does. It keeps no
//! history, no older version and no tree of revisions, checks no JSON, and ends a connection at whatever else it is sent.
use std::collections::BTreeMap;
use std::hash::{DefaultHasher, Hash, Hasher};
use std::io::{Read, Write};
use std::net::{TcpListener, TcpStream};
use std::sync::{Arc, RwLock};
use std::thread;

/// The last revision of a document, and its body.
struct Document {
    generation: u32,
    digest: u64,
    body: String,
}

impl Document {
    fn rev(&self) -> String {
        format!("{}-{:032x}", self.generation, self.digest)
    }
}

type Documents = Arc<RwLock<BTreeMap<String, Document>>>;

/// A request: its method, the id in its target, the revision that it names, and its body.
struct Request<'a> {
    method: &'a str,
    id: &'a str,
    rev: Option<&'a str>,
    body: &'a str,
}

/// The first request of some bytes and its length, or nothing where it isn't whole.
fn first(bytes: &[u8]) -> Option<Result<(Request<'_>, usize), ()>> {
    let end = bytes.windows(4).position(|it| it == b"\r\n\r\n")? + 4;
    let Ok(head) = std::str::from_utf8(&bytes[..end]) else {
        return Some(Err(()));
    };
    let length = head
        .lines()
        .filter_map(|line| line.split_once(": "))
        .find(|(name, _)| name.eq_ignore_ascii_case("content-length"))
        .map_or(Some(0), |(_, value)| value.parse().ok());
    let Some(length) = length else {
        return Some(Err(()));
    };
    let text = bytes.get(end..end + length)?;
    let mut words = head.split_whitespace();
    let (Some(method), Some(target), Ok(body)) = (words.next(), words.next(), std::str::from_utf8(text)) else {
        return Some(Err(()));
    };
    let Some(name) = target.strip_prefix("/db/") else {
        return Some(Err(()));
    };
    let (id, query) = name.split_once('?').unwrap_or((name, ""));
    let rev = query.split('&').find_map(|it| it.strip_prefix("rev="));
    Some(Ok((Request { method, id, rev, body }, end + length)))
}

/// The status and the body of the response.
fn answer(documents: &Documents, request: &Request<'_>) -> (&'static str, String) {
    match request.method {
        "GET" => get(documents, request.id),
        _ => put(documents, request),
    }
}

fn get(documents: &Documents, id: &str) -> (&'static str, String) {
    let shared = documents.read().expect("no panic");
    let Some(found) = shared.get(id) else {
        return ("404 Not Found", String::from("{\"error\":\"not_found\",\"reason\":\"missing\"}"));
    };
    let more = if found.body.len() > 2 { "," } else { "" };
    ("200 OK", format!("{{\"_id\":\"{}\",\"_rev\":\"{}\"{}{}", id, found.rev(), more, &found.body[1..]))
}

fn put(documents: &Documents, request: &Request<'_>) -> (&'static str, String) {
    let mut shared = documents.write().expect("no panic");
    let last = shared.get(request.id);
    if last.map(Document::rev).as_deref() != request.rev {
        return ("409 Conflict", String::from("{\"error\":\"conflict\",\"reason\":\"Document update conflict.\"}"));
    }
    let mut hasher = DefaultHasher::new();
    (last.map(|it| it.digest), request.body).hash(&mut hasher);
    let generation = last.map_or(1, |it| it.generation + 1);
    let made = Document { generation, digest: hasher.finish(), body: String::from(request.body) };
    let text = format!("{{\"ok\":true,\"id\":\"{}\",\"rev\":\"{}\"}}", request.id, made.rev());
    shared.insert(String::from(request.id), made);
    ("201 Created", text)
}

/// Answers the requests of a connection, those that came together by one write.
fn serve(mut client: TcpStream, documents: &Documents) -> std::io::Result<()> {
    client.set_nodelay(true)?;
    let (mut held, mut room, mut written) = (Vec::new(), vec![0; 1 << 16], Vec::new());
    loop {
        let count = client.read(&mut room)?;
        if count == 0 {
            return Ok(());
        }
        held.extend_from_slice(&room[..count]);
        let mut taken = 0;
        while let Some(found) = first(&held[taken..]) {
            let Ok((request, length)) = found else {
                return Ok(());
            };
            let (status, body) = answer(documents, &request);
            write!(written, "HTTP/1.1 {status}\r\nContent-Type: application/json\r\nContent-Length: {}\r\n\r\n{body}", body.len())?;
            taken += length;
        }
        held.drain(..taken);
        client.write_all(&written)?;
        written.clear();
    }
}

fn main() -> std::io::Result<()> {
    let listener = TcpListener::bind("127.0.0.1:0")?;
    println!("listening {}", listener.local_addr()?);
    let documents = Documents::default();
    for client in listener.incoming() {
        let (client, documents) = (client?, Arc::clone(&documents));
        thread::spawn(move || serve(client, &documents));
    }
    Ok(())
}
