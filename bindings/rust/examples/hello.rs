//! A server with one thread for each connection, which sends back bodies: `hello PORT`.
//!
//! A request without a body gets a text. A body is sent back in parts, and credit is returned only
//! for what was sent back.

use belkjoef::{Config, Event, Field, Server};
use std::collections::BTreeMap;
use std::env;
use std::io::{self, Read};
use std::net::{TcpListener, TcpStream};
use std::thread;
use std::time::Duration;

/// A response under way.
#[derive(Default)]
struct Answer {
    /// The octets of the request's body that were received and not yet sent.
    kept: Vec<u8>,
    /// Whether the request is complete.
    whole: bool,
}

type Answers = BTreeMap<u32, Answer>;

fn main() -> io::Result<()> {
    let port = env::args().nth(1).and_then(|word| word.parse().ok()).unwrap_or(8080);
    let listener = TcpListener::bind(("127.0.0.1", port))?;
    for stream in listener.incoming() {
        let stream = stream?;
        thread::spawn(move || {
            if let Err(error) = serve(stream) {
                eprintln!("{error}");
            }
        });
    }
    Ok(())
}

fn serve(mut stream: TcpStream) -> io::Result<()> {
    stream.set_nodelay(true)?;
    stream.set_read_timeout(Some(Duration::from_secs(60)))?;
    stream.set_write_timeout(Some(Duration::from_secs(60)))?;
    let mut server = Server::new(&Config::default())?;
    let mut answers = Answers::new();
    let mut piece = [0; 16_384];
    loop {
        send(&mut server, &mut answers, &mut stream)?;
        let count = stream.read(&mut piece)?;
        if count == 0 {
            return Ok(());
        }
        if let Err(error) = take(&mut server, &mut answers, &mut stream, &piece[..count]) {
            server.write_out(&mut stream)?; // a GOAWAY waits
            return Err(error);
        }
    }
}

/// Takes what was read.
fn take(
    server: &mut Server,
    answers: &mut Answers,
    stream: &mut TcpStream,
    mut rest: &[u8],
) -> io::Result<()> {
    let hello = [Field::new(":status", "200"), Field::new("content-length", "6")];
    loop {
        if server.is_full() {
            send(server, answers, stream)?;
        }
        let taken = server.take(rest)?;
        rest = &rest[taken.used..];
        match taken.event {
            Some(Event::Head { stream, fields, end: true }) => {
                let asks_head = fields.value(":method") == Some(b"HEAD");
                server.respond(stream, &hello, if asks_head { b"" } else { b"hello\n" })?;
            }
            Some(Event::Head { stream, .. }) => {
                server.begin(stream, &hello[..1])?;
                answers.insert(stream, Answer::default());
            }
            Some(Event::Body { stream, octets, end }) => {
                if let Some(answer) = answers.get_mut(&stream) {
                    answer.kept.extend_from_slice(octets);
                    answer.whole = end;
                }
            }
            Some(Event::Trailers { stream, .. }) => {
                answers.entry(stream).and_modify(|answer| answer.whole = true);
            }
            Some(Event::Reset { stream, .. }) => {
                answers.remove(&stream);
            }
            Some(_) => {}
            None if rest.is_empty() => return Ok(()),
            None => {}
        }
    }
}

/// Sends what waits of responses, as far as windows allow, and writes it.
fn send(server: &mut Server, answers: &mut Answers, stream: &mut TcpStream) -> io::Result<()> {
    let mut over = Vec::new();
    for (&id, answer) in answers.iter_mut() {
        if server.is_full() {
            server.write_out(stream)?;
        }
        let sent = match answer.kept.is_empty() && !answer.whole {
            true => 0,
            false => server.send_body(id, &answer.kept, answer.whole)?,
        };
        answer.kept.drain(..sent);
        if answer.whole && answer.kept.is_empty() {
            over.push(id);
            continue;
        }
        let kept = u32::try_from(answer.kept.len()).unwrap_or(u32::MAX);
        let owed = server.owed(id).saturating_sub(kept);
        if server.is_full() {
            server.write_out(stream)?;
        }
        if owed > 0 {
            server.release(id, owed)?;
        }
    }
    for id in over {
        answers.remove(&id);
    }
    server.write_out(stream)
}
