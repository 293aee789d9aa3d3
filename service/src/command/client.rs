//! Asks the running service at its admin addresses.

use super::ask::{Address, Shown};
use super::{values::SOCKET, with_end};
use crate::admin::{Status, OPERATOR};
use crate::log::all_shown;
use crate::work::whole_body;
use anyhow::{anyhow, bail, Context, Result};
use hyper::client::conn;
use hyper::header::{HeaderValue, AUTHORIZATION, CONTENT_TYPE, HOST, LOCATION};
use hyper::{Body, Method, Request, Response, StatusCode};
use serde::de::DeserializeOwned;
use std::future::Future;
use std::io;
use std::pin::pin;
use std::time::Duration;
use tokio::io::{AsyncRead, AsyncWrite};
use tokio::net::{TcpStream, UnixStream};
use tokio::time::timeout;

/// How long to wait for an answer: a flush may have many series, or the sink may be slow.
const ANSWER: Duration = Duration::from_secs(120);
/// When to say that there is no answer yet.
const SOON: Duration = Duration::from_secs(3);
const CONNECT: Duration = Duration::from_secs(5);

/// The message for a path that does not exist. An admin address of this version has all paths that are asked for here,
/// so whoever answers this is something else.
const NO_PATH: &str = "no such path";

/// The error for an answer that this program can't read.
pub const OTHER_VERSION: &str = "the running service is of another version: ask it by its own totxegun";

/// The longest answer that is read, in bytes.
const MOST: usize = 256 << 20;

/// The service did not do what was asked; `said` is its answer.
#[derive(Debug, thiserror::Error)]
#[error("the service at {place} answered {status}: {said}")]
pub struct Refused {
    place: String,
    pub status: u16,
    pub said: String,
}

#[derive(Debug)]
struct Reply {
    status: u16,
    is_json: bool,
    /// The instance to ask instead, HOST:PORT.
    location: Option<String>,
    body: Vec<u8>,
}

/// Sends a request. Returns the body if the status is 200, else the message as an error. An answer that is not JSON is
/// not this service's. If an instance says where to ask, that one is asked.
pub fn ask(at: &Address, method: Method, path: &str) -> Result<Vec<u8>> {
    ask_with(at, method, path, &[])
}

/// The same with a body.
pub fn ask_with(at: &Address, method: Method, path: &str, body: &[u8]) -> Result<Vec<u8>> {
    let (mut place, token, mut asked) = (at.place(), at.token()?, Vec::new());
    loop {
        let reply = reply(&place, token.as_deref(), &method, path, body, ANSWER)?;
        asked.push(place);
        // No address is asked twice: it has done its part, so what it has to do again came since, and that may go on
        // for ever.
        let Some(next) = reply.location.clone().filter(|next| !asked.contains(next)) else {
            return read_reply(reply, &asked[asked.len() - 1], token.is_some());
        };
        crate::complain(format_args!("{}", message(&reply.body)));
        place = next;
    }
}

fn read_reply(reply: Reply, place: &str, has_token: bool) -> Result<Vec<u8>> {
    match reply.status {
        _ if !reply.is_json => bail!(another(place)),
        200 => Ok(reply.body),
        401 if !has_token => bail!(
            "the service at {place} takes this with an operator's token: give the file that has it by --token FILE"
        ),
        status => match message(&reply.body) {
            said if said == NO_PATH => bail!(another(place)),
            said if reply.location.is_some() => {
                let said = format!("{said}; it was asked already: give the command again if there is more to do");
                bail!(Refused { place: place.into(), status, said })
            }
            said => bail!(Refused { place: place.into(), status, said }),
        },
    }
}

/// The same, parsed.
pub fn read<T: DeserializeOwned>(at: &Address, method: Method, path: &str) -> Result<T> {
    serde_json::from_slice(&ask(at, method, path)?).context(OTHER_VERSION)
}

/// What is at a path: the JSON as it came for programs, or a text for people.
pub fn shown<T: DeserializeOwned>(
    shown: &Shown,
    path: &str,
    text: impl FnOnce(T) -> String,
) -> Result<Vec<u8>> {
    match shown.form.json {
        true => ask(&shown.at, Method::GET, path).map(with_end),
        false => Ok(text(read(&shown.at, Method::GET, path)?).into()),
    }
}

/// The status of the service.
pub fn status(at: &Address) -> Result<Status> {
    read(at, Method::GET, "/status")
}

fn reply(
    place: &str,
    token: Option<&str>,
    method: &Method,
    path: &str,
    body: &[u8],
    patience: Duration,
) -> Result<Reply> {
    let mut request = Request::builder().method(method).uri(path);
    if let Some(token) = token {
        request = request.header(AUTHORIZATION, format!("Bearer {token}"));
    }
    if let Some(person) = behind_sudo() {
        request = request.header(OPERATOR, person);
    }
    let request = request.body(Body::from(body.to_vec())).context("no request can be made")?;
    let asking = async {
        let answered = within(patience, place, asked(place, request)).await;
        answered.unwrap_or_else(|| Err(late(place, method, patience)))
    };
    let runtime = tokio::runtime::Builder::new_current_thread().enable_all().build();
    runtime.context("no connection can be made")?.block_on(asking)
}

/// The user who runs this command by `sudo`.
fn behind_sudo() -> Option<HeaderValue> {
    HeaderValue::from_str(&std::env::var("SUDO_USER").ok()?).ok()
}

/// Waits for the answer. After a while the user is told once: an order waits until the book has recovered.
async fn within<T>(patience: Duration, place: &str, asking: impl Future<Output = T>) -> Option<T> {
    let (mut asking, soon) = (pin!(asking), patience.min(SOON));
    if let Ok(answered) = timeout(soon, &mut asking).await {
        return Some(answered);
    }
    if soon < patience {
        crate::complain(format_args!("{place} has not answered yet: its log says what it waits for"));
    }
    timeout(patience - soon, asking).await.ok()
}

async fn asked(place: &str, request: Request<Body>) -> Result<Reply> {
    match place.strip_prefix(SOCKET) {
        Some(path) => {
            let stream = UnixStream::connect(path).await;
            let stream = stream.map_err(|error| unreachable(place, error))?;
            answered(place, stream, "localhost".to_string(), request).await
        }
        None => {
            let stream = timeout(CONNECT, TcpStream::connect(place)).await;
            let stream = stream.unwrap_or_else(|_| Err(io::ErrorKind::TimedOut.into()));
            let stream = stream.map_err(|error| unreachable(place, error))?;
            // By the address: the service refuses names that it does not know, since web pages can have such a name
            // point to it.
            let host = stream.peer_addr()?.to_string();
            answered(place, stream, host, request).await
        }
    }
}

/// Why there is no connection, and what to do.
fn unreachable(place: &str, error: io::Error) -> anyhow::Error {
    let what = match error.kind() {
        io::ErrorKind::PermissionDenied => {
            format!("{place} is closed to this user: run this as root (sudo), or as a user of the socket's group")
        }
        io::ErrorKind::NotFound => {
            format!("there is no {place}: start the service, give its folder by --data, or its admin address by --admin")
        }
        _ => format!(
            "no service answers at {place}: start it, give its folder by --data, or its admin address by --admin"
        ),
    };
    anyhow::Error::new(error).context(what)
}

async fn answered<S>(place: &str, stream: S, host: String, mut request: Request<Body>) -> Result<Reply>
where
    S: AsyncRead + AsyncWrite + Unpin + Send + 'static,
{
    request.headers_mut().insert(HOST, host.parse()?);
    let (mut sender, connection) = conn::handshake(stream).await?;
    tokio::spawn(connection); // its error is also the error of the request
    match sender.send_request(request).await {
        Ok(response) => body(place, response).await,
        Err(error) if error.is_parse() => bail!(another(place)),
        Err(error) if error.is_incomplete_message() || error.is_canceled() || error.is_closed() => {
            bail!("{place} ended the connection without an answer: the log of the service says why")
        }
        Err(error) => Err(part(place, error)),
    }
}

async fn body(place: &str, response: Response<Body>) -> Result<Reply> {
    let (head, body) = response.into_parts();
    let text = |name| head.headers.get(name).and_then(|value| value.to_str().ok());
    let is_json = text(CONTENT_TYPE).is_some_and(|kind| kind.starts_with("application/json"));
    let there = text(LOCATION).and_then(|at| at.strip_prefix("http://")?.split('/').next());
    let location = there.filter(|_| is_json && head.status == StatusCode::TEMPORARY_REDIRECT);
    let location = location.map(String::from);
    let body = whole_body(body, MOST).await.map_err(|error| part(place, error))?;
    let body = body.ok_or_else(|| anyhow!(another(place)))?;
    Ok(Reply { status: head.status.as_u16(), is_json, location, body })
}

fn part(place: &str, error: hyper::Error) -> anyhow::Error {
    anyhow!("the service at {place} did not answer whole: {error}")
}

/// The error if something else listens there, such as the service's address for senders.
pub fn another(place: &str) -> String {
    format!("what listens at {place} is no admin address of totxegun: give that by --admin")
}

/// The error if the answer is late. The service goes on with an order even if nobody waits for it.
fn late(place: &str, method: &Method, patience: Duration) -> anyhow::Error {
    let seconds = patience.as_secs();
    match *method {
        Method::POST => anyhow!(
            "the service at {place} did not answer in {seconds} seconds. It goes on with the order: \
             `totxegun status` shows how it is"
        ),
        _ => anyhow!("the service at {place} did not answer in {seconds} seconds: ask again"),
    }
}

fn message(body: &[u8]) -> String {
    let read: serde_json::Value = serde_json::from_slice(body).unwrap_or_default();
    let text = match read["message"].as_str() {
        Some(message) => message.into(),
        None => String::from_utf8_lossy(body),
    };
    all_shown(&text)
}

#[cfg(test)]
mod tests {
    use super::*;
    use std::io::{Read, Write};
    use std::net::TcpListener;
    use std::time::Instant;

    fn get(place: &str, patience: Duration) -> Result<Reply> {
        reply(place, None, &Method::GET, "/status", &[], patience)
    }

    /// The address of a server that answers one request in this way.
    fn answers(answer: impl FnOnce(&mut std::net::TcpStream) + Send + 'static) -> String {
        let listener = TcpListener::bind("127.0.0.1:0").unwrap();
        let place = listener.local_addr().unwrap().to_string();
        std::thread::spawn(move || {
            let (mut stream, _) = listener.accept().unwrap();
            let mut request = Vec::new();
            while !request.ends_with(b"\r\n\r\n") {
                let mut one = [0];
                stream.read_exact(&mut one).unwrap();
                request.extend(one);
            }
            answer(&mut stream);
        });
        place
    }

    fn writes(bytes: &'static [u8]) -> String {
        answers(move |stream| stream.write_all(bytes).unwrap())
    }

    #[test]
    fn an_answer_is_read_whole_or_not() {
        let busy = b"HTTP/1.1 503 Service Unavailable\r\nContent-Length: 2\r\n\r\n{}";
        let reply = get(&writes(busy), ANSWER).unwrap();
        assert_eq!((reply.status, reply.is_json, &reply.body[..]), (503, false, &b"{}"[..]));
        let done = b"HTTP/1.1 200 OK\r\ncontent-type: application/json\r\ncontent-length: 0\r\n\r\n";
        assert!(get(&writes(done), ANSWER).unwrap().is_json);
        for (bytes, why) in [
            (&b""[..], "without an answer"),
            (b"HTTP/1.1 200 OK\r\ncontent-length: 2\r\n\r\n{", "did not answer whole"),
            (b"SSH-2.0-OpenSSH\r\n", "no admin address"),
        ] {
            let said = format!("{:#}", get(&writes(bytes), ANSWER).unwrap_err());
            assert!(said.contains(why), "{said}");
        }
    }

    #[test]
    fn who_takes_too_long_is_said_to_go_on() {
        let listener = TcpListener::bind("127.0.0.1:0").unwrap();
        let place = listener.local_addr().unwrap().to_string();
        let said = |method| {
            let tried = reply(&place, None, &method, "/flush", &[], Duration::from_secs(1));
            format!("{:#}", tried.unwrap_err())
        };
        let order = said(Method::POST);
        assert!(order.contains("did not answer in 1 seconds. It goes on with the order"), "{order}");
        let question = said(Method::GET);
        assert!(question.contains("in 1 seconds: ask again"), "{question}");
    }

    #[test]
    fn who_waits_gets_the_whole_answer() {
        let place = answers(|stream| {
            let head = b"HTTP/1.1 200 OK\r\ncontent-length: 2\r\n\r\na";
            stream.write_all(head).unwrap();
            std::thread::sleep(SOON + Duration::from_millis(500));
            stream.write_all(b"b").unwrap();
        });
        assert_eq!(get(&place, ANSWER).unwrap().body, b"ab");
    }

    #[test]
    fn who_answers_bit_by_bit_holds_nobody_up() {
        let place = answers(|stream| {
            while stream.write_all(b"x").is_ok() {
                std::thread::sleep(Duration::from_millis(100));
            }
        });
        let begun = Instant::now();
        let said = format!("{:#}", get(&place, Duration::from_secs(1)).unwrap_err());
        assert!(begun.elapsed() < Duration::from_secs(4), "it was waited for: {said}");
    }

    fn at(place: &str) -> Address {
        #[derive(clap::Parser)]
        struct Line {
            #[command(flatten)]
            at: Address,
        }
        <Line as clap::Parser>::parse_from(["totxegun", "--admin", place]).at
    }

    #[test]
    fn who_says_where_to_ask_is_left_for_that_one() {
        let last =
            writes(b"HTTP/1.1 200 OK\r\ncontent-type: application/json\r\ncontent-length: 2\r\n\r\n{}");
        let body = r#"{"message":"shard 1 is at instance b"}"#;
        let head = "HTTP/1.1 307 Temporary Redirect\r\ncontent-type: application/json\r\n";
        let answer =
            move |location: &str| format!("{head}{location}content-length: {}\r\n\r\n{body}", body.len());
        let sends = |location: &str| {
            let answer = answer(location);
            answers(move |stream| stream.write_all(answer.as_bytes()).unwrap())
        };
        let first = sends(&format!("location: http://{last}/dead-letters/1-a-7/drop\r\n"));
        assert_eq!(ask(&at(&first), Method::POST, "/dead-letters/1-a-7/drop").unwrap(), b"{}");
        let nowhere = sends("");
        let said = format!("{:#}", ask(&at(&nowhere), Method::POST, "/dead-letters/1-a-7/drop").unwrap_err());
        assert!(said.contains("answered 307: shard 1 is at instance b"), "{said}");
        // As if a series of each of two instances were posted again as soon as it is forgotten: that would never end.
        let itself = answers(move |stream| {
            let there = format!("location: http://{}/forget\r\n", stream.local_addr().unwrap());
            stream.write_all(answer(&there).as_bytes()).unwrap();
        });
        let said = format!("{:#}", ask(&at(&itself), Method::POST, "/forget?all").unwrap_err());
        assert!(said.contains("shard 1 is at instance b; it was asked already"), "{said}");
    }

    /// Whatever its status. Otherwise an order would be said to be done.
    #[test]
    fn another_server_is_told_of_as_such() {
        for bytes in [
            &b"HTTP/1.1 200 OK\r\nContent-Type: text/html\r\nContent-Length: 6\r\n\r\n<html>"[..],
            b"HTTP/1.1 404 Not Found\r\nContent-Type: text/html\r\nContent-Length: 6\r\n\r\n<html>",
        ] {
            let place = writes(bytes);
            let said = format!("{:#}", ask(&at(&place), Method::POST, "/quarantine/A").unwrap_err());
            assert_eq!(said, another(&place));
        }
    }

    #[test]
    fn who_does_not_answer_is_named_with_what_to_do() {
        for (place, why) in [
            ("127.0.0.1:1", "no service answers at 127.0.0.1:1: start it"),
            ("unix:/nowhere/admin.sock", "there is no unix:/nowhere/admin.sock: start the service"),
        ] {
            let said = format!("{:#}", ask(&at(place), Method::GET, "/status").unwrap_err());
            assert!(said.contains(why) && said.contains("--data") && said.contains("--admin"), "{said}");
        }
        let closed = unreachable("unix:/d/admin.sock", io::ErrorKind::PermissionDenied.into());
        assert!(format!("{closed:#}").contains("run this as root"), "{closed:#}");
    }
}
