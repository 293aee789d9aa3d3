//! What a request asks for, by its head.

use httparse::Header;
use plain::http::Head;

use crate::refusal::Refusal;

const GET: &str = "Allow: GET\r\n";
const POST: &str = "Allow: POST\r\n";
const MAX_SENDER: usize = 64;
const NO_SENDER: &str = "-";

pub enum Order {
    Admit { sender: String },
    Quarantine { sender: String },
    Lift { sender: String },
    Flush,
    Report,
}

/// An order, or what is wrong with the head, which is answered once the body is there.
pub struct Asked(pub Result<Order, Refusal>);

impl Head for Asked {
    fn of(head: &httparse::Request) -> Asked {
        Asked(order(head))
    }
}

fn order(head: &httparse::Request) -> Result<Order, Refusal> {
    let target = head.path.unwrap_or_default();
    let path = target.split_once('?').map_or(target, |(path, _)| path);
    let require = |method, allow| match head.method == Some(method) {
        true => Ok(()),
        false => Err(Refusal::WrongMethod { allow }),
    };
    if path == "/report" {
        require("GET", GET)?;
        return Ok(Order::Report);
    }
    if path == "/flush" {
        require("POST", POST)?;
        return Ok(Order::Flush);
    }
    if let Some(name) = path.strip_prefix("/quarantine/") {
        require("POST", POST)?;
        let sender = sender(name.as_bytes())?;
        return Ok(Order::Quarantine { sender });
    }
    if let Some(name) = path.strip_prefix("/lift/") {
        require("POST", POST)?;
        let sender = sender(name.as_bytes())?;
        return Ok(Order::Lift { sender });
    }
    if path == "/v1/metrics" {
        require("POST", POST)?;
        let sender = sender_of(head.headers)?;
        require_content(head.headers)?;
        return Ok(Order::Admit { sender });
    }
    Err(Refusal::NoSuchPath)
}

/// The values of the fields of this name.
fn values<'a>(headers: &'a [Header], name: &'a str) -> impl Iterator<Item = &'a [u8]> {
    let named = headers
        .iter()
        .filter(move |header| header.name.eq_ignore_ascii_case(name));
    named.map(|header| header.value)
}

fn sender_of(headers: &[Header]) -> Result<String, Refusal> {
    let mut names = values(headers, "x-sender");
    match (names.next(), names.next()) {
        (None, _) => Ok(NO_SENDER.to_owned()),
        (Some(name), None) => sender(name),
        (Some(_), Some(_)) => Err(Refusal::BadSender),
    }
}

fn sender(name: &[u8]) -> Result<String, Refusal> {
    let is_letter = |byte: &u8| byte.is_ascii_alphanumeric() || b"._-".contains(byte);
    if !(1..=MAX_SENDER).contains(&name.len()) || !name.iter().all(is_letter) {
        return Err(Refusal::BadSender);
    }
    Ok(name.iter().copied().map(char::from).collect())
}

fn require_content(headers: &[Header]) -> Result<(), Refusal> {
    let kind = values(headers, "content-type")
        .next()
        .and_then(|value| value.split(|byte| *byte == b';').next());
    let is_json = kind.is_some_and(|kind| kind.trim_ascii().eq_ignore_ascii_case(b"application/json"));
    let is_plain = values(headers, "content-encoding").all(|coding| coding.eq_ignore_ascii_case(b"identity"));
    match is_json && is_plain {
        true => Ok(()),
        false => Err(Refusal::BadContent),
    }
}
