//! What is refused, and how that is answered.

use plain::serve::Answer;

#[derive(Clone, Copy)]
pub enum Refusal {
    NoSuchPath,
    WrongMethod { allow: &'static str },
    BadSender,
    BadContent,
    NotJson,
    WrongShape,
    Quarantined,
    OtherWriter { point: usize },
    OutOfOrder { point: usize, frontier: u64 },
    Full,
    TooManySeries,
    TooLarge,
    AlreadyQuarantined,
    NotQuarantined,
}

impl From<Refusal> for Answer {
    fn from(refusal: Refusal) -> Answer {
        match refusal {
            Refusal::NoSuchPath => Answer::refusal("404 Not Found", "no such path"),
            Refusal::WrongMethod { allow } => Answer {
                allow,
                ..Answer::refusal("405 Method Not Allowed", "wrong method")
            },
            Refusal::BadSender => bad("bad sender"),
            Refusal::BadContent => {
                Answer::refusal("415 Unsupported Media Type", "only uncompressed application/json")
            }
            Refusal::NotJson => bad("not JSON"),
            Refusal::WrongShape => bad("wrong shape"),
            Refusal::Quarantined => Answer::refusal("403 Forbidden", "quarantined"),
            Refusal::OtherWriter { point } => bad(&format!("other writer: point {point}")),
            Refusal::OutOfOrder { point, frontier } => {
                bad(&format!("out of order: point {point}, frontier {frontier}"))
            }
            Refusal::Full => unavailable("full"),
            Refusal::TooManySeries => unavailable("too many series"),
            Refusal::TooLarge => unavailable("too large"),
            Refusal::AlreadyQuarantined => bad("already quarantined"),
            Refusal::NotQuarantined => bad("not quarantined"),
        }
    }
}

fn bad(message: &str) -> Answer {
    Answer::refusal("400 Bad Request", message)
}

fn unavailable(message: &str) -> Answer {
    Answer::refusal("503 Service Unavailable", message)
}
