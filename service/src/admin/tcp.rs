//! The admin address of TCP. Any program of the machine reaches it, and so may a web page in a browser; therefore
//! everybody may read, only a token gives orders, and what holds posts up is refused. At the socket no token is needed,
//! since the kernel says who connects.

use super::{is_met, message, Actor, AdminApi, Route, TcpAccess};
use crate::identity::{by_token, Tokens};
use crate::ingest::connections::Handler;
use crate::reloaded::Reloaded;
use hyper::header::{HeaderValue, AUTHORIZATION, WWW_AUTHENTICATE};
use hyper::{Body, Request, Response};
use std::sync::Arc;

pub struct TcpAdmin {
    pub admin: Arc<AdminApi>,
    /// The path of the socket, where orders need no token.
    pub orders_at: String,
    pub tokens: Option<Arc<Reloaded<Tokens>>>,
}

impl Handler for TcpAdmin {
    async fn answer(self: Arc<Self>, request: Request<Body>) -> Response<Body> {
        let route = Route::of(request.uri().path());
        let mut actor = Actor::User(None);
        match &route {
            Some((method, route))
                if route.over_tcp() != TcpAccess::All && is_met(method, request.method()) =>
            {
                match self.operator(route, &request) {
                    Ok(name) => actor = Actor::Named(name),
                    Err(refused) => return *refused,
                }
            }
            _ => {}
        }
        self.admin.answer_to(actor, route, request).await
    }
}

impl TcpAdmin {
    /// The operator's name, by the request's token. The error is the refusal.
    fn operator(&self, route: &Route, request: &Request<Body>) -> Result<String, Box<Response<Body>>> {
        let never = |why: &str| Err(Box::new(message(403, why)));
        if let Some(why) = self.admin.stranger(route, request) {
            return never(&why);
        }
        if route.over_tcp() == TcpAccess::Nobody {
            let place = &self.orders_at;
            return never(&format!(
                "this is asked for at {place} alone, since it holds posts up while it is made"
            ));
        }
        let Some(tokens) = &self.tokens else {
            return never(&format!(
                "this is taken at {place} alone: run totxegun on the service's machine with its --data, or give \
                 `--admin {place}`; over TCP the service takes it with --admin-tokens",
                place = self.orders_at
            ));
        };
        let values = request.headers().get_all(AUTHORIZATION).iter();
        let operator = by_token(&tokens.now(), values.map(HeaderValue::as_bytes));
        operator.map(|operator| operator.name.clone()).map_err(|stranger| {
            let mut response = message(stranger.reason().status(), &stranger.to_string());
            let challenge = HeaderValue::from_static("Bearer realm=\"totxegun\"");
            response.headers_mut().insert(WWW_AUTHENTICATE, challenge);
            Box::new(response)
        })
    }
}
