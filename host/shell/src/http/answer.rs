//! Answers: JSON, text, and the causes for which a request is refused.

use hyper::header::{
    HeaderValue, ALLOW, CACHE_CONTROL, CONTENT_TYPE, RETRY_AFTER, X_CONTENT_TYPE_OPTIONS,
};
use hyper::{Body, Response, StatusCode};
use serde_json::{json, Value};

/// An answer of HTTP.
pub type Answer = Response<Body>;

/// Seconds after which a client that hears `busy` may try again.
const BUSY_FOR: HeaderValue = HeaderValue::from_static("1");

/// An answer with a body of some type.
pub fn answer(status: StatusCode, kind: &'static str, body: impl Into<Body>) -> Answer {
    let mut made = Response::new(body.into());
    *made.status_mut() = status;
    let headers = made.headers_mut();
    headers.insert(CONTENT_TYPE, HeaderValue::from_static(kind));
    headers.insert(CACHE_CONTROL, HeaderValue::from_static("no-store"));
    headers.insert(X_CONTENT_TYPE_OPTIONS, HeaderValue::from_static("nosniff"));
    made
}

/// An answer with a JSON object.
pub fn json_of(status: StatusCode, value: &Value) -> Answer {
    text_of_json(status, value.to_string())
}

/// An answer with the text of a JSON object.
pub fn text_of_json(status: StatusCode, mut text: String) -> Answer {
    text.push('\n');
    answer(status, "application/json", text)
}

/// Why a request is refused.
#[derive(Clone, Debug, PartialEq, Eq)]
pub enum Refusal {
    /// The request makes no sense.
    Bad(String),
    /// The client may not submit this.
    Foreign(String),
    /// A page of a browser sent it.
    Browser,
    /// There is no such path.
    NotFound,
    /// The path takes this method alone.
    Method(&'static str),
    /// The request did not come in time.
    Slow,
    /// The body is too large.
    TooLarge,
    /// The session takes no more transactions.
    Closed,
    /// The session has ended.
    Over,
    /// Too many transactions wait.
    Busy,
    /// Too many streams are open.
    TooManyStreams,
    /// The engine does not answer.
    NoEngine,
    /// The store can't be read.
    NoStore,
    /// Not all transactions became durable in time.
    NotDurable,
}

impl Refusal {
    fn parts(&self) -> (StatusCode, &'static str, &str) {
        match self {
            Refusal::Bad(cause) => (StatusCode::BAD_REQUEST, "bad", cause),
            Refusal::Foreign(cause) => (StatusCode::FORBIDDEN, "forbidden", cause),
            Refusal::Browser => {
                (StatusCode::FORBIDDEN, "forbidden", "no page of a browser may submit")
            }
            Refusal::NotFound => (StatusCode::NOT_FOUND, "not found", "there is no such path"),
            Refusal::Method(_) => {
                (StatusCode::METHOD_NOT_ALLOWED, "method", "the path takes another method")
            }
            Refusal::Slow => {
                (StatusCode::REQUEST_TIMEOUT, "slow", "the body did not come within 10 seconds")
            }
            Refusal::TooLarge => {
                (StatusCode::PAYLOAD_TOO_LARGE, "too large", "a body has at most 65536 bytes")
            }
            Refusal::Closed => {
                (StatusCode::CONFLICT, "closed", "the session takes no more transactions")
            }
            Refusal::Over => (StatusCode::GONE, "over", "the session has ended"),
            Refusal::Busy => {
                (StatusCode::SERVICE_UNAVAILABLE, "busy", "too many transactions wait")
            }
            Refusal::TooManyStreams => {
                (StatusCode::SERVICE_UNAVAILABLE, "busy", "too many streams are open")
            }
            Refusal::NoEngine => {
                (StatusCode::SERVICE_UNAVAILABLE, "stuck", "the engine does not answer")
            }
            Refusal::NoStore => {
                (StatusCode::INTERNAL_SERVER_ERROR, "store", "the store can't be read")
            }
            Refusal::NotDurable => (
                StatusCode::GATEWAY_TIMEOUT,
                "slow",
                "not all transactions are durable yet; they are not withdrawn",
            ),
        }
    }
}

impl From<Refusal> for Answer {
    fn from(refusal: Refusal) -> Answer {
        let (status, error, cause) = refusal.parts();
        let mut made = json_of(status, &json!({ "error": error, "cause": cause }));
        if let Refusal::Method(allowed) = refusal {
            made.headers_mut().insert(ALLOW, HeaderValue::from_static(allowed));
        }
        if status == StatusCode::SERVICE_UNAVAILABLE {
            made.headers_mut().insert(RETRY_AFTER, BUSY_FOR);
        }
        made
    }
}
