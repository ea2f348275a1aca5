//! Which call a request is, and its answer.

use hyper::header::{HeaderMap, HeaderValue, CONTENT_SECURITY_POLICY};
use hyper::{Body, Method, Request, StatusCode};

use super::answer::{answer as answer_of, text_of_json, Answer, Refusal};
use super::site::Site;
use super::{follow, live, transactions, Visit};
use crate::input;

const PAGE: &str = include_str!("page.html");
/// The page loads nothing, and talks to this port alone.
const PAGE_MAY: HeaderValue = HeaderValue::from_static(
    "default-src 'none'; script-src 'unsafe-inline'; style-src 'unsafe-inline'; \
     connect-src 'self'; img-src data:; base-uri 'none'; form-action 'none'; frame-ancestors 'none'",
);
const TEXT: &str = "text/plain; charset=utf-8";
/// The text format of Prometheus.
const METRICS: &str = "text/plain; version=0.0.4; charset=utf-8";

/// The answer to a request.
pub async fn answer(visit: &Visit, request: Request<Body>) -> Answer {
    match answer_or_refusal(visit, request).await {
        Ok(answer) => answer,
        Err(refusal) => refusal.into(),
    }
}

async fn answer_or_refusal(visit: &Visit, request: Request<Body>) -> Result<Answer, Refusal> {
    let site = &visit.site;
    let path = request.uri().path().to_owned();
    if path == "/v1/transactions" {
        must_be(&request, &[Method::POST], "POST")?;
        return transactions::submit(visit, request).await;
    }
    let query = Query::of(&request);
    let call = Call::of(&path).ok_or(Refusal::NotFound)?;
    must_be(&request, &[Method::GET, Method::HEAD], "GET, HEAD")?;
    match call {
        Call::Page => Ok(page()),
        Call::Health => health(site).await,
        Call::Metrics => {
            let pages = site.ask(input::Request::Pages).await?;
            Ok(answer_of(StatusCode::OK, METRICS, pages.metrics))
        }
        Call::Status => {
            let status = site.ask(input::Request::Status).await?;
            Ok(text_of_json(StatusCode::OK, status))
        }
        Call::Find(text) => transactions::find(site, text).await,
        Call::Batches => {
            let (from, most) = (query.number("from", 0)?, query.number("limit", 100)?);
            follow::page(site, from, most).await
        }
        Call::Follow => {
            let from = next_of(request.headers())?;
            let from = from.map_or_else(|| query.number("from", 0), Ok)?;
            may_stream(visit, &request)?;
            Ok(follow::stream(visit, from))
        }
        Call::Live => {
            may_stream(visit, &request)?;
            Ok(live::stream(visit))
        }
    }
}

/// The calls that change nothing.
enum Call<'a> {
    Page,
    Health,
    Metrics,
    Status,
    Find(&'a str),
    Batches,
    Follow,
    Live,
}

impl Call<'_> {
    fn of(path: &str) -> Option<Call<'_>> {
        Some(match path {
            "/" => Call::Page,
            "/health" => Call::Health,
            "/metrics" => Call::Metrics,
            "/v1/status" => Call::Status,
            "/v1/batches" => Call::Batches,
            "/v1/batches/events" => Call::Follow,
            "/events" => Call::Live,
            _ => Call::Find(path.strip_prefix("/v1/transactions/")?),
        })
    }
}

fn must_be(
    request: &Request<Body>,
    methods: &[Method],
    allowed: &'static str,
) -> Result<(), Refusal> {
    if methods.contains(request.method()) {
        Ok(())
    } else {
        Err(Refusal::Method(allowed))
    }
}

/// A connection that streams is counted with those that follow batches.
fn may_stream(visit: &Visit, request: &Request<Body>) -> Result<(), Refusal> {
    must_be(request, &[Method::GET], "GET")?;
    visit.seat.follow().then_some(()).ok_or(Refusal::TooManyStreams)
}

fn page() -> Answer {
    let mut made = answer_of(StatusCode::OK, "text/html; charset=utf-8", PAGE);
    made.headers_mut().insert(CONTENT_SECURITY_POLICY, PAGE_MAY);
    made
}

async fn health(site: &Site) -> Result<Answer, Refusal> {
    let pages = site.ask(input::Request::Pages).await?;
    Ok(match pages.fault {
        None => answer_of(StatusCode::OK, TEXT, "ok\n"),
        Some(fault) => answer_of(StatusCode::SERVICE_UNAVAILABLE, TEXT, format!("{fault}\n")),
    })
}

/// The position after the last event that a browser had, when it connects again.
fn next_of(headers: &HeaderMap) -> Result<Option<usize>, Refusal> {
    let Some(last) = headers.get("last-event-id") else { return Ok(None) };
    let last = number_of("Last-Event-ID", last.to_str().unwrap_or("?"))?;
    Ok(Some(last.saturating_add(1)))
}

fn number_of(name: &str, text: &str) -> Result<usize, Refusal> {
    let is_plain = !text.is_empty() && text.bytes().all(|it| it.is_ascii_digit());
    let number = is_plain.then(|| text.parse().ok()).flatten();
    number.ok_or_else(|| Refusal::Bad(format!("{name} is no number: {text:.40}")))
}

/// What follows the question mark of a request.
struct Query(String);

impl Query {
    fn of(request: &Request<Body>) -> Query {
        Query(request.uri().query().unwrap_or("").to_owned())
    }

    /// The number of this name, or another one where there is none.
    fn number(&self, name: &str, or: usize) -> Result<usize, Refusal> {
        let mut fields = self.0.split('&').filter_map(|it| it.split_once('='));
        let given = fields.find(|(it, _)| *it == name);
        given.map_or(Ok(or), |(_, text)| number_of(name, text))
    }
}
