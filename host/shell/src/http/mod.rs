//! HTTP/1.1 at the client port: what clients and operators ask for, and the page that shows the
//! cluster live. `docs/SERVICE.md`, "HTTP", has each call.
//!
//! hyper reads requests and writes answers. What is here bounds them, and answers them from what the
//! engine's thread says (`input`) and from the final batches (`batches`).

mod answer;
mod body;
mod calls;
mod events;
mod follow;
mod live;
mod patient;
#[cfg(test)]
mod played;
mod site;
#[cfg(test)]
mod tests;
mod transactions;

use std::sync::Arc;

use hyper::server::conn::Http;
use hyper::service::service_fn;
use hyper::{Body, Request};
use tokio::io::{AsyncRead, AsyncWrite};

use self::events::Stream;
use self::patient::{Answering, Patient};
pub use self::site::Site;
use crate::connections::Seat;

/// Bytes of a request's line and headers that are read ahead. One that has not ended there is refused,
/// and so is one with more than 100 headers, which is hyper's bound.
const MAX_HEAD: usize = 1 << 14;

/// Whether a connection with this first byte speaks HTTP: methods are in capitals, and the commands
/// of the line protocol are not.
pub fn is_http(first: u8) -> bool {
    first.is_ascii_uppercase()
}

/// One connection.
struct Visit {
    site: Arc<Site>,
    seat: Seat,
    stream: Stream,
}

/// Answers the requests of one connection, one after another, until either side closes it.
pub async fn serve<S>(connection: S, site: Arc<Site>, seat: Seat) -> hyper::Result<()>
where
    S: AsyncRead + AsyncWrite + Unpin + Send + 'static,
{
    // What streams to this client ends with its connection.
    let visit = Arc::new(Visit { site, seat, stream: Stream::default() });
    let answering: Arc<Answering> = Arc::default();
    let answered = answering.clone();
    let service = service_fn(move |request: Request<Body>| {
        let (visit, answering) = (visit.clone(), answered.clone());
        answering.begin();
        async move {
            let answer = calls::answer(&visit, request).await;
            answering.end();
            Ok::<_, hyper::Error>(answer)
        }
    });
    Http::new()
        .http1_only(true)
        .max_buf_size(MAX_HEAD)
        .serve_connection(Patient::new(connection, answering), service)
        .await
}
