//! The body of a request, bounded in size and time.

use std::time::Duration;

use hyper::body::HttpBody;
use hyper::Body;
use tokio::time::timeout;

use super::answer::Refusal;

/// Bytes, as a line of the line protocol.
pub const MAX_BODY: usize = 1 << 16;
const BODY_WITHIN: Duration = Duration::from_secs(10);

/// All bytes of a body.
pub async fn read(body: Body) -> Result<Vec<u8>, Refusal> {
    if body.size_hint().lower() > MAX_BODY as u64 {
        return Err(Refusal::TooLarge);
    }
    timeout(BODY_WITHIN, collect(body)).await.unwrap_or(Err(Refusal::Slow))
}

async fn collect(mut body: Body) -> Result<Vec<u8>, Refusal> {
    let mut out = Vec::new();
    while let Some(data) = body.data().await {
        let data = data.map_err(|it| Refusal::Bad(format!("the body is broken: {it}")))?;
        if out.len() + data.len() > MAX_BODY {
            return Err(Refusal::TooLarge);
        }
        out.extend_from_slice(&data);
    }
    Ok(out)
}
