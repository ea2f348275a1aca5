//! Reads frames from a connection.

use std::{fmt, io};

use bytes::Bytes;
use themis_engine::frame::{Frame, MAX_FRAME};
use themis_engine::sessions::frames::SessionFrame;
use tokio::io::{AsyncRead, AsyncReadExt};

/// Why no frame came.
#[derive(Debug)]
pub enum NoFrame {
    /// The connection ended.
    Gone(io::Error),
    /// The peer does not conform to the form.
    Bad(String),
}

impl From<io::Error> for NoFrame {
    fn from(error: io::Error) -> NoFrame {
        NoFrame::Gone(error)
    }
}

impl fmt::Display for NoFrame {
    fn fmt(&self, to: &mut fmt::Formatter<'_>) -> fmt::Result {
        match self {
            NoFrame::Gone(error) => write!(to, "{error}"),
            NoFrame::Bad(text) => to.write_str(text),
        }
    }
}

/// The next frame.
pub async fn read_frame(from: &mut (impl AsyncRead + Unpin)) -> Result<Frame, NoFrame> {
    let (kind, payload) = read_bytes(from).await?;
    Frame::decode(kind, payload).map_err(|it| NoFrame::Bad(it.to_string()))
}

/// A frame of a peer.
pub enum PeerFrame {
    /// Without a session.
    Plain(Frame),
    /// Where sessions follow one another.
    OfSession(SessionFrame),
}

/// The next frame, with or without its session.
pub async fn read_peer_frame(from: &mut (impl AsyncRead + Unpin)) -> Result<PeerFrame, NoFrame> {
    let (kind, payload) = read_bytes(from).await?;
    let read = if SessionFrame::has_kind(kind) {
        SessionFrame::decode(kind, &payload).map(PeerFrame::OfSession)
    } else {
        Frame::decode(kind, payload).map(PeerFrame::Plain)
    };
    read.map_err(|it| NoFrame::Bad(it.to_string()))
}

/// The kind and the payload of the next frame.
async fn read_bytes(from: &mut (impl AsyncRead + Unpin)) -> Result<(u8, Bytes), NoFrame> {
    let size = from.read_u32().await? as usize;
    if !(1..=MAX_FRAME).contains(&size) {
        return Err(NoFrame::Bad(format!("a frame of {size} bytes")));
    }
    let kind = from.read_u8().await?;
    let mut payload = vec![0; size - 1];
    from.read_exact(&mut payload).await?;
    Ok((kind, Bytes::from(payload)))
}

#[cfg(test)]
mod tests {
    use super::*;

    async fn read(data: &[u8]) -> Result<Frame, NoFrame> {
        read_frame(&mut &data[..]).await
    }

    #[tokio::test(flavor = "current_thread")]
    async fn frames_and_what_is_none() {
        let two = [Frame::Blocks(7).encode(), Frame::Blocks(8).encode()].concat();
        let mut rest = &two[..];
        assert_eq!(read_frame(&mut rest).await.unwrap(), Frame::Blocks(7));
        assert_eq!(read_frame(&mut rest).await.unwrap(), Frame::Blocks(8));
        assert!(matches!(read(&two[..6]).await, Err(NoFrame::Gone(_))));
        for bad in [[0, 0, 0, 0], [0, 8, 0, 1], [255; 4]] {
            assert!(matches!(read(&bad).await, Err(NoFrame::Bad(_))));
        }
        assert!(matches!(read(&[0, 0, 0, 1, 9]).await, Err(NoFrame::Bad(_))));
    }
}
