//! HTTP over an engine that a test plays. Time is tokio's, and moves on where nothing is to be done.

use std::sync::atomic::Ordering;

use themis_engine::tx::Tx;
use tokio::io::AsyncWriteExt;
use tokio::time::{sleep, Instant};

use super::played::{open, post, streamed, tx, Played, Port, MS};
use super::*;

#[test]
fn what_speaks_http() {
    assert!(is_http(b'G') && is_http(b'P'));
    assert!(!is_http(b's') && !is_http(b'\n') && !is_http(0x16));
}

#[tokio::test(flavor = "current_thread", start_paused = true)]
async fn pages_and_paths() {
    let port = Port::new(Played::default());
    assert_eq!(port.get("/health").await, (200, "ok".to_owned()));
    assert_eq!(port.get("/metrics?any").await, (200, "themis_view 7".to_owned()));
    assert_eq!(port.get("/v1/status").await, (200, "{\"view\":7}".to_owned()));
    assert_eq!(port.call("HEAD", "/health").await, (200, String::new()));
    for path in ["/v1", "/v1/transactions/", "/v1/transactions/1.2", "/metrics/", "//"] {
        assert!([400, 404].contains(&port.get(path).await.0), "{path}");
    }
    let (status, body) = port.call("DELETE", "/v1/batches").await;
    assert!(status == 405 && body.starts_with("{\"cause\":"), "{body}");
    assert_eq!(port.call("GET", "/v1/transactions").await.0, 405);
    assert_eq!(port.call("HEAD", "/events").await.0, 405);
    let port = Port::new(Played { fault: Some("the session is over"), ..Played::default() });
    assert_eq!(port.get("/health").await, (503, "the session is over".to_owned()));
}

#[tokio::test(flavor = "current_thread", start_paused = true)]
async fn the_page_loads_nothing() {
    let port = Port::new(Played::default());
    let request = "GET / HTTP/1.1\r\nHost: any\r\nConnection: close\r\n\r\n";
    let answer = port.answer(request).await;
    assert!(answer.contains("\r\ncontent-type: text/html; charset=utf-8\r\n"));
    assert!(answer.contains("\r\ncontent-security-policy: default-src 'none'; "));
    let page = answer.replace("http://www.w3.org/2000/svg", "");
    for word in ["http://", "https://", " src=", "@import", "url("] {
        assert!(!page.contains(word), "{word}");
    }
}

#[tokio::test(flavor = "current_thread", start_paused = true)]
async fn transactions_are_submitted() {
    let port = Port::new(Played::default());
    let taken = port.submit("[\"1.2.3\", \"1.3.18446744073709551615\"]").await;
    assert_eq!(taken, (200, "{\"known\":0,\"new\":2}".to_owned()));
    for body in ["", "{}", "[1]", "[\"1.2\"]", "[\"01.2.3\"]", "[\"1.2.18446744073709551616\"]"] {
        let (status, text) = port.submit(body).await;
        assert!(status == 400 && text.contains("\"error\":\"bad\""), "{body}: {text}");
    }
    assert_eq!(port.submit("[\"1.11.0\"]").await.0, 409);
    assert_eq!(port.submit("[\"1.12.0\"]").await.0, 410);
    let (status, text) = port.submit("[\"1.1.0\", \"9.1.0\"]").await;
    assert!(status == 403 && text.contains("not your transaction: 9.1.0"), "{text}");
    let busy = port.answer(&post("[\"1.10.0\"]", "")).await;
    assert!(busy.starts_with("HTTP/1.1 503 ") && busy.contains("\r\nretry-after: 1\r\n"));
    let page = port.answer(&post("[\"1.1.0\"]", "Origin: http://elsewhere\r\n")).await;
    assert!(page.starts_with("HTTP/1.1 403 "), "{page}");
    let start = Instant::now();
    assert_eq!(port.submit("[\"1.13.0\"]").await.0, 504);
    assert!(start.elapsed() >= 60_000 * MS);
}

/// Only this request is refused.
#[tokio::test(flavor = "current_thread")]
async fn a_transaction_of_a_store_that_cant_be_read() {
    let folder = std::env::temp_dir().join(format!("themisd-find-{}", std::process::id()));
    std::fs::create_dir_all(&folder).unwrap();
    let port = Port::over(Played::default(), crate::batches::tests::damaged(&folder));
    let (status, body) = port.get("/v1/transactions/1.0.0").await;
    assert!(status == 500 && body.contains("the store can't be read"), "{status} {body}");
    let (status, body) = port.get("/v1/transactions/1.3.0").await;
    assert!(status == 200 && body.contains("\"position\":5"), "{status} {body}");
    std::fs::remove_dir_all(folder).unwrap();
}

#[tokio::test(flavor = "current_thread", start_paused = true)]
async fn a_client_that_goes_is_forgotten() {
    let port = Port::new(Played::default());
    let mut client = port.connect();
    client.write_all(post("[\"1.13.0\"]", "").as_bytes()).await.unwrap();
    sleep(100 * MS).await;
    assert_eq!(port.played.gone.load(Ordering::Relaxed), 0);
    drop(client);
    sleep(100 * MS).await;
    assert_eq!(port.played.gone.load(Ordering::Relaxed), 1);
}

#[tokio::test(flavor = "current_thread", start_paused = true)]
async fn bodies_are_bounded() {
    let port = Port::new(Played::default());
    let head = "POST /v1/transactions HTTP/1.1\r\nHost: any\r\n";
    let large = port.answer(&format!("{head}Content-Length: 65537\r\n\r\n")).await;
    assert!(large.starts_with("HTTP/1.1 413 "), "{large}");
    let fits = format!("[\"1.1.0\"{}]", " ".repeat(65_536 - 9));
    assert_eq!(port.submit(&fits).await.0, 200);
    // Without a length the bytes are counted as they come.
    let chunk = format!("1000\r\n{}\r\n", " ".repeat(0x1000));
    let chunks = format!("{head}Transfer-Encoding: chunked\r\n\r\n{}", chunk.repeat(17));
    let large = port.answer(&chunks).await;
    assert!(large.starts_with("HTTP/1.1 413 "), "{large}");
    let start = Instant::now();
    let slow = port.answer(&format!("{head}Content-Length: 9\r\n\r\n[\"1.")).await;
    assert!(slow.starts_with("HTTP/1.1 408 ") && start.elapsed() >= 10_000 * MS, "{slow}");
}

#[tokio::test(flavor = "current_thread", start_paused = true)]
async fn heads_are_bounded() {
    let port = Port::new(Played::default());
    let long = format!("GET /health HTTP/1.1\r\nAny: {}\r\n\r\n", "x".repeat(4 * MAX_HEAD));
    let answer = port.answer(&long).await;
    assert!(answer.starts_with("HTTP/1.1 431 "), "{answer}");
    let many = format!("GET /health HTTP/1.1\r\n{}\r\n", "a: b\r\n".repeat(101));
    assert!(port.answer(&many).await.starts_with("HTTP/1.1 431 "));
    for garbage in ["GET /health\r\n\r\n", "G\0\r\n\r\n", "GET /health HTTP/9.1\r\n\r\n"] {
        let answer = port.answer(garbage).await;
        assert!(answer.is_empty() || answer.starts_with("HTTP/1.1 400 "), "{answer}");
    }
    let start = Instant::now();
    port.answer("GET /health HTTP/1.1\r\nHost:").await;
    let took = start.elapsed();
    assert!(took >= 10_000 * MS && took < 20_000 * MS, "{took:?}");
}

#[tokio::test(flavor = "current_thread", start_paused = true)]
async fn a_connection_is_used_again_until_it_is_idle() {
    let port = Port::new(Played::default());
    let start = Instant::now();
    let request = "GET /health HTTP/1.1\r\nHost: any\r\n\r\n";
    let answers = port.answer(&request.repeat(3)).await;
    assert_eq!(answers.matches("HTTP/1.1 200 OK").count(), 3);
    assert!(start.elapsed() >= patient::IDLE_AFTER);
}

#[tokio::test(flavor = "current_thread", start_paused = true)]
async fn an_engine_that_does_not_answer() {
    let port = Port::new(Played { is_stuck: true, ..Played::default() });
    for path in ["/health", "/metrics", "/v1/status", "/v1/transactions/1.1.0"] {
        assert_eq!(port.get(path).await.0, 503, "{path}");
    }
}

#[tokio::test(flavor = "current_thread", start_paused = true)]
async fn what_has_become_of_a_transaction() {
    let port = Port::new(Played::default());
    for (number, more) in [
        (0, "\"unknown\""),
        (1, "\"waiting\""),
        (2, "\"waiting\""),
        (3, "\"final\""),
        (4, "\"final\""),
    ] {
        let (status, text) = port.get(&format!("/v1/transactions/1.{number}.0")).await;
        assert!(status == 200 && text.contains(&format!("\"state\":{more}")), "{text}");
        assert_eq!(text.contains("\"position\":5"), number == 3, "{text}");
    }
    assert_eq!(port.get("/v1/transactions/1.2.3.4").await.0, 400);
}

#[tokio::test(flavor = "current_thread", start_paused = true)]
async fn some_batches() {
    let port = Port::new(Played::default());
    for position in 0..1100 {
        port.batches.push(position, &[tx(position as u32), tx(9)]);
    }
    let (status, text) = port.get("/v1/batches?from=7&limit=2").await;
    let batch = |at| format!("{{\"position\":{at},\"transactions\":[\"1.{at}.0\",\"1.9.0\"]}}");
    let expected = format!("{{\"session\":3,\"next\":9,\"batches\":[{},{}]}}", batch(7), batch(8));
    assert_eq!((status, text), (200, expected));
    let count = |text: &str| text.matches("position").count();
    assert_eq!(count(&port.get("/v1/batches").await.1), 100);
    assert_eq!(count(&port.get("/v1/batches?limit=99999").await.1), 1000);
    let end = "{\"session\":3,\"next\":1100,\"batches\":[]}";
    assert_eq!(port.get("/v1/batches?from=1100").await.1, end);
    // A large answer ends earlier, and says where to go on.
    let many: Vec<Tx> = (0..2000).map(tx).collect();
    (1100..1130).for_each(|position| port.batches.push(position, &many));
    let (_, text) = port.get("/v1/batches?from=1100").await;
    let got = count(&text);
    assert!(got > 1 && got < 30 && text.len() < (1 << 18) + 1000, "{got}");
    assert!(text.contains(&format!("\"next\":{},", 1100 + got)));
    for query in ["from=-1", "from=", "limit=x", "from=99999999999999999999"] {
        assert_eq!(port.get(&format!("/v1/batches?{query}")).await.0, 400, "{query}");
    }
}

#[tokio::test(flavor = "current_thread", start_paused = true)]
async fn batches_as_events() {
    let port = Port::new(Played::default());
    for position in 0..3 {
        port.batches.push(position, &[tx(position as u32)]);
    }
    let mut client = open(&port, "/v1/batches/events?from=1", "").await;
    let first = streamed(&mut client, 100 * MS).await;
    assert!(first.contains("\r\ncontent-type: text/event-stream\r\n"), "{first}");
    assert!(!first.contains("id: 0\n") && first.contains("retry: 1000\n\n"), "{first}");
    let event =
        |at| format!("id: {at}\ndata: {{\"position\":{at},\"transactions\":[\"1.{at}.0\"]}}\n\n");
    assert!(first.contains(&format!("{}{}", event(1), event(2))), "{first}");
    port.batches.push(3, &[tx(3)]);
    assert!(streamed(&mut client, 100 * MS).await.contains(&event(3)));
    // Where nothing comes, a comment does, so the connection stays in use.
    let quiet = streamed(&mut client, 200_000 * MS).await;
    assert!(quiet.matches(":\n\n").count() >= 10 && !quiet.contains("data"), "{quiet}");
    // A browser connects again after the last event that it had.
    let more = "Last-Event-ID: 2\r\n";
    let mut client = open(&port, "/v1/batches/events?from=0", more).await;
    let again = streamed(&mut client, 100 * MS).await;
    assert!(again.contains(&event(3)) && !again.contains(&event(2)), "{again}");
    let mut client = open(&port, "/v1/batches/events", "Last-Event-ID: x\r\n").await;
    assert!(streamed(&mut client, 100 * MS).await.starts_with("HTTP/1.1 400 "));
}

#[tokio::test(flavor = "current_thread", start_paused = true)]
async fn the_engine_is_asked_once_for_all_that_watch() {
    let port = Port::new(Played::default());
    sleep(5000 * MS).await;
    assert_eq!(port.played.pictures.load(Ordering::Relaxed), 0);
    let mut clients = Vec::new();
    for _ in 0..3 {
        clients.push(open(&port, "/events", "").await);
    }
    sleep(5000 * MS).await;
    let count = port.played.pictures.load(Ordering::Relaxed);
    assert!((9..=11).contains(&count), "{count}");
    for client in &mut clients {
        let text = streamed(client, 600 * MS).await;
        assert!(text.contains("data: {\"view\":3}\n\n"), "{text}");
    }
    drop(clients);
    sleep(1000 * MS).await;
    let count = port.played.pictures.load(Ordering::Relaxed);
    sleep(5000 * MS).await;
    assert_eq!(port.played.pictures.load(Ordering::Relaxed), count);
    // One that comes later sees nothing old.
    let mut client = open(&port, "/events", "").await;
    let text = streamed(&mut client, 100 * MS).await;
    assert!(text.contains(&format!("data: {{\"view\":{count}}}\n\n")), "{text}");
}

#[tokio::test(flavor = "current_thread", start_paused = true)]
async fn streams_are_bounded() {
    let port = Port::new(Played::default());
    let mut clients = Vec::new();
    for at in 0..17 {
        let path = if at % 2 == 0 { "/v1/batches/events" } else { "/events" };
        let mut client = open(&port, path, "").await;
        let text = streamed(&mut client, 10 * MS).await;
        let status = if at < 16 { "HTTP/1.1 200 OK" } else { "HTTP/1.1 503 " };
        assert!(text.starts_with(status), "{at}: {text}");
        clients.push(client);
    }
    // Other calls are answered, and a place is free again once a client has gone.
    assert_eq!(port.get("/health").await.0, 200);
    drop(clients.swap_remove(0));
    sleep(10 * MS).await;
    let mut client = open(&port, "/events", "").await;
    assert!(streamed(&mut client, 10 * MS).await.starts_with("HTTP/1.1 200 OK"));
}
