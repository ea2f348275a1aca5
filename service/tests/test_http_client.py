"""The client over HTTP, against a replica that is played here."""

from __future__ import annotations

import json
import threading
import unittest
from collections.abc import Iterator
from contextlib import contextmanager
from http.server import BaseHTTPRequestHandler, ThreadingHTTPServer

from service.http_client import Refused, Replica, run

LIMIT = 600.0
BATCHES = [["1.1.0"], ["1.2.0", "2.1.0"], ["1.3.0"]]


class Played(BaseHTTPRequestHandler):
    """Has three batches. Each stream breaks after one event."""

    submitted: list[list[str]] = []

    def do_POST(self) -> None:
        txs = json.loads(self.rfile.read(int(self.headers["Content-Length"])))
        self.submitted.append(txs)
        if "1.9.0" in txs:
            self.answer(409, {"error": "closed", "cause": "the session takes no more"})
        else:
            self.answer(200, {"new": len(txs), "known": 0})

    def do_GET(self) -> None:
        path, _, query = self.path.partition("?from=")
        if path == "/v1/batches/events":
            self.stream(int(query))
        elif path == "/v1/batches":
            found = [{"position": 1, "transactions": BATCHES[1]}]
            self.answer(200, {"session": 1, "next": 2, "batches": found})
        elif path.startswith("/v1/transactions/"):
            self.answer(200, {"transaction": path.split("/")[-1], "state": "waiting"})
        else:
            self.send_error(502, "nothing there")

    def stream(self, position: int) -> None:
        self.send_response(200)
        self.end_headers()
        self.wfile.write(b"retry: 1000\n\n:\n\n")
        for at in range(position, min(position + 1, len(BATCHES))):
            data = json.dumps({"position": at, "transactions": BATCHES[at]})
            self.wfile.write(f"id: {at}\ndata: {data}\n\n".encode())

    def answer(self, status: int, value: dict[str, object]) -> None:
        data = json.dumps(value).encode()
        self.send_response(status)
        self.send_header("Content-Length", str(len(data)))
        self.end_headers()
        self.wfile.write(data)

    def log_message(self, format: str, *args: object) -> None:
        pass


@contextmanager
def played() -> Iterator[Replica]:
    with ThreadingHTTPServer(("127.0.0.1", 0), Played) as server:
        threading.Thread(target=server.serve_forever, daemon=True).start()
        try:
            yield Replica("127.0.0.1", server.server_address[1])
        finally:
            server.shutdown()


class Calls(unittest.TestCase):
    def setUp(self) -> None:
        Played.submitted.clear()

    def test_calls_of_one_replica(self) -> None:
        with played() as replica:
            self.assertEqual(replica.submit(["1.1.0", "1.2.0"]), 2)
            self.assertEqual(Played.submitted, [["1.1.0", "1.2.0"]])
            self.assertEqual(replica.state("1.1.0")["state"], "waiting")
            self.assertEqual(replica.batches(1), [BATCHES[1]])
            self.assertEqual(list(replica.follow(2)), [(2, BATCHES[2])])
            self.assertEqual(list(replica.follow(3)), [])

    def test_refusals(self) -> None:
        with played() as replica:
            with self.assertRaises(Refused) as caught:
                replica.submit(["1.9.0"])
            self.assertEqual((caught.exception.status, caught.exception.word), (409, "closed"))
            # Something between may answer anything.
            with self.assertRaises(Refused) as caught:
                replica.status()
            self.assertEqual((caught.exception.status, caught.exception.word), (502, "unknown"))

    def test_two_replicas_are_followed_over_broken_connections(self) -> None:
        with played() as one, played() as two:
            self.assertTrue(run(lambda _: [one, two], 1, ["1.1.0", "1.3.0"], 0, LIMIT))
            self.assertEqual(Played.submitted, [["1.1.0", "1.3.0"]] * 2)
            # Two reports are needed, and one replica alone reports each batch once.
            self.assertFalse(run(lambda _: [one], 1, ["1.1.0"], 0, 2))


if __name__ == "__main__":
    unittest.main()
