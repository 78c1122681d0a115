#!/usr/bin/env python3
"""A seat sale in the browser: a small web server over the Python client. Python 3.10 or later, and nothing else.

    ./diamond serve --address 127.0.0.1:4000 --sessions 1000
    python3 examples/seats/server.py 127.0.0.1 4000

Then open http://127.0.0.1:8000 in two windows. Each page that is open has two sessions of the store: one waits for news and
one buys. docs/SEATS.md explains it.
"""
from __future__ import annotations

import argparse
import contextlib
import http.server
import itertools
import json
import pathlib
import re
import socket
import sys
import threading

sys.path.insert(0, str(pathlib.Path(__file__).resolve().parents[2] / "clients/python"))
import diamond

PAGE = pathlib.Path(__file__).with_name("page.html")
SEATS = [f"{row}{number}" for row in "ABCDEF" for number in range(1, 11)]
LONGEST_NAME = 20
LONGEST_CLICK = 999  # in bytes
SECONDS = 10  # how long the store may take for an answer

BUY = (
    'let seat = ?; let who = ?; if hash("sold").has(seat) { fail hash("sold").get(seat); }'
    ' hash("sold").put(seat, who); counter("sales").add(1);'
)
GIVE_BACK = (
    'let seat = ?; let who = ?; if hash("sold").get(seat) == who { hash("sold").remove(seat); counter("returns").add(1); }'
    ' else { fail hash("sold").get(seat); }'
)
HALL = 'for seat in hash("sold").fields() { emit seat; emit hash("sold").get(seat); }'
COUNTS = 'emit counter("sales").get(); emit counter("returns").get(); emit counter("here").get();'
COMES, GOES = 'counter("here").add(1);', 'counter("here").add(-1);'


class BadInput(ValueError):
    """What a page sent doesn't fit; the text says what."""


class Page:
    """A page that is open, with its two sessions."""

    def __init__(self, store: tuple[str, int]) -> None:
        with contextlib.ExitStack() as opened:
            self.screen = opened.enter_context(diamond.connect(*store, SECONDS))
            self._buyer = opened.enter_context(diamond.connect(*store, SECONDS))
            self._buyer.do(COMES)
            opened.pop_all()  # nothing failed, so both stay open
        self._turn = threading.Lock()

    def click(self, wish: str, seat: str, name: str) -> dict[str, str | int | None]:
        """Buys a seat, or gives it back: what came of it, whose the seat is where that failed, and the commit that says so."""
        with self._turn:
            answer = self._buyer.try_(16, BUY if wish == "buy" else GIVE_BACK, seat, name)
        return {"done": answer.outcome == "ok", "by": answer.text, "commit": answer.number}

    def close(self) -> None:
        """Ends both sessions. The screen's wakes by the commit, and then finds its page gone."""
        self.screen.close()
        with self._turn, contextlib.suppress(diamond.Error):
            self._buyer.do(GOES)
        self._buyer.close()


class Server(http.server.ThreadingHTTPServer):
    """Serves pages over one store."""

    daemon_threads = True

    def __init__(self, address: tuple[str, int], store: tuple[str, int]) -> None:
        super().__init__(address, Handler)
        self.store = store
        self.pages: dict[str, Page] = {}
        self.numbers = map(str, itertools.count(1))

    def click(self, text: bytes) -> dict[str, str | int | None]:
        """Does what a page sent, or names what of it doesn't fit."""
        try:
            asked = json.loads(text)
        except (ValueError, RecursionError):
            asked = None
        if not isinstance(asked, dict):
            raise BadInput("a click is an object in JSON")
        wish, seat, name = asked.get("wish"), asked.get("seat"), asked.get("name")
        if wish not in ("buy", "return"):
            raise BadInput(f"a wish is buy or return, and not {wish!r}")
        if seat not in SEATS:
            raise BadInput(f"there is no seat {seat!r}")
        if not isinstance(name, str) or not name.strip() or not name.isprintable() or len(name) > LONGEST_NAME:
            raise BadInput(f"a name has 1 to {LONGEST_NAME} characters that can be seen: {name!r}")
        page = self.pages.get(str(asked.get("page")))
        if page is None:
            raise BadInput(f"no page {asked.get('page')!r} is open: load it anew")
        return page.click(wish, seat, name)


class Handler(http.server.BaseHTTPRequestHandler):
    """Answers a request: `/` is the page, `/events` its news, `/click` what it asks for."""

    server: Server

    def do_GET(self) -> None:
        path = self.path.partition("?")[0]
        if path == "/":
            self._answer(200, PAGE.read_bytes(), "text/html; charset=utf-8")
        elif path == "/events":
            self._events()
        else:
            self._say(404, error=f"there is nothing at {path}")

    def do_POST(self) -> None:
        length = self.headers.get("Content-Length", "")
        if self.path != "/click":
            self._say(404, error=f"there is nothing at {self.path}")
        elif not re.fullmatch("[0-9]{1,3}", length):
            self._say(400, error=f"a click says its length, of at most {LONGEST_CLICK} bytes, and not {length!r}")
        else:
            self._click(self.rfile.read(int(length)))

    def _click(self, text: bytes) -> None:
        try:
            self._say(200, **self.server.click(text))
        except BadInput as error:
            self._say(400, error=str(error))
        except diamond.Aborted as error:
            self._say(200, done=False, again=f"others were faster 16 times, last commit {error.commit}: click once more")
        except diamond.Held as error:
            self._say(200, done=False, again=f"another client holds this seat, by commit {error.commit}: click once more")
        except diamond.Unknown:
            self._say(503, error="the store went away before it answered: whether the seat was sold isn't known")
        except diamond.Refused as error:
            self._say(503, error=f"the store refuses it: {error.cause}")
        except diamond.Error as error:
            self._say(503, error=f"the store is gone: {error}")

    def _events(self) -> None:
        """News for a page, until it or the store goes away."""
        self.send_response(200)
        self.send_header("Content-Type", "text/event-stream")
        self.send_header("Cache-Control", "no-store")
        self.end_headers()
        host, port = self.server.store
        try:
            page = Page((host, port))
        except (OSError, diamond.Error) as error:
            return self._tell("gone", why=f"no store answers at {host}:{port}: {error}")
        number = next(self.server.numbers)
        self.server.pages[number] = page
        sender = threading.Thread(target=self._follow, args=(number, page), daemon=True)
        sender.start()
        with contextlib.suppress(OSError):
            self.rfile.read(1)  # a page says nothing more: this ends when it goes away
        del self.server.pages[number]
        page.close()
        sender.join()

    def _follow(self, number: str, page: Page) -> None:
        """Shows the hall and the counts, as one commit leaves both, now and whenever a commit touched one of them."""
        shown = {}

        def draw(report: diamond.Answer) -> None:
            shown[report.name] = report.items

        try:
            self._tell("page", number=number, seats=SEATS, longest_name=LONGEST_NAME)
            page.screen.watch("hall", HALL, call=draw)
            page.screen.watch("counts", COUNTS, call=draw)
            commits = page.screen.sync()
            while True:
                sold = dict(zip(shown["hall"][::2], shown["hall"][1::2]))
                sales, returns, here = shown["counts"]
                self._tell("hall", commits=commits, sold=sold, sales=sales, returns=returns, here=here)
                commits = page.screen.wait()
        except diamond.Error as error:
            with contextlib.suppress(OSError):  # where the page has gone, too
                self._tell("gone", why=str(error))
                self.connection.shutdown(socket.SHUT_RDWR)  # ends the read of `_events`
        except OSError:
            pass  # the page has gone

    def _tell(self, event: str, **facts: object) -> None:
        """Sends an event of the page's news."""
        self.wfile.write(f"retry: 1000\nevent: {event}\ndata: {json.dumps(facts)}\n\n".encode())

    def _say(self, status: int, **facts: object) -> None:
        self._answer(status, json.dumps(facts).encode(), "application/json")

    def _answer(self, status: int, octets: bytes, kind: str) -> None:
        self.send_response(status)
        self.send_header("Content-Type", kind)
        self.send_header("Content-Length", str(len(octets)))
        self.end_headers()
        self.wfile.write(octets)

    def log_message(self, *_: object) -> None:
        """Says nothing of single requests."""


def port(word: str) -> int:
    """A port, from the command line."""
    if not re.fullmatch("[0-9]{1,5}", word) or int(word) > 65535:
        raise argparse.ArgumentTypeError(f"not a port from 0 to 65535: {word!r}")
    return int(word)


def main() -> None:
    words = argparse.ArgumentParser(description="Serves a seat sale to browsers, over a store that `./diamond serve` serves.")
    words.add_argument("host", help="where the store listens")
    words.add_argument("port", type=port, help="its port")
    words.add_argument("--web", type=port, default=8000, metavar="PORT", help="the port for browsers [default: 8000; 0: a free one]")
    asked = words.parse_args()
    try:
        server = Server(("127.0.0.1", asked.web), (asked.host, asked.port))
    except OSError as error:
        sys.exit(f"seats: can't listen at 127.0.0.1:{asked.web}: {error}")
    print(f"seats: open http://127.0.0.1:{server.server_port} in two windows; Ctrl-C ends it", flush=True)
    with contextlib.suppress(KeyboardInterrupt):
        server.serve_forever()


if __name__ == "__main__":
    main()
