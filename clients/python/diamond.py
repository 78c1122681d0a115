"""A client of Diamond: transactions and live queries over one connection. Python 3.10 or later, and nothing else.

    with diamond.connect("127.0.0.1", 4000) as client:
        client.do('if set("seats").has(?) { set("seats").remove(?); } else { fail "taken"; }', "A1", "A1")

Texts are `str`; bytes that aren't UTF-8 stand as surrogate escapes, as in names of files. docs/CLIENTS.md says more."""
import contextlib
import dataclasses
import re
import socket
import struct
import threading
from collections.abc import Callable
from typing import Any

Value = bool | int | str | list[str]
LONGEST_LINE = 4096
_BYTES = ("utf-8", "surrogateescape")
_TEXT = r'"[^"\\]*(?:\\.[^"\\]*)*"'
_TOKEN = re.compile(rf"\[(?:{_TEXT}(?:,{_TEXT})*)?\]|{_TEXT}|-?[0-9]+|[a-z]+")
_ABORT = re.compile(rf"abort ([a-z]+)\(({_TEXT})\) ([a-z]+(?: -?[0-9]+| {_TEXT})?) base (\d+) clash (.+) commit (\d+)")


class Error(Exception):
    """What all errors here are. `line` (str) is the line that was sent, or wasn't."""

    def __init__(self, said: str, line: str = "", **facts: Any) -> None:
        super().__init__(f"{said} (line: {line})" if line else said)
        vars(self).update(facts, line=line)


class NotSent(Error, ValueError):
    """Bad input, or a line while another one is under way: it was refused here, and nothing was sent."""


class Refused(Error):
    """The server did not do the line, and no data changed. `cause` (str): "long", "verb", "syntax", "type", "writes",
    "name", "busy", "none"; or "late", "ahead", "full", "disk", with their `numbers` (list of int) of docs/SCRIPTS.md.
    `column` (int or None): where in the body, in bytes from 1, counted from its first that is no blank."""


class Aborted(Error):
    """A commit was in the way: docs/ABORTS.md. Nothing was written, and it may be sent again. `observation` (tuple), as
    ("has", "A1"), was made at `address` (kind and key, each a str) on the first `base` (int) commits; `commit` (int)
    came later, and did `part` (tuple), as ("add", "A1"), there."""


class Held(Error):
    """The hold that `client` (int) made by commit `commit` (int) bars it: docs/ABORTS.md. It may be sent again later."""


class Lost(Error, ConnectionError):
    """The connection is gone. The line wasn't sent, or is one that commits nothing: no commit is in doubt."""


class Unknown(Error):
    """The connection went between the line and its answer: whether it was committed, only the data says."""


@dataclasses.dataclass(frozen=True)
class Answer:
    """How a body ended. `number` (int): its commit's; of a look or a report, on how many commits it ran. `outcome` (str):
    "ok", "fail", "spent" or "big". `items` (list of Value): what "ok" emitted. `text` (str or None): what "fail" says.
    `name` (str or None): of a report, its watch."""
    number: int
    outcome: str
    items: list[Value]
    text: str | None = None
    name: str | None = None


def _want(fits: object, said: str, line: str = "") -> None:
    if not fits:
        raise NotSent(said, line)


def quote(text: str | bytes) -> str:
    """The text in quotes, for a body. Whatever is in it, it ends where the quotes do."""
    _want(isinstance(text, (str, bytes)), f"not a value of a body: {text!r}")
    text = re.sub(r'["\\]', r"\\\g<0>", text.decode(*_BYTES) if isinstance(text, bytes) else text).replace("\n", r"\n")
    return '"' + re.sub(r"[\x00-\x1f\x7f]", lambda found: f"\\x{ord(found[0]):02x}", text) + '"'


def literal(value: Value | bytes) -> str:
    """The value as an expression of a body: a bool, an int of 64 bits, a text, or a list of texts."""
    if isinstance(value, bool):
        return "true" if value else "false"
    if isinstance(value, int) and -(2**63) <= value < 2**63:
        return str(value) if value > -(2**63) else f"({value + 1} - 1)"
    if isinstance(value, (list, tuple)):
        return f"[{', '.join(map(quote, value))}]"
    return quote(value)


def fill(body: str, *values: Value | bytes) -> str:
    """The body with one of the values in the place of each `?` that stands outside of texts."""
    _want(isinstance(body, str), f"not a body: {body!r}")
    pieces = re.split(rf"({_TEXT})|\?", body)
    fits = pieces[1::2].count(None) == len(values) and not (values and '"' in "".join(pieces[::2]))
    _want(fits, f"{len(values)} values don't fit the body's question marks", body)
    rest = iter(values)
    return "".join(literal(next(rest)) if piece is None else piece for piece in pieces)


def _value(token: str) -> Value:
    if token[0] == "[":
        return [_value(text) for text in re.findall(_TEXT, token)]
    if token[0] == '"':
        byte = lambda found: bytes.fromhex(found[1]).decode(*_BYTES) if found[1] else found[2].replace("n", "\n")
        return re.sub(r"\\(?:x([0-9a-f]{2})|(.))", byte, token[1:-1])
    return token == "true" if token in ("true", "false") else token if token[0].isalpha() else int(token)


def _values(said: str) -> list[Value]:
    tokens = _TOKEN.findall(said)
    if " ".join(tokens) != said:
        raise ValueError(f"not a reply of Diamond: {said}")
    return list(map(_value, tokens))


def _read(reply: str, line: str) -> Answer | Error | str:
    """What a reply to the line says; where that is neither an answer nor an error, the reply."""
    word, _, rest = reply.partition(" ")
    if word in ("commit", "at", "run"):
        name, _, rest = rest.partition(" ") if word == "run" else (None, "", rest)
        number, outcome, *items = _values(rest)
        return Answer(number, outcome, *([], items[0]) if outcome == "fail" else (items, None), name)
    if found := _ABORT.fullmatch(reply):
        facts = dict(address=(found[1], _value(found[2])), observation=tuple(_values(found[3])), base=int(found[4]))
        return Aborted(reply, line, **facts, part=tuple(_values(found[5])), commit=int(found[6]))
    if found := re.fullmatch(r"held (\d+) commit (\d+)", reply):
        return Held(reply, line, client=int(found[1]), commit=int(found[2]))
    if word in ("refused", "late", "ahead", "full", "disk"):
        cause, *numbers = _values(reply.removeprefix("refused "))
        column = numbers.pop() if word == "refused" and numbers else None
        return Refused(reply, line, cause=cause, column=column, numbers=numbers)
    if word in ("current", "seen", "dropped", "read", "prepare"):
        return reply
    raise ValueError(f"not a reply of Diamond: {reply}")


class Client(contextlib.AbstractContextManager):
    """A session. It has one line under way at a time, so each thread, and each that waits, has a client of its own.
    Its connection is given up where an answer, but that to a `wait`, takes more than `timeout` (float or None) seconds."""

    def __init__(self, host: str, port: int, timeout: float | None = None) -> None:
        self._socket = socket.create_connection((host, port), timeout)
        self._socket.setsockopt(socket.IPPROTO_TCP, socket.TCP_NODELAY, 1)
        # If this ends without `close`, it is a reset: else the server would take half of a line as a whole one.
        self._socket.setsockopt(socket.SOL_SOCKET, socket.SO_LINGER, struct.pack("ii", 1, 0))
        self._input = self._socket.makefile("rb")
        self._timeout = timeout
        self._turn = threading.Lock()
        self._calls: dict[str, Callable[[Answer], Any]] = {}

    def do(self, body: str, *values: Value) -> Answer:
        """Commits the body, once; each `?` in it stands for the next of the values."""
        return self._ask(f"do {fill(body, *values)}")

    def try_(self, times: int, body: str, *values: Value) -> Answer:
        """The same, and anew after each abort, 1 to 16 times at most."""
        _want(isinstance(times, int) and 1 <= times <= 16, f"not a number of times from 1 to 16: {times}", body)
        return self._ask(f"try {times:d} {fill(body, *values)}")

    def look(self, body: str, *values: Value, at: int | None = None) -> Answer:
        """Runs a body that only reads, on all commits or on the first `at`."""
        _want(at is None or isinstance(at, int) and 0 <= at < 2**64, f"not a number of commits: {at}", body)
        return self._ask(f"{'look' if at is None else f'at {at:d}'} {fill(body, *values)}")

    def watch(self, name: str, body: str, *values: Value, call: Callable[[Answer], Any]) -> Answer:
        """Keeps a body that only reads as a watch, and calls with each report; the first is answered, too."""
        _want(callable(call), f"no function to call: {call!r}", body)
        return self._ask(f"watch {name} {fill(body, *values)}", str(name), call)

    def unwatch(self, name: str) -> None:
        """Forgets the watch."""
        self._ask(f"unwatch {name}", str(name))

    def sync(self) -> int:
        """Calls with a report of each watch that was touched. All watches hold on as many commits as it answers."""
        return int(self._ask("sync").removeprefix("current "))

    def wait(self) -> int:
        """The same, once there is a commit past those that this client has seen, however long that takes."""
        return int(self._ask("wait").removeprefix("current "))

    def raw(self, line: str) -> Answer | str:
        """A line of docs/SCRIPTS.md with one reply, as `begin` and `go`: its answer, or else the reply as it stands."""
        _want(isinstance(line, str) and not re.match(r"\s*(#|$|(watch|sync|wait)\b)", line), "no line with one reply", str(line))
        return self._ask(line)

    def close(self) -> None:
        """Ends the session. A line that is under way in another thread ends there as one without an answer."""
        with contextlib.suppress(OSError):
            self._socket.shutdown(socket.SHUT_RD)
        with self._turn, contextlib.suppress(OSError):
            self._socket.setsockopt(socket.SOL_SOCKET, socket.SO_LINGER, struct.pack("ii", 0, 0))
            self._input.close()
            self._socket.close()

    def __exit__(self, *_: object) -> None:
        self.close()

    def _ask(self, line: str, name: str | None = None, call: Callable[[Answer], Any] | None = None) -> Any:
        named = name is None or re.fullmatch("[a-z][a-z0-9_]{0,31}", name)
        fits = re.fullmatch(r"[^\n\ud800-\udc7f\udd00-\udfff]*", line) and len(line.encode(*_BYTES)) <= LONGEST_LINE
        _want(named and fits, "not a line of at most 4,096 bytes, or with a name that is none", line)
        _want(self._turn.acquire(blocking=False), "another line of this client is under way", line)
        try:
            *reports, last = self._exchange(line, name)
        finally:
            self._turn.release()
        if isinstance(last, Answer) and last.name:
            self._calls[last.name] = call
            reports.append(last)
        with contextlib.ExitStack() as calls:  # makes each call, whatever one of them raises
            for report in reversed(reports):
                calls.callback(self._calls[report.name], report)
            if isinstance(last, Error):
                raise last
        return last

    def _exchange(self, line: str, name: str | None) -> list[Answer | Error | str]:
        """The replies to a line: reports of watches that there are, and one more."""
        replies, sent = [], False
        try:
            self._socket.settimeout(0)
            with contextlib.suppress(BlockingIOError):
                self._socket.recv(1, socket.MSG_PEEK)
                raise ConnectionError("the server has closed the connection")
            self._socket.settimeout(None if line == "wait" else self._timeout)
            sent = True
            self._socket.sendall(line.encode(*_BYTES) + b"\n")
            while not replies or isinstance(replies[-1], Answer) and replies[-1].name != name:
                reply = self._input.readline()
                if not reply.endswith(b"\n"):
                    raise ConnectionError("the connection has ended")
                replies.append(_read(reply[:-1].decode(*_BYTES), line))
            return replies
        except BaseException as error:
            self._input.close()
            self._socket.close()
            if not isinstance(error, (OSError, ValueError, LookupError)):
                raise
            kind = Unknown if sent and line.split()[0] in ("do", "try", "go", "step") else Lost
            raise kind(f"{'not answered' if sent else 'not sent'}: {error}", line) from error


connect = Client
