"""Tries the client against the program: that of the variable DIAMOND, else crates/diamond/out/diamond.

Each test serves sessions of its own, as many as it connects, and the server has to end by itself once they have ended.
"""
import contextlib
import os
import pathlib
import pty
import re
import select
import signal
import socket
import subprocess
import tempfile
import threading
import time
import unittest

import diamond

TOP = pathlib.Path(__file__).resolve().parents[2]
PROGRAM = os.environ.get("DIAMOND") or str(TOP / "crates/diamond/out/diamond")
EVERY_BYTE = bytes(range(256))
SALE = 'if set("seats").has(?) { set("seats").remove(?); emit "yours"; } else { fail "taken"; }'
NEXT = 'counter("x").put(counter("x").get() + 1);'


def start(sessions, *words):
    """A server and its port."""
    command = [PROGRAM, "serve", "--address", "127.0.0.1:0", "--sessions", str(sessions), *words]
    server = subprocess.Popen(command, stdout=subprocess.PIPE, stderr=subprocess.PIPE, text=True)
    said = server.stderr.readline()
    found = re.fullmatch(r"diamond: listening at 127\.0\.0\.1:(\d+)\n", said)
    if not found:
        server.kill()
        raise AssertionError(f"{PROGRAM} said: {said}")
    return server, int(found[1])


def stop(server):
    server.kill()
    server.wait()
    server.stdout.close()
    server.stderr.close()


@contextlib.contextmanager
def served(sessions, *words, faulted=0):
    """Serves so many sessions, gives the port, and looks at how the server ends."""
    server, port = start(sessions, *words)
    try:
        yield port
        output, _ = server.communicate(timeout=30)
    finally:
        stop(server)
    said = re.fullmatch(r"served (\d+) sessions (\d+) faulted commits \d+\n", output)
    assert server.returncode == 0 and said, (server.returncode, output)
    assert (int(said[1]), int(said[2])) == (sessions, faulted), output


def processor_seconds(server):
    """What all threads of a server have taken so far."""
    said = pathlib.Path(f"/proc/{server.pid}/stat").read_text(encoding="utf-8").rpartition(")")[2].split()
    return (int(said[11]) + int(said[12])) / os.sysconf("SC_CLK_TCK")


def connect(port, timeout=30):
    return diamond.connect("127.0.0.1", port, timeout)


@contextlib.contextmanager
def answering(reply):
    """A server that is none: it answers the first line with these bytes, and ends the connection."""
    with socket.create_server(("127.0.0.1", 0)) as listener:

        def answer():
            link, _ = listener.accept()
            with link, link.makefile("rb") as lines:
                lines.readline()
                link.sendall(reply)

        thread = threading.Thread(target=answer)
        thread.start()
        with connect(listener.getsockname()[1]) as client:
            yield client
        thread.join()


class Values(unittest.TestCase):
    def test_texts_are_quoted(self):
        rows = [
            ("", '""'),
            ("A1", '"A1"'),
            ('a "b" \\', r'"a \"b\" \\"'),
            ("a\nb\tc\x7f\x00", r'"a\nb\x09c\x7f\x00"'),
            ("\u00e9", '"\u00e9"'),
            (b"\xff", '"\udcff"'),
        ]
        for text, quoted in rows:
            self.assertEqual(diamond.quote(text), quoted)

    def test_values_are_expressions(self):
        rows = [
            (True, "true"),
            (False, "false"),
            (-5, "-5"),
            (2**63 - 1, "9223372036854775807"),
            (-(2**63), "(-9223372036854775807 - 1)"),
            (["a", '"'], r'["a", "\""]'),
            ([], "[]"),
        ]
        for value, expression in rows:
            self.assertEqual(diamond.literal(value), expression)
        for value in [2**63, -(2**63) - 1, 1.5, None, ["a", 1], "\ud800x"]:
            with self.assertRaises(diamond.NotSent), connect_nowhere() as client:
                client.do("emit ?;", value)

    def test_bodies_are_filled_outside_of_texts(self):
        filled = diamond.fill(r'emit "is it?\"?" + ?; emit ?;', '"; fail "', 7)
        self.assertEqual(filled, r'emit "is it?\"?" + "\"; fail \""; emit 7;')
        for body, *values in [("emit ?;",), ("emit 1;", 1), ("emit ?;", 1, 2), ('emit "a?;', "b"), ('emit "a" + "?;', "b")]:
            with self.assertRaises(diamond.NotSent):
                diamond.fill(body, *values)
        for body in [None, 7, b"emit 1;", ["emit 1;"]]:
            with self.assertRaisesRegex(diamond.NotSent, "^not a body: "):
                diamond.fill(body)


@contextlib.contextmanager
def connect_nowhere():
    """A client whose lines nobody answers."""
    with socket.create_server(("127.0.0.1", 0)) as listener, connect(listener.getsockname()[1], 0.2) as client:
        yield client


class Replies(unittest.TestCase):
    def test_aborts_are_read(self):
        rows = [
            (b'bool("b") whole base 0 clash put true commit 1', ("bool", "b"), ("whole",), 0, ("put", True), 1),
            (b'counter("x") whole base 3 clash add -1 commit 4', ("counter", "x"), ("whole",), 3, ("add", -1), 4),
            (b'text("\\"") whole base 3 clash put "a" commit 4', ("text", '"'), ("whole",), 3, ("put", "a"), 4),
            (b'set("s") has "base 1" base 3 clash clear commit 4', ("set", "s"), ("has", "base 1"), 3, ("clear",), 4),
            (b'hash("h") at "7" base 3 clash put "7" " commit 9" commit 4', ("hash", "h"), ("at", "7"), 3, ("put", "7", " commit 9"), 4),
            (b'list("l") at 7 base 3 clash remove "\xff" commit 4', ("list", "l"), ("at", 7), 3, ("remove", "\udcff"), 4),
            (b'list("l") all base 3 clash push "x" commit 12', ("list", "l"), ("all",), 3, ("push", "x"), 12),
            (b'peak("p") is 61 base 5 clash raise 9223372036854775807 commit 6', ("peak", "p"), ("is", 61), 5, ("raise", 2**63 - 1), 6),
            (b'peak("p") over -60 base 4 clash raise -59 commit 5', ("peak", "p"), ("over", -60), 4, ("raise", -59), 5),
        ]
        for reply, *facts in rows:
            with answering(b"abort " + reply + b"\n") as client, self.assertRaises(diamond.Aborted) as caught:
                client.raw("go")
            fault = caught.exception
            self.assertEqual([fault.address, fault.observation, fault.base, fault.part, fault.commit], facts)
            self.assertEqual(fault.line, "go")

    def test_what_is_held_is_read(self):
        for line in ["go", "step", "do emit 1;"]:
            with answering(b"held 63 commit 18446744073709551615\n") as client, self.assertRaises(diamond.Held) as caught:
                client.raw(line)
            fault = caught.exception
            self.assertEqual((fault.client, fault.commit, fault.line), (63, 2**64 - 1, line))

    def test_a_watch_may_have_a_reserved_name(self):
        with answering(b"run true 5 ok true\n") as client:
            self.assertEqual(client.watch("true", "emit true;", call=print_nothing), diamond.Answer(5, "ok", [True], None, "true"))

    def test_what_was_not_answered_is_unknown(self):
        for reply in [b"", b"commit 1", b"commit 1 ok", b"HTTP/1.1 400 Bad Request\n", b"commit 1 fail\n", b"held 1 commit\n"]:
            with answering(reply) as client, self.assertRaises(diamond.Unknown) as caught:
                client.do("emit 1;")
            self.assertEqual(caught.exception.line, "do emit 1;")
        for line in ["go", "step", "try 3 emit 1;", " do\temit 1;"]:
            with answering(b"") as client, self.assertRaises(diamond.Unknown):
                client.raw(line)

    def test_what_commits_nothing_is_lost(self):
        for line in ["look emit 1;", "begin emit 1;", "seen", "unwatch w"]:
            with answering(b"") as client, self.assertRaises(diamond.Lost):
                client.raw(line)
        with answering(b"run w 1 ok\ncurr") as client, self.assertRaises(diamond.Lost):
            client.sync()

    def test_an_answer_that_takes_too_long_is_unknown(self):
        with connect_nowhere() as client:
            with self.assertRaises(diamond.Unknown):
                client.do("emit 1;")
            with self.assertRaises(diamond.Lost):
                client.do("emit 1;")


def print_nothing(_report):
    pass


class Sessions(unittest.TestCase):
    def test_the_seat_sale(self):
        reports = []
        with served(3) as port, connect(port) as ann, connect(port) as bob, connect(port) as screen:
            put = ann.do('set("seats").add("A1"); set("seats").add("A2");')
            first = screen.watch("free", 'emit set("seats").all();', call=reports.append)
            yours = ann.do(SALE, "A1", "A1")
            taken = bob.try_(3, SALE, "A1", "A1")
            number = screen.sync()
        self.assertEqual(put, diamond.Answer(1, "ok", []))
        self.assertEqual(first, diamond.Answer(1, "ok", [["A1", "A2"]], None, "free"))
        self.assertEqual(yours, diamond.Answer(2, "ok", ["yours"]))
        self.assertEqual(taken, diamond.Answer(3, "fail", [], "taken"))
        self.assertEqual(number, 3)
        self.assertEqual(reports, [first, diamond.Answer(3, "ok", [["A2"]], None, "free")])

    def test_an_abort_says_all(self):
        with served(3) as port, connect(port) as zero, connect(port) as one, connect(port) as two:
            zero.do('counter("tickets").put(10);')
            for client in (one, two):
                self.assertEqual(client.raw('begin counter("tickets").put(counter("tickets").get() - 1);'), "seen 1")
            for client in (one, two):
                self.assertEqual(client.raw("step"), 'read counter("tickets") base 1')
            self.assertEqual(one.raw("go"), diamond.Answer(2, "ok", []))
            with self.assertRaises(diamond.Aborted) as caught:
                two.raw("go")
            again = two.try_(3, 'counter("tickets").put(counter("tickets").get() - 1); emit counter("tickets").get();')
            self.assertEqual(again, diamond.Answer(3, "ok", [8]))
        fault = caught.exception
        self.assertEqual((fault.address, fault.observation, fault.base), (("counter", "tickets"), ("whole",), 1))
        self.assertEqual((fault.part, fault.commit, fault.line), (("put", 9), 2, "go"))

    def test_a_hold_bars_others_until_the_next_commit_of_its_client(self):
        with served(2) as port, connect(port) as one, connect(port) as two:
            one.raw(f"begin {NEXT}")
            one.raw("step")
            two.do('counter("x").add(5);')
            with self.assertRaises(diamond.Aborted):
                one.raw("go")
            self.assertEqual(one.try_(16, 'emit "hold"; emit counter("x").get();'), diamond.Answer(2, "ok", ["hold", 5]))
            one.raw(f"begin {NEXT}")
            self.assertEqual(one.raw("step"), 'read counter("x") base 2')
            with self.assertRaises(diamond.Held) as caught:
                two.try_(16, NEXT)
            self.assertEqual((caught.exception.commit, caught.exception.line), (2, f"try 16 {NEXT}"))
            self.assertEqual(two.do('counter("y").add(1);').number, 3)
            self.assertEqual(one.raw("go"), diamond.Answer(4, "ok", []))
            self.assertEqual(two.do(NEXT).number, 5)
            self.assertEqual(one.look('emit counter("x").get();').items, [7])

    def test_a_peak_disturbs_whom_it_must(self):
        told = []
        with served(3) as port, connect(port) as one, connect(port) as two, connect(port) as screen:
            screen.watch("high", 'emit peak("p").over(?);', 9, call=lambda report: told.extend(report.items))
            for client, body in [(one, 'emit peak("p").over(9);'), (two, 'emit peak("p").get();')]:
                client.raw(f"begin {body}")
                self.assertEqual(client.raw("step"), 'read peak("p") base 0')
            screen.do('peak("p").raise(?);', 9)
            self.assertEqual(one.raw("go"), diamond.Answer(2, "ok", [False]))
            with self.assertRaises(diamond.Aborted) as read:
                two.raw("go")
            one.raw('begin emit peak("p").over(9);')
            one.raw("step")
            self.assertEqual((screen.sync(), told), (2, [False]))
            screen.do('peak("p").raise(?);', 2**63 - 1)
            with self.assertRaises(diamond.Aborted) as over:
                one.raw("go")
            screen.do('peak("p").raise(?);', 10)
            self.assertEqual((screen.sync(), told), (4, [False, True]))
            self.assertEqual(screen.look('emit peak("p").get();').items, [2**63 - 1])
        rows = [(read, ("is", 0), 0, ("raise", 9), 1), (over, ("over", 9), 2, ("raise", 2**63 - 1), 3)]
        for caught, *facts in rows:
            fault = caught.exception
            self.assertEqual(fault.address, ("peak", "p"))
            self.assertEqual([fault.observation, fault.base, fault.part, fault.commit], facts)

    def test_refusals_name_their_cause_and_column(self):
        rows = [
            (lambda client: client.do("emit 1"), "syntax", 7),
            (lambda client: client.do("emit 1 + true;"), "type", 10),
            (lambda client: client.do("  emit y;"), "type", 6),
            (lambda client: client.try_(2, 'emit "\u00e9" + 1;'), "type", 13),
            (lambda client: client.look('emit 1; counter("visits").add(1);'), "writes", 9),
            (lambda client: client.watch("w", "emit 1; fly", call=print_nothing), "syntax", 9),
            (lambda client: client.watch("twice", "emit 1;", call=print_nothing), "name", None),
            (lambda client: client.unwatch("w"), "none", None),
            (lambda client: client.raw("go"), "none", None),
            (lambda client: client.raw("fly"), "verb", None),
            (lambda client: client.raw("try 17 emit 1;"), "verb", None),
        ]
        with served(1) as port, connect(port) as client:
            client.watch("twice", "emit 0;", call=print_nothing)
            for ask, cause, column in rows:
                with self.assertRaises(diamond.Refused) as caught:
                    ask(client)
                self.assertEqual((caught.exception.cause, caught.exception.column), (cause, column))
            client.raw("begin emit 1;")
            with self.assertRaises(diamond.Refused) as caught:
                client.do("emit 1;")
            self.assertEqual(caught.exception.cause, "busy")
            self.assertEqual(client.raw("drop"), "dropped")
            self.assertEqual(client.do("emit 1;"), diamond.Answer(1, "ok", [1]))

    def test_late_ahead_and_full(self):
        with served(1, "--window", "1", "--limit", "3") as port, connect(port) as client:
            for number in (1, 2, 3):
                self.assertEqual(client.do(NEXT).number, number)
            self.assertEqual(client.look('emit counter("x").get();'), diamond.Answer(3, "ok", [3]))
            self.assertEqual(client.look('emit counter("x").get();', at=2), diamond.Answer(2, "ok", [2]))
            rows = [
                (lambda: client.look('emit counter("x").get();', at=1), "late", [1, 2]),
                (lambda: client.look("emit 1;", at=4), "ahead", [4, 3]),
                (lambda: client.do("emit 1;"), "full", [3]),
            ]
            for ask, cause, numbers in rows:
                with self.assertRaises(diamond.Refused) as caught:
                    ask()
                self.assertEqual((caught.exception.cause, caught.exception.numbers), (cause, numbers))
                self.assertIsNone(caught.exception.column)

    def test_bodies_end_in_four_ways(self):
        with served(1) as port, connect(port) as client:
            self.assertEqual(client.do('emit 1; emit true; emit "a"; emit ["b"];'), diamond.Answer(1, "ok", [1, True, "a", ["b"]]))
            self.assertEqual(client.do('counter("x").add(1); fail "no";'), diamond.Answer(2, "fail", [], "no"))
            turns = "let l = ?; for a in l { for b in l { for c in l { } } }"
            self.assertEqual(client.do(turns, [""] * 30), diamond.Answer(3, "spent", []))
            self.assertEqual(client.do("emit ? + ?;", "a" * 600, "a" * 600), diamond.Answer(4, "big", []))
            self.assertEqual(client.look('emit counter("x").get();').items, [0])

    def test_texts_of_any_bytes_come_back(self):
        pieces = [EVERY_BYTE, EVERY_BYTE[::-1], b"", b"\xc3", b"\xc3\xa9", b'"; fail "', b"\\", b"\\x41\\n", b" => ", b"?"]
        texts = [piece.decode("utf-8", "surrogateescape") for piece in pieces]
        with served(1) as port, connect(port) as client:
            for piece, text in zip(pieces, texts):
                answer = client.do('let t = ?; text("t").put(t); list(t).push(t); emit t; emit list(t).all(); emit len(t);', piece)
                self.assertEqual(answer.items, [text, [text], len(piece)])
                self.assertEqual(client.look('emit text("t").get();').items[0].encode("utf-8", "surrogateescape"), piece)
                self.assertEqual(client.do("fail ?;", text).text, text)
            self.assertEqual(client.look("emit ?;", texts[2:]).items, [texts[2:]])

    def test_an_abort_has_texts_of_any_bytes(self):
        text, quoted = EVERY_BYTE.decode("utf-8", "surrogateescape"), diamond.quote(EVERY_BYTE)
        with served(2) as port, connect(port) as one, connect(port) as two:
            one.raw(f"begin if set({quoted}).has({quoted}) {{ counter({quoted}).add(1); }}")
            one.raw("step")
            two.do("set(?).add(?);", text, EVERY_BYTE)
            with self.assertRaises(diamond.Aborted) as caught:
                one.raw("go")
        fault = caught.exception
        self.assertEqual((fault.address, fault.observation, fault.base), (("set", text), ("has", text), 0))
        self.assertEqual((fault.part, fault.commit), (("add", text), 1))

    def test_numbers_of_64_bits_come_back(self):
        numbers = [0, 1, -1, 2**53 + 1, 2**63 - 1, -(2**63)]
        with served(1) as port, connect(port) as client:
            for number in numbers:
                self.assertEqual(client.do('counter("x").put(?); emit counter("x").get() * 1;', number).items, [number])

    def test_two_screens(self):
        seen = []
        with served(2) as port, connect(port) as writer, connect(port) as screen:
            screen.watch("left", 'emit counter("left").get();', call=seen.append)
            screen.watch("both", 'emit counter("left").get() + counter("right").get();', call=seen.append)
            writer.watch("other", 'emit set("s").has(?);', "a", call=seen.append)
            self.assertEqual([(report.name, report.items) for report in seen], [("left", [0]), ("both", [0]), ("other", [False])])
            seen.clear()
            writer.do('counter("left").add(5);')
            writer.do('counter("left").add(-1);')
            self.assertEqual((screen.sync(), writer.sync()), (2, 2))
            self.assertEqual(seen, [diamond.Answer(2, "ok", [4], None, "left"), diamond.Answer(2, "ok", [4], None, "both")])
            seen.clear()
            writer.do('counter("right").add(1); set("s").add("b");')
            screen.unwatch("left")
            self.assertEqual((screen.sync(), writer.sync()), (3, 3))
            self.assertEqual(seen, [diamond.Answer(3, "ok", [5], None, "both")])
            self.assertEqual((screen.sync(), len(seen)), (3, 1))

    def test_reports_before_a_new_watch_are_called(self):
        seen = []
        with served(1) as port, connect(port) as client:
            client.watch("a", 'emit counter("x").get();', call=seen.append)
            client.do(NEXT)
            client.watch("b", "emit 7;", call=seen.append)
        self.assertEqual([(report.name, report.number, report.items) for report in seen], [("a", 0, [0]), ("a", 1, [1]), ("b", 1, [7])])

    def test_a_call_that_fails_takes_no_report_from_others(self):
        seen = []
        faults = [ZeroDivisionError, None, KeyError]

        def call(report):
            seen.append(report.name)
            if report.number and (fault := faults[int(report.name[1])]):
                raise fault(report.name)

        with served(1) as port, connect(port) as client:
            for name in ("w0", "w1", "w2"):
                client.watch(name, 'emit counter("x").get();', call=call)
            client.do(NEXT)
            with self.assertRaises((ZeroDivisionError, KeyError)):
                client.sync()
            self.assertEqual(seen[3:], ["w0", "w1", "w2"])
            self.assertEqual(client.sync(), 1)

    def test_a_wait_ends_with_a_commit(self):
        seen, ends = [], []
        with served(2) as port, connect(port) as writer, connect(port, timeout=2) as screen:
            screen.watch("x", 'emit counter("x").get();', call=seen.append)
            waiting = threading.Thread(target=lambda: ends.append(screen.wait()))
            waiting.start()
            time.sleep(2.5)  # a wait has no time limit
            self.assertEqual(ends, [])
            with self.assertRaises(diamond.NotSent):
                screen.look("emit 1;")
            writer.do(NEXT)
            waiting.join(30)
            self.assertEqual(screen.look("emit 1;").items, [1])
        self.assertEqual(ends, [1])
        self.assertEqual([report.items for report in seen], [[0], [1]])

    @unittest.skipUnless(os.path.exists("/proc/self/stat"), "how much of the processors a server takes is read in /proc")
    def test_who_waits_takes_no_processor_time(self):
        """A server whose waiting sessions looked again and again would take all processors."""
        server, port = start(9)
        self.addCleanup(stop, server)
        ends = []
        with contextlib.ExitStack() as clients:
            writer, *screens = [clients.enter_context(connect(port)) for _ in range(9)]
            waiting = [threading.Thread(target=lambda screen=screen: ends.append(screen.wait())) for screen in screens]
            for thread in waiting:
                thread.start()
            time.sleep(0.5)
            before = processor_seconds(server)
            time.sleep(2)
            self.assertLess(processor_seconds(server) - before, 0.2)
            self.assertEqual(ends, [])
            writer.do(NEXT)
            for thread in waiting:
                thread.join(30)
        self.assertEqual(ends, [1] * 8)
        self.assertEqual(server.wait(30), 0)

    def test_closing_ends_a_wait(self):
        ends = []
        server, port = start(2)
        self.addCleanup(stop, server)
        with connect(port) as writer, connect(port) as screen:

            def wait():
                with self.assertRaises(diamond.Lost):
                    screen.wait()
                ends.append("lost")

            waiting = threading.Thread(target=wait)
            waiting.start()
            time.sleep(0.2)
            screen.close()
            waiting.join(30)
            self.assertEqual(ends, ["lost"])
            writer.do("emit 1;")
        self.assertEqual(server.wait(30), 0)

    def test_many_clients_count_right(self):
        def count(port):
            with connect(port) as client:
                for _ in range(25):
                    while True:
                        with contextlib.suppress(diamond.Aborted):
                            client.try_(4, NEXT)
                            break

        with served(5) as port, connect(port) as client:
            threads = [threading.Thread(target=count, args=(port,)) for _ in range(4)]
            for thread in threads:
                thread.start()
            for thread in threads:
                thread.join()
            self.assertEqual(client.look('emit counter("x").get();'), diamond.Answer(100, "ok", [100]))


class Ends(unittest.TestCase):
    def killed_behind(self, ask):
        """The server is stopped, is sent a line, and is killed before it reads it."""
        server, port = start(1)
        self.addCleanup(stop, server)
        client = connect(port)
        self.addCleanup(client.close)
        self.assertEqual(client.do("emit 1;").number, 1)
        server.send_signal(signal.SIGSTOP)
        os.waitpid(server.pid, os.WUNTRACED)  # until it has stopped
        killing = threading.Timer(0.3, server.kill)
        killing.start()
        try:
            ask(client)
        finally:
            killing.join()

    def test_a_commit_that_was_sent_and_not_answered_is_unknown(self):
        with self.assertRaises(diamond.Unknown) as caught:
            self.killed_behind(lambda client: client.do(NEXT))
        self.assertEqual(caught.exception.line, f"do {NEXT}")
        with self.assertRaises(diamond.Unknown):
            self.killed_behind(lambda client: client.try_(3, NEXT))

    def test_a_look_that_was_not_answered_is_lost(self):
        with self.assertRaises(diamond.Lost):
            self.killed_behind(lambda client: client.look("emit 1;"))

    def test_a_commit_to_a_server_that_is_gone_is_not_sent(self):
        server, port = start(1)
        self.addCleanup(stop, server)
        with connect(port) as client:
            client.do("emit 1;")
            server.kill()
            server.wait()
            time.sleep(0.1)
            with self.assertRaises(diamond.Lost):
                client.do("emit 1;")

    def test_half_of_a_line_is_no_line(self):
        """A client that goes in the middle of a line leaves nothing that the server could take as one."""
        with served(2, faulted=1) as port, connect(port) as other:
            client = connect(port)
            client.do("emit 1;")
            client._socket.sendall(b'do counter("x").add(1);')
            client._input.close()
            client._socket.close()
            time.sleep(0.2)
            self.assertEqual(other.look('emit counter("x").get();'), diamond.Answer(1, "ok", [0]))

    def test_bad_input_is_not_sent(self):
        fitting = "emit 1;".ljust(4096 - len("do "))
        rows = [
            lambda client: client.do(None),
            lambda client: client.do(b"emit 1;"),
            lambda client: client.do("emit 1;\nemit 2;"),
            lambda client: client.do(f"{fitting} "),
            lambda client: client.do("emit ?;", "\u00e9" * 2048),
            lambda client: client.do("emit \ud800;"),
            lambda client: client.look("emit 1;\n"),
            lambda client: client.look("emit 1;", at=-1),
            lambda client: client.look("emit 1;", at=1.5),
            lambda client: client.look("emit 1;", at="1"),
            lambda client: client.try_(0, "emit 1;"),
            lambda client: client.try_(17, "emit 1;"),
            lambda client: client.try_(3.0, "emit 1;"),
            lambda client: client.try_(3, None),
            lambda client: client.look(None),
            lambda client: client.watch("Seats", "emit 1;", call=print_nothing),
            lambda client: client.watch("a b", "emit 1;", call=print_nothing),
            lambda client: client.watch("", "emit 1;", call=print_nothing),
            lambda client: client.watch("a\n", "emit 1;", call=print_nothing),
            lambda client: client.watch("a" * 33, "emit 1;", call=print_nothing),
            lambda client: client.watch(None, "emit 1;", call=print_nothing),
            lambda client: client.watch("a", None, call=print_nothing),
            lambda client: client.watch("a", "emit 1;", call=None),
            lambda client: client.unwatch("1st"),
            lambda client: client.unwatch(None),
            lambda client: client.raw(None),
            lambda client: client.raw(""),
            lambda client: client.raw(" \t"),
            lambda client: client.raw("# do emit 1;"),
            lambda client: client.raw("sync"),
            lambda client: client.raw("watch w emit 1;"),
            lambda client: client.raw("seen\nseen"),
        ]
        with served(1) as port, connect(port) as client:
            for ask in rows:
                with self.assertRaises(diamond.NotSent):
                    ask(client)
            self.assertEqual(client.raw("seen"), "seen 0")
            self.assertEqual(client.do(fitting), diamond.Answer(1, "ok", [1]))
            self.assertEqual(client.watch("a" * 32, "emit 1;", call=print_nothing).name, "a" * 32)
        with self.assertRaises(diamond.Lost):
            client.do("emit 1;")


class Terminal(unittest.TestCase):
    def test_each_line_of_a_script_is_answered_as_it_is_typed(self):
        ours, theirs = pty.openpty()
        self.addCleanup(os.close, ours)
        run = subprocess.Popen([PROGRAM, "run"], stdin=theirs, stdout=theirs, stderr=theirs)
        os.close(theirs)
        self.addCleanup(run.wait)
        self.addCleanup(run.kill)
        rows = [
            ('1 do set("seats").add("A1");', "1 commit 1 ok"),
            ('2 look emit set("seats").all();', '2 at 1 ok ["A1"]'),
            ("2 sit", "2 refused verb"),
        ]
        for line, reply in rows:
            os.write(ours, f"{line}\n".encode())
            wanted, shown = f"{line}\r\n{reply}\r\n", ""
            while len(shown) < len(wanted) and select.select([ours], [], [], 30)[0]:
                shown += os.read(ours, 4096).decode()
            self.assertEqual(shown, wanted)
        os.write(ours, b"\x04")
        self.assertEqual(run.wait(30), 0)


class Audits(unittest.TestCase):
    """A file that a server has written, as an auditor sees it. An audit changes no byte of it."""

    def setUp(self):
        folder = tempfile.TemporaryDirectory()
        self.addCleanup(folder.cleanup)
        self.path = pathlib.Path(folder.name) / "sale.journal"

    def audited(self, *words):
        """The status of an audit and the lines that it wrote."""
        before = self.path.read_bytes()
        done = subprocess.run([PROGRAM, "audit", "--file", self.path, *words], capture_output=True, text=True, timeout=30)
        self.assertEqual(self.path.read_bytes(), before)
        return done.returncode, done.stdout.splitlines()

    def sold(self):
        """A file of three commits by two clients."""
        with served(2, "--file", str(self.path)) as port, connect(port) as ann, connect(port) as bob:
            ann.do('set("seats").add("A1"); counter("left").put(1);')
            ann.do(SALE, "A1", "A1")
            bob.do(SALE, "A1", "A1")

    def test_a_served_file_is_legal(self):
        self.sold()
        self.assertEqual(self.audited(), (0, ["legal 3"]))
        self.assertEqual(self.audited("--at", "1"), (0, ["legal 3", 'counter("left") 1', 'set("seats") ["A1"]']))
        self.assertEqual(self.audited("--at=3"), (0, ["legal 3", 'counter("left") 1', 'set("seats") []']))
        self.assertEqual(self.audited("--at", "4"), (0, ["legal 3", "ahead 4 3"]))

    def test_another_outcome_is_found(self):
        self.sold()
        self.path.write_bytes(self.path.read_bytes().replace(b"\x00\x00\x00\x05yours", b"\x00\x00\x00\x05ours!"))
        self.assertEqual(self.audited("--at", "1"), (11, ["broken 2 outcome"]))

    def test_a_torn_end_is_not_mended(self):
        self.sold()
        whole = self.path.read_bytes()
        self.path.write_bytes(whole[:-1])
        self.assertEqual(self.audited(), (0, ["legal 3"]))
        self.path.write_bytes(whole[:-2])
        self.assertEqual(self.audited(), (0, ["legal 2"]))

    def test_another_file_is_no_journal(self):
        self.path.write_bytes(b"#!/bin/sh\necho no journal\n")
        self.assertEqual(self.audited(), (7, []))

    def test_no_file_is_made(self):
        done = subprocess.run([PROGRAM, "audit", "--file", self.path], capture_output=True, text=True, timeout=30)
        self.assertEqual((done.returncode, done.stdout), (6, ""))
        self.assertFalse(self.path.exists())

    def test_a_file_that_is_served_is_left_alone(self):
        with served(1, "--file", str(self.path)) as port, connect(port) as ann:
            ann.do("emit 1;")
            self.assertEqual(self.audited(), (6, []))

    def test_eight_sessions_under_load_are_legal(self):
        times = 25
        with contextlib.ExitStack() as stack:
            port = stack.enter_context(served(8, "--file", str(self.path)))
            clients = [stack.enter_context(connect(port)) for _ in range(8)]

            def count(client):
                for _ in range(times):
                    while True:
                        with contextlib.suppress(diamond.Aborted):
                            client.try_(16, NEXT)
                            break

            threads = [threading.Thread(target=count, args=(client,)) for client in clients]
            for thread in threads:
                thread.start()
            for thread in threads:
                thread.join()
        commits = 8 * times
        self.assertEqual(self.audited("--at", str(commits)), (0, [f"legal {commits}", f'counter("x") {commits}']))


if __name__ == "__main__":
    unittest.main()
