"""Tries the seat sale's web server against the program: that of the variable DIAMOND, else crates/diamond/out/diamond.

What a browser shows is tried by `examples/seats/browser`.
"""
import contextlib
import http.client
import json
import pathlib
import subprocess
import sys
import threading
import unittest

sys.path.insert(0, str(pathlib.Path(__file__).resolve().parents[2] / "clients/python"))
import server
import test_diamond


class News:
    """A page that is open: its events, one by one."""

    def __init__(self, port):
        self._link = http.client.HTTPConnection("127.0.0.1", port, timeout=30)
        self._link.request("GET", "/events")
        self._lines = self._link.getresponse()

    def next(self, kind):
        """The next event, which is of this kind."""
        lines = [self._lines.readline().decode().rstrip("\n") for _ in range(4)]
        assert lines[0] == "retry: 1000" and lines[3] == "", lines
        assert lines[1] == f"event: {kind}", lines
        return json.loads(lines[2].removeprefix("data: "))

    def until(self, **facts):
        """The first hall from here on that says so."""
        while True:
            hall = self.next("hall")
            if facts.items() <= hall.items():
                return hall

    def close(self):
        self._lines.close()
        self._link.close()


class Sale(unittest.TestCase):
    def setUp(self):
        self.store, self.store_port = test_diamond.start(1000)
        self.addCleanup(test_diamond.stop, self.store)
        self.port = self.served(self.store_port)

    def served(self, store_port):
        web = server.Server(("127.0.0.1", 0), ("127.0.0.1", store_port))
        thread = threading.Thread(target=web.serve_forever, kwargs={"poll_interval": 0.05})
        thread.start()
        self.addCleanup(web.server_close)
        self.addCleanup(thread.join)
        self.addCleanup(web.shutdown)
        return web.server_port

    def opened(self):
        """A page, and its number."""
        news = News(self.port)
        self.addCleanup(news.close)
        return news, news.next("page")["number"]

    def sent(self, method, path, body=None, **headers):
        """An answer's status, and what it says."""
        with contextlib.closing(http.client.HTTPConnection("127.0.0.1", self.port, timeout=30)) as link:
            link.request(method, path, body, headers)
            answer = link.getresponse()
            return answer.status, answer.read().decode()

    def clicked(self, page, seat, name, wish="buy"):
        status, said = self.sent("POST", "/click", json.dumps({"page": page, "seat": seat, "name": name, "wish": wish}))
        self.assertEqual(status, 200, said)
        return json.loads(said)

    def test_the_page_is_there(self):
        status, text = self.sent("GET", "/?name=ann")
        self.assertEqual((status, text.splitlines()[0]), (200, "<!doctype html>"))
        self.assertEqual(self.sent("GET", "/seats")[0], 404)
        self.assertEqual(self.sent("POST", "/")[0], 404)

    def test_a_seat_is_sold_and_seen_and_given_back(self):
        ann, number = self.opened()
        self.assertEqual(ann.next("hall"), {"commits": 1, "sold": {}, "sales": 0, "returns": 0, "here": 1})
        bob, other = self.opened()
        ann.until(here=2)
        self.assertEqual(self.clicked(number, "A1", "ann"), {"done": True, "by": None, "commit": 3})
        for news in (ann, bob):
            self.assertEqual(news.until(commits=3), {"commits": 3, "sold": {"A1": "ann"}, "sales": 1, "returns": 0, "here": 2})
        self.assertEqual(self.clicked(other, "A1", "bob"), {"done": False, "by": "ann", "commit": 4})
        self.assertEqual(self.clicked(other, "A1", "bob", "return"), {"done": False, "by": "ann", "commit": 5})
        self.assertEqual(self.clicked(number, "A1", "ann", "return"), {"done": True, "by": None, "commit": 6})
        self.assertEqual(self.clicked(number, "A1", "ann", "return"), {"done": False, "by": "", "commit": 7})
        self.assertEqual(self.clicked(other, "A1", "bob"), {"done": True, "by": None, "commit": 8})
        for news in (ann, bob):
            self.assertEqual(news.until(sales=2), {"commits": 8, "sold": {"A1": "bob"}, "sales": 2, "returns": 1, "here": 2})

    def test_of_two_who_want_a_seat_one_has_it(self):
        pages = {name: self.opened()[1] for name in ("ann", "bob")}
        for seat in server.SEATS[:20]:
            start, told = threading.Barrier(2), {}

            def race(name):
                start.wait()
                told[name] = self.clicked(pages[name], seat, name)

            racers = [threading.Thread(target=race, args=(name,)) for name in pages]
            for racer in racers:
                racer.start()
            for racer in racers:
                racer.join()
            winners = [name for name in pages if told[name]["done"]]
            self.assertEqual(len(winners), 1, told)
            self.assertEqual([told[name]["by"] for name in pages if name not in winners], winners)

    def test_a_seat_that_another_client_holds_is_left(self):
        _, number = self.opened()
        with test_diamond.connect(self.store_port) as other:
            held = other.do('emit "hold"; emit hash("sold").has("A1");').number
            self.assertEqual(self.clicked(number, "A1", "ann")["again"], f"another client holds this seat, by commit {held}: click once more")
            self.assertTrue(self.clicked(number, "A2", "ann")["done"])
            other.do("emit 1;")
        self.assertTrue(self.clicked(number, "A1", "ann")["done"])

    def test_a_page_that_goes_is_counted_no_longer(self):
        ann, _ = self.opened()
        bob, _ = self.opened()
        ann.until(here=2)
        bob.close()
        ann.until(here=1)

    def test_names_are_texts_and_no_programs(self):
        ann, number = self.opened()
        for seat, name in zip(server.SEATS, ['"; fail "', "\\", "?", "<b>ann</b>", "\u00e9\U0001f600"]):
            self.assertTrue(self.clicked(number, seat, name)["done"])
            self.assertEqual(self.clicked(number, seat, "bob")["by"], name)
        self.assertEqual(ann.until(sales=5)["sold"]["A5"], "\u00e9\U0001f600")

    def test_bad_input_is_named(self):
        _, number = self.opened()
        click = {"page": number, "seat": "A1", "name": "ann", "wish": "buy"}
        rows = [
            ("", "a click is an object in JSON"),
            ("[" * 900, "a click is an object in JSON"),
            (b"\xff", "a click is an object in JSON"),
            ("[]", "a click is an object in JSON"),
            (click | {"wish": "steal"}, "a wish is buy or return, and not 'steal'"),
            (click | {"seat": "Z9"}, "there is no seat 'Z9'"),
            (click | {"seat": ["A1"]}, "there is no seat ['A1']"),
            (click | {"name": " "}, "a name has 1 to 20 characters that can be seen: ' '"),
            (click | {"name": "a\n"}, r"a name has 1 to 20 characters that can be seen: 'a\n'"),
            (click | {"name": "a" * 21}, f"a name has 1 to 20 characters that can be seen: '{'a' * 21}'"),
            (click | {"name": "\ud800"}, r"a name has 1 to 20 characters that can be seen: '\ud800'"),
            (click | {"name": 7}, "a name has 1 to 20 characters that can be seen: 7"),
            (click | {"page": "99"}, "no page '99' is open: load it anew"),
            (click | {"page": [number]}, f"no page ['{number}'] is open: load it anew"),
        ]
        for body, said in rows:
            text = json.dumps(body) if isinstance(body, dict) else body
            self.assertEqual(self.sent("POST", "/click", text), (400, json.dumps({"error": said})))
        for length in ("", "-1", "1000", "one"):
            status, said = self.sent("POST", "/click", **{"Content-Length": length})
            error = f"a click says its length, of at most 999 bytes, and not {length!r}"
            self.assertEqual((status, json.loads(said)["error"]), (400, error))
        self.assertTrue(self.clicked(number, "A1", "a" * 20)["done"])

    def test_a_store_that_goes_away_is_told(self):
        ann, number = self.opened()
        ann.next("hall")
        self.store.kill()
        self.store.wait()
        self.assertRegex(ann.next("gone")["why"], "(?i)connection")
        status, said = self.sent("POST", "/click", json.dumps({"page": number, "seat": "A1", "name": "ann", "wish": "buy"}))
        self.assertIn((status, list(json.loads(said))), [(503, ["error"]), (400, ["error"])])
        again = News(self.port)
        self.addCleanup(again.close)
        self.assertRegex(again.next("gone")["why"], r"^no store answers at 127\.0\.0\.1:\d+: ")


class Words(unittest.TestCase):
    def test_words_that_do_not_fit_are_named(self):
        rows = [
            (["127.0.0.1", "seats"], "argument port: not a port from 0 to 65535: 'seats'"),
            (["127.0.0.1", "4000", "--web", "65536"], "argument --web: not a port from 0 to 65535: '65536'"),
            (["127.0.0.1"], "the following arguments are required: port"),
        ]
        for words, said in rows:
            command = [sys.executable, str(pathlib.Path(server.__file__)), *words]
            run = subprocess.run(command, capture_output=True, text=True, timeout=60)
            self.assertEqual(run.returncode, 2)
            self.assertIn(said, run.stderr)


if __name__ == "__main__":
    unittest.main()
