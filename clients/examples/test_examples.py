"""Tries the examples against the program: that of the variable DIAMOND, else crates/diamond/out/diamond.

Each stands as a script, NAME.txt, which is answered as its page says, and as a program over the Python client, NAME.py.
"""
import pathlib
import re
import subprocess
import sys
import unittest

HERE = pathlib.Path(__file__).resolve().parent
TOP = HERE.parents[1]
sys.path.insert(0, str(TOP / "clients/python"))
import test_diamond


def script_of(page):
    """The lines of a page's script, and its replies: what stands in fences without a word behind them."""
    blocks = re.findall(r"^```(\w*)\n(.*?)^```$", page.read_text(encoding="utf-8"), re.M | re.S)
    rows = [row.rpartition(" => ") for word, block in blocks if not word for row in block.splitlines()]
    return [line.strip() for line, _, _ in rows if line.strip()], [reply for _, _, reply in rows]


class Scripts(unittest.TestCase):
    def answered(self, name):
        text = (HERE / f"{name}.txt").read_text(encoding="utf-8")
        lines, replies = script_of(TOP / "docs" / f"{name.upper()}.md")
        self.assertGreater(len(lines), 10)
        self.assertEqual([line for line in text.splitlines() if line and line[0] != "#"], lines)
        run = subprocess.run([test_diamond.PROGRAM, "run"], input=text, capture_output=True, text=True, timeout=60)
        self.assertEqual((run.returncode, run.stdout.splitlines()), (0, replies))

    def test_the_board(self):
        self.answered("board")

    def test_the_poll(self):
        self.answered("poll")

    def test_the_auction(self):
        self.answered("auction")


class Programs(unittest.TestCase):
    def shown(self, name, sessions):
        with test_diamond.served(sessions) as port:
            command = [sys.executable, str(HERE / f"{name}.py"), "127.0.0.1", str(port)]
            run = subprocess.run(command, capture_output=True, text=True, timeout=60)
        self.assertEqual((run.returncode, run.stderr), (0, ""))
        return run.stdout.splitlines()

    def test_the_board(self):
        said = self.shown("board", 3)
        for line, card in zip(said[-3:], ["draw the hall", "print the tickets", "sweep the stage"]):
            self.assertRegex(line, f"^{card}: (ann|bob), done$")
            self.assertEqual(sum(f"did: {card}" in other for other in said), 1)

    def test_the_poll(self):
        self.assertEqual(self.shown("poll", 9)[-1], "tea 5, coffee 3")

    def test_the_auction(self):
        said = self.shown("auction", 5)
        bids = [re.fullmatch("(ann|bob|cay) bids ([0-9]+): (it counts|too low|closed)", line) for line in said if " bids " in line]
        self.assertEqual(len(bids), 7)
        counted = sorted((int(bid[2]), bid[1]) for bid in bids if bid[3] == "it counts")
        price, leader = counted[-1]
        self.assertGreaterEqual(price, 150)
        self.assertEqual(said[-2:], [f"bids: {', '.join(f'{name} {amount}' for amount, name in counted)}", f"sold to {leader} for {price}"])
        self.assertEqual(said.count("seller: 150 is bid"), 1)
        self.assertEqual(said.count(f"bank: {leader} can pay {price}"), 1)
        *shown, end = [line for line in said if line.startswith("screen: ")]
        self.assertEqual(end, f"screen: {price} {leader} closed")
        rising = [f"screen: {amount} {name}" for amount, name in [(99, "nobody"), *counted]]
        self.assertEqual(shown, [line for line in rising if line in shown])


if __name__ == "__main__":
    unittest.main()
