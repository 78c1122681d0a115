"""A poll with live totals: eight people vote, each once, while a screen counts.

    ./diamond serve --address 127.0.0.1:4000 --sessions 9
    python3 clients/examples/poll.py 127.0.0.1 4000

Each option has a counter, and the set `voters` says who has voted. docs/POLL.md explains it.
"""
import pathlib
import random
import sys
import threading
import time

sys.path.insert(0, str(pathlib.Path(__file__).resolve().parents[1] / "python"))
import diamond

OPTIONS = ["tea", "coffee"]
VOTES = {"ann": "tea", "bob": "coffee", "cay": "tea", "dan": "tea", "eve": "coffee", "fay": "tea", "gus": "coffee", "hal": "tea"}

VOTE = (
    'let who = ?; if set("voters").has(who) { fail "you have voted"; }'
    ' set("voters").add(who); counter("votes for " + ?).add(1);'
)

TOTALS = 'for option in ? { emit option; emit counter("votes for " + option).get(); }'


def vote(host, port, name, option):
    """Thinks for a while, votes, and tries to vote once more."""
    time.sleep(random.random())
    with diamond.connect(host, port) as client:
        first = client.try_(16, VOTE, name, option)
        again = client.try_(16, VOTE, name, option)
        assert (first.outcome, again.outcome, again.text) == ("ok", "fail", "you have voted")


def show(host, port):
    """Shows the totals whenever one has changed, until all have voted."""
    totals = {}

    def draw(report):
        totals.update(zip(report.items[::2], report.items[1::2]))
        print(", ".join(f"{option} {count}" for option, count in totals.items()), flush=True)

    with diamond.connect(host, port) as screen:
        screen.watch("totals", TOTALS, OPTIONS, call=draw)
        while sum(totals.values()) < len(VOTES):
            screen.wait()


def main(host, port):
    voters = [threading.Thread(target=vote, args=(host, int(port), *choice)) for choice in VOTES.items()]
    for voter in voters:
        voter.start()
    show(host, int(port))
    for voter in voters:
        voter.join()


if __name__ == "__main__":
    main(*sys.argv[1:])
