"""An auction of a vase: three people bid, a screen shows the highest bid, and the seller waits for the least price.

    ./diamond serve --address 127.0.0.1:4000 --sessions 5
    python3 clients/examples/auction.py 127.0.0.1 4000

The peak `bid` has the highest bid, the text `leader` says whose it is, and the list `bids` has all that counted.
docs/AUCTION.md explains it.
"""
import contextlib
import pathlib
import random
import sys
import threading
import time

sys.path.insert(0, str(pathlib.Path(__file__).resolve().parents[1] / "python"))
import diamond

FIRST, LEAST = 100, 150  # where the vase begins, and what the seller takes at least
BIDS = {"ann": [100, 140, 200], "bob": [100, 120, 180], "cay": [150]}

BID = (
    'let mine = ?; let who = ?; if bool("closed").get() { fail "closed"; } if peak("bid").over(mine - 1) { fail "too low"; }'
    ' peak("bid").raise(mine); text("leader").put(who); list("bids").push(who + " " + str(mine));'
)

HOLD = 'emit "hold"; emit text("leader").get(); emit peak("bid").get();'

CLOSE = 'bool("closed").put(true); emit text("leader").get(); emit peak("bid").get();'

SHOW = 'emit peak("bid").get(); emit text("leader").get(); emit bool("closed").get();'

RESERVE = 'emit peak("bid").over(?);'


def say(line):
    """Prints a line in one piece, since several threads do."""
    print(f"{line}\n", end="", flush=True)


def answered(client, mine, name):
    """The answer to a bid, which is made again while the auctioneer holds the auction."""
    while True:
        with contextlib.suppress(diamond.Held):
            return client.try_(16, BID, mine, name)
        time.sleep(0.1)


def bid(host, port, name, amounts):
    """Makes bids, each after some thought."""
    with diamond.connect(host, port) as client:
        for mine in amounts:
            time.sleep(random.random())
            answer = answered(client, mine, name)
            say(f"{name} bids {mine}: {answer.text or 'it counts'}")


def ask_bank(leader, price):
    """Asks whether the leader can pay. The bank takes its time, and says yes to all."""
    time.sleep(0.5)
    say(f"bank: {leader} can pay {price}")


def show(host, port):
    """Shows each new highest bid and whose it is, until the auction is closed."""
    ends = []

    def draw(report):
        amount, leader, closed = report.items
        ends.append(closed)
        say(f"screen: {amount} {leader or 'nobody'}{' closed' * closed}")

    with diamond.connect(host, port) as screen:
        screen.watch("bid", SHOW, call=draw)
        while not ends[-1]:
            screen.wait()


def sell(seller):
    """The seller's screen, and the hammer, which falls once the least price was bid and can be paid: says whose the vase is."""
    told = []

    def tell(report):
        told.extend(report.items)
        say(f"seller: {LEAST} is {'bid' if told[-1] else 'not bid yet'}")

    seller.watch("reserve", RESERVE, LEAST - 1, call=tell)
    while not told[-1]:
        seller.wait()
    time.sleep(1)
    _, leader, price = seller.try_(16, HOLD).items
    ask_bank(leader, price)
    seller.do(CLOSE)  # leader and price are as they were held: no other bid has counted since
    seller.sync()  # tells nothing: no bid past the least price touches this screen
    return f"sold to {leader} for {price}"


def main(host, port):
    place = host, int(port)
    others = [threading.Thread(target=bid, args=(*place, name, amounts)) for name, amounts in BIDS.items()]
    others.append(threading.Thread(target=show, args=place))
    with diamond.connect(*place) as seller:
        seller.do('peak("bid").raise(?);', FIRST - 1)
        for other in others:
            other.start()
        sold = sell(seller)
        for other in others:
            other.join()
        bids = seller.look('emit list("bids").all();').items[0]
    say(f"bids: {', '.join(bids)}\n{sold}")


if __name__ == "__main__":
    main(*sys.argv[1:])
