"""A board of cards that two people work on, and a screen that shows it.

    ./diamond serve --address 127.0.0.1:4000 --sessions 3
    python3 clients/examples/board.py 127.0.0.1 4000

The list `cards` has the cards in their order, and the hash `state` what each of them is. docs/BOARD.md explains it.
"""
import pathlib
import sys
import threading

sys.path.insert(0, str(pathlib.Path(__file__).resolve().parents[1] / "python"))
import diamond

CARDS = ["draw the hall", "print the tickets", "sweep the stage"]

ADD = 'let card = ?; if hash("state").has(card) { fail "is there"; } list("cards").push(card); hash("state").put(card, "open");'

TAKE = (
    'let card = ?; let state = hash("state").get(card);'
    ' if state == "open" { hash("state").put(card, ?); emit "yours"; } else { fail state; }'
)

DONE = 'let card = ?; let by = ?; if hash("state").get(card) == by { hash("state").put(card, by + ", done"); }'

SHOW = 'for card in list("cards").all() { emit card + ": " + hash("state").get(card); }'


def say(line):
    """Prints a line in one piece, since several threads do."""
    print(f"{line}\n", end="", flush=True)


def edit(host, port, name):
    """Adds the cards that are missing, and takes each card that is open."""
    with diamond.connect(host, port) as client:
        for card in CARDS:
            client.try_(16, ADD, card)
        for card in CARDS:
            taken = client.try_(16, TAKE, card, name)
            if taken.outcome == "ok":
                client.try_(16, DONE, card, name)
                say(f"{name} did: {card}")
            else:
                say(f"{name} leaves it: {card} ({taken.text})")


def show(host, port):
    """Says whenever the board has changed, until all is done, and gives what it then shows."""
    board = []

    def draw(report):
        board[:] = report.items

    with diamond.connect(host, port) as screen:
        screen.watch("board", SHOW, call=draw)
        while len(board) < len(CARDS) or not all(line.endswith(", done") for line in board):
            number = screen.wait()
            say(f"after {number} commits: {'; '.join(board)}")
    return board


def main(host, port):
    editors = [threading.Thread(target=edit, args=(host, int(port), name)) for name in ("ann", "bob")]
    for editor in editors:
        editor.start()
    board = show(host, int(port))
    for editor in editors:
        editor.join()
    print("\n".join(board))


if __name__ == "__main__":
    main(*sys.argv[1:])
