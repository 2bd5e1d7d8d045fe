"""The networks that the test cases start from."""

from reference import Leg, Network, Window


def four_stops():
    """The four-stop network of the format's worked example."""
    return Network(
        depot=0,
        sink=3,
        windows=[Window(0, 0), Window(2, 5), Window(1, 9), Window(4, 10)],
        rows=[
            [Leg(1, 2, 4), Leg(2, 3, 1)],
            [Leg(3, 2, -3), Leg(2, 1, -2)],
            [Leg(1, 1, -2), Leg(3, 4, 2)],
            [],
        ],
    )


def one():
    """One node, open all the time, no leg."""
    return Network(depot=0, sink=0, windows=[Window(0, 1_000_000)], rows=[[]])


def circle(n):
    """n nodes, each with one leg to the next, the last one's back to node 0."""
    return Network(
        depot=0,
        sink=n - 1,
        windows=[Window(i, 1000 + i) for i in range(n)],
        rows=[[Leg((i + 1) % n, i + 1, i - 21)] for i in range(n)],
    )


def wide():
    """Three nodes with 41, 2 and 41 legs; the second row straddles the two leg blocks."""
    legs = [Leg(j % 3, j + 1, 1000 - j) for j in range(84)]
    return Network(depot=0, sink=2, windows=[Window(0, 1000)] * 3, rows=[legs[:41], legs[41:43], legs[43:]])


NAMED = {
    "f": four_stops(),
    "one": one(),
    "full": circle(42),     # exactly one full node block and one full leg block
    "over": circle(43),     # one record too many for one block, of each kind
    "wide": wide(),
}
