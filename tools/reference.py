"""A model of the network image format, for working out what tests should expect.

It follows the rules of the format one by one and shares nothing with the engine: no tables, no code, no constants.
It favours being easy to compare with the rules over being fast.

An image is a sequence of blocks of 512 bytes. A fault is a triple (number, block, byte), where byte counts within
the block.
"""

from collections import namedtuple

Window = namedtuple("Window", "opens closes")
Leg = namedtuple("Leg", "head duration cost")

# windows: one Window for each node; rows: one list of Legs for each node
Network = namedtuple("Network", "depot sink windows rows")

BLOCK = 512         # bytes in a block
CONTENT = 4         # where the content starts
CHECKED = 508       # where the content ends and the check starts
RECORD = 12         # bytes in a record
RECORDS = 42        # records in a block
MODULUS = 65_521    # of both sums of the check

HEADER_KIND, NODE_KIND, LEG_KIND = 1, 2, 3

MOST_NODES = 1_000
MOST_LEGS = 20_000
MOST_TIME = 1_000_000           # the latest time and the longest duration
MOST_IMAGE_COST = 10_000_000    # the largest size of a cost in an image

# the numbers of the faults
SIZE, CHECK, FRAME, HEADER, NODE_TABLE, LEG_TABLE = 1, 2, 3, 4, 5, 6


# ---- numbers and the check ----

def unsigned(block, at, width):
    """The little-endian number in `width` bytes from byte `at`."""
    return sum(block[at + k] << (8 * k) for k in range(width))


def signed(block, at, width):
    """The same bytes read as two's complement."""
    value = unsigned(block, at, width)
    return value - (1 << (8 * width)) if value >> (8 * width - 1) else value


def little(value, width):
    """A number in `width` bytes, least first; a negative one in two's complement."""
    value %= 1 << (8 * width)
    return bytes((value >> (8 * k)) & 0xFF for k in range(width))


def sums(block508):
    """The plain and the weighted sum of the first 508 bytes of a block, not yet reduced."""
    first = list(block508[:CHECKED])
    assert len(first) == CHECKED
    return sum(first), sum((i + 1) * byte for i, byte in enumerate(first))


def check(block508):
    """The four bytes of the check: the plain sum, then the weighted one, each modulo 65,521 in two bytes."""
    plain, weighted = sums(block508)
    return little(plain % MODULUS, 2) + little(weighted % MODULUS, 2)


# ---- writing ----

def blocks_for(records):
    """How many blocks hold so many records."""
    return -(-records // RECORDS)


def made_block(kind, number, content):
    """A whole block: its frame, its content filled up with zeros, its check."""
    assert len(content) <= CHECKED - CONTENT
    body = bytes([kind, 0]) + little(number, 2) + content
    body += bytes(CHECKED - len(body))
    return body + check(body)


def encode(network):
    """The image of a network. A network that breaks a limit, or that an image cannot hold, is a ValueError."""
    n = len(network.windows)
    legs = [leg for row in network.rows for leg in row]
    m = len(legs)

    def need(holds, what):
        if not holds:
            raise ValueError(what)

    need(1 <= n <= MOST_NODES and len(network.rows) == n, "number of nodes")
    need(0 <= network.depot < n and 0 <= network.sink < n, "depot or sink")
    need(m <= MOST_LEGS, "number of legs")
    for w in network.windows:
        need(0 <= w.opens <= w.closes <= MOST_TIME, "window")
    for leg in legs:
        need(0 <= leg.head < n, "head")
        need(1 <= leg.duration <= MOST_TIME, "duration")
        need(abs(leg.cost) <= MOST_IMAGE_COST, "cost")

    node_records, first = [], 0
    for w, row in zip(network.windows, network.rows):
        node_records.append(little(w.opens, 4) + little(w.closes, 4) + little(first, 4))
        first += len(row)
    leg_records = [little(l.head, 2) + bytes(2) + little(l.duration, 4) + little(l.cost, 4) for l in legs]

    contents = [(HEADER_KIND, little(n, 2) + little(network.depot, 2) + little(network.sink, 2) + little(m, 4))]
    for kind, records in ((NODE_KIND, node_records), (LEG_KIND, leg_records)):
        for k in range(blocks_for(len(records))):
            contents.append((kind, b"".join(records[k * RECORDS:(k + 1) * RECORDS])))
    return b"".join(made_block(kind, number, content) for number, (kind, content) in enumerate(contents))


# ---- judging ----
#
# What a block holds is judged in the order of its bytes. Each of the three functions below goes through one kind of
# block and gives, for every field and then for every unused byte, where it starts and whether it is right. A field
# may be judged by those before it, never by a later one.

def block_of(image, number):
    return image[number * BLOCK:(number + 1) * BLOCK]


def header_parts(block):
    n = unsigned(block, 4, 2)
    yield 4, 1 <= n <= MOST_NODES
    yield 6, unsigned(block, 6, 2) < n      # depot
    yield 8, unsigned(block, 8, 2) < n      # sink
    yield 10, unsigned(block, 10, 4) <= MOST_LEGS
    for at in range(14, CHECKED):
        yield at, block[at] == 0


def node_parts(image, number):
    """Node block `number`. The first leg before the block's own is in the block before, judged already."""
    header = block_of(image, 0)
    n, m = unsigned(header, 4, 2), unsigned(header, 10, 4)
    block = block_of(image, number)
    done = (number - 1) * RECORDS
    here = min(RECORDS, n - done)
    for r in range(here):
        at = CONTENT + r * RECORD
        opens = unsigned(block, at, 4)
        yield at, opens <= MOST_TIME
        yield at + 4, opens <= unsigned(block, at + 4, 4) <= MOST_TIME
        first = unsigned(block, at + 8, 4)
        if done + r == 0:
            yield at + 8, first == 0
        else:
            yield at + 8, first_leg(image, done + r - 1) <= first <= m
    for at in range(CONTENT + here * RECORD, CHECKED):
        yield at, block[at] == 0


def leg_parts(image, number):
    """Leg block `number`, counted in the whole image."""
    header = block_of(image, 0)
    n, m = unsigned(header, 4, 2), unsigned(header, 10, 4)
    block = block_of(image, number)
    here = min(RECORDS, m - (number - 1 - blocks_for(n)) * RECORDS)
    for r in range(here):
        at = CONTENT + r * RECORD
        yield at, unsigned(block, at, 2) < n                            # head
        yield at + 2, unsigned(block, at + 2, 2) == 0
        yield at + 4, 1 <= unsigned(block, at + 4, 4) <= MOST_TIME      # duration
        yield at + 8, abs(signed(block, at + 8, 4)) <= MOST_IMAGE_COST  # cost
    for at in range(CONTENT + here * RECORD, CHECKED):
        yield at, block[at] == 0


def block_fault(image, number, kind, parts, fault):
    """The first fault of one block: its check, its frame, then what it holds."""
    block = block_of(image, number)
    if bytes(block[CHECKED:]) != check(block):
        return CHECK, number, CHECKED
    if block[0] != kind:
        return FRAME, number, 0
    if block[1] != 0:
        return FRAME, number, 1
    if unsigned(block, 2, 2) != number:
        return FRAME, number, 2
    for at, right in parts:
        if not right:
            return fault, number, at
    return None


def judge(image):
    """What opening the image answers: None, or the fault that it is refused with."""
    if len(image) == 0 or len(image) % BLOCK != 0:
        return SIZE, 0, 0
    header = block_of(image, 0)
    found = block_fault(image, 0, HEADER_KIND, header_parts(header), HEADER)
    if found:
        return found
    n, m = unsigned(header, 4, 2), unsigned(header, 10, 4)
    if len(image) != BLOCK * (1 + blocks_for(n) + blocks_for(m)):
        return SIZE, 0, 0
    for number in range(1, 1 + blocks_for(n)):
        found = block_fault(image, number, NODE_KIND, node_parts(image, number), NODE_TABLE)
        if found:
            return found
    return None


# ---- reading an image that opened ----

def node_count(image):
    return unsigned(block_of(image, 0), 4, 2)


def leg_count(image):
    return unsigned(block_of(image, 0), 10, 4)


def first_leg(image, i):
    """Where the row of node i starts; behind the last node stands the number of legs."""
    if i == node_count(image):
        return leg_count(image)
    return unsigned(block_of(image, 1 + i // RECORDS), CONTENT + i % RECORDS * RECORD + 8, 4)


def leg_place(image, j):
    """The block that holds leg j of the whole image, and the byte where its record starts."""
    return 1 + blocks_for(node_count(image)) + j // RECORDS, CONTENT + j % RECORDS * RECORD


def row_fault(image, i):
    """Why the row of node i cannot be read, or None: the first unsound block that holds a leg of it."""
    legs = range(first_leg(image, i), first_leg(image, i + 1))
    for number in sorted({leg_place(image, j)[0] for j in legs}):
        found = block_fault(image, number, LEG_KIND, leg_parts(image, number), LEG_TABLE)
        if found:
            return found
    return None


def row(image, i):
    """The legs of node i. An unreadable row is a ValueError."""
    fault = row_fault(image, i)
    if fault:
        raise ValueError("unreadable row %d: %s" % (i, fault))
    legs = []
    for j in range(first_leg(image, i), first_leg(image, i + 1)):
        number, at = leg_place(image, j)
        block = block_of(image, number)
        legs.append(Leg(unsigned(block, at, 2), unsigned(block, at + 4, 4), signed(block, at + 8, 4)))
    return legs


def window(image, i):
    block, at = block_of(image, 1 + i // RECORDS), CONTENT + i % RECORDS * RECORD
    return Window(unsigned(block, at, 4), unsigned(block, at + 4, 4))


def decode(image):
    """The network that a wholly readable image holds."""
    header = block_of(image, 0)
    nodes = range(node_count(image))
    return Network(unsigned(header, 6, 2), unsigned(header, 8, 2),
                   [window(image, i) for i in nodes], [row(image, i) for i in nodes])


# ---- showing ----

def listing(image):
    """Every used byte of an image that opens, with what it says, a line for each field; offsets within the block."""
    fault = judge(image)
    if fault:
        raise ValueError("the image does not open: %s" % (fault,))
    n, m = node_count(image), leg_count(image)
    node_blocks = blocks_for(n)
    lines = []

    def field(block, at, width, what):
        shown = " ".join("%02X" % byte for byte in block[at:at + width])
        lines.append("  %3d  %-11s  %s" % (at, shown, what))

    for number in range(len(image) // BLOCK):
        block = block_of(image, number)
        lines.append("block %d (bytes %d to %d of the image)" % (number, number * BLOCK, number * BLOCK + BLOCK - 1))
        field(block, 0, 1, "kind %d" % block[0])
        field(block, 1, 1, "zero")
        field(block, 2, 2, "block number %d" % unsigned(block, 2, 2))
        if number == 0:
            field(block, 4, 2, "nodes: %d" % n)
            field(block, 6, 2, "depot %d" % unsigned(block, 6, 2))
            field(block, 8, 2, "sink %d" % unsigned(block, 8, 2))
            field(block, 10, 4, "legs: %d" % m)
            used = 14
        elif number <= node_blocks:
            done = (number - 1) * RECORDS
            here = min(RECORDS, n - done)
            for r in range(here):
                at = CONTENT + r * RECORD
                field(block, at, 4, "node %d: opens %d" % (done + r, unsigned(block, at, 4)))
                field(block, at + 4, 4, "        closes %d" % unsigned(block, at + 4, 4))
                field(block, at + 8, 4, "        first leg %d" % unsigned(block, at + 8, 4))
            used = CONTENT + here * RECORD
        else:
            done = (number - 1 - node_blocks) * RECORDS
            here = min(RECORDS, m - done)
            for r in range(here):
                at = CONTENT + r * RECORD
                field(block, at, 2, "leg %d: head %d" % (done + r, unsigned(block, at, 2)))
                field(block, at + 2, 2, "       zero")
                field(block, at + 4, 4, "       duration %d" % unsigned(block, at + 4, 4))
                field(block, at + 8, 4, "       cost %d" % signed(block, at + 8, 4))
            used = CONTENT + here * RECORD
        if used < CHECKED:
            lines.append("  %3d  %-11s  unused, up to byte 507" % (used, "00 .. 00"))
        plain, weighted = sums(block)
        field(block, 508, 2, "plain sum %d, modulo 65521: %d" % (plain, plain % MODULUS))
        field(block, 510, 2, "weighted sum %d, modulo 65521: %d" % (weighted, weighted % MODULUS))
        lines.append("")
    return "\n".join(lines)
