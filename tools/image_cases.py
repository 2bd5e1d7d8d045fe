"""Cases for opening images and reading their rows, with what each must answer.

Usage: python3 image_cases.py [FOLDER] writes image_cases.stdin and image_cases.stdout there (default: here).

A line of the stdin file is the name of a network and edits of its image, done in order:

    OFFSET=VALUE    set the byte at that offset of the whole image
    fit:B           put the right check into block B
    cut:N           keep the first N bytes
    pad:N           append N zero bytes

The stdout file has one line for each case: 'refused NUMBER BLOCK BYTE' when opening refuses, else 'ok', followed by
' 9:NODE:NUMBER:BLOCK:BYTE' for each node whose row cannot be read.

Every case carries an answer that was worked out by hand from the rules, with the reasoning beside it. The script
stops where the reference model comes to another one.
"""

import os
import sys

from networks import NAMED
from reference import BLOCK, check, encode, judge, little, node_count, row_fault, sums

LINES = []      # of the stdin file
ANSWERS = []    # of the stdout file


# ---- a case ----

def edited(line):
    """The image that a case line stands for."""
    base, *edits = line.split()
    image = bytearray(encode(NAMED[base]))
    for edit in edits:
        if edit.startswith("fit:"):
            start = int(edit[4:]) * BLOCK
            assert start + BLOCK <= len(image)
            image[start + 508:start + 512] = check(image[start:start + 508])
        elif edit.startswith("cut:"):
            assert int(edit[4:]) <= len(image)
            del image[int(edit[4:]):]
        elif edit.startswith("pad:"):
            image += bytes(int(edit[4:]))
        else:
            offset, value = edit.split("=")
            assert 0 <= int(value) <= 255
            image[int(offset)] = int(value)
    return bytes(image)


def answer(image):
    """The line of the stdout file for an image."""
    fault = judge(image)
    if fault:
        return "refused %d %d %d" % fault
    parts = ["ok"]
    for i in range(node_count(image)):
        fault = row_fault(image, i)
        if fault:
            parts.append("9:%d:%d:%d:%d" % ((i,) + fault))
    return " ".join(parts)


def group(title):
    if LINES:
        LINES.append("")
    LINES.append("# ==== %s" % title)


def case(line, by_hand, why):
    """One case: its line, the answer worked out by hand, and how."""
    by_model = answer(edited(line))
    assert by_model == by_hand, "%s\n  by hand:  %s\n  by model: %s" % (line, by_hand, by_model)
    LINES.append("# %s: %s" % (by_hand if len(by_hand) <= 60 else by_hand[:57] + "...", why))
    LINES.append(line)
    ANSWERS.append(by_model)


# ---- parts of a line ----

def put(offset, width, value):
    """The edits that write a number, least byte first, into `width` bytes from an offset."""
    return " ".join("%d=%d" % (offset + k, byte) for k, byte in enumerate(little(value, width)))


def node(block, i, field):
    """The offset in the image of a field of the record number i in a node block."""
    return block * 512 + 4 + 12 * i + {"opens": 0, "closes": 4, "first": 8}[field]


def leg(block, j, field):
    """The offset in the image of a field of the record number j in a leg block."""
    return block * 512 + 4 + 12 * j + {"head": 0, "zero": 2, "duration": 4, "cost": 8}[field]


def lost(nodes, place):
    """The answer when the image opens and these rows are unreadable, all with the same fault."""
    return " ".join(["ok"] + ["9:%d:%s" % (i, place) for i in nodes])


# the rows of network f that have legs, which are all in its one leg block
F_ROWS = (0, 1, 2)


# ---- the cases ----

def sound_images():
    group("images as they are written")
    case("f", "ok", "3 blocks, all sound")
    case("one", "ok", "no leg, so no leg block: 2 blocks")
    case("full", "ok", "42 nodes and 42 legs fill one block each: 3 blocks")
    case("over", "ok", "43 nodes and 43 legs need two blocks each: 5 blocks")
    case("wide", "ok", "3 nodes and 84 legs: 1 + 1 + 2 = 4 blocks")

    group("bytes that the image must hold already, so nothing changes: checks, then all bytes that are not 0")
    case("f 508=14 509=0 510=114 511=0", "ok", "block 0: 1+4+3+6 = 14; 1*1 + 5*4 + 9*3 + 11*6 = 114")
    case("f 1020=46 1021=0 1022=40 1023=6", "ok",
         "block 1: 2+1+2+5+2+1+9+4+4+10+6 = 46; the weighted sum is 1576 = 6*256 + 40")
    case("f 1532=21 1533=12 1534=197 1535=95", "ok",
         "block 2: 3093 = 12*256 + 21; 155559 - 2*65521 = 24517 = 95*256 + 197")
    case("one 508=2 509=0 510=6 511=0", "ok", "block 0: 1+1 = 2; 1*1 + 5*1 = 6")
    case("one 1020=148 1021=0 1022=126 1023=5", "ok",
         "block 1: 2+1+64+66+15 = 148; 1*2 + 3*1 + 9*64 + 10*66 + 11*15 = 1406 = 5*256 + 126")
    for name in ("f", "wide"):
        image = encode(NAMED[name])
        case("%s %s" % (name, " ".join("%d=%d" % (at, b) for at, b in enumerate(image) if b)), "ok",
             "every byte of the image that is not 0")


def lengths():
    group("lengths: 1 at block 0, byte 0")
    case("f cut:0", "refused 1 0 0", "no byte at all")
    case("f cut:1", "refused 1 0 0", "one byte")
    case("f cut:511", "refused 1 0 0", "one byte short of a block")
    case("f cut:513", "refused 1 0 0", "a block and one byte")
    case("f cut:1535", "refused 1 0 0", "one byte short of three blocks")
    case("f pad:1", "refused 1 0 0", "one byte beyond three blocks")
    case("f pad:511", "refused 1 0 0", "one byte short of four blocks")

    group("numbers of blocks: 1 + (nodes / 42, rounded up) + (legs / 42, rounded up), or 1 at block 0, byte 0")
    case("f cut:512", "refused 1 0 0", "the header alone: 3 blocks are due")
    case("f cut:1024", "refused 1 0 0", "one block too few")
    case("f pad:512", "refused 1 0 0", "one block too many")
    case("one cut:512", "refused 1 0 0", "2 blocks are due, also without legs")
    case("one pad:512", "refused 1 0 0", "without legs a leg block is one too many")
    case("full pad:512", "refused 1 0 0", "42 records need one block each and no more")
    case("full pad:1024", "refused 1 0 0", "42 nodes and 42 legs: not two blocks each")
    case("over cut:2048", "refused 1 0 0", "43 nodes and 43 legs: 4 blocks are one too few")
    case("over pad:512", "refused 1 0 0", "43 nodes and 43 legs: 6 blocks are one too many")
    case("wide cut:1536", "refused 1 0 0", "84 legs need two blocks")
    case("wide pad:512", "refused 1 0 0", "84 legs fill two blocks and need no third")
    case("wide 10=85 fit:0", "refused 1 0 0", "85 legs would need a third leg block")
    case("full 4=43 fit:0", "refused 1 0 0", "43 nodes would need a second node block")
    case("full 10=43 fit:0", "refused 1 0 0", "43 legs would need a second leg block")
    case("f 10=0 fit:0", "refused 1 0 0", "without legs the leg block is one too many")
    case("f cut:512 10=0 fit:0 pad:512", "refused 3 1 0",
         "without legs 2 blocks are due; block 1 is all zero, its check is right and its kind is not 2")


def checks():
    group("the check of block 0: 2 at byte 508, whichever byte of it is wrong")
    case("f 508=15", "refused 2 0 508", "low byte of the plain sum")
    case("f 509=1", "refused 2 0 508", "high byte of the plain sum")
    case("f 510=115", "refused 2 0 508", "low byte of the weighted sum")
    case("f 511=1", "refused 2 0 508", "high byte of the weighted sum")
    case("f 508=114 510=14", "refused 2 0 508", "the two sums in the wrong order")
    case("f 508=0 509=14 510=0 511=114", "refused 2 0 508", "both sums with the high byte first")
    case("f 4=3 5=1", "refused 2 0 508",
         "byte 4 one less, byte 5 one more: plain sum kept, weighted sum one more")
    case("f 4=2 9=1", "refused 2 0 508",
         "byte 4 two less, byte 9 one more: weighted sum kept (-2*5 + 1*10), plain sum one less")
    case("f 0=0", "refused 2 0 508", "the first byte that the sums cover")
    case("f 507=1", "refused 2 0 508", "the last byte that the sums cover")
    case("f 0=0 508=13 510=113", "refused 3 0 0",
         "byte 0 weighs 1: with both sums one less the kind is wrong next")
    case("f 507=1 508=15 510=110 511=2", "refused 4 0 507",
         "byte 507 weighs 508: with 114 + 508 = 622 = 2*256 + 110 the unused byte is wrong next")

    group("the check of a node block: 2 at byte 508 of the block")
    case("f 1020=47", "refused 2 1 508", "low byte of the plain sum")
    case("f 1021=1", "refused 2 1 508", "high byte of the plain sum")
    case("f 1022=41", "refused 2 1 508", "low byte of the weighted sum")
    case("f 1023=7", "refused 2 1 508", "high byte of the weighted sum")
    case("f 528=1 529=1", "refused 2 1 508", "byte 16 one less, byte 17 one more: weighted sum alone changes")
    case("f 528=0 545=1", "refused 2 1 508",
         "byte 16 two less (-34), byte 33 one more (+34): plain sum alone changes")
    case("over 1532=0", "refused 2 2 508", "the second node block")

    group("the check of a leg block: the image opens, and 2 at byte 508 of the block is the fault of its rows")
    case("f 1532=22", lost(F_ROWS, "2:2:508"), "low byte of the plain sum")
    case("f 1533=13", lost(F_ROWS, "2:2:508"), "high byte of the plain sum")
    case("f 1534=196", lost(F_ROWS, "2:2:508"), "low byte of the weighted sum")
    case("f 1535=94", lost(F_ROWS, "2:2:508"), "high byte of the weighted sum")
    case("f 1036=3 1037=1", lost(F_ROWS, "2:2:508"),
         "byte 12 one less, byte 13 one more: weighted sum alone changes")
    case("f 1036=2 1049=1", lost(F_ROWS, "2:2:508"),
         "byte 12 two less (-26), byte 25 one more (+26): plain sum alone changes")


def remainders():
    group("sums modulo 65521, the check set byte by byte")
    case("f cut:0 pad:512", "refused 3 0 0", "a block of zeros has the check 0 0 0 0, and the kind is wrong")
    case("f cut:0 pad:512 508=241 509=255", "refused 2 0 508", "65521 in place of the plain sum 0 is wrong")
    case("f cut:0 pad:512 510=241 511=255", "refused 2 0 508", "65521 in place of the weighted sum 0 is wrong")

    # [0, 512], [2, 166], [1, 65535], [65535, 65535]: the plain sum is
    # (2 + 1) + (2 + 4 + 6) + 2 + (2 + 166) + (1 + 2*255) + 4*255 = 1716 = 6*256 + 180, the weighted sum
    # (2*1 + 1*3) + (2*25 + 4*37 + 6*49) + 2*10 + (2*17 + 166*21) + (1*29 + 255*(33+34)) + 255*(41+42+45+46) = 65521
    times = " ".join([put(node(1, 1, "closes"), 1, 166), put(node(1, 2, "closes"), 2, 65535),
                      put(node(1, 3, "opens"), 2, 65535), put(node(1, 3, "closes"), 2, 65535), "1020=180 1021=6"])
    case("f %s %s 1022=0 1023=0" % (put(node(1, 0, "closes"), 2, 512), times), "ok",
         "the weighted sum of block 1 is 65521, which leaves 0")
    case("f %s %s 1022=241 1023=255" % (put(node(1, 0, "closes"), 2, 512), times), "refused 2 1 508",
         "the same with 65521 itself in the check")
    case("f %s %s 1022=240 1023=255" % (put(node(1, 0, "closes"), 2, 257), times), "ok",
         "node 0 closes at 257: the weighted sum is 65520, which stays")
    case("f %s %s 1022=1 1023=0" % (put(node(1, 0, "closes"), 3, 65792), times), "ok",
         "node 0 closes at 65792: 10 + 11 in place of 2*10, the weighted sum is 65522, which leaves 1")

    # 42 legs with 255 + 255 + 14 in the duration and 4*255 in the cost, heads 0 to 41, kind 3, block number 2
    edits, block = heavy_legs(983039)
    plain, weighted = sums(block)
    assert plain == 42 * (524 + 1020) + 861 + 3 + 2 == 65521 + 193
    case("full %s 1532=193 1533=0 %s" % (edits, put(1534, 2, weighted % 65521)), "ok",
         "every leg lasts 983039 and costs -1: plain sum 42*1544 + 861 + 5 = 65714, which leaves 193")
    edits, block = heavy_legs(983039 - 193)
    plain, weighted = sums(block)
    assert plain == 65521
    case("full %s 1532=0 1533=0 %s" % (edits, put(1534, 2, weighted % 65521)), "ok",
         "the same, but leg 0 lasts 193 less: plain sum 65521, which leaves 0")
    case("full %s 1532=241 1533=255 %s" % (edits, put(1534, 2, weighted % 65521)), lost(range(42), "2:2:508"),
         "the same with 65521 itself in the check: every row is lost")


def heavy_legs(first_duration):
    """Edits that make every leg of `full` cost -1 and last 983039, the first as given; and the block they make."""
    image = bytearray(encode(NAMED["full"]))
    edits = []
    for j in range(42):
        start = leg(2, j, "duration")
        for k, byte in enumerate(little(first_duration if j == 0 else 983039, 4) + little(-1, 4)):
            if image[start + k] != byte:
                image[start + k] = byte
                edits.append("%d=%d" % (start + k, byte))
    return " ".join(edits), bytes(image[1024:1024 + 508])


def frames():
    group("the frame of block 0: 3 at byte 0, 1 or 2")
    case("f 0=0 fit:0", "refused 3 0 0", "kind 0")
    case("f 0=2 fit:0", "refused 3 0 0", "kind 2, a node block's")
    case("f 0=129 fit:0", "refused 3 0 0", "kind 129")
    case("f 1=1 fit:0", "refused 3 0 1", "the zero byte is 1")
    case("f 1=255 fit:0", "refused 3 0 1", "the zero byte is 255")
    case("f 2=1 fit:0", "refused 3 0 2", "block number 1")
    case("f 3=1 fit:0", "refused 3 0 2", "block number 256: the field starts at byte 2")

    group("the frame of a node block")
    case("f 512=3 fit:1", "refused 3 1 0", "kind 3, a leg block's")
    case("f 513=1 fit:1", "refused 3 1 1", "the zero byte is 1")
    case("f 514=0 fit:1", "refused 3 1 2", "block number 0")
    case("f 514=2 fit:1", "refused 3 1 2", "block number 2")
    case("f 515=1 fit:1", "refused 3 1 2", "block number 257")
    case("over 1026=1 fit:2", "refused 3 2 2", "the second node block with the number of the first")
    case("over 1024=3 fit:2", "refused 3 2 0", "the second node block with a leg block's kind")

    group("the frame of a leg block: the fault of its rows")
    case("f 1024=2 fit:2", lost(F_ROWS, "3:2:0"), "kind 2, a node block's")
    case("f 1025=1 fit:2", lost(F_ROWS, "3:2:1"), "the zero byte is 1")
    case("f 1026=1 fit:2", lost(F_ROWS, "3:2:2"), "block number 1")
    case("f 1027=1 fit:2", lost(F_ROWS, "3:2:2"), "block number 258: the field starts at byte 2")
    case("wide 1538=2 fit:3", lost((1, 2), "3:3:2"), "the second leg block with the number of the first")
    case("one 10=1 fit:0 pad:512", lost((0,), "3:2:0"),
         "one leg, its block all zero: the check is right and the kind wrong")


def headers():
    group("the fields of the header: 4 at the first byte of the first wrong one")
    case("f 4=0 fit:0", "refused 4 0 4", "no node")
    case("f %s fit:0" % put(4, 2, 1001), "refused 4 0 4", "1001 nodes")
    case("f %s fit:0" % put(4, 2, 65535), "refused 4 0 4", "65535 nodes")
    case("f %s fit:0" % put(4, 2, 1000), "refused 1 0 0", "1000 nodes are allowed, and 26 blocks due")
    case("f 6=3 fit:0", "ok", "depot 3, the last node")
    case("f 6=4 fit:0", "refused 4 0 6", "depot 4 of 4 nodes")
    case("f 7=1 fit:0", "refused 4 0 6", "depot 256: the field starts at byte 6")
    case("f 8=0 fit:0", "ok", "sink 0, which is the depot")
    case("f 8=4 fit:0", "refused 4 0 8", "sink 4 of 4 nodes")
    case("f 9=1 fit:0", "refused 4 0 8", "sink 259: the field starts at byte 8")
    case("one 6=1 fit:0", "refused 4 0 6", "depot 1 of 1 node")
    case("one 8=1 fit:0", "refused 4 0 8", "sink 1 of 1 node")
    case("f %s fit:0" % put(10, 4, 20000), "refused 1 0 0", "20000 legs are allowed, and 479 blocks due")
    case("f %s fit:0" % put(10, 4, 20001), "refused 4 0 10", "20001 legs")
    case("f 12=1 fit:0", "refused 4 0 10", "65542 legs: the field has four bytes")
    case("f 13=1 fit:0", "refused 4 0 10", "16777222 legs: the field has four bytes")
    case("f %s fit:0" % put(10, 4, 4294967295), "refused 4 0 10", "4294967295 legs")

    group("the unused bytes of the header: 4 at the first that is not 0")
    case("f 14=1 fit:0", "refused 4 0 14", "the first unused byte")
    case("f 260=128 fit:0", "refused 4 0 260", "one in the middle")
    case("f 507=255 fit:0", "refused 4 0 507", "the last one")
    case("f 100=1 99=1 fit:0", "refused 4 0 99", "two of them: the first is named")


def node_tables():
    group("windows: 5 at the first byte of the wrong field")
    case("f %s fit:1" % put(node(1, 3, "closes"), 4, 1000000), "ok", "node 3 closes at 1000000")
    case("f %s fit:1" % put(node(1, 3, "closes"), 4, 1000001), "refused 5 1 44",
         "node 3 closes at 1000001: 4 + 36 + 4")
    case("f %s fit:1" % put(node(1, 3, "closes"), 4, 4294967295), "refused 5 1 44", "node 3 closes at 4294967295")
    case("f %s fit:1" % put(node(1, 3, "closes"), 4, 4), "ok", "node 3 closes when it opens, at 4")
    case("f %s fit:1" % put(node(1, 3, "closes"), 4, 3), "refused 5 1 44",
         "node 3 closes at 3, before it opens at 4")
    case("f %s %s fit:1" % (put(node(1, 1, "opens"), 4, 1000000), put(node(1, 1, "closes"), 4, 1000000)), "ok",
         "node 1 opens and closes at 1000000")
    case("f %s %s fit:1" % (put(node(1, 1, "opens"), 4, 1000001), put(node(1, 1, "closes"), 4, 1000001)),
         "refused 5 1 16", "node 1 opens and closes at 1000001: opening comes first, 4 + 12")
    case("f %s fit:1" % put(node(1, 1, "opens"), 4, 1000001), "refused 5 1 16",
         "node 1 opens at 1000001, closes at 5")
    case("f %s fit:1" % put(node(1, 1, "opens"), 4, 1000000), "refused 5 1 20",
         "node 1 opens at 1000000, which may be; it closes at 5, before")
    case("f 531=128 fit:1", "refused 5 1 16", "node 1 opens at 2147483650: the field has four bytes")
    case("f 535=128 fit:1", "refused 5 1 20", "node 1 closes at 2147483653: the field has four bytes")
    case("f 516=1 fit:1", "refused 5 1 8", "node 0 opens at 1 and closes at 0: 4 + 4")
    case("one %s fit:1" % put(node(1, 0, "closes"), 4, 1000001), "refused 5 1 8",
         "the one node closes at 1000001")

    group("first legs: 0 for node 0, none below the one before, none above the number of legs")
    case("f 524=1 fit:1", "refused 5 1 12", "node 0 starts at leg 1: 4 + 8")
    case("f 527=1 fit:1", "refused 5 1 12", "node 0 starts at leg 16777216: the field has four bytes")
    case("f 548=2 fit:1", "ok", "node 2 starts at 2 like node 1, whose row is then empty")
    case("f 548=1 fit:1", "refused 5 1 36", "node 2 starts at 1, below node 1's 2: 4 + 24 + 8")
    case("f 560=4 fit:1", "ok", "node 3 starts at 4 like node 2, and has the last two legs")
    case("f 560=3 fit:1", "refused 5 1 48", "node 3 starts at 3, below node 2's 4: 4 + 36 + 8")
    case("f 560=7 fit:1", "refused 5 1 48", "node 3 starts at 7, above the 6 legs")
    case("f 536=0 548=0 560=0 fit:1", "ok", "all start at 0: node 3 has all legs")
    case("f 536=6 548=6 560=6 fit:1", "ok", "the others start at 6: node 0 has all legs")
    case("f 536=7 fit:1", "refused 5 1 24", "node 1 starts at 7, above the 6 legs: 4 + 12 + 8")
    case("f 538=1 fit:1", "refused 5 1 24", "node 1 starts at 65538: the field has four bytes")
    case("f 10=5 fit:0", "refused 5 1 48", "5 legs in the header: node 3 starts at 6, above them")
    case("one 524=1 fit:1", "refused 5 1 12", "the one node starts at leg 1 of none")

    group("the unused bytes of a node block: 5 at the first that is not 0")
    case("f 564=1 fit:1", "refused 5 1 52", "the first behind four records: 4 + 48")
    case("f 1019=1 fit:1", "refused 5 1 507", "the last")
    case("one 528=1 fit:1", "refused 5 1 16", "the first behind one record: 4 + 12")
    case("full 1012=1 1013=0 fit:1", "refused 5 1 500",
         "a full block has none: bytes 500 to 503 are node 41's closing, now 1, and it opens at 41")
    case("full 4=41 8=40 fit:0", "refused 5 1 496",
         "41 nodes in the header: the record behind them, from 4 + 492, is unused")

    group("the second node block: it is judged like the first, and first legs go on from there")
    case("over %s fit:2" % put(node(2, 0, "opens"), 4, 1000001), "refused 5 2 4", "node 42 opens at 1000001")
    case("over %s fit:2" % put(node(2, 0, "closes"), 4, 41), "refused 5 2 8",
         "node 42 closes at 41 and opens at 42")
    case("over 1036=40 fit:2", "refused 5 2 12", "node 42 starts at 40, below node 41's 41")
    case("over 1036=41 fit:2", "ok", "node 42 starts at 41 like node 41, whose row is then empty")
    case("over 1036=43 fit:2", "ok", "node 42 starts at 43, the number of legs: its row is empty")
    case("over 1036=44 fit:2", "refused 5 2 12", "node 42 starts at 44, above the 43 legs")
    case("over 1036=0 fit:2", "refused 5 2 12", "only node 0 must start at 0; node 42 starts below node 41")
    case("over 1040=1 fit:2", "refused 5 2 16", "the first unused byte behind one record")
    case("over 1531=1 fit:2", "refused 5 2 507", "the last unused byte")


def leg_tables():
    group("the fields of a leg: 6 at the first byte of the first wrong one, for every row with a leg in the block")
    case("f 1028=0 fit:2", "ok", "leg 0 back to node 0, a loop")
    case("f 1040=1 fit:2", "ok", "legs 0 and 1 both to node 1")
    case("f 1028=4 fit:2", lost(F_ROWS, "6:2:4"), "leg 0 to node 4 of 4")
    case("f 1029=1 fit:2", lost(F_ROWS, "6:2:4"), "leg 0 to node 257: the field starts at byte 4")
    case("f 1088=4 fit:2", lost(F_ROWS, "6:2:64"),
         "leg 5 to node 4: 4 + 60; rows 0 and 1 have legs in the block too")
    case("f 1030=1 fit:2", lost(F_ROWS, "6:2:6"), "leg 0, low byte of the zero field: 4 + 2")
    case("f 1031=1 fit:2", lost(F_ROWS, "6:2:6"), "leg 0, high byte of the zero field, which starts at byte 6")
    case("f 1032=0 fit:2", lost(F_ROWS, "6:2:8"), "leg 0 lasts 0: 4 + 4")
    case("f 1032=1 fit:2", "ok", "leg 0 lasts 1")
    case("f %s fit:2" % put(leg(2, 0, "duration"), 4, 1000000), "ok", "leg 0 lasts 1000000")
    case("f %s fit:2" % put(leg(2, 0, "duration"), 4, 1000001), lost(F_ROWS, "6:2:8"), "leg 0 lasts 1000001")
    case("f 1035=128 fit:2", lost(F_ROWS, "6:2:8"), "leg 0 lasts 2147483650: the field has no sign")
    case("f %s fit:2" % put(leg(2, 3, "cost"), 4, 0), "ok", "leg 3 costs 0")
    case("f %s fit:2" % put(leg(2, 3, "cost"), 4, 10000000), "ok", "leg 3 costs 10000000")
    case("f %s fit:2" % put(leg(2, 3, "cost"), 4, 10000001), lost(F_ROWS, "6:2:48"),
         "leg 3 costs 10000001: 4 + 36 + 8")
    case("f %s fit:2" % put(leg(2, 3, "cost"), 4, -10000000), "ok", "leg 3 costs -10000000")
    case("f %s fit:2" % put(leg(2, 3, "cost"), 4, -10000001), lost(F_ROWS, "6:2:48"), "leg 3 costs -10000001")
    case("f %s fit:2" % put(leg(2, 3, "cost"), 4, 2147483647), lost(F_ROWS, "6:2:48"), "leg 3 costs 2147483647")
    case("f %s fit:2" % put(leg(2, 3, "cost"), 4, -2147483648), lost(F_ROWS, "6:2:48"), "leg 3 costs -2147483648")
    case("f 1028=4 1030=1 1032=0 fit:2", lost(F_ROWS, "6:2:4"),
         "head, zero field and duration wrong: the head is first")
    case("f 1031=1 1032=0 1039=64 fit:2", lost(F_ROWS, "6:2:6"),
         "zero field, duration and cost: the zero field is first")
    case("f 1032=0 1039=64 fit:2", lost(F_ROWS, "6:2:8"), "duration and cost wrong: the duration is first")
    case("f 1039=64 1040=4 fit:2", lost(F_ROWS, "6:2:12"), "leg 0's cost and leg 1's head wrong: leg 0 is first")
    case("full %s fit:2" % put(leg(2, 41, "cost"), 4, 10000001), lost(range(42), "6:2:504"),
         "the last field of a full block: 4 + 41*12 + 8; every row has its leg there")

    group("the unused bytes of a leg block: 6 at the first that is not 0")
    case("f 1100=1 fit:2", lost(F_ROWS, "6:2:76"), "the first behind six records: 4 + 72")
    case("f 1531=1 fit:2", lost(F_ROWS, "6:2:507"), "the last")
    case("f 1097=1 1100=1 fit:2", lost(F_ROWS, "6:2:76"),
         "leg 5 costs 258, which may be; the byte behind it is unused")
    case("f 10=5 560=5 fit:0 fit:1", lost(F_ROWS, "6:2:64"),
         "5 legs in the header: the sixth record, from 4 + 60, is unused")
    case("f 10=7 fit:0", lost((0, 1, 2, 3), "6:2:80"),
         "7 legs in the header: the seventh is all zero and lasts 0, at 4 + 72 + 4; it is node 3's")
    case("f 10=42 fit:0", lost((0, 1, 2, 3), "6:2:80"), "42 legs in the header: the same place comes first")
    case("over 2064=1 fit:4", lost((42,), "6:4:16"), "the second leg block holds one record, node 42's leg")
    case("over 2555=1 fit:4", lost((42,), "6:4:507"), "the last unused byte of that block")


def rows_and_blocks():
    group("a row needs the blocks that hold its legs, and no others")
    case("wide 1028=3 fit:2", lost((0, 1), "6:2:4"), "first leg block unsound: legs 0 to 41, of rows 0 and 1")
    case("wide 1540=3 fit:3", lost((1, 2), "6:3:4"), "second leg block unsound: legs 42 to 83, of rows 1 and 2")
    case("wide 1532=0", lost((0, 1), "2:2:508"), "the check of the first")
    case("wide 2044=0", lost((1, 2), "2:3:508"), "the check of the second")
    case("wide 1537=1 fit:3", lost((1, 2), "3:3:1"), "the zero byte of the second")
    case("wide 1532=0 1537=1 fit:3", "ok 9:0:2:2:508 9:1:2:2:508 9:2:3:3:1",
         "both: row 1 names the first of its two")
    case("wide 1028=3 fit:2 2044=0", "ok 9:0:6:2:4 9:1:6:2:4 9:2:2:3:508",
         "both: the first block is named, though the second fails at the check")
    case("wide %s fit:2" % put(leg(2, 41, "duration"), 4, 0), lost((0, 1), "6:2:500"),
         "leg 41, the last record of the first: 4 + 41*12 + 4")
    case("wide %s fit:3" % put(leg(3, 0, "duration"), 4, 0), lost((1, 2), "6:3:8"),
         "leg 42, the first record of the second")
    case("wide 536=42 fit:1 1532=0", lost((0,), "2:2:508"),
         "row 0 is legs 0 to 41, row 1 leg 42: the first holds row 0 alone")
    case("wide 536=42 fit:1 2044=0", lost((1, 2), "2:3:508"), "the same: the second holds rows 1 and 2")
    case("wide 548=42 fit:1 1532=0", lost((0, 1), "2:2:508"),
         "row 1 is leg 41, row 2 legs 42 to 83: the first holds 0 and 1")
    case("wide 548=42 fit:1 2044=0", lost((2,), "2:3:508"), "the same: the second holds row 2 alone")
    case("wide 536=42 548=42 fit:1 1532=0 2044=0", "ok 9:0:2:2:508 9:2:2:3:508",
         "row 1 is empty between the two blocks and can be read, both unsound")
    case("wide 536=0 548=0 fit:1 1532=0 2044=0", lost((2,), "2:2:508"),
         "rows 0 and 1 are empty; row 2 has all legs")
    case("wide 536=84 548=84 fit:1 2044=0", lost((0,), "2:3:508"),
         "row 0 has all legs; rows 1 and 2 are empty behind the last")
    case("wide 536=84 548=84 fit:1 1532=0 2044=0", lost((0,), "2:2:508"), "the same, both blocks unsound")
    case("f 1532=0", lost(F_ROWS, "2:2:508"), "node 3 has no leg: its row can be read, whatever the leg block is")
    case("over 2048=2 fit:4", lost((42,), "3:4:0"), "leg 42 alone is in the second leg block")
    case("over 1537=1 fit:3", lost(range(42), "3:3:1"), "legs 0 to 41 are in the first leg block, row 42 is not")
    case("over 1036=41 fit:2 2556=0", lost((42,), "2:4:508"),
         "row 42 is legs 41 and 42, one in each block; row 41 is empty")
    case("over 1036=41 fit:2 2044=0", lost(list(range(41)) + [42], "2:3:508"),
         "the same with the first leg block unsound: row 41 is empty and can be read")
    case("over 1036=43 fit:2 2556=0", lost((41,), "2:4:508"), "node 42 starts at 43: legs 41 and 42 are row 41's")


def orders():
    group("two things wrong: the one judged first is named")
    case("f 508=15 pad:1", "refused 1 0 0", "length no multiple of 512, before the check of block 0")
    case("f 508=15 pad:512", "refused 2 0 508", "the check of block 0, before the number of blocks")
    case("f 0=2 fit:0 cut:1024", "refused 3 0 0", "the frame of block 0, before the number of blocks")
    case("f 4=0 fit:0 cut:512", "refused 4 0 4", "the fields of block 0, before the number of blocks")
    case("f 507=1 fit:0 pad:512", "refused 4 0 507", "the unused bytes of block 0, before the number of blocks")
    case("f 0=2", "refused 2 0 508", "check before kind")
    case("f 0=2 1=1 2=1 fit:0", "refused 3 0 0", "kind before zero byte and block number")
    case("f 1=1 2=1 fit:0", "refused 3 0 1", "zero byte before block number")
    case("f 2=1 4=0 fit:0", "refused 3 0 2", "block number before the fields")
    case("f 4=0 6=9 8=9 14=1 fit:0", "refused 4 0 4", "nodes before depot, sink and unused bytes")
    case("f 6=9 8=9 12=9 14=1 fit:0", "refused 4 0 6", "depot before sink, legs and unused bytes")
    case("f 8=9 12=9 14=1 fit:0", "refused 4 0 8", "sink before legs and unused bytes")
    case("f 12=9 14=1 fit:0", "refused 4 0 10", "legs before unused bytes")
    case("f 4=0 fit:0 512=9", "refused 4 0 4", "block 0 before block 1")
    case("f 512=9 cut:1024", "refused 1 0 0", "the number of blocks before block 1")
    case("f 512=9", "refused 2 1 508", "block 1: check before kind")
    case("f 512=9 513=9 514=9 fit:1", "refused 3 1 0", "block 1: kind before zero byte and block number")
    case("f 513=9 514=9 524=1 fit:1", "refused 3 1 1", "block 1: zero byte before block number and records")
    case("f 514=9 524=1 fit:1", "refused 3 1 2", "block 1: block number before records")
    case("f 516=1 524=1 fit:1", "refused 5 1 8",
         "node 0 closes before it opens, and starts at leg 1: closing is first")
    case("f 524=1 532=0 564=1 fit:1", "refused 5 1 12",
         "node 0's first leg, node 1's window, an unused byte: node 0")
    case("f 532=0 560=9 564=1 fit:1", "refused 5 1 20",
         "node 1's window, node 3's first leg, an unused byte: node 1")
    case("f 560=9 564=1 fit:1", "refused 5 1 48", "node 3's first leg, an unused byte: node 3")
    case("f 564=1 fit:1 1532=0", "refused 5 1 52", "a node block, before any leg block")
    case("over 524=1 fit:1 1532=0", "refused 5 1 12", "the first node block's records, before the second's check")
    case("over 1012=1 1013=0 fit:1 1024=9 fit:2", "refused 5 1 500",
         "the first node block's last record, before the second's kind")
    case("f 1024=9", lost(F_ROWS, "2:2:508"), "leg block: check before kind")
    case("f 1024=9 1025=9 1026=9 fit:2", lost(F_ROWS, "3:2:0"),
         "leg block: kind before zero byte and block number")
    case("f 1025=9 1026=9 1028=9 fit:2", lost(F_ROWS, "3:2:1"),
         "leg block: zero byte before block number and records")
    case("f 1026=9 1028=9 fit:2", lost(F_ROWS, "3:2:2"), "leg block: block number before records")
    case("f 1028=9 1531=9 fit:2", lost(F_ROWS, "6:2:4"), "leg block: records before unused bytes")
    case("one 10=1 fit:0 pad:512 1024=3 1026=2 fit:2", lost((0,), "6:2:8"), "one leg, all zero: it lasts 0")
    case("one 10=1 fit:0 pad:512 1024=3 1026=2 1032=1 fit:2", "ok",
         "one leg, from node 0 to itself, that lasts 1")


def main():
    sound_images()
    lengths()
    checks()
    remainders()
    frames()
    headers()
    node_tables()
    leg_tables()
    rows_and_blocks()
    orders()
    folder = sys.argv[1] if len(sys.argv) > 1 else "."
    for name, lines in (("image_cases.stdin", LINES), ("image_cases.stdout", ANSWERS)):
        with open(os.path.join(folder, name), "w", encoding="ascii", newline="\n") as file:
            file.write("\n".join(lines) + "\n")
    print("%d cases" % len(ANSWERS))


if __name__ == "__main__":
    main()
