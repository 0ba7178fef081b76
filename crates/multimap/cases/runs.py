#!/usr/bin/env python3
"""Short runs, each from an empty map: lines in, and what is written for them or the first bad line."""

# Four values of one key; two keys with two values each; and seven values of a key with two of another among them.
FOUR = "append 1 1 -> new | append 1 2 -> more | append 1 3 -> more | append 1 4 -> more"
MIXED = "append 1 1 -> new | append 2 2 -> new | append 2 3 -> more | append 1 4 -> more"
SEVEN = (
    "append 1 10 -> new | append 2 20 -> new | append 1 11 -> more | append 1 12 -> more | append 2 21 -> more "
    "| append 1 13 -> more | append 1 14 -> more | append 1 15 -> more | append 1 16 -> more"
)

# Texts with what is written for them.
GOOD = [
    # The stored run.
    (
        "append 1 1\nappend 2 2\nappend 2 3\nappend 1 4\npairs\nall 1\nget 2\nget 3\n",
        "new\nnew\nmore\nmore\n1:1 2:2 2:3 1:4\n1 4\n2\nnone\n",
    ),
    # A walk of four values from both ends, and one step past its end.
    (
        "append 1 1\nappend 1 2\nappend 1 3\nappend 1 4\nwalk 1 fbfbf\n",
        "new\nmore\nmore\nmore\n1 4 2 3 -\n",
    ),
    # Walks of pairs, and of an absent key.
    (
        "append 1 5\nappend 1 6\nwalkpairs bfb\nall 2\nwalk 2 fb\n",
        "new\nmore\n1:6 1:5 -\nempty\n- -\n",
    ),
    # A last line without a line feed, and no line at all.
    ("get 1", "none\n"),
    ("", ""),
    ("pairs\nwalkpairs f", "empty\n-\n"),
    ("lists\nappend 7 -1\nlists\n", "empty\nnew\n7=-1\n"),
    # The greatest and the least numbers.
    (
        "append 4294967295 -9223372036854775808\nappend 4294967295 9223372036854775807\nall 4294967295\nlists\n",
        "new\nmore\n-9223372036854775808 9223372036854775807\n4294967295=-9223372036854775808,9223372036854775807\n",
    ),
    (
        "append 1 -7\nhas 1\nremoveentry 1\nremoveall 1\n",
        "new\nyes\n1:-7\nempty\n",
    ),
    # Look-ups of a key, the ends, and the lengths.
    (
        "append 1 1\nappend 2 2\nappend 1 3\nfront\nback\nlen 1\nhas 3\nlengths\n",
        "new\nnew\nmore\n1:1\n1:3\n2\nno\n2 3\n",
    ),
    # An empty map.
    (
        "pairs\nkeys\npopfront\npopback\nget 1\n",
        "empty\nempty\nnone\nnone\nnone\n",
    ),
    # Two keys with two values each, and all pairs popped from either end.
    (
        "insert 1 1\ninsert 2 2\nappend 2 3\nappend 1 4\npairs\n",
        "none\nnone\nmore\nmore\n1:1 2:2 2:3 1:4\n",
    ),
    (
        "insert 1 1\ninsert 2 2\nappend 2 3\nappend 1 4\npopback\npopback\npopback\npopback\npopback\n",
        "none\nnone\nmore\nmore\nborrowed 1 4\nborrowed 2 3\nowned 2 2\nowned 1 1\nnone\n",
    ),
    (
        "insert 1 1\ninsert 2 2\nappend 2 3\nappend 1 4\npopfront\npopfront\npopfront\npopfront\npopfront\n",
        "none\nnone\nmore\nmore\nborrowed 1 1\nborrowed 2 2\nowned 2 3\nowned 1 4\nnone\n",
    ),
    # A pair that is replaced goes last, and its key stays where it is. What is read of the JSON
    # value has its keys in the order in which they first occur in the pairs.
    (
        "insert 1 10\ninsert 2 20\ninsert 1 30\npairs\nkeys\njson\nkeys\npairs\n",
        "none\nnone\nold 10\n2:20 1:30\n1 2\ndone\n2 1\n2:20 1:30\n",
    ),
    # What is read of the JSON value of both lists keeps both orders.
    (
        "insert 1 10\ninsert 2 20\ninsert 1 30\njson2\nkeys\njson\nkeys\njson2\nkeys\npairs\n",
        "none\nnone\nold 10\ndone\n1 2\ndone\n2 1\ndone\n2 1\n2:20 1:30\n",
    ),
    ("json2\npairs\nkeys\n", "done\nempty\nempty\n"),
    # Room that is asked for or given back changes no list.
    (
        "insert 1 1\nreserve 2 2\npacktofit\nappend 2 2\njson\npairs\n",
        "none\ndone\ndone\nnew\ndone\n1:1 2:2\n",
    ),
    # A key that comes again goes last.
    (
        "append 1 1\nappend 2 2\nremoveall 1\nappend 1 3\nkeys\npairs\n",
        "new\nnew\n1\nnew\n2 1\n2:2 1:3\n",
    ),
    (
        "insertall 1 1\nappend 1 2\ninsertall 1 3\npairs\nlengths\n",
        "empty\nmore\n1 2\n1:3\n1 1\n",
    ),
    (
        "insert 1 1\ninsert 2 2\nappend 2 3\nappend 1 4\nlists\nwalkpairs fbb\nwalkkeys bff\nswap\nremoveentryall 2\nremoveentry 2\npairs\nvalues\nclear\nlengths\nwalkvalues fb\n",
        "none\nnone\nmore\nmore\n1=1,4 2=2,3\n1:1 1:4 2:3\n2 1 -\ndone\n2=2,3\nnone\n1:1 1:4\n1 4\ndone\n0 0\n- -\n",
    ),
    # One of several values that goes, by its index among them; an only value stays.
    (
        "append 1 1\nappend 1 2\nappend 2 5\nappend 1 3\nremoveat 1 1\nremoveat 1 2\nremoveat 2 0\nremoveat 7 0\nremoveat 1 0\nremoveat 1 0\npairs\nkeys\nwalk 1 bf\n",
        "new\nmore\nnew\nmore\n2\nnone\nnone\nnone\n1\nnone\n2:5 1:3\n1 2\n3 -\n",
    ),
    # Values written in their places, and a pair that comes where its key is absent.
    (
        "setfirst 1 5\norinsert 1 42\norinsert 1 7\nsetfirst 1 43\nappend 2 8\nsetback 9\nsetfront 4\npairs\n",
        "none\n42\n42\nold 42\nnew\n2:8\n1:43\n1:4 2:9\n",
    ),
    # Neighbours of one key that go, and all pairs that go.
    (
        "append 1 1\nappend 2 9\nappend 1 2\nappend 1 3\nappend 1 9\nretain 9\npairs\nkeys\nall 1\nwalk 1 bf\n",
        "new\nnew\nmore\nmore\nmore\ndone\n2:9 1:9\n1 2\n9\n9 -\n",
    ),
    (
        "append 1 1\nappend 1 2\nretain 9\npairs\nkeys\nappend 1 5\n",
        "new\nmore\ndone\nempty\nempty\nnew\n",
    ),
]

# Runs of lines, each with its reply.
ROWS = [
    # Values that replace others, and keys that leave, each call on an absent key too.
    "insert 5 1 -> none | insert 5 2 -> old 1 | get 5 -> 2",
    "insertall 5 1 -> empty | insertall 5 2 -> 1 | get 5 -> 2",
    "remove 5 -> none | append 5 1 -> new | append 5 2 -> more | remove 5 -> 1 | remove 5 -> none",
    "removeall 5 -> empty | append 5 1 -> new | append 5 2 -> more | removeall 5 -> 1 2 | removeall 5 -> empty",
    "removeentry 5 -> none | insert 5 1 -> none | append 5 2 -> more | removeentry 5 -> 5:1 | removeentry 5 -> none",
    "removeentryall 5 -> none | append 5 1 -> new | append 5 2 -> more | removeentryall 5 -> 5=1,2 | removeentryall 5 -> none",
    # Four values of one key leave at once, and another key stays.
    f"{FOUR} | append 2 5 -> new | removeall 1 -> 1 2 3 4 | lists -> 2=5 | append 1 6 -> new | keys -> 2 1",
    # The last value takes its key with it, from the back and from the front.
    "insert 1 1 -> none | append 1 2 -> more | popback -> borrowed 1 2 | popback -> owned 1 1 | popback -> none",
    "insert 1 1 -> none | append 1 2 -> more | popfront -> borrowed 1 1 | popfront -> owned 1 2 | popfront -> none",
    # The first value of a key that comes and goes is written in its place.
    "setfirst 1 5 -> none | insert 1 1 -> none | setfirst 1 5 -> old 1 | remove 1 -> 5 | setfirst 1 5 -> none",
    # Neighbours in the middle of a key's values go, and ones at its ends.
    "append 1 9 -> new | append 1 2 -> more | append 2 9 -> new | append 1 4 -> more | append 1 9 -> more | retain 5 -> done "
    "| pairs -> 1:9 2:9 1:9 | walk 1 bfb -> 9 9 - | keys -> 1 2",
    f"{FOUR} | retain 4 -> done | all 1 -> 4 | len 1 -> 1 | append 1 5 -> more | walk 1 bb -> 5 4",
    # Values above and below zero: a key whose only value is below goes.
    "insert 1 1 -> none | insert 2 5 -> none | append 1 -1 -> more | insert 3 -10 -> none | insert 4 1 -> none "
    "| append 4 -1 -> more | append 4 1 -> more | retain 0 -> done | pairs -> 1:1 2:5 4:1 4:1 | keys -> 1 2 4",
    # Walks of no item, of one, and of four, from both ends and past them.
    "walkpairs bf -> - - | walkvalues bf -> - - | walkkeys bf -> - - | walk 1 bf -> - -",
    "insert 1 1 -> none | walkpairs ffbfbf -> 1:1 - - - - - | walkvalues ffbfbf -> 1 - - - - - | walkkeys ffbfbf -> 1 - - - - - "
    "| walk 1 ffbfbf -> 1 - - - - -",
    f"{MIXED} | walkpairs fbfbf -> 1:1 1:4 2:2 2:3 - | walkvalues fbfbf -> 1 4 2 3 - | walkkeys fbf -> 1 2 - "
    "| walk 1 fbf -> 1 4 - | walk 2 ff -> 2 3 | walk 3 b -> -",
    f"{MIXED} | pairs -> 1:1 2:2 2:3 1:4 | values -> 1 2 3 4 | keys -> 1 2 | all 2 -> 2 3",
    f"{FOUR} | walk 1 fbfbf -> 1 4 2 3 - | walk 1 bbfff -> 4 3 1 2 - | walkpairs fbbb -> 1:1 1:4 1:3 1:2 | all 1 -> 1 2 3 4",
    # What is inserted, and what is appended, in order.
    "insert 1 1 -> none | insert 2 2 -> none | insert 1 3 -> old 1 | insert 3 4 -> none | keys -> 1 2 3 | pairs -> 2:2 1:3 3:4",
    "insert 1 1 -> none | insert 2 1 -> none | append 1 2 -> more | append 2 2 -> more | pairs -> 1:1 2:1 1:2 2:2",
    "len 1 -> 0 | append 1 1 -> new | len 1 -> 1 | append 1 2 -> more | len 1 -> 2 | all 1 -> 1 2",
    "len 1 -> 0 | insert 1 1 -> none | len 1 -> 1 | insert 1 2 -> old 1 | len 1 -> 1 | append 1 3 -> more | len 1 -> 2 "
    "| insert 1 4 -> old 2 | len 1 -> 1 | remove 1 -> 4 | len 1 -> 0",
    # The clone of a map with holes among its values, whose keys stand in another order than its pairs name them; and of
    # an emptied one. The clone takes the map's place.
    f"{MIXED} | insert 1 5 -> old 1 | append 2 6 -> more | swap -> done | pairs -> 2:2 2:3 1:5 2:6 | keys -> 1 2 "
    "| walk 2 bfb -> 6 2 3 | remove 2 -> 2 | pairs -> 1:5 | keys -> 1 | remove 1 -> 5 | swap -> done | lengths -> 0 0 "
    "| pairs -> empty | append 1 7 -> new | get 1 -> 7",
    f"{MIXED} | swap -> done | popback -> borrowed 1 4 | append 1 4 -> more | pairs -> 1:1 2:2 2:3 1:4",
    # Each of seven values is taken by its index, and none behind the last.
    *(
        f"{SEVEN} | removeat 1 {at} -> {taken} | len 1 -> {len(left.split())} | all 1 -> {left} "
        f"| walk 1 {'b' * len(left.split())} -> {' '.join(reversed(left.split()))} | all 2 -> 20 21"
        for at, taken, left in [
            (0, "10", "11 12 13 14 15 16"),
            (1, "11", "10 12 13 14 15 16"),
            (3, "13", "10 11 12 14 15 16"),
            (4, "14", "10 11 12 13 15 16"),
            (6, "16", "10 11 12 13 14 15"),
            (7, "none", "10 11 12 13 14 15 16"),
        ]
    ),
]

# Runs of changes, each change with its reply, and what look-ups then find: the key that is looked up, its first
# value, how many it has, how many keys and values there are, and the last pair.
CHANGES = [
    [
        ("lengths", "0 0", 1, "none", 0, "0 0", "none"),
        ("insert 1 11", "none", 1, "11", 1, "1 1", "1:11"),
        ("append 2 12", "new", 2, "12", 1, "2 2", "2:12"),
        ("remove 2", "12", 2, "none", 0, "1 1", "1:11"),
        ("remove 1", "11", 1, "none", 0, "0 0", "none"),
    ],
    [
        ("lengths", "0 0", 1, "none", 0, "0 0", "none"),
        ("insert 1 11", "none", 1, "11", 1, "1 1", "1:11"),
        ("remove 1", "11", 1, "none", 0, "0 0", "none"),
        ("insert 1 11", "none", 1, "11", 1, "1 1", "1:11"),
        ("clear", "done", 1, "none", 0, "0 0", "none"),
    ],
    [
        ("insert 1 11", "none", 1, "11", 1, "1 1", "1:11"),
        ("insert 2 12", "none", 2, "12", 1, "2 2", "2:12"),
        ("append 1 13", "more", 1, "11", 2, "2 3", "1:13"),
        ("remove 1", "11", 1, "none", 0, "1 1", "2:12"),
        ("remove 2", "12", 2, "none", 0, "0 0", "none"),
    ],
    [
        ("insert 1 11", "none", 1, "11", 1, "1 1", "1:11"),
        ("insert 1 12", "old 11", 1, "12", 1, "1 1", "1:12"),
        ("append 1 13", "more", 1, "12", 2, "1 2", "1:13"),
        ("insert 1 14", "old 12", 1, "14", 1, "1 1", "1:14"),
        ("remove 1", "14", 1, "none", 0, "0 0", "none"),
    ],
]

# Texts with the number of their first bad line. Nothing is written for them.
BAD = [
    # A run that ends in a line with a missing operand.
    ("append 1 1\nappend 1", 2),
    # Numbers one past each limit, and in another spelling.
    ("append 4294967296 1\n", 1),
    ("append 1 -9223372036854775809\n", 1),
    ("get 4294967296\n", 1),
    ("get 18446744073709551617\n", 1),
    ("append 1 -0\n", 1),
    ("append 1 +1\n", 1),
    ("append -1 1\n", 1),
    ("append 1 01\n", 1),
    ("append 01 1\n", 1),
    ("append 1 -\n", 1),
    ("append 1 1.0\n", 1),
    ("get 0x1\n", 1),
    # Spaces.
    ("get  1\n", 1),
    ("get 1 \n", 1),
    ("append 1  1\n", 1),
    ("walk 1 f b\n", 1),
    ("get\t1\n", 1),
    ("get 1\r\n", 1),
    (" \n", 1),
    # Lines with nothing in them.
    ("\n", 1),
    ("pairs\n\npairs\n", 2),
    ("pairs\n\n", 2),
    # Words.
    ("Get 1\n", 1),
    ("pair\n", 1),
    ("unknown\n", 1),
    ("pairs\nget 1\nunknown 1\nunknown 2\n", 3),
    # Missing and extra operands.
    ("append 1\n", 1),
    ("append 1 2 3\n", 1),
    ("get\n", 1),
    ("all\n", 1),
    ("walk 1\n", 1),
    ("pairs 1\n", 1),
    ("walkpairs\n", 1),
    ("front 1\n", 1),
    ("lengths 1\n", 1),
    ("has\n", 1),
    ("len\n", 1),
    # Walks by no letter, and by another one.
    ("walk 1 \n", 1),
    ("walk 1 fx\n", 1),
    ("walk 1 F\n", 1),
    # A word with the operands of another.
    ("clear 1\n", 1),
    ("insert 1\n", 1),
    ("insertall f 1\n", 1),
    ("remove\n", 1),
    ("remove 1 2\n", 1),
    ("removeall f\n", 1),
    ("removeentry 1 f\n", 1),
    ("setfront\n", 1),
    ("setfront f\n", 1),
    ("setback 9223372036854775808\n", 1),
    ("retain\n", 1),
    ("setfirst 1\n", 1),
    ("orinsert 1 x\n", 1),
    ("popfront 1\n", 1),
    ("popback f\n", 1),
    ("keys 1\n", 1),
    ("walkkeys\n", 1),
    ("values f\n", 1),
    ("walkvalues\n", 1),
    ("swap 1\n", 1),
    ("json 1\n", 1),
    ("json2 1\n", 1),
    ("json3\n", 1),
    ("lists 1\n", 1),
    ("packtofit 1\n", 1),
    ("reserve\n", 1),
    ("reserve 1\n", 1),
    ("reserve 1 4294967296\n", 1),
    ("reserve 4294967296 1\n", 1),
    ("reserve 1 2 3\n", 1),
    ("removeat 1\n", 1),
    ("removeat 1 -1\n", 1),
    ("removeat 1 4294967296\n", 1),
    ("removeat 1 f\n", 1),
    # A NUL.
    ("get 1\0\n", 1),
    # Text beyond ASCII.
    ("get \u0661\n", 1),
    ("p\u00e4irs\n", 1),
]

# Bytes that are no text.
BYTES = [b"\xff\n", b"get \xff\n", b"append 1 \x80\n"]

# A walk of a hundred thousand steps from the back and one from the front, over one value; and many lines.
STEPS, LINES = 100_000, 12_000
LONG = [
    (f"append 1 7\nwalk 1 {'b' * STEPS}f\n", f"new\n7{' -' * STEPS}\n"),
    ("get 1\n" * LINES, "none\n" * LINES),
]


def looked_up(rows):
    """A run of changes with the look-ups behind each, and what is written."""
    given = (f"{change}\nget {key}\nhas {key}\nlen {key}\nlengths\nback\n" for change, _, key, *_ in rows)
    written = (
        f"{reply}\n{first}\n{'yes' if count else 'no'}\n{count}\n{lengths}\n{back}\n"
        for _, reply, _, first, count, lengths, back in rows
    )
    return "".join(given), "".join(written)


def answered(row):
    """A run of lines, and what is written for them."""
    lines, replies = zip(*(step.strip().split(" -> ") for step in row.split("|")))
    return "".join(f"{line}\n" for line in lines), "".join(f"{reply}\n" for reply in replies)


def runs():
    """Each input with its output, the text on standard error, and the status."""
    for given, written in GOOD + LONG + [answered(row) for row in ROWS] + [looked_up(rows) for rows in CHANGES]:
        yield given.encode(), (written.encode(), b"", 0)
    for given, line in [*((text.encode(), line) for text, line in BAD), *((text, 1) for text in BYTES)]:
        yield given, (b"", b"bad line %d\n" % line, 2)
