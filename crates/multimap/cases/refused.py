#!/usr/bin/env python3
"""Commands that are run while some request for memory is refused, and what two plain lists say of the replies.

Where a command may lack memory, its reply may be `no memory`: then it has changed neither list."""
from random_lines import Lists, lines, reply

# Each command that asks for memory on a map with and without its key, and random ones behind them.
FIRST = """append 1 1|append 2 2|append 1 3|insert 3 4|insert 1 5|append 1 6|insertall 4 7|insertall 1 8|orinsert 5 9|orinsert 5 9
setfirst 1 2|setfront 3|append 2 4|append 6 1|append 6 2|pairs|keys|values|lists|all 2|all 9|walk 2 fbf|walkpairs bf|removeall 2
removeentryall 6|keys|pairs|append 2 1|append 2 3|reserve 9 9|keys|pairs|packtofit|pairs|swap|pairs|json|keys|pairs|json2|keys
popfront|removeat 2 1|remove 3|append 7 1|append 8 1|append 9 1|append 7 2|retain 1|lists|clear|removeall 1|append 1 1|pairs"""
# A full map, each command that may ask for memory behind it, and the lists that it leaves.
FULL = "append 1 1|append 2 3|append 1 2|packtofit"
ON_FULL = """append 1 4|append 3 4|insert 3 4|insert 2 4|insertall 1 9|insertall 3 9|orinsert 3 4|orinsert 1 7|setfirst 1 8|setfront 5
setback 6|removeall 1|removeentryall 1|removeat 1 1|popfront|retain 2|clear|reserve 9 9|packtofit|swap|json|json2|pairs|walk 1 fb
lengths|lists"""
RUNS = [
    [*FIRST.replace("\n", "|").split("|"), *list(lines())[:60], "keys", "pairs"],
    *(f"{FULL}|{line}|keys|pairs".split("|") for line in ON_FULL.replace("\n", "|").split("|")),
    # Changes of a present key among those of an absent one.
    "append 1 1|insert 1 2|insert 2 3|get 1|popfront".split("|"),
    # The stored run.
    "append 1 1|append 2 2|append 2 3|append 1 4|pairs|all 1|get 2|get 3".split("|"),
    # Once there is room, these three want no memory.
    "reserve 3 3|append 1 3|insert 2 3|orinsert 3 3|keys".split("|"),
    # A bad line behind one whose word takes memory.
    ["walk 1 fbf", "get"],
]
# The number of the bad line of a run.
BAD_LINES = {"get": 2}


def may_lack_memory(lists, line):
    """Whether a command may lack memory: where it adds a pair for good, makes room, makes another map, or lists some item."""
    word, *operands = line.split()
    if word in ("append", "insertall", "reserve", "packtofit", "swap", "json", "json2"):
        return True
    if word in ("insert", "orinsert", "removeall", "removeentryall"):
        is_present = bool(lists.of(int(operands[0])))
        return is_present == word.startswith("remove")
    return word in ("all", "walk", "pairs", "keys", "values", "lists", "walkpairs", "walkkeys", "walkvalues") and reply(lists, line) != "empty"


def fault_in(given, output, error, status, is_refused):
    """What is wrong with an output, a text on standard error and a status, or None. Only a run that is refused memory may lack it."""
    if status == 4 and is_refused:
        return None if (output, error) == (b"", b"out of memory\n") else f"status 4 with {output!r} and {error!r}"
    if given[-1] in BAD_LINES:
        wanted = b"", b"bad line %d\n" % BAD_LINES[given[-1]], 2
        return None if (output, error, status) == wanted else f"status {status} with {output!r} and {error!r}"
    if (error, status) != (b"", 0):
        return f"status {status} with {error!r}"
    lists, replies = Lists(), output.decode().split("\n")
    has_room = (given[0], replies[0]) == ("reserve 3 3", "done")
    for line, said in zip(given, replies):
        if said == "no memory" and is_refused and may_lack_memory(lists, line) and not (has_room and line.endswith(" 3")):
            continue
        wanted = reply(lists, line)
        if said != wanted:
            return f"{line}: {said}, where {wanted} was wanted"
    return None if len(replies) == len(given) + 1 else f"{len(replies)} replies"
