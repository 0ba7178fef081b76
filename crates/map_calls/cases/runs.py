#!/usr/bin/env python3
"""One call each, on maps that are filled first: its reply, and the lists that it leaves."""
from random_calls import by_remainder, shown, some

# Three values of the key 1, two of them equal, two of the key 2, one of the key 3.
PAIRS = "1:5 2:6 1:7 3:8 1:5 2:6"

# A call on these pairs, its reply, and both lists then.
CALLS = [
    ("set 1 9", "Some(5)", "1:9 2:6 3:8 2:6", "1 2 3"),
    ("set 2 9", "Some(6)", "1:5 2:9 1:7 3:8 1:5", "1 2 3"),
    ("set 3 9", "Some(8)", "1:5 2:6 1:7 3:9 1:5 2:6", "1 2 3"),
    ("set 03 9", "Some(8)", "1:5 2:6 1:7 3:9 1:5 2:6", "1 2 3"),
    ("set 04 9", "None", "1:5 2:6 1:7 3:8 1:5 2:6 04:9", "1 2 3 04"),
    ("append_many 2 2", "Some(2)", PAIRS + " 2:0 2:1", "1 2 3"),
    ("append_many 04 3", "Some(3)", PAIRS + " 04:0 04:1 04:2", "1 2 3 04"),
    ("append_many 4 0", "Some(0)", PAIRS, "1 2 3"),
    ("append_many 4 -1", "Some(0)", PAIRS, "1 2 3"),
    ("entry_append_many 2 2", "Some(2)", PAIRS + " 2:0 2:1", "1 2 3"),
    ("entry_append_many 01 1", "Some(1)", PAIRS + " 1:0", "1 2 3"),
    ("entry_append_many 1 0", "Some(0)", PAIRS, "1 2 3"),
    ("entry_append_many 4 2", "None", PAIRS, "1 2 3"),
    ("try_insert 2 9", "Some(6)", PAIRS, "1 2 3"),
    ("try_insert 02 -9", "Some(6)", PAIRS, "1 2 3"),
    ("try_insert 04 9", "Some(9)", PAIRS + " 04:9", "1 2 3 04"),
    ("try_insert 4 -9", "None", PAIRS, "1 2 3"),
    ("entry_set 1 9", "Some(5)", "1:9 2:6 3:8 2:6", "1 2 3"),
    ("entry_set 3 9", "Some(8)", "1:5 2:6 1:7 3:9 1:5 2:6", "1 2 3"),
    ("entry_set 4 9", "None", PAIRS, "1 2 3"),
    ("remove_index 1 0", "Some(5)", "2:6 1:7 3:8 1:5 2:6", "1 2 3"),
    ("remove_index 1 1", "Some(7)", "1:5 2:6 3:8 1:5 2:6", "1 2 3"),
    ("remove_index 1 2", "Some(5)", "1:5 2:6 1:7 3:8 2:6", "1 2 3"),
    ("remove_index 1 3", "None", PAIRS, "1 2 3"),
    ("remove_index 1 9223372036854775807", "None", PAIRS, "1 2 3"),
    ("remove_index 3 0", "Some(8)", "1:5 2:6 1:7 1:5 2:6", "1 2"),
    ("remove_index 3 1", "None", PAIRS, "1 2 3"),
    ("remove_index 4 0", "None", PAIRS, "1 2 3"),
    ("remove_value 1 5", "Some(5)", "2:6 1:7 3:8 1:5 2:6", "1 2 3"),
    ("remove_value 1 7", "Some(7)", "1:5 2:6 3:8 1:5 2:6", "1 2 3"),
    ("remove_value 1 6", "None", PAIRS, "1 2 3"),
    ("remove_value 3 8", "Some(8)", "1:5 2:6 1:7 1:5 2:6", "1 2"),
    ("remove_value 4 5", "None", PAIRS, "1 2 3"),
    # The values below the number go, and 1 is added to the others; the reply is the last value that was asked about.
    ("retain_all 1 6", "Some(5)", "2:6 1:8 3:8 2:6", "1 2 3"),
    ("retain_all 1 5", "Some(5)", "1:6 2:6 1:8 3:8 1:6 2:6", "1 2 3"),
    ("retain_all 1 8", "Some(5)", "2:6 3:8 2:6", "2 3"),
    ("retain_all 2 7", "Some(6)", "1:5 1:7 3:8 1:5", "1 3"),
    ("retain_all 4 0", "None", PAIRS, "1 2 3"),
    ("contains 1 7", "Some(7)", PAIRS, "1 2 3"),
    ("contains 1 6", "None", PAIRS, "1 2 3"),
    ("contains 4 5", "None", PAIRS, "1 2 3"),
    ("get_last 2", "Some(6)", PAIRS, "1 2 3"),
    ("get_last 4", "None", PAIRS, "1 2 3"),
    ("get_key_value 03", "Some((3, 8))", PAIRS, "1 2 3"),
    ("get_key_value 4", "None", PAIRS, "1 2 3"),
    ("or_default 03", "9", "1:5 2:6 1:7 3:9 1:5 2:6", "1 2 3"),
    ("or_default 04", "1", "1:5 2:6 1:7 3:8 1:5 2:6 04:1", "1 2 3 04"),
    ("move_back 1", "true", PAIRS, "2 3 1"),
    ("move_back 02", "true", PAIRS, "1 3 2"),
    ("move_back 3", "true", PAIRS, "1 2 3"),
    ("move_back 4", "false", PAIRS, "1 2 3"),
    ("move_front 1", "true", PAIRS, "1 2 3"),
    ("move_front 02", "true", PAIRS, "2 1 3"),
    ("move_front 3", "true", PAIRS, "3 1 2"),
    ("move_front 4", "false", PAIRS, "1 2 3"),
    ("rename 1 4", "Ok(1)", "4:5 2:6 4:7 3:8 4:5 2:6", "4 2 3"),
    ("rename 02 4", "Ok(2)", "1:5 4:6 1:7 3:8 1:5 4:6", "1 4 3"),
    ("rename 3 4", "Ok(3)", "1:5 2:6 1:7 4:8 1:5 2:6", "1 2 4"),
    # Another spelling of the key itself.
    ("rename 1 01", "Ok(1)", "01:5 2:6 01:7 3:8 01:5 2:6", "01 2 3"),
    ("rename 003 3", "Ok(3)", PAIRS, "1 2 3"),
    ("rename 1 02", "Err(Taken(..))", PAIRS, "1 2 3"),
    ("rename 3 1", "Err(Taken(..))", PAIRS, "1 2 3"),
    ("rename 4 5", "Err(Absent(..))", PAIRS, "1 2 3"),
    ("rename 4 1", "Err(Absent(..))", PAIRS, "1 2 3"),
    ("pop_front_key", "Some((1, EntryValuesDrain([5, 7, 5])))", "2:6 3:8 2:6", "2 3"),
    ("pop_back_key", "Some((3, EntryValuesDrain([8])))", "1:5 2:6 1:7 1:5 2:6", "1 2"),
]

# Calls on the pairs of an only key, of two values, and on none: the reply, and both lists then.
ALONE = [
    ("1:5 1:7", "move_back 1", "true", "1:5 1:7", "1"),
    ("1:5 1:7", "move_front 01", "true", "1:5 1:7", "1"),
    ("1:5 1:7", "rename 1 2", "Ok(1)", "2:5 2:7", "2"),
    ("1:5 1:7", "rename 1 001", "Ok(1)", "001:5 001:7", "001"),
    ("1:5 1:7", "pop_front_key", "Some((1, EntryValuesDrain([5, 7])))", "", ""),
    ("1:5 1:7", "pop_back_key", "Some((1, EntryValuesDrain([5, 7])))", "", ""),
    ("", "move_back 1", "false", "", ""),
    ("", "move_front 1", "false", "", ""),
    ("", "rename 1 1", "Err(Absent(..))", "", ""),
    ("", "pop_front_key", "None", "", ""),
    ("", "pop_back_key", "None", "", ""),
]

# Calls after each other on the first pairs, whose replies are true or the old key, then one that finds the keys where
# they are, and both lists.
MOVED = [
    ("move_front 3;move_front 2;move_back 3", "true true true", "get_last 3", "Some(8)", PAIRS, "2 1 3"),
    ("rename 1 4;rename 2 1;rename 4 2", "Ok(1) Ok(2) Ok(4)", "get_last 1", "Some(6)", "2:5 1:6 2:7 3:8 2:5 1:6", "2 1 3"),
    ("rename 2 7;move_front 7", "Ok(2) true", "get_last 2", "None", "1:5 7:6 1:7 3:8 1:5 7:6", "7 1 3"),
    # The first key isn't that of the first pair, and the last one isn't that of the last.
    ("move_back 1", "true", "pop_front_key", "Some((2, EntryValuesDrain([6, 6])))", "1:5 1:7 3:8 1:5", "3 1"),
    ("move_back 1", "true", "pop_back_key", "Some((1, EntryValuesDrain([5, 7, 5])))", "2:6 3:8 2:6", "2 3"),
    ("move_back 1;rename 1 9", "true Ok(1)", "append 9 0", "Some(0)", "9:5 2:6 9:7 3:8 9:5 2:6 9:0", "2 3 9"),
]

# Pairs, the keys once they are sorted, and once they are sorted by what is left of each divided by three, the greatest first.
SORTED = [
    ("", "", ""),
    ("5:1 5:2", "5", "5"),
    ("2:1 1:2 2:3", "1 2", "2 1"),
    ("5:1 3:2 1:3 5:4 2:5 04:6", "1 2 3 04 5", "5 2 1 04 3"),
]

# Pairs, a key that leaves then, and the others once they are sorted by the two lowest bits of the values, and those with the
# same by what is left of the key divided by three, the greatest first. The keys stay.
SORTED_PAIRS = [
    ("", "", "", ""),
    ("5:3", "", "5:3", "5"),
    ("5:3 1:9", "1", "5:3", "5"),
    ("5:3 5:2 5:7 5:6", "", "5:2 5:6 5:3 5:7", "5"),
    ("1:4 2:8 3:0 04:12", "", "2:8 1:4 04:12 3:0", "1 2 3 04"),
    ("2:7 1:2 2:3 3:4 1:1 3:1 02:4", "", "2:4 3:4 1:1 3:1 1:2 2:7 2:3", "2 1 3"),
    ("7:1 2:7 1:2 7:0 2:3 3:4 1:1 7:2 3:1 2:4", "7", "2:4 3:4 1:1 3:1 1:2 2:7 2:3", "2 1 3"),
]

# Two keys with two values each, one inside the other, and in turn; four values of one key; one value; and none.
MIXED, IN_TURN, OF_ONE = "1:11 2:12 2:13 1:14", "1:11 2:11 1:12 2:12", "1:11 1:12 1:13 1:14"
# Walks over all pairs and over one key's values, with the type of each.
WALKS = [(word, "".join(part.title() for part in word.split("_"))) for word in ("iter", "iter_mut", "into_iter", "values", "values_mut", "keys")]
WALKS += [("pairs", "KeyValues"), ("get_all 1", "EntryValues"), ("get_all_mut 1", "EntryValuesMut"), ("remove_all 1", "EntryValuesDrain")]
# From both ends and past them, and from the front, so that each step tells how many items are left.
WORDS = ("fbfbffbfb", "bffbb", "fffff")

# More keys than are sorted without memory.
MANY = [str(7 * number % 25) for number in range(25)]

# Pairs of a map; pairs of another one, and pairs that then replace those of their key there; and of the first map once all
# went to it the pairs, where they went behind those of their keys and where they replaced these, and the keys.
JOINED = [
    ("", "", "", "", "", ""),
    ("1:11 2:12 1:13", "", "", "1:11 2:12 1:13", "1:11 2:12 1:13", "1 2"),
    ("", "1:11 2:12 2:13 1:14 3:15 1:16", "", "1:11 2:12 2:13 1:14 3:15 1:16", "1:11 2:12 2:13 1:14 3:15 1:16", "1 2 3"),
    ("1:11 2:12 1:13", "2:21 3:22 1:23 3:24 2:25", "", "1:11 2:12 1:13 2:21 3:22 1:23 3:24 2:25", "2:21 3:22 1:23 3:24 2:25", "1 2 3"),
    # A key that the other map lacks keeps its pairs.
    ("1:11 2:12 3:13 1:14", "3:21 1:22 3:23", "", "1:11 2:12 3:13 1:14 3:21 1:22 3:23", "2:12 3:21 1:22 3:23", "1 2 3"),
    # The key 1 is the first of the other map, and its pair the last.
    ("", "1:11 2:12 3:13", "1:14", "2:12 3:13 1:14", "2:12 3:13 1:14", "2 3 1"),
    ("3:1", "1:11 2:12 3:13 2:14", "1:15 2:16", "3:1 3:13 1:15 2:16", "3:13 1:15 2:16", "3 1 2"),
    # Of equal keys the one that was there first stays.
    ("1:1 2:2", "03:3 01:4 02:5 3:6", "", "1:1 2:2 03:3 1:4 2:5 03:6", "03:3 1:4 2:5 03:6", "1 2 03"),
]

# Pairs, keys that are removed then, pairs behind them; and what a map of these gives, taken apart for its keys and for its
# values: the first, the last of the others, and the rest.
TAKEN = [
    ("", "", "", "None None IntoKeys([])", "None None IntoValues([])"),
    ("1:11", "", "", "Some(1) None IntoKeys([])", "Some(11) None IntoValues([])"),
    ("1:11 1:12 1:13 1:14", "", "", "Some(1) None IntoKeys([])", "Some(11) Some(14) IntoValues([12, 13])"),
    ("1:11 2:12 2:13 1:14", "", "", "Some(1) Some(2) IntoKeys([])", "Some(11) Some(14) IntoValues([12, 13])"),
    # A hole in front, one between, and a key that was removed and came again.
    ("1:11 2:21 1:12 3:31 2:22", "1", "1:13", "Some(2) Some(1) IntoKeys([3])", "Some(21) Some(13) IntoValues([31, 22])"),
    # Holes at the end, and then none but holes.
    ("1:11 2:21 3:31", "3 2", "", "Some(1) None IntoKeys([])", "Some(11) None IntoValues([])"),
    ("1:11 2:21 1:12", "2 1", "", "None None IntoKeys([])", "None None IntoValues([])"),
]


def pairs_of(texts):
    return [(key, int(value)) for key, value in (it.split(":") for it in texts.split())]


def filled(texts, old=""):
    """Lines that append these pairs behind those, and their replies."""
    there = {int(key) for key, _ in pairs_of(old)}
    for key, value in pairs_of(texts):
        yield f"append {key} {value}", f"Some({value})" if int(key) in there else "None"
        there.add(int(key))


def items_of(word, pairs):
    """What a walk gives, as `Debug` shows it: the items of the type's own text, and of its steps."""
    pairs = pairs_of(pairs)
    keys = list(dict.fromkeys(key for key, _ in pairs))
    values = {it: [value for key, value in pairs if key == it] for it in keys}
    if "iter" in word:
        texts = [f"({key}, {value})" for key, value in pairs]
        return texts, [f"Ok({it})" for it in texts] if word == "into_iter" else texts
    if word == "pairs":
        texts = [f"({key}, EntryValues({values[key]}))" for key in keys]
    else:
        texts = keys if word == "keys" else [value for key, value in pairs if " " not in word or key == "1"]
    return texts, texts


def walked(word, name, pairs, letters):
    """A walk by these letters, and its reply."""
    texts, items = items_of(word, pairs)
    lines, low, high = [], 0, len(items)
    for letter in letters:
        left, at = high - low, low if letter == "f" else high - 1
        if left:
            low, high = (low + 1, high) if letter == "f" else (low, high - 1)
        rest = ", ".join(str(it) for it in texts[low:high])
        lines.append(f"({left}, Some({left})) {some(items[at] if left else None)} {name}([{rest}])")
    return f"walk {word} {letters}", "\n".join(lines)


def listed(pairs, keys):
    return "lists", shown(keys.split(), pairs_of(pairs))


def removed(pairs, keys):
    """Lines that remove these keys, each of which has a value, and their replies."""
    return [(f"remove {key}", f"Some({next(value for it, value in pairs_of(pairs) if it == key)})") for key in keys.split()]


def replaced(pairs, texts):
    """Lines that replace the values of a key by one, and their replies."""
    old = pairs_of(pairs)
    return [(f"insert {key} {value}", f"Some({next(value for it, value in old if it == key)})") for key, value in pairs_of(texts)]


def runs():
    runs = [[*filled(PAIRS), (call, reply), listed(pairs, keys)] for call, reply, pairs, keys in CALLS]
    runs += [[*filled(old), (call, reply), listed(pairs, keys)] for old, call, reply, pairs, keys in ALONE]
    for calls, replies, *found, pairs, keys in MOVED:
        runs.append([*filled(PAIRS), *zip(calls.split(";"), replies.split()), tuple(found), listed(pairs, keys)])
    many = " ".join(f"{key}:1" for key in MANY)
    for pairs, *sorts in [*SORTED, (many, " ".join(sorted(MANY, key=int)), " ".join(sorted(MANY, key=by_remainder)))]:
        for word, keys in zip(("sort_keys", "sort_keys_by"), sorts):
            runs.append([*filled(pairs), (word, None), listed(pairs, keys)])
    by_key = " ".join(sorted(many.split(), key=lambda it: by_remainder(it.split(":")[0])))
    for pairs, gone, by_pair, keys in [*SORTED_PAIRS, (many, "", by_key, " ".join(MANY))]:
        runs.append([*filled(pairs), *removed(pairs, gone), ("sort_by", None), listed(by_pair, keys)])
    for pairs, other, inserted, *made, keys in JOINED:
        for word, left in zip(("append_map", "insert_map"), made):
            lines = [*filled(other), *replaced(other, inserted), ("swap", None), *filled(pairs), (word, "{}")]
            runs.append([*lines, listed(left, keys), ("swap", None), listed("", "")])
    for pairs, gone, behind, *taken in TAKEN:
        for word, reply in zip(("into_keys", "into_values"), taken):
            left = " ".join(it for it in pairs.split() if it.split(":")[0] not in gone.split())
            runs.append([*filled(pairs), *removed(pairs, gone), *filled(behind, left), (word, reply), listed("", "")])
    for pairs in (MIXED, IN_TURN, OF_ONE, "1:11", ""):
        runs += [[*filled(pairs), walked(*walk, pairs, letters)] for walk in WALKS for letters in WORDS]
    for run in runs:
        given = "".join(f"{line}\n" for line, _ in run)
        yield given.encode(), ("".join(f"{reply}\n" for _, reply in run if reply is not None).encode(), b"", 0)
