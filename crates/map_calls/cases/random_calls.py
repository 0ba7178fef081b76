#!/usr/bin/env python3
"""Random calls, always the same ones, and the replies that two plain lists give to them."""
import random
import sys

LINES, KEYS, SEED = 6_000, 9, 41


def lines(seed, count=LINES):
    draw = random.Random(seed)
    for _ in range(count):
        key, value, index = "0" * draw.randrange(3) + str(draw.randrange(KEYS)), draw.randrange(-4, 5), draw.randrange(-1, 5)
        yield draw.choice(
            [f"append {key} {value}"] * 9
            + [f"{it} {key} {value}" for it in ("insert", "set", "entry_set", "contains", "remove_value", "retain_all")]
            + [f"remove_index {key} {index}"] * 2
            + [draw.choice([f"append_many {key} {index}", f"entry_append_many {key} {index}", f"try_insert {key} {value}"])]
            + [f"{it} {key}" for it in ("or_default", "get_last", "get_key_value", "remove")]
            + [draw.choice([f"move_back {key}", f"move_front {key}", f"rename {key} {'0' * draw.randrange(3)}{draw.randrange(KEYS)}"])]
            + [draw.choice(["sort_keys", "sort_keys_by", "sort_by"])]
            + [draw.choice(["pop_front", "pop_front", "pop_front_key", "pop_back_key"])]
            + ["lists", draw.choice(["swap", "swap", draw.choice(["append_map", "insert_map"]), draw.choice(["lists", "into_keys", "into_values"])])]
        )


def some(value):
    """How `Debug` shows an `Option`."""
    return "None" if value is None else f"Some({value})"


def same(key, other):
    return int(key) == int(other)


def by_remainder(key):
    """What the command `sort_keys_by` compares: the greatest remainder comes first."""
    return -(int(key) % 3)


def by_bits(pair):
    """What the command `sort_by` compares: the two lowest bits of the value, and then the key."""
    return pair[1] & 3, by_remainder(pair[0])


def shown(keys, pairs):
    """What the command `lists` writes of these two lists."""
    of = {key: [value for it, value in pairs if same(it, key)] for key in keys}
    return "\n".join(
        [
            "{" + ", ".join(f"{key}: {value}" for key, value in pairs) + "}",
            f"Keys([{', '.join(keys)}])",
            f"KeyValues([{', '.join(f'({key}, EntryValues({of[key]}))' for key in keys)}])",
            *(" ".join(map(str, [key, *reversed(of[key])])) for key in keys),
        ]
    )


def taken_apart(name, items):
    """The first item, the last of the others, and the rest."""
    rest = list(items)
    first = rest.pop(0) if rest else None
    last = rest.pop() if rest else None
    return f"{some(first)} {some(last)} {name}([{', '.join(map(str, rest))}])"


class Lists:
    """The keys in the order in which each last became present, unless one was moved, and all pairs, each under its stored key."""

    def __init__(self):
        self.keys, self.pairs = [], []

    def places(self, key):
        return [place for place, it in enumerate(self.pairs) if same(it[0], key)]

    def values(self, key):
        return [self.pairs[place][1] for place in self.places(key)]

    def append(self, key, value):
        stored = next((it for it in self.keys if same(it, key)), None)
        if stored is None:
            self.keys.append(key)
        self.pairs.append((stored or key, value))
        return None if stored is None else value

    def without(self, places):
        """Takes the pairs at these places out, and the keys that have none then."""
        self.pairs = [it for place, it in enumerate(self.pairs) if place not in places]
        self.keys = [it for it in self.keys if self.places(it)]

    def insert(self, key, value):
        places = self.places(key)
        self.append(key, value)
        self.without(places)

    def set(self, key, value):
        places = self.places(key)
        if places:
            self.pairs[places[0]] = self.pairs[places[0]][0], value
            self.without(places[1:])
        else:
            self.append(key, value)

    def default(self, key):
        if not self.places(key):
            self.append(key, 0)
        place = self.places(key)[0]
        stored, value = self.pairs[place]
        self.pairs[place] = stored, value + 1
        return value + 1

    def retain(self, key, bound):
        """Gives the last value that was asked about."""
        places, old = self.places(key), self.values(key)
        gone = [it for it in places if self.pairs[it][1] < bound]
        for place in places:
            self.pairs[place] = self.pairs[place][0], self.pairs[place][1] + 1
        self.without(gone)
        return old[-1] if old else None

    def take(self, places):
        """Takes the first pair out of those at these places, and gives its value."""
        if not places:
            return None
        value = self.pairs[places[0]][1]
        self.without(places[:1])
        return value

    def move(self, key, is_to_front):
        """Puts the key before or behind all others, and says whether it is there."""
        moved, others = ([it for it in self.keys if same(it, key) == own] for own in (True, False))
        self.keys = moved + others if is_to_front else others + moved
        return "true" if moved else "false"

    def rename(self, key, new):
        """Puts the new key in the place of the key, and gives what the call returns."""
        old = next((it for it in self.keys if same(it, key)), None)
        if old is None:
            return "Err(Absent(..))"
        if any(same(it, new) for it in self.keys if it != old):
            return "Err(Taken(..))"
        self.keys = [new if it == old else it for it in self.keys]
        self.pairs = [(new if it == old else it, value) for it, value in self.pairs]
        return f"Ok({old})"

    def pop(self):
        if not self.pairs:
            return "None"
        key, value = self.pairs[0]
        self.without([0])
        return f"Some(({'Borrowed' if self.places(key) else 'Owned'}({key}), {value}))"

    def pop_key(self, place):
        """Takes the key at this place among the keys out, with all its values."""
        if not self.keys:
            return "None"
        key = self.keys[place]
        values = self.values(key)
        self.without(self.places(key))
        return f"Some(({key}, EntryValuesDrain({values})))"


def whole(lists, other, word):
    """The reply to a command that names no key, or None if there is none."""
    if word == "pop_front":
        return lists.pop()
    if word in ("pop_front_key", "pop_back_key"):
        return lists.pop_key(0 if word == "pop_front_key" else -1)
    if word == "lists":
        return shown(lists.keys, lists.pairs)
    if word in ("sort_keys", "sort_keys_by"):
        lists.keys.sort(key=int if word == "sort_keys" else by_remainder)
        return None
    if word == "sort_by":
        lists.pairs.sort(key=by_bits)
        return None
    if word in ("into_keys", "into_values"):
        is_of_keys = word == "into_keys"
        items = lists.keys if is_of_keys else [value for _, value in lists.pairs]
        lists.keys, lists.pairs = [], []
        return taken_apart("IntoKeys" if is_of_keys else "IntoValues", items)
    if word == "swap":
        lists.keys, lists.pairs, other.keys, other.pairs = other.keys, other.pairs, lists.keys, lists.pairs
        return None
    if word == "insert_map":
        lists.pairs = [it for it in lists.pairs if not other.places(it[0])]
    for pair in other.pairs:
        lists.append(*pair)
    other.keys, other.pairs = [], []
    return "{}"


def of_key(lists, word, key, number):
    """What a command that names a key gives, and the lists that it leaves."""
    places, old = lists.places(key), lists.values(key)
    first = old[0] if old else None
    if word == "append":
        return lists.append(key, number)
    if word == "entry_append_many" and not old:
        return None
    if word in ("append_many", "entry_append_many"):
        for value in range(number):
            lists.append(key, value)
        return max(number, 0)
    if word == "try_insert":
        if not old and number >= 0:
            lists.append(key, number)
        return first if old else number if number >= 0 else None
    if word in ("insert", "remove"):
        lists.insert(key, number) if word == "insert" else lists.without(places)
    elif word == "set" or word == "entry_set" and old:
        lists.set(key, number)
    elif word == "or_default":
        return lists.default(key)
    elif word == "get_last":
        return old[-1] if old else None
    elif word == "get_key_value":
        return "({}, {})".format(*lists.pairs[places[0]]) if old else None
    elif word == "contains":
        return number if number in old else None
    elif word == "remove_index":
        return lists.take(places[number:number + 1] if number >= 0 else [])
    elif word == "remove_value":
        return lists.take([it for it in places if lists.pairs[it][1] == number])
    elif word == "retain_all":
        return lists.retain(key, number)
    return first


def reply(lists, other, line):
    word, *operands = line.split()
    if not operands:
        return whole(lists, other, word)
    if word == "rename":
        return lists.rename(*operands)
    if word in ("move_back", "move_front"):
        return lists.move(operands[0], word == "move_front")
    given = of_key(lists, word, operands[0], int(operands[1]) if operands[1:] else None)
    return str(given) if word == "or_default" else some(given)


def main():
    lists, other = Lists(), Lists()
    for line in lines(int(sys.argv[2]) if sys.argv[2:] else SEED):
        said = line if sys.argv[1] == "in" else reply(lists, other, line)
        if said is not None:
            print(said)


if __name__ == "__main__":
    main()
