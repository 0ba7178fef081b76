#!/usr/bin/env python3
"""What the program should print, by the URL standard's rules as Python's urllib has them: queries and commands at random.

urllib differs from the standard in what stands between `&` without `=`, which it keeps as a field of an empty value only
where it is told so, in `?`, which it keeps, and in which of `*` and `~` it escapes; all are told here.
"""
import random
from urllib.parse import parse_qsl, quote_plus

HELP = "; see query_fields --help\n"
BARE = ("names", "list", "write")


def fields_of(query):
    return [(name.decode("utf-8", "replace"), value.decode("utf-8", "replace")) for name, value in parts_of(query)]


def parts_of(query):
    """The names and values of a query as bytes, by urllib: it reads Latin-1 as the bytes themselves."""
    text = query.removeprefix(b"?").decode("latin-1")
    return [(name.encode("latin-1"), value.encode("latin-1")) for name, value in parse_qsl(text, keep_blank_values=True, encoding="latin-1")]


def written(text):
    """The text, escaped: urllib leaves `~` as it is, which the standard escapes."""
    return quote_plus(text, safe="*").replace("~", "%7E")


def query_of(fields):
    return "&".join(f"{written(name)}={written(value)}" for name, value in fields)


def carried_out(fields, word, operand, shown=query_of):
    """The fields afterwards, and what is written, or None where what is asked for is absent."""
    name, _, value = operand.partition("=")
    if word == "get":
        found = [it[1] for it in fields if it[0] == operand]
        return fields, f"{found[0]}\n" if found else None
    if word == "all":
        found = [it[1] for it in fields if it[0] == operand]
        return fields, "".join(f"{it}\n" for it in found) if found else None
    if word == "names":
        return fields, "".join(f"{it}\n" for it in dict.fromkeys(it[0] for it in fields)) or None
    if word == "list":
        return fields, "".join(f"{query_of([it])}\n" for it in fields) or None
    if word == "set":
        first = next((place for place, it in enumerate(fields) if it[0] == name), len(fields))
        kept = [it for place, it in enumerate(fields) if place < first or it[0] != name]
        return kept[:first] + [(name, value)] + kept[first:], ""
    if word == "add":
        return [*fields, (name, value)], ""
    if word == "remove":
        return [it for it in fields if it[0] != operand], ""
    return fields, shown(fields) + "\n"


def by_lines(query, commands):
    fields, said = fields_of(query), ""
    for word, operand in commands:
        fields, answer = carried_out(fields, word, operand)
        said += ("none\n" if word == "get" else "") if answer is None else answer
    text = query + b"\n" + "".join(f"{word}\n" if word in BARE else f"{word} {operand}\n" for word, operand in commands).encode()
    return text, (said.encode(), b"", 0)


def by_words(query, word, operand, around=None):
    """A run on the query, or on the URL that has these texts before and behind its `?` and its query, of which no `?` is cut."""
    text, shown, fields = query.decode(), query_of, fields_of(query)
    if around:
        text, fields = f"{around[0]}?{text}{around[1]}", fields_of(b"?" + query)

        def shown(fields):
            return around[0] + ("?" + query_of(fields) if fields else "") + around[1]

    fields, answer = carried_out(fields, word, operand, shown)
    words = ["--", text, word, *([] if word in BARE else [operand])]
    if answer is None:
        return (b"", words), (b"", b"", 1)
    changes = word in ("set", "add", "remove")
    return (b"", words), ((answer + (shown(fields) + "\n" if changes else "")).encode(), b"", 0)


QUERIES = [
    b"", b"?", b"??a=1", b"a", b"a=", b"=a", b"=", b"&", b"a=1&&b=2&", b"a=1=2", b"a+b=c+d", b"%61=%62", b"a=%", b"a=%4", b"a=%4g&b=%zz",
    b"a=%%41", b"a=%2541", b"a=%c3%a9", b"a=%C3", b"a=%E2%82", b"a=%f0%9f%8d%95", b"a=%ff%fe", b"a=%ed%a0%80", b"a=%c0%af", b"a=%EF%BB%BFb",
    b"a=%00%0a", "a=é&ü=ß".encode(), b"utf8=%E2%9C%93&name=Zo%C3%AB&name=%5B%5D", b"a=b;c=d", b"a=~-._*'()!", b"x=%25&x=+%2B",
]
AROUND = [("https://example.org/", ""), ("a+b-c.1://", "#"), ("http://u:p@h:1/a=1&b/é", "#a?b=1#c"), ("X:///=", "#=\r")]
NAMES = ["a", "b", "", "a b", "name", "x", "utf8", "ü", "é=", "none"]
AS_IT_IS = [
    (["\ufeffa=1\rb", "write"], b"%EF%BB%BFa=1%0Db\n"),
    (["a=1\n", "write"], b"a=1%0A\n"),
]
RAW = [b"a=\xe9", b"\xff=\xfe&a=\xc3%a9", b"a=\xc3\xa9\xc3"]
FAULTS = [
    (["a=1"], b"query_fields: no command behind the query" + HELP.encode()),
    (["a=1", "find", "a"], b"query_fields: not a command: find" + HELP.encode()),
    (["a=1", "get"], b"query_fields: get takes NAME" + HELP.encode()),
    (["a=1", "all"], b"query_fields: all takes NAME" + HELP.encode()),
    (["a=1", "set"], b"query_fields: set takes NAME=VALUE" + HELP.encode()),
    (["a=1", "add"], b"query_fields: add takes NAME=VALUE" + HELP.encode()),
    (["a=1", "remove"], b"query_fields: remove takes NAME" + HELP.encode()),
    (["a=1", "write", "a"], b"query_fields: write takes nothing" + HELP.encode()),
    (["a=1", "names", "a"], b"query_fields: names takes nothing" + HELP.encode()),
    (["a=1", "list", "a"], b"query_fields: list takes nothing" + HELP.encode()),
    (["a=1", "get", "a", "b"], b"query_fields: one word at most behind the command: b" + HELP.encode()),
    (["--lax", "a=1", "get", "a"], b"query_fields: unknown option: --lax" + HELP.encode()),
    (["--strict", "a=%", "get", "a"], b"query_fields: query: bad escape at byte 3\n"),
    (["--strict", "a=1&b=%ff", "get", "a"], b"query_fields: query: bad escape at byte 7\n"),
]


def random_query(draw):
    pieces = ["a", "b", "=", "&", "+", "%41", "%", "%e2%82%ac", "%ff", "%4", "x", "é", "?"]
    return "".join(draw.choice(pieces) for _ in range(draw.randrange(12))).encode()


def runs():
    draw = random.Random(3)
    for query in [*QUERIES, *(random_query(draw) for _ in range(60))]:
        commands = [(draw.choice(["get", "all", "set", "add", "remove", *BARE]), draw.choice(NAMES)) for _ in range(6)]
        commands = [(word, f"{name}={draw.choice(['', '1', 'x=y', 'ü &'])}" if word in ("set", "add") else "" if word in BARE else name)
                    for word, name in commands]
        yield by_lines(query, [*commands, ("write", "")])
        for command in commands[:3]:
            yield by_words(query, *command)
        yield by_words(query, *commands[3], draw.choice(AROUND))
    for query in RAW:
        yield by_lines(query, [("write", ""), ("all", "a")])
    for words, output in AS_IT_IS:
        yield (b"", words), (output, b"", 0)
    for words, message in FAULTS:
        yield (b"", words), (b"", message, 2)
    # A line of ten million bytes.
    long = b"v" * 10_000_000
    yield (b"a=" + long + b"&b=1\n", ["-", "get", "a"]), (long + b"\n", b"", 0)
