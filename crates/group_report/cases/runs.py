#!/usr/bin/env python3
"""What the program should print, by the rules of its head: of lines and options as people write them, and at random."""
import pathlib
import random
import re

HELP = pathlib.Path(__file__).with_name("help.out")
VERSION = re.search(r"^## (\S+)$", (HELP.parents[3] / "CHANGELOG.md").read_text(), re.M)[1]
BLANKS = b" \t\n\x0c\r"
LEAST, GREATEST = -(2**63), 2**63 - 1


class Bad(Exception):
    pass


def field_of(line, separator, number):
    """The field of this number, from 1, or the last one."""
    fields = line.split(separator.encode()) if separator else re.findall(rb"[^ \t\n\x0c\r]+", line)
    if number > len(fields):
        raise Bad("too few fields")
    return fields[number - 1].strip(BLANKS)


def last_of(text, separator):
    """What stands before the last separator, and what stands behind it."""
    found = re.fullmatch(rb"(.*)" + (re.escape(separator.encode()) if separator else rb"[ \t\n\x0c\r]") + rb"(.*)", text, re.DOTALL)
    if not found or separator and separator.encode() in found[2]:
        raise Bad("not a group and a value")
    return found[1].strip(BLANKS), found[2].strip(BLANKS)


def entry_of(line, options):
    """The group and the value on a line, or None where it is blank."""
    line = line.removesuffix(b"\r")
    try:
        line.decode()
    except UnicodeDecodeError:
        raise Bad("not UTF-8") from None
    text, counts, separator = line.strip(BLANKS), options.get("count"), options.get("d")
    if not text:
        return None
    if "key" in options:
        within = line if separator else text
        group = field_of(within, separator, options["key"])
        if counts:
            return group, 1
        value = field_of(within, separator, options["value"]) if "value" in options else last_of(within, separator)[1]
    elif counts:
        return text, 1
    else:
        group, value = last_of(text, separator)
    if not re.fullmatch(rb"[+-]?[0-9]+", value):
        raise Bad("not a number")
    if not LEAST <= int(value) <= GREATEST:
        raise Bad("out of range")
    return group, int(value)


def figures(values, counts):
    return f"count {len(values)}" + ("" if counts else f", sum {sum(values)}, least {min(values)}, greatest {max(values)}")


def table_of(groups, counts):
    yield b"group\tcount" + (b"" if counts else b"\tsum\tleast\tgreatest") + b"\n"
    for group, values in groups:
        shown = group.replace(b"\\", rb"\\").replace(b"\t", rb"\t").replace(b"\r", rb"\r")
        columns = [len(values)] if counts else [len(values), sum(values), min(values), max(values)]
        yield shown + "".join(f"\t{it}" for it in columns).encode() + b"\n"


def lines_of(groups, options):
    if options.get("tsv"):
        yield from table_of(groups, options.get("count"))
        return
    for group, values in groups:
        yield group + f": {figures(values, options.get('count'))}\n".encode()
        if options.get("list"):
            yield "".join(f"  {value}\n" for value in values).encode()
    everything = [value for _, values in groups for value in values]
    yield f"total: groups {len(groups)}".encode()
    yield f", {figures(everything, options.get('count'))}\n".encode() if groups else b"\n"


def report(text, options, are_none):
    """What is printed, and how many lines were passed over."""
    bound, groups, skipped = options.get("bound"), {}, 0
    for index, line in enumerate(text.removeprefix(b"\xef\xbb\xbf").split(b"\n")):
        try:
            entry = entry_of(line, options)
        except Bad as error:
            if not options.get("skip"):
                raise Bad(f"line {index + 1}: {error}") from None
            entry, skipped = None, skipped + 1
        if entry and are_none and index == 0 and entry[0] == b"bound":
            bound = entry[1]
        elif entry:
            groups.setdefault(entry[0], []).append(entry[1])
    groups = list(groups.items())
    if "sort" in options:
        groups.sort(key=(lambda it: it[0]) if options["sort"] == "name" else (lambda it: -sum(it[1])))
    said = b"".join(lines_of(groups, options))
    if bound is not None:
        said += b"\n" + b"".join(lines_of([it for it in groups if sum(it[1]) >= bound], options))
    return said, skipped


def wanted(text, options, are_none, source):
    try:
        said, skipped = report(text, options, are_none)
        return said, f"group_report: {source}: bad lines passed over: {skipped}\n".encode() if skipped else b"", 0
    except Bad as error:
        return b"", f"group_report: {source}: {error}\n".encode(), 2


def words_of(options, joined=False):
    for name, value in options.items():
        option = f"--{name}" if len(name) > 1 else f"-{name}"
        word = r"\t" if value == "\t" else str(value)
        if value is True:
            yield option
        elif joined:
            yield option + ("=" if len(name) > 1 else "") + word
        else:
            yield from (option, word)


TEXTS = [
    b"",
    b"\n \t\n",
    b"north 12\nsouth 7\nnorth -30\n",
    b"north 12\r\nsouth 7\r\n\r\nnorth -30\r",
    b"\xef\xbb\xbfNew York \t 12\n  New York\t-7  \nNew  York 3",
    b"bound 3\nbound 4\na 2",
    b" bound\t3\na 4\na -2\nb 7",
    b"b 5\na 7\nc 5\nb 2\na -9",
    # Sums of 20, 24, 13 and 15; and those of 4 and 2, and of 3 and 1, tie.
    b"5 11\n3 12\n1 13\n5 9\n2 15\n3 12\n",
    b"4 3\n3 7\n2 1\n1 7\n2 2\n",
    "Zürich 5\n東京 7\nZürich 6\nzürich 1\n".encode(),
    b"a 9223372036854775807\na 1\nb 2\n",
    b"a 9223372036854775807\nb 1\n",
    b"a -9223372036854775808\nb 9223372036854775807\n",
    b"a 1\nb\nc two\n",
    b"a 1\nb two\nc\n",
    b"a 1\nb 9223372036854775808\nc\n",
    b"a 1\nb -9223372036854775809\n",
    b"a 1.5\n",
    b"a +5\na 007\na -\n",
    b"a 1\n\nZ\xfcrich 3\nb\n",
    b"a 1\nb\nZ\xfcrich 3\n",
    b"a\x0b 1\na\x0c1\n\xc2\xa0 2\n",
    b"/index.html\n/style.css\n/index.html\n\n / \n",
    b"x,north, 5\ny,south,7\nz,north ,-3,9\n,,1\nw\n",
    b"x\tnorth\t5\ny\tback\\slash\t7\n\tnorth\t1\nz\tnorth\n",
    "a→1\nb→2→3\na→4\n".encode(),
    b"a\rb 1\na\\b 2\na\tb 3\n",
]
OPTIONS = [
    {},
    {"count": True},
    {"bound": 5},
    {"bound": -3, "sort": "total"},
    {"sort": "name"},
    {"sort": "total"},
    {"list": True},
    {"list": True, "sort": "total", "bound": 0},
    {"count": True, "sort": "total", "bound": 2},
    {"bound": 9223372036854775808},
    {"tsv": True},
    {"tsv": True, "count": True, "sort": "name"},
    {"tsv": True, "bound": 2, "skip": True},
    {"skip": True, "list": True},
    {"d": ",", "skip": True},
    {"d": "→", "tsv": True, "skip": True},
    {"key": 1, "skip": True},
    {"key": 2, "value": 3, "d": ",", "skip": True},
    {"key": 2, "d": "\t"},
    {"key": 2, "d": "\t", "count": True, "tsv": True, "skip": True},
    {"key": 1, "value": 2, "sort": "total"},
]
FAULTS = [
    (["--bogus"], "unknown option: --bogus; see group_report --help"),
    (["-l"], "unknown option: -l; see group_report --help"),
    (["--sort"], "no value behind: --sort; see group_report --help"),
    (["--sort", "size"], "--sort takes name or total: size; see group_report --help"),
    (["--bound", "high"], "--bound takes a whole number of 128 bits: high; see group_report --help"),
    (["--bound", "1.5"], "--bound takes a whole number of 128 bits: 1.5; see group_report --help"),
    (["--bound="], "--bound takes a whole number of 128 bits: ; see group_report --help"),
    (["--count=yes"], "this option takes no value: --count; see group_report --help"),
    (["-d"], "no value behind: -d; see group_report --help"),
    (["-d", ""], "-d takes one character: ; see group_report --help"),
    (["-d,;"], "-d takes one character: ,;; see group_report --help"),
    (["-d", "\n"], "-d takes one character: \\n; see group_report --help"),
    (["--key", "0"], "not the number of a field, from 1: 0; see group_report --help"),
    (["--key", "x\x1b\ny"], "not the number of a field, from 1: x\\u{1b}\\ny; see group_report --help"),
    (["--value", "2"], "--value wants a --key beside it; see group_report --help"),
    (["--key", "1", "--value", "2", "--count"], "--count leaves no value for --value; see group_report --help"),
    (["--tsv", "--list"], "--tsv has no lines for --list; see group_report --help"),
    (["--bogus", "absent.txt"], "unknown option: --bogus; see group_report --help"),
    (["absent.txt", "--sort", "size"], "--sort takes name or total: size; see group_report --help"),
    (["--count", "--list"], "--count leaves no values for --list; see group_report --help"),
    (["a.txt", "b.txt"], "one file at most: b.txt; see group_report --help"),
]


def random_text(draw):
    names = ["a", "b c", "ü", "bound", "x\ty", "9"]
    return "".join(f"{draw.choice(names)}{draw.choice([' ', '  ', chr(9)])}{draw.randrange(-20, 20)}\n" for _ in range(draw.randrange(40))).encode()


def runs():
    draw = random.Random(5)
    for text in [*TEXTS, *(random_text(draw) for _ in range(20))]:
        for options in OPTIONS:
            words = list(words_of(options))
            yield (text, words), wanted(text, options, not words, "standard input")
            yield (b"a 1", [*words, "the lines"], {"the lines": text}), wanted(text, options, False, "the lines")
            behind = ["the lines", *words_of(options, joined=True)]
            yield (b"a 1", behind, {"the lines": text}), wanted(text, options, False, "the lines")
    text = b"bound 1\n"
    yield (text, ["-"]), wanted(text, {}, False, "standard input")
    yield (b"", ["--", "--list"], {"--list": text}), wanted(text, {}, False, "--list")
    for words, reason in FAULTS:
        yield (b"", words, {"a.txt": text}), (b"", f"group_report: {reason}\n".encode(), 2)
    yield (b"", ["--", "--list", "--count"], {"--list": text}), (b"", b"group_report: one file at most: --count; see group_report --help\n", 2)
    yield (b"", ["a\nb"], {"a\nb": b"c"}), (b"", b"group_report: a\\nb: line 1: not a group and a value\n", 2)
    for word in ["-h", "--help"]:
        yield (b"", ["--list", word, "absent.txt"]), (HELP.read_bytes(), b"", 0)
    yield (b"", ["--version", "absent.txt"]), (f"group_report {VERSION}\n".encode(), b"", 0)
    yield (b"", ["absent.txt"]), (b"", b"group_report: absent.txt: No such file or directory (os error 2)\n", 4)
    yield (b"", ["."]), (b"", b"group_report: .: Is a directory (os error 21)\n", 4)
    # A line of ten million bytes.
    text = b"v" * 10_000_000 + b" 7\n"
    yield (text, ["--tsv", "-"]), wanted(text, {"tsv": True}, False, "standard input")
