"""Short runs with a message in a file: lines that stay, what ends those that are written, a byte order mark, lines that
go on, which first line is a request or status line, and commands with too few words or too many."""

HEAD = "GET / HTTP/1.1\r\nHost: a\r\nAccept:  text/html  \r\naccept: x\r\n"

FOLDED = "Subject: one \r\n\t two\r\n  three\r\nTo: me\r\nsubject:\r\n four\r\n"

# A message, the words behind FILE, the output.
GOOD = [
    # Lines that no command changes stay, and what a command writes ends as the first line does.
    (HEAD + "\r\nbody\n", ["write"], HEAD + "\r\nbody\n"),
    (HEAD + "\r\nbody", ["set", "host", "example.org"],
     "GET / HTTP/1.1\r\nHost: example.org\r\nAccept:  text/html  \r\naccept: x\r\n\r\nbody"),
    (HEAD + "\r\n", ["set", "ACCEPT", "y"], "GET / HTTP/1.1\r\nHost: a\r\nAccept: y\r\n\r\n"),
    (HEAD + "\r\n", ["add", "Via", "b"], HEAD + "Via: b\r\n\r\n"),
    (HEAD + "\r\n", ["remove", "ACCEPT"], "GET / HTTP/1.1\r\nHost: a\r\n\r\n"),
    (HEAD + "\r\n", ["all", "accept"], "text/html\nx\n"),
    (HEAD + "\r\n", ["names"], "Host\nAccept\n"),
    (HEAD + "\r\n", ["list"], "Host: a\nAccept: text/html\naccept: x\n"),
    ("Host: a\r\nAccept: b\n\nbody", ["write"], "Host: a\r\nAccept: b\n\nbody"),
    ("Host: a\r\nAccept: b\n\nbody", ["add", "Via", "c"], "Host: a\r\nAccept: b\nVia: c\r\n\nbody"),
    ("Host: a\nAccept: b\r\n\nbody", ["add", "Via", "c"], "Host: a\nAccept: b\r\nVia: c\n\nbody"),
    ("Host: a", ["write"], "Host: a\n"),
    ("Host: a", ["add", "Via", "b"], "Host: a\nVia: b\n"),
    ("Host: a\r", ["write"], "Host: a\r\n"),
    ("GET / HTTP/1.1", ["add", "Host", "a"], "GET / HTTP/1.1\nHost: a\n"),
    ("\r\nbody", ["add", "Host", "a"], "Host: a\r\n\r\nbody"),
    ("", ["add", "Host", "a"], "Host: a\n"),
    # What stands behind the empty line stays, with headers too.
    ("HTTP/1.1 301 Moved\nLocation: b\n\nHTTP/1.1 200 OK\nLocation: c\n\n", ["remove", "location"],
     "HTTP/1.1 301 Moved\n\nHTTP/1.1 200 OK\nLocation: c\n\n"),
    # Lines that go on are one header's, and its value is shown on one line.
    (FOLDED, ["get", "subject"], "one  two three\n"),
    (FOLDED, ["all", "Subject"], "one  two three\nfour\n"),
    (FOLDED, ["joined", "Subject"], "one  two three, four\n"),
    (FOLDED, ["list"], "Subject: one  two three\nTo: me\nsubject: four\n"),
    (FOLDED, ["names"], "Subject\nTo\n"),
    (FOLDED, ["set", "to", "you"], FOLDED.replace("To: me", "To: you")),
    (FOLDED, ["set", "subject", "new"], "Subject: new\r\nTo: me\r\n"),
    (FOLDED, ["remove", "SUBJECT"], "To: me\r\n"),
    ("A: 1\n  \n", ["get", "a"], "1\n"),
    ("A:\n 1\n", ["get", "a"], "1\n"),
    # A byte order mark stays in front of the message, and belongs to no name.
    ("\ufeffHost: a\n", ["get", "host"], "a\n"),
    ("\ufeffHost: a\n", ["write"], "\ufeffHost: a\n"),
    ("\ufeffHost: a\n", ["set", "host", "b"], "\ufeffHost: b\n"),
    # Request and status lines.
    ("GET / HTTP/2\nHost: a\n", ["get", "host"], "a\n"),
    ("HTTP/2 200\nVia: a\n", ["get", "via"], "a\n"),
    ("HTTP/1.1 404 Not Found\nVia: a\n", ["get", "via"], "a\n"),
    ("HTTP/1.1 200 \nVia: a\n", ["write"], "HTTP/1.1 200 \nVia: a\n"),
    ("M-SEARCH * HTTP/1.1\nHost: a\n", ["write"], "M-SEARCH * HTTP/1.1\nHost: a\n"),
]

# A message without what is asked for, and the words.
ABSENT = [
    ("GET / HTTP/1.1\n\nHost: a\n", ["names"]),
    ("", ["list"]),
    ("Host: a\n", ["all", "via"]),
]

# A message, the words, what stands on standard error behind the program's name.
BAD = [
    ("HTTP/garbage\nHost: a\n", ["get", "host"], "file: line 1: not a header"),
    ("HTTP/1.1\nHost: a\n", ["get", "host"], "file: line 1: not a header"),
    ("HTTP/1.1 20 OK\nHost: a\n", ["get", "host"], "file: line 1: not a header"),
    ("HTTP/11 200 OK\nHost: a\n", ["get", "host"], "file: line 1: not a header"),
    ("GET / HTTP/1.1 junk\nHost: a\n", ["get", "host"], "file: line 1: not a header"),
    ("GET / HTTP/1.1 \nHost: a\n", ["get", "host"], "file: line 1: not a header"),
    ("GET  / HTTP/1.1\nHost: a\n", ["get", "host"], "file: line 1: not a header"),
    ("GET / http/1.1\nHost: a\n", ["get", "host"], "file: line 1: not a header"),
    (":method: GET\n", ["list"],
     "file: line 1: a name begins with a colon only in HTTP/2, which has no such lines"),
    (" Host: a\n", ["list"], "file: line 1: a line that goes on, with no header above it"),
    ("GET / HTTP/1.1\n Host: a\n", ["list"], "file: line 2: a line that goes on, with no header above it"),
    ("A: 1\n 2\n 3\nB\n", ["list"], "file: line 4: not a header"),
    ("A: 1\n 2\x01\n", ["list"], "file: line 1: forbidden value"),
    ("A: 1\n 2\r3\n", ["list"], "file: line 1: forbidden value"),
    ("Host: a\n", ["names", "a"], "names takes nothing; see header_store --help"),
    ("Host: a\n", ["list", "a"], "list takes nothing; see header_store --help"),
    ("Host: a\n", ["joined"], "joined takes NAME; see header_store --help"),
    ("Host: a\n", ["remove", "a", "b"], "remove takes NAME; see header_store --help"),
    ("Host: a\n", ["add", "a"], "add takes NAME and VALUE; see header_store --help"),
    ("Host: a\n", ["write", "a"], "write takes nothing; see header_store --help"),
    ("Host: a\n", ["GET", "a"], "not a command; see header_store --help"),
]


def runs():
    for text, words, written in GOOD:
        yield (b"", ["file", *words], {"file": text.encode()}), (written.encode(), b"", 0)
    for text, words in ABSENT:
        yield (b"", ["file", *words], {"file": text.encode()}), (b"", b"", 1)
    for text, words, reason in BAD:
        yield (b"", ["file", *words], {"file": text.encode()}), (b"", f"header_store: {reason}\n".encode(), 2)
    # A line of ten million bytes.
    long = b"v" * 10_000_000
    yield (b"", ["file", "get", "a"], {"file": b"A: " + long + b"\n"}), (long + b"\n", b"", 0)
