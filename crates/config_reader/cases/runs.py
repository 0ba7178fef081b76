"""Short runs: names of sections that a line can't have or that end early, a backslash at the end of the text, and where
a setting is added."""

# A text, the words behind FILE, the output.
GOOD = [
    # A bracket belongs to the name between quotes, wherever it stands there.
    ('[a "]x"]\nk = 1\n', ["get", "a.]x.k"], "1\n"),
    ('[a "x]"]\nk = 1\n', ["get", "a.x].k"], "1\n"),
    ('[a "]"] # the "a"\nk = 1\n', ["get", "a.].k"], "1\n"),
    ('[a "x]y"]\nk = 1\n', ["sections"], "a.x]y\n"),
    ("", ["add", "a.]x.k", "1"], '[a "]x"]\n\tk = 1\n'),
    # Quotes behind the bracket are of the comment.
    ('[a] # "x"\nk = 1\n', ["get", "a.k"], "1\n"),
    ('[a.b];"]\nk = 1\n', ["get", "a.b.k"], "1\n"),
    # A joined line has to be there, and may be empty. Blanks in front of the backslash belong to the value, as in git.
    ("[a]\nk = 1 \\\n\n", ["get", "a.k"], "1 \n"),
    ("[a]\nk = 1\\\n2", ["get", "a.k"], "12\n"),
    ("[a]\nk = 1 \\\n\n", ["add", "a.l", "2"], "[a]\nk = 1 \\\n\nl = 2\n"),
    ('[a]\nk = "1\\\n"\n', ["add", "a.l", "2"], '[a]\nk = "1\\\n"\nl = 2\n'),
    # A setting is added behind the last one of its section, in front of the lines above the next section.
    ("[a]\n  k = 1\n\n# of b\n[b]\nm = 2\n", ["add", "a.l", "3"], "[a]\n  k = 1\n  l = 3\n\n# of b\n[b]\nm = 2\n"),
    ("k = 1\n# of a\n[a]\n", ["add", "l", "2"], "k = 1\nl = 2\n# of a\n[a]\n"),
    ("[a]\nk = 1\n# end\n", ["add", "b.l", "2"], "[a]\nk = 1\n# end\n[b]\n\tl = 2\n"),
    # Of a section that stands twice it goes to the last part, and is indented as that, or as the one before.
    ("[a]\n    k = 1\n[b]\n[A]\n  m = 2\n", ["add", "a.l", "3"], "[a]\n    k = 1\n[b]\n[A]\n  m = 2\n  l = 3\n"),
    ("[a]\n  k = 1\n[a]\n[b]\n", ["add", "a.l", "3"], "[a]\n  k = 1\n[a]\n  l = 3\n[b]\n"),
    # A section without quotes is named in small letters behind its dot; between quotes letters have any case.
    ("[A.b]\nk = 1\n", ["get", "a.b.k"], "1\n"),
    ('[A "B"]\nk = 1\n', ["get", "a.B.k"], "1\n"),
    ('[a "b.C"]\nk = 1\n', ["get", "a.b.C.k"], "1\n"),
    # What git writes outside of quotes; a comment, and a joined line, behind an escape.
    ('[alias]\n\tlg = log --format=\\"%h %s\\"\n', ["get", "alias.lg"], 'log --format="%h %s"\n'),
    ('[a]\nk = \\"b\\" # c\n', ["get", "a.k"], '"b"\n'),
    ('[a]\nk = \\"b \\\n  c\\" ; d\n', ["get", "a.k"], '"b   c"\n'),
    ('[a]\nk = \\"\\\r\n  b\r\n', ["get", "a.k"], '"  b\n'),
    ('[a]\nk = \\\\\\\n\\"\n', ["get", "a.k"], '\\"\n'),
    ('[a]\nk = a\\tb\\nc\\\\d\\be\n', ["get", "a.k"], "a\tb\nc\\d\be\n"),
    ('[a]\nk = x "a" \\"b\\" "# c"\n', ["get", "a.k"], 'x a "b" # c\n'),
    ("[a]\nk = \\t b \\t \n", ["get", "a.k"], "\t b \t\n"),
    ("[a]\nk = a\\b", ["get", "a.k"], "a\b\n"),
    ('[a]\nk = "\\b"\n', ["get", "a.k"], "\b\n"),
    ('[a]\nk = \\"b\\"\n', ["add", "a.l", 'c "d"'], '[a]\nk = \\"b\\"\nl = "c \\"d\\""\n'),
    ("[a]\nk = \\b\n", ["add", "a.l", "c\bd"], "[a]\nk = \\b\nl = c\bd\n"),
    # Blanks belong to the name between quotes, also where a question has it behind a dot.
    ('[a "x"]\nk = 1\n[a "x "]\nl = 2\n', ["keys", "a.x "], "l\n"),
    ('[a "x"]\nk = 1\n[a "x "]\nk = 2\n', ["get", "a.x .k"], "2\n"),
    ('[a "x"]\nk = 1\n[a " x"]\nk = 2\n', ["get", "a. x.k"], "2\n"),
    ('[a "x "]\nk = 2\n', ["get", 'a "x ".k'], "2\n"),
    ('[a "x"]\nk = 1\n', ["set", "a.x .k", "v"], '[a "x"]\nk = 1\n[a "x "]\n\tk = v\n'),
    ('[a "x "]\nk = 1\n', ["add", "a.x .l", "v"], '[a "x "]\nk = 1\nl = v\n'),
    # Around the word and the key they count for nothing.
    ("[a]\nk = 1\n", ["get", " a . k "], "1\n"),
    ("[a]\nk = 1\n", ["keys", " a "], "k\n"),
    # Blanks between the word and the quotes.
    ('[a\t"x"]\nk = 1\n', ["get", "a.x.k"], "1\n"),
    ('[a \t "x"]\nk = 1\n', ["get", "a.x.k"], "1\n"),
    # A key that git doesn't allow is read, and taken out.
    ("[a]\nline_width = 1\nk-2 = 3\n", ["get", "a.line_width"], "1\n"),
    ("[a]\nline_width = 1\nk-2 = 3\n", ["unset", "a.line_width"], "[a]\nk-2 = 3\n"),
    ("[a]\nk-2 = 3\n", ["add", "a.K-2", "4"], "[a]\nk-2 = 3\nK-2 = 4\n"),
    # A form feed is no blank. Other readers strip it, so it is written between quotes.
    ("[a]\nk = \fb\f \n", ["get", "a.k"], "\fb\f\n"),
    ("", ["add", "a.k", "b\f"], '[a]\n\tk = "b\f"\n'),
    # A byte order mark stays where the whole text is written.
    ("\ufeff[a]\nk = 1\n", ["get", "a.k"], "1\n"),
    ("\ufeff[a]\nk = 1\n", ["write"], "\ufeff[a]\nk = 1\n"),
    ("\ufeff[a]\nk = 1\n", ["set", "a.k", "2"], "\ufeff[a]\nk = 2\n"),
    ("\ufeff[a]\nk = 1\n", ["add", "a.l", "2"], "\ufeff[a]\nk = 1\nl = 2\n"),
    ("\ufeff[a]\nk = 1\n", ["unset", "a.k"], "\ufeff[a]\n"),
]

# Standard input, the output.
QUESTIONS = [
    ('[a "x"]\nk = 1\n[a "x "]\nl = 2\n---\nkeys a.x \n  keys  a.x\r\nget a.x .l \r\n', "l\nk\n2\n"),
    ("[a]\nk = 1\n---\nkeys \n sections \n \r\nget a.k", "a\n1\n"),
    ("[A]\nK = 1\n---\nlist\nlist \n", "a.k=1\na.k=1\n"),
]

# A text, what `list` writes, what it writes behind `-z`.
LISTED = [
    (
        '[A "B"]\nKey\nx = 1\nX =\n[a.b]\ny = "2\\n3"\n',
        "a.B.key\na.B.x=1\na.B.x=\na.b.y=2\n3\n",
        "a.B.key\0a.B.x\n1\0a.B.x\n\0a.b.y\n2\n3\0",
    ),
    ("k = 1\n[a]\n", "k=1\n", "k\n1\0"),
    ('[a "x y"]\nk = "=" # =\n', "a.x y.k==\n", "a.x y.k\n=\0"),
    ("[a]\nl = 2\n[b]\nk = 1\n[a]\nl = 3\n", "a.l=2\nb.k=1\na.l=3\n", "a.l\n2\0b.k\n1\0a.l\n3\0"),
]

# A text, the words, what stands on standard error behind the program's name.
BAD = [
    # A line feed would end the section's line.
    ("", ["add", "a\nb.k", "1"], "not the name of a section; see config_reader --help"),
    ("", ["add", "a.b\nc.k", "1"], "not the name of a section; see config_reader --help"),
    ("", ["set", 'a "b\nc".k', "1"], "not the name of a section; see config_reader --help"),
    ("[a]\nk = 1\n", ["keys", "a\nb"], "not the name of a section; see config_reader --help"),
    ("[a]\nk = 1\\\n", ["add", "a.l", "2"], "file: line 2: no line behind a backslash"),
    ("[a]\nk = 1\\\r\n", ["write"], "file: line 2: no line behind a backslash"),
    ("[a]\nk = 1\\\n\\\n", ["write"], "file: line 2: no line behind a backslash"),
    ("[a]\nk = \\\n", ["get", "a.k"], "file: line 2: no line behind a backslash"),
    ("[a]\nk = \\r\n", ["write"], "file: line 2: unknown escape"),
    ("[a]\nk = \\ b\n", ["write"], "file: line 2: unknown escape"),
    ("[a]\nk = \\#b\n", ["write"], "file: line 2: unknown escape"),
    ("[a]\nk = \\\r1\n", ["write"], "file: line 2: unknown escape"),
    ('[a "x"\n', ["write"], "file: line 1: not a section or a setting"),
    ('[a "x" ]\n', ["write"], "file: line 1: not a section or a setting"),
    ('[a "x"y"]\n', ["write"], "file: line 1: not a section or a setting"),
    ('[a ""]\n', ["write"], "file: line 1: not the name of a section"),
    ('[a "x"] k = 1\n', ["write"], "file: line 1: not a section or a setting"),
    ("[a] k = 1\n", ["write"], "file: line 1: not a section or a setting"),
    ("[a\n", ["write"], "file: line 1: not a section or a setting"),
    ("[]\n", ["write"], "file: line 1: not the name of a section"),
    ("[a[b]\n", ["write"], "file: line 1: not the name of a section"),
    # git reads the first as `a "b"`, and the second as `a "b.c"`.
    ("[a.B]\nk = 1\n", ["write"], "file: line 1: capital behind the dot of a section; put the name between quotes"),
    ('[a.b "c"]\nk = 1\n', ["write"], "file: line 1: not the name of a section"),
    ("", ["add", 'a.b "c".k', "1"], "not the name of a section; see config_reader --help"),
    # git refuses blanks in the name of a section and around it, but for those in front of the quotes.
    ("[ a]\n", ["write"], "file: line 1: not the name of a section"),
    ("[a ]\n", ["write"], "file: line 1: not the name of a section"),
    ("[a b]\n", ["write"], "file: line 1: not the name of a section"),
    ("[a. b]\n", ["write"], "file: line 1: not the name of a section"),
    ("[a.b[c]\n", ["write"], "file: line 1: not the name of a section"),
    ('[a"x"]\n', ["write"], "file: line 1: not the name of a section"),
    ('[ a "x"]\n', ["write"], "file: line 1: not the name of a section"),
    ('[a b "x"]\n', ["write"], "file: line 1: not the name of a section"),
    ("", ["set", "a b.k", "1"], "not the name of a section; see config_reader --help"),
    # git could not read the file.
    ("", ["set", "a.line_width", "3"], "git has keys of letters, digits and -, with a letter first; see config_reader --help"),
    ("", ["add", "a.1st", "3"], "git has keys of letters, digits and -, with a letter first; see config_reader --help"),
    ("[a]\nk\u00e4 = 1\n", ["set", "a.k\u00e4", "3"], "git has keys of letters, digits and -, with a letter first; see config_reader --help"),
    # A command with too few words or too many.
    ("", ["get"], "get takes SECTION.KEY; see config_reader --help"),
    ("", ["all"], "all takes SECTION.KEY; see config_reader --help"),
    ("", ["get", "a.b", "c"], "get takes SECTION.KEY; see config_reader --help"),
    ("", ["keys", "a", "b", "c"], "keys takes SECTION or nothing; see config_reader --help"),
    ("", ["sections", "a"], "sections takes nothing; see config_reader --help"),
    ("", ["add", "a.b"], "add takes SECTION.KEY and VALUE; see config_reader --help"),
    ("", ["unset"], "unset takes SECTION.KEY; see config_reader --help"),
    ("", ["list", "a"], "list takes nothing, and -z stands in front of it; see config_reader --help"),
    ("", ["list", "-z"], "list takes nothing, and -z stands in front of it; see config_reader --help"),
    ("", ["-z", "get", "a.b"], "-z is for list alone; see config_reader --help"),
    ("", ["-z", "set", "a.b", "c"], "-z is for list alone; see config_reader --help"),
    ("", ["write", "a"], "write takes nothing; see config_reader --help"),
]


def runs():
    for text, words, written in GOOD:
        yield (b"", ["file", *words], {"file": text.encode()}), (written.encode(), b"", 0)
        # What is written is read again, and written as it is.
        if words[0] == "add":
            yield (b"", ["file", "write"], {"file": written.encode()}), (written.encode(), b"", 0)
            yield (b"", ["file", "get", words[1]], {"file": written.encode()}), (f"{words[2]}\n".encode(), b"", 0)
    for text, written in QUESTIONS:
        yield text.encode(), (written.encode(), b"", 0)
    for text, lines, zeros in LISTED:
        yield (b"", ["file", "list"], {"file": text.encode()}), (lines.encode(), b"", 0)
        yield (b"", ["-z", "file", "list"], {"file": text.encode()}), (zeros.encode(), b"", 0)
    for words in (["file", "list"], ["file", "-z", "list"]):
        yield (b"", words, {"file": b"[a]\n"}), (b"", b"", 1)
    for text, words, reason in BAD:
        yield (b"", ["file", *words], {"file": text.encode()}), (b"", f"config_reader: {reason}\n".encode(), 2)
    # A line of ten million bytes.
    long = "v" * 10_000_000
    yield (b"", ["file", "get", "a.b"], {"file": f"[a]\nb = {long}\n".encode()}), (f"{long}\n".encode(), b"", 0)
