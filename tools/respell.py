#!/usr/bin/env python3
"""Brings the repository's own definitions, laws and fields to snake case, after port.py, in crates/ (once, at the top).

usage: python3 tools/respell.py

respell.tsv has each old name and its new one; any other word in camel case that begins small is turned alike. A dash is kept
where it joins two names, as in desk_of-lt. In comments only words in camel case and words in backticks are turned. Edits get
today's spelling of projections, operators and paths too. Functions of src/ had snake case before, and stay.
"""

import os
import re

HERE = os.path.dirname(os.path.realpath(__file__))
WORD = re.compile(r"[A-Za-z_ℕ][A-Za-z0-9_'?₀-₉-]*")
CAMEL = re.compile(r"(?<=[a-z0-9])([A-Z]+)")


def table():
    with open(os.path.join(HERE, "respell.tsv"), encoding="utf-8") as f:
        return dict(line.rstrip("\n").split("\t") for line in f)


def snake(word):
    if re.match("[a-z]", word) and re.search("[A-Z]", word):
        return CAMEL.sub(lambda m: "_" + m.group(1).lower(), word)
    return word


def turned(names, word):
    if word in names:
        return names[word]
    return "-".join(snake(w) for w in word.split("-"))


def code(names, text):
    return WORD.sub(lambda m: turned(names, m.group(0)), text)


def remark(names, text):
    def one(m):
        word = m.group(0)
        quoted = text[m.start() - 1 : m.start()] == "`" or text[m.end() : m.end() + 1] == "`"
        return turned(names, word) if quoted or snake(word) != word else word

    return WORD.sub(one, text)


def lines(names, text, mark):
    out = []
    for line in text.split("\n"):
        head, sep, tail = line.partition(mark)
        if sep and (not head.strip() or head.endswith(" ")):
            out.append(code(names, head) + sep + remark(names, tail))
        else:
            out.append(code(names, line))
    return "\n".join(out)


def rust(names, text):
    # only ghost words are in camel case there
    return WORD.sub(lambda m: turned(names, m.group(0)) if snake(m.group(0)) != m.group(0) else m.group(0), text)


OPERATORS = re.compile(r"(?<=[{ ,])_(≡|\+|\*|-|/|%|<|≤|≢|&&|\|\||∷|\+\+|∙|↔|⊎)_(?=[}, ])")


def edit(names, text):
    """An edit's lines old: and new:, in the spelling of the file that they stand in."""
    out, kind = [], ""
    for line in text.split("\n"):
        if line.startswith("file: "):
            kind = line[6:].strip()
        if re.match("(old|new):", line):
            head, body = line[:4], line[4:]
            if kind.endswith(".antt"):
                # a comment of a proof file may be what an edit replaces
                if not body.strip().startswith("--"):
                    body = re.sub(r"Rattle·(\w+)·(specs|proofs)\.(specs|proofs)", r"Rattle.\1.\3", body).replace("Rattle·", "Rattle.")
                    body = OPERATORS.sub(r"◌\1◌", body)
                    body = re.sub(r"\bgetD\b", "get_or", body)
                    for old, new in OWN:
                        body = re.sub(rf"(?<![\w-]){old}(?![\w-])", new, body)
                    body = re.sub(r"(?<=[\w)']) \.(?=[a-z0-9«])", ".", body)
                    body = re.sub(r"\((\w+(?:\.[\w-]+)+)\)", r"\1", body)
                    body = code(names, body)
                else:
                    body = remark(names, body)
            else:
                body = rust(names, body)
            line = head + body
        elif line.startswith("#"):
            line = remark(names, line)
        out.append(line)
    return "\n".join(out)


# what port.py itself respells of the repository's own names
OWN = [
    ("mayRead", "may_read"),
    ("mayWrite", "may_write"),
    ("readOf", "read_of"),
    ("isChain", "is_chain"),
    ("isWritten", "is_written"),
    ("callsOf", "calls_of"),
    ("linesFrom", "lines_from"),
    ("passed-none", "passed_none"),
    ("ne-eqb", "ne_eqb"),
    ("⊎-elim", "⊎_elim"),
]


def main():
    names = table()
    for folder, dirs, files in os.walk("crates"):
        dirs[:] = sorted(d for d in dirs if d != "out")
        for name in sorted(files):
            path = os.path.join(folder, name)
            turn = {".antt": lambda t: lines(names, t, "--"), ".rt": lambda t: rust(names, t), ".edit": lambda t: edit(names, t)}.get(os.path.splitext(name)[1])
            if not turn:
                continue
            with open(path, encoding="utf-8") as f:
                old = f.read()
            new = turn(old)
            if new != old:
                with open(path, "w", encoding="utf-8") as f:
                    f.write(new)


main()
