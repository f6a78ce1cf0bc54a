#!/usr/bin/env python3
"""Brings the names of this repository's definitions and lemmas to snake case, after the kit's port.py.

usage: python3 tools/port_names.py      at the top of the checkout, once, over what port.py left

port_names.tsv has a row for each name: old, a tab, new. A lemma that would have its definition's name ends in _lem. port_said.tsv has the names that
port.py had turned itself: the pages and the edits, which it leaves, still have the old ones. Functions of src/, exported names and strings stay.
"""
import os
import re
import sys

HERE = os.path.dirname(os.path.realpath(__file__))
WORD = re.compile(r'[^\s(){}.;,@"«»\[\]\x60|:]+')
SPAN = re.compile(r"\x60[^\x60\n]+\x60")
STRING = re.compile(r'"(?:[^"\\\n]|\\.)*"')
# a clause, a ghost item or an import for them in Rust's text
GHOST = re.compile(r"ghost\s+use\b[^;]*;|(?:requires|ensures)\s*(?:\w+\s*)?\{|ghost\s*(?:\w+\s*)?[:=]?\s*\{")
# spellings of Rattle's own that an edit has in its text
SPELLED = [("′", "'"), ("″", "''"), ("‴", "'''"), ("fun-ext", "fun_ext")]
TIGHT = [(re.compile(r"\((\w+)((?: \.\w+)+)\)"), r"\1\2"), (re.compile(r" \.(?=\w)"), ".")]
# a function of src/ has the old name of this lemma: behind a dot it stays
FUNCTIONS = {"count_long"}


def table(name):
    with open(os.path.join(HERE, name), encoding="utf-8") as f:
        return dict(line.rstrip("\n").split("\t") for line in f)


NAMES = table("port_names.tsv")
SAID = table("port_said.tsv")


def turned(text, rows):
    def one(m):
        w = m.group(0)
        if w in FUNCTIONS and text[m.start() - 1 : m.start()] == ".":
            return w
        return rows.get(w, w)

    return WORD.sub(one, text)


def spans(text, rows):
    return SPAN.sub(lambda m: turned(m.group(0), rows), text)


def antt(text):
    out = []
    for line in text.split("\n"):
        m = re.search(r"(?:^|\s)--(?:\s|$)", line)
        at = m.start() if m and line[: m.start()].count('"') % 2 == 0 else len(line)
        out.append(turned(line[:at], NAMES) + spans(line[at:], NAMES | SAID))
    return "\n".join(out)


def closing(text, at):
    depth = 0
    for i in range(at, len(text)):
        depth += {"{": 1, "}": -1}.get(text[i], 0)
        if depth == 0:
            return i + 1
    return len(text)


def rt(text):
    out, at = [], 0
    while m := GHOST.search(text, at):
        out.append(text[at : m.start()])
        end = m.end() if m.group(0).endswith(";") else closing(text, m.end() - 1)
        out.append(turned(text[m.start() : end], NAMES))
        at = end
    out.append(text[at:])
    text = "".join(out)
    return "\n".join(re.sub(r"//.*", lambda m: spans(m.group(0), NAMES | SAID), line) for line in text.split("\n"))


def edit(text):
    antt_file = False

    def line(s):
        nonlocal antt_file
        if s.startswith("file: "):
            antt_file = s.endswith(".antt")
        if not s.startswith(("old: ", "new: ")):
            return s
        for a, b in SPELLED:
            s = s.replace(a, b)
        for pattern, b in TIGHT if antt_file else []:
            s = pattern.sub(b, s)
        return turned(s, NAMES | SAID)

    return "\n".join(line(s) for s in text.split("\n"))


def rewrite(path, f):
    with open(path, encoding="utf-8") as h:
        old = h.read()
    new = f(old)
    if new != old:
        with open(path, "w", encoding="utf-8") as h:
            h.write(new)
        return 1
    return 0


def main():
    n = 0
    for folder, dirs, files in os.walk("crates"):
        dirs[:] = [d for d in dirs if d != "out"]
        for name in files:
            f = {".antt": antt, ".rt": rt, ".edit": edit}.get(os.path.splitext(name)[1])
            if f:
                n += rewrite(os.path.join(folder, name), f)
    pages = ["README.md"] + [os.path.join("docs", p) for p in sorted(os.listdir("docs")) if p.endswith(".md") and p != "PORT.md"]
    for page in pages:
        n += rewrite(page, lambda t: spans(t, NAMES | SAID))
    print(f"port_names: {n} files changed")


if __name__ == "__main__":
    sys.exit(main())
