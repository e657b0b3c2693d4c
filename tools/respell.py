#!/usr/bin/env python3
"""Brings this repository's own names to the spelling of today's Rattle: definitions, fields and laws in snake case, modules in camel case.

usage: python3 tools/respell.py    at the top of the repository, once, after port.py and before any edit by hand

It reads which names the files of specs/ and proofs/ declare (a function's own Proof.antt aside, whose names follow the code), and respells
them wherever they stand: in specs/, proofs/, the clauses of src/, must-fail edits and, between backticks, in comments and pages. A law that
would fall together with a definition of its name gets `_law` behind it. Functions of src/, exported names and texts stay as they are.
"""

import os
import re

TOKEN = re.compile(r"[^\s(){}\[\].,;:`\"]+")
CAMEL = re.compile(r"[a-z0-9][A-Z]")
DECLARED = re.compile(
    r"^\s*((?:abbrev |unfoldable |pub |data |record |ruleset )*)([^\s(){}\[\].,;:`\"]+)(?: \{[^}]*\})* *(?:\([^)]*\) *)*:", re.M
)
SEVERAL = re.compile(r"^\s+((?:[a-z]\w*'* )+[a-z]\w*'*) : (?=[A-Zℕ])", re.M)
ALIAS = re.compile(r"(?<= as )([a-z]\w*)(?=[,}])")
MODULES = {"inner": "Inner", "shown": "Shown"}

# what port.py had respelled by itself in .antt and .rt files, since a library had the same spelling; edits and pages have the old one
PORTED = """above-in, above-same, add-a, add-at, add-wide, added-none, after-read, after-same, after-test, all-above, all-closed, all-fit,
all-held, all-hold, all-live, allBytes, allowed-all, and-T, and-then, as-is, at-most, at-place, back-none, below-all, below-total,
blank-side, body-below, body-is, bodyAfter, bodyAt, bodyOf, bounded-spec, by-first, by-kind, by-place, byte-more, byte-past, cast-fits,
cellAt, close-spec, closed-none, code-read, computed-same, copy-spec, counting-more, done-refused, drop-more, end-refused, endAt,
enter-spec, find-spec, first-above, first-fits, first-holds, first-of, fits-by, from-zero, goes-after, groupsOf, has-done,
head-read, held-none, high-is, in-one, in-order, in-within, inTurn, index-kept, index-on, is-last, isPlain, itemOf, keep-spec, kept-put,
kept-refl, kept-trans, kindOf, last-row, last-written, left-end, leftAt, lent-goes, lineOf, list-read, main-spec, map-same, mem-index,
movedTo, names-in, nextOf, no-byte, no-bytes, none-ahead, none-at-all, none-passed, not-so, number-fits, number-is,
number-read, number-small, numberAt, numbers-more, of-map, once-more, one-form, one-left, one-of, one-only, open-spec, opens-small,
or-left, or-right, orElse, pair-put, pairAt, pairs-below, pairs-set, partOf, placed-less, plain-body, plain-code, put-one,
put-spec, putAll, putAt, read-low, read-more, read-same, readAll, readBy, readOn, refused-why, rest-put, restAt, room-after, room-next,
room-small, round-whole, row-fits, row-kept, row-last, row-low, row-of, row-put, row-written, rows-next, run-end, run-more, run-past,
run-spec, same-length, same-number, same-span, second-fits, seg-same, set-apart, set-twice, side-same, slot-kept, slotOf, small-bytes,
some-same, start-spec, startOf, stays-on, step-same, sub-read, sub-row, sumAt, sumIs, sumOf, tail-written, tailAt, taken-more,
taken-start, takes-nil, takes-none, test-fits, to-start, to-step, told-add, told-more, told-part, too-few, too-long,
too-many, turned-on, upTo, value-same, whole-same, wholeAt, withLast, withRow, withWords, word-kept, word-more, word-room, word-same,
wordAt, words-long, written-below, written-over, written-row, written-same, all-plain, enum-told, on-total, one-told, rule-told"""


def files(*ends):
    for folder, dirs, names in os.walk("crates"):
        dirs[:] = sorted(d for d in dirs if d not in ("out", ".git"))
        for name in sorted(names):
            if name.endswith(ends):
                yield os.path.join(folder, name)


def read(path):
    with open(path, encoding="utf-8") as f:
        return f.read()


def write(path, text):
    with open(path, "w", encoding="utf-8") as f:
        f.write(text)


def snake(name):
    if not name[0].isupper() or "-" in name:
        name = CAMEL.sub(lambda m: m[0][0] + "_" + m[0][1].lower(), name)
    return name.replace("-", "_")


def is_old(name):
    return "-" in name or bool(CAMEL.search(name) and not name[0].isupper())


def old_names():
    """The declared names that are not yet spelled so, and those that are."""
    turn, keep = set(), set()
    for path in files(".antt", ".rt"):
        if path.endswith("/Proof.antt"):
            continue
        text = read(path)
        found = [] if path.endswith(".rt") else [name for _, name in DECLARED.findall(text)] + " ".join(SEVERAL.findall(text)).split()
        for line in text.split("\n"):
            if line.startswith(("use ", "ghost use ")):
                found += ALIAS.findall(line)
        for name in found:
            if not name.startswith("-") and "◌" not in name:
                (turn if is_old(name) else keep).add(name)
    return turn, keep


def table():
    turn, keep = old_names()
    defined = {snake(n) for n in turn if "-" not in n}
    to = {}
    for n in sorted(turn):
        to[n] = snake(n)
        if "-" in n and to[n] in defined:
            to[n] += "_law"
    # laws that port.py had brought to the spelling that their definition gets now
    for n in ("body_bytes", "then_map", "place_after", "first_step", "no_other"):
        if n in keep and n in defined:
            to[n] = n + "_law"
    return to


def comment_at(line):
    """Where the comment of a line begins."""
    m = re.search(r"(^|\s)--(\s|$)", line)
    return m.start() if m else len(line)


def by_token(text, to, after_dot=True):
    def one(m):
        t = m[0]
        if not after_dot and "-" in t and m.start() and m.string[m.start() - 1] == ".":
            return t
        return to.get(t, t)

    return TOKEN.sub(one, text)


def in_words(text, to):
    """Of a comment or a page: every name between backticks, and those in camel case elsewhere."""
    parts = re.split(r"(`[^`\n]*`)", text)
    return "".join(by_token(p, to) if p.startswith("`") else camel_only(p, to) for p in parts)


def camel_only(text, to):
    return TOKEN.sub(lambda m: to.get(m[0], m[0]) if CAMEL.search(m[0]) and "-" not in m[0] else m[0], text)


def modules(text):
    for old, new in MODULES.items():
        text = re.sub(r"(specs\.)%s(?=[.;\s]|$)" % old, r"\1" + new, text)
        text = re.sub(r"^(pub mod )%s$" % old, r"\1" + new, text, flags=re.M)
        text = re.sub(r"(specs/)%s(?=[/.])" % old, r"\1" + new, text)
    return text


def antt(text, to, walked):
    out = []
    for line in text.split("\n"):
        k = comment_at(line)
        out.append(by_token(line[:k], to, not walked) + in_words(line[k:], to))
    return "\n".join(out)


def rt(text, to):
    out = []
    for line in text.split("\n"):
        k = line.find("//")
        k = len(line) if k < 0 else k
        code = line[:k]
        if '"' not in code:
            code = camel_only(code, to)
        out.append(code + in_words(line[k:], to))
    return "\n".join(out)


def edit(text, to):
    return "\n".join(camel_only(line, to) if line.startswith(("old:", "new:")) else line for line in text.split("\n"))


def main():
    to = table()
    also = {n.strip(): snake(n.strip()) for n in PORTED.split(",")}
    also.update(to)
    for path in list(files(".antt")):
        write(path, modules(antt(read(path), to, path.endswith("/Proof.antt"))))
    for path in list(files(".rt")):
        write(path, modules(rt(read(path), to)))
    for path in list(files(".edit")):
        write(path, modules(edit(read(path), also)))
    pages = ["README.md"] + [os.path.join(f, n) for f, _, ns in os.walk("docs") for n in ns if n.endswith(".md") and not n.startswith("PORT")]
    for path in pages:
        write(path, modules(in_words(read(path), also)))
    for crate in sorted(os.listdir("crates")):
        for old, new in MODULES.items():
            for end in ("", ".antt"):
                a = os.path.join("crates", crate, "specs", old + end)
                if os.path.exists(a):
                    os.rename(a, os.path.join("crates", crate, "specs", new + end))
    print(f"respell: {len(to)} names")


main()
