#!/usr/bin/env python3
"""Respells this repository's own definitions, lemmas and fields: words in snake case, a prime as an apostrophe. Run once, at the top, after the toolchain's port.py.

A name that the checker makes from the code keeps its spelling, as does a name of the library. Strings stay as they are.
With --signs only names that begin with a sign are turned: these came in a second run.
"""
import os
import re
import sys

WORD = re.compile(r"[^\s(){}\[\],;.@`\"]+")
DEFINED = re.compile(r"^\s*(?:abbrev\s+|unfoldable\s+)*(?:pub\s+)?(?:abbrev\s+|unfoldable\s+)*((?:[^\s(){}\[\],;.@`\"=:]+\s+)+):\s")
# these join a type to a name
KEPT = {"After-at", "After-delay2", "After-from-lowest"}
# two names that would become one: the lemma or the law gives way to what it speaks of
APART = {
    "getD-firsts": "get_or_firsts",
    "with-port": "with_start",
    "zero_row": "zero_row_lem",
}
LEMMAS = """back-of buffer-records bytes-within decimal-in edges-of ends-below events-at fewest-events first-whole forward-of
has-period in-turn inner-left inner-right is-number is-of is-record least-divisor limit-den limit-num link-after link-count link-in
links-size loop-numbers lowest-den lowest-num most-keyed most-links most-members most-ports no-least no-port over-via port-after
port-count port-in port-of port-records ports-of prices-to rate-leaves second-whole start-at step-at table-size ticks-back
ticks-forward timely-at"""
APART["some-port"] = "some_port_lem"
APART |= {w: w.replace("-", "_") + "_lem" for w in LEMMAS.split()}


def files(*ends):
    for folder, dirs, names in os.walk("crates"):
        dirs[:] = sorted(d for d in dirs if d != "out")
        for n in sorted(names):
            if n.endswith(ends):
                yield os.path.join(folder, n)


def code(text):
    return re.sub(r"--[^\n]*", "", text)


def goals(path, text):
    """The names that a proof file gives to what the checker asks for."""
    if not re.search(r"/(Proof|Answers|Invariants)\.antt$", path):
        return set()
    return {m[1] for m in re.finditer(r"(?m)^(?:abbrev\s+)?(?:pub\s+)?(\S+)\s*:.*\b(?:tie|goal)\.", text)} | {m[1] for m in re.finditer(r"(?m)^pub (\S+-spec)\s*:", text)}


def imported(text):
    """The names that a file takes from the library."""
    found = set()
    for m in re.finditer(r"use\s+([\w.+·-]+)\.\{([^}]*)\}", text):
        if not own(m[1]):
            found |= set(WORD.findall(m[2]))
    return found


def own(path):
    parts = path.split(".")
    return len(parts) > 1 and parts[0] == "Rattle" and parts[1] in CRATES


CRATES = {d for d in os.listdir("crates")} if os.path.isdir("crates") else set()


def sign(w):
    """A name that begins with a sign, with a word behind it."""
    return re.match(r"[\u00b7\u2200-\u22ff]", w) and re.search(r"-\w", w.replace("_", ""))


def odd(w):
    if sign(w):
        return True
    return w not in KEPT and re.match(r"[^\W\d]", w) and ("-" in w or "\u2032" in w or (w[0].islower() and re.search(r"[a-z][A-Z]", w)))


def respelt(w):
    if w in APART:
        return APART[w]
    if sign(w):
        # a dash stays between two signs, which are two names
        return re.sub(r"-(?=\w)|(?<=\w)-", "_", w)
    w = w.replace("\u2032", "'").replace("-", "_")
    if re.match(r"[A-Z]_", w):
        w = w[0].lower() + w[1:]
    if w[0].islower():
        w = re.sub(r"(?<=[a-z0-9])([A-Z])", r"_\1", w)
        w = re.sub(r"_([A-Z]+)", lambda m: "_" + m[1].lower(), w)
        w = re.sub(r"^([a-z]+)([A-Z]+)$", lambda m: m[1] + "_" + m[2].lower(), w)
    return w


def main():
    texts = {p: open(p, encoding="utf-8").read() for p in files(".antt", ".rt")}
    defined, seen = set(), set()
    for p, t in texts.items():
        if not p.endswith(".antt"):
            continue
        skip = goals(p, t) | imported(t)
        seen |= set(WORD.findall(code(t)))
        for line in code(t).splitlines():
            m = DEFINED.match(line)
            if m and not re.match(r"\s*(let|in|use|λ)\b", line):
                defined |= {w for w in m[1].split() if odd(w)} - skip
            m = re.match(r"\s*(?:pub\s+)?(?:record|data)\s+(?:pub\s+)?(\S+)", line)
            if m and odd(m[1]):
                defined.add(m[1])
    defined.add("zero_row")
    everywhere = set(defined)
    for p, t in texts.items():
        if p.endswith(".antt") and not p.endswith("/Proof.antt"):
            taken = imported(t)
            for w in WORD.findall(code(t)):
                if odd(w) and w not in taken and not w.startswith("Need-"):
                    everywhere.add(w)
    library_words = set().union(*(imported(t) for p, t in texts.items() if p.endswith(".antt")))
    defined |= everywhere - library_words
    if "--signs" in sys.argv:
        defined = {w for w in defined if sign(w)}
    turned = {w: respelt(w) for w in defined}
    by = {}
    for w, n in turned.items():
        by.setdefault(n, set()).add(w)
    clash = {n: ws for n, ws in by.items() if len(ws) > 1 or n in seen}
    if "--clashes" in sys.argv:
        for n, ws in sorted(clash.items()):
            print(n, sorted(ws), "stands already" if n in seen else "")
        print(len(turned), "names,", len(clash), "clashes")
        return 0
    for p, t in texts.items():
        skip = (goals(p, t) | imported(t)) if p.endswith(".antt") else set()
        names = {w: n for w, n in turned.items() if w not in skip}
        if p.endswith(".antt"):
            new = antt(t, names)
        else:
            new = rt(t, names)
        if new != t:
            open(p, "w", encoding="utf-8").write(new)
    for p in files(".edit"):
        t = open(p, encoding="utf-8").read()
        in_rt = re.search(r"(?m)^file:.*\.rt\s*$", t)
        new = "".join(l if not l.startswith(("old:", "new:")) else (rt(l, turned) if in_rt else words(l, turned)) for l in t.splitlines(keepends=True))
        if new != t:
            open(p, "w", encoding="utf-8").write(new)
    for p in ["README.md", "CONTRIBUTING.md"] + ["docs/" + n for n in sorted(os.listdir("docs")) if n.endswith(".md")]:
        t = open(p, encoding="utf-8").read()
        new = ticked(t, turned)
        if new != t:
            open(p, "w", encoding="utf-8").write(new)
    return 0


def words(t, names):
    return WORD.sub(lambda m: names.get(m[0], m[0]), t)


def ticked(t, names):
    return re.sub(r"`[^`\n]+`", lambda m: words(m[0], names), t)


def antt(t, names):
    out = []
    for line in t.splitlines(keepends=True):
        m = re.search(r"(?<!\S)--.*", line, re.S)
        if m:
            out.append(words(line[: m.start()], names) + ticked(m[0], names))
        else:
            out.append(words(line, names))
    return "".join(out)


def rt(t, names):
    out = []
    for piece in re.split(r'("(?:\\.|[^"\\])*"|//[^\n]*)', t):
        if piece.startswith('"'):
            out.append(piece)
        elif piece.startswith("//"):
            out.append(ticked(piece, names))
        else:
            out.append(words(piece, names))
    return "".join(out)


if __name__ == "__main__":
    raise SystemExit(main())
