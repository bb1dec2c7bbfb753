#!/usr/bin/env python3
"""Brings this repository's own definitions, lemmas and variables to one spelling: words in snake case, types in camel case, a prime as '.

usage: python3 tools/respell.py       once, at the top of the repository, after the toolchain's own script

It reads every .antt file below crates/ for names with a dash that the repository declares (definitions, records, their fields, variables), and writes each
as one word in snake case, or in camel case where it begins with a capital, in .antt and .rt files, in must-fail edits, and in README and docs/ inside
backquotes. In comments only words in backquotes change, and strings never. Names that the toolchain makes (goals and steps in proofs/F/) and names of
its library stay. It prints what becomes what, and `look:` where the new word stands already. Two library words that the toolchain's script had brought
in under other names, where the library has those names for something else, are written in full; and plain words in comments that it had turned are
turned back.
"""

import os
import re
import sys

CRATES = set(os.listdir("crates"))
WORD = r"[A-Za-z\u00c0-\uffff_][A-Za-z0-9\u00c0-\uffff_'\u2032]*"
DASHED = re.compile(r"(?<![\w'\u2032-])" + WORD + r"(?:-[A-Za-z0-9_'\u2032]+)+(?![\w'\u2032-])")
PLAIN = re.compile(r"(?<![\w'-])" + WORD + r"(?![\w'-])")
# the words that a toolchain's own name begins with, in the files of one function's proof
MADE = re.compile(r"^(returns|loop|invariant|decreases|overflow|in|then|else|requires|ensures|before|after)-")


def files(*suffixes):
    for folder, dirs, names in os.walk("crates"):
        dirs[:] = sorted(d for d in dirs if d != "out")
        for n in sorted(names):
            if n.endswith(suffixes):
                yield os.path.join(folder, n)


def own_file(path):
    """A file of definitions or lemmas, and not one of a single function's proof."""
    parts = path.split(os.sep)
    return parts[2] == "specs" or (parts[2] == "proofs" and len(parts) == 4)


def pieces(text, path):
    """The text as (kind, piece): code, comment or string."""
    mark = "--" if path.endswith(".antt") else "//"
    i, start, out = 0, 0, []
    while i < len(text):
        if text.startswith(mark, i) and (mark == "//" or i == 0 or text[i - 1] in " \n"):
            out.append(("code", text[start:i]))
            j = text.find("\n", i)
            j = len(text) if j < 0 else j
            out.append(("comment", text[i:j]))
            i = start = j
        elif text[i] == '"' and not (i and text[i - 1] == "'"):
            out.append(("code", text[start:i]))
            j = i + 1
            while text[j] != '"':
                j += 2 if text[j] == "\\" else 1
            out.append(("string", text[i : j + 1]))
            i = start = j + 1
        else:
            i += 1
    out.append(("code", text[start:]))
    return out


def imported(texts):
    """The dashed names that files import from the toolchain's libraries, and from the modules that it makes for proofs."""
    names = set()
    for text in texts.values():
        for m in re.finditer(r"\buse (\S+?)\.\{([^}]*)\}", text):
            if m.group(1).split(".")[0] not in ("Rattle",) or m.group(1).split(".")[1] not in CRATES:
                names.update(DASHED.findall(m.group(2)))
    return names


def declared(text, path):
    """The dashed names that a file declares: at the head of a line before a colon, as a record, or as a variable."""
    code = "".join(p for kind, p in pieces(text, path) if kind == "code")
    names = set()
    for m in re.finditer(r"(?m)^\s*(?:(?:pub|abbrev|unfoldable|record|data|ruleset|let)\s+)*(" + DASHED.pattern + r")\s*(?::|\(|=)", code):
        names.add(m.group(1))
    for m in re.finditer(r"(?:λ|\blet|\bin let)\s+([^.=:]*?)\s*(?:\.|:|=)", code):
        names.update(DASHED.findall(m.group(1)))
    for m in re.finditer(r"\(([^():]*?)\s:\s", code):
        names.update(DASHED.findall(m.group(1)))
    for m in re.finditer(r"\brecord\s+(" + DASHED.pattern + ")", code):
        names.add(m.group(1))
    return names


def spelled(name):
    name = name.replace("\u2032", "'").replace("leZ", "le_z")
    if name[0].isupper():
        return "".join(w[:1].upper() + w[1:] for w in name.split("-"))
    return "_".join(w[:1].lower() + w[1:] for w in name.split("-"))


def turn(text, names, path):
    def dashed(p):
        return DASHED.sub(lambda m: names.get(m.group(0), m.group(0)), p)

    def quoted(p):
        return re.sub(r"`[^`\n]*`", lambda m: dashed(m.group(0)), p)

    if path.endswith(".md"):
        return quoted(text)
    for whole, short in (("AllByRecursion", "All"), ("ContainsAt", "Has")):
        if f"{whole} as {short}" in text:
            text = text.replace(f"{whole} as {short}", whole)
            text = "".join(re.sub(rf"(?<![\w'.-]){short}(?![\w'-])", whole, p) if kind == "code" else p for kind, p in pieces(text, path))
    return "".join(quoted(plain_words(p)) if kind == "comment" else p if kind == "string" else dashed(p) for kind, p in pieces(text, path))


def plain_words(comment):
    """A comment without the underscores that the toolchain's script had put into words outside backquotes."""
    parts = comment.split("`")
    for i in range(0, len(parts), 2):
        for word in TURNED:
            parts[i] = re.sub(rf"(?<!\w){word.replace('-', '_')}(?!\w)", word, parts[i])
    return "`".join(parts)


def main():
    texts = {}
    for path in list(files(".antt", ".rt", ".edit")) + ["README.md"] + sorted(os.path.join("docs", d) for d in os.listdir("docs") if d.endswith(".md")):
        with open(path, encoding="utf-8") as f:
            texts[path] = f.read()
    own, plain = set(), set()
    for path, text in texts.items():
        if path.endswith(".antt") and own_file(path):
            own |= declared(text, path)
        if path.endswith((".antt", ".rt")):
            for kind, p in pieces(text, path):
                if kind == "code":
                    plain.update(PLAIN.findall(p))
    theirs = imported(texts)
    names = {n: spelled(n) for n in sorted(own - theirs) if not MADE.match(n) or n in KEPT_AS_OWN}
    made = {}
    for old, new in names.items():
        if new in made or new in plain:
            print(f"look: {old} becomes {new}, which stands already" + (f" for {made[new]}" if new in made else ""))
        made[new] = old
    for old, new in names.items():
        print(f"{old} -> {new}")
    # the names that the toolchain's own script had turned in code are turned in the pages too
    pages = dict(names)
    for old in TURNED:
        pages[old] = spelled(old)
    for path, text in texts.items():
        turned = turn(text, pages if path.endswith(".md") else names, path)
        if turned != text:
            with open(path, "w", encoding="utf-8") as f:
                f.write(turned)


# Own names that begin like one that the toolchain makes.
KEPT_AS_OWN = {"in-range", "in-order", "in-record", "in-speed", "in-brake", "after-tick", "after-release", "after-head", "before-bounded"}

TURNED = (
    "all-hold all-right block-in block-on block-refused block-words blocks-more bytes-after clear-of first-next first-of frame-back frame-is frame-refused "
    "head-bytes in-block in-order in-reach joined-at joined-same known-next le-bytes left-by length-part low-x map-same near-fits nearest-in no-touch "
    "none-found number-of numbers-fit numbers-of one-found open-none or-else or-else-none part-of reach-of read-again read-back read-none right-of row-back "
    "row-count row-fine row-in row-is row-made rows-are rows-at rows-made run-of run-out same-first same-some same-turn turn-by word-sum written-on"
).split()

if __name__ == "__main__":
    if len(sys.argv) != 1:
        print(__doc__)
        raise SystemExit(2)
    main()
