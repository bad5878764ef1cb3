#!/usr/bin/env python3
"""Respells the repository's own definitions, lemmas and fields as the newer Rattle does: words in snake case, types in camel case.

usage: python3 tools/respell.py [--list]     at the top of the repository, once, after the kit's port.py

A name is the repository's own where a file of specs/ or proofs/ declares it; a name that a proof of one function declares for itself is
not. Comments keep their words: only names that can't be words, those with a capital inside, are turned in them. `--list` prints the names,
old and new, and writes nothing. Names that fall together, or stand beside one of that spelling, are printed.
"""
import os
import re
import sys

WORD = r"[A-Za-z0-9_'?!\u00b7\u1d30\u2080-\u209c\u0370-\u03ff-]"
TOKEN = re.compile(rf"(?<!{WORD}){WORD}+(?!{WORD})")
HEAD = re.compile(rf"^\s*((?:pub )?(?:abbrev |unfoldable )?(?:pub )?(?:data |record )?)((?:{WORD}+ )*{WORD}+) : ")


def files(root):
    for folder, dirs, names in os.walk(os.path.join(root, "crates")):
        dirs[:] = sorted(d for d in dirs if d != "out")
        for n in sorted(names):
            if n.endswith((".rt", ".antt")):
                yield os.path.join(folder, n)


# Names that would fall together with another of the repository or of the library.
CHOSEN = {
    "allDigits": "only_digits",
    "readBack": "read_result",
    "tooMany": "is_too_many",
    "shares-of": "load_is_shares",
    "are-bytes": "are_bytes_law",
    "flat-map": "flat_map_law",
    "high-of": "high_of_law",
    "low-of": "low_of_law",
    "same-numbers": "same_numbers_law",
}


def snake(name):
    s = re.sub(r"([a-z0-9])_?([A-Z])", lambda m: m[1] + "_" + m[2].lower(), name)
    s = re.sub(r"([A-Z])(?=[A-Z])", lambda m: m[1].lower() + "_", s) if re.match(r"[a-z]", s) else s
    return s.lower().replace("-", "_") if s[0].islower() else s


def wanted(name):
    if not name[0].islower() or name.startswith("μ") or not re.search(r"[A-Za-z]", name):
        return False
    return "-" in name or re.search(r"[a-z0-9_][A-Z]", name) is not None


def code_of(line, mark):
    """The line's code and its comment."""
    if mark == "--":
        m = re.match(r"^(.*?)((?:^|(?<=\s))--(?:\s.*|$))", line)
        return (m[1], m[2]) if m else (line, "")
    at = line.find("//")
    return (line[:at], line[at:]) if at >= 0 else (line, "")


def declared(root):
    own = set()
    for path in files(root):
        if path.endswith(".rt") or path.endswith(("/Proof.antt", "/Answers.antt", "/Invariants.antt")):
            continue
        with open(path, encoding="utf-8") as f:
            for line in f:
                code, _ = code_of(line.rstrip("\n"), "--")
                m = HEAD.match(code + " ")
                if m:
                    own.update(w for w in m[2].split(" ") if wanted(w))
    return own


def main():
    root = os.getcwd()
    own = declared(root)
    table = {n: CHOSEN.get(n, snake(n)) for n in own}
    # a lemma that would have a definition's name says that it is a law
    capital = {new for old, new in table.items() if re.search("[A-Z]", old)}
    for old, new in table.items():
        if "-" in old and new in capital:
            table[old] = new + "_law"
    by = {}
    for old, new in table.items():
        by.setdefault(new, set()).add(old)
    texts = {}
    for p in files(root):
        with open(p, encoding="utf-8") as f:
            texts[p] = f.read()
    present = {}
    for p, t in texts.items():
        mark = "//" if p.endswith(".rt") else "--"
        for line in t.split("\n"):
            for m in TOKEN.finditer(code_of(line, mark)[0]):
                present.setdefault(m[0], set()).add(p)
    for new, olds in sorted(by.items()):
        if len(olds) > 1:
            print("fall together:", new, sorted(olds))
        for old in olds:
            both = present.get(old, set()) & present.get(new, set())
            both = {p for p in both if p.endswith(".antt")}
            if both:
                print("stands beside:", old, new, sorted(os.path.relpath(p, root) for p in both)[:4])
    if "--list" in sys.argv:
        for old in sorted(table):
            print(old, table[old])
        return

    def turn_line(line, mark):
        code, comment = code_of(line, mark)
        code = TOKEN.sub(lambda m: table.get(m[0], m[0]), code)
        comment = TOKEN.sub(lambda m: table.get(m[0], m[0]) if "-" not in m[0] else m[0], comment)
        return code + comment

    for p, t in texts.items():
        mark = "//" if p.endswith(".rt") else "--"
        new = "\n".join(turn_line(l, mark) for l in t.split("\n"))
        if new != t:
            with open(p, "w", encoding="utf-8") as f:
                f.write(new)


if __name__ == "__main__":
    main()
