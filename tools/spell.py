#!/usr/bin/env python3
"""Spells this repository's own definitions and lemmas as Rattle's library does: words in snake case, types in camel case.

usage: tools/spell.py --list     prints the old and new names, and those that fall together
       tools/spell.py            rewrites specs/, proofs/, src/ and must-fail/ of every crate

    nextStart, home-own, PAGE-SIZE, next-start-spec  ->  next_start, home_own, PAGE_SIZE, next_start_spec

It goes over names that some file of specs/ or proofs/ declares, and leaves names that Rattle makes (invariant-loop, decreases-loop ..)
and names that a file takes from a library. Functions of src/, strings and exported names keep theirs. A second run changes nothing.
"""
import os
import re
import sys

TOKEN = re.compile(r"--[^\n]*|//[^\n]*|\"(?:[^\"\\]|\\.)*\"|[^\s(){}.;,@\"«»\[\]\\]+")
WORD = re.compile(r"[^\s(){}.;,@\"«»\[\]\\`:]+")
DECLARED = re.compile(r"^\s*(?:(?:abbrev|unfoldable|pub|private|irrelevant|instance)\s+)*(?:([^\s(){}.;,@\"«»\[\]\\:=]+)\s+:\s|(?:data|record)\s+([^\s(){}.;,@\"«»\[\]\\:=]+)|ruleset\s+([^\s(){}.;,@\"«»\[\]\\:=]+)\s+=)")
MADE = re.compile(r"^(invariant|decreases)-|^(loop|returns|overflow|bounds|slice_bounds|prove|nonzero)-")
USE = re.compile(r"^\s*(?:ghost )?(?:pub )?use ([\w.+◌]+?)\.\{(.*)\}", re.S)
# names whose plain spelling another name has already that stands beside them
APART = {
    "address-of": "address_of_lem",
    "bit-or": "bit_or_lem",
    "by-order": "by_order_lem",
    "sameBytes": "are_same_bytes",
    "word-at": "word_at_lem",
}


def files(root="crates", ends=(".rt", ".antt")):
    for folder, dirs, names in os.walk(root):
        dirs[:] = sorted(d for d in dirs if d != "out")
        for n in sorted(names):
            if n.endswith(ends):
                yield os.path.join(folder, n)


def read(path):
    with open(path, encoding="utf-8", newline="") as f:
        return f.read()


def snake(name):
    if name in APART:
        return APART[name]
    new = name.replace("′", "'")
    if MADE.match(new):
        return new
    head = new[:1]
    if head.isupper() and not re.fullmatch(r"[A-Z0-9₀-₉'_-]+", new):
        return new
    if not head.isupper():
        new = re.sub(r"(?<=[a-z0-9])([A-Z])(?=[a-z]|$|[-_])", lambda m: "_" + m.group(1).lower(), new)
        new = re.sub(r"(?<=[a-z0-9])([A-Z]+)", lambda m: "_" + m.group(1).lower(), new)
    return new.replace("-", "_")


def declared(text):
    for line in text.splitlines():
        m = DECLARED.match(line)
        if m:
            yield m.group(1) or m.group(2) or m.group(3)


def imports(text):
    """For each name that a file imports: the module."""
    found = {}
    for m in re.finditer(r"^\s*(?:ghost )?(?:pub )?use ([^\s;{]+?)\.\{([^}]*)\}", text, re.M):
        for n in m.group(2).split(","):
            n = n.strip()
            if n:
                found[n.split(" as ")[-1].strip()] = m.group(1)
    return found


def crates():
    return {c for c in os.listdir("crates") if os.path.isdir(os.path.join("crates", c))}


def names():
    """Own names that get another spelling."""
    own = {}
    for p in files(ends=(".antt",)):
        for n in declared(read(p)):
            new = snake(n)
            if new != n and not re.search(r"[◌≡×→]", n):
                own[n] = new
    # a lemma that would have its function's name gets _lem
    back = {}
    for a, b in own.items():
        back.setdefault(b, set()).add(a)
    for b, a in back.items():
        if len(a) > 1:
            own.update({n: b + "_lem" for n in a if "-" in n})
    return own


def foreign(text, mine):
    """Names that a file has from a library."""
    return {n for n, m in imports(text).items() if not (m.startswith("Rattle.") and m.split(".")[1] in mine)}


def turn(text, own, keep):
    def one(m):
        t = m.group(0)
        if t.startswith(("--", "//")):
            return re.sub(r"`[^`]*`", lambda q: WORD.sub(lambda w: own.get(w.group(0), w.group(0)), q.group(0)), t)
        if t.startswith('"') or t in keep:
            return t
        if t in own:
            return own[t]
        bare = t.lstrip("←")
        if bare != t and bare in own and bare not in keep:
            return t[: len(t) - len(bare)] + own[bare]
        return t

    return TOKEN.sub(one, text)


def main(argv):
    own, mine = names(), crates()
    if argv == ["--list"]:
        back = {}
        for a, b in own.items():
            back.setdefault(b, []).append(a)
        every = set()
        for p in files(ends=(".antt",)):
            every |= set(declared(read(p)))
        for b, a in sorted(back.items()):
            print(" ".join(a), "->", b, "TOGETHER" if len(a) > 1 or b in every else "")
        return 0
    for p in files(ends=(".rt", ".antt", ".edit")):
        text = read(p)
        new = turn(text, own, foreign(text, mine))
        if new != text:
            with open(p, "w", encoding="utf-8", newline="") as f:
                f.write(new)
    return 0


if __name__ == "__main__":
    raise SystemExit(main(sys.argv[1:]))
