#!/usr/bin/env python3
"""Brings the repository's own definitions and lemmas to the spelling of the newer Rattle, after its port.py.

usage: python3 tools/respell.py     at the top of the repository, once

- a definition, lemma or field with hyphens: snake case, and camel case where it begins with a capital; a prime is an apostrophe
- the crate hex, whose name a library of the kit has: hexadecimal
- comments are those of HEAD again wherever only a word's spelling was turned in them

Names of functions, of goals and of the libraries stay. It says which names fall together with one that a file has.
"""

import os
import re
import subprocess

BREAK = r"\s(){}\[\].,;λ@"
WORD = re.compile(rf"[^{BREAK}]+")
SIGNED = re.compile(r"^\s*(?:(?:abbrev|unfoldable|pub|private)\s+)*((?:[^\s:(){}]+\s+)*?[^\s:(){}]+)\s+:\s")
NAMED = re.compile(r"^\s*(?:pub\s+)?(?:record|data)\s+([^\s:(){}]+)")
USE = re.compile(r"^\s*(?:pub\s+)?(?:ghost\s+)?use\s+([^\s{]+)(.*)$")


def texts():
    for folder, dirs, files in os.walk("crates"):
        dirs[:] = sorted(d for d in dirs if d != "out")
        for f in sorted(files):
            if f.endswith((".antt", ".rt")):
                yield os.path.join(folder, f)


def read(p):
    with open(p, encoding="utf-8") as f:
        return f.read()


def write(p, text):
    with open(p, "w", encoding="utf-8") as f:
        f.write(text)


def is_answer(p):
    return os.path.basename(p) in ("Answers.antt", "Invariants.antt", "Proof.antt")


def respelled(name):
    name = name.replace("′", "'")
    if "-" not in name.strip("-"):
        return name
    if name[0].isupper():
        return "".join(w[:1].upper() + w[1:] for w in name.split("-"))
    return name.replace("-", "_")


def defined():
    """The hyphenated and primed names that specs/ and proofs/ define, answers aside."""
    found = set()
    for p in texts():
        if not p.endswith(".antt") or is_answer(p):
            continue
        for line in read(p).splitlines():
            m = SIGNED.match(line) or NAMED.match(line)
            if m and not line.lstrip().startswith("--"):
                found.update(n for n in m[1].split() if re.fullmatch(r"[A-Za-z][\w'′-]*", n))
    return {n for n in found if respelled(n) != n}


def borrowed(text, own):
    """The names that a file takes from a library."""
    found = set()
    for line in text.splitlines():
        m = USE.match(line)
        if m and not (m[1].startswith("Rattle.") and m[1].split(".")[1] in own):
            found.update(WORD.findall(m[2]))
    return found


def split_comment(line, mark):
    at = line.find(mark)
    while at > 0 and line[at - 1] not in " \t":
        at = line.find(mark, at + 1)
    return (line, "") if at < 0 else (line[:at], line[at:])


def turn(p, names, own):
    text = read(p)
    mark = "//" if p.endswith(".rt") else "-- "
    taken = borrowed(text, own)
    before = set()
    for line in text.splitlines():
        before.update(WORD.findall(split_comment(line, mark)[0]))
    met = set()

    def one(m):
        w = m[0]
        if "′" in w:
            w = w.replace("′", "'")
        if m[0] in names and m[0] not in taken:
            met.add(m[0])
            w = respelled(m[0])
        return w

    lines = []
    for line in text.split("\n"):
        code, comment = split_comment(line, mark)
        lines.append(WORD.sub(one, code) + comment)
    write(p, "\n".join(lines))
    for n in sorted(met):
        if respelled(n) in before:
            print(f"look: {p}: {n} falls together with {respelled(n)}")


def rename_hex():
    if not os.path.isdir("crates/hex"):
        return
    os.rename("crates/hex", "crates/hexadecimal")
    for p in list(texts()) + ["crates.txt"]:
        t = read(p)
        t = re.sub(r"\bRattle\.hex\.", "Rattle.hexadecimal.", t)
        t = re.sub(r"\buse hex::", "use hexadecimal::", t)
        if p == "crates.txt":
            t = re.sub(r"\bhex\b", "hexadecimal", t)
        write(p, t)


def plain(line):
    return re.sub(r"[-_]", "", line.strip()).lower()


def restore_comments():
    for p in texts():
        mark = "//" if p.endswith(".rt") else "--"
        was = subprocess.run(["git", "show", "HEAD:" + p], capture_output=True, text=True)
        if was.returncode:
            continue
        old = {plain(l): l.strip() for l in was.stdout.splitlines() if l.strip().startswith(mark)}
        lines = read(p).split("\n")
        for i, l in enumerate(lines):
            if l.strip().startswith(mark) and plain(l) in old:
                lines[i] = l[: len(l) - len(l.lstrip())] + old[plain(l)]
        write(p, "\n".join(lines))


def main():
    with open("crates.txt", encoding="utf-8") as f:
        own = {l.split(":")[0].split()[0] for l in f if ":" in l and not l.startswith("#")}
    restore_comments()
    names = defined()
    for p in texts():
        turn(p, names, own)
    rename_hex()
    print(f"respell: {len(names)} names")


main()
