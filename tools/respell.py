#!/usr/bin/env python3
"""Respells this repository's own definitions and lemmas: words in snake case, types in upper camel case.

Run it once at the top of the repository, right after /opt/rattle/port/port.py: it turns every dashed name that the
repository itself defines in specs/, proofs/ and ghost text, and leaves names of the library, names that the check
makes for goals, functions of src/, strings and comments as they are (in a comment it turns names within backticks).
It prints new names that stood somewhere already, to be looked at.
"""
import glob
import re
import sys

CRATES = ("memory", "translation", "translation_laws", "machine", "memory_tests", "translation_tests", "machine_tests")
OWN = re.compile(r"Rattle\.(?:%s)\." % "|".join(CRATES))
WORD = r"[A-Za-z][A-Za-z0-9_']*"
DASHED = re.compile(r"(?<![\w'-])" + WORD + r"(?:-[A-Za-z0-9_']+)+(?![\w'-])")
USE = re.compile(r"^\s*(?:ghost |pub )*use ([\w.]+)\.\{(.*)\}")
STRING = re.compile(r'"(?:[^"\\]|\\.)*"')


def split(line, mark):
    """A line's text and its comment."""
    m = re.search(r"(?:^|(?<=\s))" + re.escape(mark) + r"(?![^\s/!])", line)
    return (line[: m.start()], line[m.start() :]) if m else (line, "")


def files():
    for path in sorted(glob.glob("crates/*/**/*", recursive=True)):
        if "/out/" in path or not path.endswith((".rt", ".antt")):
            continue
        yield path


def answers(path):
    """A proof of one function: its names are mostly the check's own."""
    return re.search(r"/proofs/.*/(Answers|Invariants|Proof)\.antt$", path)


def pieces(path, line):
    """The parts of a line that are code, and those that are not, in order."""
    code, comment = split(line, "//" if path.endswith(".rt") else "--")
    if path.endswith(".rt"):
        at = 0
        for m in STRING.finditer(code):
            yield True, code[at : m.start()]
            yield False, m.group()
            at = m.end()
        code = code[at:]
    yield True, code
    yield False, comment


def respelled(name):
    parts = name.split("-")
    if name[0].isupper():
        return "".join(p[0].upper() + p[1:] for p in parts)
    return "_".join(parts)


def main():
    texts = {p: open(p, encoding="utf-8").read() for p in files()}
    foreign, own, words = set(), set(), set()
    for path, text in texts.items():
        for line in text.split("\n"):
            use = USE.match(line)
            if use and not OWN.match(use.group(1) + "."):
                foreign.update(re.split(r"[\s,]+", use.group(2)))
                continue
            for is_code, piece in pieces(path, line):
                if is_code:
                    words.update(re.findall(WORD, piece))
                    if not answers(path):
                        own.update(DASHED.findall(piece))
    own -= foreign
    new = {n: respelled(n) for n in own}
    seen = {}
    for n, r in sorted(new.items()):
        if r in seen:
            print(f"look: {n} and {seen[r]} are both {r} now")
        seen[r] = n
        if r in words:
            print(f"look: {r} stood before as another name than {n}")

    def turn(m):
        return new.get(m.group(), m.group())

    for path, text in texts.items():
        lines = []
        for line in text.split("\n"):
            out = ""
            for is_code, piece in pieces(path, line):
                if is_code:
                    out += DASHED.sub(turn, piece)
                elif piece.startswith(("//", "--")):
                    out += re.sub(r"`[^`]*`", lambda m: DASHED.sub(turn, m.group()), piece)
                else:
                    out += piece
            lines.append(out)
        done = "\n".join(lines)
        if done != text:
            with open(path, "w", encoding="utf-8") as f:
                f.write(done)
    print(f"{len(new)} names respelled")


if __name__ == "__main__":
    sys.exit(main())
