#!/usr/bin/env python3
"""Spells this repository's own definitions and lemmas as today's Rattle does: words in snake case, types in upper camel case.

usage: tools/respell.py [--check]     at the top of a checkout that port.py has turned and whose changes are committed

The names are those that specs/ and proofs/ declare, and local names with a dash. A name that a library lends, a label that Rattle makes
(goal.X, c.X) and everything in src/ outside of clauses stay. Names that would fall together are printed and stay, unless OWN says otherwise.
"""
import collections
import os
import re
import subprocess
import sys
import tempfile

KIT = os.path.realpath(os.path.join(os.path.dirname(subprocess.run(["rt", "doc"], capture_output=True, text=True).stdout.strip()), "port", "notes"))
SNAKE = os.path.join(KIT, "2026-11-18-names-are-in-snake-case")
NAME = r'[^\s(){}.;,@"«»]+'
DECLARED = re.compile(rf"(?m)^ *(?:(?:abbrev|pub|data|record|mod|instance|mutual) +)*({NAME})(?: [({{][^\n]*?[)}}])* :(?= |$)")
QUIET = re.compile(r'"(?:[^"\\\n]|\\.)*"|(?<![^\s(){}.;,@"«»])--[^\n]*|\{-.*?-\}', re.S)
USE = re.compile(r"\buse ([^\s;{]+)(\{[^;]*?\}(?=;|[ \t]*$))?(?: as ([^\s;]+))?", re.M)
ANSWERS = re.compile(r"/proofs/(.*/)?(Answers|Invariants)(/.*)?\.antt$")
# Names whose spelling by rule would fall together with another.
OWN = {"entry-to": "entry_for", "pendingOf": "pending_for"}


def spelled(name):
    if name in OWN:
        return OWN[name]
    if name[0].isupper():
        first, *rest = name.split("-")
        return first + "".join(w[:1].upper() + w[1:] for w in rest)
    name = name.replace("-", "_")
    return re.sub(r"(?<=[a-z0-9])([A-Z])(?=[a-z])", lambda m: "_" + m[1].lower(), name)


def files():
    for top, dirs, names in os.walk("crates"):
        dirs[:] = sorted(d for d in dirs if d != "out")
        for n in sorted(names):
            if n.endswith((".antt", ".rt")):
                yield os.path.join(top, n)


def lent(text):
    """The names that a file brings in from libraries."""
    found = set()
    for path, items, _ in USE.findall(text):
        steps = path.strip(".").split(".")
        if steps[0] == "Rattle" and len(steps) > 1 and os.path.isdir(os.path.join("crates", steps[1])):
            continue
        found.update(re.findall(NAME, items) or steps[-1:])
    return found


def main():
    declared, local, labels, theirs = set(), set(), set(), set()
    texts = {p: open(p, encoding="utf-8").read() for p in files()}
    for p, t in texts.items():
        code = QUIET.sub(" ", t) if p.endswith(".antt") else re.sub(r'//[^\n]*|"(?:\\.|[^"\\])*"', " ", t)
        theirs |= lent(code)
        local.update(n for n in re.findall(rf" as ({NAME})", code) if "-" in n)
        if not p.endswith(".antt"):
            continue
        if ANSWERS.search("/" + p):
            labels.update(re.findall(rf"\b(?:goal|c)\.({NAME})", code))
            for names in re.findall(r"\blet ((?:\S+ )*?\S+) [:=]", code):
                local.update(names.split())
            continue
        for line in code.split("\n"):
            m = DECLARED.match(line)
            if m:
                declared.add(m[1])
        local.update(n for n in re.findall(NAME, code) if "-" in n and re.match(r"[A-Za-z]", n))
    rows = {}
    for n in sorted(declared | local):
        if not re.fullmatch(r"[A-Za-z_][\w'′₀-₉ᵗ-]*", n) or n in theirs or spelled(n) == n:
            continue
        if n in labels and n not in declared:
            continue
        rows[n] = spelled(n)
    clash = collections.defaultdict(set)
    for old, new in rows.items():
        clash[new].add(old)
    for new, olds in sorted(clash.items()):
        if len(olds) > 1 or new in theirs or new in declared:
            print(f"falls together: {', '.join(sorted(olds))} and {new} ({'library ' if new in theirs else ''}{'declared' if new in declared else ''})")
    with tempfile.NamedTemporaryFile("w", suffix=".tsv", delete=False) as f:
        f.writelines(f"{old}\t{new}\n" for old, new in sorted(rows.items()))
    print(f"{len(rows)} names; {f.name}")
    if "--check" in sys.argv:
        return
    proofs = [p for p in texts if ANSWERS.search("/" + p)]
    others = [p for p in texts if not ANSWERS.search("/" + p)]
    heads = open(os.path.join(SNAKE, "heads.txt")).read().strip()
    for group, more in ((proofs, ["--skip-behind", heads]), (others, [])):
        subprocess.run([sys.executable, os.path.join(SNAKE, "snake.py"), "--table", f.name, "--leave", os.path.join(SNAKE, "leave.txt"), *more, *group], check=True)


if __name__ == "__main__":
    main()
