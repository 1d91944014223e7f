#!/usr/bin/env python3
"""Respells the names of this repository's own definitions, lemmas and proof variables.

usage: python3 tools/respell.py        at the top of the repository, once, after port.py

port.py respells the library's names and only those of ours that clashed with one. This script brings the rest to the same
spelling: words in snake case, types in upper camel case. It reads each name from the .antt files: a name with a dash in a
file of definitions or lemmas is ours unless the file's imports take it from the library. Names that the prover makes for
the goals of a function (in Answers.antt and Invariants.antt alone) keep their dashes, for those join its parts.
Source functions, strings, inputs, outputs and comments stay, but for names between backquotes.
"""

import os
import re
import sys

SEPARATORS = r"([\s(){}\[\],;.]+)"
DASHED = re.compile(r"[^\s◌]-[^\s◌]")
GOAL_FILES = ("Answers.antt", "Invariants.antt")
# a name that the prover makes begins like this
MADE = re.compile(r"^(returns|loop|invariant|decreases|index|if|in|not|else|then|overflow|match)-")
BINDERS = [re.compile(r"\blet\s+([^\s(){}\[\],;.]+)"), re.compile(r"λ\s+([^.]*)\."), re.compile(r"\(([^\s(){}:]+(?:\s+[^\s(){}:]+)*)\s+:\s")]


def new_name(name):
    if name[0].isupper() and name[1:2] != "-":
        return "".join(w[:1].upper() + w[1:] for w in name.split("-"))
    return name.replace("-", "_")


def code_of(line):
    """The line without its comment, and the comment."""
    m = re.search(r"(^|\s)--(\s|$)", line)
    return (line[: m.start()], line[m.start() :]) if m else (line, "")


def files(root, ending):
    for folder, dirs, names in os.walk(root):
        dirs[:] = sorted(d for d in dirs if d not in ("out", "target", ".git"))
        for n in sorted(names):
            if n.endswith(ending):
                yield os.path.join(folder, n)


def read(path):
    with open(path, encoding="utf-8") as f:
        return f.read()


def library_names(text, own_crates):
    found = set()
    for m in re.finditer(r"use Rattle\.(\w+)\.[\w.]+\.\{([^}]*)\}", text):
        if m.group(1) not in own_crates:
            for part in m.group(2).split(","):
                found |= set(part.split(" as "))
    return {n.strip() for n in found}


def survey():
    own_crates = set(os.listdir("crates"))
    library, ours = set(), set()
    texts = {p: read(p) for p in files("crates", ".antt")}
    for t in texts.values():
        library |= library_names(t, own_crates)
    for p in files("crates", ".rt"):
        library |= library_names(read(p), own_crates)
    for p, t in texts.items():
        made_names = os.path.basename(p) in GOAL_FILES
        for line in t.split("\n"):
            code = code_of(line)[0]
            if not made_names:
                words = re.split(SEPARATORS, code)
            else:
                words = [w for b in BINDERS for m in b.finditer(code) for w in m.group(1).split()]
                m = re.match(r"\s*(?:(?:pub|abbrev|unfoldable|data|record)\s+)*([^\s(){}\[\],;.:]+)\s+:\s", code)
                words += [m.group(1)] if m else []
                words = [w for w in words if not MADE.match(w) and not re.search(r"-requires(-|$)", w)]
            ours |= {w for w in words if DASHED.search(w)}
    return {n: new_name(n) for n in ours - library}


def respell_code(code, names):
    return "".join(names.get(w, w) for w in re.split(SEPARATORS, code))


def respell_quoted(text, names):
    return re.sub(r"`([^`\n]+)`", lambda m: "`" + respell_code(m.group(1), names) + "`", text)


def with_earlier(names):
    """The names, and those that port.py respelled already, which the pages may still have with a dash."""
    now = {w for p in files("crates", ".antt") for w in re.split(SEPARATORS, read(p)) if "_" in w}
    return {w.replace("_", "-"): w for w in now if w not in names.values()} | names


def respell_antt(text, names):
    out = []
    for line in text.split("\n"):
        code, comment = code_of(line)
        out.append(respell_code(code, names) + respell_quoted(comment, names))
    return "\n".join(out)


def respell_rt(text, names):
    out = []
    for line in text.split("\n"):
        at = line.find("//")
        code, comment = (line, "") if at < 0 else (line[:at], line[at:])
        parts = re.split(r'("(?:[^"\\]|\\.)*")', code)
        out.append("".join(s if i % 2 else respell_code(s, names) for i, s in enumerate(parts)) + respell_quoted(comment, names))
    return "\n".join(out)


def main():
    if not os.path.isdir("crates"):
        sys.exit("respell: run it at the top of the repository")
    names = survey()
    if len(set(names.values())) != len(names):
        sys.exit("respell: two names would fall together")
    changed = 0
    work = [(p, respell_antt) for p in files("crates", ".antt")]
    work += [(p, respell_rt) for e in (".rt", ".edit") for p in files("crates", e)]
    for p in list(files("docs", ".md")) + ["README.md"]:
        work.append((p, respell_quoted))
    pages = with_earlier(names)
    for p, how in work:
        old = read(p)
        text = how(old, pages if p.endswith(".md") else names)
        if text != old:
            with open(p, "w", encoding="utf-8") as f:
                f.write(text)
            changed += 1
    for n in sorted(names):
        print(n, names[n])
    print(f"respell: {len(names)} names, {changed} files", file=sys.stderr)


if __name__ == "__main__":
    main()
