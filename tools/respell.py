#!/usr/bin/env python3
"""Brings the names of definitions and lemmas to one spelling: words in snake case, types and facts in camel case.

usage: respell.py [FOLDER]      once, at the top of a repository right after the kit's port.py

names.txt, beside this file, has a line 'old new' for each name. A name is replaced wherever it stands as a whole word in
specs/ and proofs/, in the clauses and ghost lines of src/, and between backticks in README.md and docs/. In theory three names that port.py had given the spelling of
definitions of other crates, or of a tactic, get a prefix. A member of a bound, which port.py left bare in clauses, is named through the bound.
"""

import os
import re
import sys

WORD = re.compile(r"(?<![A-Za-z0-9_'\-])[A-Za-z_][A-Za-z0-9_'₀-₉ℕ\-]*")
IN_THEORY = {"kind_of": "closed_kind_of", "page_of": "closed_page_of", "first_of": "closed_first_of"}
# members of a bound and the parameter that has it
MEMBERS = {"meaning": "H", "rules": "L"}
BARE = re.compile(r"(?<![A-Za-z0-9_'\-.])(meaning|rules)(?![A-Za-z0-9_'\-])")


def names():
    with open(os.path.join(os.path.dirname(os.path.abspath(__file__)), "names.txt"), encoding="utf-8") as f:
        return dict(line.split() for line in f if line.strip())


def respell(text, table):
    return WORD.sub(lambda m: table.get(m[0], m[0]), text)


def is_ghost_text(line):
    return re.match(r"\s*(ghost |pub ghost |requires|ensures)", line) is not None


def respell_source(text, table):
    """The ghost lines and clauses of a source file; a clause goes on to the line where its braces close."""
    out, deep = [], 0
    for line in text.split("\n"):
        if deep > 0 or is_ghost_text(line):
            out.append(respell(line, table))
            deep += line.count("{") - line.count("}")
        else:
            out.append(line)
    return "\n".join(out)


def through_bounds(text):
    """Members of bounds in the clauses of generic functions: meaning becomes H.meaning where H: Host is the bound."""
    if not re.search(r"<H: Host|H: Host", text):
        return text
    out, own = [], False
    for line in text.split("\n"):
        if re.match(r"(pub )?trait ", line):
            own = True
        elif line == "}":
            own = False
        if not own and re.match(r"\s*(requires|ensures)", line):
            line = BARE.sub(lambda m: MEMBERS[m[1]] + "." + m[1], line)
        out.append(line)
    return "\n".join(out)


def code_names(root):
    """Names of functions and locals of src/ that have an underscore."""
    found = set()
    for folder, dirs, files in os.walk(os.path.join(root, "crates")):
        dirs[:] = [d for d in dirs if d not in ("out", "target")]
        for name in files:
            if name.endswith(".rt"):
                with open(os.path.join(folder, name), encoding="utf-8") as f:
                    found |= set(re.findall(r"\b(?:fn|let|let mut) ([a-z]\w*_\w*)", f.read()))
    return found


def keep_code_names(text, code):
    """Names that the check makes of the code's: after a dot, words of one source name keep their underscores."""

    def turn(m):
        words = m[1].split("-")
        for n in range(len(words), 1, -1):
            if "_".join(words[:n]) in code:
                return "." + "-".join(["_".join(words[:n])] + words[n:])
        return m[0]

    return re.sub(r"\.([a-z][a-z0-9_]*(?:-[a-z0-9_]+)+)", turn, text)


def main(root):
    table = names()
    code = code_names(root)
    for folder, dirs, files in os.walk(os.path.join(root, "crates")):
        dirs[:] = sorted(d for d in dirs if d not in ("out", "target"))
        for name in sorted(files):
            path = os.path.join(folder, name)
            crate = os.path.relpath(path, os.path.join(root, "crates")).split(os.sep)[0]
            here = table | (IN_THEORY if crate == "theory" else {})
            if name.endswith(".antt"):
                made = name in ("Answers.antt", "Invariants.antt")
                turn = lambda t: keep_code_names(respell(t, here), code) if made else respell(t, here)
            elif name.endswith(".rt"):
                turn = lambda t: through_bounds(respell_source(t, here))
            else:
                continue
            with open(path, encoding="utf-8") as f:
                old = f.read()
            new = turn(old)
            if new != old:
                with open(path, "w", encoding="utf-8") as f:
                    f.write(new)


    pages = [os.path.join(root, "README.md")]
    docs = os.path.join(root, "docs")
    pages += sorted(os.path.join(docs, p) for p in os.listdir(docs) if p.endswith(".md") and not p.startswith("PORT"))
    for path in pages:
        with open(path, encoding="utf-8") as f:
            old = f.read()
        new = re.sub(r"`[^`\n]+`", lambda m: respell(m[0], table), old)
        if new != old:
            with open(path, "w", encoding="utf-8") as f:
                f.write(new)


if __name__ == "__main__":
    main(sys.argv[1] if len(sys.argv) > 1 else ".")
