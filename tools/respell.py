#!/usr/bin/env python3
"""tools/respell.py: turns the repository's own definitions and laws to the spelling of today's Rattle.

Run once, at the top, on what the toolchain's porting script leaves of the commit that is checked out. A definition, law, field or constructor is in snake case, a law
that would have a definition's name ends in _lem; types keep their capitals. Names are changed in crates/*/specs and proofs, in the
clauses and comments of src, in must-fail edits, and, between backticks, in the pages.
"""

import collections
import glob
import os
import re
import subprocess

SIGNATURE = re.compile(r"^\s*(?:pub |abbrev |unfoldable |mutual )*([^\s:(){}]+(?:(?:,| )\s*[^\s:(){},]+)*) :( |$)")
TOKEN = re.compile(r"[^\s(){}\[\];.,`]+")
WORDS_BEFORE_A_NAME = {"let", "in", "use", "λ", "--"}


def files(*patterns):
    return sorted(f for p in patterns for f in glob.glob(p, recursive=True) if os.path.isfile(f))


def snake(name):
    name = name.replace("-", "_")
    return re.sub(r"(?<=[a-z0-9])([A-Z])", lambda m: "_" + m.group(1).lower(), name)


def defined(texts):
    """Each name that these files define, with the folders (specs or proofs) that define it."""
    found = collections.defaultdict(set)
    for path, text in texts:
        folder = path.split("/")[2]
        for line in text.split("\n"):
            m = SIGNATURE.match(line)
            if m and line.split()[0] not in WORDS_BEFORE_A_NAME:
                for name in re.split(r"[ ,]+", m.group(1)):
                    if name:
                        found[name].add(folder)
    return found


def here():
    for path in files("crates/*/specs/**/*.antt", "crates/*/proofs/**/*.antt"):
        with open(path, encoding="utf-8") as f:
            yield path, f.read()


def at_commit():
    """The same files as the commit has them: the porting script turned a part of the names, but in no edit and no page."""
    listed = subprocess.run(["git", "ls-tree", "-r", "--name-only", "HEAD", "crates"], capture_output=True, text=True, check=True)
    for path in listed.stdout.split("\n"):
        if re.match(r"crates/[^/]+/(specs|proofs)/.*\.antt$", path):
            yield path, subprocess.run(["git", "show", "HEAD:" + path], capture_output=True, text=True, check=True).stdout


def new_names(found):
    new = {n: snake(n) for n in found if re.match(r"[a-z]", n)}
    by_new = collections.defaultdict(list)
    for old, name in new.items():
        by_new[name].append(old)
    for name, olds in by_new.items():
        # A definition of specs keeps the plain name, then a name with capitals inside; the law beside it gets the ending.
        olds.sort(key=lambda o: ("specs" not in found[o], "-" in o, "_" in o))
        for old in olds[1:]:
            new[old] = name + "_lem"
    return {old: name for old, name in new.items() if old != name}


def names_of_the_commit(found, new):
    """What each name of the commit is called now, whichever script turned it."""
    turned = {}
    for old in defined(at_commit()):
        ported = old if old in found else snake(old)
        name = new.get(ported, ported)
        if name != old and (ported in found):
            turned[old] = name
    return turned


def in_antt(text, new):
    out = []
    for line in text.split("\n"):
        code, dashes, comment = line.partition("-- ") if not line.startswith("--") else ("", "", line)
        out.append(TOKEN.sub(lambda m: new.get(m.group(0), m.group(0)), code) + dashes + in_prose(comment, new))
    return "\n".join(out)


def in_prose(text, new):
    """Between backticks every name; elsewhere names with capitals inside, which no English word has."""
    text = re.sub(r"`[^`\n]*`", lambda m: TOKEN.sub(lambda t: new.get(t.group(0), t.group(0)), m.group(0)), text)
    return re.sub(r"\b[a-z]+[A-Z]\w*\b", lambda m: new.get(m.group(0), m.group(0)), text)


def in_rattle(text, new):
    out = []
    for line in text.split("\n"):
        code, slashes, comment = line.partition("//")
        clause = re.match(r"\s*(ghost|requires|ensures)\b", code)
        if clause:
            code = TOKEN.sub(lambda m: new.get(m.group(0), m.group(0)), code)
        out.append(code + slashes + in_prose(comment, new))
    return "\n".join(out)


def in_edit(text, new):
    out = []
    specs = False
    for line in text.split("\n"):
        if line.startswith("file:"):
            specs = ".antt" in line
        elif re.match(r"(old|new):", line) and (specs or re.search(r"ensures|requires|ghost", line)):
            line = in_antt(line, new)
        elif line.startswith("#"):
            line = in_prose(line, new)
        out.append(line)
    return "\n".join(out)


def rewrite(path, turn, new):
    with open(path, encoding="utf-8") as f:
        old = f.read()
    text = turn(old, new)
    if text != old:
        with open(path, "w", encoding="utf-8") as f:
            f.write(text)


def main():
    found = defined(here())
    new = new_names(found)
    turned = names_of_the_commit(found, new)
    for path in files("crates/*/specs/**/*.antt", "crates/*/proofs/**/*.antt"):
        rewrite(path, in_antt, new)
    for path in files("crates/*/src/**/*.rt"):
        rewrite(path, in_rattle, new)
    for path in files("crates/*/must-fail/*.edit"):
        rewrite(path, in_edit, turned)
    for path in files("docs/*.md", "docs/tickets/*.md", "README.md"):
        rewrite(path, in_prose, turned)
    print(f"{len(turned)} names, {len(new)} of them here")


if __name__ == "__main__":
    main()
