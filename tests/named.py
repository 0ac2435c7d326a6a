#!/usr/bin/env python3
"""tests/named.py: all that README.md and the pages in docs/, PORT.md and DESIGN-PASS.md aside, name exists: files, crates,
functions, definitions, theorems, edits.

A name stands in backticks, in a link, or as a path in plain text. Two kinds of table say where to look: a theorem is declared
in a file of its row's `where`, and an edit is in must-fail/ of the crate before it. A command in a code block can be run. What
is found nowhere is told with its page and line, and the end is status 1.
"""
import itertools
import os
import pathlib
import re
import sys

# What is not of this repository: words of Rattle, names of the toolchain's libraries, what the ladder prints, programs.
NOT_OURS = {"else", "ensures", "extern", "fn", "let", "let .. else", "match", "mut", "pub", "pub use", "refl", "requires",
            "return", "use", "u8", "u32", "u64", "Clone", "Copy", "From", "Option", "Result", "?", "IsPrefixLen", "Post", "Reads", "ref_ptr", "refused NUMBER DETAIL"}
PROGRAMS = {"rt"}

FOLDERS = (".ci", "bench", "crates", "docs", "examples", "include", "profiles", "tests", "tools")
IN_A_CRATE = ("src", "specs", "proofs", "must-fail")
PATH = re.compile(r"(?<![\w/.:-])(?:%s)/(?:[\w./+-]*[\w/])?" % "|".join(map(re.escape, FOLDERS + IN_A_CRATE)))

DECLARED = re.compile(r"(?:(?:pub|abbrev|unfoldable) +)*([^\s(){}:=]+) +:(?: |$)")
SCOPE = re.compile(r"(?:(?:pub|abbrev|unfoldable) +)*(record|data|module) +([^\s(){}:]+)")


def declarations(text):
    """What a file of definitions or proofs declares, and the fields or constructors of each record and type in it. What stands
    in the `where` of a proof is the proof's own."""
    names, members, outer = set(), {}, []
    for line in text.splitlines():
        body = line.lstrip()
        if not body or body.startswith("--"):
            continue
        indent = len(line) - len(body)
        while outer and outer[-1][0] >= indent:
            outer.pop()
        kind, owner = outer[-1][1:] if outer else ("module", None)
        scope, declared = SCOPE.match(body), DECLARED.match(body)
        if scope and kind == "module":
            if scope[1] != "module":
                names.add(scope[2])
                members.setdefault(scope[2], set())
            outer.append((indent, scope[1], scope[2]))
            continue
        if declared and kind in ("module", "record", "data"):
            found = {declared[1].strip("«»")}
            names |= found
            if owner in members:
                members[owner] |= found
        outer.append((indent, "proof", None))
    return names, members


def code(text):
    """The functions of a source file, its types and constants, and the fields or variants of each type."""
    functions = set(re.findall(r"\bfn +(\w+)", text))
    types = set(re.findall(r"\b(?:struct|enum|trait|const|static) +(\w+)", text))
    members = {}
    for name, body in re.findall(r"\b(?:struct|enum) +(\w+) *\{(.*?)^\}", text, re.S | re.M):
        members[name] = set(re.findall(r"^    (?:pub +)?(\w+)", body, re.M))
    return functions, types, members


class Repository:
    def __init__(self, top):
        self.top = pathlib.Path(top)
        self.functions, self.edits, self.declared = {}, {}, {}  # by crate, by crate, by file
        self.names, self.members, self.files = set(), {}, set()
        for folder, below, files in os.walk(self.top):
            below[:] = [name for name in below if name not in (".git", "out", "target", "__pycache__")]
            self.files |= set(files)
        for crate in sorted((self.top / "crates").iterdir()):
            self.add_crate(crate)
        for header in self.top.glob("include/*.h"):
            self.names |= set(re.findall(r"\bcharopleth_\w+|\bCHAROPLETH_\w+", header.read_text()))

    def add_crate(self, crate):
        self.functions[crate.name] = set()
        self.edits[crate.name] = {path.stem for path in crate.glob("must-fail/*.edit")}
        for path in crate.glob("src/**/*.rt"):
            functions, types, members = code(path.read_text())
            self.functions[crate.name] |= functions | types
            self.add(types, members)
        for path in [*crate.glob("specs/**/*.antt"), *crate.glob("proofs/**/*.antt")]:
            names, members = declarations(path.read_text())
            self.declared[path.relative_to(self.top).as_posix()] = names
            self.add(names, members)
        self.names |= self.functions[crate.name] | self.edits[crate.name] | {crate.name}

    def add(self, names, members):
        self.names |= names
        for owner, inside in members.items():
            self.members.setdefault(owner, set()).update(inside)
            self.names |= inside

    def has_path(self, path, page=None):
        """A file or folder, from the top, from the page's folder or in some crate. NAME stands for any crate."""
        path = path.removeprefix("./").replace("NAME", "*")
        places = [self.top, *([(self.top / page).parent] if page else [])]
        if path.startswith(IN_A_CRATE):
            places += (self.top / "crates").iterdir()
        return any(any(place.glob(path.rstrip("/"))) if "*" in path else (place / path).exists() for place in places)


def kinds(lines):
    """Each line behind its number and its kind: code, table, text or none."""
    fenced, kind = False, ""
    for number, line in enumerate(lines, 1):
        if line.startswith("```"):
            fenced, kind = not fenced, ""
        elif fenced or (line.startswith("    ") and kind in ("", "code")):
            kind = "code"
        elif line.startswith("|"):
            kind = "table"
        else:
            kind = "text" if line.strip() else ""
        yield kind, number, line


class Page:
    """One page, read line by line; `wrong` holds what was found, behind its line's number."""

    def __init__(self, repository, name):
        self.repository, self.name = repository, name
        self.wrong = []
        self.read((repository.top / name).read_text().splitlines())

    def complain(self, line, what):
        self.wrong.append((line, what))

    def read(self, lines):
        readers = {"code": self.read_code, "table": self.read_table, "text": self.read_text}
        for kind, group in itertools.groupby(kinds(lines), key=lambda line: line[0]):
            if kind:
                readers[kind]([(number, line) for _, number, line in group])

    # Text: links, names in backticks, paths.

    def read_text(self, lines):
        text = "\n".join(line for _, line in lines)

        def number(at):
            return lines[text.count("\n", 0, at)][0]

        for link in re.finditer(r"\]\(([^)\s]+)\)", text):
            target = link[1].partition("#")[0]
            if target and "://" not in target and not (self.repository.top / self.name).parent.joinpath(target).exists():
                self.complain(number(link.start()), f"the link leads to no file: {target}")
        for span in re.finditer(r"`([^`]+)`", text):
            crate = re.search(r"(?<![\w-])(\w+): $", text[:span.start()])
            if crate and crate[1] in self.repository.edits:
                self.check_edit(number(span.start()), crate[1], span[1])
            else:
                self.check_name(number(span.start()), " ".join(span[1].split()))
        rest = re.sub(r"`[^`]+`|\]\([^)\s]+\)", lambda found: re.sub(r"[^\n]", " ", found[0]), text)
        for path in PATH.finditer(rest):
            if not self.repository.has_path(path[0], self.name):
                self.complain(number(path.start()), f"no such file: {path[0]}")

    def check_name(self, line, name):
        if not self.found(name):
            self.complain(line, f"found nowhere: {name}")

    def found(self, name):
        if name in NOT_OURS | PROGRAMS or re.fullmatch(r"\d[\d,]*", name):
            return True
        if name.split()[0] in PROGRAMS or (" " in name and "/" in name.split()[0]):
            return not self.wrong_in_command(name)
        if " " in name:
            return self.found_expression(name)
        return name in self.repository.names or self.found_inside(name) or self.found_file(name)

    def found_inside(self, name):
        """crate::function, Type::Variant or Record.field."""
        owner, inside = re.fullmatch(r"(?:(.+?)(?:::|\.))?(.+)", name).groups()
        if "::" in name and owner in self.repository.functions:
            return inside in self.repository.functions[owner]
        return inside in self.repository.members.get(owner, ())

    def found_file(self, name):
        return self.repository.has_path(name, self.name) if "/" in name else name in self.repository.files

    def found_expression(self, text):
        """Its first word is a known name, and so is every further one but variables and placeholders. Letters are variables."""
        words = re.findall(r"[^\W\d][\w·'-]+(?:(?:::|\.)\w+)*", text)
        return all(self.found(word) or (k > 0 and re.fullmatch(r"[a-z]+|[A-Z]+", word)) for k, word in enumerate(words))

    # Tables.

    def read_table(self, lines):
        head, *rows = [(number, [cell.strip() for cell in line.strip().strip("|").split("|")]) for number, line in lines]
        heads = head[1]
        for number, cells in [head, *rows[1:]]:
            where = dict(zip(heads, cells)).get("where", "") if heads[0] == "theorem" and cells is not heads else ""
            for title, cell in zip(heads, cells):
                if title in ("edit", "edits", "must-fail edits") and cells is not heads:
                    self.check_edits(number, cell)
                elif title == "theorem" and where:
                    self.check_theorems(number, cell, where)
                elif title == "where" and where:
                    self.check_places(number, where)
                else:
                    self.read_text([(number, cell)])

    def places(self, where):
        """The files of `crate, proofs/One.antt, Two.antt; another, proofs/Three.antt`."""
        for part in where.split(";"):
            crate, *files = [word.strip() for word in part.split(",")]
            folder = ""
            for file in files:
                folder = file.rpartition("/")[0] or folder
                yield f"crates/{crate}/{folder}/{file.rpartition('/')[2]}"

    def check_places(self, line, where):
        for path in self.places(where):
            if path not in self.repository.declared:
                self.complain(line, f"no such file: {path}")

    def check_theorems(self, line, cell, where):
        places = list(self.places(where))
        for name in re.findall(r"`([^`]+)`", cell):
            if not any(name in self.repository.declared.get(path, ()) for path in places):
                self.complain(line, f"not declared in {' or '.join(places)}: {name}")

    def check_edits(self, line, cell):
        """`crate: a, b; another, third: all`, where names stand in backticks; or the same as above, or nothing."""
        for part in cell.split(";"):
            crates, _, edits = part.strip().partition(": ")
            names = re.findall(r"`([^`]+)`", edits)
            if part.strip() in ("", "the same"):
                continue
            for crate in crates.split(", "):
                if not self.repository.edits.get(crate):
                    self.complain(line, f"no edits of such a crate: {crate}")
                elif not names and edits not in ("all", "all others"):
                    self.complain(line, f"no edits named: {part.strip()}")
                else:
                    for name in names:
                        self.check_edit(line, crate, name)

    def check_edit(self, line, crate, name):
        if name not in self.repository.edits[crate]:
            self.complain(line, f"no edit of {crate}: {name}")

    # Code blocks: commands, the layout of the repository, and what a command prints.

    def read_code(self, lines):
        for number, line in lines:
            line = line.strip()
            if line in ("", "...") or self.is_stored(line):
                continue
            layout = re.fullmatch(r"(\S+(?:, \S+)*) {2,}([^#\s].*)", line)
            command, _, said = line.partition(" #")
            if layout:
                paths, said = layout.groups()
                for path in paths.split(", "):
                    if not self.repository.has_path(path):
                        self.complain(number, f"no such file: {path}")
            elif wrong := self.wrong_in_command(command):
                self.complain(number, wrong)
            self.read_text([(number, said)])

    def is_stored(self, line):
        stored = [*self.repository.top.glob("profiles/*.listing"), *self.repository.top.glob("examples/*.stdout")]
        return any(line in path.read_text().splitlines() for path in stored)

    def wrong_in_command(self, command):
        program, *words = command.split()
        path = self.repository.top / program
        if program not in PROGRAMS and not (path.is_file() and os.access(path, os.X_OK)):
            return f"no such program: {program}"
        if program == "rt":
            crates = [word for word in words[1:] if not word.startswith("-")]
            return next((f"no such crate: {crate}" for crate in crates if crate not in self.repository.edits), None)
        return next((f"no such file: {word}" for word in words if "/" in word and not self.repository.has_path(word)), None)


def pages(top):
    """All pages but the one that sets the old names beside the new."""
    found = [*sorted(top.glob("docs/*.md")), *sorted(top.glob("docs/tickets/*.md"))]
    return ["README.md", *(path.relative_to(top).as_posix() for path in found if path.name not in ("PORT.md", "DESIGN-PASS.md"))]


def main():
    repository = Repository(pathlib.Path(__file__).parent.parent)
    read = [Page(repository, name) for name in pages(repository.top)]
    for page in read:
        for line, what in sorted(page.wrong):
            print(f"{page.name}:{line}: {what}")
    if any(page.wrong for page in read):
        sys.exit(1)
    print(f"names: all that {len(read)} pages name is there")


if __name__ == "__main__":
    main()
