#!/usr/bin/env python3
"""Brings the repository's own definitions and lemmas to snake case, as the library's are.

usage: tools/spell.py [--check]      at the top of the repository, once, after port.py

`checkOf` and `check-lt` become `check_of` and `check_lt`. A lemma whose name would fall together with a definition's gets `_lem`. Types,
modules, functions of src/, names that Rattle makes and names that a file takes from the library stay. Of comments and pages, only what
stands in backticks is turned. --check writes nothing and lists the new names that fall together with a name that is already there.
"""

import os
import re
import sys

# Definitions whose new names port.py gave to lemmas of other modules: there the lemma makes room.
FIRST = ("allTyped", "bytesAfter", "foundAfter", "heldWord", "premiseHolds")

WORD = r"[^\s(){}.;,@\"«»`\[\]\\]+"
DECLARED = re.compile(r"^[ ]*(?:(?:abbrev|unfoldable|pub)[ ]+)*(%s)[ ]+:(?:[ ]+(\S*)|$)" % WORD, re.M)
LOCAL = re.compile(r"\blet (%s)[ ]+[:=] " % WORD)
USE = re.compile(r"^\s*(?:ghost )?(?:pub )?use ([^\s{;]+)\.\{([^}]*)\}", re.M)
TOKEN = re.compile(r"(?<![^\s(){}.;,@\"«»`\[\]\\])%s" % WORD)
TICKED = re.compile(r"`([^`\n]*)`")


def files(root, endings):
    for folder, dirs, names in os.walk(root):
        dirs[:] = sorted(d for d in dirs if d not in ("out", ".git", "target"))
        for name in sorted(names):
            if name.endswith(endings):
                yield os.path.join(folder, name)


def read(path):
    with open(path, encoding="utf-8") as f:
        return f.read()


def old(name):
    """Whether a name is a word in another spelling than the library's."""
    return bool(re.match(r"[a-z]", name)) and bool(re.search(r"[A-Z]|-", name)) and not re.search(r"[^\w'-]", name)


def snake(name):
    return re.sub(r"(?<=[a-z0-9₀-₉])([A-Z])", lambda m: "_" + m.group(1).lower(), name).replace("-", "_")


def without_comment(line, mark):
    """A line's code and its comment."""
    at = line.find(mark)
    while at > 0 and line[at - 1] not in " \t":
        at = line.find(mark, at + 1)
    return (line, "") if at < 0 else (line[:at], line[at:])


def code_of(text, mark):
    return "\n".join(without_comment(l, mark)[0] for l in text.split("\n"))


def table(root):
    """The old names that the repository declares, each with its new one, and all that it declares."""
    crates = os.path.join(root, "crates")
    declared, renamed = set(), set()
    for path in files(crates, (".antt",)):
        text = code_of(read(path), "--")
        for m in DECLARED.finditer(text):
            # an answer's name in a file of proofs/F/ is Rattle's
            if (m.group(2) or "").startswith("tie.") or m.group(1).startswith("use "):
                continue
            declared.add(m.group(1))
        declared.update(LOCAL.findall(text))
    renamed = {n for n in declared if old(n)}
    new = {snake(n): snake(n) + "_lem" for n in FIRST}
    new.update({n: snake(n) for n in FIRST})
    renamed.difference_update(new)
    taken = {n for n in declared if n not in renamed and n not in new}
    for name in sorted(renamed, key=lambda n: ("-" in n, n)):
        to = snake(name)
        if to in taken or to in new.values():
            to += "_lem"
        if to in taken or to in new.values():
            raise SystemExit(f"spell: {name} has no new name")
        new[name] = to
    return new, Pages(new, taken)


class Pages(dict):
    """The table for pages, edits and comments, where names stand that port.py turned elsewhere."""

    def __init__(self, new, taken):
        super().__init__(new)
        self.taken = taken

    def get(self, name, default=None):
        if name in self:
            return self[name]
        return snake(name) if old(name) and snake(name) in self.taken else default


def crates_of(root):
    return {c for c in os.listdir(os.path.join(root, "crates")) if os.path.isdir(os.path.join(root, "crates", c))}


def foreign(text, own):
    """The names that a file takes from a library."""
    names = set()
    for path, brought in USE.findall(text):
        if not (path.startswith("Rattle.") and path.split(".")[1] in own):
            names.update(re.split(r"[\s,]+", brought.strip()))
    return names


def turned(code, new, kept):
    return TOKEN.sub(lambda m: m.group(0) if m.group(0) in kept else new.get(m.group(0), m.group(0)), code)


def turned_page(text, pages):
    return TICKED.sub(lambda m: "`" + turned(m.group(1), pages, ()) + "`", text)


def turned_text(text, new, pages, kept, mark):
    parts = [without_comment(line, mark) for line in text.split("\n")]
    return "\n".join(turned(code, new, kept) + turned_page(comment, pages) for code, comment in parts)


def turned_edit(text, pages):
    return "\n".join(turned(l, pages, ()) if re.match(r"(old|new):", l) else turned_page(l, pages) for l in text.split("\n"))


def main(argv):
    root = "."
    new, pages = table(root)
    own = crates_of(root)
    check = "--check" in argv
    fallen = 0
    for path in files(root, (".antt", ".rt", ".edit", ".md")):
        text = read(path)
        if path.endswith(".md"):
            result = turned_page(text, pages)
        elif path.endswith(".edit"):
            result = turned_edit(text, pages)
        else:
            mark = "--" if path.endswith(".antt") else "//"
            kept = foreign(text, own)
            result = turned_text(text, new, pages, kept, mark)
            before = set(TOKEN.findall(code_of(text, mark)))
            for n in sorted(before & set(new) - kept):
                if new[n] in before:
                    fallen += 1
                    print(f"look: {path}: {n} becomes {new[n]}, which stands there")
        if result != text and not check:
            with open(path, "w", encoding="utf-8") as f:
                f.write(result)
    print(f"spell: {len(new)} names, {fallen} that fall together with one in their file")
    return 0


if __name__ == "__main__":
    raise SystemExit(main(sys.argv[1:]))
