#!/usr/bin/env python3
"""Counts the places in crates/*/src that docs/DESIGN-PASS.md speaks of, point by point.

usage: tools/design.py [REV] [--list]      at the top of the repository; REV is a commit, else the files as they stand

Points 1, 3, 4, 6 and 7 count lines by a pattern, point 2 groups of functions that are the same but for names, numbers and types, point 5
facts that stand in the contracts of three or more functions and parameters that stand together in three or more, point 8 terms of 40
characters and more that stand three or more times in one file Answers.antt. --list prints each place.
"""

import collections
import re
import subprocess
import sys

# Point, what is counted, the pattern of a line.
LINES = [
    ("1", "own enums", r"^\s*(pub )?enum [A-Z]"),
    ("1", "a number that stands for none, told by a comment",
     r"//.*(\d+ for n(one|o )|(255|8|0) stands for n|[Ff]or none it is \d+|With no bit set it is 72|where there is none|\d+ for a byte that is none)"),
    ("1", "numbers for kinds or refusals, as constants", r"^\s*const (?!ROW_LINES|INTERFACE)[A-Z0-9_]+: u32 = \d+;"),
    ("1", "a refusal's number as a parameter, a field or a local type", r"\b(refusal|number|before): u32"),
    ("1", "a refusal's number as a result", r"fn (of_\w+|first_of|or_if|refusal|line_of)\(.*-> u32"),
    ("1", "a flag beside a value", r"^\s*(pub )?\w+: bool,$"),
    ("3", "while and loop", r"^\s*(while|loop)\b"),
    ("3", "for over numbers", r"^\s*for \w+ in [^&]*\.\."),
    ("3", "for over something else", r"^\s*for .* in (?!.*\.\.)"),
    ("3", "iterator chains", r"\.(iter|iter_mut|map|filter|zip|all|any|fold|position|enumerate)\("),
    ("4", "equality by hand", r"fn (same\w*|differ\w*|is_due|is_filled|is_beyond|is_cleared|is_due)\("),
    ("4", "conversion by hand",
     r"fn (number|swapped|load_little|store_little|low|wide|only_if|one_if|bit_if|repairs_if|refusal|pattern|cell_byte|status_at|nine|kept|spread_byte)\("),
    ("4", "a method of the library by hand", r"fn (allowance|end_of|total_after|grown_if|clear|put|find|digit_of|lowest|member)\("),
    ("4", "derives", r"^\s*#\[derive\("),
    ("6", "a place or a length beside a buffer", r"\b(at|length|kept|taken|used|from|to): usize"),
    ("6", "words and check bytes as two arrays", r"\bchecks: &(mut )?\[u8; CHIPS\]"),
    ("7", "a switch on what to run", r"\b(match trial|trial: Trial|kind: \[u32|match damage)"),
    ("7", "closures, Fn, dyn, function pointers", r"(\bFn(Mut|Once)?\(|\bdyn |\bfn\(|[(,] ?(move )?\|[\w, &()]*\| )"),
]

FN = re.compile(r"^[ ]*(?:pub(?:\(\w+\))? )?(?:extern \"C\" )?fn (\w+)(?:<[^(]*>)?\(", re.M)
CLAUSE = re.compile(r"\b(requires|ensures)\b\*? *(\w*) *\{")


def git(*args):
    return subprocess.run(("git",) + args, check=True, capture_output=True, text=True).stdout


def files(rev, ending, part):
    names = git("ls-tree", "-r", "--name-only", rev).split() if rev else git("ls-files", "-co", "--exclude-standard").split()
    for name in sorted(names):
        if re.match(r"crates/\w+/%s/" % part, name) and name.endswith(ending):
            if rev:
                yield name, git("show", "%s:%s" % (rev, name))
            else:
                with open(name, encoding="utf-8") as f:
                    yield name, f.read()


def braced(text, at):
    """The end of what begins at the brace at `at`."""
    depth = 0
    for i in range(at, len(text)):
        depth += {"{": 1, "}": -1}.get(text[i], 0)
        if depth == 0:
            return i + 1
    return len(text)


def functions(text):
    """Name, parameters, clauses and body of each function."""
    for m in FN.finditer(text):
        i, depth = m.end() - 1, 0
        while True:
            depth += {"(": 1, ")": -1}.get(text[i], 0)
            i += 1
            if depth == 0:
                break
        params, clauses = re.sub(r"\s+", " ", text[m.end():i - 1]), []
        while i < len(text) and text[i] not in "{;":
            c = CLAUSE.match(text, i)
            if c:
                end = braced(text, c.end() - 1)
                clauses.append((c.group(1), " ".join(text[c.end():end - 1].split())))
                i = end
            else:
                i += 1
        yield m.group(1), params, clauses, text[i:braced(text, i)] if text[i:i + 1] == "{" else ""


def shape(body):
    """A body with names, numbers and types replaced, by the order in which they come first."""
    body = re.sub(r"//.*", "", body)
    seen = {}
    keep = {"let", "mut", "if", "else", "for", "in", "while", "return", "match", "as", "true", "false"}

    def word(m):
        w = m.group(0)
        return w if w in keep else seen.setdefault(w, "v%d" % len(seen)) if not w[0].isdigit() else "0"

    return " ".join(re.sub(r"\w+", word, body).split())


def twins(rev):
    groups = collections.defaultdict(list)
    for name, text in files(rev, ".rt", "src"):
        for fn, _, _, body in functions(text):
            s = shape(body)
            if len(s) > 60:
                groups[s].append("%s: %s" % (name, fn))
    return [" = ".join(g) for g in groups.values() if len(g) > 1]


def facts(rev):
    where = collections.defaultdict(set)
    for name, text in files(rev, ".rt", "src"):
        for fn, _, clauses, _ in functions(text):
            for _, clause in clauses:
                for part in re.split(r" × ", clause):
                    part = re.sub(r"\.(now|old|new)\b", "", part.strip()).strip("()")
                    where[part].add("%s: %s" % (name, fn))
    return ["%s (%d)" % (p, len(w)) for p, w in sorted(where.items(), key=lambda x: -len(x[1])) if len(w) >= 3]


def together(rev):
    pairs, alone = collections.Counter(), collections.Counter()
    for _, text in files(rev, ".rt", "src"):
        for _, params, _, _ in functions(text):
            names = re.findall(r"(\w+): ", params)
            alone.update(names)
            pairs.update((a, b) for i, a in enumerate(names) for b in names[i + 1:])
    return ["%s, %s (%d of %d and %d)" % (a, b, n, alone[a], alone[b])
            for (a, b), n in pairs.most_common() if n >= 3 and 2 * n > min(alone[a], alone[b])]


def repeated(rev):
    out = []
    for name, text in files(rev, "Answers.antt", "proofs"):
        text = re.sub(r"--.*", "", text)
        terms = collections.Counter(" ".join(t.split()) for t in re.findall(r"(?<![\w.-])[\w-]+ [^\n=;,(){}]{40,}", text))
        out += ["%s: %s.. (%d)" % (name, t[:60], n) for t, n in terms.items() if n >= 3]
    return out


def main():
    args = [a for a in sys.argv[1:] if a != "--list"]
    rev = args[0] if args else None
    found = []
    texts = list(files(rev, ".rt", "src"))
    for point, what, pattern in LINES:
        regex = re.compile(pattern)
        places = []
        for name, text in texts:
            for n, line in enumerate(text.split("\n"), 1):
                if regex.search(line) and ("//" in pattern or not line.lstrip().startswith(("//", "ghost use"))):
                    places.append("%s:%d: %s" % (name, n, line.strip()[:90]))
        found.append((point, what, places))
    found.append(("2", "functions of one shape", twins(rev)))
    found.append(("5", "facts in three contracts or more", facts(rev)))
    found.append(("5", "parameters mostly together, in three functions or more", together(rev)))
    found.append(("8", "terms three times or more in one Answers.antt", repeated(rev)))
    for point, what, places in sorted(found, key=lambda f: f[0]):
        print("%s  %4d  %s" % (point, len(places), what))
        if "--list" in sys.argv:
            for p in places:
                print("         " + p)


if __name__ == "__main__":
    main()
