#!/usr/bin/env python3
"""port_names.py [--list]: brings the repository's own names in specs/ and proofs/ to snake case.

Run once, at the top, on what the toolchain's port script left. A name is a repository's own if a file of specs/ or of proofs/
uses it and no import of a library brings it. Camel case and dashes become snake case, so `wordHere` and `word-here` are
`word_here`; names of types and modules (a capital first) keep their case, and lose only dashes. Names of a library, names that the
check generates, functions of src/, strings and file names stay. Two names that would become one are an error, unless KEEP_APART
gives one of them another name. `--list` prints the names and writes nothing.
"""
import collections
import glob
import os
import re
import sys

TOKEN = re.compile(r"[A-Za-z_α-ωΑ-Ω][\w'₀-₉-]*")
# names of the sources, of crates or of fields of a source's struct: they keep their spelling, and a definition may have the same name
SOURCE = {"joined_calls", "kind_len", "name_len", "not_null", "select_into", "set_lines", "value_len"}


# names of a library's module that files cite by its path
CITED = {"not-nil"}


def read(path):
    with open(path, encoding="utf-8") as f:
        return f.read()


def crates():
    return {c for c in os.listdir("crates") if os.path.isdir(os.path.join("crates", c, "src"))}


def files():
    """Files of definitions and laws, files of the proofs of functions, sources, edits."""
    laws, functions, sources, edits = [], [], [], []
    for c in sorted(crates()):
        top = os.path.join("crates", c)
        laws += sorted(glob.glob(top + "/specs/**/*.antt", recursive=True)) + sorted(glob.glob(top + "/proofs/*.antt"))
        functions += [p for p in sorted(glob.glob(top + "/proofs/**/*.antt", recursive=True)) if p.count("/") > 3]
        sources += sorted(glob.glob(top + "/src/**/*.rt", recursive=True))
        edits += sorted(glob.glob(top + "/must-fail/*.edit"))
    return laws, functions, sources, edits


def code(text):
    """The text without comments and strings."""
    return re.sub(r'"(?:\\.|[^"\\])*"', '""', re.sub(r"--.*", "", text))


IMPORT = re.compile(r"^\s*use\s+(\S+?)\.\{([^}]*)\}", re.M)


def imported(text, own):
    """The names that a file imports from the repository's crates, and from libraries."""
    mine, others = set(), set()
    for m in IMPORT.finditer(text):
        parts = m[1].split(".")
        to = mine if parts[0] == "Rattle" and parts[1] in own else others
        to.update(w for it in m[2].split(",") for w in TOKEN.findall(it) if w != "as")
    return mine, others


def snake(name):
    if re.match(r"[A-Z]", name):
        return name.replace("-", "_")
    name = re.sub(r"([a-z0-9₀-₉'])([A-Z])", r"\1_\2", name).replace("-", "_")
    return name.lower()


def wants(name):
    return re.match(r"[a-z]", name) and (re.search(r"[a-z0-9][A-Z]", name) or "-" in name)


def renaming(laws):
    own, libraries, seen = crates(), set(), collections.Counter()
    for p in laws:
        t = code(read(p))
        libraries |= imported(t, own)[1]
        seen.update(TOKEN.findall(t))
    to = {n: snake(n) for n in seen if n not in libraries and n not in CITED and wants(n)}
    clash = collections.defaultdict(set)
    for n, m in to.items():
        clash[m].add(n)
    for n in seen:
        if n in clash and n not in to and n not in SOURCE:
            clash[n].add(n)
    bad = {}
    for m, names in clash.items():
        # a lemma that would have its definition's name ends with `_lem`: a definition is in camel case, or has a word without dashes
        keep = min(names, key=lambda n: (not re.search(r"[a-z0-9][A-Z]", n), "-" in n))
        for n in names - {keep}:
            to[n] = m + "_lem"
        if len({to.get(n, n) for n in names}) < len(names) or m in libraries or any(m + "_lem" in s for s in (seen, clash)):
            bad[m] = names
    return to, bad


def main():
    laws, functions, sources, edits = files()
    to, bad = renaming(laws)
    if "--list" in sys.argv[1:]:
        for n in sorted(to):
            print(n, to[n])
    for m, s in sorted(bad.items()):
        print("fall together:", m, sorted(s), file=sys.stderr)
    if bad:
        raise SystemExit(1)
    if "--list" in sys.argv[1:]:
        return
    own = crates()

    def all_of(m):
        return to.get(m[0], m[0])

    def in_comment(m):
        # in prose a word with a dash is a name only between backticks
        return "`" + TOKEN.sub(all_of, m[1]) + "`"

    def is_camel(n):
        return "-" not in n and re.search(r"[a-z0-9][A-Z]", n)

    def camel(m):
        return to.get(m[0], m[0]) if is_camel(m[0]) else m[0]

    def turned(text, rule, comment):
        """The text with `rule` on each token outside strings, in comments only between backticks (and camel case)."""
        out = []
        for part in re.split(r'("(?:\\.|[^"\\\n])*"|%s.*)' % comment, text):
            if part.startswith('"'):
                out.append(part)
            elif part.startswith(comment):
                out.append(TOKEN.sub(camel, re.sub(r"`([^`]*)`", in_comment, part)))
            else:
                out.append(TOKEN.sub(rule, part))
        return "".join(out)

    for p in laws:
        t = read(p)
        write(p, t, turned(t, all_of, "--"))
    for p in functions:
        t = read(p)
        mine = imported(code(t), own)[0]

        def here(m):
            # other names with dashes are a goal's, a step's or the file's own
            return to.get(m[0], m[0]) if m[0] in mine or is_camel(m[0]) else m[0]
        write(p, t, turned(t, here, "--"))
    for p in sources:
        t = read(p)
        mine = set()
        for m in re.finditer(r"ghost use\s+(\S+?)\.\{([^}]*)\}", t):
            if m[1].split(".")[1] in own:
                mine |= set(TOKEN.findall(m[2]))

        def ghost(m):
            return to.get(m[0], m[0]) if m[0] in mine or is_camel(m[0]) else m[0]
        write(p, t, turned(t, ghost, "//"))
    for p in edits:
        t = read(p)
        write(p, t, TOKEN.sub(camel, t))
    # in the pages too, where the toolchain's script turned none
    known = set(to.values()) | {n for p in laws for n in TOKEN.findall(code(read(p)))}

    def told(m):
        n = m[0]
        if not wants(n):
            return n
        return to.get(n, snake(n) if snake(n) in known else n)
    for p in ["README.md"] + sorted(glob.glob("docs/*.md")):
        t = read(p)
        write(p, t, re.sub(r"`([^`\n]*)`", lambda m: "`" + TOKEN.sub(told, m[1]) + "`", t))


def write(path, old, new):
    if old != new:
        with open(path, "w", encoding="utf-8") as f:
            f.write(new)


if __name__ == "__main__":
    main()
