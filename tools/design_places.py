#!/usr/bin/env python3
"""Counts the places in crates/*/src that docs/DESIGN-PASS.md speaks of, a row for each kind.

Use: tools/design_places.py [--list] [FOLDER]

FOLDER is a checkout, the current folder if none is named. With --list each place is printed under its row.
The kinds are found by the text of the source alone, so that a count can be made again at any commit.
"""
import collections
import pathlib
import re
import sys

CODES = r"NO_\w+|TOO_\w+|UNKNOWN"
FLAGS = r"present|constant|not_null|ended|limits|has_table|by_levels|refused"
CONVERSIONS = r"same\w*|comes_before|of_\w+|four|wide|narrow\w*|one_if|is_exception|lesser|greater|\w+_answer|refusal_numbers|told|print_\w+|other_\w+|with_(?!digit)\w+"


def code_of(text):
    """The source without comments and without the clauses of the functions."""
    text = re.sub(r"//[^\n]*", "", text)
    return re.sub(r"^\s*(requires|ensures)\b[^\n]*$", "", text, flags=re.M)


def block(text, start):
    """The text between the brace at or behind `start` and the one that closes it."""
    i = text.index("{", start)
    depth = 0
    for j in range(i, len(text)):
        depth += {"{": 1, "}": -1}.get(text[j], 0)
        if depth == 0:
            return text[i + 1 : j]
    return text[i + 1 :]


def functions(text):
    """Name, parameters and body of each function."""
    code = code_of(text)
    for m in re.finditer(r"\bfn (\w+)(?:<[^>{]*>)?\(([^)]*)\)", code):
        # A trait's function may have no body.
        if re.match(r"(?:[^{;\[]|\[[^\]]*\])*;", code[m.end():]):
            continue
        yield m[1], " ".join(m[2].split()).rstrip(","), block(code, m.end())


def parameters(params):
    return [p.strip() for p in re.split(r",\s*(?=\w+:)", params) if ":" in p]


def enums(text):
    code = code_of(text)
    for m in re.finditer(r"\benum (\w+)[^{]*(?=\{)", code):
        body = re.sub(r"\{[^}]*\}", "(..)", block(code, m.end()))
        yield m[1], re.findall(r"(\w+)\s*(\([^)]*\))?\s*,", body + ",")


def shape(body):
    """The body with every name and every literal replaced by one letter each."""
    tokens = re.findall(r"b?'(?:\\.|[^'])'|b?\"[^\"]*\"|\w+|\S", body)
    keep = {"if", "else", "match", "while", "for", "loop", "return", "let", "mut", "in", "break"}
    return tuple(t if t in keep or not re.match(r"[\w'\"]", t) else ("L" if re.match(r"\d|b?['\"]", t) else "I") for t in tokens)


def main(arguments):
    listed = "--list" in arguments
    folder = pathlib.Path(next((a for a in arguments if not a.startswith("--")), "."))
    rows = collections.OrderedDict()
    shapes = collections.defaultdict(list)
    facts = collections.defaultdict(set)
    groups = collections.defaultdict(set)

    def place(row, where, what=""):
        rows.setdefault(row, []).append(f"{where} {what}".strip())

    names = ["1 enums of the shape of Option or Result", "1 flags beside a value", "1 numbers for kinds and for none", "1 kinds by their letter",
             "2 functions of the same shape", "3 while loops by an index", "3 other loops that count by hand", "4 conversions, comparisons and prints by hand",
             "4 conditions spelled by branches", "5 facts required by three functions or more", "5 parameters that travel together",
             "6 a buffer with a length or a place beside it", "7 chains that choose a step"]
    for name in names:
        rows[name] = []
    for path in sorted(folder.glob("crates/*/src/*.rt")):
        text = path.read_text()
        crate = path.parts[-3]
        for name, variants in enums(text):
            filled = [v for v, payload in variants if payload]
            if (len(variants) == 2 and len(filled) == 1) or any(v == "Refused" for v in filled):
                place(names[0], crate, name)
        for m in re.finditer(rf"^\s+(?:pub )?({FLAGS}): (?:bool|u32|usize|&mut bool),?$|[(,] ({FLAGS}): (?:bool|u32|usize|&mut bool)", code_of(text), re.M):
            place(names[1], crate, m[1] or m[2])
        for m in re.finditer(rf"const ({CODES}):", text):
            place(names[2], crate, m[1])
        for name, params, body in functions(text):
            where = f"{crate}::{name}"
            letters = len(re.findall(r"(?:kind|before|letter) (?:==|<=) b'", body))
            if letters:
                place(names[3], where, f"({letters})")
            if letters >= 3 or len(re.findall(r"\bif starts_(?:with|ignoring_case)\(", body)) >= 3:
                place(names[12], where)
            tokens = shape(body)
            if len(tokens) >= 24:
                shapes[tokens].append(where)
            for m in re.finditer(r"\bwhile (?!let)([^{]*)\{", body):
                row = names[5] if re.search(r"\b(i|j|k|n|at|left|turns|done)\b", m[1]) else names[6]
                place(row, where, "while " + m[1].strip())
            for m in re.finditer(r"\bloop \{", body):
                place(names[6], where, "loop")
            if re.fullmatch(CONVERSIONS, name):
                place(names[7], where)
            branches = len(re.findall(r"\{\s*(?:true|false)\s*\}", body)) + len(re.findall(r"return (?:true|false);", body))
            if branches:
                place(names[8], where, f"({branches})")
            given = parameters(params)
            for a in range(len(given)):
                for b in range(a + 1, len(given)):
                    groups[(given[a], given[b])].add(where)
                if a + 1 < len(given) and re.search(r"\[[ui]\d+\]$", given[a]) and re.fullmatch(r"(\w+): usize", given[a + 1]):
                    place(names[11], where, f"{given[a]}, {given[a + 1]}")
        for m in re.finditer(r"\bfn (\w+)[^{;]*?((?:\n\s*(?:requires|ensures)\b[^\n]*)+)", text):
            for fact in re.findall(r"requires (?:\w+ )?\{ (.*) \}", m[2]):
                facts[fact].add(f"{crate}::{m[1]}")
    for wheres in shapes.values():
        if len(wheres) > 1:
            for where in wheres:
                place(names[4], where, "as " + next(w for w in wheres if w != where))
    for fact, wheres in facts.items():
        if len(wheres) >= 3:
            place(names[9], f"({len(wheres)})", fact)
    for pair, wheres in groups.items():
        if len(wheres) >= 3:
            place(names[10], f"({len(wheres)})", ", ".join(pair))
    for name, places in rows.items():
        print(f"{len(places):4d}  {name}")
        if listed:
            for p in sorted(places):
                print("        " + p)


main(sys.argv[1:])
