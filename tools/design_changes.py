#!/usr/bin/env python3
"""Lists what changed since a commit in the promises of the repository, old and new side by side.

Use: tools/design_changes.py COMMIT

Three kinds: public functions and types of crates/*/src with their clauses, definitions of crates/*/specs, and public laws of
crates/*/proofs (their statements). The rule RULE is applied to the old text first: what then reads the same is counted, not listed.
"""
import pathlib
import re
import subprocess
import sys

# Own types of the shape of Option or Result, by the word of the old text. The last word of a row is what stands in its place.
RULE = [(r"\b(?:LevelFound|Found)\.(?:At|TheVariants\.At)\b", "Some"), (r"\bFound::At\b", "Some"), (r"\bFound::Nothing\b", "None"),
        (r"\b(?:table|check|filled|search|rewritten)\.Refused\b", "Err"), (r"\bsearch\.NotFound\b", "Ok None"), (r"\bsearch\.Found (\w+)", r"Ok (Some \1)"),
        (r"\bfilled\.Count\b", "Ok"), (r"\btable\.Given\b", "Ok"), (r"\bcheck\.Passed\b", "Ok tt"), (r"\b(?:search_answer|filled_answer)\b", "if_passed"),
        (r"\bAt\b", "Some"), (r"\bNothing\b", "None"), (r"\bnone\b", "None"), (r"\bsome\b", "Some"), (r"\bPassed\b", "Ok tt"),
        (r"\bGiven\b", "Ok"), (r"\bDone\b", "Ok"), (r"\bRefused\b", "Err"), (r"\bIs\b", "Some"), (r"\bMissing\b", "None"),
        (r"\bFound\b", "Option ℕ"), (r"\bCheck\b", "Result ⊤ Refusal"), (r"\bSearch\b(?=[^.]|$)", "Result (Option ℕ) Refusal"), (r"\bFilled\b", "Result ℕ Refusal"),
        (r"\bRewritten\b", "Result Accepted Refusal"), (r"\bTable\b", "Result Actions Refusal"), (r"\bPass\b", "Result ℕ Refusal"),
        (r"\bLevelFound\b", "Option Level"), (r"\bGivenAction\b", "Option Action"), (r"\bTargetFound\b", "Option TargetPlaces"),
        (r"\bResult\b(?= :)", "CallResult")]
RUST = {"Option ℕ": "Option<usize>", "Result ⊤ Refusal": "Result<(), Refusal>", "Result (Option ℕ) Refusal": "Result<Option<usize>, Refusal>",
        "Result ℕ Refusal": "Result<usize, Refusal>", "Result Accepted Refusal": "Result<Accepted, Refusal>", "Result Actions Refusal": "Result<Actions, Refusal>",
        "Option Level": "Option<Level>", "Option Action": "Option<Action>", "Option TargetPlaces": "Option<TargetPlaces>"}


def by_rule(text, rust):
    for old, new in RULE:
        text = re.sub(old, RUST.get(new, new) if rust else new, text)
    return text


def plain(text):
    """For a comparison: no spaces, no brackets around a word or a type, none at a line's end."""
    return re.sub(r"[\s(),]|\bsize_in_bounds_\d\b", "", text)


def files(commit, part, suffix):
    if commit is None:
        for p in sorted(pathlib.Path(".").glob(f"crates/*/{part}/**/*{suffix}")):
            yield str(p), p.read_text()
        return
    names = subprocess.run(["git", "ls-tree", "-r", "--name-only", commit], capture_output=True, text=True, check=True).stdout.split()
    for name in names:
        if re.match(rf"crates/[^/]+/{part}/.*{re.escape(suffix)}$", name):
            yield name, subprocess.run(["git", "show", f"{commit}:{name}"], capture_output=True, text=True, check=True).stdout


def public_items(commit):
    """The head of each public function with its clauses, and each public type."""
    items = {}
    for name, text in files(commit, "src", ".rt"):
        crate = name.split("/")[1]
        text = re.sub(r"^\s*(//|#\[).*\n", "", text, flags=re.M)
        owner = ""
        for m in re.finditer(r"^impl[^{]*?(\w+)(?:<[^{]*>)? \{|^( *)pub (?:const |extern \"C\" )?fn (\w+).*?(?=^\2\{|;$| \{$)|^pub (struct|enum|type|const|trait) (\w+).*?(?:^\}|;)$", text, re.M | re.S):
            if m[1]:
                owner = m[1] + "::"
            elif m[3]:
                items[f"{crate}::{owner if m[2] else ''}{m[3]}"] = m[0].strip()
            else:
                items[f"{crate}::{m[5]}"] = m[0].strip()
        # What an impl says of its type: a model, an invariant, what a conversion gives.
        for m in re.finditer(r"^impl(?:<[^{]*?>)? ([^{]*? for [^{]*?) \{\n(.*?)^\}", text, re.M | re.S):
            ghosts = re.findall(r"^    ghost (?!use).*?;$", m[2], re.M | re.S)
            if ghosts:
                items[f"{crate}::{m[1]}"] = f"impl {m[1]}\n" + "\n".join(ghosts)
    return items


HEAD = re.compile(r"^(\s*)(?:abbrev |unfoldable )*pub (?:record |data |ruleset )?(\S+?)(?=[ :]| \(| \{)")


def declarations(commit, part, whole):
    """Each declared name with its statements, each with the parameters of the modules around it, and with its equations where `whole`."""
    items = {}
    for name, text in files(commit, part, ".antt"):
        crate, file = name.split("/")[1], pathlib.Path(name).stem
        if part == "proofs" and len(name.split("/")) > 4:
            continue
        lines = [x for x in text.split("\n") if x.strip() and not re.match(r"\s*(--|use |mod |pub use |pub mod )", x)]
        around = []
        at = 0
        while at < len(lines):
            line = lines[at]
            indent = len(line) - len(line.lstrip())
            around = [a for a in around if a[0] < indent]
            module = re.match(r"\s*module _ (.*)", line)
            if module:
                parameters = module[1]
                while not parameters.rstrip().endswith("where"):
                    at += 1
                    parameters += " " + lines[at].strip()
                around.append((indent, parameters.rstrip()[: -len("where")].strip()))
                at += 1
                continue
            m = HEAD.match(line)
            at += 1
            if not m:
                continue
            chunk = [line.strip()]
            end = at
            while end < len(lines):
                below = lines[end]
                depth = len(below) - len(below.lstrip())
                own = re.match(rf"\s*(?:unfolding\b|{re.escape(m[2])}(?=\s|$))", below) and depth == indent
                if depth <= indent and not own or own and not whole or HEAD.match(below) and not whole:
                    break
                chunk.append(below)
                end += 1
            context = " ".join(a[1] for a in around)
            items.setdefault(f"{crate}/{file}.{m[2]}", []).append((f"{context} ⊢ " if context else "") + "\n".join(chunk))
    return items


def served(commit, gone):
    """For each law that went: the functions of `commit` under whose proofs it stood, by the answers and laws that cite it."""
    cites, roots = {}, {}
    for name, text in files(commit, "proofs", ".antt"):
        crate, parts = name.split("/")[1], name.split("/")
        imported = {}
        for m in re.finditer(r"^use Rattle\.(\w+)\.proofs\.(\w+)\.\{([^}]*)\}", text, re.M):
            for word in m[3].split(","):
                word, _, other = word.strip().partition(" as ")
                imported[other or word] = f"{m[1]}/{m[2]}.{word}"
        if len(parts) > 4:
            function = f"{crate}::" + "::".join(parts[3:-1])
            for word in re.findall(r"[\w'-]+", re.sub(r"^use .*", "", text, flags=re.M)):
                if word in imported:
                    roots.setdefault(imported[word], set()).add(function)
            continue
        file = pathlib.Path(name).stem
        chunks = re.split(r"\n(?=\s*(?:abbrev |unfoldable )*(?:pub )?(?:record |ruleset )?[\w'-]+ (?::|=) )", re.sub(r"^use .*", "", text, flags=re.M))
        own = {}
        for chunk in chunks:
            m = re.match(r"\s*(?:abbrev |unfoldable )*(?:pub )?(?:record |ruleset )?([\w'-]+) (?::|=) ", chunk)
            if m:
                own.setdefault(m[1], []).append(chunk)
        for word, texts in own.items():
            for used in set(re.findall(r"[\w'-]+", " ".join(texts))):
                to = imported.get(used) or (f"{crate}/{file}.{used}" if used in own and used != word else None)
                if to:
                    cites.setdefault(to, set()).add(f"{crate}/{file}.{word}")
    for name, text in files(commit, "src", ".rt"):
        crate = name.split("/")[1]
        for m in re.finditer(r"#\[tactic\(auto, ([^\n]*)\)\]\s*(?:pub )?(?:extern \"C\" )?fn (\w+)", text):
            for law in re.findall(r"(\w+)::proofs::(\w+)::(\w+)", m[1]):
                roots.setdefault(f"{crate if law[0] == 'crate' else law[0]}/{law[1]}.{law[2]}", set()).add(f"{crate}::{m[2]}")
    result = {}
    for law in gone:
        seen, todo, functions = {law}, [law], set()
        while todo:
            at = todo.pop()
            functions |= roots.get(at, set())
            for up in cites.get(at, ()):
                if up not in seen:
                    seen.add(up)
                    todo.append(up)
        result[law] = functions
    return result


def functions(commit):
    """Each function of src with a contract, by crate, and the names that its body calls."""
    items = {}
    for name, text in files(commit, "src", ".rt"):
        crate = name.split("/")[1]
        text = re.sub(r"^\s*(//|#\[).*\n", "", text, flags=re.M)
        for m in re.finditer(r"^( *)(?:pub (?:\w+ )?(?:extern \"C\" )?)?fn (\w+).*?^\1\}", text, re.M | re.S):
            body = m[0][m[0].index("{\n") if "{\n" in m[0] else 0 :]
            items.setdefault(f"{crate}::{m[2]}", [False, set()])
            items[f"{crate}::{m[2]}"][0] |= " ensures" in m[0]
            items[f"{crate}::{m[2]}"][1] |= set(re.findall(r"\b(\w+)\(", m[0].split("\n", 1)[1] if "\n" in m[0] else ""))
    return items


def stood(commit):
    """Each private function of `commit` that is gone, with the functions of today that called it, by the callers between."""
    old, new = functions(commit), functions(None)
    public = {n for n in public_items(commit)}
    today = {n.split("::")[1] for n in new}
    result = {}
    for name in sorted(old):
        crate, short = name.split("::")
        if name in new or name in public or not old[name][0]:
            continue
        seen, todo, found = {short}, [short], set()
        while todo:
            at = todo.pop()
            for caller, (_, calls) in old.items():
                if at in calls and caller.split("::")[0] == crate and caller.split("::")[1] not in seen:
                    up = caller.split("::")[1]
                    seen.add(up)
                    if caller in new:
                        found.add(up)
                    else:
                        todo.append(up)
        result.setdefault(crate, {}).setdefault(tuple(sorted(found)), []).append(short)
    return result


def one(text):
    return "\n\n".join(text) if isinstance(text, list) else text


def show(title, old, new, rust, under=None):
    same, changed, gone, added = 0, [], {}, {}
    for name in sorted(set(old) | set(new)):
        a, b = old.get(name), new.get(name)
        crate = re.split("[/:]", name)[0]
        if a is None:
            added.setdefault(crate, []).append(name)
        elif b is None:
            gone.setdefault(crate, []).append(name)
        else:
            before = a if isinstance(a, list) else [a]
            after = b if isinstance(b, list) else [b]
            known = [plain(x) for x in after]
            left = []
            for x in before:
                y = plain(by_rule(x, rust))
                y = y if y in known else plain(x)
                if y in known:
                    same += 1
                    known.remove(y)
                else:
                    left.append(x)
            if left or known:
                rest = [x for x in after if plain(x) in known]
                changed.append(f"\n`{name}`\n\n```text\nold: {one(left)}\nnew: {one(rest)}\n```")
    print(f"\n### {title}\n\n{same} read the same, as they stand or by the rule; of these names others do not, {len(changed)}:")
    print("\n".join(changed))
    for what, names in (("Gone", gone), ("New", added)):
        print(f"\n{what}, {sum(map(len, names.values()))}:\n")
        for crate, list_of in names.items():
            if what == "Gone" and under:
                by = under([n for n in list_of])
                groups = {}
                for n in list_of:
                    groups.setdefault(tuple(sorted(by[n])), []).append(n)
                for functions_of, group in sorted(groups.items()):
                    short = ", ".join(f"`{re.sub(f'^{crate}/', '', n)}`" for n in group)
                    where = ", ".join(f"`{re.sub(f'^{crate}::', '', f)}`" for f in functions_of) or "nothing"
                    print(f"- {crate}, under {where}: {short}")
                continue
            short = ", ".join(f"`{re.sub(f'^{crate}(/|::)', '', n)}`" for n in list_of)
            print(f"- {crate}: {short}")


def main(commit):
    show("Public functions and types", public_items(commit), public_items(None), True)
    print("\nPrivate functions with a contract that are gone, by the functions of today that called them, whose contracts stand and are proved without them:\n")
    for crate, groups in stood(commit).items():
        for callers, names in sorted(groups.items()):
            where = ", ".join(f"`{c}`" for c in callers) or "callers that are gone too"
            print(f"- {crate}, in {where}: " + ", ".join(f"`{n}`" for n in names))
    show("Definitions", declarations(commit, "specs", True), declarations(None, "specs", True), False)
    laws = declarations(commit, "proofs", False)
    show("Laws", laws, declarations(None, "proofs", False), False, lambda gone: served(commit, gone))


if len(sys.argv) != 2:
    raise SystemExit(__doc__)
main(sys.argv[1])
