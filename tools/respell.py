#!/usr/bin/env python3
"""Brings the repository's own names to the spelling of today's Rattle: types and modules in upper camel case, all else in snake case.

usage: tools/respell.py    at the top of the repository, once, after the kit's port.py

It reads the names that the files of specs/ and the lemma files of proofs/ declare, and writes each anew wherever it stands as a whole word: in .antt files, in the ghost
lines and clauses of .rt files, in the old: and new: lines of must-fail edits, and between backticks in the pages. Names of src/ (functions, fields, structs) keep
their spelling; so do the names that the check itself makes. Where two names would fall together, TOGETHER has another name for one of them.
"""
import collections
import os
import re
import sys

# Names that stood beside one that is spelled alike but for case and dashes, such as a definition `isFar` and a law `is-far`: the law gets a word more.
LAW = "_law"
# Names whose dashes the kit's script had turned already and that would fall together with another: each with its new one.
TURNED = {"in_window": "stays_in_window", "is_open": "is_open" + LAW}

WORD = r"[A-Za-z0-9_\u2080-\u2089'\u03b1-\u03c9\u2115\u2124∀-⋿*+/%&|^<>=!-]"
DECLARED = re.compile(r"^\s*(?:abbrev |unfoldable |pub )*([^\s(){}:.,;←\[\]]+)(?: (?:\{[^}]*\}|\([^)]*\)))* :(?: |$)")
BLOCK = re.compile(r"^\s*(?:pub )?(?:data|record|ruleset) ([^\s(){}:.,;]+)")


def files(ends):
    for top in ("crates",):
        for folder, dirs, names in os.walk(top):
            dirs[:] = sorted(d for d in dirs if d != "out")
            for name in sorted(names):
                if name.endswith(ends):
                    yield os.path.join(folder, name)


def of_goals(path):
    """A file on the goals of one function: proofs/F/Proof.antt and the like."""
    parts = path.split(os.sep)
    return parts[2] == "proofs" and len(parts) > 4


def snake(name):
    if name[0].isupper():
        head, dash, tail = name.partition("-")
        return head + (dash + snake(tail) if dash else "")
    name = re.sub(r"(?<=[a-z0-9])([A-Z])", lambda m: "_" + m.group(1).lower(), name)
    return name.replace("-", "_")


def declared():
    found = collections.OrderedDict()
    for path in files(".antt"):
        if of_goals(path):
            continue
        with open(path, encoding="utf-8") as f:
            for line in f:
                m = DECLARED.match(line) or BLOCK.match(line)
                if m and re.fullmatch(r"[A-Za-z][A-Za-z0-9_'-]*", m.group(1)):
                    found.setdefault(m.group(1), path)
    return found


# Names that the kit's script turned in the definitions, and not in the edits.
KIT = {"sideOf": "side_of", "isNumber": "is_number", "numberAt": "number_at", "timesFrom": "times_from", "subℕ": "sub_ℕ"}


def edit(text, put):
    """The old: and new: lines of a must-fail edit: names as in the file that it changes, and projections written tight."""
    of_code = False
    lines = []
    for line in text.split("\n"):
        if line.startswith("file: "):
            of_code = line.startswith("file: src/")
        if re.match(r"(old|new): ", line) and not (of_code and not re.search(r"≡|ghost|⌜", line)):
            line = put(re.sub("|".join(KIT), lambda m: KIT[m.group()], line))
            line = re.sub(r"\(([\w']+) \.(\w+)\)", r"\1.\2", line)
            line = re.sub(r"(?<=[ (])([\w']+) \.(?=\w)", r"\1.", line)
        lines.append(line)
    return "\n".join(lines)


def main():
    names = declared()
    new = {}
    for name in names:
        to = snake(name)
        if to != name:
            new[name] = to
    kept = {n for n in names if n not in new and n not in TURNED}
    by_new = collections.defaultdict(list)
    for name, to in new.items():
        by_new[to].append(name)
    for to, old in list(by_new.items()):
        for name in old:
            if "-" in name and (len(old) > 1 or to in kept):
                new[name] = to + LAW
    by_new = collections.defaultdict(list)
    for name, to in new.items():
        by_new[to].append(name)
    clash = [(to, old, to in kept) for to, old in by_new.items() if len(old) > 1 or to in kept]
    if clash:
        for to, old, stands in clash:
            print(f"falls together: {' '.join(old)} -> {to}{' (which stands already)' if stands else ''}; {[names[o] for o in old]} {names.get(to)}", file=sys.stderr)
        return 1
    word = re.compile(r"(?<![A-Za-z0-9_'-])(" + "|".join(sorted(map(re.escape, new), key=len, reverse=True)) + r")(?![A-Za-z0-9_'-])")
    put = lambda text: word.sub(lambda m: new[m.group(1)], text)

    def write(path, turn):
        with open(path, encoding="utf-8") as f:
            old = f.read()
        text = turn(old)
        if text != old:
            with open(path, "w", encoding="utf-8") as f:
                f.write(text)

    def code(text):
        # the ghost lines and the clauses of a source file
        out, inside = [], False
        for line in text.split("\n"):
            bare = line.strip()
            if bare.startswith("ghost ") or re.match(r"(requires|ensures)\b", bare) or inside:
                inside = inside or not bare.startswith("ghost ")
                if bare == "{":
                    inside = False
                else:
                    line = put(line)
            elif bare.startswith("//"):
                line = re.sub(r"`[^`]*`", lambda m: put(m.group()), line)
            out.append(line)
        return "\n".join(out)

    for name, to in TURNED.items():
        for path in files(".antt"):
            write(path, lambda text: re.sub(rf"(?<![A-Za-z0-9_'-]){name}(?![A-Za-z0-9_'-])", to, text))
    for path in files(".antt"):
        write(path, put)
    for path in files(".rt"):
        write(path, code)
    for path in files(".edit"):
        write(path, lambda text: edit(text, put))
    pages = ["README.md"] + [os.path.join("docs", p) for p in sorted(os.listdir("docs")) if p.endswith((".md", ".txt")) and not p.startswith("PORT")]
    for path in pages:
        if path.endswith(".txt"):
            write(path, put)
        else:
            write(path, lambda text: re.sub(r"`[^`\n]*`", lambda m: put(m.group()), text))
    print(f"respell: {len(new)} names of {len(names)}")
    return 0


if __name__ == "__main__":
    raise SystemExit(main())
