#!/usr/bin/env python3
"""Counts the places in crates/*/src that are written in an older form, point by point (docs/DESIGN-PASS.md says what the points are).

usage: tools/forms.py [COMMIT]    of a commit, or of the files as they lie here; it prints each place, and a count for each point

It goes by text: what it prints is looked at by a reader, who may find that a place is none.
"""
import re
import subprocess
import sys


def sources(commit):
    """Each file of crates/*/src by its path."""
    if commit:
        names = subprocess.run(["git", "ls-tree", "-r", "--name-only", commit, "crates"], capture_output=True, text=True, check=True).stdout.split()
        read = lambda name: subprocess.run(["git", "show", f"{commit}:{name}"], capture_output=True, text=True, check=True).stdout
    else:
        names = subprocess.run(["git", "ls-files", "crates"], capture_output=True, text=True, check=True).stdout.split()
        read = lambda name: open(name, encoding="utf-8").read()
    return {name: read(name) for name in sorted(names) if re.match(r"crates/\w+/src/.*\.rt$", name)}


def lines_like(files, pattern, but=None):
    found = []
    for name, text in files.items():
        for number, line in enumerate(text.split("\n"), 1):
            code = line.split("//")[0]
            if re.search(pattern, code) and not (but and re.search(but, code)):
                found.append(f"{name[7:]}:{number}: {line.strip()}")
    return found


HEAD = re.compile(r'^( *)(?:pub(?:\([a-z]+\))? )?(?:const )?(?:unsafe )?(?:extern "C" )?fn (\w+)', re.M)


def functions(files):
    """Each function: its file and line, name, parameters and body."""
    for name, text in files.items():
        for head in HEAD.finditer(text):
            at = text.find("(", head.end())
            depth, end = 0, at
            while True:
                depth += {"(": 1, ")": -1}.get(text[end], 0)
                end += 1
                if depth == 0:
                    break
            params = [p.strip() for p in re.split(r",(?![^<\[(]*[>\])])", text[at + 1:end - 1]) if p.strip()]
            close = text.find("\n" + head.group(1) + "}", end)
            opened = text.find("\n" + head.group(1) + "{\n", end)
            if opened < 0 or opened > close:
                opened = text.find("{\n", end)
            body = text[opened:close]
            yield f"{name[7:]}:{text.count(chr(10), 0, head.start()) + 1}", head.group(2), params, body


def twins(files):
    """Functions that are alike but for types, sizes, constants and names of their own."""
    groups = {}
    for place, name, params, body in functions(files):
        shape = " ".join(params) + "=>" + body
        shape = re.sub(r"//.*", "", shape)
        for i, p in enumerate(params):
            own = p.split(":")[0].replace("mut ", "").strip()
            if own and own not in ("self", "&self", "&mut self"):
                shape = re.sub(rf"\b{re.escape(own)}\b", f"p{i}", shape)
        shape = re.sub(r"\b(u8|u16|u32|u64|usize)\b", "T", shape)
        shape = re.sub(r"\b0x[0-9a-fA-F_]+\b|\b[0-9][0-9_]*\b", "N", shape)
        shape = re.sub(rf"\b{name}\b", "F", shape)
        shape = re.sub(r"\b[a-z]\w*::\w+\(", "call(", shape)
        shape = re.sub(r"\b[A-Z]\w*\b", "X", shape)
        shape = re.sub(r"(?<![.\w])[a-z_]\w+\(", "call(", shape)
        shape = re.sub(r"\s+", " ", shape)
        if len(body.strip()) > 30:
            groups.setdefault(shape, []).append(f"{place}: fn {name}")
    return [" ~ ".join(g) for g in groups.values() if len(g) > 1]


def travelling(files):
    """Runs of three parameters or more that three functions or more have in common, longest first."""
    where = {}
    for place, name, params, _ in functions(files):
        plain = [re.sub(r"\s+", " ", p).replace("&mut ", "&").replace("mut ", "") for p in params]
        for i in range(len(plain)):
            for j in range(i + 3, len(plain) + 1):
                where.setdefault(tuple(plain[i:j]), set()).add(f"{place}: fn {name}")
    runs = {r: f for r, f in where.items() if len(f) >= 3}
    kept = [(r, f) for r, f in runs.items() if not any(set(f) == set(g) and len(q) > len(r) and any(q[k:k + len(r)] == r for k in range(len(q))) for q, g in runs.items())]
    kept.sort(key=lambda p: (-len(p[0]), p[0]))
    return [f"{len(f)} functions: {', '.join(r)}" for r, f in kept]


POINTS = [
    ("1. numbers and flags in place of Option, Result and enums", lambda f:
        lines_like(f, r"^\s*(pub(\([a-z]+\))? )?enum \w+") + lines_like(f, r"^\s*(pub )?(number|kind|timer|failed): (u8|bool),$")
        + lines_like(f, r"return \d+;|\b(Refused|refused|refuses)\(\d+\)|const \w+: u8 = \d+;|^\s*\) -> u8$|\) -> u8$|(number|refusal|n) != \d+ \{")),
    ("2. twins", twins),
    ("3. loops", lambda f: lines_like(f, r"^\s*(let \w+ = )?(while|loop|for)\b.*\{$|= loop \{", r"\bimpl\b")),
    ("4. conversions, equality and printing by hand", lambda f:
        lines_like(f, r"\bfn (\w+_(of|for)|number|wanted|handle|digit|spell|decimal|hexadecimal|octets|one|two|four|six|eight|pair|address|piece|past|entry|field|fields|word)\b")),
    ("5. parameters that travel together", travelling),
    ("6. fixed buffers", lambda f: lines_like(f, r"\[\w*; [A-Z_0-9]{2,}\]|\[0\w*; \w+\]")),
    ("7. switches", lambda f: lines_like(f, r"\bmatch .*\{$")),
]

if __name__ == "__main__":
    every = sources(sys.argv[1] if len(sys.argv) > 1 else None)
    for title, find in POINTS:
        places = find(every)
        print(f"{title}: {len(places)}")
        for place in places:
            print("   ", place)
