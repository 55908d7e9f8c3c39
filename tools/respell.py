#!/usr/bin/env python3
"""Brings the repository's own definitions and lemmas to snake case.

usage: python3 tools/respell.py [--dry]      at the top of the repository, once, after the toolchain's port.py

Renamed are names that specs/ and proofs/ define: camelCase functions and constructors (isBlank becomes is_blank), and
lemmas whose words a dash joins (key-precedes becomes key_precedes). Types and facts keep their capitals. Names of src/,
names that the checker makes (the answers to its goals), strings and comments about the program keep their spelling. It
stops, and writes nothing, where two names would fall together.
"""
import os
import re
import sys

FIELD = re.compile(r"^  pub ([^\s(){}:.]+) : ", re.M)
DEFINED = re.compile(r"^\s*(?:(?:abbrev|unfoldable|pub) )*([^\s(){}:.]+) : (.*)$")
GOAL = re.compile(r"^(goal|need|rules|goals)\.")
TOKEN = re.compile(r"\"(?:[^\"\\\n]|\\.)*\"|--[^\n]*|//[^\n]*|[^\s(){}\[\];,.|\"λ∷]+|.", re.S)
IMPORT = re.compile(r"^\s*(?:ghost )?(?:pub )?use ([^\s{]+)\.\{([^}]*)\}", re.M)


# a lemma that would have its function's name
APART = {"lawful-at": "lawful_at_lem", "order-in": "order_in_lem"}
# and where port.py had already written one so
APART_IN = {("crates/fields/proofs/Days.antt", "is_digit"): "is_digit_lem"}


def snake(name):
    if name in APART:
        return APART[name]
    name = name.replace("-", "_").replace("′", "'")
    name = re.sub(r"([a-z0-9'])([A-Z])", lambda m: m.group(1) + "_" + m.group(2).lower(), name)
    return name


def sources():
    for root, dirs, files in os.walk("crates"):
        dirs[:] = sorted(d for d in dirs if d not in ("out", "must-fail"))
        for f in sorted(files):
            if f.endswith((".rt", ".antt")):
                yield os.path.join(root, f)


def defined(text):
    """The names that a file of specs/ or proofs/ defines, but for answers to goals."""
    names = set()
    for line in text.splitlines():
        m = DEFINED.match(line)
        if m and not line.lstrip().startswith(("--", "let ", "ghost", "in ")) and not GOAL.match(m.group(2)):
            names.add(m.group(1))
    return names


def imports(text):
    """Each imported name (as it is called here), with the module it comes from."""
    found = {}
    for m in IMPORT.finditer(text):
        for item in m.group(2).split(","):
            item = item.strip()
            if item:
                found[item.split(" as ")[-1].strip()] = (m.group(1), item.split(" as ")[0].strip())
    return found


def main():
    dry = "--dry" in sys.argv
    texts = {p: open(p, encoding="utf-8").read() for p in sources()}
    own = {d for d in os.listdir("crates") if os.path.isdir(os.path.join("crates", d))}
    by_file = {p: defined(t) for p, t in texts.items() if p.endswith(".antt")}

    def renamed(name):
        return name[0].islower() and snake(name) != name

    fields = {n for p, t in texts.items() if "/specs/" in p for n in FIELD.findall(t) if renamed(n)}
    troubles, out, pairs = [], {}, {}
    for (p, name), apart in APART_IN.items():
        texts[p] = re.sub(rf"(?<![\w.'-]){name}(?![\w'-])", apart, texts[p])
    for p, text in texts.items():
        here = {n for n in by_file.get(p, ()) if renamed(n)}
        for name, (module, item) in imports(text).items():
            part = module.split(".")
            if part[0] == "Rattle" and len(part) > 1 and part[1] in own and "declared" not in part and renamed(name):
                here.add(name)
        tokens = TOKEN.findall(text)
        # a part of a path stands for a module or a field, and hides nothing; nor does a function of src/
        plain = {t for i, t in enumerate(tokens) if t not in here and (i == 0 or tokens[i - 1] != ".")}
        if p.endswith(".rt"):
            plain = set(re.findall(r"\b(\w+)\s*:(?!:)|\bghost (?!use)(\w+)|\b(?:let|mut) (\w+)", text))
            plain = {name for found in plain for name in found} | set(imports(text)) - here
        for n in sorted(here):
            pairs[n] = snake(n)
            if snake(n) in plain:
                troubles.append(f"{p}: {n} would fall together with {snake(n)}")
        for a in here:
            for b in here:
                if a < b and snake(a) == snake(b):
                    troubles.append(f"{p}: {a} and {b} would fall together")
        made = []
        for i, t in enumerate(tokens):
            after_dot = i > 0 and tokens[i - 1] == "."
            of_record = after_dot or "".join(tokens[i + 1:i + 3]) == " ="
            made.append(snake(t) if (t in here and not after_dot) or (t in fields and of_record) else t)
        out[p] = "".join(made)
    for p, names in by_file.items():
        for a in names:
            for b in names:
                if a < b and snake(a) == snake(b):
                    troubles.append(f"{p}: {a} and {b} would fall together")
    for t in sorted(set(troubles)):
        print(t)
    if troubles:
        raise SystemExit(1)
    for a, b in sorted(pairs.items()):
        print(f"{a} -> {b}")
    if not dry:
        for p, text in out.items():
            if text != open(p, encoding="utf-8").read():
                open(p, "w", encoding="utf-8").write(text)


main()
