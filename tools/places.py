#!/usr/bin/env python3
"""Lists places in crates/*/src that today's forms of the language could say better, by point.

Usage: python3 tools/places.py [POINT..]   (with no point, the counts; with points, each place of them)

It goes by text and knows no meaning: a row is a place to look at. docs/DESIGN-PASS.md says what became of each.
"""
import collections
import glob
import re
import sys

FILES = sorted(glob.glob("crates/*/src/**/*.rt", recursive=True))
TEXT = {f: open(f).read() for f in FILES}
SIGNATURE = re.compile(r"^[ ]*(?:pub(?:\(crate\))? )?(?:final )?(?:extern \"C\" )?fn (\w+)", re.M)


def line_of(text, at):
    return text.count("\n", 0, at) + 1


def functions():
    """File, line, name, signature, clauses and body of each function."""
    for f in FILES:
        text = TEXT[f]
        starts = [m for m in SIGNATURE.finditer(text)]
        for k, m in enumerate(starts):
            end = starts[k + 1].start() if k + 1 < len(starts) else len(text)
            whole = text[m.start():end]
            head = re.split(r"\n\s*(?:requires|ensures)\b|\n?\s*\{\n|;\n", whole, maxsplit=1)[0]
            clauses = re.findall(r"(?:requires|ensures)(?: \w+)? (\{.*?\})(?=\n|;)", whole)
            yield f, line_of(text, m.start()), m.group(1), re.sub(r"\s+", " ", head), clauses, whole


def found(pattern, only=None):
    rows = []
    for f in FILES:
        if only and not re.search(only, f):
            continue
        for m in re.finditer(pattern, TEXT[f], re.M):
            shown = " ".join(m.group(0).split())
            rows.append((f, line_of(TEXT[f], m.start()), shown[:90]))
    return rows


def signatures(test):
    return [(f, n, sig.strip()[:110]) for f, n, name, sig, clauses, whole in functions() if test(sig, whole)]


def point1():
    yield "a flag with a value beside it", signatures(
        lambda s, w: re.search(r"-> (io::Result<)?bool", s) and re.search(r"&mut (?!self, other)", s)
        and not s.startswith("fn eq"))
    yield "a value beside a result", signatures(lambda s, w: re.search(r"&mut Record\b.*-> Result<", s))
    yield "an Option of an error", found(r"-> Option<(Unfit|Refusal|Ground)>")
    yield "a number that stands for none", found(r"^const NO_\w+.*|\bNO_VALUE(?=;)|return 100;|the number of rows in use\.?$")
    yield "numbers for refusals", signatures(
        lambda s, w: re.search(r"-> (u32|\(u8, u8(, u8)?\))$", s.strip()) and re.search(r"\b[1-9]\b|number", w)
        and re.search(r"soundness|check_character|ean|refusal|registration|rest|dated|\bcode\b|\bread\b", s))
    yield "a refusal written out", found(r"(Err\(|-> )?Refusal \{\s*ground\b")
    yield "a result taken apart to be put together", found(
        r"Err\((\w+)\) => (return )?Err\((\w+|Refusal[^)]*\))|Ok\((\w+)\) => Ok\(\4\)|Ok\(\w+\) => Ok\(\(?\*?\w*\)?\)")


def point2():
    alike = collections.defaultdict(list)
    for f, n, name, sig, clauses, whole in functions():
        if "/tests" in f:
            continue
        body = re.sub(r"//.*", "", whole)
        body = re.sub(r"\b(requires|ensures)\b.*", "", body)
        shape = re.sub(r"\s+", " ", re.sub(r"b?\"[^\"]*\"|b?'[^']*'|\b\d+\w*\b", "1", body))
        shape = re.sub(r"\b[A-Za-z_]\w*\b", lambda m: m.group(0) if m.group(0) in KEEP else "x", shape)
        shape = re.sub(r"^.*?\bfn\b", "fn", shape)
        shape = re.sub(r"impl.*|pub struct.*|// .*", "", re.sub(r",? ([)}])", r"\1", shape)).strip()
        if len(shape) > 45:
            alike[shape].append((f, n, name))
    for group in alike.values():
        if len(group) > 1:
            yield "functions of one shape", [(f, n, name) for f, n, name in group]


KEEP = set("fn let mut if else match for in while loop return self Self pub impl for as Ok Err Some None".split())


def point3():
    yield "while and loop", found(r"^\s*(while .*|loop) \{")
    yield "a for over numbers that index", found(
        r"for (\w+) in 0\.\.[^\n]* \{\n(?:(?!\n    \}\n)[^\x00])*?(\[\1\]|read_at\(\1|, \1, |, \1\))")
    yield "a for without an end", found(r"for \w+ in [01]\.\.=?u64::MAX.*")
    yield "enumerate, to index or for nothing", found(
        r"for \((\w+), \w+\) in [^\n]*enumerate\(\) \{\n(\s*\w+\[\1\]|(?:(?!\b\1\b|\n\s*\}\n)[^\x00])*\n\s*\}\n)")
    yield "a count by hand", found(r".*(\+= 1;|-= 1;|= \w+\.saturating_add\(1\)|saturating_add\(1\);).*")
    yield "a for that only looks for one or for all", found(
        r"for [^\n]* \{\n(?:[^\n]*\n)?\s*if [^\n]*\{\n\s*return [^\n]*\n\s*\}\n\s*\}")


def point4():
    yield "equality and order", found(r"fn (is_same|is_before|is_of_type|key)\b.*")
    yield "conversions", found(r"(pub(\(crate\))? )?fn (number|letter|of|from_\w+|read|read_number|text|parts)\(.*")
    yield "printing", found(r"fn (words|status_text|put_number|\w+_text)\(.*")


def point5():
    clauses = collections.defaultdict(set)
    names = collections.defaultdict(set)
    for f, n, name, sig, cs, whole in functions():
        for c in cs:
            for fact in re.split(r" × ", c.strip("{} ")):
                fact = re.sub(r"\bself\.(now|old)\b|\b(\w+)\.(now|old)\b", "X", fact.strip("() "))
                fact = re.sub(r"\b\d+\b|length X|length \(.*\)", "N", fact)
                if not fact.startswith("result ≡") and len(fact) > 8 and "result" not in fact and ".new" not in fact:
                    clauses[fact].add((f, n, name))
        params = re.findall(r"\b([a-z]\w*): &?(?:'a )?(?:mut )?[\[\w<>\]]+", sig.split("->")[0])
        for i, a in enumerate(params if "vectors/" not in f else []):
            for b in params[i + 1:]:
                names[(a, b)].add((f, n, name))
    for fact, where in sorted(clauses.items()):
        if len(where) >= 3:
            yield "a fact in three or more contracts: " + fact, sorted(where)
    for pair, where in sorted(names.items()):
        if len(where) >= 4:
            yield "parameters together: " + ", ".join(pair), sorted(where)


def point6():
    yield "a length beside a buffer", found(r"^\s*(used|len|from|to): (usize|u8),$")
    yield "a number of rows beside rows", signatures(lambda s, w: re.search(r"rows: &.*used: usize|piece: &.*from: usize", s))
    yield "a sorted list searched by hand", found(r"low \+ \(high - low\) / 2")


def point7():
    yield "an enum of tests or steps", found(r"enum (Class|Action|Step)\b.*")
    yield "a switch on it", found(r"match (self|\(held, action\)) \{\n\s*(Class|\(None, Action)::.*")
    yield "a value of it passed on", found(r"\w+\([^\n=(]*\b(Class|Action)::\w+, .*\).*")


def point8():
    answers = glob.glob("crates/*/proofs/**/Answers.antt", recursive=True)
    shared = [f for f in glob.glob("crates/*/proofs/**/*.antt", recursive=True)
              if not re.search(r"/(Answers|Invariants|Lib)\.antt$", f)]
    goals = sum(len(re.findall(r"^pub [\w-]+ : goal\.", open(f).read(), re.M)) for f in answers)
    lemmas = sum(len(re.findall(r"^(?:pub |abbrev |unfoldable )*[\w-]+ : ", open(f).read(), re.M)) for f in shared)
    lines = sum(len(open(f).read().splitlines()) for f in answers + shared
                + glob.glob("crates/*/proofs/**/Invariants.antt", recursive=True))
    yield f"{len(answers)} files with {goals} answers, {len(shared)} files with {lemmas} lemmas, {lines} lines of proofs", []


POINTS = {"1": point1, "2": point2, "3": point3, "4": point4, "5": point5, "6": point6, "7": point7, "8": point8}


def function_at(f, n):
    """The name of the function that a line lies in, or the line itself outside functions."""
    last = str(n)
    for g, start, name, *_ in ALL:
        if g == f and start <= n:
            last = f"{name}:{start}"
    return f, last


ALL = list(functions())


def main(wanted):
    for number in wanted or POINTS:
        groups = [(title, rows) for title, rows in POINTS[number]() if rows or number == "8"]
        places = {function_at(f, n) for _, rows in groups for f, n, _ in rows}
        print(f"point {number}: {sum(len(rows) for _, rows in groups)} rows, in {len(places)} functions or types")
        for title, rows in groups:
            print(f"  {title}" + (f": {len(rows)}" if rows else ""))
            if wanted:
                for f, n, shown in rows:
                    print(f"    {f.removeprefix('crates/')}:{n}: {shown}")


main(sys.argv[1:])
