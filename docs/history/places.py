#!/usr/bin/env python3
"""Counts the places in crates/*/src (point 8: crates/*/proofs) that an older form of the language may have left.

usage: tools/places.py [--list] [CRATE..]
It reads files, runs nothing and judges nothing: a row is a place to look at. Points are those of docs/DESIGN-PASS.md.
"""
import collections
import glob
import os
import re
import sys

ROOT = os.path.join(os.path.dirname(os.path.realpath(__file__)), "..")
FN = re.compile(r"^( *)((?:pub(?:\([a-z]+\))? )?(?:const )?fn (\w+))", re.M)


def code(text):
    """Without the tests at the end of a file."""
    return text.split("#[cfg(test)]\nmod tests {")[0]


def without_comments(text):
    return re.sub(r"//[^\n]*", "", text)


def sources(crates, kind, ending):
    for path in sorted(glob.glob(os.path.join(ROOT, "crates", "*", kind, "**", "*" + ending), recursive=True)):
        name = os.path.relpath(path, ROOT)
        if not crates or name.split("/")[1] in crates:
            yield name, open(path, encoding="utf-8").read()


def functions(name, text):
    """Each function: its line, name, head (parameters and result), clauses and body."""
    for found in FN.finditer(text):
        indent = found.group(1)
        end = re.compile("^" + indent + r"(\}|\{\}|.*\{\})$", re.M).search(text, found.start())
        whole = text[found.start():end.end() if end else len(text)]
        at = re.search(r"^" + indent + r"(\{|\{\})$|\{$", whole, re.M)
        head = whole[:at.start()] if at else whole
        body = whole[at.start():] if at else ""
        clauses = re.findall(r"(requires|ensures)\s*(\w+)?\s*\{(.*)\}\s*$", head, re.M)
        signature = re.split(r"\n\s*(?:requires|ensures)\b", head)[0]
        line = text.count("\n", 0, found.start()) + 1
        yield line, found.group(3), signature, clauses, without_comments(body)


def lines_that(pattern, crates, kind="src", ending=".rt"):
    one = re.compile(pattern)
    for name, text in sources(crates, kind, ending):
        for i, line in enumerate(code(text).split("\n")):
            if not line.lstrip().startswith("//") and one.search(line):
                yield f"{name}:{i + 1}", line.strip()


def tokens(body):
    return re.findall(r"\w+|[^\w\s]", body)


def twins(crates):
    """Functions with the same body, and long ones with the same body but for names and numbers."""
    same, alike = collections.defaultdict(list), collections.defaultdict(list)
    for name, text in sources(crates, "src", ".rt"):
        for line, fn, signature, clauses, body in functions(name, text):
            words = tokens(body)
            if len(words) >= 12:
                same[" ".join(words)].append((f"{name}:{line}", fn))
            if len(words) >= 30:
                shape = " ".join("n" if re.match(r"\w", w) and w not in ("if", "else", "match", "for", "while", "return", "let", "mut", "in", "Some", "None", "Ok", "Err") else w for w in words)
                alike[shape].append((f"{name}:{line}", fn))
    seen = set()
    for group in list(same.values()) + list(alike.values()):
        key = tuple(sorted(p for p, _ in group))
        if len(group) > 1 and key not in seen:
            seen.add(key)
            yield group[0][0], ", ".join(f"{fn} ({p})" for p, fn in group)
    consts = collections.defaultdict(list)
    for name, text in sources(crates, "src", ".rt"):
        for found in re.finditer(r"^(?:pub(?:\(\w+\))? )?const (\w+): ([^=]+?) = (.*?);$", text, re.M | re.S):
            consts[re.sub(r"\s|//.*", "", found.group(2) + found.group(3))].append((f"{name}:{text.count(chr(10), 0, found.start()) + 1}", found.group(1)))
    for group in consts.values():
        if len(group) > 1:
            yield group[0][0], "const " + ", ".join(f"{c} ({p})" for p, c in group)
    types = collections.defaultdict(list)
    for name, text in sources(crates, "src", ".rt"):
        for found in re.finditer(r"^ *(?:pub(?:\(\w+\))? )?(?:struct|enum) (\w+)[^{;]*\{\n(.*?)^ *\}", text, re.M | re.S):
            fields = re.sub(r"pub(\(\w+\))?|\s", "", without_comments(found.group(2)))
            types[fields].append((f"{name}:{text.count(chr(10), 0, found.start()) + 1}", found.group(1)))
    for group in types.values():
        if len(group) > 1:
            yield group[0][0], "type " + ", ".join(f"{t} ({p})" for p, t in group)


def repeated_arms(crates):
    """Arms of a match with the same right side as the arm above."""
    arm = re.compile(r"^\s*(.+?) => (.+?),?$")
    for name, text in sources(crates, "src", ".rt"):
        last = None
        for i, line in enumerate(text.split("\n")):
            found = arm.match(line)
            now = found.group(2) if found and not line.rstrip().endswith("{") else None
            if now is not None and now == last:
                yield f"{name}:{i + 1}", line.strip()
            last = now


def facts(crates):
    """A requires that stands in three or more functions of a crate; three or more parameters that travel through three or more."""
    for crate in sorted({n.split("/")[1] for n, _ in sources(crates, "src", ".rt")}):
        clauses, groups = collections.defaultdict(list), collections.defaultdict(list)
        for name, text in sources([crate], "src", ".rt"):
            for line, fn, signature, found, body in functions(name, text):
                for kind, label, clause in found:
                    if kind == "requires":
                        clauses[re.sub(r"\.(now|old)\b", "", clause.strip())].append((f"{name}:{line}", fn))
                parameters = re.findall(r"(\w+): ([^,()]+(?:\([^)]*\))?)", signature.partition("(")[2])
                if len(parameters) >= 3:
                    key = sorted(f"{p}: {t.strip()}" for p, t in parameters)
                    groups[fn + name] = (f"{name}:{line}", set(key))
        for clause, where in clauses.items():
            if len({p for p, _ in where}) >= 3:
                yield where[0][0], f"requires {{ {clause} }} in {len(where)}: " + ", ".join(f for _, f in where)
        counted = collections.Counter()
        for place, key in groups.values():
            for a in key:
                for b in key:
                    for c in key:
                        if a < b < c:
                            counted[(a, b, c)] += 1
        best = [(n, t) for t, n in counted.items() if n >= 3]
        if best:
            n, t = max(best)
            yield f"crates/{crate}", f"{n} functions take ({', '.join(t)})"


POINTS = [
    ("1", "errors as options, or nested", lambda c: lines_that(r"Option<(Refusal|Reason|Fault)>|Result<(Option|Result)<", c)),
    ("1", "numbers for kinds", lambda c: lines_that(r"^\s*\(?[0-9]+(, \w+)*\)? => Some\(|=> \[[0-9], |^\s+\[[0-9], \w+\.|::\w+( \{.*\})? => [0-9]+,$|&\[[0-9], user", c)),
    ("1", "flags for refusals", lambda c: lines_that(r"-> \(bool, |-> Option<\(\)>|fn .*&mut .*-> bool", c)),
    ("2", "twins", twins),
    ("3", "loops over a range, or that count", lambda c: lines_that(r"^\s*(for .* in .*\.\.|while |loop )", c)),
    ("4", "an error turned to itself", lambda c: lines_that(r"Err\(_\) => Err\(AllocError\)|or\(Err\(AllocError\)\)", c)),
    ("4", "arms that repeat", repeated_arms),
    ("4", "comparisons and conversions as functions", lambda c: lines_that(r"fn (same_\w+|\w+_numbered|\w*_numbers|kept_of|of_change|of_query|item_in|verb_of|is_named|user_of|asker|number_or_0|byte_at)\(", c)),
    ("5", "facts and parameters that travel", facts),
    ("6", "arrays with a length beside, as fields", lambda c: lines_that(r"^\s*(pub(\(\w+\))? )?\w+: \[\w+; \w+\],$", c)),
    ("7", "switches on a mode", lambda c: lines_that(r"match (form|kind|audience)\b", c)),
    ("8", "answers of one tactic", lambda c: lines_that(r"^\w[\w-]* \w+( \w+)* = (search rules|omega arith|grind arith)$", c, "proofs", ".antt")),
]


def main():
    listing = "--list" in sys.argv
    crates = [a for a in sys.argv[1:] if not a.startswith("--")]
    for point, title, find in POINTS:
        rows = list(find(crates))
        print(f"{point} {title}: {len(rows)}")
        if listing:
            for place, text in rows:
                print(f"    {place}: {text}")


main()
