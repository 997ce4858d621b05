#!/usr/bin/env python3
"""Brings the definitions and lemmas of specs/ and proofs/ to today's spelling.

usage: python3 tools/respell.py        at the top of the repository, once, right after the kit's own port.py

A name of ours with a capital inside, or with a dash, goes to snake case: `endFrom` is `end_from`, and
`lawful-end` is `lawful_end`. A dash stays where it joins the name of a definition to that of another, as in
`length-built`. What Rattle makes of the source (the names of goals, of steps and of loops) is left alone, and
so are functions, fields, strings and comments of src/. Names that would fall together are told, and nothing
is written; a definition may have the name of a function of src/, which clauses do not name.
"""

import os
import re

NAME = r"[^\s:(){}.,;|\[\]λ→]+"
DEFINES = re.compile(r"^\s*(?:(?:pub|abbrev|unfoldable)\s+)*(?:record\s+|data\s+)?(" + NAME + r")\s*(?::|\()")
OLD = re.compile(r"\w-|-\w|^[a-z].*[A-Z]")
# what stands on either side of a dash that stays is a definition of its own
JOINED = {
    "built-push": "built-push",
    "builtOn-push": "built_on-push",
    "costing-push": "costing-push",
    "getD-both": "get_or_both",
    "length-built": "length-built",
    "length-builtOn": "length-built_on",
    "length-fieldsFrom": "length-fields_from",
    "length-formulas": "length-formulas",
    "or-hyphen-push": "or_hyphen-push",
    "pow-suc": "pow-suc",
    "reaching-push": "reaching-push",
    "spaced-append": "spaced-append",
    "total-push": "total-push",
}
# lemmas that would have the name of the definition that they speak of
LEMMAS = {
    "end_by": "end_by_lem",
    "lines-by": "lines_by_lem",
    "with-formula": "with_formula_lem",
    "with-rule": "with_rule_lem",
}
CHARS = r"[\w'′·◌\-]"


def files(root):
    for folder, dirs, names in os.walk(os.path.join(root, "crates")):
        dirs[:] = sorted(d for d in dirs if d != "out")
        for name in sorted(names):
            if name.endswith((".antt", ".rt", ".edit")):
                yield os.path.join(folder, name)


def snake(name):
    if name in JOINED:
        return JOINED[name]
    if name in LEMMAS:
        return LEMMAS[name]
    name = re.sub(r"(?<=[a-z0-9])([A-Z])", lambda m: "_" + m.group(1).lower(), name)
    return name.replace("-", "_")


def defined(path, text):
    if not path.endswith(".antt"):
        return
    for line in text.splitlines():
        m = DEFINES.match(line)
        if m and not re.search(r":\s*goal\.", line) and OLD.search(m.group(1)) and not m.group(1)[0].isupper():
            yield m.group(1)


def main():
    texts = {}
    for path in files("."):
        with open(path, encoding="utf-8") as f:
            texts[path] = f.read()
    old = sorted({n for path, text in texts.items() for n in defined(path, text)} | set(LEMMAS))
    new = {n: snake(n) for n in old if snake(n) != n}
    functions = {n for path, text in texts.items() if path.endswith(".rt") for n in re.findall(r"\bfn (\w+)", text)}
    clashes = []
    if len(set(new.values())) != len(new):
        seen = {}
        for n, to in new.items():
            if to in seen:
                clashes.append(f"{n} and {seen[to]} would both be {to}")
            seen[to] = n
    for path, text in texts.items():
        if path.endswith(".rt"):
            for n in re.findall(r"\bas ([a-z]+[A-Z]\w*)", text):
                new[n] = snake(n)
    token = re.compile(r"(?<!" + CHARS + ")(" + "|".join(re.escape(n) for n in sorted(new, key=len, reverse=True)) + ")(?!" + CHARS + ")")
    for path, text in texts.items():
        here = {new[m] for m in token.findall(text)} - set(LEMMAS)
        for to in sorted(here - functions):
            if re.search(r"(?<!" + CHARS + ")" + re.escape(to) + "(?!" + CHARS + ")", text):
                clashes.append(f"{path}: {to} stands there already")
    if clashes:
        print("\n".join(clashes))
        raise SystemExit(2)
    n = 0
    for path, text in texts.items():
        to = token.sub(lambda m: new[m.group(1)], text)
        if to != text:
            n += 1
            with open(path, "w", encoding="utf-8") as f:
                f.write(to)
    print(f"{len(new)} names, {n} files")


main()
