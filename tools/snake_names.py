#!/usr/bin/env python3
"""Respells the repository's own definitions and lemmas, once, after the kit's port.py.

usage: python3 tools/snake_names.py [ROOT]

- A word in lower camel case becomes snake case: `slotRowOf` -> `slot_row_of`, `length-rowBytes` -> `length-row_bytes`.
- In the name of a lemma, words that together are the name of a function or a definition are joined as that name is
  spelled: `set-up-kept` -> `set_up-kept`.
- A dash stays where it joins the names of two functions, definitions or types: `length-row_bytes`. Elsewhere, and in the name
  of a field, it becomes `_`: `counts-long` -> `counts_long`, `set_up-served` -> `set_up_served`.
Types, modules, names of src/ and exported names keep their spelling. Names that would fall together are printed, and left.
"""
import glob
import os
import re
import sys

ROOT = sys.argv[1] if len(sys.argv) > 1 else "."
NAME = r"[^\s(){}\[\],;.:→λ≡'\"`]+"
DECLARED = re.compile(r"(?m)^\s*(?:(?:abbrev|unfoldable|opaque|pub|data|record)\s+)*(" + NAME + r"'*) :(?= |$)")
# names for which the rule gives one that is taken, each with its own
BY_HAND = {"entryIn": "entry_found", "skips_before": "skips_there", "skipsBefore": "skips_before", "endOfText": "end_of_text"}
# functions of the library that names of lemmas are made of
LIBRARY = {"append", "drop", "get_or", "length", "map", "portion", "put", "quot", "replicate", "set", "sum", "take"}
TOKEN = re.compile(r"[A-Za-z_][A-Za-z0-9_'-]*")


def files(*kinds):
    for folder, dirs, names in os.walk(os.path.join(ROOT, "crates")):
        dirs[:] = sorted(d for d in dirs if d != "out")
        for name in sorted(names):
            if name.endswith(kinds):
                yield os.path.join(folder, name)


def snake(word):
    return re.sub(r"(?<=[a-z0-9])([A-Z])", lambda m: "_" + m.group(1).lower(), word)


def main():
    texts = {p: open(p, encoding="utf-8").read() for p in files(".rt", ".antt")}
    declared, shared = set(), set()
    for p, t in texts.items():
        if p.endswith(".antt"):
            found = {m.group(1) for m in DECLARED.finditer(t)}
            declared |= found
            if re.search(r"/(specs|proofs)/[A-Z]\w*\.antt$", p):
                shared |= found
    used = {w for p, t in texts.items() if p.endswith(".antt") for w in re.findall(r"(?<![\w.'-])" + TOKEN.pattern, re.sub(r"--.*", "", t))}
    of_source = set()
    for p, t in texts.items():
        if p.endswith(".rt"):
            of_source |= set(re.findall(r"\bfn ([a-z0-9_]+)", t))
    turn = {}
    for name in sorted(declared):
        parts = name.split("-")
        new = "-".join(p if re.match(r"[A-Z]", p) else snake(p) for p in parts)
        new = re.sub(r"^get_d-", "get_or-", new)
        if new != name:
            turn[name] = new
    known = {n for n in of_source | {turn.get(n, n) for n in shared} if "_" in n and "-" not in n}
    for name in sorted(shared):
        new = turn.get(name, name)
        parts, out, i = new.split("-"), [], 0
        while i < len(parts):
            for j in range(len(parts), i + 1, -1):
                if "_".join(parts[i:j]) in known and (i > 0 or j < len(parts)):
                    break
            else:
                j = i + 1
            out.append("_".join(parts[i:j]))
            i = j
        new = "-".join(out)
        if new != name:
            turn[name] = new
    turn.update(BY_HAND)
    defined = of_source | LIBRARY
    fields = set()
    for p, t in texts.items():
        if re.search(r"/specs/[A-Z]\w*\.antt$", p):
            defined |= {turn.get(n, n) for n in re.findall(r"(?m)^(?:abbrev|unfoldable) pub (" + NAME + ") :(?= |$)", t)}
        if re.search(r"/(specs|proofs)/[A-Z]\w*\.antt$", p):
            for body in re.findall(r"(?m)^( *)(?:pub )?record [^\n]*where\n((?:\1  [^\n]*\n|\1 *--[^\n]*\n)+)", t):
                fields |= set(re.findall(r"(?m)^" + body[0] + r"  (?:pub )?(" + NAME + ") :(?= |$)", body[1]))
    given = used | declared | set(turn.values())
    for name in sorted(shared):
        parts = turn.get(name, name).split("-")
        new = parts[0]
        for left, right in zip(parts, parts[1:]):
            joins = all(x in defined or re.match(r"[A-Z]", x) for x in (left, right))
            new += ("-" if joins and name not in fields else "_") + right
        if new != turn.get(name, name) and new not in given:
            turn[name] = new
            given.add(new)
    taken = {}
    for name, new in sorted(turn.items()):
        taken.setdefault(new, []).append(name)
    for new, names in sorted(taken.items()):
        if len(names) > 1 or (new in used and new not in turn):
            print("falls together:", ", ".join(names), "->", new, "(there already)" if new in used else "")
            for n in names:
                del turn[n]
    changed = 0
    for p, t in texts.items():
        new = TOKEN.sub(lambda m: turn.get(m.group(0), m.group(0)), t)
        if new != t:
            changed += 1
            open(p, "w", encoding="utf-8").write(new)
    print(f"{len(turn)} names, {changed} files")


main()
