#!/usr/bin/env python3
"""Brings the must-fail edits of specs/ and proofs/ to today's spelling.

usage: tools/port/edits.py COMMIT

Run at the top of the repository, behind port.py and respell.py. COMMIT is the one before both. Which name became which is read off the texts of
specs/, token beside token. A pair of lines that adds a name to an import adds it to today's. Edits of src/ have no names that were respelled
but in clauses, and those few are turned by hand: those that no longer apply are printed, and stay as they stand.
"""
import collections
import difflib
import glob
import os
import re
import subprocess
import sys
import tempfile

ROOM = tempfile.TemporaryDirectory()
WAS = ROOM.name
subprocess.run(f"git archive '{sys.argv[1]}' crates | tar x -C {WAS}", shell=True, check=True)
TOKEN = re.compile(r"""[^\s(){}.;,@"«»`\[\]⌜⌝⟨⟩]+""")
OPERATORS = set("∷ + - * / % ^ = ≡ ≢ ≤ < → ++ && || : as ↦ |".split())
LIBRARY = re.compile(r"use (?:mathlib|Prim|lib)\.[^\s{]*\.\{(.*?)(?:\}|$)")


def read(path):
    with open(path, encoding="utf-8") as it:
        return it.read()


seen = collections.defaultdict(collections.Counter)
for path in glob.glob(f"{WAS}/crates/*/specs/**/*.antt", recursive=True):
    now = path[len(WAS) + 1 :]
    if os.path.exists(now):
        a, b = TOKEN.findall(read(path)), TOKEN.findall(read(now))
        for kind, i, j, k, l in difflib.SequenceMatcher(None, a, b, autojunk=False).get_opcodes():
            if kind == "replace" and j - i == l - k or kind == "equal":
                for old, new in zip(a[i:j], b[k:l]):
                    seen[old][new] += 1
table = {old: new.most_common(1)[0][0] for old, new in seen.items()}
table = {old: new for old, new in table.items() if old != new and re.match("[a-z_]", old) and re.match("[a-z◌]", new)}


def tight(text):
    """`r .f` and `f x .g` are written r.f and (f x).g."""
    while m := re.search(r" \.([a-z_]\w*)(?!\w)", text):
        depth, j = 0, m.start() - 1
        while j >= 0:
            if text[j] in ")]}":
                depth += 1
            elif text[j] in "([{":
                if not depth:
                    break
                depth -= 1
            elif not depth and text[j] in ",;":
                break
            elif not depth and text[j] == " ":
                word = re.match(r"\S+", text[j + 1 :])
                if word and (word[0] in OPERATORS or word[0].endswith(".")):
                    j += len(word[0])
                    break
            j -= 1
        before, of, rest = text[: j + 1], text[j + 1 : m.start()], text[m.end() :]
        before, of = before + of[: len(of) - len(of.lstrip())], of.strip()
        of = f"({of})" if re.search(r"\s", re.sub(r"\([^()]*\)", "X", of)) else of
        if before.endswith("(") and rest.startswith(")"):
            before, rest = before[:-1], rest[1:]
        text = f"{before}{of}.{m[1]}{rest}"
    return text


def turned(text):
    text = re.sub(r"Rattle·(\w+)(?:·specs)?\.specs\.", r"Rattle.\1.specs.", text)
    return tight(TOKEN.sub(lambda m: table.get(m[0], m[0]), text))


def added(old, new, now):
    """The names that a pair adds to an import of the libraries and that today's import has not: None if it is no such pair."""
    a, b = LIBRARY.match(old), LIBRARY.match(new)
    if not a or not b:
        return None
    a, b = ([turned(x.strip()) for x in it[1].split(",")] for it in (a, b))
    has = re.search(r"Prelude\.\{([^}]*)\}", now)
    return [x for x in b if x not in a and x not in [y.strip() for y in has[1].split(",")]]


left = 0
for path in sorted(glob.glob(f"{WAS}/crates/*/must-fail/*.edit")):
    to, out, texts, file, old, why = path[len(WAS) + 1 :], [], {}, "", "", ""
    for line in read(path).split("\n"):
        if line.startswith("file: "):
            file = line[6:].strip()
            there = f"{to.split('/must-fail/')[0]}/{file}"
            texts.setdefault(file, read(there) if os.path.exists(there) else "")
            out.append(line)
        elif line.startswith("old: "):
            old = line[5:]
        elif line.startswith("new:"):
            new, names = line[5:], None
            if not file.endswith(".rt"):
                names = added(old, new, texts[file])
                was, new = (turned(old), turned(new)) if names is None else ("Prelude.{", "Prelude.{" + ", ".join([*names, ""]))
            else:
                was = old
            if names == []:
                continue
            if texts[file].count(was) != 1:
                why = f"an old text stands {texts[file].count(was)} times: {was}"
            texts[file] = texts[file].replace(was, new)
            out += [f"old: {was}", f"new: {new}".rstrip() if not new else f"new: {new}"]
        else:
            out.append(line)
    if why:
        left += 1
        print(f"{to}: {why}")
        continue
    with open(to, "w", encoding="utf-8") as it:
        it.write("\n".join(out))
print(left, "left")
