#!/usr/bin/env python3
"""Sets the repository beside the commit that docs/PORT.md names first, and prints what differs by more than spelling.

usage: tools/port/compare.py             at the top of the repository

Compared are, by name and in order: each file of specs/ and each file of lemmas in proofs/, without its comments and imports; the clauses of each
function of src/; the pairs of each must-fail edit. Spelling is capitals, dashes, underscores and dots within names, spaces and parentheses,
the names of the older library, and the forms of clauses and projections. It is coarse: brackets are dropped, and not seen are imports, labels,
signatures, bodies and the first lines of edits (docs/PORT.md says how those were compared).
"""
import difflib
import os
import re
import subprocess
import sys

L = open("docs/PORT.md", encoding="utf-8").read().split("\n")[0].strip()


def show(p):
    r = subprocess.run(["git", "show", f"{L}:{p}"], capture_output=True, text=True)
    return r.stdout if r.returncode == 0 else ""


def antt(t):
    t = re.sub(r"(?m)^ *(pub |ghost )?use [^\n]*\n", "", t)
    t = re.sub(r"--[^\n]*", "", t)
    t = t.replace("\u2032", "'").replace("\u2033", "''").replace("\u25cc", "_")
    t = re.sub(r"\s+\.(?=[A-Za-z0-9«])", ".", t)
    t = t.replace("List·getD", "get_or").replace("getD", "get_or")
    t = re.sub(r"[-_·]", "", t).lower()
    t = re.sub(r" *([.,;]) *", r"\1 ", re.sub(r"\s+", " ", t))
    return re.sub(r"([a-z0-9')]) \. ", r"\1. ", t)


def spelled(t):
    return re.sub(r"[-_·◌]", "", re.sub(r"\s+", "", t)).lower().replace("getd", "getor").replace("\u2032", "'")


def clause(t, lent):
    """A clause of the older form in today's: lent are the function's parameters that are `&mut`. Brackets go, since projections have others now."""
    t = re.sub("⌜|⌝", "", t)
    m = re.match(r"\s*λ (\w+)\.(.*)$", t, re.S)
    if m:
        t = m[2] if m[1] == "_" else re.sub(r"(?<![\w.])" + m[1] + r"(?![\w])", "result", m[2])
    t = re.sub(r"now \((\w+) \.entry\)", lambda k: k[1] + (".old" if k[1] in lent else ".now"), t)
    t = re.sub(r"now \((\w+) \.exit\)", r"\1.new", t)
    return re.sub(r"now \(?(\w+)\)?", lambda k: k[1] + (".old" if k[1] in lent else ".now"), t)


def functions(t, old):
    """For each function its clauses, each read to its closing brace."""
    out, typ = {}, ""
    for m in re.finditer(r'(?m)^(?:(impl)(?:<[^>]*>)? (\w+)|(\}) *$|( *)(?:pub )?(?:unsafe )?(?:extern "C" )?fn (\w+))', t):
        if m[1]:
            typ = m[2] + "::"
        elif m[3]:
            typ = ""
        elif m[5]:
            name = (typ if m[4] else "") + m[5]
            head = ""
            for l in t[m.end() :].split("\n"):
                if l == m[4] + "{" or l.endswith(" {") and not re.match(r"\s*(requires|ensures)\b", l):
                    break
                head += l + "\n"
            first = re.search(r"\n\s+(?:requires|ensures)\b", head)
            lent = set(re.findall(r"(\w+): &(?:'\w+ )?mut ", head[: first.start()] if first else head))
            out[name] = []
            for c in re.finditer(r"\n\s+(requires|ensures)\*?(?: \w+)? \{", head):
                depth, i = 1, c.end()
                while depth:
                    depth += {"{": 1, "}": -1}.get(head[i], 0)
                    i += 1
                text = head[c.end() : i - 1]
                out[name].append((c[1], re.sub(r"[()]", "", spelled(clause(text, lent) if old else text)).rstrip(",")))
    return out


def loose(t, old):
    """The text of an edit's pair, where what a name is lent as cannot be seen."""
    if old:
        t = clause(re.sub(r"λ [r_]\. ?⌜", "", t), set())
    return re.sub(r"\b(result)\b", "r", re.sub(r"\.(now|old)\b", "", t)).replace(".new", "NEW")


def edit(t, old):
    """The pairs of an edit, spelled alike; an import is its module's last part and its names."""
    out = []
    for l in t.split("\n"):
        m = re.match(r"(file|old|new):(.*)$", l)
        if m:
            s = m[2]
            s = loose(s, old) if "entry" in s or "exit" in s or ".now" in s or ".old" in s or ".new" in s or "⌜" in s else s
            out.append((m[1], re.sub(r"[-_·()\s◌⌜⌝]", "", re.sub(r"λ [r_]\. ?⌜", "", s)).lower().replace("getd", "getor").replace("\u2032", "'").replace("result", "r")))
    return out


def main():
    paths = subprocess.run(["git", "ls-tree", "-r", "--name-only", L, "crates"], capture_output=True, text=True).stdout.split()
    count = {"specs": [0, 0], "lemmas": [0, 0], "functions": [0, 0], "edits": [0, 0]}
    for p in paths:
        kind = "specs" if re.search(r"/specs/.*\.antt$", p) else "lemmas" if re.search(r"/proofs/[A-Z][^/]*\.antt$", p) else None
        if not p.endswith((".antt", ".rt", ".edit")):
            continue
        here = open(p, encoding="utf-8").read() if os.path.exists(p) else None
        if kind:
            count[kind][0] += 1
            a, b = antt(show(p)), antt(here or "")
            if re.sub(r"[()\s]", "", a) != re.sub(r"[()\s]", "", b):
                count[kind][1] += 1
                print(f"{p}:" + (" gone" if here is None else ""))
                ta, tb = re.findall(r"[^\s()]+", a), re.findall(r"[^\s()]+", b)
                for tag, i1, i2, j1, j2 in difflib.SequenceMatcher(None, ta, tb, autojunk=False).get_opcodes() if here is not None else []:
                    if tag != "equal":
                        print("   ", " ".join(ta[max(0, i1 - 3) : i2 + 2])[:300], " ==> ", " ".join(tb[max(0, j1 - 3) : j2 + 2])[:300])
        elif re.search(r"/src/.*\.rt$", p):
            a, b = functions(show(p), True), functions(here or "", False)
            for f in a:
                count["functions"][0] += 1
                if a[f] != b.get(f):
                    count["functions"][1] += 1
                    print(f"{p}: {f}: {a[f]} ==> {b.get(f)}")
            for f in b:
                if f not in a:
                    print(f"{p}: {f}: new")
        elif p.endswith(".edit"):
            count["edits"][0] += 1
            if edit(show(p), True) != edit(here or "", False):
                count["edits"][1] += 1
                print(f"{p}:" + (" gone" if here is None else " text"))
                if "--edits" in sys.argv and here is not None:
                    print(show(p) + "  ==>\n" + here)
    print("; ".join(f"{k}: {n}, {d} by more than spelling" for k, (n, d) in count.items()))


main()
