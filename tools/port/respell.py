#!/usr/bin/env python3
"""Brings the repository's own definitions and lemmas to today's spelling: words in snake case, types and modules in camel case.

usage: tools/port/respell.py [--list]

Run once at the top of the repository, behind port.py. A name that an .antt file of specs/ or proofs/ declares and that has a capital letter is
written in snake case (countUp: count_up); a dash becomes an underscore (never-is: never_is), but where it joins two names of definitions, as the
library writes its laws (map-append). Names that Rattle makes (labels of goals in proofs/F/) stay as they are. Turned are specs/, proofs/, the
clauses of src/ and must-fail/. --list prints the names, old and new, and writes nothing.
"""
import collections
import glob
import os
import re
import sys

LIST = "--list" in sys.argv
TOKEN = re.compile(r"""[^\s(){}.;,@"«»`\[\]⌜⌝⟨⟩]+""")
DECL = re.compile(r"(?m)^( *)((?:(?:abbrev|unfoldable|pub|private|opaque) )*)([^\s(){}.;,@\"«»]+)((?: [({][^(){}\n]*[)}])*) :(?: |$)")
TIE = re.compile(r" tie\.(?:Need|invariant|decreases)| goal\.")
KEPT = set("length append map take drop get_or set replicate reverse min max cond eqb ltb leb mul add div mod binary concat filter sum copy all any not and or".split())


def files():
    out = []
    for c in sorted(os.listdir("crates")):
        for top in ("specs", "proofs", "src", "must-fail"):
            for p in sorted(glob.glob(f"crates/{c}/{top}/**/*", recursive=True)):
                if p.endswith((".antt", ".rt", ".edit")):
                    out.append(p)
    return out


def of_function(path):
    return bool(re.search(r"/proofs/.+/(Proof|Answers|Invariants)\.antt$", path))


def snake(name):
    parts = re.split(r"([-_])", name)
    return "".join(re.sub(r"(?<=[a-z0-9])([A-Z])", lambda m: "_" + m[1].lower(), p) if p[:1].islower() else p for p in parts)


texts = {p: open(p, encoding="utf-8").read() for p in files()}
declared, in_functions, words = set(), collections.defaultdict(set), set()
for p, t in texts.items():
    if not p.endswith(".antt"):
        continue
    for m in DECL.finditer(t):
        name = m[3]
        if not re.match(r"[a-z_]", name):
            continue
        line = t[m.start() : t.find("\n", m.end())]
        if of_function(p):
            in_functions[p].add((name, bool(TIE.search(line))))
        else:
            declared.add(name)
            if "/specs/" in p and not m[1]:
                words.add(name)
# the names that are imported from the libraries stay
own = "|".join(os.listdir("crates"))
library = set()
for p, t in texts.items():
    for m in re.finditer(r"(?m)^ *(?:pub |ghost )*use (?!Rattle\.(?:" + own + r")\.)[^\s{]+\.\{([^}]*)\}", t):
        library |= {x.strip().split(" as ")[0] for x in m[1].split(",")}
known = {snake(w) for w in words} | KEPT
table = {}
for name in sorted(declared):
    new = snake(name)
    if "-" in new:
        parts = new.split("-")
        new = parts[0]
        for a, b in zip(parts, parts[1:]):
            new += ("-" if a in known and b in known else "_") + b
    if new != name:
        if name in library:
            print("left: of the library too:", name)
            continue
        table[name] = new
# A name with a dash stays where its new spelling is another name's: there the dash tells the law from the definition.
everything = set()
for p, t in texts.items():
    everything |= set(TOKEN.findall(t))
camel = {new for old, new in table.items() if re.search("[A-Z]", old)}
for old in [o for o in table if not re.search("[A-Z]", o)]:
    if table[old] in everything or table[old] in camel:
        print("stays:", old)
        del table[old]
# Where port.py gave a law the name that a definition gets here, the law has its dash again.
for old, new in sorted(table.items()):
    if re.search("[A-Z]", old) and new in declared:
        back = new.replace("_", "-", 1) if new.count("_") == 1 else new.replace("_", "-")
        print("back:", new, back)
        table[new] = back
for old, new in sorted(table.items()):
    if new in everything and new not in table:
        print("meets:", old, new, *[p for p, t in texts.items() if p.endswith(".antt") and {old, new} <= set(TOKEN.findall(t))][:6])
if LIST:
    for o, n in sorted(table.items()):
        print(o, n)
    sys.exit()


def turn(path, text):
    labels = {n for n, tie in in_functions[path] if tie} if of_function(path) else set()
    imported = set()
    if of_function(path):
        for m in re.finditer(r"(?m)^use Rattle\.[\w.]+\.(?:specs|proofs)\b[\w.]*\.\{([^}]*)\}", text):
            imported |= {x.strip().split(" as ")[0] for x in m[1].split(",")}

    def one(m):
        w = m[0]
        if w not in table:
            return w
        if of_function(path) and re.search("-", w):
            before = text[max(0, m.start() - 80) : m.start()]
            head = re.search(r"([^\s(){};,]*)\.$", before)
            if head and (head[1].endswith(("before", "tie", "goal")) or head[1] in ("c", "d", "l", "w", "tie", "goal")):
                return w
            if w in labels and w not in imported:
                return w
        return table[w]

    return TOKEN.sub(one, text)


def clauses(path, text):
    """In src/ a name with a capital letter inside stands in clauses alone."""
    return TOKEN.sub(lambda m: table[m[0]] if m[0] in table and (path.endswith(".edit") or re.search("[A-Z]", m[0])) else m[0], text)


n = 0
for p, t in texts.items():
    new = turn(p, t) if p.endswith(".antt") else clauses(p, t)
    if new != t:
        n += 1
        open(p, "w", encoding="utf-8").write(new)
print(len(table), "names,", n, "files")
