#!/usr/bin/env python3
"""Turns the proofs of a crate's functions that an older Rattle read (proofs/F/Proof.antt) into Invariants.antt and Answers.antt.

usage: tools/port/convert.py CRATE        at the top of the repository; the crates below CRATE have to be proved

The old files are taken from the commit that docs/PORT.md names second. What the check finds by itself gets no answer. What it leaves is answered
by the old proof of that goal, its names turned by the names.json that rt check writes. It writes the files, checks, and says what is left.
"""
import json
import os
import re
import subprocess
import sys
import tempfile

OLD = open("docs/PORT.md", encoding="utf-8").read().split("\n")[1].strip()
NAME = r"[^\s(){}.;,@\"«»\[\]]+"
DASH = lambda s: s.replace("_", "-")


def sh(*words, cwd=None):
    return subprocess.run(words, cwd=cwd, stdout=subprocess.PIPE, stderr=subprocess.STDOUT, text=True, errors="replace").stdout


def old_files(crate):
    names = sh("git", "ls-tree", "-r", "--name-only", OLD, f"crates/{crate}/proofs").split("\n")
    return {n[len(f"crates/{crate}/proofs/") : -len("/Proof.antt")]: sh("git", "show", f"{OLD}:{n}") for n in names if n.endswith("/Proof.antt")}


def labels():
    """For each function of the repository the names of its clauses, by kind."""
    out = {}
    for c in sorted(os.listdir("crates")):
        for folder, _, names in os.walk(f"crates/{c}/src"):
            for n in sorted(names):
                if not n.endswith(".rt"):
                    continue
                mod = "" if n in ("lib.rt", "main.rt") else n[:-3] + "::"
                typ = ""
                fn = None
                for l in open(os.path.join(folder, n), encoding="utf-8"):
                    if m := re.match(r"impl(?:<[^>]*>)? (?:\w+ for )?(\w+)", l):
                        typ = m[1] + "::"
                    elif re.match(r"\S", l) and not re.match(r"[{})]|//", l):
                        typ = typ if l.startswith(("    ", "}")) else ""
                    if m := re.match(r"( *)(?:pub )?(?:unsafe )?(?:extern \"C\" )?fn (\w+)", l):
                        fn = f"{c}::{mod}{typ if m[1] else ''}{m[2]}"
                        out[fn] = {"requires": [], "ensures": []}
                    elif fn and (m := re.match(r" +(requires|ensures)\*?(?: (\w+))? \{", l)):
                        out[fn][m[1]].append(m[2])
    return out


LABELS = labels()


class Decl:
    def __init__(self, name, mark, kind, lines):
        self.name, self.mark, self.kind, self.lines = name, mark, kind, lines


def declarations(text):
    """The head, the imports and the declarations of an old file, each with the comment above it."""
    lines = text.split("\n")
    head, uses, decls, comment = [], [], [], []
    i = 0
    while i < len(lines):
        l = lines[i]
        if l.startswith("use "):
            u = l
            while u.count("{") > u.count("}"):
                i += 1
                u += " " + lines[i].strip()
            if not uses and not decls:
                head += comment
                comment = []
            uses.append(u)
            i += 1
        elif l.startswith("--"):
            comment.append(l)
            i += 1
        elif not l.strip():
            i += 1
        else:
            block = [l]
            i += 1
            while i < len(lines) and lines[i].strip() and not lines[i].startswith("--") or i < len(lines) and not lines[i].strip() and i + 1 < len(lines) and lines[i + 1].startswith("  "):
                block.append(lines[i])
                i += 1
            m = re.match(r"((?:(?:abbrev|unfoldable|pub|private) )*)(record |data |module )?(" + NAME + r")", l)
            tie = re.search(r":\s*(?:\{M : Type 1\} → )?(?:\([^)]*\) → )*\s*tie\.((?:Need-|invariant-|decreases-)" + NAME + r")", " ".join(block[:3]).split(" = ")[0])
            decls.append(Decl(m[3], m[1] + (m[2] or ""), tie[1] if tie else None, block))
            decls[-1].comment = comment
            comment = []
    return head, uses, decls


def tuple_parts(e):
    """The parts of a tuple that stands in parentheses, or None."""
    if not (e.startswith("(") and e.endswith(")")):
        return None
    depth, cut = 0, [1]
    for i, ch in enumerate(e):
        if ch in "({":
            depth += 1
        elif ch in ")}":
            depth -= 1
            if depth == 0 and i < len(e) - 1:
                return None
        elif ch == "," and depth == 1:
            cut.append(i + 1)
    parts = [e[a:b].rstrip().rstrip(",").strip() for a, b in zip(cut, cut[1:] + [len(e) - 1])]
    parts = [p for p in parts if p]
    return parts if len(parts) > 1 else None


class Function:
    def __init__(self, crate, f, data, text):
        self.crate, self.f, self.text = crate, f, text
        self.head, self.uses, self.decls = declarations(text)
        self.d = data
        self.places = {p[0]: p for p in data["places"]}
        self.new_place = dict(zip([p[0] for p in data["places"]], data.get("places_by_name", [])))
        self.arms = {p[0]: a for p, a in zip(data["places"], data.get("arms", [])) if a}
        self.needs, self.asked = {}, {}
        for (o, n), at in zip(data["needs"], data["asked_at"]):
            self.needs[DASH(o)] = n
            self.asked[n] = at[0]
        self.loops = {DASH(l[0][0]): (l[0][1], l[1], ch) for l, ch in zip(data["loops"], data["changed"])}
        self.notes = []

    def need(self, kind):
        k = DASH(kind[len("Need-") :])
        for t in (k, re.sub(r"^overflow-", "", k)):
            if t in self.needs:
                return self.needs[t]
        return None

    def field(self, place, back, name):
        """The new name of a step's field, behind so many 'before' of a place or else anywhere in its chain, and the function that the step calls."""
        behind = place
        for _ in range(back):
            behind = self.places[behind][1] if behind in self.places and self.places[behind][1] else behind
        for q in (behind, place):
            while q in self.places:
                _, above, names, callee = self.places[q][:4]
                if DASH(names[0]).lower() == DASH(name).lower():
                    return names[1], callee, q
                q = above
        return name, None, None

    def arm(self, at, name, more):
        """The new path of what a match arm gives, where the old path names the step at a place; else None."""
        for new, step, path in self.arms[at][2] if at in self.arms else []:
            old = "." + ".".join(path)
            if path and DASH(step).lower() == DASH(name).lower() and (more == old or more.startswith(old + ".")):
                return f".{self.arms[at][0]}.{new}{more[len(old):]}"
        return None

    in_answer = False

    def helpers_at(self):
        """The place of the record that each helper takes."""
        out = {}
        for d in self.decls:
            if d.kind is None:
                m = re.search(r"\(\w+ : tie\.((?:After|Then|Else|In|At|Start|Join)[^\s(){};,]*)", "\n".join(d.lines))
                if m:
                    for k in self.places:
                        if DASH(k).lower() == DASH(m[1]).lower():
                            out[d.name] = k
        return out

    def passed(self, body, var, place, more):
        """A record of an earlier place that a helper is given."""
        for name, at in self.helpers_at().items():
            n, q = 0, place
            while q != at and q in self.places and self.places[q][1]:
                for _ in range(self.arms[q][1] if q in self.arms else 1):
                    q = self.places[q][1]
                n += 1
            if q != at:
                continue
            body = re.sub(r"(?<![^\s(){};,])" + re.escape(name) + r" " + re.escape(var) + r"(?:\.before)*(?=[\s(){};,]|$)", f"{name} {var}" + ".BEFORE" * (n + more), body)
        return body

    def key(self):
        return f"{self.crate}::{self.f.replace('/', '::')}"

    def label(self, callee, kind, n):
        it = LABELS.get(callee, {}).get(kind, [])
        return it[n] if len(it) > 1 and n < len(it) and it[n] else str(n)

    def nested(self, callee, e, path, kind="ensures"):
        """A clause that a call gives, by its path in the old nested pairs."""
        it = LABELS.get(callee, {}).get(kind, [])
        if len(it) < 2 or not all(it):
            return e + "".join("." + n for n in path)
        k = 0
        while k < len(it) - 1 and path and path[0] == "1":
            k, path = k + 1, path[1:]
        if k < len(it) - 1 and not path:
            return "(" + ", ".join(f"{e}.{n}" for n in it[k:]) + ")"
        if k < len(it) - 1:
            path = path[1:]
        return f"{e}.{it[k]}" + "".join("." + n for n in path)

    def whole(self, callee, e):
        """All clauses that a call gives, as the pair that they were."""
        it = LABELS.get(callee, {}).get("ensures", [])
        if len(it) == 1 and it[0]:
            return f"{e}.{it[0]}"
        return "(" + ", ".join(f"{e}.{n}" for n in it) + ")" if len(it) > 1 and all(it) else e

    def as_record(self, body, names=None):
        """The answer to several clauses: a tuple becomes a record of them."""
        if names is None:
            names = LABELS.get(self.key(), {}).get("ensures", [])
        if not names or not names[0]:
            return body
        head, rest = body.split(" =", 1)
        # the expression behind the last 'in' at the top
        depth, at = 0, 0
        for m in re.finditer(r"[(){}]|(?<!\S)in(?=\s)|(?<!\S)let(?=\s)", rest):
            if m[0] in "({":
                depth += 1
            elif m[0] in ")}":
                depth -= 1
            elif m[0] == "in" and depth == 0:
                at = m.end()
        pre, e = rest[:at], rest[at:].strip()
        parts = tuple_parts(e)
        while parts and len(parts) < len(names) and (last := tuple_parts(parts[-1])):
            parts = parts[:-1] + last
        if len(names) == 1:
            parts = [e]
        elif parts is None or len(parts) < len(names):
            last = len(names) - 1
            parts = [f"({e})" + ".1" * i + (".0" if i < last else "") for i in range(len(names))]
        if len(parts) > len(names):
            parts = parts[: len(names) - 1] + ["(" + ", ".join(parts[len(names) - 1 :]) + ")"]
        quoted = ["«record»" if n == "record" else n for n in names]
        return f"{head} ={pre}\n    record {{ " + "; ".join(f"{n} = {p}" for n, p in zip(quoted, parts)) + " }"

    def aliases(self, body, var, place):
        """Writes out names that a 'let' gives to an earlier place; a name of a step that calls a function has its tuples turned."""
        while m := re.search(r"let (" + NAME + r") = (" + re.escape(var) + r"(?:\.before)+) in *\n? *", body):
            x = m[1]
            body = body[: m.start()] + re.sub(r"(?<![^\s(){};,])(?<!let )" + re.escape(x) + r"(?=\.|[\s()};,]|$)", m[2], body[m.end() :])
        # a name of what a match arm gives is written out
        for m in list(re.finditer(r"let (" + NAME + r") = (" + re.escape(var) + r"((?:\.before)*)\.(" + NAME + r")(?:\.given(?:\.\d+)*)?) in *\n? *", body)):
            new, callee, at = self.field(place, m[3].count(".before"), m[4])
            if callee is None and at in self.arms:
                body = body.replace(m[0], "")
                body = re.sub(r"(?<![^\s(){};,])" + re.escape(m[1]) + r"(?=\.|[\s()};,]|$)", m[2], body)
        for m in list(re.finditer(r"let (" + NAME + r") = (" + re.escape(var) + r"((?:\.before)*)\.(" + NAME + r"))\.(?:auto|new) in", body)):
            new, callee, at = self.field(place, m[3].count(".before"), m[4])
            if callee:
                ps = self.d["params"].get(callee, [])
                body = re.sub(r"(?<![^\s(){};,])(" + re.escape(m[1]) + r")((?:\.1)*)\.0(?=[\s(){};,.]|$)", lambda k: f"{k[1]}.{ps[k[2].count('1')] if k[2].count('1') < len(ps) else k[2]}", body)
        for m in list(re.finditer(r"let (" + NAME + r") = (" + re.escape(var) + r"((?:\.before)*)\.(" + NAME + r")) in", body)):
            new, callee, at = self.field(place, m[3].count(".before"), m[4])
            if callee:
                body = re.sub(r"(?<![^\s(){};,])(" + re.escape(m[1]) + r"\.ensures)((?:\.\d+)+)", lambda k: self.nested(callee, k[1], k[2].split(".")[1:]), body)
                body = re.sub(r"(?<![^\s(){};,])(" + re.escape(m[1]) + r"\.ensures)(?![^\s(){};,])", lambda k: self.whole(callee, k[1]), body)
                body = re.sub(r"(?<![^\s(){};,])(" + re.escape(m[1]) + r")\.(new|auto|type_inv)((?:\.1)*)\.0(?=[\s(){};,.]|$)", lambda k: f"{k[1]}.{k[2]}.{(self.d['params'].get(callee, []) + [str(k[3].count('1'))] * 99)[k[3].count('1')]}", body)
        return body

    def paths(self, body, var, place):
        """Turns the paths that begin with var, a record of the place."""
        body = self.aliases(body, var, place)
        body = self.passed(body, var, place, 1 if var == getattr(self, "var", "c") and self.in_answer else 0)

        def one(m):
            rest = m[2]
            back = 0
            while rest.startswith(".before"):
                back += 1
                rest = rest[len(".before") :]
            if rest.startswith(".BEFORE"):
                return m[0]
            fm = re.match(r"\.(" + NAME + r")(.*)$", rest, re.S)
            if not fm:
                return m[1] + ".before" * (back + 1) if (back or True) else m[0]
            name, more = fm[1], fm[2]
            new, callee, at = self.field(place, back, name)
            if callee is None and (k := self.arm(at, name, more)):
                return m[1] + k
            if at in self.arms:
                new = self.arms[at][0]
            if callee and more == ".ensures":
                return self.whole(callee, f"{m[1]}.{new}.ensures")
            if callee and (t := re.match(r"\.ensures((?:\.\d+)+)(.*)$", more, re.S)):
                got = self.nested(callee, f"{m[1]}.{new}.ensures", t[1].split(".")[1:])
                if not t[2] or not got.startswith("("):
                    return got + t[2]
            if name == "requires" and (t := re.match(r"((?:\.\d+)+)(.*)$", more, re.S)):
                more = self.nested(self.key(), "", t[1].split(".")[1:], "requires") + t[2]
            if callee and (t := re.match(r"\.(new|auto|type_inv)((?:\.1)*)\.0(.*)$", more, re.S)):
                k = t[2].count("1")
                ps = self.d["params"].get(callee, [])
                if k < len(ps):
                    more = f".{t[1]}.{ps[k]}{t[3]}"
            return f"{m[1]}.{new}{more}"

        body = re.sub(r"\((" + re.escape(var) + r")\)(?=\.)", r"\1", body)
        return re.sub(r"(?<![^\s(){};,])(" + re.escape(var) + r")((?:\." + NAME + r")+)(?![^\s(){};,])", one, body)

    def type_of(self, body):
        """Types of helpers: records of places."""

        def one(m):
            old = m[1]
            for k, n in self.new_place.items():
                if DASH(k) == DASH(old):
                    self.used_lts = True
                    return f"lts.{k} tie.the-claims reads.Pre reads.Post" + "".join(f" goal.the-invariant-{l[0]} goal.the-decreases-{l[0]}" for l in self.loop_order()) + (" tie.handed_clauses" if any(len(LABELS.get(k, {}).get("ensures", [])) > 1 for k in [self.key(), *self.d["params"]]) else "")
            return m[0]

        return re.sub(r"tie\.((?:After|Then|Else|In|At|Start|Join)[^\s(){};,]*)((?: (?:invariant|decreases)-" + NAME + r")*)", one, body)

    def loop_order(self):
        return list(self.loops.values())

    used_lts = False

    def invariants(self):
        out = []
        for d in self.decls:
            if not d.kind or not d.kind.startswith(("invariant-", "decreases-")):
                continue
            what, loop = d.kind.split("-", 1)
            got = self.loops.get(DASH(loop))
            if not got:
                # a measure of a recursion, or a loop that is gone
                self.notes.append(f"{d.kind}: no such loop now")
                continue
            new, vs, ch = got
            text = "\n".join(d.lines[1:])
            unfold = ""
            while text.startswith("unfolding"):
                u, text = text.split("\n", 1)
                unfold += u + "\n"
            m = re.match(re.escape(d.name) + r"((?: [^\s=]+)*) =(.*)$", text, re.S)
            if not m:
                self.notes.append(f"{d.kind}: not read: {text[:80]}")
                continue
            args, body = m[1].split(), m[2]
            want = [("l." if not c else "l.initial.") + v for v, c in zip(vs, ch)] + ["l." + v for v, c in zip(vs, ch) if c]
            if len(args) != len(want):
                self.notes.append(f"{d.kind}: {len(args)} arguments and not {len(want)}: {args} {want}")
                continue
            table = dict(zip(args, want))
            table.pop("_", None)
            bound = set(re.findall(r"\(([^()]*?) :", body)) | set(re.findall(r"λ ([^.]*)\.", body))
            for b in bound:
                for n in b.split():
                    if n.strip("()") in table:
                        self.notes.append(f"{d.kind}: {n} is bound again")
            body = re.sub(r"(?<![^\s(){};,\[])(" + "|".join(map(re.escape, sorted(table, key=len, reverse=True))) + r")(?![^\s(){}.;,\]])", lambda m: table[m[1]], body)
            out.append(f"{chr(10).join(d.comment + ['']) if d.comment else ''}abbrev pub {what}-{new} : goal.{what}-{new}\n{unfold}{what}-{new} l ={body}")
        return out

    def answer(self, d, new):
        text = "\n".join(d.lines)
        # from the first clause on
        i = 1
        while i < len(d.lines) and not re.match(re.escape(d.name) + r"(?: |$)|unfolding", d.lines[i]):
            i += 1
        rest = d.lines[i:]
        out = list(d.comment) + [f"pub {new} : goal.{new}"]
        place = self.asked[new]
        for l in rest:
            if l.startswith("unfolding"):
                out.append(l)
                continue
            if re.match(re.escape(d.name) + r"(?: |$)", l):
                l = new + l[len(d.name) :]
                l = re.sub(r"^(" + re.escape(new) + r" \S+) κs =", r"\1 =", l)
                v = re.match(re.escape(new) + r" ([^\s=]+)", l)
                self.var = v[1] if v else "c"
            out.append(l)
        body = "\n".join(out)
        self.in_answer = True
        body = self.paths(body, getattr(self, "var", "c"), place).replace(".BEFORE", ".before")
        self.in_answer = False
        body = re.sub(r"(?:not-true|not-false) \S+ (c\.[^\s()]+)", r"\1", body).replace(".well-formed", ".well_formed")
        for o, n in [x for x in self.d["args"] if x[0].startswith(".args .")]:
            body = re.sub(r"(?<![^\s(){};,])((?:\w+\.)?args|a)\." + re.escape(o[7:]) + r"(?=[\s(){};,.]|$)", r"\1." + n[7:], body)
        if new == "returns" or new.startswith("returns-"):
            first = body.index("\n" + new + " ")
            body = body[:first] + self.as_record(body[first:])
        elif m := re.match(r"(.*)-requires(?:-\d+)?$", new):
            f = m[1].split("-")[0]
            found = [k for k in LABELS if k.split("::")[-1] == f]
            found = [k for k in found if k.startswith(self.crate + "::")] or found
            if found and len(names := LABELS[found[0]]["requires"]) > 1:
                first = body.index("\n" + new + " ")
                body = body[:first] + self.as_record(body[first:], names)
        return self.type_of(body)

    def helper(self, d):
        if d.mark.startswith(("pub",)) and d.name.endswith(("_spec", "-spec")):
            return None
        text = "\n".join(d.lines)
        for m in re.finditer(r"\((\w+) : tie\.((?:After|Then|Else|In|At|Start|Join)[^\s(){};,]*)", text):
            for k in self.places:
                if DASH(k) == DASH(m[2]):
                    text = self.paths(text, m[1], k).replace(".BEFORE", ".before")
        text = re.sub(r"(?:not-true|not-false) \S+ (\w+\.[^\s()]+)", r"\1", text)
        return "\n".join(d.comment + [self.type_of(text)])

    def answers(self, wanted):
        out, got = [], set()
        for d in self.decls:
            if d.kind and d.kind.startswith("Need-"):
                n = self.need(d.kind)
                if n is None:
                    self.notes.append(f"{d.kind}: no such goal now")
                elif wanted is None or n in wanted:
                    out.append(self.answer(d, n))
                    got.add(n)
        missing = [] if wanted is None else [w for w in wanted if w not in got]
        helpers = [h for d in self.decls if not d.kind and (h := self.helper(d))]
        return helpers, out, missing


def uses_of(fn, text, module):
    out = []
    for u in fn.uses:
        if re.search(r"\.(Statement|Tie)\b", u):
            continue
        m = re.match(r"use ([^\s{]+)\.\{(.*)\}$", u)
        if m:
            keep = []
            for n in [x.strip() for x in m[2].split(",")]:
                word = n.split(" as ")[-1]
                core = word.strip("◌")
                if word in ("rules", "arith") or "◌" in word or re.search(r"(?<![^\s(){}.;,\[\]@])" + re.escape(core) + r"(?![^\s(){}.;,\[\]])", text):
                    keep.append(n)
            if keep:
                out.append(f"use {m[1]}.{{{', '.join(keep)}}}")
        else:
            out.append(u)
    out.append(f"use {module} as goal")
    return out


def write(path, fn, parts, module, lts=False):
    text = "\n\n".join(parts)
    uses = uses_of(fn, text, module)
    if lts:
        base = module[: -len(".Goals")]
        uses += [f"use {base}.Lts as lts", f"use {base}.Tie as tie", f"use {base}.Reads as reads"]
    os.makedirs(os.path.dirname(path), exist_ok=True)
    open(path, "w", encoding="utf-8").write("\n".join(fn.head + uses) + "\n\n" + text + "\n")


def main(crate, only=None):
    top = os.getcwd()
    where = f"crates/{crate}"
    olds = old_files(crate)
    for f in olds:
        p = f"{where}/proofs/{f}/Proof.antt"
        if not f.split("/")[-1].startswith("+"):
            for q in (p, p.replace("/Proof.", "/Answers."), p.replace("/Proof.", "/Invariants.")):
                if os.path.exists(q):
                    os.remove(q)
    gen = os.path.join(tempfile.gettempdir(), "names", crate)
    subprocess.run(["rm", "-rf", gen])
    log = sh("rt", "check", "--generated", gen, "--old-names", cwd=where)
    if not os.path.exists(gen + "/names.json"):
        print(log[-3000:])
        return 1
    data = json.load(open(gen + "/names.json"))
    fns = {}
    for f, text in olds.items():
        key = f"Rattle-{crate}-proofs.{f.replace('/', '.')}.Lts"
        if key not in data:
            print("no names for", f)
            continue
        fns[f] = Function(crate, f, data[key], text)
    for f, fn in fns.items():
        inv = fn.invariants()
        if inv:
            write(f"{where}/proofs/{f}/Invariants.antt", fn, inv, f"Rattle.{crate}.proofs.{f.replace('/', '.')}.Given")
    log = sh("rt", "check", "--allow-holes", cwd=where)
    open(f"{gen}.log1", "w").write(log)
    asked = {}
    for m in re.finditer(r"(?m)^fn (\S+): no proof: expected answers in \./proofs/(\S+)/Answers\.antt; `search` did not prove (.*)$", log):
        asked[m[2]] = sorted({re.sub("-clause-.*", "", g) for g in re.findall(r"`([^`]+)`", m[3]) if "::" not in g})
    for f, goals in asked.items():
        fn = fns.get(f)
        if not fn:
            print("left: no old proof of", f, goals)
            continue
        helpers, ans, missing = fn.answers(goals)
        text = "\n".join(ans)
        used = [h for h in helpers if True]
        write(f"{where}/proofs/{f}/Answers.antt", fn, used + ans, f"Rattle.{crate}.proofs.{f.replace('/', '.')}.Goals", fn.used_lts)
        if missing:
            print(f"left: {f}: no old answer for {missing}")
    for f, fn in fns.items():
        for n in fn.notes:
            if not re.search("no such goal", n):
                print(f"look: {f}: {n}")
    sh("rt", "fmt", cwd=where)
    log = sh("rt", "check", cwd=where)
    open(f"{gen}.log2", "w").write(log)
    n = len(re.findall(r"(?m)^fn .*: proved", log))
    print(f"{crate}: {n} proved;", "\n".join(re.findall(r"(?m)^logic=.*$", log)))
    for l in log.split("\n"):
        if re.match(r"fn .*(no proof|not proved)|.*: error", l):
            print("  ", l[:600])
    return 0


if __name__ == "__main__":
    for c in sys.argv[1:]:
        main(c)
