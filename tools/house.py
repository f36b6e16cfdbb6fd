"""What tools/reach and tools/cite read of the crates; no program by itself.

    files(pattern)          paths under the top of the clone, in order
    Antt(path)              a file of specs/ or proofs/: its definitions with their lines, and what its `use` lines name
    Code(path)              a file of src/: its structs and enums, and its functions with their contracts
    House()                 all crates together: `reached` is what some names reach in definitions
    edits(crate)            the must-fail edits: name, first line, and whether it is one of a definition

One definition is a name with its type and its equations, an antt record with its fields, an antt data type with its constructors, or a
struct or an enum of src/ with its fields or cases. What the kit brings (std, mathlib, Prim, lib) is not in the crates and is not read.
"""
import glob, os, re, sys

TOP = os.path.dirname(os.path.dirname(os.path.abspath(__file__)))
DECLARES = re.compile(r"(?:(?:pub|abbrev|unfoldable) )*(?:(record|data) ([^\s:]+)|([^\s:(){}]+) :(?=\s|$))")
MEMBER = re.compile(r"  (?:pub )?((?:[^\s:(){}]+ )+):(?=\s|$)")
USE = re.compile(r"(?:ghost )?use ([^\s{;]+?)(?:\.\{([^}]*)\})?(?: as (\S+?))?;?$")
MODULE = re.compile(r"Rattle\.(\w+)\.(specs|proofs)\.(\S+)$")


def files(pattern):
    return sorted(glob.glob(pattern, recursive=True))


def read(path):
    with open(path, encoding="utf-8") as file:
        return file.read()


def bare(line, comment):
    """A line without its comment and what stands in quotes."""
    return re.sub(r"(?:^|(?<=\s))%s.*$" % comment, "", re.sub(r'"[^"]*"', '""', line)).rstrip()


def words(text):
    return re.findall(r"[(){};,]|[^\s(){};,]+", text)


def free(text, bound):
    """The names in a term that are not bound: by those given, by λ, or by (x : A). Binders at the top are added to those given."""
    scopes, out, w, k = [bound], [], words(text) + [";"], 0
    while k < len(w) - 1:
        word = w[k]
        if word in "({":
            end = k + 1
            while w[end] not in "(){};,:=→":
                end += 1
            if w[end] == ":" and end > k + 1:
                scopes[-1].update(w[k + 1:end])
                k = end
            scopes.append(set())
        elif word in ")}":
            scopes.pop()
        elif word == "λ":
            while not w[k].endswith("."):
                k += 1
                scopes[-1].add(w[k].rstrip("."))
        elif word[0] != "." and w[k + 1] != "=" and not any(word in s for s in scopes):
            out.append(word)
        k += 1
    return out


class Definition:
    def __init__(self, name, path, line, form, text):
        self.name, self.path, self.line, self.form, self.parts, self.members = name, path, line, form, [text], []
        self.crate, self.abbrev = path.split("/")[1], False

    def names(self, scope):
        """The names that it mentions, in order. What an equation's left side binds is left out, and the constructors there are not."""
        bound = set(self.members) if self.form in ("struct", "enum") else set()
        out = free(self.parts[0], bound)
        for part in self.parts[1:]:
            if self.form:
                names, rest = part.split(" :", 1) if " :" in part else ("", part)
                out += free(rest, bound if self.form == "record" else set(bound))
                bound.update(names.split() if self.form == "record" else [])
            else:
                left, right = (re.split(r" =(?=\s|$)", part, maxsplit=1) + [""])[:2]
                heads = [w for w in words(left) if w not in "(){};,"]
                made = [w for w in heads if w in scope and w in scope[w].members]
                out += made + free(right, set(heads) - set(made))
        return out


class Antt:
    def __init__(self, path):
        self.path, self.definitions, self.uses = path, [], []
        current = None
        for number, line in enumerate(read(path).split("\n"), 1):
            line = bare(line, "--")
            use, begins, member = USE.match(line), DECLARES.match(line), MEMBER.match(line)
            if use:
                self.uses.append(use.groups())
            elif line.startswith(("pub mod ", "infix")) or not line:
                continue
            elif begins:
                current = Definition(begins[2] or begins[3], path, number, begins[1] or "", line[begins.end():])
                current.abbrev = "abbrev " in begins[0]
                self.definitions.append(current)
            elif current and current.form and member:
                current.members += member[1].split()
                current.parts.append(line.strip().replace("pub ", "", 1))
            elif current and line[0] != " ":
                current.parts.append(line)
            elif current:
                current.parts[-1] += " " + line.strip()


class Function:
    """A function of the code. Clauses are pairs of a name, empty where there is none, and a text."""
    def __init__(self, path, line, name, public, exported, parameters, result):
        self.path, self.line, self.name, self.public, self.exported = path, line, name, public, exported
        self.parameters, self.result, self.requires, self.ensures = parameters, result, [], []
        self.crate = path.split("/")[1]


def closing(text, at):
    """The place behind the bracket that closes the one at a place."""
    depth = 0
    for k in range(at, len(text)):
        depth += (text[k] in "([{") - (text[k] in ")]}")
        if depth == 0:
            return k + 1
    return len(text)


class Code:
    def __init__(self, path):
        lines = read(path).split("\n")
        text = "\n".join(bare(line, "//") for line in lines)
        self.path, self.text, self.types, self.functions = path, text, [], []
        self.uses = [m.groups() for m in map(USE.match, lines) if m and "ghost" in m[0]]
        line_of = lambda at: text.count("\n", 0, at) + 1
        for m in re.finditer(r"\b(struct|enum) (\w+) \{(.*?)\n\}", text, re.S):
            made = Definition(m[2], path, line_of(m.start()), m[1], m[3].replace(":", " "))
            made.members = re.findall(r"^    (?:pub )?(\w+)", m[3], re.M)
            self.types.append(made)
        for m in re.finditer(r'^ *(pub )?(extern "" )?fn (\w+)\s*(?:<[^>]*>)?\(', text, re.M):
            behind = closing(text, m.end() - 1)
            end = re.compile(r"\s*(?:->\s*([^\n{]+?))?\s*(?=\{|requires\b|ensures\b)").match(text, behind)
            parameters = re.findall(r"(\w+): ", text[m.end():behind]) + re.findall(r"\bself\b", text[m.end():behind])
            made = Function(path, line_of(m.start(3)), m[3], bool(m[1]), bool(m[2]), parameters, end[1] or "")
            at = end.end()
            clause = re.compile(r"\s*(requires|ensures)\s*(\w+)?\s*(?=\{)")
            while clause.match(text, at):
                c = clause.match(text, at)
                at = closing(text, c.end())
                getattr(made, c[1]).append((c[2] or "", " ".join(text[c.end() + 1:at - 1].split())))
            self.functions.append(made)


class House:
    def __init__(self):
        self.specs = {p: Antt(p) for p in files("crates/*/specs/**/*.antt")}
        self.code = {p: Code(p) for p in files("crates/*/src/**/*.rt")}
        self.types = {(t.crate, t.name): t for c in self.code.values() for t in c.types}
        self.functions = [f for c in self.code.values() for f in c.functions]
        self.with_functions = {f.crate for f in self.functions}
        self.scopes, self.depths = {}, {}

    def module(self, name):
        """What a module of specs brings: a name for each definition, constructor and case. None for a module of the kit."""
        m = MODULE.match(name)
        if not m or not os.path.isdir("crates/" + m[1]):
            return None
        crate, folder, rest = m.groups()
        if rest.startswith("declared."):
            made = self.types.get((crate, rest.split(".")[1]))
            return {} if made is None else {n: made for n in [made.name] + (made.members if made.form == "enum" else [])}
        path = "crates/%s/%s/%s.antt" % (crate, folder, rest.replace(".", "/"))
        return self.declared(self.specs[path].definitions) if path in self.specs else {}

    def declared(self, definitions):
        out = {}
        for d in definitions:
            for name in (d.members if d.form == "data" else []) + [d.name]:
                for part in [name] + [p for p in name.split("◌") if p and "◌" in name]:
                    out[part] = d
        return out

    def scope(self, file):
        """The definition that each name means in a file."""
        if file.path not in self.scopes:
            out = {}
            for module, names, other in file.uses:
                brought = self.module(module)
                if brought is None:
                    continue
                for n in re.split(r",\s*", names) if names else []:
                    n, as_ = (n.split(" as ") + [n])[:2]
                    if n not in brought:
                        sys.exit("house: %s uses %s of %s, which is not found" % (file.path, n, module))
                    out[as_.strip("◌")] = brought[n]
                if other:
                    out.update({"%s.%s" % (other, n): d for n, d in brought.items()})
            out.update(self.declared(file.definitions) if isinstance(file, Antt) else {})
            self.scopes[file.path] = out
        return self.scopes[file.path]

    def named(self, definition):
        """The definitions that a definition names."""
        if definition.path in self.code:
            here = {t.name: t for t in self.code[definition.path].types}
            here.update({n: self.types[c, n] for c, n in re.findall(r"use (\w+)::(\w+);", self.code[definition.path].text) if (c, n) in self.types})
        else:
            here = self.scope(self.specs[definition.path])
        return [here[n] for n in definition.names(here) if n in here]

    def begins(self, function, clauses):
        """The definitions that clauses of a function name, each once."""
        scope, bound = self.scope(self.code[function.path]), set(function.parameters)
        return list(dict.fromkeys(scope[n] for _, text in clauses for n in free(text, set(bound)) if n in scope))

    def reached(self, begins):
        found = list(begins)
        for definition in found:
            found += [d for d in dict.fromkeys(self.named(definition)) if d not in found]
        return found


def edits(crate):
    """The edits of a crate: (name, first line, whether a definition is edited)."""
    out = []
    for path in files("crates/%s/must-fail/*.edit" % crate):
        text = read(path)
        out.append((os.path.basename(path)[:-5], text.split("\n", 1)[0], "\nfile: src" not in text))
    return out
