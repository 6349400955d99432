#!/usr/bin/env python3
"""Brings the repository's own names in specs/ and proofs/ to snake case: definitions, lemmas, fields and constructors.

usage: tools/snake_case.py [--list]       at the top of the repository, once

Types and modules keep their capitals. Names of the library and names that Rattle makes keep their spelling, as do strings, comments'
plain words and the code of src/. A lemma that would fall on a definition's name, or on one of the library's, gets `_lem`.
"""
import os
import re
import sys

TOKEN = re.compile(r"[^\s(){}\[\].;,\"`]+")
NAME = r"[^\s(){}\[\].;,\"`:]+"
DECLARED = re.compile(r"^(\s*)(?:(?:pub|abbrev|unfoldable)\s+)*(" + NAME + r")\s+:(?=\s)")
BLOCK = re.compile(r"^(\s*)(?:pub\s+)?(record|data)\s+\S")
IMPORT = re.compile(r"^[ \t]*(?:pub |ghost |pub ghost )*use\s+([^{;\s]+?)(?:\.\{([^}]*)\})?(?:\s+as\s+\S+)?;?[ \t]*$", re.M)


# Definitions that would fall on the words of a policy file.
CHOSEN = {
    "denyOverrides": "deny_overrides_algorithm",
    "permitOverrides": "permit_overrides_algorithm",
    "firstApplicable": "first_applicable_algorithm",
    "onlyOneApplicable": "only_one_applicable_algorithm",
}


def snake(name):
    if name in CHOSEN:
        return CHOSEN[name]
    if not re.match(r"[a-z]", name):
        return name
    name = re.sub(r"(?<![A-Za-z])getD(?![A-Za-z])", "get_or", name)
    name = re.sub(r"(?<=[a-z0-9'])-(?=[a-zA-Z0-9])", "_", name)
    return re.sub(r"(?<=[a-z0-9])([A-Z])(?=[a-z0-9])", lambda m: "_" + m[1].lower(), name)


def files(top):
    for folder, dirs, names in os.walk(os.path.join(top, "crates")):
        dirs[:] = sorted(d for d in dirs if d != "out")
        for f in sorted(names):
            if f.endswith((".antt", ".rt")):
                yield os.path.join(folder, f)


def is_walk(path):
    return os.path.basename(path) == "Proof.antt"


def module_of(path):
    """crates/text/specs/Runs.antt is Rattle.text.specs.Runs."""
    words = path[: path.rindex(".")].split("/")
    return "Rattle." + ".".join(words[words.index("crates") + 1 :])


def parts(line):
    """(text, kind) of a line: kind is 'code', 'string' or 'comment'."""
    out, i, start, n = [], 0, 0, len(line)
    while i < n:
        if re.match(r"--(\s|$)", line[i:]) and (i == 0 or line[i - 1].isspace()) or line.startswith("//", i):
            out += [(line[start:i], "code"), (line[i:], "comment")]
            return out
        if line[i] == '"':
            out.append((line[start:i], "code"))
            j = i + 1
            while j < n and line[j] != '"':
                j += 2 if line[j] == "\\" else 1
            out.append((line[i : j + 1], "string"))
            i = start = j + 1
            continue
        i += 1
    return out + [(line[start:], "code")]


def code_of(text):
    return "\n".join("".join(t if k == "code" else " " for t, k in parts(l)) for l in text.split("\n"))


def declarations(code):
    """(name, kind) of each declaration of a file of specs/ or proofs/: 'field', 'constructor' or 'definition'."""
    block = None
    for line in code.split("\n"):
        if not line.strip():
            continue
        deep = len(line) - len(line.lstrip())
        if block and deep <= block[0]:
            block = None
        m = BLOCK.match(line)
        if m:
            block = (len(m[1]), "field" if m[2] == "record" else "constructor")
            continue
        m = DECLARED.match(line)
        if m:
            yield m[2], block[1] if block else "definition"


def imports(code):
    """(module, name, name here) of each import."""
    for m in IMPORT.finditer(code):
        for it in (m[2] or "").split(","):
            words = it.split()
            if words:
                yield m[1], words[0], words[-1]


class Names:
    def __init__(self, top):
        self.code, self.text, self.own, self.fields, foreign, defined, fresh = {}, {}, {}, set(), set(), set(), set()
        for path in files(top):
            with open(path, encoding="utf-8") as f:
                self.text[path] = f.read()
            self.code[path] = code_of(self.text[path])
        for path, code in self.code.items():
            if path.endswith(".antt") and not is_walk(path):
                module = module_of(path)
                for name, kind in declarations(code):
                    self.own[module, name] = kind
                    if kind == "field":
                        self.fields.add(name)
                for _, name, here in imports(code):
                    if name != here and (module, here) not in self.own:
                        self.own[module, here] = "alias"
        for code in self.code.values():
            for module, name, _ in imports(code):
                if (module, name) not in self.own:
                    foreign.add(name)
        for (module, name), kind in self.own.items():
            if kind in ("definition", "constructor") and "-" not in name and (".specs." in module or snake(name) != name):
                defined.add(snake(name))
                if snake(name) != name:
                    fresh.add(snake(name))
        self.turn, self.said = {}, []
        for (module, name), kind in self.own.items():
            to = snake(name)
            falls = to in (defined | foreign if "-" in name else fresh if to == name and ".proofs." in module else ())
            if falls and kind == "definition":
                to += "_lem"
            elif falls and kind == "constructor" and ".proofs." in module:
                to = "a_" + to
            if to != name:
                self.turn[module, name] = to
        self.fields_to = {name: snake(name) for name in self.fields if snake(name) != name}
        taken = {name for _, name in self.own}
        for (module, name), to in self.turn.items():
            if to.endswith("_lem") and to in taken:
                self.said.append(f"falls together: {module} {name} {to}")

    def scope(self, path):
        """What each name of a file is turned to, and who else has that spelling there."""
        code, module, here, where = self.code[path], module_of(path), {}, {}
        for source, name, local in imports(code):
            to = self.turn.get((source, name), name)
            if name == local:
                here[local] = to
            where.setdefault(to if name == local else self.turn.get((module, local), local), set()).add((source, name))
            if name != local:
                here[name] = to
        if path.endswith(".antt") and not is_walk(path):
            for (m, name), kind in self.own.items():
                if m == module and kind != "field":
                    here[name] = self.turn.get((m, name), name)
                    if kind != "alias":
                        where.setdefault(here[name], set()).add((m, name))
        for to, froms in where.items():
            if len(froms) > 1:
                self.said.append(f"falls together: {path} {to} {sorted(froms)}")
        return here

    def respelled(self, path):
        here, lines = self.scope(path), self.text[path].split("\n")

        def one(m, line):
            name, behind_dot = m[0], m.start() and line[m.start() - 1] == "."
            if behind_dot:
                return self.fields_to.get(name, name)
            return here[name] if name in here else self.fields_to.get(name, name)

        def quoted(text):
            return TOKEN.sub(lambda m: one(m, text), text)

        out = []
        for line in lines:
            done = []
            for t, kind in parts(line):
                if kind == "code":
                    t = TOKEN.sub(lambda m: one(m, t), t)
                elif kind == "comment":
                    t = re.sub(r"`([^`]*)`", lambda m: "`" + quoted(m[1]) + "`", t)
                    t = re.sub(r"\b[a-z]+[a-z0-9]*[A-Z][A-Za-z]*\b", lambda m: here.get(m[0], snake(m[0])), t)
                done.append(t)
            out.append("".join(done))
        return "\n".join(out)


def main():
    names = Names(os.getcwd())
    new = {path: names.respelled(path) for path in names.text}
    print("\n".join(names.said))
    if "--list" in sys.argv:
        for (module, name), to in sorted(names.turn.items()):
            print(module, name, to)
        return
    n = 0
    for path, text in new.items():
        if text != names.text[path]:
            n += 1
            with open(path, "w", encoding="utf-8") as f:
                f.write(text)
    print(f"{len(names.turn)} names turned in {n} files")


if __name__ == "__main__":
    main()
