#!/usr/bin/env python3
"""Brings the repository's own names in specs/, proofs/ and contracts to the spelling of today's Rattle.

usage: python3 tools/respell.py [--list]      at the top of the repository; --list only prints the names

A definition, a field, a constructor or a ghost member is in snake case, a type or a fact in upper camel case. A lemma keeps a dash
where it joins the names of two definitions, as in length-row. What the source calls a_b is called so in the names that the check makes,
as in if-a_b. Functions of src/, strings, inputs and outputs keep their names.
"""

import os
import re
import sys

HEAD = re.compile(r"^(\s*)(?:abbrev pub |unfoldable pub |pub |abbrev |unfoldable )?([^\s(){},;.:]+)((?: \{?\(?[^:=]*\)?\}?)?) : (.*)$")
TYPE = re.compile(r"^\s*(?:pub )?(?:record|data) ([^\s(){},;.:]+)")
TOKEN = re.compile(r"[^\s(){}\[\],;.:`\"]+")
FACTS, FIELDS = set(), set()
# names that are bound in a definition, or by an import
BOUND = {n: n.replace("-", "_") for n in ("latest-at", "latest-at'", "nodes-fit", "other-is", "timeline-at")}
STD = set("length take drop map append reverse get_or set sum has filter all replicate cond min max sub add nth mem".split())


def files(ending, *under):
    for root, dirs, names in os.walk("crates"):
        dirs[:] = sorted(d for d in dirs if d not in ("out", ".git"))
        parts = root.split(os.sep)
        if len(parts) > 2 and (not under or parts[2] in under):
            for n in sorted(names):
                if n.endswith(ending):
                    yield os.path.join(root, n)


def read(p):
    with open(p, encoding="utf-8") as f:
        return f.read()


def code(line):
    return line.split("--")[0] if line.lstrip().startswith("--") else line


def definitions(p):
    """The names that a file defines, goals of the check left out."""
    record = None
    for line in read(p).split("\n"):
        line = code(line)
        depth = len(line) - len(line.lstrip())
        if line.strip() and record is not None and depth <= record:
            record = None
        m = TYPE.match(line)
        if m:
            record = depth if "record" in line and line.rstrip().endswith("where") else None
            yield m[1]
            continue
        m = HEAD.match(line)
        if m and not re.match(r"(?:goal|given|need)\.", m[4]) and m[2] not in ("let", "λ", "use", "where"):
            if m[4].endswith("Type 0"):
                FACTS.add(m[2])
            if record is not None:
                FIELDS.add(m[2])
            yield m[2]


def ghosts(p):
    for m in re.finditer(r"\bghost ([A-Za-z_][A-Za-z0-9_]*):", read(p)):
        yield m[1]


def snake(name):
    name = re.sub(r"([a-z0-9])([A-Z])", lambda m: m[1] + "_" + m[2].lower(), name)
    return name.replace("-", "_")


def camel(name):
    return "".join(w[:1].upper() + w[1:] for w in name.split("-"))


def spelling(name, defined, lemma):
    if name[:1].isupper():
        # a fact; a lemma of a fact, as All-append, keeps its dash
        head, _, rest = name.partition("-")
        return camel(name) if not lemma or name in FACTS or not rest else name
    if name.startswith("getD-"):
        name = "get_or-" + name[5:]
    parts = name.split("-")
    for i in range(1, 1 if name in FIELDS else len(parts)):
        left, right = "_".join(parts[:i]), "_".join(parts[i:])
        if right in defined and (left in ("length", "get_or") or lemma and left in defined):
            return left + "-" + right
    return snake(name)


def main():
    specs, lemmas = set(), set()
    for p in files(".antt", "specs"):
        specs.update(definitions(p))
    for p in files(".antt", "proofs"):
        lemmas.update(definitions(p))
    for p in files(".rt", "src"):
        specs.update(ghosts(p))
    lemmas -= specs
    defined = {snake(n) for n in specs if not n[:1].isupper()} | STD
    table = dict(BOUND)
    for name in sorted(specs | lemmas):
        if not re.match(r"[A-Za-z]", name) or name.endswith("-law"):
            continue
        new = spelling(name, defined, name in lemmas)
        if new != name:
            table[name] = new
    back = {}
    for name in sorted(specs | lemmas):
        back.setdefault(table.get(name, name), []).append(name)
    for new, olds in back.items():
        if len(olds) > 1:
            print("fall together:", new, olds)
    words = set()
    for p in files(".rt", "src"):
        text = re.sub(r"//.*", "", read(p))
        words.update(m[1] for m in re.finditer(r"(?:let (?:mut )?|[(,|] ?(?:mut )?|pub |const )([a-z][a-z0-9_]*_[a-z0-9_]*|[A-Z_]+)(?::| =| in)", text))
    for w in sorted(words & set(table.values())):
        print("also a field, parameter or local:", w)
    if "--list" in sys.argv:
        for a in sorted(table):
            print(a, "->", table[a])
        return

    def own(m):
        return table.get(m[0], m[0])

    for p in [*files(".antt"), *files(".rt"), *files(".edit")]:
        old = text = read(p)
        text = TOKEN.sub(own, text)
        crate = p.split(os.sep)[1]
        if p.endswith(".antt") and "/proofs/" in p:
            names = set()
            for s in files(".rt", "src"):
                if s.split(os.sep)[1] == crate:
                    names.update(re.findall(r"\b[A-Za-z][A-Za-z0-9]*(?:_[A-Za-z0-9]+)+\b", re.sub(r"//.*", "", read(s))))
            dashed = sorted(((n.replace("_", "-"), n) for n in names), key=lambda x: -len(x[0]))
            kept = set(table.values()) | specs | lemmas

            def made(m):
                t = m[0]
                if "-" not in t or t in kept:
                    return t
                for a, b in dashed:
                    t = re.sub(r"(?<![A-Za-z0-9_'])" + re.escape(a) + r"(?![A-Za-z0-9_'])", b, t)
                return t

            if os.path.basename(p) in ("Answers.antt", "Invariants.antt", "Proof.antt"):
                text = TOKEN.sub(made, text)
        # the library's older All under its own name: in specs/ the name All is the library's newer one
        if "AllByRecursion as All" in text:
            text = text.replace("AllByRecursion as All", "AllByRecursion")
            text = TOKEN.sub(lambda m: "AllByRecursion" if m[0] == "All" else m[0], text)
        if text != old:
            with open(p, "w", encoding="utf-8") as f:
                f.write(text)
    for p in ["README.md"] + sorted(os.path.join("docs", n) for n in os.listdir("docs") if n.endswith(".md") and n != "PORT.md"):
        old = read(p)
        text = re.sub(r"`[^`\n]+`", lambda m: TOKEN.sub(own, m[0]), old)
        if text != old:
            with open(p, "w", encoding="utf-8") as f:
                f.write(text)


if __name__ == "__main__":
    main()
