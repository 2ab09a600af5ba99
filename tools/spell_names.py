#!/usr/bin/env python3
"""Spells the names that this repository's antt texts declare in snake case, as today's Rattle has them: part of the port of docs/PORT.md.

usage: tools/spell_names.py         at the top of a checkout on which port.py was run, once

A word in lower camel case, or with a dash, that a file of specs/ or proofs/ declares (a definition, a lemma, a field, a constructor, a
ruleset) gets underscores, in all texts of crates/ and in the edits that must be refused. Types and modules keep their capitals.
Left as they are: a name that a library of the kit has too; what Rattle makes (proofs of functions); names that would meet another one: these
are listed, and get an ending that tells them apart.
"""
import os
import re
import sys

ROOT = "crates"
KIT = "/opt/rattle"
NAME = r"[^\s(){}.;,@\"«»\[\]|λ\\]+"
TOKEN = re.compile(r"(?<![^\s(){};,.@«»\[\]|λ])" + NAME)
ALONE = re.compile(r"(?<![^\s(){};,@«»\[\]|λ])" + NAME)
DECLARED = re.compile(r"(?m)^ *(?:(?:abbrev|pub|unfoldable|open) )*([^\s(){}.;,@\"«»:]+)(?: \{[^{}\n]*\})* :(?= |$)")
RULESET = re.compile(r"(?m)^ *(?:pub )?ruleset ([^\s=]+)")
PARAMETERS = re.compile(r"(?m)^ *(?:pub )?(?:record|data) [^:\n]*")
LET = re.compile(r"\blet ([^\s(){}.;,:=]+)(?: :| =)")


def files(root, endings):
    for folder, dirs, names in os.walk(root):
        dirs[:] = sorted(d for d in dirs if d not in ("out", ".git", "target"))
        for n in sorted(names):
            if n.endswith(endings):
                yield os.path.join(folder, n)


def text(path):
    with open(path, encoding="utf-8", errors="replace") as f:
        return f.read()


def snake(name):
    words = re.sub(r"(?<=[a-z0-9])[A-Z]", lambda m: "_" + m[0].lower(), name)
    return words.replace("-", "_")


def wants(name):
    return bool(re.match(r"[a-z]", name)) and snake(name) != name and not name.endswith("-spec")


def uncommented(t):
    return re.sub(r"(?m)--.*$", "", t)


def library_names():
    found = set()
    for root in (os.path.join(KIT, "rattle"), os.path.join(KIT, "logic_built")):
        for p in files(root, (".antt",)):
            t = text(p)
            found.update(DECLARED.findall(t))
            found.update(RULESET.findall(t))
    return found


def main():
    own = [p for p in files(ROOT, (".antt",))]
    declared, plan, clash = {}, {}, {}
    for p in own:
        t = uncommented(text(p))
        # what a function's own proof file declares is mostly named by Rattle
        if p.endswith(("/Proof.antt", "/Answers.antt", "/Invariants.antt")):
            continue
        parameters = [n for line in PARAMETERS.findall(t) for n in TOKEN.findall(line)]
        for n in DECLARED.findall(t) + RULESET.findall(t) + LET.findall(t) + parameters:
            if wants(n):
                declared.setdefault(n, set()).add(p)
    library = library_names()
    # the words of a text that stand behind no dot
    words = {p: set(ALONE.findall(uncommented(text(p)))) for p in own}
    items = set()
    for p in files(ROOT, (".rt",)):
        t = re.sub(r"(?m)//.*$", "", text(p))
        # a clause cannot name a function of Rust
        t = re.sub(r"\b\w+(?=(<[^()\n]*>)?\()|\b\w+::|::\w+", "", t)
        words[p] = set(ALONE.findall(t)) | set(re.findall(r"\b(\w+): ", t))
        items.update(re.findall(r"\b(?:const|static|struct|enum|type) (\w+)", t))
        items.update(re.findall(r"(?m)^    (?:pub )?(\w+): ", t))
    users = {}
    for p, ws in words.items():
        for w in ws:
            users.setdefault(w, set()).add(p)
    kept, taken = [], {}
    # definitions, in camel case, are named before lemmas, which get '_lem' where they would meet one
    for n in sorted(declared, key=lambda n: ("-" in n, n)):
        if n in library:
            kept.append(n)
            continue
        new = snake(n)
        at = users.get(n, set()) | declared[n]

        def meets(new):
            return new in items or any(new in words[p] for p in at) or any(at & (users.get(m, set()) | declared[m]) for m in taken.get(new, ()))

        if meets(new):
            first = new
            new += "_lem"
            while meets(new):
                new += "_"
            clash[n] = new
        taken.setdefault(new, []).append(n)
        plan[n] = new
    print(f"{len(plan)} names respelled, {len(clash)} of them with an ending, {len(kept)} left that a library has")
    for n, new in sorted(clash.items()):
        print(f"meets another: {n} -> {new}")
    print("left, a library has them:", " ".join(kept))
    if "--plan" in sys.argv:
        return

    def turn(t):
        return TOKEN.sub(lambda m: plan.get(m[0], m[0]), t)

    def turn_clauses(t):
        out, depth, inside = [], 0, False
        for line in t.split("\n"):
            s = line.strip()
            if s.startswith("ghost use ") or (inside and depth > 0) or re.match(r"(requires|ensures|ghost)\b", s):
                if not s.startswith("//"):
                    line = turn(line)
                    if not s.startswith("ghost use "):
                        inside = True
                        depth += s.count("{") - s.count("}")
                        if depth <= 0:
                            inside, depth = False, 0
            out.append(line)
        return "\n".join(out)

    for p in list(files(ROOT, (".antt", ".rt"))) + list(files(ROOT, (".edit",))) + list(files("tests", (".edit",))):
        t = text(p)
        new = turn_clauses(t) if p.endswith(".rt") else turn(t)
        if new != t:
            with open(p, "w", encoding="utf-8") as f:
                f.write(new)


main()
