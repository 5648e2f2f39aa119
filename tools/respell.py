#!/usr/bin/env python3
"""Respells the repository's own names as today's Rattle spells them.

usage: python3 tools/respell.py          at the top of the repository, once, right after port.py

port.py respells what the kit renamed. This brings the rest over: every definition, lemma, record, field, constructor
and local of crates/*/specs and crates/*/proofs whose name has a dash. `first-tests` becomes `first_tests`, and a type
or a module, `Starts-only`, becomes `StartsOnly`. Names of the kit, names that the check makes (the steps and goals
of a function's own proof folder) and everything of src/ but its clauses stay.
Names that the rule would spell wrong are in APART, each with the name that it gets instead.
It also turns must-fail edits of clauses and definitions, and the names that README and docs/ say.
"""
import os
import re
import sys

# Names that port.py left half turned, and what they are called.
HALF = {"Laid_out": "LaidOut"}
APART = {"R-refl": "R_refl", "R-trans": "R_trans"}

DASHED = re.compile(r"(?<![\w'?₀-₉·#-])([A-Za-z_μ+][\w'?₀-₉]*(?:-[\w'?₀-₉*]+)+)")
SIGNED = re.compile(r"^\s*(?:(?:abbrev|unfoldable|pub|mutual)\s+)*(?:(?:record|data|module)\s+)?(\+?[A-Za-z_][\w'?₀-₉]*(?:-[\w'?₀-₉*]+)+)(?=\s|$)")
KIT = re.compile(r"^(?:mathlib|Prim|native|lib|borrow|denote|mir|base|prog|types|contract|sound|seplogic|Rattle\.(?:std|core|io|libc|os)\b)")


def spelled(name):
    if name in APART:
        return APART[name]
    parts = name.split("-")
    if name.startswith("X-"):
        return name.replace("-", "_")
    if parts[0][:1].isupper():
        return "".join(p[:1].upper() + p[1:] for p in parts)
    return "_".join(parts)


def walk(kinds):
    for folder, dirs, files in os.walk("crates"):
        dirs[:] = sorted(d for d in dirs if d not in ("out",))
        for f in sorted(files):
            if f.endswith(kinds):
                yield os.path.join(folder, f)


def read(p):
    with open(p, encoding="utf-8") as f:
        return f.read()


def in_function_folder(p):
    """Whether the check names things in this file: a proof of one function."""
    folder = os.path.basename(os.path.dirname(p))
    return "/proofs/" in p and folder != "proofs" and not folder[0].isupper()


def code_of(line):
    at = line.find("--")
    return line if at < 0 or (at and line[at - 1] not in " \t") else line[:at]


def signed(text):
    found = set()
    for line in text.split("\n"):
        if line.lstrip().startswith(("--", "use ")):
            continue
        m = SIGNED.match(line)
        if m:
            rest = line[m.end():]
            head = line[:m.start(1)]
            if re.match(r"\s*:", rest) or re.search(r"\b(record|data|module)\b", head):
                found.add(m.group(1))
    return found


def imports(text):
    """Names that each `use` line brings in, with the module that they come from."""
    out = []
    for m in re.finditer(r"(?m)^\s*(?:ghost |pub )*use ([^\s{;]+?)\.?(?:\{([^}]*)\})?(?: as (\S+))?;?\s*$", text):
        names = [n.strip() for n in (m.group(2) or "").split(",") if n.strip()]
        out.append((m.group(1), names))
    return out


def from_kit(text):
    kit = set()
    for module, names in imports(text):
        if KIT.match(module):
            for n in names:
                kit.add(n.split(" as ")[0].strip())
                if " as " in n:
                    kit.discard(n.split(" as ")[1].strip())
    return kit


def own_names():
    own = set()
    for p in walk(".antt"):
        if not in_function_folder(p):
            own |= signed(read(p))
    return own


def locals_of(text):
    """Names with a dash that a let, a lambda, a pattern or a binder of this file brings in."""
    found = set()
    for m in re.finditer(r"\blet ([A-Za-z_][\w'?₀-₉]*(?:-[\w'?₀-₉]+)+)(?=[\s:=])", text):
        found.add(m.group(1))
    for m in re.finditer(r"λ ([^.]*)\.", text):
        found |= set(DASHED.findall(m.group(1)))
    for m in re.finditer(r"[({]([^(){}:=;\n]*?) : ", text):
        found |= set(DASHED.findall(m.group(1)))
    return found


def turn_antt(p, own):
    text = read(p)
    kit = from_kit(text)
    if in_function_folder(p):
        made = set(re.findall(r"(?m)^(\S+) : tie\.", text)) | set(re.findall(r"\btie\.([\w'-]+)", text))
        mine = {n for n in signed(text) if n not in made} | locals_of(text)
        wanted = {n for _, names in imports(text) if not KIT.match(_) for n in names} & own
        rename = (mine | wanted) - kit - made

        def one(m):
            n = m.group(1)
            before = text[m.start() - 1:m.start()]
            if before == "." and text[m.start() - 5:m.start()].startswith(("tie.", " tie.", "goal")):
                return n
            if before == "." and re.search(r"Rattle(\.[\w+]+)*\.$", text[:m.start()]) is None:
                return spelled(n) if n in own_fields else n
            if n in own_fields and re.match(r" =\s", text[m.end():m.end() + 3]) and text[m.start() - 1:m.start()] == " ":
                return spelled(n)
            return spelled(n) if n in rename else n

        new = DASHED.sub(one, text)
    else:
        here = locals_of(text) | signed(text)

        def in_comment(m):
            n = m.group(1)
            return spelled(n) if n in own or n in here or n.startswith("X-") else n

        def in_code(m):
            n = m.group(1)
            if text_of_line[m.start() - 1:m.start()] == ".":
                word = re.search(r"([\w'₀-₉ᴰ]+)\.$", text_of_line[:m.start()])
                return spelled(n) if n in own and not (word and word.group(1) in kit) else n
            return n if n in kit and n not in here else spelled(n)

        lines = []
        for line in text.split("\n"):
            at = len(line) if "--" not in line else re.search(r"(^|\s)--", line + " --").start()
            if re.match(r"^\s*(pub )?use ", line) and KIT.match(re.sub(r"^\s*(pub )?use ", "", line)):
                lines.append(line)
                continue
            text_of_line = line[:at]
            lines.append(DASHED.sub(in_code, text_of_line) + DASHED.sub(in_comment, line[at:]))
        new = "\n".join(lines)
    return text, new


own_fields = set()


def fields():
    for p in walk(".antt"):
        if in_function_folder(p):
            continue
        inside = None
        for line in read(p).split("\n"):
            m = re.match(r"^(\s*)(?:abbrev |pub )*(?:record|data) ", line)
            if m:
                inside = len(m.group(1))
                continue
            if inside is not None and line.strip():
                depth = len(line) - len(line.lstrip())
                if depth <= inside and not line.lstrip().startswith("--"):
                    inside = None
                    continue
                m = SIGNED.match(line)
                if m:
                    own_fields.add(m.group(1))


def main():
    fields()
    own = own_names()
    if "--list" in sys.argv:
        names = {}
        for n in sorted(own):
            names.setdefault(spelled(n), []).append(n)
        for s, ns in names.items():
            if len(ns) > 1:
                print("fall together:", s, ns)
        plain = set()
        for p in walk(".antt"):
            if in_function_folder(p):
                continue
            for line in read(p).split("\n"):
                m = re.match(r"^\s*(?:(?:abbrev|unfoldable|pub|mutual)\s+)*(?:(?:record|data|module)\s+)?([A-Za-z_][\w'?₀-₉]*)(?=\s*[:({]|\s+where)", line)
                if m and not line.lstrip().startswith("use "):
                    plain.add(m.group(1))
        for s, ns in names.items():
            if s in plain:
                print("with a name that stands:", s, ns)
        rust = set()
        for p in walk(".rt"):
            rust |= set(re.findall(r"\bfn (\w+)", read(p)))
        params = set()
        for p in walk(".rt"):
            params |= set(re.findall(r"\b(\w+): ", read(p)))
        for s, ns in names.items():
            if s in rust:
                print("with a function:", s, ns)
            if s in params:
                print("with a parameter or field:", s, ns)
        return
    for p in walk(".antt"):
        old, new = turn_antt(p, own)
        if old != new:
            open(p, "w", encoding="utf-8").write(new)
    for p in walk((".antt", ".rt", ".edit")):
        old = read(p)
        new = re.sub(r"\b(" + "|".join(HALF) + r")\b", lambda m: HALF[m.group(1)], old)
        if old != new:
            open(p, "w", encoding="utf-8").write(new)
    stands = set()
    for p in walk(".antt"):
        stands |= set(re.findall(r"(?m)^\s*(?:abbrev |unfoldable |pub )*(?:record |data )?([\w']+) :", read(p)))

    def in_page(m):
        n = m.group(1)
        s = HALF.get(n.replace("-", "_"), spelled(n))
        return s if n in own or s in stands or s in HALF.values() else n

    for p in walk((".rt", ".edit")):
        old = read(p)
        new = DASHED.sub(in_page, old)
        if p.endswith(".edit"):
            # A projection is written tight, and so it needs no brackets.
            new = re.sub(r"(?m)^((?:old|new): .*)$", lambda m: re.sub(r"(?<=[\w')]) \.(?=[a-z0-9])", ".", m.group(1)), new)
            new = re.sub(r"(?m)^((?:old|new): .*)$", lambda m: re.sub(r"(?<![\w'])\((\w+(?:\.[\w']+)+)\)", r"\1", m.group(1)), new)
        if old != new:
            open(p, "w", encoding="utf-8").write(new)
    for p in ["README.md"] + [os.path.join(f, x) for f, _, xs in os.walk("docs") for x in xs if x.endswith(".md")]:
        old = read(p)
        new = re.sub(r"`[^`\n]+`", lambda t: DASHED.sub(in_page, t.group(0)), old)
        if old != new:
            open(p, "w", encoding="utf-8").write(new)


main()
