#!/usr/bin/env python3
"""Brings the names of definitions and lemmas of this repository to the kit's spelling: words in snake case, modules in camel case.

usage: python3 tools/snake_names.py [--names]       at the top, once, behind the kit's port.py; --names prints the pairs and writes nothing

A name that specs/ or a file of lemmas in proofs/ declares in camel case or with a dash gets underscores. A dash stays where it joins
a word of lists with names that are declared, as in length-put. Where two names would fall together, the one that is not a definition
ends in _lem (a lemma) or _there (a field); a definition that a parameter would hide, where a clause cites both, ends in _of. Names of src/, of the kit's libraries and those that the check makes keep their spelling. The folder
specs/laws is the module Laws. Pages, edits and the wrong definitions of tests/ are turned by the same pairs.
"""

import collections
import os
import re
import subprocess
import sys

WORD = r"[A-Za-z_][\w'?!₀-₉]*(?:-[\w'?!₀-₉]+)*"
TOKEN = re.compile(r"(?<![\w'-])" + WORD)
DECLARED = re.compile(r"^(\s*)((?:pub |abbrev |unfoldable )*)([^\s:(){}=,]+(?: [^\s:(){}=,]+)*) :(?: |$)")
HEAD = re.compile(r"^\s*(?:pub |abbrev |unfoldable )*(?:record|data) (\S+)")
OWN_PATH = "Rattle."


# A lemma of one file that port.py gave the name of a definition.
APART = {"crates/translate_rows/specs/laws/Laying.antt": {"rows_of": "rows_of_lem"}}


def files(root, ends):
    for folder, dirs, names in os.walk(os.path.join(root, "crates")):
        dirs[:] = sorted(d for d in dirs if d != "out")
        for n in sorted(names):
            if n.endswith(ends):
                yield os.path.join(folder, n)


def read(p):
    with open(p, encoding="utf-8") as f:
        return f.read()


def of_a_function(p):
    return "/proofs/" in p and os.path.basename(p) in ("Proof.antt", "Answers.antt", "Invariants.antt")


def crate_names(root):
    return {c for c in os.listdir(os.path.join(root, "crates"))}


def declared(root):
    """Each name that specs/ or a file of lemmas declares, with how: 'definition', 'lemma' or 'field'."""
    kinds = collections.defaultdict(set)
    for p in files(root, ".antt"):
        if of_a_function(p):
            continue
        text = read(p)
        for m in re.finditer(r"(?m)^\s*(?:pub )?use Rattle\.(?!std\.)[\w.'+-]+\.\{([^}]*)\}", text):
            for w in re.findall(r" as ([\w'-]+)", m.group(1)):
                kinds[w].add("definition")
        in_record, depth = False, 0
        for line in text.splitlines():
            if line.lstrip().startswith("--") or not line.strip():
                continue
            indent = len(line) - len(line.lstrip())
            if in_record and indent <= depth:
                in_record = False
            head = HEAD.match(line)
            if head:
                in_record, depth = True, indent
                continue
            m = DECLARED.match(line)
            if not m:
                continue
            for w in m.group(3).split():
                if w in ("use", "let", "in", "where", "module", "∷", "→", "λ") or not re.fullmatch(WORD, w):
                    continue
                how = "field" if in_record else "definition" if re.search("abbrev|unfoldable", m.group(2)) else "lemma"
                kinds[w].add(how)
    return kinds


def snake(name, joined):
    def one(part):
        return re.sub(r"(?<=[a-z0-9'])([A-Z])", lambda m: "_" + m.group(1).lower(), part)

    parts = name.split("-")
    if len(parts) > 1 and all(p in joined for p in parts) and any(p in ("length", "append", "map", "tabulate") for p in parts):
        return "-".join(one(p) for p in parts)
    return "_".join(one(p) for p in parts)


def beside_parameters(root):
    """For each word that a clause cites, the parameters of the functions that cite it."""
    out = collections.defaultdict(set)
    for p in files(root, ".rt"):
        for m in re.finditer(r"\bfn \w+(?:<[^>]*>)?\(([^)]*)\)([^{]*(?:\{[^{}]*\}[^{]*?)*?)\n\{", read(p)):
            names = set(re.findall(r"(\w+)\s*:", m.group(1)))
            for w in TOKEN.findall(m.group(2)):
                out[w] |= names
    return out


def pairs(root):
    kinds = declared(root)
    std = {"length", "append", "take", "drop", "set", "sets", "get", "map", "replicate", "get_or"}
    plain = {w for w in kinds if "-" not in w and "definition" in kinds[w]} | std
    olds = sorted(w for w in kinds if w[0].islower() and ("-" in w or re.search("[a-z0-9][A-Z]", w)))
    taken = {w for w in kinds if w not in olds}
    hidden = beside_parameters(root)
    out, back = {}, {}
    for w in olds:
        new = snake(w, plain)
        if "definition" in kinds[w] and kinds.get(new) == {"lemma"}:
            out[new] = new + "_lem"
            taken = (taken - {new}) | {new + "_lem"}
    for how in ("definition", "field", "lemma"):
        for w in olds:
            if w in out or how not in kinds[w]:
                continue
            new = snake(w, plain)
            while new in taken or new in back or new in hidden.get(w, ()):
                new += {"definition": "_of", "field": "_there", "lemma": "_lem"}[how]
            out[w], back[new] = new, w
    return out, kinds


def imported_elsewhere(text):
    """The names that a file imports from the kit's libraries."""
    names = set()
    for m in re.finditer(r"(?m)^\s*(?:pub )?(?:ghost )?use ([\w.·'+-]+)\.\{([^}]*)\}", text):
        if not re.match(r"Rattle\.", m.group(1)) or m.group(1).startswith("Rattle.std."):
            names |= set(re.split(r"[,\s]+", m.group(2)))
    return names


def aliases(text):
    return set(re.findall(r"(?m)^\s*(?:pub )?(?:ghost )?use Rattle\.[\w.'+-]+ as (\w+)", text))


def turned(text, out, fields, source=False):
    """The text of a file in antt, or of a source file, where a name that Rust could have is turned in a ghost use alone."""
    away = imported_elsewhere(text)
    mods = aliases(text)

    def put(line, comment):
        def one(m):
            w = m.group(0)
            if w not in out or w in away:
                return w
            if "-" in w or not re.search("[A-Z]", w):
                if comment or (source and "-" not in w and not line.startswith("ghost use")):
                    return w
                if m.start() and line[m.start() - 1] == ".":
                    before = re.search(r"([\w'-]+)\.$", line[: m.start()])
                    if w not in fields and not (before and before.group(1) in mods):
                        return w
            return out[w]

        return TOKEN.sub(one, line)

    done = []
    for line in text.split("\n"):
        code, mark, rest = line, "", ""
        m = re.search(r"(^|\s)(--|//)(?=\s|$)", line)
        if m:
            code, mark, rest = line[: m.start(2)], m.group(2), line[m.end(2) :]
        done.append(put(code, False) + mark + (put(rest, True) if rest else ""))
    return "\n".join(done)


def in_backticks(text, out):
    """A page: names in backticks alone."""

    def span(m):
        return "`" + TOKEN.sub(lambda w: out.get(w.group(0), w.group(0)), m.group(1)) + "`"

    return re.sub(r"`([^`\n]+)`", span, text)


def main(argv):
    root = "."
    out, kinds = pairs(root)
    fields = {w for w in kinds if "field" in kinds[w]}
    if argv[:1] == ["--names"]:
        for w in sorted(out):
            print(w, out[w], ",".join(sorted(kinds[w])))
        return 0
    paths = re.compile(r"\bspecs\.laws\b")
    for p in list(files(root, (".antt", ".rt"))):
        old = read(p)
        new = paths.sub("specs.Laws", turned(old, out | APART.get(os.path.relpath(p, root), {}), fields, p.endswith(".rt")))
        if p.endswith("specs/Lib.antt"):
            new = re.sub(r"(?m)^(\s*pub mod )laws\b", r"\1Laws", new)
        if new != old:
            with open(p, "w", encoding="utf-8") as f:
                f.write(new)
    for c in sorted(crate_names(root)):
        for f in ("laws", "laws.antt"):
            at = os.path.join("crates", c, "specs", f)
            if os.path.exists(at):
                subprocess.run(["git", "mv", at, os.path.join("crates", c, "specs", f.replace("laws", "Laws"))], check=True)
    return 0


if __name__ == "__main__":
    raise SystemExit(main(sys.argv[1:]))
